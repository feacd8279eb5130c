"""Laws, rates and grids of an instance, after docs/FORMAT.md.

A law is a list of weights: the weight at place d is that of the demand d, and the last one isn't 0.
"""
from itertools import accumulate
from math import comb


def law_of(value):
    """The law of a JSON value of one of the three forms."""
    (form, numbers), = value.items()
    if form == "points":
        weights = [0] * (1 + max(demand for demand, _ in numbers))
        for demand, weight in numbers:
            weights[demand] += weight
    elif form == "uniform":
        low, high = numbers
        weights = [0] * low + [1] * (high - low + 1)
    else:
        trials, a, b = numbers
        chances = [a ** k * (b - a) ** (trials - k) for k in range(trials + 1)]
        weights = [chance and chance * comb(trials, k) for k, chance in enumerate(chances)]
    while weights[-1] == 0:
        weights.pop()
    return weights


def brought_to(law, total):
    """The law with its weights multiplied so that they add up to the total."""
    times, rest = divmod(total, sum(law))
    assert rest == 0, "the weights don't divide the total"
    return [times * weight for weight in law]


def laws_of(instance, count):
    """The laws of the periods from the first on, each brought to the instance's total."""
    value = instance["demand"]
    if isinstance(value, list):
        laws = [law_of(one) for one in value]
        total = instance.get("total", sum(laws[0]))
        return [brought_to(law, total) for law in laws]
    law = law_of(value)
    return [brought_to(law, instance.get("total", sum(law)))] * count


def law_of_sum(laws):
    """The law of the sum of independent demands, one of each law.

    The weights of a law are the digits of one whole number, so that a product of numbers adds up all pairs of demands.
    """
    total = 1
    for law in laws:
        total *= sum(law)
    width = total.bit_length() // 8 + 1
    product = 1
    for law in laws:
        product *= int.from_bytes(b"".join(weight.to_bytes(width, "little") for weight in law), "little")
    digits = product.to_bytes(width * (1 + sum(len(law) - 1 for law in laws)), "little")
    return [int.from_bytes(digits[place:place + width], "little") for place in range(0, len(digits), width)]


def rates_of(value, places):
    """One number for each place, of one number or a list of them."""
    return value if isinstance(value, list) else [value] * places


def greatest_of(laws):
    """The greatest demand that comes up in any of the laws."""
    return max(len(law) - 1 for law in laws)


class StockCost:
    """The cost of positions less a demand of a law, times the sum of the law's weights."""

    def __init__(self, law, holding, stockout):
        self.holding, self.stockout = holding, stockout
        # For each position from 0 on: the weights of the demands up to it, and what they add up to.
        self.counts = list(accumulate(law))
        self.sums = list(accumulate(demand * weight for demand, weight in enumerate(law)))

    def at(self, position):
        count = moment = 0
        if position >= 0:
            count = self.counts[min(position, len(self.counts) - 1)]
            moment = self.sums[min(position, len(self.sums) - 1)]
        left = position * count - moment
        lacking = (self.sums[-1] - moment) - position * (self.counts[-1] - count)
        return self.holding * left + self.stockout * lacking
