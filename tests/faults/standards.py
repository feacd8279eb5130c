"""The certificate that the solver writes, from what docs/FORMAT.md says of it, for instances of moderate size.

Values are taken from the tables of reference_rules.py, which is given each line as it is found.
"""
from costs import average_cost
from laws import StockCost
from reference_rules import RULES, head_of


def newsvendor(rules):
    level = 0
    while rules.level_broken(level) == 3:
        level += 1
    yield "q", [level]
    yield "cost", [StockCost(rules.law, rules.holding, rules.stockout).at(level)]


def costs_from(rules, first, last):
    """The cost of a setup in the period `first` and of serving the demands from it to `last`, both from 0."""
    cost, serving = rules.setup[first], rules.unit[first]
    for period in range(first, last + 1):
        cost += serving * rules.demand[period]
        serving += rules.holding[period]
    return cost


def lots(rules):
    """The plan of the recursion: of several periods that serve a period at the least cost the latest."""
    least, serves = [0], []
    for last, demand in enumerate(rules.demand):
        if demand == 0:
            least.append(least[-1])
            serves.append(None)
        else:
            costs = [(least[first] + costs_from(rules, first, last), -first) for first in range(last + 1)]
            least.append(min(costs)[0])
            serves.append(-min(costs)[1])
    orders, period = [0] * len(serves), len(serves) - 1
    while period >= 0:
        first = serves[period]
        if first is not None:
            orders[first] = sum(rules.demand[first:period + 1])
        period = period - 1 if first is None else first - 1
    for period, order in enumerate(orders):
        yield "o", [order, least[period + 1] - least[period]]
    yield "cost", [least[-1]]


def finite(rules):
    """Stays where that costs least, and else orders up to the lowest position of least value."""
    for period in range(rules.periods, 0, -1):
        yield "t", [period]
        for position in range(rules.cap, rules.lowest(period) - 1, -1):
            top = rules.cap if rules.most is None else min(rules.cap, position + rules.most)
            value, choice = min((rules.costs[choice] + rules.scale * (
                rules.setup * (choice > position) + rules.unit * (choice - position)), choice)
                for choice in range(position, top + 1))
            yield "v", [position, choice, value]


def average_pair(rules):
    """Low and high: the lowest position that needn't order, and the lowest of at most the average cost, less one."""
    entries, high, low = [], None, None
    for place in range(rules.cap - rules.floor + 1):
        keeping = rules.keeping(place, entries)
        entries.append(min(keeping, rules.ordering(place)))
        if keeping == 0 and high is None:
            high = rules.floor + place
        cost = rules.stock_cost.at(rules.floor + place) * rules.denominator
        if cost <= rules.number * rules.weights ** (rules.lead + 1) and low is None:
            low = rules.floor + place - 1
    return entries, low, high


def average(rules):
    gain = average_cost(rules.instance)
    yield "g", [gain.numerator, gain.denominator]
    entries, low, high = average_pair(rules)
    yield "s", [low, high]
    for place, entry in enumerate(entries):
        position = rules.floor + place
        upper = rules.ordering(place) if position <= low else rules.keeping(place, rules.upper)
        yield "p", [position, entry, upper]


def serial(rules):
    """The lowest level of least order cost."""
    for period in range(rules.periods, 0, -1):
        yield "t", [period]
        for echelon in range(1, rules.echelons + 1):
            costs = [(rules.order_cost(echelon, y), y) for y in range(rules.lowest(), rules.cap + 1)]
            yield "e", [echelon, min(costs)[1]]
            for position in range(rules.lowest(), rules.cap + 1):
                yield "f", [position, rules.value(position)]


LINES = {"newsvendor": newsvendor, "lots": lots, "finite": finite, "average": average, "serial": serial}


def standard_of(instance):
    """The bytes of the solver's certificate."""
    rules = RULES[instance["kind"]](instance)
    lines = ["certificate " + " ".join(head_of(instance))]
    for word, numbers in LINES[instance["kind"]](rules):
        assert rules.broken(word, numbers) is None, "the solver's line breaks no rule"
        lines.append(" ".join([word] + list(map(str, numbers))))
    return "\n".join(lines + ["end", ""]).encode()
