"""What docs/FORMAT.md wants of each line of a certificate for an instance: rule 2 and the rules of the kinds.

For each kind a class. Its head is what must follow the format's number in the first line; broken(word, numbers)
takes the next line of a certificate whose lines so far break no rule, and is the least rule from 2 on that the line
breaks, or None. Values are whole numbers over the scales of that document, whatever their size.
"""
from collections import deque
from itertools import accumulate
from math import gcd

from laws import StockCost, greatest_of, law_of, law_of_sum, laws_of, rates_of


def head_of(instance):
    """The words of the first line."""
    discount = instance.get("discount", [1, 1])
    if discount == [1, 1]:
        return ["1", instance["kind"]]
    return ["2", instance["kind"], str(discount[0]), str(discount[1])]


class Newsvendor:
    def __init__(self, instance):
        self.law = law_of(instance["demand"])
        self.holding, self.stockout = instance["holding"], instance["stockout"]
        self.level = None

    def broken(self, word, numbers):
        if word == "q":
            return self.level_broken(numbers[0])
        if word == "cost" and numbers[0] != StockCost(self.law, self.holding, self.stockout).at(self.level):
            return 5
        return None

    def level_broken(self, level):
        def reaches(count):
            return (self.holding + self.stockout) * sum(self.law[:count]) >= self.stockout * sum(self.law)

        self.level = level
        if not reaches(min(level + 1, len(self.law))):
            return 3
        if level > 0 and reaches(min(level, len(self.law))):
            return 4
        return None


class Lots:
    def __init__(self, instance):
        self.demand = instance["demand"]
        periods = len(self.demand)
        self.setup = rates_of(instance["setup"], periods)
        self.unit = rates_of(instance.get("unit", 0), periods)
        self.holding = rates_of(instance["holding"], periods)
        self.orders, self.duals = [], []
        # The holding costs of a unit from the first period to each, and what the duals pay of each setup cost so far.
        self.held = [0] + list(accumulate(self.holding))
        self.paid = []

    def broken(self, word, numbers):
        done = len(self.orders)
        if word == "o":
            return 2 if done == len(self.demand) else self.order_broken(*numbers)
        if word == "cost":
            if done < len(self.demand):
                return 2
            if numbers[0] != self.plan_cost():
                return 5
            if numbers[0] != sum(self.duals):
                return 6
        return None

    def order_broken(self, order, dual):
        self.orders.append(order)
        self.duals.append(dual)
        done = len(self.orders)
        if not sum(self.demand[:done]) <= sum(self.orders) <= sum(self.demand):
            return 3
        return self.dual_broken(done - 1, dual)

    def dual_broken(self, period, dual):
        self.paid.append(0)
        demand, held = self.demand[period], self.held[period]
        for earlier in range(period + 1):
            serving = demand * (self.unit[earlier] + held - self.held[earlier])
            if dual > serving:
                self.paid[earlier] += dual - serving
                if self.paid[earlier] > self.setup[earlier]:
                    return 4
        return 4 if demand == 0 and dual != 0 else None

    def plan_cost(self):
        cost = stock = 0
        for period, order in enumerate(self.orders):
            stock += order - self.demand[period]
            cost += self.setup[period] * (order > 0) + self.unit[period] * order + self.holding[period] * stock
        return cost


class Least:
    """The least of the numbers at the positions so far up to a top; positions and tops only fall."""

    def __init__(self):
        self.kept = deque()

    def add(self, position, number):
        while self.kept and self.kept[-1][1] >= number:
            self.kept.pop()
        self.kept.append((position, number))

    def up_to(self, top):
        while self.kept[0][0] > top:
            self.kept.popleft()
        return self.kept[0][1]


class Finite:
    def __init__(self, instance):
        self.periods, self.lead = instance["periods"], instance.get("lead", 0)
        self.cap, self.most = instance["cap"], instance.get("most")
        self.setup, self.unit = instance.get("setup", 0), instance.get("unit", 0)
        self.holding, self.stockout = instance["holding"], instance["stockout"]
        self.a, self.b = instance.get("discount", [1, 1])
        self.laws = laws_of(instance, self.periods + self.lead)
        self.weights = sum(self.laws[0])
        self.greatest = greatest_of(self.laws)
        self.start_lowest = min(0, instance["start"])
        self.period, self.position = self.periods + 1, None
        end_holding, end_stockout = instance.get("end_holding", 0), instance.get("end_stockout", 0)
        scale = self.weights ** self.lead
        self.values = {x: scale * (end_holding * max(x, 0) + end_stockout * max(-x, 0))
                       for x in range(self.lowest(self.periods + 1), self.cap + 1)}

    def lowest(self, period):
        return self.start_lowest - (period - 1) * self.greatest

    def block_is_done(self):
        return self.position is None or self.position < self.lowest(self.period)

    def broken(self, word, numbers):
        if word == "v":
            return 2 if numbers[0] != self.position or self.block_is_done() else self.value_broken(*numbers)
        if not self.block_is_done():
            return 2
        if word == "end":
            return None if self.period == 1 else 2
        if self.period == 1 or numbers[0] != self.period - 1:
            return 2
        self.begin_block()
        return None

    def begin_block(self):
        """The costs of the positions of the next block; its own values stand in place of those of the block before."""
        self.period -= 1
        self.position = self.cap
        left = self.periods - self.period
        self.scale = (self.b * self.weights) ** (left + 1) * self.weights ** self.lead
        stock_scale = self.b ** (left + 1) * self.weights ** left
        lead_law = law_of_sum(self.laws[self.period - 1:self.period + self.lead])
        law = [(demand, weight) for demand, weight in enumerate(self.laws[self.period - 1]) if weight]
        stock_cost = StockCost(lead_law, self.holding, self.stockout)
        self.costs = {y: stock_scale * stock_cost.at(y)
                      + self.a * sum(weight * self.values[y - demand] for demand, weight in law)
                      for y in range(self.lowest(self.period), self.cap + 1)}
        self.values = {}
        self.above = Least()

    def value_broken(self, position, choice, value):
        top = self.cap if self.most is None else min(self.cap, position + self.most)
        if not position <= choice <= top:
            return 3
        # Of all choices above the position, what one costs but for the setup cost and the units up to the position.
        least = self.costs[position]
        if top > position:
            least = min(least, self.above.up_to(top) + self.scale * (self.setup - self.unit * position))
        if value > least:
            return 4
        ordering = self.setup * (choice > position) + self.unit * (choice - position)
        if value != self.costs[choice] + self.scale * ordering:
            return 5
        self.values[position] = value
        self.position -= 1
        self.above.add(position, self.costs[position] + self.scale * self.unit * position)
        return None


class Average:
    def __init__(self, instance):
        self.instance = instance
        self.lead, self.setup = instance.get("lead", 0), instance.get("setup", 0)
        self.holding, self.stockout = instance["holding"], instance["stockout"]
        self.floor, self.cap = instance["floor"], instance["cap"]
        self.law = law_of(instance["demand"])
        self.weights = sum(self.law)
        self.moving = self.weights - self.law[0]
        lead_law = law_of_sum([self.law] * (self.lead + 1))
        self.greatest = len(lead_law) - 1
        self.stock_cost = StockCost(lead_law, self.holding, self.stockout)
        self.terms = [(demand, weight) for demand, weight in enumerate(self.law) if weight and demand]
        self.lower, self.upper = [], []

    def greatest_cost(self):
        """The C of the width number."""
        shortage = max(self.greatest - self.floor, 0)
        return 1 + self.holding * max(self.cap, 0) + self.stockout * shortage

    def greatest_denominator(self):
        positions = self.cap - self.floor + 1
        return positions * self.weights ** (self.lead + 1) * self.moving ** (positions - 1)

    def broken(self, word, numbers):
        if word == "g":
            return self.gain_broken(*numbers)
        if word == "s":
            self.low, self.high = numbers
            return None if self.floor - 1 <= self.low < self.high <= self.cap else 4
        place = len(self.lower)
        if word == "end":
            return None if self.floor + place == self.cap + 1 else 2
        if self.floor + place > self.cap or numbers[0] != self.floor + place:
            return 2
        return self.entries_broken(place, *numbers)

    def gain_broken(self, number, denominator):
        self.number, self.denominator = number, denominator
        if not 1 <= denominator <= self.greatest_denominator() or gcd(number, denominator) > 1:
            return 3
        return None if number <= denominator * (self.setup + self.greatest_cost()) else 3

    def ordering(self, place):
        """The setup cost over the scale of the entries at the place."""
        return self.setup * self.denominator * self.weights ** self.lead * self.moving ** (place + 1)

    def keeping(self, place, entries):
        """What keeping the place is worth until a demand above 0 comes."""
        cost = self.stock_cost.at(self.floor + place)
        ahead = (cost * self.denominator - self.number * self.weights ** (self.lead + 1)) * self.moving ** place
        for demand, weight in self.terms:
            if demand <= place:
                ahead += weight * entries[place - demand] * self.moving ** (demand - 1)
            else:
                ahead += weight * self.ordering(place - 1)
        return ahead

    def entries_broken(self, place, position, lower, upper):
        limit = self.ordering(place)
        if lower > self.keeping(place, self.lower) or lower > limit:
            return 5
        if upper != (limit if position <= self.low else self.keeping(place, self.upper)):
            return 6
        if position == self.high and upper != 0:
            return 7
        self.lower.append(lower)
        self.upper.append(upper)
        return None


class Serial:
    def __init__(self, instance):
        self.periods, self.cap, self.stockout = instance["periods"], instance["cap"], instance["stockout"]
        self.holding = instance["holding"]
        self.echelons = len(self.holding)
        self.unit = rates_of(instance.get("unit", 0), self.echelons)
        self.a, self.b = instance.get("discount", [1, 1])
        self.laws = laws_of(instance, self.periods)
        self.weights = sum(self.laws[0])
        self.greatest = greatest_of(self.laws)
        self.start_lowest = min(0, rates_of(instance["start"], self.echelons)[0])
        self.period, self.echelon, self.position = self.periods + 1, self.echelons, self.cap + 1
        # The values of the block before, by echelon; all are 0 after the last period.
        self.later = None
        self.now = []

    def lowest(self):
        return self.start_lowest - (self.period - 1) * self.greatest

    def broken(self, word, numbers):
        if word == "f":
            if self.position > self.cap or numbers[0] != self.position:
                return 2
            return self.value_broken(*numbers)
        if self.position <= self.cap:
            return 2
        if word == "e":
            if self.echelon == self.echelons or numbers[0] != self.echelon + 1:
                return 2
            return self.level_broken(numbers[1])
        if self.echelon < self.echelons:
            return 2
        if word == "end":
            return None if self.period == 1 else 2
        if self.period == 1 or numbers[0] != self.period - 1:
            return 2
        self.begin_block()
        return None

    def begin_block(self):
        self.later = self.now
        self.now = []
        self.period -= 1
        self.echelon = 0
        self.penalty = {x: 0 for x in range(self.lowest(), self.cap + 1)}
        left = self.periods - self.period
        self.scale = (self.b * self.weights) ** (left + 1)
        self.own_scale = self.b ** (left + 1) * self.weights ** left
        self.law = [(demand, weight) for demand, weight in enumerate(self.laws[self.period - 1]) if weight]

    def order_cost(self, echelon, y):
        cost = self.scale * self.unit[echelon - 1] * y
        if self.later:
            values = self.later[echelon - 1]
            cost += self.a * sum(weight * values[y - demand] for demand, weight in self.law)
        return cost

    def level_broken(self, level):
        if self.echelon > 0:
            self.penalty = {x: self.order[min(x, self.level)] - self.order[self.level] for x in self.penalty}
        self.echelon += 1
        self.level = level
        self.position = self.lowest()
        if not self.lowest() <= level <= self.cap:
            return 3
        self.order = {y: self.order_cost(self.echelon, y) for y in range(self.lowest(), self.cap + 1)}
        for y in range(self.lowest(), self.cap):
            step = self.order[y + 1] - self.order[y]
            if (step > 0) if y < level else (step < 0):
                return 4
        self.now.append({})
        return None

    def own_cost(self, x):
        holding = self.holding[self.echelon - 1]
        lacking = self.stockout + sum(self.holding) if self.echelon == 1 else 0
        return self.own_scale * sum(weight * (holding * (x - demand) + lacking * max(demand - x, 0))
                                    for demand, weight in self.law)

    def value(self, position):
        return (self.own_cost(position) - self.scale * self.unit[self.echelon - 1] * position
                + self.order[max(position, self.level)] + self.penalty[position])

    def value_broken(self, position, value):
        if value != self.value(position):
            return 5
        self.now[-1][position] = value
        self.position += 1
        return None


RULES = {"newsvendor": Newsvendor, "lots": Lots, "finite": Finite, "average": Average, "serial": Serial}
