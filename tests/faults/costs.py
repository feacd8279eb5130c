"""The least cost of an instance, computed from what docs/FORMAT.md says that a policy costs, without certificates.

Every function takes the cost of each policy or decision as it is defined, in fractions, so it is for instances of
moderate size; those of newsvendors and lots do for the largest ones too.
"""
from fractions import Fraction
from functools import lru_cache
from itertools import product

from laws import law_of, law_of_sum, laws_of, rates_of


def newsvendor_cost(instance):
    """The least over all levels; each next unit costs holding where the demand is met, and saves stockout else."""
    law, holding, stockout = law_of(instance["demand"]), instance["holding"], instance["stockout"]
    total, met = sum(law), 0
    cost = least = stockout * sum(demand * weight for demand, weight in enumerate(law))
    for weight in law:
        met += weight
        cost += holding * met - stockout * (total - met)
        least = min(least, cost)
    return Fraction(least, total)


def lots_cost(instance):
    """The least over all plans that order only where nothing is left: the last order of a plan serves to its end."""
    demand = instance["demand"]
    periods = len(demand)
    setup, holding = rates_of(instance["setup"], periods), rates_of(instance["holding"], periods)
    unit = rates_of(instance.get("unit", 0), periods)
    least = [0] + [None] * periods
    for first in range(periods):
        # Ordering in this period for the periods up to each later one; a plan may also order nothing while none is
        # demanded.
        serving = unit[first]
        cost = least[first] + setup[first]
        if demand[first] == 0 and (least[first + 1] is None or least[first] < least[first + 1]):
            least[first + 1] = least[first]
        for last in range(first, periods):
            cost += serving * demand[last]
            if least[last + 1] is None or cost < least[last + 1]:
                least[last + 1] = cost
            serving += holding[last]
    return Fraction(least[periods])


def expected(law, number):
    """The expectation of number(demand)."""
    return sum(Fraction(weight, sum(law)) * number(demand) for demand, weight in enumerate(law) if weight)


def stock_cost(instance, position):
    return instance["holding"] * max(position, 0) + instance["stockout"] * max(-position, 0)


def finite_cost(instance):
    """The least over all policies, period by period from the start on."""
    periods, lead, cap = instance["periods"], instance.get("lead", 0), instance["cap"]
    laws = laws_of(instance, periods + lead)
    rate = Fraction(*instance.get("discount", [1, 1]))

    @lru_cache(None)
    def of_choice(period, position):
        law = law_of_sum(laws[period:period + lead + 1])
        now = expected(law, lambda demand: stock_cost(instance, position - demand))
        return now + rate * expected(laws[period], lambda demand: least(period + 1, position - demand))

    @lru_cache(None)
    def least(period, position):
        if period == periods:
            return Fraction(instance.get("end_holding", 0) * max(position, 0)
                            + instance.get("end_stockout", 0) * max(-position, 0))
        top = min(cap, position + instance.get("most", cap - position))
        return min(of_choice(period, choice) + instance.get("unit", 0) * (choice - position)
                   + instance.get("setup", 0) * (choice > position) for choice in range(position, top + 1))

    return least(0, instance["start"])


def average_cost(instance):
    """The least over all pairs, each over the time from one order to the next."""
    law = law_of(instance["demand"])
    lead_law = law_of_sum([law] * (instance.get("lead", 0) + 1))
    chance = [Fraction(weight, sum(law)) for weight in law]
    floor, cap = instance["floor"], instance["cap"]
    period_cost = {position: expected(lead_law, lambda demand, at=position: stock_cost(instance, at - demand))
                   for position in range(floor, cap + 1)}
    # visits[k]: how often the position k below the level that was ordered up to is met before all below are.
    visits = []
    for below in range(cap - floor + 1):
        earlier = sum(chance[step] * visits[below - step] for step in range(1, min(below, len(chance) - 1) + 1))
        visits.append((earlier + (below == 0)) / (1 - chance[0]))
    best = None
    for low in range(floor - 1, cap):
        for high in range(low + 1, cap + 1):
            cost = instance.get("setup", 0) + sum(visits[high - y] * period_cost[y] for y in range(low + 1, high + 1))
            average = cost / sum(visits[:high - low])
            best = average if best is None else min(best, average)
    return best


def serial_cost(instance):
    """The least over all joint policies, over the stocks of all echelons at once."""
    holding, cap = instance["holding"], instance["cap"]
    echelons, periods = len(holding), instance["periods"]
    unit = rates_of(instance.get("unit", 0), echelons)
    laws = laws_of(instance, periods)
    rate = Fraction(*instance.get("discount", [1, 1]))

    @lru_cache(None)
    def of_choice(period, stocks):
        return expected(laws[period], lambda demand: least(period + 1, tuple(stock - demand for stock in stocks)))

    @lru_cache(None)
    def least(period, stocks):
        if period == periods:
            return Fraction(0)
        lacking = instance["stockout"] + sum(holding)
        now = expected(laws[period], lambda demand: lacking * max(demand - stocks[0], 0) + sum(
            one * (stock - demand) for one, stock in zip(holding, stocks)))
        tops = stocks[1:] + (cap,)
        choices = product(*(range(stock, top + 1) for stock, top in zip(stocks, tops)))
        return now + min(rate * of_choice(period, choice)
                         + sum(one * (after - before) for one, before, after in zip(unit, stocks, choice))
                         for choice in choices)

    return least(0, tuple(rates_of(instance["start"], echelons)))


COSTS = {"newsvendor": newsvendor_cost, "lots": lots_cost, "finite": finite_cost, "average": average_cost,
         "serial": serial_cost}
