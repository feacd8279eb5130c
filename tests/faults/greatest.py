"""Instances at the limits that docs/FORMAT.md states."""
from laws import greatest_of, law_of_sum, laws_of, rates_of

WIDEST = 2 ** 120
MOST_WEIGHT = 10 ** 9
RATE = 10 ** 6
MOST_DEMAND = 10 ** 4
BYTES = 2 ** 20
ONE_OR_NONE = {"points": [[0, 1], [1, 1]]}


def all_demands(total):
    """Every demand that there may be, with weights that add up to the total."""
    share = total // (MOST_DEMAND + 1)
    points = [[demand, share] for demand in range(MOST_DEMAND)]
    return {"points": points + [[MOST_DEMAND, total - share * MOST_DEMAND]]}


def lowest_of(instance):
    """The lowest position of the grid."""
    if instance["kind"] == "average":
        return instance["floor"]
    start = instance["start"][0] if isinstance(instance["start"], list) else instance["start"]
    periods = instance["periods"]
    return min(0, start) - periods * greatest_of(laws_of(instance, periods + instance.get("lead", 0)))


def finite_width(instance, positions, lowest):
    periods, lead = instance["periods"], instance.get("lead", 0)
    laws = laws_of(instance, periods + lead)
    shortage = max((lead + 1) * greatest_of(laws) - lowest, 0)
    ends = instance.get("end_holding", 0) + instance.get("end_stockout", 0)
    cost = (1 + instance.get("setup", 0) + instance.get("unit", 0) * positions + instance["holding"] * instance["cap"]
            + instance["stockout"] * shortage + ends * positions)
    return periods * cost * sum(laws[0]) ** (periods + lead) * instance.get("discount", [1, 1])[1] ** periods


def average_width(instance, positions, lowest):
    lead, law = instance.get("lead", 0), laws_of(instance, 1)[0]
    shortage = max((lead + 1) * greatest_of([law]) - lowest, 0)
    cost = 1 + instance["holding"] * max(instance["cap"], 0) + instance["stockout"] * shortage
    return (2 * positions ** 2 * (instance.get("setup", 0) + cost) * sum(law) ** (2 * lead + 2)
            * (sum(law) - law[0]) ** (2 * positions - 2))


def serial_width(instance, positions, _):
    periods, holding = instance["periods"], instance["holding"]
    laws = laws_of(instance, periods)
    rates = instance["stockout"] + sum(holding) + sum(rates_of(instance.get("unit", 0), len(holding)))
    cost = 1 + rates * (positions + greatest_of(laws))
    return ((2 * periods) ** len(holding) * cost * sum(laws[0]) ** periods
            * instance.get("discount", [1, 1])[1] ** periods)


def width_of(instance):
    """The width number, or 0 for a kind that has none."""
    widths = {"finite": finite_width, "average": average_width, "serial": serial_width}
    if instance["kind"] not in widths:
        return 0
    lowest = lowest_of(instance)
    return widths[instance["kind"]](instance, instance["cap"] - lowest + 1, lowest)


def widest(instance):
    """The instance with the greatest setup cost that its width number allows."""
    least = width_of({**instance, "setup": 0})
    step = width_of({**instance, "setup": 1}) - least
    return {**instance, "setup": (WIDEST - least) // step}


def newsvendor(**keys):
    return {"kind": "newsvendor", "holding": RATE, "stockout": RATE, **keys}


def newsvendors():
    yield "all demands, largest weights and rates", newsvendor(demand=all_demands(MOST_WEIGHT))
    yield "all demands alike", newsvendor(holding=1, demand={"uniform": [0, MOST_DEMAND]})
    yield "only the greatest demand", newsvendor(demand={"points": [[MOST_DEMAND, MOST_WEIGHT]]})
    yield "binomial of the largest sum", newsvendor(holding=3, demand={"binomial": [9, 3, 10]})
    yield "binomial of the most trials of two chances", newsvendor(demand={"binomial": [29, 1, 2]})
    yield "binomial of the most trials", newsvendor(demand={"binomial": [MOST_DEMAND, 1, 1]})


def lots(**keys):
    return {"kind": "lots", "demand": [RATE] * 2000, "setup": 10 ** 12, "holding": RATE, "unit": RATE, **keys}


def all_lots():
    yield "all numbers the largest", lots()
    yield "the longest search", lots(demand=[1] * 2000, holding=1, unit=0)
    yield "lists", lots(demand=[period * 7919 % 1000001 for period in range(2000)],
                        setup=[10 ** (period * 5 % 13) for period in range(2000)],
                        holding=[period * 131 % 1001 for period in range(2000)], unit=[RATE] * 2000)


def long_lots():
    yield "no demand", lots(demand=[0] * 2000)
    yield "no setup cost", lots(setup=0)


def finite(**keys):
    return {"kind": "finite", "periods": 104, "setup": 10 ** 9, "unit": RATE, "holding": RATE, "stockout": RATE,
            "demand": ONE_OR_NONE, "cap": 0, "start": 0, **keys}


def by_hand(**keys):
    """Its width number is exactly 2^120."""
    points = [[0, 2 ** 24 - 1], [1, 1]]
    return {"kind": "finite", "periods": 4, "setup": 4194298, "holding": 1, "stockout": 1,
            "demand": {"points": points}, "cap": 0, "start": 0, **keys}


def finites():
    yield "exactly the widest", by_hand()
    yield "the longest horizon", finite(setup=294, unit=0, holding=1, stockout=3, cap=20)
    yield "the longest horizon and lead time, the most cells", finite(
        lead=8, demand={"points": [[92, 1]]}, cap=46, end_holding=RATE, end_stockout=RATE)
    yield "the longest horizon with a discount", finite(
        setup=100, unit=0, holding=1, stockout=1, demand={"points": [[1, 1]]}, discount=[1, 2], cap=300)
    yield "the largest discount", finite(
        periods=10, setup=1000, unit=1, holding=1, stockout=9, demand={"points": [[7, 1]]}, discount=[999, 1000],
        cap=100)
    yield "the most positions and cells", finite(periods=50, lead=8, cap=19949, end_holding=RATE, end_stockout=RATE)
    yield "the most positions with a capacity", finite(periods=50, lead=8, cap=19949, most=2500)
    yield "the largest weights", finite(
        periods=3, setup=10 ** 6, unit=10, holding=1000, stockout=9000, cap=19978,
        demand={"points": [[0, 5 * 10 ** 8], [1, 4 * 10 ** 8], [7, 10 ** 8]]})


def long_finites():
    yield "all demands, largest weights", finite(periods=1, cap=9999, demand=all_demands(MOST_WEIGHT))
    yield "all demands over the longest lead time", finite(
        periods=1, lead=8, setup=0, unit=0, holding=0, stockout=0, demand=all_demands(10320))


def average(**keys):
    return {"kind": "average", "setup": 10 ** 9, "holding": RATE, "stockout": RATE, "demand": ONE_OR_NONE,
            "floor": -1000, "cap": 999, **keys}


def averages():
    points = [[0, 4094], [1, 1], [2, 1]]
    yield "exactly the widest", widest(average(holding=2, stockout=9, demand={"points": points}, floor=-3, cap=28))
    yield "the most positions, the largest weights", average(demand={"points": [[0, 10 ** 9 - 1], [1, 1]]})
    yield "the most positions, the longest lead time", average(
        lead=8, demand={"points": [[0, 11], [1, 1]]}, policy="rQ")
    yield "the lowest positions", average(floor=-10 ** 6, cap=1999 - 10 ** 6, setup=10 ** 6, stockout=1)
    yield "the highest positions", average(floor=10 ** 6 - 1999, cap=10 ** 6, setup=10 ** 6, holding=1)
    yield "all demands on three positions", average(demand={"uniform": [0, MOST_DEMAND]}, floor=5000, cap=5002)
    yield "the greatest demand in one", average(demand={"points": [[MOST_DEMAND, 1]]}, setup=10 ** 6)


def serial(**keys):
    return {"kind": "serial", "periods": 104, "holding": [RATE] * 8, "unit": RATE, "stockout": RATE,
            "demand": ONE_OR_NONE, "cap": 0, "start": [0] * 8, **keys}


def serials():
    half = {"points": [[0, 2 ** 28], [1, 2 ** 28]]}
    yield "exactly the widest", serial(
        periods=2, holding=[9] * 8, unit=[3] * 8, stockout=140911 - 96, demand=half, discount=[500, 512], cap=1901,
        start=[0, 0, 1, 2, 3, 4, 5, 6])
    yield "the longest horizon of one echelon", serial(holding=[1], unit=0, stockout=1, cap=50, start=[0])
    yield "the longest horizon, the most echelons", serial(demand={"points": [[1, 1]]}, cap=1096)
    yield "the most echelons and positions", serial(
        periods=20, demand={"points": [[0, 1], [1, 2], [3, 1]]}, cap=1939)
    yield "the largest weights", serial(
        periods=2, cap=196, start=[-3] * 8, demand={"points": [[0, 5 * 10 ** 8], [1, 4 * 10 ** 8], [900, 10 ** 8]]})


def network(periods, **keys):
    """As many nodes, sources and pauses as there may be: shops that order from eight depots, and these from plants."""
    def node(name, sources, rule, **more):
        return {"name": name, "initial": 10 ** 5, "holding": RATE, "rule": rule, "sources": sources, **more}

    def from_places(names):
        return [{"from": name, "lead": 64, "order_lead": 64} for name in names]

    depots, plants = ["depot%d" % place for place in range(8)], ["plant%d" % place for place in range(8)]
    nodes = [node("shop%02d" % place, from_places(depots), {"min": 500, "max": 90000}, stockout=RATE,
                  demand={"uniform": [0, MOST_DEMAND]} if place % 8 else {"trace": [place * 37] * periods})
             for place in range(48)]
    nodes += [node(name, from_places(plants), {"reorder": 1000, "lot": 5000}) for name in depots]
    nodes += [node(name, from_places(["outside"] * 8), {"base": 10 ** 6}) for name in plants]
    pauses = [{"node": "shop%02d" % (place % 48), "what": ["orders", "shipments", "receipts"][place // 48 % 3],
               "from": 1 + place // 144, "to": 1 + place // 144} for place in range(1000)]
    return {"kind": "network", "periods": periods, "seed": 2 ** 32 - 1, "nodes": nodes, "pauses": pauses, **keys}


KINDS = {"newsvendor": newsvendors, "lots": all_lots, "finite": finites, "average": averages, "serial": serials}
LONG = {"lots": long_lots, "finite": long_finites}


def greatest_law(instance, period):
    """The weights of the demand of a period and the lead time, for instances of one law."""
    law = laws_of(instance, period)[0]
    return law_of_sum([law] * (instance.get("lead", 0) + 1))
