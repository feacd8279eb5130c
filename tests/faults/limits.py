"""For each limit that docs/FORMAT.md states an instance at it, and one that passes it by one with its refusal."""
import json

from greatest import (BYTES, MOST_DEMAND, MOST_WEIGHT, ONE_OR_NONE, RATE, averages, by_hand, finites, serials,
                      widest)

SMALL = {
    "newsvendor": {"kind": "newsvendor", "holding": 1, "stockout": 1, "demand": ONE_OR_NONE},
    "lots": {"kind": "lots", "demand": [1, 1], "setup": [1, 1], "holding": [1, RATE], "unit": [0, 0]},
    "finite": {"kind": "finite", "periods": 1, "holding": 1, "stockout": 1, "demand": {"points": [[0, 1]]}, "cap": 1,
               "start": 0},
    "average": {"kind": "average", "holding": 1, "stockout": 1, "demand": ONE_OR_NONE, "floor": 0, "cap": 1},
    "serial": {"kind": "serial", "periods": 1, "holding": [1, 1], "unit": [0, 0], "stockout": 1,
               "demand": {"points": [[0, 1]]}, "cap": 1, "start": [0, 0]},
    "network": {"kind": "network", "periods": 2, "seed": 1, "nodes": [
        {"name": "a", "initial": 0, "holding": 1, "stockout": 1, "rule": {"base": 1},
         "sources": [{"from": "b", "lead": 1, "order_lead": 0}], "demand": {"trace": [1, 1]}},
        {"name": "b", "initial": 0, "holding": 1, "rule": {"min": 0, "max": 1},
         "sources": [{"from": "outside", "lead": 1}]},
        {"name": "c", "initial": 0, "holding": 1, "rule": {"reorder": 0, "lot": 1},
         "sources": [{"from": "outside", "lead": 1}]},
        {"name": "d", "initial": 0, "holding": 1, "rule": {"echelon": 0},
         "sources": [{"from": "outside", "lead": 1}]},
        {"name": "e", "initial": 0, "holding": 1, "rule": {"house": 0, "cap": RATE},
         "sources": [{"from": "outside", "lead": 1}]}],
        "pauses": [{"node": "a", "what": "orders", "from": 1, "to": 2}]},
}

# For each kind the paths of numbers, the least and the greatest of each, and the key that a refusal tells.
RANGES = {
    "newsvendor": [(["holding"], 0, RATE), (["stockout"], 0, RATE)],
    "lots": [(["demand", 1], 0, RATE), (["setup", 0], 0, 10 ** 12), (["holding", 1], 0, RATE), (["unit", 0], 0, RATE),
             (["setup"], 0, 10 ** 12), (["holding"], 0, RATE), (["unit"], 0, RATE)],
    "finite": [(["periods"], 1, None), (["lead"], 0, 8), (["setup"], 0, 10 ** 9), (["unit"], 0, RATE),
               (["holding"], 0, RATE), (["stockout"], 0, RATE), (["end_holding"], 0, RATE),
               (["end_stockout"], 0, RATE), (["most"], 1, RATE), (["total"], 1, MOST_WEIGHT), (["cap"], 0, None),
               (["start"], None, 1), (["discount"], [1, 1000], [1000, 1000]), (["discount"], [1, 1], None)],
    "average": [(["lead"], 0, 8), (["setup"], 0, 10 ** 9), (["holding"], 0, RATE), (["stockout"], 0, RATE),
                (["cap"], 0, None)],
    "serial": [(["periods"], 1, None), (["holding", 1], 0, RATE), (["unit", 0], 0, RATE), (["stockout"], 0, RATE),
               (["total"], 1, MOST_WEIGHT), (["cap"], 0, None), (["start", 1], 0, 1)],
    "network": [(["seed"], 0, 2 ** 32 - 1)],
}
NODES = [
    (0, ["initial"], 0, RATE), (0, ["holding"], 0, RATE), (0, ["stockout"], 0, RATE),
    (0, ["rule", "base"], -RATE, RATE), (1, ["rule", "min"], -RATE, 0), (1, ["rule", "max"], 1, RATE),
    (2, ["rule", "reorder"], -RATE, RATE), (2, ["rule", "lot"], 1, RATE), (3, ["rule", "echelon"], -RATE, RATE),
    (4, ["rule", "house"], 0, None), (4, ["rule", "cap"], None, RATE), (0, ["sources", 0, "lead"], 0, 64),
    (0, ["sources", 0, "order_lead"], 0, 64), (0, ["demand", "trace", 1], 0, MOST_DEMAND)]


def changed(instance, path, value):
    copy = json.loads(json.dumps(instance))
    place = copy
    for key in path[:-1]:
        place = place[key]
    place[path[-1]] = value
    return copy


def one_further(value, step):
    return [value[0] + step, *value[1:]] if isinstance(value, list) else value + step


def ranges():
    """Of each number its least and its greatest value, and the values next to these."""
    for kind, rows in RANGES.items():
        for path, least, greatest in rows:
            yield from range_of(SMALL[kind], path, least, greatest, path[0])
    for node, path, least, greatest in NODES:
        yield from range_of(SMALL["network"], ["nodes", node] + path, least, greatest,
                            "nodes[%d].%s" % (node + 1, path[0]))
    for path, least, greatest in ((["pauses", 0, "from"], 1, 2), (["pauses", 0, "to"], 1, 2)):
        yield from range_of(SMALL["network"], path, least, greatest, "pauses[1]." + path[2])


def range_of(instance, path, least, greatest, key):
    name = "%s, %s" % (instance["kind"], ".".join(map(str, path)))
    for value, step in ((least, -1), (greatest, 1)):
        if value is not None:
            past = one_further(value, step)
            yield ("%s %s" % (name, past), changed(instance, path, value), changed(instance, path, past),
                   "instance: %s: out of range" % key)


def with_keys(kind, **keys):
    return {**SMALL[kind], **keys}


def past_ranges():
    """The limits of numbers at which the small instances are too large otherwise."""
    certain = {"points": [[0, 1]]}
    for kind in ("finite", "serial"):
        yield (kind + " of 105 periods", with_keys(kind, periods=104), with_keys(kind, periods=105),
               "instance: periods: out of range")
        yield (kind + " of a cap past a million", None, with_keys(kind, cap=RATE + 1), "instance: cap: out of range")
    yield ("a discount past a thousand", None, with_keys("finite", discount=[1, 1001]),
           "instance: discount: out of range")
    yield ("a start below minus a million", None, with_keys("finite", start=-RATE - 1),
           "instance: start: out of range")
    yield ("average of a cap past a million", with_keys("average", floor=RATE, cap=RATE),
           with_keys("average", floor=RATE, cap=RATE + 1), "instance: cap: out of range")
    yield ("average of a floor below minus a million", with_keys("average", floor=-RATE, cap=-RATE),
           with_keys("average", floor=-RATE - 1, cap=-RATE), "instance: floor: out of range")
    yield ("a house rule past 63", None, changed(SMALL["network"], ["nodes", 4, "rule", "house"], 64),
           "instance: nodes[5].rule: out of range")
    shop = {"name": "shop", "initial": 0, "holding": 1, "rule": {"base": 1},
            "sources": [{"from": "outside", "lead": 0}]}
    yield ("a floor above the cap", with_keys("average", floor=1), with_keys("average", floor=2),
           "instance: cap: out of range")
    yield ("a network of no period", {"kind": "network", "periods": 1, "nodes": [shop]},
           {"kind": "network", "periods": 0, "nodes": [shop]}, "instance: periods: out of range")
    yield ("a network of 10,001 periods", {"kind": "network", "periods": 10000, "nodes": [shop]},
           {"kind": "network", "periods": 10001, "nodes": [shop]}, "instance: periods: out of range")
    yield ("a weight past 32 bits", None, with_keys("newsvendor", demand={"points": [[0, 2 ** 32]]}),
           "instance: demand: out of range")
    for number in (2 ** 64 - 1, -2 ** 63):
        yield ("a rate of %d" % number, None, with_keys("newsvendor", holding=number),
               "instance: holding: out of range")
    for number in (2 ** 64, -2 ** 63 - 1):
        yield "a rate of %d" % number, None, with_keys("newsvendor", holding=number), "instance: holding: wrong type"
    yield ("a total that isn't a multiple", with_keys("finite", total=MOST_WEIGHT, demand=certain),
           with_keys("finite", total=MOST_WEIGHT - 1, demand=ONE_OR_NONE),
           "instance: demand: law: does not divide the total")


def laws():
    """The limits of a law."""
    def law(**value):
        return with_keys("newsvendor", demand=value)

    too_large = "instance: demand: law: too large"
    yield ("a demand of 10,001", law(points=[[MOST_DEMAND, 1]]), law(points=[[MOST_DEMAND + 1, 1]]), too_large)
    yield ("a range to 10,001", law(uniform=[0, MOST_DEMAND]), law(uniform=[0, MOST_DEMAND + 1]), too_large)
    yield ("10,001 trials", law(binomial=[MOST_DEMAND, 1, 1]), law(binomial=[MOST_DEMAND + 1, 1, 1]), too_large)
    yield ("weights of one more", law(points=[[0, MOST_WEIGHT - 1], [1, 1]]),
           law(points=[[0, MOST_WEIGHT], [1, 1]]), too_large)
    yield ("30 trials of two chances", law(binomial=[29, 1, 2]), law(binomial=[30, 1, 2]), too_large)
    yield ("one trial of more chances", law(binomial=[1, 1, MOST_WEIGHT]), law(binomial=[1, 1, MOST_WEIGHT + 1]),
           too_large)


def lengths():
    """The limits of lists."""
    def lots(periods):
        return {"kind": "lots", "demand": [1] * periods, "setup": 1, "holding": 1}

    def serial(echelons):
        return with_keys("serial", holding=[1] * echelons, unit=0, start=[0] * echelons)

    def network(count, name="%d"):
        nodes = [{**SMALL["network"]["nodes"][2], "name": name % number} for number in range(count)]
        return {"kind": "network", "periods": 1, "nodes": nodes}

    def sources(count):
        return changed(SMALL["network"], ["nodes", 2, "sources"], [{"from": "outside", "lead": 1}] * count)

    def pauses(count):
        names = ["orders", "shipments", "receipts"]
        return {**network(64), "periods": 6, "pauses": [
            {"node": str(place % 64), "what": names[place // 64 % 3], "from": 1 + place // 192,
             "to": 1 + place // 192} for place in range(count)]}

    yield "2,001 periods of lots", lots(2000), lots(2001), "instance: demand: wrong length"
    yield "no period of lots", lots(1), lots(0), "instance: demand: wrong length"
    yield "nine echelons", serial(8), serial(9), "instance: holding: wrong length"
    yield "no echelon", serial(1), serial(0), "instance: holding: wrong length"
    yield "65 nodes", network(64), network(65), "instance: nodes: wrong length"
    yield "no node", network(1), network(0), "instance: nodes: wrong length"
    yield "nine sources", sources(8), sources(9), "instance: nodes[3].sources: wrong length"
    yield "no source", sources(1), sources(0), "instance: nodes[3].sources: wrong length"
    yield "1,001 pauses", pauses(1000), pauses(1001), "instance: pauses: wrong length"
    yield ("a name of 33 letters", network(1, "%032d"), network(1, "%033d"), "instance: nodes[1].name: out of range")
    yield "an empty name", network(1, "%.1s"), network(1, "%.0s"), "instance: nodes[1].name: out of range"


def grids():
    """The limits of the positions and of the cells of a grid."""
    too_large = "instance: grid too large"
    certain = {"points": [[0, 1]]}
    for periods, name in ((1, "20,001 positions"), (50, "20,000 positions and 51 periods")):
        yield (name, with_keys("finite", periods=periods, demand=certain, cap=19999),
               with_keys("finite", periods=periods + (periods > 1), demand=certain, cap=19999 + (periods == 1)),
               too_large)
    yield ("2,001 positions of an average", with_keys("average", cap=1999), with_keys("average", cap=2000), too_large)
    yield ("2,001 positions of a serial system", with_keys("serial", cap=1999), with_keys("serial", cap=2000),
           too_large)
    eight = with_keys("serial", holding=[1] * 8, unit=0, start=[0] * 8, periods=100)
    yield "1,251 positions of 100 periods of eight echelons", {**eight, "cap": 1249}, {**eight, "cap": 1250}, too_large


def widths():
    """The widest instances, and those of the next larger cost."""
    yield "a setup cost of one more", by_hand(), by_hand(setup=4194299), "instance: too wide"
    (_, average), (_, serial), (_, longest) = next(averages()), next(serials()), list(finites())[1]
    yield "an average of one more", average, {**average, "setup": average["setup"] + 1}, "instance: too wide"
    yield ("a serial system of one more", serial, {**serial, "stockout": serial["stockout"] + 1},
           "instance: too wide")
    for place, instance in enumerate(map(widest, widest_shortages()), 1):
        yield ("shortage %d" % place, instance, {**instance, "setup": instance["setup"] + 1}, "instance: too wide")
    yield ("the longest horizon of one more", longest, {**longest, "setup": longest["setup"] + 1},
           "instance: too wide")


def half(demand):
    return {"points": [[0, 2 ** 23], [demand, 2 ** 23]]}


def widest_shortages():
    """The widest instances of laws by period, of a start above 0, and of averages on one side of 0."""
    rare = {"points": [[0, 2 ** 21 - 1], [1, 1]]}
    yield with_keys("finite", periods=2, lead=2, holding=2, stockout=3, demand=list(map(half, (1, 2, 5, 3))), cap=4,
                    start=-2)
    yield with_keys("finite", periods=3, lead=1, unit=2, holding=2, stockout=3, end_stockout=4, end_holding=1,
                    demand=half(3), cap=4, start=3)
    yield with_keys("average", holding=7, stockout=3, demand=rare, floor=-9, cap=-4, lead=1)
    yield with_keys("average", holding=7, stockout=3, demand=rare, floor=4, cap=9, lead=1)


def loads():
    """A network whose last node may hold exactly 10^12: two nodes a layer, each of which orders from both of the next
    layer, so that from layer to layer twice as much is needed."""
    layers, top = 22, 10 ** 12
    half, rest = divmod(top, 2 ** layers)
    demands = [MOST_DEMAND] * 11 + [half // 2 - 11 * MOST_DEMAND]
    names = [["shop%d" % place for place in range(12)]]
    names += [["layer%d-%d" % (layer, place) for place in range(2)] for layer in range(1, layers)] + [["last"]]

    def network(level):
        nodes = []
        for layer, above in zip(names, names[1:] + [["outside"]]):
            nodes += [{"name": name, "initial": 0, "holding": 0, "rule": {"base": 0},
                       "sources": [{"from": one, "lead": 0} for one in above]} for name in layer]
        for node, demand in zip(nodes, demands):
            node["demand"] = {"trace": [0, demand]}
        nodes[-1]["initial"] = RATE
        nodes[-1]["rule"] = {"base": level}
        return {"kind": "network", "periods": 2, "nodes": nodes}

    level = rest - 2 * RATE
    yield "a load of 10^12 and one", network(level), network(level + 1), "instance: node 55: load"


def limits():
    """All limits: a name, an instance at the limit or None, one that passes it, and the message."""
    for part in (ranges, past_ranges, laws, lengths, grids, widths, loads):
        yield from part()


def texts():
    """The limits of an instance's text, as bytes, in the same form."""
    small = json.dumps(SMALL["newsvendor"]).encode()
    yield ("%d bytes" % (BYTES + 1), small.ljust(BYTES), small.ljust(BYTES + 1),
           "instance longer than %d bytes" % BYTES)
    for levels, message in ((127, "instance: unknown kind"), (128, "instance: not JSON")):
        yield "%d levels" % levels, None, b"[" * levels + b"]" * levels, message
