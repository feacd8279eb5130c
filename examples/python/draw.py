#!/usr/bin/env python3
"""Draws the expected cost of each order-up-to level of a newsvendor, the order and the stock of each period of a lot
plan, the highest position of each period of a finite horizon that orders and where it orders up to, the expected cost of
a period at each position of an average cost, or the level of each echelon of a serial system by periods: with matplotlib
where it is there, else as bars of text, which `--text` asks for. Of an average cost that is too wide for an exact fraction
it draws both bounds of what each position costs beyond the average.

    python3 examples/python/draw.py [--text] examples/newsvendor-bakery.json
"""
import json
import sys

import stockreader

WIDTH = 40


def stock_costs(instance, law, levels):
    """The expected cost of what is left and of what lacks, at each level, where the demand of the law comes."""
    holding, stockout = instance["holding"], instance["stockout"]
    return [sum(chance * (holding * max(level - size, 0) + stockout * max(size - level, 0))
                for size, chance in law.probabilities.items())
            for level in levels]


def stocks(orders, demand):
    """The stock at the end of each period."""
    stock, ends = 0, []
    for order, wanted in zip(orders, demand):
        stock += order - wanted
        ends.append(stock)
    return ends


def highest_orders(policy):
    """Of each period the highest position that orders and where it orders up to; None where the period doesn't order."""
    found = []
    for line in policy:
        position = line["s"] if "s" in line else max(line["orders"], default=None)
        found.append((None, None) if position is None else (position, stockreader.order_up_to(line, position)))
    return found


def bracket_series(instance):
    """What is drawn of a bracket: its entries, in units of cost."""
    found = stockreader.bracket(instance)
    rows = [line.split() for line in stockreader.certify(instance, ["bracket"]).splitlines()]
    entries = [[int(row[place]) / 1e6 for row in rows if row[0] == "p"] for place in (2, 3)]
    title = "What each position costs beyond the average; %s, average between %.6f and %.6f" % (
        ", ".join("%s %d" % pair for pair in found.policy[0].items()), found.lower, found.upper)
    return title, "position", [("at least", instance["floor"], entries[0]), ("at most", instance["floor"], entries[1])]


def drawn_of(instance):
    """What is drawn of the exact answer, or else of the bracket."""
    try:
        return series_of(instance)
    except stockreader.StockError as error:
        if error.status != 6 or instance["kind"] != "average":
            raise
        return bracket_series(instance)


def series_of(instance):
    """What is drawn: the title, the name of the places, and for each series its name, its first place and its values."""
    answer = stockreader.solve(instance)
    cost = "cost %s" % answer.cost
    if answer.kind == "newsvendor":
        (law,) = stockreader.demand(instance)
        level = answer.policy[0]["order-up-to"]
        title = "Expected cost of each level; least at %d, %s" % (level, cost)
        return title, "level", [("cost", 0, stock_costs(instance, law, range(max(law.probabilities) + 1)))]
    if answer.kind == "average":
        (law,) = stockreader.demand(instance)
        positions = range(instance["floor"], instance["cap"] + 1)
        title = "Expected cost of a period at each position; %s, average %s" % (
            ", ".join("%s %d" % pair for pair in answer.policy[0].items()), cost)
        return title, "position", [("cost", instance["floor"], stock_costs(instance, law, positions))]
    if answer.kind == "serial":
        stages = len(instance["holding"])
        return "Serial system, " + cost, "period", [
            ("level of echelon %d" % stage, 1, [line["S"] for line in answer.policy if line["echelon"] == stage])
            for stage in range(1, stages + 1)]
    if answer.kind == "finite":
        found = highest_orders(answer.policy)
        return "Finite horizon, " + cost, "period", [
            ("orders at", 1, [at for at, _ in found]), ("orders up to", 1, [to for _, to in found])]
    orders = [line["order"] for line in answer.policy]
    return "Lot plan, " + cost, "period", [
        ("order", 1, orders), ("stock at the end", 1, stocks(orders, instance["demand"]))]


def bars(title, place, series):
    print(title)
    for name, first, values in series:
        print("%s: %s" % (place, name))
        most = max((value for value in values if value is not None and value > 0), default=1)
        for index, value in enumerate(values, first):
            if value is None:
                continue
            line = "%4d %9.2f %s" % (index, value, "#" * round(WIDTH * value / most))
            print(line.rstrip())


def picture(plot, title, place, series):
    for name, first, values in series:
        plot.step(range(first, first + len(values)), [float("nan") if value is None else float(value) for value in values], where="mid", label=name)
    plot.title(title)
    plot.xlabel(place)
    plot.legend()
    plot.show()


def main():
    words = sys.argv[1:]
    as_text = "--text" in words
    names = [word for word in words if word != "--text"]
    if len(names) != 1:
        print("usage: draw.py [--text] INSTANCE", file=sys.stderr)
        return 2
    try:
        with open(names[0], encoding="utf-8") as file:
            drawn = drawn_of(json.load(file))
    except (stockreader.StockError, OSError) as error:
        print(error, file=sys.stderr)
        return getattr(error, "status", 3)
    if not as_text:
        try:
            import matplotlib.pyplot as plot
        except ImportError:
            print("matplotlib is missing, so this is drawn as text", file=sys.stderr)
            as_text = True
    if as_text:
        bars(*drawn)
    else:
        picture(plot, *drawn)
    return 0


if __name__ == "__main__":
    sys.exit(main())
