#!/usr/bin/env python3
"""Counts the instructions of the built program and compares them with the table of docs/PERFORMANCE.md.

    python3 tests/measure.py [--write] [--program FILE] [PART OF A ROW'S NAME ..]

It runs the program under valgrind's callgrind. A count that is more than 5 % above the table's is told, and the exit
status is then 1; `--write` puts the counts into the table instead. Where valgrind is missing it says so and ends with
status 0; where the program isn't built, with 2.
"""
import json
import os
import re
import shutil
import subprocess
import sys
import tempfile

HERE = os.path.dirname(os.path.abspath(__file__))
PROGRAM = os.path.join(HERE, "..", "crates", "stock", "out", "stock")
PAGE = os.path.join(HERE, "..", "docs", "PERFORMANCE.md")
# How much more than the table's count is too much.
SLACK = 1.05


def newsvendor(points):
    weights = [[demand, 1 + demand * 7 % 13] for demand in range(points)]
    return {"kind": "newsvendor", "holding": 2, "stockout": 7, "demand": {"points": weights}}


def steady_lots(periods):
    return {"kind": "lots", "demand": [90 + period * 37 % 60 for period in range(periods)], "setup": 500, "holding": 2}


def varied_lots(periods):
    setups = [10 ** (period * 7 % 5) for period in range(periods)]
    return {"kind": "lots", "demand": [period * 37 % 60 for period in range(periods)], "setup": setups, "holding": 1}


def single_lots(periods):
    return {"kind": "lots", "demand": [1] * periods, "setup": 1000000000, "holding": 1}


def wide_laws(laws):
    """Refused as too wide, when all laws are read."""
    return {"kind": "finite", "periods": laws - 8, "lead": 8, "holding": 1, "stockout": 2,
            "demand": [{"uniform": [0, 10000]}] * laws, "cap": 0, "start": 0}


def long_lead(greatest):
    return {"kind": "finite", "periods": 1, "lead": 8, "holding": 1, "stockout": 2,
            "demand": {"uniform": [0, greatest]}, "cap": 10, "start": 0}


def months(lead):
    points = [[0, 5], [1, 10], [2, 20], [3, 30], [4, 20], [5, 10], [6, 5]]
    return {"kind": "finite", "periods": 12, "lead": lead, "holding": 1, "stockout": 9,
            "demand": {"points": points}, "cap": 10, "start": 0}


def months_each(lead):
    year = months(lead)
    year["demand"] = [year["demand"]] * (12 + lead)
    return year


def grid(positions, **more):
    """A grid of a size, with two demands."""
    return {"kind": "finite", "periods": 20, "setup": 30, "holding": 1, "stockout": 9,
            "demand": {"points": [[0, 1], [1, 1]]}, "cap": positions - 21, "start": 0, **more}


def capacity(positions):
    return grid(positions, most=positions // 8)


def demands(count):
    """Each demand from 0 on has a weight."""
    return {"kind": "finite", "periods": 2, "setup": 500, "unit": 1, "holding": 1, "stockout": 9,
            "demand": {"uniform": [0, count - 1]}, "cap": 4000 - 2 * count, "start": 0}


def sparse_demands(count):
    """Four demands have a weight, however great the greatest is."""
    points = [[count * part // 4, 1] for part in range(1, 5)]
    return {**demands(count), "demand": {"points": points}}


def horizon(periods, **more):
    return {"kind": "finite", "periods": periods, "lead": 2, "setup": 30, "holding": 1, "stockout": 9,
            "demand": {"points": [[0, 1], [1, 2], [2, 1]]}, "cap": 1000 - 2 * periods, "start": 0, **more}


def horizon_each(periods):
    law = horizon(periods)["demand"]
    return horizon(periods, demand=[law] * (periods + 2))


def average(positions):
    """The longest grids: the demands above 0 have a weight of 1 in all."""
    return {"kind": "average", "lead": 2, "setup": 500, "holding": 1, "stockout": 9,
            "demand": {"points": [[0, 1], [1, 1]]}, "floor": -50, "cap": positions - 51}


def wide(positions, demands=10):
    """An average cost of a demand with a weight for each size below a number, on a wide range."""
    return {"kind": "average", "lead": 1, "setup": 500, "holding": 1, "stockout": 9,
            "demand": {"uniform": [0, demands - 1]}, "floor": -500, "cap": positions - 501}


def wide_demands(demands):
    return wide(4000, demands)


def stages(count, positions=200, demands=5):
    """A chain of stages over twelve periods; each demand below a number has weight 1."""
    return {"kind": "serial", "periods": 12, "holding": [1] * count, "unit": 1, "stockout": 20,
            "demand": {"uniform": [0, demands - 1]}, "cap": positions - 1 - 12 * (demands - 1),
            "start": [4 * stage for stage in range(1, count + 1)]}


def four_stages(positions):
    return stages(4, positions)


def eight_stages(positions):
    return stages(8, positions)


def stage_demands(demands):
    return stages(4, 400, demands)


def shops(periods):
    """One shop with a base-stock rule."""
    return {"kind": "network", "periods": periods, "nodes": [
        {"name": "shop", "initial": 50, "holding": 1, "stockout": 10, "rule": {"base": 60},
         "sources": [{"from": "outside", "lead": 2}], "demand": {"trace": [period * 37 % 20 for period in range(periods)]}}]}


def drawn_shops(periods, greatest=20):
    """One shop whose demand is drawn."""
    return {"kind": "network", "periods": periods, "seed": 1, "nodes": [
        {"name": "shop", "initial": 50, "holding": 1, "stockout": 10, "rule": {"base": 60},
         "sources": [{"from": "outside", "lead": 2}], "demand": {"uniform": [0, greatest]}}]}


def drawn_demands(greatest):
    return drawn_shops(10000, greatest)


def tree(nodes, periods=1000):
    """Shops that order from depots, eight from each, and the depots from one plant."""
    shops = max(1, (nodes - 1) * 8 // 9)
    depots = nodes - 1 - shops
    source = lambda name, lead: [{"from": name, "lead": lead}]
    listed = [{"name": "shop-%d" % shop, "initial": 30, "holding": 2, "stockout": 10, "rule": {"min": 10, "max": 40},
               "sources": source("depot-%d" % (shop % depots), 1),
               "demand": {"trace": [(period * 37 + shop) % 11 for period in range(periods)]}} for shop in range(shops)]
    listed += [{"name": "depot-%d" % depot, "initial": 200, "holding": 1, "rule": {"echelon": 600},
                "sources": source("plant", 2)} for depot in range(depots)]
    listed.append({"name": "plant", "initial": 500, "holding": 1, "rule": {"reorder": 200, "lot": 300}, "sources": source("outside", 3)})
    return {"kind": "network", "periods": periods, "nodes": listed}


# The rows: name, words of the command, instance of a size, and the three sizes.
ROWS = [
    ("`solve`, newsvendor of 2,500, 5,000, 10,000 points", "solve", newsvendor, (2500, 5000, 10000)),
    ("`solve`, steady lots of 500, 1,000, 2,000 periods", "solve", steady_lots, (500, 1000, 2000)),
    ("`solve`, varied lots of 500, 1,000, 2,000 periods", "solve", varied_lots, (500, 1000, 2000)),
    ("`solve`, single lots of 500, 1,000, 2,000 periods", "solve", single_lots, (500, 1000, 2000)),
    ("`certify`, steady lots of 500, 1,000, 2,000 periods", "certify", steady_lots, (500, 1000, 2000)),
    ("`check`, steady lots of 500, 1,000, 2,000 periods", "check", steady_lots, (500, 1000, 2000)),
    ("`check`, varied lots of 500, 1,000, 2,000 periods", "check", varied_lots, (500, 1000, 2000)),
    ("`check`, single lots of 500, 1,000, 2,000 periods", "check", single_lots, (500, 1000, 2000)),
    ("`solve`, finite of 5,000, 10,000, 20,000 positions", "solve", grid, (5000, 10000, 20000)),
    ("`certify`, finite of 5,000, 10,000, 20,000 positions", "certify", grid, (5000, 10000, 20000)),
    ("`check`, finite of 5,000, 10,000, 20,000 positions", "check", grid, (5000, 10000, 20000)),
    ("`solve`, the same with an order capacity", "solve", capacity, (5000, 10000, 20000)),
    ("`check`, the same with an order capacity", "check", capacity, (5000, 10000, 20000)),
    ("`solve`, finite of 100, 200, 400 demands on 4,000 positions", "solve", demands, (100, 200, 400)),
    ("`check`, finite of 100, 200, 400 demands on 4,000 positions", "check", demands, (100, 200, 400)),
    ("`solve`, four demands up to 100, 200, 400", "solve", sparse_demands, (100, 200, 400)),
    ("`solve`, finite of 10, 20, 40 periods, one law, lead time 2", "solve", horizon, (10, 20, 40)),
    ("`solve`, finite of 10, 20, 40 periods, a law each", "solve", horizon_each, (10, 20, 40)),
    ("`check`, finite of 10, 20, 40 periods, one law, lead time 2", "check", horizon, (10, 20, 40)),
    ("`solve`, average of 500, 1,000, 2,000 positions", "solve", average, (500, 1000, 2000)),
    ("`certify`, average of 500, 1,000, 2,000 positions", "certify", average, (500, 1000, 2000)),
    ("`check`, average of 500, 1,000, 2,000 positions", "check", average, (500, 1000, 2000)),
    ("`bracket solve`, average of 5,000, 10,000, 20,000 positions", "bracket solve", wide, (5000, 10000, 20000)),
    ("`bracket solve`, average of 75, 150, 300 demands on 4,000 positions", "bracket solve", wide_demands, (75, 150, 300)),
    ("`bracket certify`, average of 5,000, 10,000, 20,000 positions", "bracket certify", wide, (5000, 10000, 20000)),
    ("`bracket check`, average of 5,000, 10,000, 20,000 positions", "bracket check", wide, (5000, 10000, 20000)),
    ("`solve`, serial of 1, 2, 4 echelons on 200 positions", "solve", stages, (1, 2, 4)),
    ("`solve`, serial of 8 echelons on 100, 200, 400 positions", "solve", eight_stages, (100, 200, 400)),
    ("`solve`, serial of 4 echelons on 100, 200, 400 positions", "solve", four_stages, (100, 200, 400)),
    ("`certify`, serial of 4 echelons on 100, 200, 400 positions", "certify", four_stages, (100, 200, 400)),
    ("`check`, serial of 4 echelons on 100, 200, 400 positions", "check", four_stages, (100, 200, 400)),
    ("`check`, serial of 2, 4, 8 echelons on 200 positions", "check", stages, (2, 4, 8)),
    ("`solve`, serial of 5, 10, 20 demands on 400 positions", "solve", stage_demands, (5, 10, 20)),
    ("`simulate`, one shop for 100, 1,000, 10,000 periods", "simulate", shops, (100, 1000, 10000)),
    ("`simulate`, one shop of drawn demand for 100, 1,000, 10,000 periods", "simulate", drawn_shops, (100, 1000, 10000)),
    ("`simulate`, 10,000 draws from laws up to 100, 1,000, 10,000", "simulate", drawn_demands, (100, 1000, 10000)),
    ("`simulate`, trees of 10, 30, 64 nodes for 1,000 periods", "simulate", tree, (10, 30, 64)),
    ("reading 28, 56, 112 laws of 10,001 demands", "solve", wide_laws, (28, 56, 112)),
    ("`demand`, lead time 8, greatest demand 100, 200, 400", "demand", long_lead, (100, 200, 400)),
    ("`demand`, one law for 12 months, lead time 0, 2, 4", "demand", months, (0, 2, 4)),
    ("`demand`, a law a month, lead time 0, 2, 4", "demand", months_each, (0, 2, 4)),
]


def count(program, words):
    """The instructions of one run."""
    done = subprocess.run(["valgrind", "--tool=callgrind", "--callgrind-out-file=/dev/null", program, *words],
                          stdin=subprocess.DEVNULL, stdout=subprocess.DEVNULL, stderr=subprocess.PIPE)
    found = re.search(rb"Collected : (\d+)", done.stderr)
    if not found:
        raise SystemExit(done.stderr.decode(errors="replace"))
    return int(found[1])


def counts(program, command, instance_of, sizes, folder):
    """The counts of a row, in millions."""
    counted = []
    for size in sizes:
        instance, certificate = os.path.join(folder, "instance"), os.path.join(folder, "certificate")
        with open(instance, "w", encoding="utf-8") as file:
            json.dump(instance_of(size), file)
        *part, action = command.split()
        words = [*part, action, instance]
        if action == "check":
            with open(certificate, "wb") as file:
                subprocess.run([program, *part, "certify", instance], stdout=file, check=True)
            words.append(certificate)
        counted.append(count(program, words) / 1e6)
    return counted


def row_of(page, name):
    """The row of the table, as a match of its three counts."""
    found = re.search(r"^\| %s \|(.*)\|$" % re.escape(name), page, re.M)
    if not found:
        raise SystemExit("docs/PERFORMANCE.md has no row '%s'" % name)
    return found


def main():
    words = sys.argv[1:]
    program = PROGRAM
    if "--program" in words:
        place = words.index("--program")
        program = words[place + 1]
        del words[place:place + 2]
    writes = "--write" in words
    parts = [word for word in words if word != "--write"]
    program = os.path.abspath(program)
    if not os.access(program, os.X_OK):
        print("%s isn't built; ./build builds it" % os.path.relpath(program))
        return 2
    if not shutil.which("valgrind"):
        print("valgrind is missing, so nothing was counted")
        return 0
    with open(PAGE, encoding="utf-8") as file:
        page = file.read()
    slower = 0
    with tempfile.TemporaryDirectory() as folder:
        for name, command, instance_of, sizes in ROWS:
            if not all(part in name for part in parts):
                continue
            counted = counts(program, command, instance_of, sizes, folder)
            row = row_of(page, name)
            wanted = [float(cell) for cell in row[1].split("|")]
            print("%s: %s (%s)" % (name, " ".join("%.2f" % it for it in counted), " ".join("%.2f" % it for it in wanted)))
            if writes:
                cells = " | ".join("%.2f" % it for it in counted)
                page = page.replace(row[0], "| %s | %s |" % (name, cells))
            elif any(it > most * SLACK for it, most in zip(counted, wanted)):
                slower += 1
                print("  takes more than 5 % above the table")
    if writes:
        with open(PAGE, "w", encoding="utf-8") as file:
            file.write(page)
    return 1 if slower else 0


if __name__ == "__main__":
    sys.exit(main())
