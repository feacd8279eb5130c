#!/usr/bin/env python3
"""Runs the program on the greatest instances that docs/FORMAT.md allows, and on those that pass a limit by one.

    python3 tests/faults/run_greatest.py [PROGRAM] [--long]

PROGRAM is the program that ./build makes, where none is given; where that isn't there, nothing is run and the exit
status is 2. Each greatest instance is solved and certified, and the program's check has to accept the certificate;
reference.py has to accept it too and reports.py to tell from it what solve printed, where it has at most 60,000 lines
and in the long form always. Costs of newsvendors, of lots and of moderate instances of the other kinds are computed
anew from what a policy costs. The long form has greater laws of demand and runs the greatest network for 10,000
periods.

A line says what each instance took (the seconds, and the most memory of its runs), a line is printed for each fault,
and at the end a summary. The exit status is 1 where there was a fault.
"""
import json
import os
import sys
import tempfile
import time
from fractions import Fraction

from costs import COSTS
from greatest import KINDS, LONG, all_demands, by_hand, finite, greatest_law, network
from limits import limits, texts
from measured import Runner
from reference import verdict
from reference_bracket import bracket_verdict, certificate_of
from reports import solve_text
from runs import in_threads, program_of, run
from standards import standard_of

MOST_LINES = 60000
# The grids of brackets are the longest that there may be.
BRACKETS = [
    ("20,000 positions, 300 demands",
     {"kind": "average", "lead": 1, "setup": 500, "holding": 1, "stockout": 9, "demand": {"uniform": [0, 299]},
      "floor": -4999, "cap": 15000}),
    ("20,000 positions, weights of 1,000,000,000",
     {"kind": "average", "setup": 1000, "holding": 10, "stockout": 90,
      "demand": {"points": [[0, 499999999], [1, 500000000], [9, 1]]}, "floor": -9999, "cap": 10000}),
    ("one position", {"kind": "average", "holding": 10 ** 6, "stockout": 10 ** 6, "demand": {"points": [[10000, 1]]},
                      "floor": 0, "cap": 0}),
]
MODERATE = [
    {"kind": "finite", "periods": 5, "lead": 2, "setup": 7, "unit": 2, "holding": 1, "stockout": 6, "end_holding": 1,
     "end_stockout": 3, "discount": [9, 10], "most": 9, "total": 12,
     "demand": [{"uniform": [0, 3]}, {"points": [[0, 1], [2, 2]]}, {"binomial": [1, 1, 3]}, {"uniform": [1, 6]},
                {"points": [[5, 1]]}, {"uniform": [0, 11]}, {"points": [[0, 5], [7, 1]]}], "cap": 40, "start": -4},
    {"kind": "finite", "periods": 8, "setup": 40, "unit": 1, "holding": 1, "stockout": 9,
     "demand": {"uniform": [0, 9]}, "cap": 60, "start": 3},
    {"kind": "average", "lead": 1, "setup": 9, "holding": 1, "stockout": 7,
     "demand": {"points": [[0, 2], [1, 1], [3, 1]]}, "floor": -4, "cap": 17},
    {"kind": "average", "lead": 2, "setup": 25, "holding": 1, "stockout": 9,
     "demand": {"points": [[0, 3], [1, 1]]}, "floor": -10, "cap": 29, "policy": "rQ"},
    {"kind": "serial", "periods": 4, "holding": [2, 1], "unit": [1, 3], "stockout": 9, "discount": [9, 10], "total": 6,
     "demand": [{"points": [[0, 1], [2, 2]]}, {"uniform": [0, 1]}, {"uniform": [1, 3]}, {"points": [[0, 5], [4, 1]]}],
     "cap": 12, "start": [-1, 4]},
    {"kind": "serial", "periods": 3, "holding": [1, 2, 1], "unit": 1, "stockout": 15, "demand": {"uniform": [0, 2]},
     "cap": 7, "start": [1, 2, 2]},
]


class Greatest:
    def __init__(self, runner, long):
        self.runner, self.long = runner, long
        self.faults = self.instances = 0
        # What a run that needs nothing seems to take.
        self.least_memory = runner.run(["help"])[3]

    def fault(self, name, what):
        self.faults += 1
        print("%s: %s" % (name, what), flush=True)

    def measured(self, name, word, words, out, figures):
        """A run that has to end with status 0 and without a message."""
        status, message, seconds, kilobytes = self.runner.run([word] + words, out)
        figures.append((word, seconds, kilobytes))
        if status != 0 or message:
            self.fault(name, "%s ended with %r, %r" % (word, status, message[:200]))
            return False
        return True

    def told(self, name, figures):
        most = max(kilobytes for _, _, kilobytes in figures)
        memory = "%.1f MB" % (most / 1024)
        if most <= self.least_memory * 1.05:
            memory = "at most " + memory
        took = ", ".join("%s %.2f s" % (word, seconds) for word, seconds, _ in figures)
        print("%s: %s, %s" % (name, took, memory), flush=True)

    def instance(self, kind, name, instance, reference=True):
        """Solves, certifies and checks an instance, and looks at the answers."""
        self.instances += 1
        name = "%s, %s" % (kind, name)
        self.runner.write("i", json.dumps(instance).encode())
        figures = []
        ended = [self.measured(name, word, words, out, figures) for word, words, out in (
            ("solve", ["i"], "solved"), ("certify", ["i"], "c"), ("check", ["i", "c"], "checked"))]
        self.told(name, figures)
        if not all(ended):
            return
        if self.runner.read("checked") != b"accepted\n":
            self.fault(name, "check has %r" % self.runner.read("checked")[:200])
        certificate, solved = self.runner.read("c"), self.runner.read("solved")
        if reference and (self.long or certificate.count(b"\n") <= MOST_LINES):
            self.look_at(name, instance, certificate, solved)
        if kind in ("newsvendor", "lots"):
            self.cost(name, instance, solved)

    def look_at(self, name, instance, certificate, solved):
        answer = verdict(instance, certificate)
        if answer != "accepted":
            self.fault(name, "of the certificate the reference says: " + answer)
        elif solve_text(instance, certificate) != solved:
            self.fault(name, "solve doesn't print what the certificate says")

    def cost(self, name, instance, solved):
        """The printed cost against one that is computed without certificates."""
        printed = [line[5:] for line in solved.decode().splitlines() if line.startswith("cost ")]
        wanted = str(COSTS[instance["kind"]](instance))
        if printed != [wanted]:
            self.fault(name, "the cost is %s, solve has %s" % (wanted, printed))

    def moderate(self, place, instance):
        name = "moderate %d" % place
        self.instance(instance["kind"], name, instance)
        self.cost("%s, %s" % (instance["kind"], name), instance, self.runner.read("solved"))
        if self.runner.read("c") != standard_of(instance):
            self.fault("%s, %s" % (instance["kind"], name), "another certificate is written")

    def bracket(self, name, instance):
        """Bounds an average cost, and has both checkers accept the certificate; gives what was printed."""
        self.instances += 1
        name = "bracket, " + name
        self.runner.write("i", json.dumps(instance).encode())
        figures = []
        ended = [self.measured(name, "bracket", words, out, figures) for words, out in (
            (["solve", "i"], "solved"), (["certify", "i"], "c"), (["check", "i", "c"], "checked"))]
        self.told(name, figures)
        if not all(ended):
            return None
        if self.runner.read("checked") != b"accepted\n":
            self.fault(name, "check has %r" % self.runner.read("checked")[:200])
        if bracket_verdict(instance, self.runner.read("c")) != "accepted":
            self.fault(name, "the reference doesn't accept the certificate")
        return dict(line.split(" ", 1) for line in self.runner.read("solved").decode().splitlines()[:-1])

    def both(self, place, instance):
        """The exact cost lies within the bounds, and the bracket is the one that its rules fix."""
        told = self.bracket("moderate %d" % place, instance)
        if told is None:
            return
        cost = COSTS["average"](instance)
        if not Fraction(told["lower"]) <= cost <= Fraction(told["upper"]):
            self.fault("bracket, moderate %d" % place, "the cost is %s, the bounds are %r" % (cost, told))
        if self.runner.read("c") != certificate_of(instance):
            self.fault("bracket, moderate %d" % place, "another certificate is written")

    def hand(self):
        """The instance whose width number is exactly 2^120, and the next wider one."""
        self.instance("finite", "by hand", by_hand())
        wanted = "kind finite\n" + "".join("period %d never\n" % period for period in range(1, 5))
        if self.runner.read("solved").decode() != wanted + "cost 5/8388608\noptimal\n":
            self.fault("finite, by hand", "solve has %r" % self.runner.read("solved")[:200])

    def demand(self, name, instance):
        """The printed law of the demand over the lead time."""
        self.instances += 1
        self.runner.write("i", json.dumps(instance).encode())
        figures = []
        ended = self.measured(name, "demand", ["i"], "law", figures)
        self.told(name, figures)
        law = greatest_law(instance, 1)
        lines = ["period 1"] + ["%d %d" % one for one in enumerate(law) if one[1]] + ["total %d" % sum(law), ""]
        if ended and self.runner.read("law") != "\n".join(lines).encode():
            self.fault(name, "another law is printed")

    def simulated(self, name, instance):
        """The rows of a network: each period's nodes in order, the costs of what stands there, and their sum."""
        self.instances += 1
        self.runner.write("i", json.dumps(instance).encode())
        figures = []
        ended = self.measured(name, "simulate", ["i"], "rows", figures)
        self.told(name, figures)
        if ended:
            with open(self.runner.path("rows"), encoding="ascii") as rows:
                fault = rows_fault(instance, rows)
            if fault:
                self.fault(name, fault)


def rows_fault(instance, rows):
    """What is wrong with the rows of a simulation, or None."""
    total = 0
    for period in range(1, instance["periods"] + 1):
        for node in instance["nodes"]:
            words = next(rows, "").split()
            if words[:4] != ["period", str(period), "node", node["name"]]:
                return "period %d: the row of %s is %r" % (period, node["name"], words)
            row = {word: int(number) for word, number in zip(words[4::2], words[5::2])}
            cost = node["holding"] * row["stock"] + node.get("stockout", 0) * row["owed"]
            trace = node.get("demand", {}).get("trace")
            if row["cost"] != cost or trace and row["seen"] != trace[period - 1]:
                return "period %d: the row of %s doesn't add up: %r" % (period, node["name"], words)
            total += cost
    last = list(rows)
    return None if last == ["total %d\n" % total] else "the costs add up to %d, the end is %r" % (total, last[:2])


class Limits:
    """Each limit, and what passes it, in several threads with a file each."""

    def __init__(self, program, folder):
        self.program, self.folder = program, folder
        self.count = self.faults = 0

    def run(self, thread, text):
        path = os.path.join(self.folder, "limit-%d" % thread)
        with open(path, "wb") as file:
            file.write(text)
        return run(self.program, ["simulate" if b'"network"' in text[:40] else "solve", path])

    def one(self, thread, limit):
        name, within, past, message = limit
        self.count += 1
        status = 6 if message.endswith("too wide") else 3
        answer = self.run(thread, past)
        if answer != (b"", b"stock: %s\n" % message.encode(), status):
            self.faults += 1
            print("%s: expected %r with %d, the program has %r" % (name, message, status, answer), flush=True)
        if within is None:
            return
        out, said, status = self.run(thread, within)
        if status != 0 or said or not out:
            self.faults += 1
            print("%s: the instance at the limit ends with %r, %r" % (name, status, said), flush=True)


def all_limits():
    for name, within, past, message in limits():
        yield name, within and json.dumps(within).encode(), json.dumps(past).encode(), message
    yield from texts()


def run_instances(greatest, long):
    for kind, instances in KINDS.items():
        for name, instance in instances():
            greatest.instance(kind, name, instance)
    greatest.hand()
    for place, instance in enumerate(MODERATE, 1):
        greatest.moderate(place, instance)
        if instance["kind"] == "average":
            greatest.both(place, instance)
    for name, instance in BRACKETS:
        greatest.bracket(name, instance)
    law = {"uniform": [0, 400]}
    greatest.demand("demand, 401 demands over the longest lead time",
                    finite(periods=1, lead=8, setup=0, unit=0, holding=0, stockout=0, demand=law))
    greatest.simulated("network, 64 nodes for 100 periods", network(100))
    if long:
        for kind, instances in LONG.items():
            for name, instance in instances():
                greatest.instance(kind, name, instance)
        greatest.demand("demand, all demands over the longest lead time", finite(
            periods=1, lead=8, setup=0, unit=0, holding=0, stockout=0, demand=all_demands(10320)))
        greatest.simulated("network, 64 nodes for 10,000 periods", network(10000))


def main():
    program, long = program_of(sys.argv[1:])
    if program is None:
        return 2
    begin = time.time()
    with tempfile.TemporaryDirectory() as folder:
        runner = Runner(program, folder)
        greatest = Greatest(runner, long)
        try:
            run_instances(greatest, long)
        finally:
            runner.close()
        passed = Limits(program, folder)
        in_threads(2, all_limits(), passed.one)
    faults = greatest.faults + passed.faults
    print("%d instances, %d limits, %d faults, %d seconds"
          % (greatest.instances, passed.count, faults, round(time.time() - begin)))
    return 1 if faults else 0


if __name__ == "__main__":
    sys.exit(main())
