"""The commands that run_faults.py runs, and the files that they read."""
import json
import os

from fault_runs import Command

EXAMPLES = os.path.join(os.path.dirname(os.path.abspath(__file__)), "..", "..", "examples")
# Examples by the name that they have among the commands.
COPIED = {"newsvendor": "newsvendor.json", "lots": "lots.json", "average": "average.json",
          "reorder": "average-spare-part.json", "serial": "serial.json", "finite": "finite-capacity.json",
          "weekly": "average-weekly.json", "shop": "network-shop.json", "drawn": "network-drawn.json", "house": "network-house-rules.json"}
# Behind an instance, so that its file takes more than one read of 4,096 bytes.
PADDING = " " * 4200 + "\n"
OF_ALL_DEMAND = {"points": [[0, 1], [1, 1]]}


def node(rule):
    return {"name": "shop", "initial": 8, "holding": 1, "stockout": 9, "rule": rule,
            "sources": [{"from": "outside", "lead": 1}], "demand": {"trace": [4, 3]}}


# Instances that no example is.
WRITTEN = {
    "long": {"kind": "lots", "demand": [90 + period * 37 % 60 for period in range(300)], "setup": 500, "holding": 2},
    "pair": {"kind": "finite", "periods": 2, "setup": 1, "holding": 1, "stockout": 3, "demand": OF_ALL_DEMAND,
             "cap": 2, "start": 0},
    "discount": {"kind": "serial", "periods": 2, "discount": [9, 10], "holding": [1], "unit": [2], "stockout": 9,
                 "demand": OF_ALL_DEMAND, "cap": 3, "start": [1]},
    "wide": {"kind": "finite", "periods": 104, "holding": 1, "stockout": 2, "demand": {"uniform": [0, 9]},
             "cap": 2, "start": 0},
    "unknown": {"kind": "newsvendor", "holding": 1, "stockout": 3, "demand": OF_ALL_DEMAND, "setup": 1},
    "absent": {"kind": "network", "periods": 2, "nodes": [node({"house": 5, "cap": 9})]},
}
# What is asked behind the word of a part.
BRACKETED = ("weekly", "average")
CERTIFIED = ("newsvendor", "lots", "finite", "pair", "average", "reorder", "serial", "discount", "long")
# A certificate whose level isn't the least.
REJECTED = "certificate 1 newsvendor\nq 3\ncost 6\nend\n"


def write(folder, name, text):
    with open(os.path.join(folder, name), "w", encoding="utf-8") as file:
        file.write(text)


def prepare(folder):
    """Writes the instances into the folder."""
    for name, example in COPIED.items():
        with open(os.path.join(EXAMPLES, example), encoding="utf-8") as file:
            write(folder, name, file.read())
    for name, instance in WRITTEN.items():
        write(folder, name, json.dumps(instance) + (PADDING if name == "long" else ""))
    write(folder, "cut", '{"kind": "newsvendor"')
    write(folder, "rejected", REJECTED)


def opened_files(command):
    """The names of the files that the command opens, in their order."""
    if command.words[:1] in (["trial"], ["help"]):
        return []
    verbs = 2 if command.words[:1] == ["bracket"] else 1
    return [word for word in command.words[verbs:] if word != "-"]


def certificate_of(name):
    return name + "-certificate"


def bracket_of(name):
    return name + "-bracket"


def bracket_on(name):
    return Command("bracket certify " + name, ["bracket", "certify", name], None)


def on_file(verb, name):
    return Command("%s %s" % (verb, name), [verb, name], None)


def on_standard_input(verb, name):
    return Command("%s <%s" % (verb, name), [verb], name)


def of_kinds():
    """The commands that answer about an instance."""
    for name in CERTIFIED:
        yield on_file("solve", name)
        yield on_standard_input("certify", name)
        yield Command("check " + name, ["check", name, certificate_of(name)], None)
    for name in ("newsvendor", "finite", "reorder", "discount"):
        yield on_file("demand", name)
    for name in ("shop", "drawn", "house"):
        yield on_file("simulate", name)
    yield on_standard_input("solve", "finite")
    yield on_standard_input("demand", "serial")
    yield on_standard_input("simulate", "drawn")


def of_brackets():
    """The commands of two words."""
    for name in BRACKETED:
        yield Command("bracket solve " + name, ["bracket", "solve", name], None)
        yield Command("bracket certify <" + name, ["bracket", "certify"], name)
        yield Command("bracket check " + name, ["bracket", "check", name, bracket_of(name)], None)
        yield Command("bracket check %s -" % name, ["bracket", "check", name, "-"], bracket_of(name))
    yield Command("bracket check - weekly", ["bracket", "check", "-", bracket_of("weekly")], "weekly")
    yield Command("bracket check another", ["bracket", "check", "weekly", bracket_of("average")], None)
    yield Command("bracket of a newsvendor", ["bracket", "solve", "newsvendor"], None)
    yield Command("bracket alone", ["bracket"], None)
    yield Command("unknown action", ["bracket", "demand"], None)


def of_checks():
    """Checks with one input on standard input, and one that rejects."""
    for name in ("newsvendor", "finite", "long"):
        yield Command("check - %s" % name, ["check", "-", certificate_of(name)], name)
        yield Command("check %s -" % name, ["check", name, "-"], certificate_of(name))
    yield Command("check rejected", ["check", "newsvendor", "rejected"], None)
    yield Command("check rejected on standard input", ["check", "newsvendor", "-"], "rejected")
    yield Command("check another kind", ["check", "lots", certificate_of("finite")], None)


def of_refusals():
    """Words and instances that are refused."""
    yield Command("no words", [], None)
    yield Command("unknown command", ["solv"], None)
    yield Command("word missing", ["check", "newsvendor"], None)
    yield Command("word too many", ["solve", "newsvendor", "lots"], None)
    yield Command("empty name", ["certify", ""], None)
    yield Command("option", ["solve", "--exact"], None)
    yield Command("no number", ["trial", "007"], None)
    yield Command("standard input twice", ["check", "-", "-"], "newsvendor")
    yield Command("no such file", ["solve", "nowhere"], None)
    yield Command("no such certificate", ["check", "newsvendor", "nowhere"], None)
    for name in ("cut", "unknown", "wide", "shop"):
        yield on_file("solve", name)
    yield on_file("demand", "lots")
    yield on_file("simulate", "newsvendor")
    yield on_file("simulate", "absent")


def all_commands():
    yield from of_kinds()
    yield from of_brackets()
    yield from of_checks()
    yield Command("help", ["help"], None)
    yield Command("trial 1", ["trial", "1"], None)
    yield from of_refusals()
