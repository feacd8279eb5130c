#!/usr/bin/env python3
"""Damages certificates in every small way, and holds what the program's check says against an independent checker.

    python3 tests/faults/run_damage.py [PROGRAM] [--long]

PROGRAM is the program that ./build makes, where none is given; where that isn't there, nothing is run and the exit
status is 2. The certificates are those that certify writes, which have to be the ones of standards.py. Each damaged
text is checked by the program and by reference.py, which is written from docs/FORMAT.md; both have to say the same
line and rule, with nothing on standard error. The short form takes some values for each byte and a fixed spread of
the strange lines and of the pairs of numbers; the long form takes every byte value, and gives each text on standard
input too. Before that the reference is held against the checks whose answers tests/cases states.

A line is printed for each disagreement, and at the end the counts of each certificate. The exit status is 1 where
there was a disagreement.
"""
import json
import os
import sys
import tempfile
import time

HERE = os.path.dirname(os.path.abspath(__file__))
sys.path.insert(0, os.path.dirname(HERE))

from damages import damages_of, instances_changed
from reference import verdict
from reference_bracket import bracket_verdict, certificate_of
from run_cases import CASES, EXAMPLES, bytes_of
from runs import in_threads, program_of, run
from standards import standard_of

THREADS = 3
# How many lines of disagreements are printed for one certificate.
TOLD = 20

ONE_OR_NONE = {"points": [[0, 1], [1, 1]]}
CERTIFICATES = {
    "newsvendor": {
        "kind": "newsvendor", "holding": 1, "stockout": 3, "demand": {"points": [[0, 1], [1, 1], [2, 2], [4, 1]]}},
    "lots": {
        "kind": "lots", "demand": [3, 0, 5, 2], "setup": [7, 4, 9, 6], "holding": [1, 2, 1, 1], "unit": [2, 1, 2, 3]},
    "finite": {
        "kind": "finite", "periods": 2, "setup": 1, "holding": 1, "stockout": 3, "demand": ONE_OR_NONE, "cap": 2,
        "start": 0},
    "finite with every key": {
        "kind": "finite", "periods": 2, "lead": 1, "setup": 2, "unit": 1, "holding": 1, "stockout": 4,
        "end_holding": 1, "end_stockout": 3, "discount": [2, 3], "most": 2, "total": 4,
        "demand": [{"points": [[0, 1], [1, 3]]}, {"uniform": [0, 1]}, {"binomial": [2, 1, 2]}], "cap": 2,
        "start": -1},
    "average": {
        "kind": "average", "setup": 2, "holding": 1, "stockout": 3, "demand": ONE_OR_NONE, "floor": -1, "cap": 3},
    "average with a lead time": {
        "kind": "average", "lead": 1, "setup": 3, "holding": 2, "stockout": 5,
        "demand": {"points": [[0, 1], [1, 2], [3, 1]]}, "floor": 1, "cap": 5},
    "average of positions owed": {
        "kind": "average", "setup": 1, "holding": 3, "stockout": 1, "demand": ONE_OR_NONE, "floor": -4, "cap": -2},
    "average of positions above demand": {
        "kind": "average", "setup": 1, "holding": 1, "stockout": 2, "demand": {"points": [[1, 1], [2, 2]]}, "floor": 4,
        "cap": 6},
    "average of lots": {
        "kind": "average", "setup": 4, "holding": 1, "stockout": 2, "demand": {"points": [[0, 3], [1, 1]]},
        "floor": -1, "cap": 2, "policy": "rQ"},
    "serial": {
        "kind": "serial", "periods": 2, "holding": [1, 2], "stockout": 5, "demand": ONE_OR_NONE, "cap": 1,
        "start": [0, 1]},
    "serial with every key": {
        "kind": "serial", "periods": 2, "holding": [1, 2], "unit": [1, 2], "stockout": 9, "discount": [2, 3],
        "total": 4, "demand": [{"points": [[0, 1], [2, 3]]}, {"uniform": [0, 1]}], "cap": 1, "start": [-1, 1]},
}

# What is asked behind the word of a part.
BRACKETS = {
    "bracket": {
        "kind": "average", "setup": 2, "holding": 1, "stockout": 3, "demand": ONE_OR_NONE, "floor": -1, "cap": 3},
    "bracket of rounded numbers": {
        "kind": "average", "lead": 1, "setup": 3, "holding": 2, "stockout": 5,
        "demand": {"points": [[0, 1], [1, 2], [3, 1]]}, "floor": 1, "cap": 5},
}


class Part:
    """What commands are about: the words before theirs, a second checker, and the certificate that the solver writes."""

    def __init__(self, words, verdict, standard):
        self.words, self.verdict, self.standard = words, verdict, standard


KINDS = Part([], verdict, standard_of)
BRACKET = Part(["bracket"], bracket_verdict, certificate_of)


def case_input(case, name):
    """The bytes of an input of a case."""
    if name == "-":
        return bytes_of(case.get("stdin"))
    for kind in ("files", "pipes"):
        if name in case.get(kind, {}):
            return bytes_of(case[kind][name])
    with open(os.path.join(EXAMPLES, name), "rb") as file:
        return file.read()


def stated_checks():
    """For each case that states a verdict or a certificate: its name, its part, the instance, the text and the answer."""
    for file_name in sorted(os.listdir(CASES)):
        with open(os.path.join(CASES, file_name), encoding="utf-8") as file:
            case = json.load(file)
        part, words = KINDS, case["args"]
        if words[:1] == BRACKET.words:
            part, words = BRACKET, words[1:]
        if words[:1] == ["check"] and len(words) == 3 and case["status"] in (0, 1):
            yield file_name, part, case_input(case, words[1]), case_input(case, words[2]), case["out"]
        elif words[:1] == ["certify"] and case["status"] == 0:
            yield file_name, part, case_input(case, (words + ["-"])[1]), case["out"].encode(), "accepted\n"


def cases_differ():
    """Holds the reference against the stated checks; how many there are, and how many differ."""
    count = faults = 0
    for name, part, instance, text, answer in stated_checks():
        said = part.verdict(json.loads(instance), text) + "\n"
        count += 1
        if said != answer:
            faults += 1
            print("%s: the case has %r, the reference %r" % (name, answer, said))
    return count, faults


class Damaged:
    """The checks of one certificate, in several threads; each has files of its own."""

    def __init__(self, program, name, folder, long, part=KINDS):
        self.program, self.name, self.folder, self.long, self.part = program, name, folder, long, part
        self.instance = instances_of(part)[name]
        self.path = self.write("instance", json.dumps(self.instance).encode())
        self.counts = {"texts": 0, "accepted": 0, "disagreements": 0}

    def write(self, file_name, content):
        path = os.path.join(self.folder, file_name)
        with open(path, "wb") as file:
            file.write(content)
        return path

    def differ(self, damage, expected, answer):
        self.counts["disagreements"] += 1
        if self.counts["disagreements"] <= TOLD:
            print("%s, %s: expected %r, the program has %r" % (self.name, damage, expected, answer))

    def compare(self, instance_path, instance, damage, text, thread):
        """One text, by a file and in the long form by standard input."""
        said = self.part.verdict(instance, text)
        expected = ((said + "\n").encode(), b"", 0 if said == "accepted" else 1)
        path = self.write("certificate-%d" % thread, text)
        ways = [("", [path], None)] + ([(" (standard input)", ["-"], text)] if self.long else [])
        for way, words, given in ways:
            answer = run(self.program, self.part.words + ["check", instance_path] + words, given)
            if answer != expected:
                self.differ(damage + way, expected, answer)
        self.counts["texts"] += 1
        self.counts["accepted"] += said == "accepted"

    def compare_instance(self, changed, damage, text, thread):
        """The whole certificate for another instance; an instance that solve refuses is refused alike."""
        path = self.write("instance-%d" % thread, json.dumps(changed).encode())
        out, message, status = run(self.program, self.part.words + ["solve", path])
        if status == 0:
            self.compare(path, changed, damage, text, thread)
            return
        certificate = self.write("certificate-%d" % thread, text)
        answer = run(self.program, self.part.words + ["check", path, certificate])
        self.counts["texts"] += 1
        if answer != (b"", message, status) or out or status not in (3, 6):
            self.differ(damage, (b"", message, status), answer)

    def run(self, texts):
        """All checks of the certificate; `texts` are the certificates of all names of the part."""
        own, instances = texts[self.name], instances_of(self.part)
        if own != self.part.standard(self.instance):
            self.differ("certify", self.part.standard(self.instance), own)
        kind = self.instance["kind"]
        others = [texts[name] for name in texts if name != self.name and (self.part is BRACKET or instances[name]["kind"] != kind)]
        in_threads(THREADS, damages_of(self.instance, own, others, self.long),
                   lambda thread, damage: self.compare(self.path, self.instance, *damage, thread))
        changed = list(instances_changed(self.instance))
        changed += [("the instance of %s" % name, instances[name]) for name in texts if name != self.name]
        in_threads(THREADS, changed,
                   lambda thread, one: self.compare_instance(one[1], one[0], own, thread))


def instances_of(part):
    return BRACKETS if part is BRACKET else CERTIFICATES


def certificates_of(program, folder, part):
    """The program's certificate of each name, or None after a line that says which there is none of."""
    texts = {}
    for name, instance in instances_of(part).items():
        path = os.path.join(folder, "instance")
        with open(path, "w", encoding="utf-8") as file:
            json.dump(instance, file)
        out, message, status = run(program, part.words + ["certify", path])
        if status != 0 or message or not out:
            print("%s: certify has %r, %r, %r" % (name, out, message, status))
            return None
        texts[name] = out
    return texts


def main():
    program, long = program_of(sys.argv[1:])
    if program is None:
        return 2
    begin = time.time()
    cases, faults = cases_differ()
    parts, total = [], 0
    with tempfile.TemporaryDirectory() as folder:
        for part in (KINDS, BRACKET):
            texts = certificates_of(program, folder, part)
            if texts is None:
                return 1
            for name in texts:
                damaged = Damaged(program, name, folder, long, part)
                damaged.run(texts)
                counts = damaged.counts
                faults += counts["disagreements"]
                total += counts["texts"]
                parts.append("%s %d (%d accepted)" % (name, counts["texts"], counts["accepted"]))
    print("%d stated checks; %s: %d damages, %d disagreements, %d seconds"
          % (cases, ", ".join(parts), total, faults, round(time.time() - begin)))
    return 1 if faults else 0


if __name__ == "__main__":
    sys.exit(main())
