#!/usr/bin/env python3
"""An independent checker of certificates, written from docs/FORMAT.md alone, for instances that are valid.

    python3 tests/faults/reference.py INSTANCE CERTIFICATE

prints what `stock check` prints, with the same status.
"""
import json
import re
import sys

from reference_rules import RULES, head_of

GREATEST = 2 ** 120
# A line's bytes with its line feed.
LONGEST = 127
DISCOUNTED = ("finite", "serial")

NATURAL, WHOLE = r"(0|[1-9][0-9]*)", r"(0|-?[1-9][0-9]*)"
FORMS = {"q": [NATURAL], "o": [NATURAL, NATURAL], "cost": [NATURAL], "t": [NATURAL], "v": [WHOLE, WHOLE, NATURAL],
         "g": [NATURAL, NATURAL], "s": [WHOLE, WHOLE], "p": [WHOLE, NATURAL, NATURAL], "e": [NATURAL, WHOLE],
         "f": [WHOLE, WHOLE], "end": []}
PATTERNS = {word: re.compile(" ".join([word] + numbers)) for word, numbers in FORMS.items()}

# For each kind the words that may stand behind each word.
FOLLOW = {
    "newsvendor": {"certificate": ["q"], "q": ["cost"], "cost": ["end"]},
    "lots": {"certificate": ["o"], "o": ["o", "cost"], "cost": ["end"]},
    "finite": {"certificate": ["t"], "t": ["v"], "v": ["v", "t", "end"]},
    "average": {"certificate": ["g"], "g": ["s"], "s": ["p"], "p": ["p", "end"]},
    "serial": {"certificate": ["t"], "t": ["e"], "e": ["f"], "f": ["f", "e", "t", "end"]},
}


def head_words(line):
    """The words behind `certificate` of a first line, or None."""
    words = line.split(" ")
    if words[0] != "certificate":
        return None
    if len(words) == 3 and words[1] == "1" and words[2] in FOLLOW:
        return words[1:]
    if len(words) != 5 or words[1] != "2" or words[2] not in DISCOUNTED:
        return None
    if not all(re.fullmatch("[1-9][0-9]{0,3}", word) for word in words[3:]):
        return None
    a, b = int(words[3]), int(words[4])
    return words[1:] if a <= b <= 1000 and (a, b) != (1, 1) else None


def line_of(line, words):
    """The word and the numbers of a line that begins with one of the words, or None."""
    for word in words:
        match = PATTERNS[word].fullmatch(line)
        if match:
            numbers = [int(number) for number in match.groups()]
            return (word, numbers) if all(abs(number) <= GREATEST for number in numbers) else None
    return None


class Checker:
    """Takes a certificate line by line."""

    def __init__(self, instance):
        self.head = head_of(instance)
        self.rules = RULES[instance["kind"]](instance)
        self.kind, self.word = None, None

    def broken(self, line):
        """The least rule that the next line breaks, or None."""
        if self.word == "end" or len(line) + 1 > LONGEST:
            return 1
        try:
            text = line.decode("ascii")
        except UnicodeDecodeError:
            return 1
        if self.word is None:
            words = head_words(text)
            if words is None:
                return 1
            self.kind, self.word = words[1], "certificate"
            return None if words == self.head else 2
        read = line_of(text, FOLLOW[self.kind][self.word])
        if read is None:
            return 1
        self.word = read[0]
        return self.rules.broken(*read)


def verdict(instance, text):
    """What a check of the bytes says of the instance."""
    checker = Checker(instance)
    lines = text.split(b"\n")
    unfinished = lines.pop()
    for number, line in enumerate(lines, 1):
        rule = checker.broken(line)
        if rule is not None:
            return "rejected line %d rule %d" % (number, rule)
    if unfinished or checker.word != "end":
        return "rejected line %d rule 1" % (len(lines) + 1)
    return "accepted"


def main():
    with open(sys.argv[1], encoding="utf-8") as file:
        instance = json.load(file)
    with open(sys.argv[2], "rb") as file:
        answer = verdict(instance, file.read())
    print(answer)
    return 0 if answer == "accepted" else 1


if __name__ == "__main__":
    sys.exit(main())
