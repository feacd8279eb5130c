#!/usr/bin/env python3
"""Prints the answer of an instance, its cost (and span, where it has one) as a decimal too, and what the checker says of
its certificate. Of an average cost that is too wide for an exact fraction it prints the bracket.

    python3 examples/python/answer.py examples/newsvendor.json
"""
import sys

import stockreader

# The status of an instance whose exact numbers don't fit.
TOO_WIDE = 6


def bracket_told(instance):
    """The bracket of an instance, and what the checker says of its certificate."""
    found = stockreader.bracket(instance)
    return found, stockreader.check(instance, stockreader.certify(instance, ["bracket"]), ["bracket"])


def answer_told(instance):
    """The exact answer of an instance, or else its bracket, and what the checker says of the certificate."""
    try:
        return stockreader.solve(instance), stockreader.check(instance, stockreader.certify(instance))
    except stockreader.StockError as error:
        if error.status != TOO_WIDE:
            raise
        try:
            return bracket_told(instance)
        except stockreader.StockError:
            raise error


def main():
    if len(sys.argv) != 2:
        print("usage: answer.py INSTANCE", file=sys.stderr)
        return 2
    try:
        answer, verdict = answer_told(sys.argv[1])
    except (stockreader.StockError, OSError) as error:
        print(error, file=sys.stderr)
        return getattr(error, "status", 3)
    print("kind:", answer.kind)
    for line in answer.policy:
        print("policy:", ", ".join("%s %s" % pair for pair in line.items()))
    for word in ("cost", "lower", "upper", "span"):
        number = getattr(answer, word, None)
        if number is not None:
            print("%s: %s = %.*f" % (word, number, 6 if word in ("lower", "upper") else 4, number))
    print("certificate:", "accepted" if verdict.accepted else "rejected")
    return 0


if __name__ == "__main__":
    sys.exit(main())
