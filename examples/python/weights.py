#!/usr/bin/env python3
"""Makes the law of a demand: whole weights that add up to a total, each as near to its share as that allows.

    python3 examples/python/weights.py poisson MEAN TOTAL
    python3 examples/python/weights.py normal MEAN DEVIATION TOTAL
    python3 examples/python/weights.py negative-binomial MEAN VARIANCE TOTAL
    python3 examples/python/weights.py observed TOTAL < FILE

prints the value of the key `demand`. A normal demand is rounded to whole units, and what would be below 0 is 0. FILE has
the observed demands, blanks or line feeds between them. Weights are rounded by largest remainders: each share is rounded
down, and what is left of the total goes, one by one, to the largest fractions.
"""
import json
import sys
from collections import Counter
from decimal import Decimal, getcontext
from statistics import NormalDist

getcontext().prec = 60


def rounded(shares, total):
    """Pairs of a demand and its weight, of the shares of the demands from 0 on, which add up to nearly 1."""
    wanted = [Decimal(share) * total for share in shares]
    weights = [int(one) for one in wanted]
    by_rest = sorted(range(len(wanted)), key=lambda demand: (weights[demand] - wanted[demand], demand))
    for demand in by_rest[:total - sum(weights)]:
        weights[demand] += 1
    return [[demand, weight] for demand, weight in enumerate(weights) if weight]


def until_small(share, next_share, mean, total):
    """Shares from that of demand 0 on, until they are of no weight; each is made of the one before it."""
    shares = []
    while len(shares) <= mean or share * total > Decimal("1e-9"):
        shares.append(share)
        share = next_share(share, len(shares))
    return shares


def poisson(mean, total):
    mean = Decimal(mean)
    return rounded(until_small((-mean).exp(), lambda share, demand: share * mean / demand, mean, total), total)


def negative_binomial(mean, variance, total):
    """The variance is above the mean."""
    mean, variance = Decimal(mean), Decimal(variance)
    size, failing = mean * mean / (variance - mean), 1 - mean / variance
    first = ((1 - failing).ln() * size).exp()
    return rounded(until_small(first, lambda share, demand: share * failing * (size + demand - 1) / demand, mean, total),
                   total)


def normal(mean, deviation, total):
    law = NormalDist(float(mean), float(deviation))
    most = int(law.mean + 8 * law.stdev) + 1
    below = [0.0] + [law.cdf(demand + 0.5) for demand in range(most)] + [1.0]
    return rounded([after - before for before, after in zip(below, below[1:])], total)


def observed(demands, total):
    counts = Counter(demands)
    return rounded([Decimal(counts[demand]) / len(demands) for demand in range(max(counts) + 1)], total)


MAKERS = {"poisson": (poisson, 1), "normal": (normal, 2), "negative-binomial": (negative_binomial, 2)}


def main():
    words = sys.argv[1:]
    if words[:1] == ["observed"] and len(words) == 2:
        points = observed([int(word) for word in sys.stdin.read().split()], int(words[1]))
    elif words and words[0] in MAKERS and len(words) == MAKERS[words[0]][1] + 2:
        points = MAKERS[words[0]][0](*words[1:-1], int(words[-1]))
    else:
        print(__doc__, file=sys.stderr)
        return 2
    print(json.dumps({"points": points}))
    return 0


if __name__ == "__main__":
    sys.exit(main())
