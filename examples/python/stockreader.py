"""A thin reader of `stock` in Python's standard library: it runs a command and gives the answer as data.

    import stockreader
    answer = stockreader.solve({"kind": "newsvendor", "holding": 1, "stockout": 3,
                                "demand": {"points": [[0, 1], [1, 1], [2, 1], [3, 1]]}})
    answer.policy   # [{"order-up-to": 2}]
    answer.cost     # Fraction(3, 2)

An instance is a dict, or the path of a JSON file. The program is the one that the variable STOCK of the environment
names, else `./stock` of the repository that this file lies in.
"""
import json
import os
import subprocess
import tempfile
from collections import namedtuple
from fractions import Fraction

HERE = os.path.dirname(os.path.abspath(__file__))
PROGRAM = os.path.join(HERE, "..", "..", "stock")

# The kind of the instance, the lines of the policy as dicts from a word to its number, and the exact cost. A period of a
# finite horizon that is no pair has its orders as a dict from a position to the one that is ordered up to. An average cost
# has its span too: n periods of the policy cost n * cost, give or take the span, and no policy costs less than
# n * cost - span.
Answer = namedtuple("Answer", "kind policy cost span", defaults=(None,))

# A pair, and what an average cost that is too wide for an exact fraction is known to lie between: no policy costs less than
# the lower bound a period, and the pair costs at most the upper one, over n periods give or take the span.
Bracket = namedtuple("Bracket", "kind policy lower upper span")

# Whether a certificate is accepted; else the first line that breaks a rule, and the rule.
Verdict = namedtuple("Verdict", "accepted line rule")

# The distribution of demand of a period (None where there is but one): demand -> probability.
Law = namedtuple("Law", "period probabilities")


class StockError(Exception):
    """The program gave no answer: its exit status, and its message."""

    def __init__(self, status, message):
        super().__init__(message)
        self.status = status


def run(words, instance):
    """The exit status (0 or 1) and the text of a command; the instance is given on standard input."""
    if isinstance(instance, dict):
        text = json.dumps(instance).encode()
    else:
        with open(instance, "rb") as file:
            text = file.read()
    done = subprocess.run([os.environ.get("STOCK", PROGRAM), *words], input=text,
                          stdout=subprocess.PIPE, stderr=subprocess.PIPE)
    if done.returncode > 1:
        raise StockError(done.returncode, done.stderr.decode().strip())
    return done.returncode, done.stdout.decode()


def pairs_of(line):
    """A line of words and numbers in turn, as a dict."""
    words = line.split()
    return dict(zip(words[::2], map(int, words[1::2])))


def policy_of(lines):
    """The lines of a policy as dicts; the lines of a period's table are put together."""
    policy = []
    for line in lines:
        words = line.split()
        if words[0] == "at":
            policy[-1]["orders"][int(words[1])] = int(words[3])
        elif words[-1] in ("never", "table"):
            policy.append({"period": int(words[1]), "orders": {}})
        else:
            policy.append(pairs_of(line))
    return policy


def solve(instance):
    """The optimal policy and its exact cost."""
    _, text = run(["solve"], instance)
    kind, *policy, _ = text.splitlines()
    numbers = {}
    while policy[-1].split()[0] in ("cost", "span"):
        word, number = policy.pop().split()
        numbers[word] = Fraction(number)
    return Answer(kind.split()[1], policy_of(policy), **numbers)


def order_up_to(line, position):
    """Where a line of the policy of a finite horizon or of an average cost orders up to from a position; the position
    itself where it doesn't order."""
    if "r" in line:
        line = {"s": line["r"], "S": line["r"] + line["Q"]}
    if "s" in line:
        return line["S"] if position <= line["s"] else position
    return line["orders"].get(position, position)


def stages_up_to(policy, period, stocks):
    """Where a serial policy raises the echelon stocks to in a period: each to its level, but no higher than the next
    echelon's stock; one that has reached its level stays."""
    levels = [line["S"] for line in policy if line["period"] == period]
    raised = [max(stock, level) for stock, level in zip(stocks, levels)]
    return [min(to, above) for to, above in zip(raised, stocks[1:])] + raised[-1:]


def bracket(instance):
    """The bracket of an average cost."""
    _, text = run(["bracket", "solve"], instance)
    kind, policy, *numbers, _ = text.splitlines()
    return Bracket(kind.split()[1], policy_of([policy]), *(Fraction(line.split()[1]) for line in numbers))


def certify(instance, part=()):
    """The text of the certificate; of a bracket's, where the part is ["bracket"]."""
    return run([*part, "certify"], instance)[1]


def check(instance, certificate, part=()):
    """What the checker says of a certificate's text, whoever wrote it."""
    with tempfile.NamedTemporaryFile("w", suffix=".certificate") as file:
        file.write(certificate)
        file.flush()
        status, text = run([*part, "check", "-", file.name], instance)
    if status == 0:
        return Verdict(True, None, None)
    _, _, line, _, rule = text.split()
    return Verdict(False, int(line), int(rule))


def demand(instance):
    """The distributions of demand, over the lead time where the kind has one."""
    laws = []
    period, weights = None, {}
    for line in run(["demand"], instance)[1].splitlines():
        first, second = line.split()
        if first == "period":
            period = int(second)
        elif first == "total":
            total = int(second)
            laws.append(Law(period, {size: Fraction(weight, total) for size, weight in weights.items()}))
            weights = {}
        else:
            weights[int(first)] = int(second)
    return laws
