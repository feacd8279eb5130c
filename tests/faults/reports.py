"""What `stock solve` prints, written from docs/FORMAT.md alone, for an instance and an accepted certificate of it."""
from fractions import Fraction

from laws import law_of, laws_of, rates_of


def lines_of(certificate):
    """The lines behind the first one, each as its word and its numbers."""
    for line in certificate.decode().splitlines()[1:]:
        word, *numbers = line.split(" ")
        yield word, [int(number) for number in numbers]


def newsvendor_lines(instance, lines):
    (_, (level,)), (_, (cost,)), _ = lines
    return ["order-up-to %d" % level, "cost %s" % Fraction(cost, sum(law_of(instance["demand"])))]


def lots_lines(_, lines):
    orders = ["period %d order %d" % (period, numbers[0])
              for period, (word, numbers) in enumerate(lines, 1) if word == "o"]
    return orders + ["cost %d" % numbers[0] for word, numbers in lines if word == "cost"]


def shape_of(choices):
    """The words for a period's choices, a list of positions and what they order up to from the lowest up."""
    ordering = [(position, choice) for position, choice in choices if choice > position]
    if not ordering:
        return ["never"]
    count = len(ordering)
    if ordering == choices[:count] and len({choice for _, choice in ordering}) == 1:
        return ["s %d S %d" % ordering[-1]]
    return ["table"] + ["at %d to %d" % one for one in ordering]


def finite_lines(instance, lines):
    periods, value = {}, None
    for word, numbers in lines:
        if word == "t":
            period = numbers[0]
            periods[period] = []
        elif word == "v":
            periods[period].append(tuple(numbers[:2]))
            if period == 1 and numbers[0] == instance["start"]:
                value = numbers[2]
    told = []
    for period in sorted(periods):
        first, *more = shape_of(periods[period][::-1])
        told += ["period %d %s" % (period, first)] + more
    lead = instance.get("lead", 0)
    weights = sum(laws_of(instance, 1)[0])
    b = instance.get("discount", [1, 1])[1]
    scale = weights ** (instance["periods"] + lead) * b ** instance["periods"]
    return told + ["cost %s" % Fraction(value, scale)]


def average_lines(instance, lines):
    (_, (number, denominator)), (_, (low, high)) = lines[:2]
    law = law_of(instance["demand"])
    scale = denominator * sum(law) ** instance.get("lead", 0)
    span = Fraction(instance.get("setup", 0))
    for word, numbers in lines[2:]:
        if word == "p":
            scale *= sum(law[1:])
            span = max(span, Fraction(max(numbers[1:]), scale))
    pair = "s %d S %d" % (low, high) if instance.get("policy", "sS") == "sS" else "r %d Q %d" % (low, high - low)
    return [pair, "cost %s" % Fraction(number, denominator), "span %s" % span]


def serial_lines(instance, lines):
    echelons = len(instance["holding"])
    start = rates_of(instance["start"], echelons)
    levels, value = {}, 0
    for word, numbers in lines:
        if word == "t":
            period = numbers[0]
        elif word == "e":
            echelon = numbers[0]
            levels[period, echelon] = numbers[1]
        elif word == "f" and period == 1 and numbers[0] == start[echelon - 1]:
            value += numbers[1]
    told = ["period %d echelon %d S %d" % (*place, levels[place]) for place in sorted(levels)]
    b = instance.get("discount", [1, 1])[1]
    scale = (b * sum(laws_of(instance, 1)[0])) ** instance["periods"]
    return told + ["cost %s" % Fraction(value, scale)]


LINES = {"newsvendor": newsvendor_lines, "lots": lots_lines, "finite": finite_lines, "average": average_lines,
         "serial": serial_lines}


def solve_text(instance, certificate):
    kind = instance["kind"]
    told = LINES[kind](instance, list(lines_of(certificate)))
    return "\n".join(["kind " + kind] + told + ["optimal", ""]).encode()
