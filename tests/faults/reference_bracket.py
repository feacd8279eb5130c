"""What docs/FORMAT.md says of brackets: the rules of their certificates, and the one that the solver writes.

Tables are in millionths; place k of a table is the position floor + k.
"""
import re

from laws import StockCost, law_of, law_of_sum

PARTS = 1000000
GREATEST = 2 ** 120
# A line's bytes with its line feed.
LONGEST = 255

HEAD = "certificate 1 bracket"
ROW = re.compile("([a-z])((?: (?:0|-?[1-9][0-9]*)){1,4})")


class BracketAverage:
    """The rules on the lines of a bracket of an average cost, taken line by line as in reference_rules.py."""

    def __init__(self, instance):
        self.lead, self.setup = instance.get("lead", 0), PARTS * instance.get("setup", 0)
        self.floor, self.cap = instance["floor"], instance["cap"]
        self.positions = self.cap - self.floor + 1
        self.law = law_of(instance["demand"])
        self.weights = sum(self.law)
        self.moving = self.weights - self.law[0]
        self.terms = [(demand, weight) for demand, weight in enumerate(self.law) if weight and demand]
        lead_law = law_of_sum([self.law] * (self.lead + 1))
        cost = StockCost(lead_law, instance["holding"], instance["stockout"])
        scale = self.weights ** (self.lead + 1)
        costs = [PARTS * cost.at(self.floor + place) for place in range(self.positions)]
        self.low_costs = [one // scale for one in costs]
        self.up_costs = [-(-one // scale) for one in costs]
        shortage = max(len(lead_law) - 1 - self.floor, 0)
        greatest = 1 + instance["holding"] * max(self.cap, 0) + instance["stockout"] * shortage
        self.most = self.setup + PARTS * greatest
        self.told = []
        self.under, self.over = [], []

    def ahead(self, table, place):
        """The sum over the demands above 0."""
        return sum(weight * (table[place - demand] if demand <= place else self.setup)
                   for demand, weight in self.terms)

    def broken(self, word, numbers):
        """The least rule from 2 on that the next line breaks, or None."""
        place = len(self.told) - 2
        wanted = ("g", "s")[len(self.told)] if place < 0 else "p" if place < self.positions else "end"
        if word != wanted or len(numbers) != {"g": 2, "s": 2, "p": 3, "end": 0}[word]:
            return 2
        if word == "p" and numbers[0] != self.floor + place:
            return 2
        self.told.append(word)
        if word == "g":
            self.lower, self.upper = numbers
            return None if all(0 <= number <= self.most for number in numbers) else 3
        if word == "s":
            self.low, self.high = numbers
            return None if self.floor - 1 <= self.low < self.high <= self.cap else 4
        return self.entries_broken(place, *numbers) if word == "p" else None

    def entries_broken(self, place, position, under, over):
        kept = self.weights * (self.low_costs[place] - self.lower) + self.ahead(self.under, place)
        if not 0 <= under <= self.setup or self.moving * under > kept:
            return 5
        if abs(over) > 2 * self.positions * self.most * self.weights:
            return 6
        kept = self.weights * (self.up_costs[place] - self.upper) + self.ahead(self.over, place)
        if over != self.setup if position <= self.low else self.moving * over < kept:
            return 6
        if position == self.high and over > 0:
            return 7
        self.under.append(under)
        self.over.append(over)
        return None

    # ---- the solver's certificate
    def under_table(self, lower):
        """The greatest entries with a lower bound, and what keeping each place is worth; None where there are none."""
        entries, worths = [], []
        for place in range(self.positions):
            worth = (self.weights * (self.low_costs[place] - lower) + self.ahead(entries, place)) // self.moving
            if worth < 0:
                return None
            worths.append(worth)
            entries.append(min(self.setup, worth))
        return entries, worths

    def over_table(self, upper, low):
        """The least entries with an upper bound and this lower position of the pair."""
        entries = []
        for place in range(self.positions):
            kept = self.weights * (self.up_costs[place] - upper) + self.ahead(entries, place)
            entries.append(self.setup if self.floor + place <= low else -(-kept // self.moving))
        return entries

    def lines(self):
        """The words and numbers of the solver's lines behind the head."""
        least, most = 0, self.most
        while least < most:
            middle = (least + most + 1) // 2
            if self.under_table(middle):
                least = middle
            else:
                most = middle - 1
        lower = least
        under, worths = self.under_table(lower)
        high = worths.index(min(worths))
        orders = next((place for place in range(high) if under[place] != self.setup), high)
        low = self.floor + orders - 1
        least, most = 0, self.most
        while least < most:
            middle = (least + most) // 2
            if self.over_table(middle, low)[high] <= 0:
                most = middle
            else:
                least = middle + 1
        over = self.over_table(least, low)
        yield "g", [lower, least]
        yield "s", [low, self.floor + high]
        for place in range(self.positions):
            yield "p", [self.floor + place, under[place], over[place]]
        yield "end", []


class BracketText:
    """Takes a text line by line."""

    def __init__(self, instance):
        self.rules = BracketAverage(instance)
        self.place = "start"

    def broken(self, line):
        """The least rule that the next line breaks, or None."""
        if len(line) + 1 > LONGEST or not line.isascii():
            return 1
        text = line.decode("ascii")
        if self.place == "start" and text == HEAD:
            self.place = "rows"
            return None
        if self.place != "rows":
            return 1
        if text == "end":
            self.place = "ended"
            return self.rules.broken("end", [])
        row = ROW.fullmatch(text)
        if row is None:
            return 1
        numbers = [int(word) for word in row.group(2).split()]
        return self.rules.broken(row.group(1), numbers) if all(abs(one) <= GREATEST for one in numbers) else 1


def bracket_verdict(instance, text):
    """What `bracket check` says of the bytes."""
    checker = BracketText(instance)
    lines = text.split(b"\n")
    unfinished = lines.pop()
    for number, line in enumerate(lines, 1):
        rule = checker.broken(line)
        if rule is not None:
            return "rejected line %d rule %d" % (number, rule)
    if unfinished or checker.place != "ended":
        return "rejected line %d rule 1" % (len(lines) + 1)
    return "accepted"


def certificate_of(instance):
    """The bytes of the certificate that `bracket certify` writes."""
    lines = ["certificate 1 bracket"]
    for word, numbers in BracketAverage(instance).lines():
        lines.append(" ".join([word] + list(map(str, numbers))))
    return "\n".join(lines + [""]).encode()
