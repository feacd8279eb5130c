"""Damaged certificates and changed instances.

A damage is a pair: what was done, and the text that is left.
"""
import json
import re

from reference_rules import Average

GREATEST = 2 ** 120
NUMBER = re.compile(rb"-?[0-9]+")


def byte_name(value):
    return repr(chr(value)) if 32 < value < 127 else "0x%02x" % value


def few_values(value):
    """What a byte is changed to in the short form: another digit, a blank, a line feed, a minus, a letter."""
    digit = ord("0") + (value - ord("0") + 1) % 10 if chr(value).isdigit() else ord("1")
    return [digit, *b" \n-a"]


def all_values(_):
    return range(256)


def bytes_changed(text, values):
    for place, old in enumerate(text):
        for new in values(old):
            if new != old:
                yield "byte %d changed to %s" % (place, byte_name(new)), text[:place] + bytes([new]) + text[place + 1:]


def bytes_moved(text):
    """Each byte left out, doubled, and all bytes behind it cut off."""
    yield "cut to nothing", b""
    for place in range(len(text)):
        yield "byte %d left out" % place, text[:place] + text[place + 1:]
        yield "byte %d doubled" % place, text[:place + 1] + text[place:]
        yield "cut after byte %d" % place, text[:place + 1]


def lines_moved(text):
    """Each line left out, twice, and swapped with the next one."""
    lines = text.splitlines(keepends=True)
    for place in range(len(lines)):
        yield "line %d left out" % (place + 1), b"".join(lines[:place] + lines[place + 1:])
        yield "line %d twice" % (place + 1), b"".join(lines[:place + 1] + lines[place:])
        if place + 1 < len(lines):
            swapped = lines[:place] + [lines[place + 1], lines[place]] + lines[place + 2:]
            yield "lines %d and %d swapped" % (place + 1, place + 2), b"".join(swapped)


def lines_put_in(text, others):
    """Each line of the other certificates before and in place of each line."""
    lines = text.splitlines(keepends=True)
    strange = []
    for other in others:
        strange += [line for line in other.splitlines(keepends=True) if line not in strange]
    for line in strange:
        name = line.decode().rstrip()
        for place in range(len(lines) + 1):
            yield "%s put in as line %d" % (name, place + 1), b"".join(lines[:place] + [line] + lines[place:])
            if place < len(lines):
                yield ("%s in place of line %d" % (name, place + 1),
                       b"".join(lines[:place] + [line] + lines[place + 1:]))


def replaced(text, match, new):
    return text[:match.start()] + new + text[match.end():]


def numbers_changed(text, more=()):
    """Each number one higher, one lower, and in other ways; `more` are further differences."""
    past = [b"%d" % (sign * (GREATEST + step)) for sign in (1, -1) for step in (-1, 0, 1)]
    for place, match in enumerate(NUMBER.finditer(text), 1):
        old = match.group()
        near = [b"%d" % (int(old) + step) for step in (1, -1, *more)]
        odd = [b"0", b"-0", b"+1", b"007", b"00", b"0" + old, b"-" + old.lstrip(b"-"), old.lstrip(b"-"), b"1" * 150]
        for new in near + odd + past:
            name = new.decode() if len(new) < 60 else "%d digits" % len(new)
            yield "number %d, %s, replaced by %s" % (place, old.decode(), name), replaced(text, match, new)


def two_numbers_changed(text):
    """Each two numbers one higher or one lower."""
    matches = list(NUMBER.finditer(text))
    for place, first in enumerate(matches):
        for second in matches[place + 1:]:
            for one, two in ((1, 1), (1, -1), (-1, 1), (-1, -1)):
                changed = replaced(text, second, b"%d" % (int(second.group()) + two))
                changed = replaced(changed, first, b"%d" % (int(first.group()) + one))
                names = first.group().decode(), second.group().decode()
                yield "%s and %s changed by %d and %d" % (*names, one, two), changed


def places_of(value, path=()):
    """The paths of all numbers in a JSON value."""
    if isinstance(value, int):
        yield path
    elif isinstance(value, (list, dict)):
        for key, part in value.items() if isinstance(value, dict) else enumerate(value):
            yield from places_of(part, path + (key,))


def instances_changed(instance):
    """The instance with each of its numbers changed by one and by two."""
    for path in places_of(instance):
        for step in (1, -1, 2, -2):
            changed = json.loads(json.dumps(instance))
            place = changed
            for key in path[:-1]:
                place = place[key]
            place[path[-1]] += step
            yield "%s of the instance changed by %d" % (".".join(map(str, path)), step), changed


def spread(damages, most):
    """At most so many of the damages, from all over the list; all of them where `most` is None."""
    damages = list(damages)
    if most is None or len(damages) <= most:
        return damages
    return [damages[place * len(damages) // most] for place in range(most)]


def gains_changed(instance, text):
    """The average cost of a certificate replaced by fractions at the bounds of what may stand there."""
    if instance["kind"] != "average":
        return
    rules = Average(instance)
    most, top = rules.greatest_denominator(), rules.setup + rules.greatest_cost()
    lines = text.splitlines(keepends=True)
    for number, denominator in ((top, 1), (top + 1, 1), (top * most - 1, most), (top * most + 1, most), (1, most),
                                (1, most + 1), (top * (most - 1) + 1, most - 1)):
        gain = b"g %d %d\n" % (number, denominator)
        yield "line 2 replaced by " + gain.decode().rstrip(), b"".join(lines[:1] + [gain] + lines[2:])


def damages_of(instance, text, others, long):
    """All damages of a certificate, each text once, and before them the text as it stands."""
    limit = None if long else 100
    sorts = [[("as it stands", text)], gains_changed(instance, text),
             bytes_changed(text, all_values if long else few_values), bytes_moved(text), lines_moved(text),
             spread(lines_put_in(text, others), limit), numbers_changed(text, range(-9, 10) if long else ()),
             spread(two_numbers_changed(text), 5000 if long else limit)]
    seen = set()
    for sort in sorts:
        for name, damaged in sort:
            if damaged not in seen:
                seen.add(damaged)
                yield name, damaged
