#!/usr/bin/env python3
"""Holds docs/instance.schema.json against the reader, on every example and every case.

    python3 tests/check_schema.py [PROGRAM]

What the reader takes the schema has to take, so what the schema refuses the reader refuses; and the schema has to
refuse what it can: an unknown kind, a missing or unknown key, a wrong type. It needs the package jsonschema (Debian:
python3-jsonschema); where that is missing, this says so and ends with status 0. PROGRAM is what ./build makes, where
none is given; where that isn't there, the exit status is 2.
"""
import json
import os
import subprocess
import sys

from run_cases import CASES, EXAMPLES, HERE, PROGRAM, bytes_of

SCHEMA = os.path.join(HERE, "..", "docs", "instance.schema.json")
# Refusals of one key's shape or of the kind, which the schema has to tell too.
SHAPES = ("unknown kind", ": missing", ": unknown key", ": wrong type")


def no_constant(word):
    raise ValueError(word)


def texts():
    """The name and the bytes of every example, and of every input and file of a case."""
    for name in sorted(os.listdir(EXAMPLES)):
        if name.endswith(".json"):
            with open(os.path.join(EXAMPLES, name), "rb") as file:
                yield name, file.read()
    for name in sorted(os.listdir(CASES)):
        with open(os.path.join(CASES, name), encoding="utf-8") as file:
            case = json.load(file)
        if "stdin" in case:
            yield name, bytes_of(case["stdin"])
        for file_name, content in {**case.get("files", {}), **case.get("pipes", {})}.items():
            yield "%s of %s" % (file_name, name), bytes_of(content)


def whole(word):
    return word if word == "-0" else int(word)


def value_of(text):
    """The JSON value that the bytes spell, or None; a number that the reader takes for no whole one stands as a text."""
    try:
        return json.loads(text, parse_int=whole, parse_float=str, parse_constant=no_constant)
    except (ValueError, RecursionError):
        return None


def refusal_of(program, text):
    """The fault for which the reader refuses the instance, or None."""
    done = subprocess.run([program, "demand"], input=text, stdout=subprocess.DEVNULL, stderr=subprocess.PIPE)
    message = done.stderr.decode()
    return message if message.startswith("stock: instance") else None


def main():
    program = os.path.abspath(sys.argv[1] if len(sys.argv) > 1 else PROGRAM)
    if not os.access(program, os.X_OK):
        print("%s isn't built; ./build builds it" % os.path.relpath(program))
        return 2
    try:
        import jsonschema
    except ImportError:
        print("jsonschema is missing, so docs/instance.schema.json was not tried")
        return 0
    with open(SCHEMA, encoding="utf-8") as file:
        validator = jsonschema.Draft7Validator(json.load(file))
    validator.check_schema(validator.schema)
    passed = failed = 0
    for name, text in texts():
        value = value_of(text)
        if not isinstance(value, dict):
            continue
        takes = validator.is_valid(value)
        refusal = refusal_of(program, text)
        if not takes and refusal is None:
            failed += 1
            print("%s: the schema refuses what the reader takes" % name)
        elif takes and refusal is not None and any(shape in refusal for shape in SHAPES):
            failed += 1
            print("%s: the schema takes what the reader refuses: %s" % (name, refusal.strip()))
        else:
            passed += 1
    print("%d instances passed, %d failed" % (passed, failed))
    return 1 if failed else 0


if __name__ == "__main__":
    sys.exit(main())
