#!/usr/bin/env python3
"""Checks deploy.schema.json: good deployments pass it, and each one with a fault of shape that a schema can see fails it.

    docs/check_schema.py            the examples and the table below
    docs/check_schema.py FOLDER     besides the cases of FOLDER, each a folder with deploy.json and steps.json

Without the library jsonschema it says so and ends with 0.
"""
import copy
import json
import pathlib
import re
import sys

try:
    from jsonschema import Draft202012Validator, validators
except ImportError:
    sys.exit(print("check_schema: skipped, there is no Python library jsonschema here"))

HERE = pathlib.Path(__file__).resolve().parent
PRIORITY = "/services/0/priority"


def is_integer(checker, value):
    return isinstance(value, int) and not isinstance(value, bool)


def whole(text):
    """A number without fraction and exponent; -0 is none, as for the program."""
    return float(text) if text == "-0" else int(text)


def reading(text):
    return json.loads(text, parse_int=whole)


def validator():
    types = Draft202012Validator.TYPE_CHECKER.redefine("integer", is_integer)
    kind = validators.extend(Draft202012Validator, type_checker=types)
    schema = json.loads((HERE / "deploy.schema.json").read_text())
    kind.check_schema(schema)
    return kind(schema)


GONE = object()
# Each row: the JSON pointer that is set in the prepaid example, the value (GONE takes the member out), the fault.
FAULTS = [
    ("", [], "type"), ("/events", {}, "type"), ("/events/0", 1, "type"), ("/events/0/key", 1, "type"),
    ("/events/0/fields", [], "type"), ("/events/0/fields/addr", 1, "type"), ("/profiles/0/attributes", None, "type"),
    ("/profiles/0/unique", "seconds", "type"), ("/tables", [], "type"), ("/tables/accounts", 1, "type"),
    ("/blocks/0/fields/who", True, "type"), ("/blocks/0/aliases", [], "type"), ("/blocks/0/relations", {"leg": 1}, "type"),
    ("/blocks/0/events/0/initial", None, "type"), ("/blocks/0/events/0/initial/0", 1, "type"), ("/blocks/0/events/0/mask", "true", "type"),
    ("/blocks/0/events/0/on", 1, "type"), ("/blocks/0/events/0/on/0", 1, "type"), ("/blocks/0/exception", None, "type"),
    ("/blocks/0/methods", {"m": {"do": "", "returns": 1}}, "type"), ("/blocks/0/methods", {"m": {"do": "", "params": {}}}, "type"),
    (PRIORITY, "1", "type"), (PRIORITY, 1.0, "type"), (PRIORITY, -0.0, "type"), (PRIORITY, 9223372036854775808, "type"), ("/services/0/active", 1, "type"),
    ("/events/0/key", GONE, "missing"), ("/events/0/version", GONE, "missing"), ("/blocks/0/events/0/event", GONE, "missing"),
    ("/blocks/0/events/0/on", GONE, "missing"), ("/blocks/0/events/0/initial", ["custom"], "missing"),
    ("/blocks/0/events/0/custom", {"rule": "whole"}, "missing"), ("/blocks/0/relations", {"leg": {}}, "missing"),
    ("/blocks/0/methods", {"m": {}}, "missing"), ("/blocks/0/methods", {"m": {"do": "", "params": [{"name": "n"}]}}, "missing"),
    ("/services/0/root", GONE, "missing"),
    ("/x", 1, "unknown-member"), ("/events/0/x", 1, "unknown-member"), ("/blocks/0/x", 1, "unknown-member"), ("/profiles/0/fields", {}, "unknown-member"),
    ("/blocks/0/events/0/x", 1, "unknown-member"), ("/services/0/x", 1, "unknown-member"), ("/blocks/0/relations", {"leg": {"block": "call", "x": 1}}, "unknown-member"),
    ("/blocks/0/methods", {"m": {"do": "", "x": 1}}, "unknown-member"),
    ("/events/0/key", "Invite", "bad-name"), ("/events/0/key", "", "bad-name"), ("/events/0/key", "a" * 65, "bad-name"), ("/events/0/fields", {"Addr": "text"}, "bad-name"),
    ("/tables", {"1a": "account"}, "bad-name"), ("/blocks/0/fields", {"a-b": "int"}, "bad-name"), ("/blocks/0/relations", {"": {"block": "call"}}, "bad-name"),
    ("/blocks/0/methods", {"M": {"do": ""}}, "bad-name"), ("/blocks/0/attributes", {"a b": "int"}, "bad-name"),
    ("/blocks/0/methods", {"m": {"do": "", "params": [{"name": "N", "type": "int"}]}}, "bad-name"),
]
# What a deployment may have besides.
GOOD = [
    ("", {}), ("/blocks/0/methods", {"m": {"do": "", "returns": None}}), ("/blocks/0/methods", {"m": {"do": [], "params": [{"name": "n", "type": "timer"}]}}),
    ("/blocks/0/events/0/custom", {"rule": "digits3", "field": "addr"}), (PRIORITY, -128), (PRIORITY, 127), ("/events/0/key", "a" * 64),
]


def with_value(deployment, pointer, value):
    if not pointer:
        return value
    made = copy.deepcopy(deployment)
    *way, last = pointer.split("/")[1:]
    at = made
    for word in way:
        at = at[int(word)] if isinstance(at, list) else at[word]
    last = int(last) if isinstance(at, list) else last
    if value is GONE:
        del at[last]
    else:
        at[last] = value
    return made


def cases(folder):
    """The deployments of a folder of cases, each with whether the schema must pass it, or None where it says nothing of it."""
    for steps in sorted(pathlib.Path(folder).glob("*/steps.json")):
        file = steps.parent / "deploy.json"
        said = steps.read_text()
        if not file.exists():
            continue
        try:
            value = reading(file.read_bytes().decode())
        except (ValueError, RecursionError):
            continue
        shape = re.search(r"bad-deploy shape \S+ ([a-z-]+)", said)
        if shape:
            yield steps.parent.name, value, False if shape[1] in ("type", "missing", "unknown-member", "bad-name") else None
        elif "bad-deploy" not in said:
            yield steps.parent.name, value, True


def main():
    check = validator()
    prepaid = reading((HERE.parent / "examples/prepaid/deploy.json").read_text())
    rows = [(str(file), reading(file.read_text()), True) for file in sorted((HERE.parent / "examples").glob("*/deploy.json"))]
    rows += [(f"{pointer} {kind}", with_value(prepaid, pointer, value), False) for pointer, value, kind in FAULTS]
    rows += [(f"{pointer} good", with_value(prepaid, pointer, value), True) for pointer, value in GOOD]
    rows += [row for folder in sys.argv[1:] for row in cases(folder) if row[2] is not None]
    wrong = [(name, wanted) for name, value, wanted in rows if check.is_valid(value) is not wanted]
    for name, wanted in wrong:
        print(f"check_schema: {name} should {'pass' if wanted else 'fail'}")
    print(f"check_schema: {len(rows)} deployments, {len(wrong)} wrong")
    sys.exit(bool(wrong))


main()
