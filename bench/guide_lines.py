#!/usr/bin/env python3
"""Tests that what docs/GUIDE.md shows of scripts and deployments is played: part of the gate (.ci/run).

    python3 bench/guide_lines.py

Each example in the tables of "Scripts" stands in a script of examples/language or examples/forwarding, each line of JSON in "A service in
an hour" in the deployment of examples/forwarding, and the words that are no names are those of the language. It names what doesn't, and
ends with 1 then.
"""
import json
import os
import re
import sys

TOP = os.path.join(os.path.dirname(os.path.abspath(__file__)), "..")


def read(*path):
    with open(os.path.join(TOP, *path), encoding="utf-8") as f:
        return f.read()


def part_of(guide, heading):
    """The text below a heading of the second level."""
    return guide.split(f"\n## {heading}\n", 1)[1].split("\n## ", 1)[0]


def code_of(text):
    """The lines of its indented code."""
    return [line.strip() for line in text.splitlines() if line.startswith("    ")]


def examples_of(text):
    """What stands in the columns of its tables that are headed `an example`."""
    found, column = [], None
    for line in text.splitlines():
        if not line.startswith("|"):
            column = None
            continue
        cells = [cell.strip() for cell in line.strip("|").split(" | ")]
        if "an example" in cells:
            column = cells.index("an example")
        elif column is not None and column < len(cells):
            found += re.findall(r"^`(.*)`$", cells[column])
    return found


def texts_in(value):
    """Each text of a JSON value."""
    if isinstance(value, str):
        return [value]
    inner = value.values() if isinstance(value, dict) else value if isinstance(value, list) else []
    return [text for item in inner for text in texts_in(item)]


def words_of_language():
    return sorted(set(re.findall(r'b"([a-z_]+)"', read("crates", "script_tree", "src", "symbol.rt"))))


def main():
    guide = read("docs", "GUIDE.md")
    scripts, hour = part_of(guide, "Scripts"), part_of(guide, "A service in an hour")
    played = [text for name in ("language", "forwarding") for text in texts_in(json.loads(read("examples", name, "deploy.json")))]
    shown = examples_of(scripts)
    missing = [example for example in shown if not any(example in text for text in played)]
    deployment = [line.strip() for line in read("examples", "forwarding", "deploy.json").splitlines()]
    parts = [line for line in code_of(hour) if not line.startswith(("cp ", "./slee "))]
    missing += [line for line in parts if not any(line in whole for whole in deployment)]
    words = [line for line in code_of(scripts) if re.fullmatch("[a-z_ ]+", line)]
    missing += [line for line in code_of(scripts) if line not in words and not any(line in text for text in played)]
    if " ".join(words).split() != words_of_language():
        missing.append("the words that are no names")
    for line in missing:
        print(f"docs/GUIDE.md shows what isn't played: {line}")
    if missing or len(shown) < 50 or len(parts) < 20:
        sys.exit(1)
    print(f"docs/GUIDE.md: {len(shown)} examples and {len(parts)} lines of a deployment are played")


if __name__ == "__main__":
    main()
