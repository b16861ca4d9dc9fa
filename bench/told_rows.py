#!/usr/bin/env python3
"""Tests what is told on standard error of a deployment that is none: part of the gate (.ci/run).

    python3 bench/told_rows.py [PROGRAM]

Each mistake of the table "what is told" of docs/GUIDE.md is checked with the built program: a JSON text as it stands, a line of a script
as the remove script of a block. Standard error has to be that one line, standard output one status line of status 4, and both the same
without standard error. It names what differs, and ends with 1 then.
"""
import json
import os
import subprocess
import sys
import tempfile

TOP = os.path.dirname(os.path.dirname(os.path.abspath(__file__)))
HEAD = "| a mistake | what is told |"
BLOCK = {"key": "b", "name": "b", "vendor": "t", "version": "1"}


def rows():
    """The mistakes of the table, each with what is told."""
    with open(os.path.join(TOP, "docs", "GUIDE.md"), encoding="utf-8") as file:
        table = file.read().split(f"{HEAD}\n", 1)[1].split("\n\n", 1)[0]
    return [[cell.strip()[1:-1] for cell in line.strip("|").split(" | ")] for line in table.splitlines()[1:]]


def document(mistake):
    return mistake if mistake.startswith("{") else json.dumps({"blocks": [BLOCK | {"remove": mistake}]})


def run(program, folder, **streams):
    """The status, standard output and standard error of a check in the folder."""
    done = subprocess.run([program, "check"], cwd=folder, stdin=subprocess.DEVNULL, stdout=subprocess.PIPE, check=False, **streams)
    return done.returncode, done.stdout.decode(), (done.stderr or b"").decode()


def difference(program, mistake, told):
    """What differs of a mistake from what is told, if anything."""
    with tempfile.TemporaryDirectory() as folder:
        with open(os.path.join(folder, "deploy.json"), "w", encoding="utf-8") as file:
            file.write(document(mistake))
        status, out, err = run(program, folder, stderr=subprocess.PIPE)
        alone = run(program, folder, stderr=subprocess.DEVNULL)
    if status != 4 or not out.startswith("status 4 bad-deploy ") or out.count("\n") != 1:
        return f"status {status}, printed {out!r}"
    if alone != (status, out, ""):
        return f"without standard error {alone}"
    return None if err == f"slee: {told}\n" else f"told {err!r}"


def main():
    program = os.path.abspath(sys.argv[1]) if len(sys.argv) > 1 else os.path.join(TOP, "crates", "slee", "out", "slee")
    found = rows()
    wrong = [(mistake, difference(program, mistake, told)) for mistake, told in found]
    wrong = [(mistake, why) for mistake, why in wrong if why]
    for mistake, why in wrong:
        print(f"docs/GUIDE.md: of {mistake}: {why}")
    if wrong or len(found) < 9:
        sys.exit(1)
    print(f"docs/GUIDE.md: {len(found)} mistakes are told as it shows")


if __name__ == "__main__":
    main()
