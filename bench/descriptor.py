#!/usr/bin/env python3
"""How building a deployment grows with its blocks. Outside the gate.

    python3 bench/descriptor.py

Building 10,000 blocks is to take at most 2.3 times what 5,000 take. Two figures say it, both of building alone:
- instructions, counted by valgrind (its tool callgrind): those of a run that reads a row and builds it, less those of a run that
  reads the row and builds nothing. Counts are the same in each run but for the seeds of hashes, so one is enough.
- seconds, by the clock: the program reads it right before and behind each build. The median of fifteen runs, of 5,000 and 10,000
  blocks in turn so that other work beside them slows both alike; each run builds its row ten times and counts by their median.
A table by names doubles when it is full, which costs as much as all doublings before, so building grows in steps: tables double
at 4,608, 9,216 and 18,432 names. 5,000 and 10,000 both stand right behind a step; from 9,000 to 9,500 there is one, which no
figure here speaks of.
Build the program first: cd crates/golden_parts && rt run < stdin
"""
import json
import os
import re
import shutil
import statistics
import subprocess
import sys
import tempfile

from deployment_rows import CRATE, deployment, item, on

PROGRAM = os.path.join(CRATE, "out", "golden_parts")
SIZES, AT_MOST = (5_000, 10_000), 2.3
TIMES, RUNS = 10, 15


def blocks(n):
    """A deployment of n blocks, with attributes, aliases, relations, handlers and services."""
    made = [item(f"b{i}", attributes={"a": "int", "c": "text"}, aliases={"a": f"x{i % 100}"}, relations={"r": {"block": f"b{n - 1 - i}"}},
                 events=[on("ping", initial=["custom"], custom={"rule": "whole", "field": "addr"}), on("timer")]) for i in range(n)]
    services = [item(f"s{i}", root=f"b{i}") for i in range(n)]
    return json.dumps(deployment(events=[item("ping", fields={"addr": "text"})], blocks=made, services=services)) + "\n"


def ended(words, rows):
    done = subprocess.run(words, input=rows, capture_output=True, text=True, check=False)
    if done.returncode != 0:
        sys.exit(f"the deployment isn't built: {done.returncode} {done.stdout}{done.stderr}")
    return done


def seconds(row):
    """The median of what the program says of building the row a few times."""
    return statistics.median(int(line) for line in ended([PROGRAM, "time"], row * TIMES).stdout.split()) / 1e9


def counted(row, word):
    """The instructions of a whole run."""
    with tempfile.TemporaryDirectory() as folder:
        words = ["valgrind", "--tool=callgrind", f"--callgrind-out-file={folder}/counts", PROGRAM, word]
        return int(re.search(r"Collected : (\d+)", ended(words, row).stderr).group(1))


def print_times(what, shown, took):
    times = took[1] / took[0]
    for n, one in zip(SIZES, took):
        print(f"{n:6} blocks  built in {shown(one)}")
    print(f"{times:.2f} times the {what}, to be at most {AT_MOST}")
    return times <= AT_MOST


def main():
    if not os.path.exists(PROGRAM):
        sys.exit("build it first: cd crates/golden_parts && rt run < stdin")
    rows = [blocks(n) for n in SIZES]
    for n, row in zip(SIZES, rows):
        if ended([PROGRAM], row).stdout != f"ok 1 0 0 {n} {n}\n":
            sys.exit("another deployment is built")
    runs = [[seconds(row) for row in rows] for _ in range(RUNS)]
    good = print_times("seconds", "{:.4f} s".format, [statistics.median(took) for took in zip(*runs)])
    print(f"       in the single pairs of runs {min(b / a for a, b in runs):.2f} to {max(b / a for a, b in runs):.2f} times")
    if not shutil.which("valgrind"):
        print("instructions aren't counted: valgrind isn't here")
        return 0 if good else 1
    counts = [counted(row, "time") - counted(row, "read") for row in rows]
    good = print_times("instructions", "{:,} instructions".format, counts) and good
    return 0 if good else 1


if __name__ == "__main__":
    sys.exit(main())
