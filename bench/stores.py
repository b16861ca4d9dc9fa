#!/usr/bin/env python3
"""Counts what the changes of the whole state over its stores and the questions to it cost at 10, 1,000 and 100,000 rows. Outside the gate.

    python3 bench/stores.py                instructions a call

Each change is made in room that is made for it (state_batches.py says among which rows). Instructions are counted by valgrind, those of
the calls alone, all in one run over rows that are made once: the same on each machine, whatever else it does. The ratio from the first to
the last is to be at most 2.5; a line above it is marked.
Build the program first: cd crates/bench_state && rt run
"""
import argparse
import os
import sys
from concurrent.futures import ThreadPoolExecutor

import state_batches

HERE = os.path.dirname(os.path.abspath(__file__))
PROGRAM = os.path.join(HERE, "..", "crates", "bench_state", "out", "bench_state")
ROWS = (10, 1_000, 100_000)
MOST_RATIO = 2.5
# among 10 rows fewer activities are claimed, and among 1,000 few leaves are split: their ratios say only how much that is
BY_MANY = ("least_claimed", "set_mask_spread")


def tell(call, costs):
    ratio = costs[-1] / costs[0]
    mark = "   above" if ratio > MOST_RATIO and call not in BY_MANY else ""
    print(f"{call:<32}" + "".join(f"{it:>11.0f}" for it in costs) + f"{ratio:>8.2f}{mark}", flush=True)


def main():
    words = argparse.ArgumentParser()
    words.add_argument("--jobs", type=int, default=os.cpu_count())
    given = words.parse_args()
    if not os.path.exists(PROGRAM):
        sys.exit("build it first: cd crates/bench_state && rt run")
    print(f"{'call':<32}" + "".join(f"{rows:>11,}" for rows in ROWS) + f"{'ratio':>8}   instructions a call")
    with ThreadPoolExecutor(given.jobs) as lanes:
        found = list(lanes.map(lambda rows: state_batches.costs(PROGRAM, rows), ROWS))
    for call in state_batches.CALLS:
        tell(call, [costs[call] for costs in found])


if __name__ == "__main__":
    main()
