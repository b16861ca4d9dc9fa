#!/usr/bin/env python3
"""Times the built program with one worker and with several, in a fresh folder each time. Outside the gate.

    python3 bench/workers.py                  with ./slee
    python3 bench/workers.py --cmd PROGRAM    with another program
    python3 bench/workers.py --small          a tenth of the lines

64 calls are alive at once. Tables: `heavy`, seconds with 1, 2, 4 and 8 workers, and how many times faster than one, of a handler that builds texts for most of
the units that it may spend; `loops`, the same of one that counts for as long; `light`, of one statement, where the turn is all that costs; `reads`, the same of one
that asks for five fields of its entity, each of which may cost the turn once more. Each run's printed text is looked at: each line was taken, in its order, and each event delivered once. Times are the least of three runs, in a folder in memory where there is one.
"""
import argparse
import json
import os
import subprocess
import sys
import tempfile
import time

MEMORY = "/dev/shm" if os.path.isdir("/dev/shm") else None
TOP = os.path.join(os.path.dirname(os.path.abspath(__file__)), "..")
CALLS = 64
WORKERS = (1, 2, 4, 8)
# with four workers on four processors the heavy run is to be this many times faster than with one
AIM = 2.5

LIGHT = "emit \"hi\";"
READS = "emit text(self.one + self.two + self.three + self.four + self.five);"
LOOPS = "let i = 0; while i < 1000 { i = i + 1; } emit text(i);"
HEAVY = "let i = 0; let t = \"\"; while i < 500 { if len(t) > 1000 { t = \"\"; } t = t ++ \"xyz\"; i = i + 1; } emit text(i);"


def deployment(script):
    """One block that handles one event so."""
    name = {"vendor": "bench", "version": "1"}
    return json.dumps({
        "events": [{"key": "ping", "name": "ping", **name}],
        "blocks": [{"key": "b", "name": "b", **name, "fields": {it: "int" for it in ("one", "two", "three", "four", "five")}, "events": [{"event": "ping", "initial": ["activity"], "on": script}]}],
        "services": [{"key": "s", "name": "s", **name, "root": "b", "active": True}],
    })


def lines_of(rounds):
    """All calls start, and then each gets an event in each round."""
    start = [f"start c{i}" for i in range(CALLS)]
    fire = [f"fire c{i} ping" for _ in range(rounds) for i in range(CALLS)]
    return start + fire


def run(command, script, workers, lines):
    """Seconds of one run, and its text."""
    with tempfile.TemporaryDirectory(dir=MEMORY) as folder:
        with open(os.path.join(folder, "deploy.json"), "w") as f:
            f.write(deployment(script))
        begun = time.perf_counter()
        child = subprocess.run([command, "play", str(workers), "1000000"], input="".join(line + "\n" for line in lines), capture_output=True, text=True, cwd=folder)
        took = time.perf_counter() - begun
    if child.returncode != 0:
        sys.exit(f"{workers} workers: status {child.returncode}: {child.stdout[-200:]}{child.stderr[-200:]}")
    return took, child.stdout


def look_at(text, lines, workers):
    """Ends the program where the text isn't that of a run of these lines."""
    taken = [line.split(" input ", 1)[1] for line in text.splitlines() if not line.startswith(" ") and " input " in line]
    events = sum(1 for line in lines if line.startswith("fire "))
    delivered = sum(1 for line in text.splitlines() if not line.startswith(" ") and " deliver " in line)
    if taken != lines or delivered != events:
        sys.exit(f"{workers} workers: {len(taken)} of {len(lines)} lines in order: {taken == lines}; {delivered} of {events} deliveries")


def table(name, command, script, rounds):
    lines = lines_of(rounds)
    print(f"{name}: {len(lines)} lines, {CALLS} calls alive")
    print(f"{'workers':>9} {'seconds':>9} {'us/event':>9} {'times':>7}")
    first, gain = None, {}
    for workers in WORKERS:
        took = []
        for _ in range(3):
            seconds, text = run(command, script, workers, lines)
            look_at(text, lines, workers)
            took.append(seconds)
        least = min(took)
        first = first or least
        gain[workers] = first / least
        print(f"{workers:>9} {least:>9.2f} {least / (rounds * CALLS) * 1e6:>9.1f} {gain[workers]:>7.2f}")
    return gain


def main():
    parser = argparse.ArgumentParser(description=__doc__, formatter_class=argparse.RawDescriptionHelpFormatter)
    parser.add_argument("--cmd", default=os.path.join(TOP, "slee"))
    parser.add_argument("--small", action="store_true")
    given = parser.parse_args()
    command = os.path.abspath(given.cmd)
    rounds = 10 if given.small else 100
    heavy = table("heavy", command, HEAVY, rounds)
    table("loops", command, LOOPS, rounds)
    table("light", command, LIGHT, rounds)
    table("reads", command, READS, rounds)
    met = heavy[4] >= AIM
    print(f"4 workers are {heavy[4]:.2f} times as fast as one on {os.cpu_count()} processors; the aim is {AIM}: {'met' if met else 'missed'}")
    return 0 if met else 1


if __name__ == "__main__":
    sys.exit(main())
