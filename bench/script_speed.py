#!/usr/bin/env python3
"""Times runs of scripts. Outside the gate.

    python3 bench/script_speed.py [NAME..]                    all scripts, or these
    python3 bench/script_speed.py --instructions [NAME..]     the instructions of a run, in millions
    python3 bench/script_speed.py --allocations [NAME..]      how often a run takes memory

Each line is one script, run by the program golden_runs: the microseconds of a run, the least and the median of 25. Each is the
difference between a process that runs it many times and one that runs it not at all, both of which read the deployment and the
answers once. A loop goes round as often as a run may, which takes some 10,000 units, and is to take at most 200 microseconds; a
handler of ten statements is to take a few. The median is held against the bound; the least, for which all scripts take turns, shows
what the program takes where nothing else holds it up. Instructions and allocations, counted by valgrind, of ten runs less of none,
are the same whatever else goes on. Build the program first: cd crates/golden_runs && rt run < stdin
"""
import copy
import json
import os
import re
import resource
import statistics
import subprocess
import sys

from meaning_table import DEPLOYMENT

PROGRAM = os.path.join(os.path.dirname(os.path.abspath(__file__)), "..", "crates", "golden_runs", "out", "golden_runs")
AT_MOST, TEN_AT_MOST = 200, 5
TIMES, RUNS, COUNTED = 400, 25, 10
# A handler of ten statements is run so many times as often.
MORE = 50
# Two names as long as names may be, which differ in their last byte.
ONE, OTHER = "x" * 63 + "n", "x" * 63 + "f"
LOOPS = {
    "arithmetic": "let i = 0; let x = 1; while i < N { x = (x * 7 + i) % 1000003; i = i + 1; }",
    "texts": "let i = 0; let t = \"\"; while i < N { t = \"call \" ++ text(i) ++ \", \"; i = i + 1; }",
    "long texts": "let i = 0; let t = \"\"; while i < N { if len(t) > 1000 { t = \"\"; } t = t ++ \"xyz\"; i = i + 1; }",
    "fields": "let i = 0; self.n = 1; while i < N { let x = self.n + self.n; if self.f { i = x; } i = i + 1; }",
    "attributes": "let i = 0; while i < N { let x = attr(activity, hits); if x < 0 { i = x; } i = i + 1; }",
    "children": "create leg as x; let i = 0; while i < N { call x.twice(i) as y; if y < 0 { i = y; } i = i + 1; }",
    "loops over children": "let i = 0; while i < N { for c in leg { i = i + 1; } }",
}


def with_long_names(text):
    """The fields `n` and `f` under the long names."""
    return re.sub(r"(self\.|field 1 )([nf])\b", lambda found: found[1] + {"n": ONE, "f": OTHER}[found[2]], text)


LOOPS["fields of long names"] = with_long_names(LOOPS["fields"])
TEN = [
    "self.n = self.n + 1;", "let x = event.x * 2;", "self.t = event.s ++ \"!\";", "if x > 10 { self.f = true; }",
    "attr(activity, hits) = attr(activity, hits) + 1;", "emit \"call \" ++ self.t;", "mask \"ping\" on activity;",
    "timer m on activity at now + x * 1000;", "usage calls 1;",
]
ANSWERS = [
    "field 1 n = held int 5", "field 1 f = held bool false", "field 1 t = held text a", "attr 1 b.hits = held int 3", "activity 1 = ac",
    "attached 1 1 = flag true", "masks 1 1 = masks names pong", "clock = number 1000", "children 1 leg = ids 4 5 6 7 8 9 10 11",
]


def row(script):
    """The row in which this script is the handler's."""
    source = copy.deepcopy(DEPLOYMENT)
    source["blocks"][0]["events"][0]["on"] = script
    source["blocks"][0]["fields"] |= {ONE: "int", OTHER: "bool"}
    answers = [with_long_names(answer) for answer in ANSWERS] if ONE in script else ANSWERS
    return "\n".join([json.dumps(source), "handler"] + answers) + "\n\n"


def ran(text, *words):
    done = subprocess.run([PROGRAM, *words], input=text, capture_output=True, text=True, check=False)
    if done.returncode != 0:
        sys.exit(f"the run ended with {done.returncode}: {done.stdout}{done.stderr}")
    return done.stdout


def longest(loop):
    """The loop that goes round as often as it may."""
    low, high = 1, 10_000
    while low < high:
        middle = (low + high + 1) // 2
        if ran(row(loop.replace("N", str(middle)))).startswith("fine:"):
            low = middle
        else:
            high = middle - 1
    return loop.replace("N", str(low)), low


def seconds(text, times):
    begun = resource.getrusage(resource.RUSAGE_CHILDREN)
    ran(text, str(times))
    ended = resource.getrusage(resource.RUSAGE_CHILDREN)
    return ended.ru_utime + ended.ru_stime - begun.ru_utime - begun.ru_stime


def measured(rows):
    """The microseconds of a run of each row: the least and the median. The rows, each with how often it is run, take turns."""
    none, some = {name: [] for name in rows}, {name: [] for name in rows}
    for _ in range(RUNS):
        for name, (text, times) in rows.items():
            none[name].append(seconds(text, 0))
            some[name].append(seconds(text, times))
    for name, (_, times) in rows.items():
        least = min(none[name])
        yield name, *((took - least) / times * 1e6 for took in (min(some[name]), statistics.median(some[name])))


def counted(text, times, tool, told):
    """What valgrind's tool tells of so many runs."""
    words = ["valgrind", *tool, PROGRAM, str(times)]
    printed = subprocess.run(words, input=text, capture_output=True, text=True, check=True).stderr
    return int(re.search(told, printed).group(1).replace(",", ""))


def a_run(text, *tool):
    return (counted(text, COUNTED, *tool) - counted(text, 0, *tool)) / COUNTED


def instructions(text):
    millions = a_run(text, ["--tool=callgrind", "--callgrind-out-file=/dev/null"], r"Collected : (\d+)") / 1e6
    return f"{millions:8.4f} million instructions"


def allocations(text):
    return f"{a_run(text, ['--leak-check=no'], r'total heap usage: ([0-9,]+) allocs'):8.0f} allocations"


def count(wanted, counts):
    """Counts, of these scripts or of all."""
    for name, loop in LOOPS.items():
        if not wanted or name in wanted:
            script, rounds = longest(loop)
            print(f"{name:20} {rounds:5} rounds  {counts(row(script))}", flush=True)
    if not wanted or "ten" in wanted:
        print(f"{'ten statements':20}               {counts(row(' '.join(TEN)))}")


def rows_of(wanted):
    """The rows that are wanted, each with how often it is run, and how often its loop goes round."""
    rows, rounds = {}, {}
    for name, loop in LOOPS.items():
        if not wanted or name in wanted:
            script, rounds[name] = longest(loop)
            rows[name] = row(script), TIMES
    if not wanted or "ten" in wanted:
        text = row(" ".join(TEN))
        told = ran(text)
        if not told.startswith("fine:"):
            sys.exit(f"the ten statements end otherwise: {told}")
        rows["ten"] = text, MORE * TIMES
    return rows, rounds


def main():
    if not os.path.exists(PROGRAM):
        sys.exit("build it first: cd crates/golden_runs && rt run < stdin")
    wanted, slow = sys.argv[1:], 0
    for word, counts in (("--instructions", instructions), ("--allocations", allocations)):
        if word in wanted:
            count([name for name in wanted if name != word], counts)
            return 0
    rows, rounds = rows_of(wanted)
    for name, least, median in measured(rows):
        most = TEN_AT_MOST if name == "ten" else AT_MOST
        slow += median > most
        goes = f"{rounds[name]:5} rounds" if name in rounds else " " * 12
        print(f"{name:20} {goes}  {median:6.1f} microseconds, the least {least:6.1f}; to be at most {most}")
    return 1 if slow else 0


if __name__ == "__main__":
    sys.exit(main())
