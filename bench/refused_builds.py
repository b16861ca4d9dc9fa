#!/usr/bin/env python3
"""Refuses each allocation in turn while deployments are built, and looks at what is answered and left. Outside the gate.

    python3 bench/refused_builds.py

The program golden_parts reads some rows, builds them and asks the deployments. With one allocation refused it has to end with
status 12 behind a front of the lines that it prints with ample memory, with status 0 and all of them, or, where no memory was found
to read the input, with status 1 and no line. At its end no more memory may be held than with ample memory. Build the program first:
cd crates/golden_parts && rt run < stdin
A C compiler is wanted for the small library that refuses (see bench/fail_alloc.py).
"""
import os
import subprocess
import sys
import tempfile
from collections import Counter

import deployment_rows as rows
from fail_alloc import library

PROGRAM = os.path.join(rows.CRATE, "out", "golden_parts")
UNREAD, NO_MEMORY = 1, 12


def given():
    """A good deployment with questions, one with a fault at its end, and one with a fault in its midst; and the right answers."""
    last, midst = len(rows.WALK) - 1, len(rows.WALK) // 2
    questions = [("handlers ring", "[0]"), ("events answer", "Some(1)"), ("blocks c", "Some(1)"), ("services x", "None")]
    made = [rows.row_and_answer(rows.GOOD, None, questions)]
    for at in (last, midst):
        _, d, wanted = rows.with_faults(at)
        made.append(rows.row_and_answer(d, wanted))
    return rows.texts(made)


def run(text, refuses, folder, at=0):
    """The status, what is printed, and the numbers of allocations that were made and that are still held at the end."""
    counted, held = (os.path.join(folder, name) for name in ("counted", "held"))
    env = dict(os.environ, LD_PRELOAD=refuses, REFUSED_ALLOCATION=str(at), COUNTED_ALLOCATIONS=counted, HELD_ALLOCATIONS=held)
    done = subprocess.run([PROGRAM], input=text, env=env, capture_output=True, text=True, timeout=60, check=False)
    with open(counted, encoding="utf-8") as made, open(held, encoding="utf-8") as left:
        return done.returncode, done.stdout, int(made.read()), int(left.read())


def fault_of(status, text, whole):
    if status == 0:
        return "ok" if text == whole else "status 0 and another text"
    if status == UNREAD:
        return "ok" if text == "" else "the input is read and told as unread"
    if status != NO_MEMORY:
        return "another status"
    return "ok" if whole.startswith(text) else "the text is no front"


def main():
    if not os.path.exists(PROGRAM):
        sys.exit("build it first: cd crates/golden_parts && rt run < stdin")
    text, wanted = given()
    with tempfile.TemporaryDirectory() as folder:
        refuses = library(folder)
        status, whole, count, held = run(text, refuses, folder)
        if status != 0 or whole != wanted:
            sys.exit(f"with ample memory: status {status}\n{whole}")
        ends = Counter()
        for at in range(1, count + 1):
            status, found, _, left = run(text, refuses, folder, at)
            fault = fault_of(status, found, whole)
            ends[status, fault if left <= held else f"{fault}, and {left - held} more held"] += 1
    for (status, fault), times in sorted(ends.items()):
        print(f"status {status:>2}: {times:>5} times, {fault}")
    print(f"{count} allocations refused in turn; {held} held at the end with ample memory")
    return 0 if {fault for _, fault in ends} == {"ok"} else 1


if __name__ == "__main__":
    sys.exit(main())
