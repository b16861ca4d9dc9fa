#!/usr/bin/env python3
"""Kills the built program at random moments while it plays over real files, and looks at what it keeps. Outside the gate.

    python3 bench/kill.py                  100 runs of 10,000 calls, with ./slee
    python3 bench/kill.py --cmd PROGRAM    with another program
    python3 bench/kill.py --runs 10        so many runs
    python3 bench/kill.py --calls 1500     of so many calls, three lines and eight entries each
    python3 bench/kill.py --seed 8         other moments
    python3 bench/kill.py --where FOLDER   with files in this folder, and not in the system's for temporary files
    python3 bench/kill.py --compact        kills `compact`, and not the run

Each run plays calls of the service of examples/restart in a fresh folder and is killed (SIGKILL) at a random moment of the
time that an unbroken run takes; `resume` with the same lines goes on and is killed too, up to three times in all, and is then
left to its end. After each kill
- the journal has a front of the records of an unbroken run, to the byte, in whole batches of 131,072 bytes: no less than
  after the kill before, and all of them where anything was printed, since a trace is printed behind the closing flush;
- what was printed is a front of what the unbroken run prints behind the records from before;
- `show` ends with 0 and gives what it gives behind so many entries of a run that ends there by its words, and leaves the
  records as they are.
With `--compact` each run ends by its words after a random number of entries, and `compact` behind it is killed one to three times, at a
random moment of the time that it takes. After each kill one of the sides counts that were there or that it writes: the records of the
run, or a snapshot and no records, and none of an older generation; `show` gives what it gave before.
At the end `resume` has status 0 and prints the rest of the unbroken run's trace, `show` gives that run's end state, and the
journal has its records (of a compacted one, that text and that state). A kill leaves all that the system was given, so that syncs aren't tried here. It ends with 1 at the
first wrong run.
"""
import argparse
import collections
import os
import random
import re
import subprocess
import sys
import time

from fuzz_journal import front_of, text_of
from lines import calls_of, fresh

# A step whose batch then has so many bytes is a flush; a record has so many more bytes than its payload.
BATCH = 131_072
FRAME = 5
ALL = "1000000"


def read(folder, name):
    with open(os.path.join(folder, name), "rb") as f:
        return f.read()


def run(command, words, lines, folder, moment=None):
    """The status and the text of a run that is killed after so many seconds, if any; None in place of a killed run's status."""
    with open(os.path.join(folder, "signals"), "wb") as f:
        f.write(lines)
    with open(os.path.join(folder, "signals"), "rb") as given, open(os.path.join(folder, "out"), "wb") as out:
        child = subprocess.Popen([command, *words], stdin=given, stdout=out, cwd=folder)
        try:
            status = child.wait(timeout=moment)
        except subprocess.TimeoutExpired:
            child.kill()
            status = child.wait()
    return (None if status < 0 else status), read(folder, "out").decode()


def records_of(folder):
    """The payloads of the journal's records; those of a batch behind a closed gate aren't there."""
    side = memoryview(read(folder, "journal.a")) if os.path.exists(os.path.join(folder, "journal.a")) else memoryview(b"")
    front = front_of(side)
    if front == "blank":
        return []
    if front == "header":
        sys.exit("the journal's header is none")
    rest, payloads = front[4], []
    while rest[0] == 1:
        payload, rest = text_of(rest[1:])
        payloads.append(bytes(payload))
    return payloads


class Unbroken:
    """A run that nobody kills: its lines, entries, records, batches and time, and what `show` gives on the way."""

    def __init__(self, command, calls, where):
        self.command, self.where, self.lines, self.shown = command, where, calls_of(calls), {}
        with fresh(where=where) as folder:
            begun = time.perf_counter()
            status, text = run(command, ["play", "1", ALL], self.lines, folder)
            self.seconds = time.perf_counter() - begun
            if status != 0:
                sys.exit(f"the unbroken run ends with {status}")
            self.records = records_of(folder)
            self.shown[len(self.records)] = run(command, ["show"], b"", folder)
            begun = time.perf_counter()
            run(command, ["compact"], b"", folder)
            self.compact_seconds = time.perf_counter() - begun
        self.entries = re.findall(r"^[0-9]+ (.*\n(?:  .*\n)*)", text, re.M)
        if len(self.entries) != len(self.records) or self.text_behind(0) != text:
            sys.exit("the unbroken run prints other entries than it keeps")
        self.flushes = self.flushes_of()

    def text_behind(self, entries):
        """What a run prints that goes on behind so many entries."""
        return "".join(f"{i} {entry}" for i, entry in enumerate(self.entries[entries:], 1)) + "status 0 ok\n"

    def flushes_of(self):
        """The numbers of records behind each flush."""
        ends, pending = {0, len(self.records)}, 0
        for number, payload in enumerate(self.records, 1):
            pending += FRAME + len(payload)
            if pending >= BATCH:
                ends.add(number)
                pending = 0
        return ends

    def shown_behind(self, entries):
        """What `show` gives behind so many entries, by a run that ends there."""
        if entries not in self.shown:
            with fresh(where=self.where) as folder:
                if entries:
                    run(self.command, ["play", "1", str(entries)], self.lines, folder)
                self.shown[entries] = run(self.command, ["show"], b"", folder)
        return self.shown[entries]


def kept_fault(whole, folder, before, text):
    """What is wrong about the journal that a killed run left, which began behind so many records and printed this text."""
    records = records_of(folder)
    if whole.records[: len(records)] != records:
        return "the records are no front of the unbroken run's"
    if len(records) not in whole.flushes:
        return f"{len(records)} records are no whole batches"
    if len(records) < before:
        return f"{before} records were there, and {len(records)} are"
    if text and len(records) != len(whole.records):
        return f"entries are printed, and {len(records)} records are kept"
    if not whole.text_behind(before).startswith(text):
        return "the text is no front"
    status, shown = run(whole.command, ["show"], b"", folder)
    if (status, shown) != whole.shown_behind(len(records)) or status != 0:
        return f"show ends with {status} behind {len(records)} records, or gives another state"
    return None if records_of(folder) == records else "show changed the records"


def end_fault(whole, folder, before, status, text):
    """What is wrong about a run that went to its end behind so many records."""
    if status != 0:
        return f"a run that nobody kills ends with {status}: {text[-100:]!r}"
    if text != whole.text_behind(before):
        return f"another text behind {before} records"
    if records_of(folder) != whole.records:
        return "other records at the end"
    return None if run(whole.command, ["show"], b"", folder) == whole.shown_behind(len(whole.records)) else "another end state"


def trial(whole, chance, seen):
    """Kills one run up to three times and lets it go to its end; answers what is wrong."""
    with fresh(where=whole.where) as folder:
        word, before = "play", 0
        for _ in range(chance.randrange(1, 4)):
            moment = chance.random() * whole.seconds * (1 - before / len(whole.records))
            status, text = run(whole.command, [word, "1", ALL], whole.lines, folder, moment)
            if status is not None:
                seen["ended before"] += 1
                return end_fault(whole, folder, before, status, text)
            fault = kept_fault(whole, folder, before, text)
            if fault:
                return f"{word} killed after {moment:.4f} s: {fault}"
            word, before = "resume", len(records_of(folder))
            seen["killed"] += 1
            seen["with all records" if before == len(whole.records) else "with some" if before else "with none"] += 1
        return end_fault(whole, folder, before, *run(whole.command, [word, "1", ALL], whole.lines, folder))


def counting(folder):
    """The greatest generation of a side that isn't blank, whether it has a snapshot, and its records."""
    fronts = [front_of(read(folder, name)) for name in ("journal.a", "journal.b") if os.path.exists(os.path.join(folder, name))]
    generation, _, _, snapshot, rest = max((it for it in fronts if it != "blank"), key=lambda it: it[0])
    return generation, snapshot > 0, rest


def compact_trial(whole, chance, seen):
    """Kills `compact` up to three times behind a run that ends by its words; answers what is wrong."""
    entries = chance.randrange(1, len(whole.records) + 1)
    with fresh(where=whole.where) as folder:
        run(whole.command, ["play", "1", str(entries)], whole.lines, folder)
        before = counting(folder)
        wanted, seconds = whole.shown_behind(entries), whole.compact_seconds * entries / len(whole.records)
        for _ in range(chance.randrange(1, 4)):
            moment = chance.random() * seconds * 1.2
            status, _ = run(whole.command, ["compact"], b"", folder, moment)
            after = counting(folder)
            seen["killed" if status is None else "ended before"] += 1
            seen["with the old side" if after == before else "with the new side"] += 1
            if status not in (None, 0):
                return f"compact ends with {status}"
            if after != before and (after[0] != before[0] + 1 or not after[1] or after[2] != b"\x00"):
                return f"compact killed after {moment:.4f} s left another side: generation {after[0]}"
            if status == 0 and after == before:
                return "compact ended, and the old side counts"
            if run(whole.command, ["show"], b"", folder) != wanted:
                return f"compact killed after {moment:.4f} s: another state"
            before = after
        status, text = run(whole.command, ["resume", "1", ALL], whole.lines, folder)
        if (status, text) != (0, whole.text_behind(entries)):
            return f"resume behind compact ends with {status}, or prints another text"
        return None if run(whole.command, ["show"], b"", folder) == whole.shown_behind(len(whole.records)) else "another end state"


def main():
    here = os.path.dirname(os.path.abspath(__file__))
    words = argparse.ArgumentParser(description=__doc__, formatter_class=argparse.RawDescriptionHelpFormatter)
    words.add_argument("--cmd", default=os.path.join(here, "..", "slee"))
    words.add_argument("--runs", type=int, default=100)
    words.add_argument("--calls", type=int, default=10_000)
    words.add_argument("--seed", type=int, default=7)
    words.add_argument("--where")
    words.add_argument("--compact", action="store_true")
    given = words.parse_args()
    whole = Unbroken(os.path.abspath(given.cmd), given.calls, given.where)
    print(f"unbroken: {len(whole.records)} entries in {len(whole.flushes) - 1} flushes, {whole.seconds:.2f} s", flush=True)
    chance, seen = random.Random(given.seed), collections.Counter()
    for number in range(given.runs):
        fault = (compact_trial if given.compact else trial)(whole, chance, seen)
        if fault:
            sys.exit(f"run {number}: {fault}")
    print(f"{given.runs} runs: " + ", ".join(f"{what} {times}" for what, times in seen.items()) + ", and none was wrong")


if __name__ == "__main__":
    main()
