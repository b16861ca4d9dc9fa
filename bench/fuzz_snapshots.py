#!/usr/bin/env python3
"""Throws journals with damaged snapshots at a built program, and sees that it answers as the definitions say. Outside the gate.

    python3 bench/fuzz_snapshots.py                   10,000 snapshots, with ./slee
    python3 bench/fuzz_snapshots.py --count 500       so many
    python3 bench/fuzz_snapshots.py --seed 8          others
    python3 bench/fuzz_snapshots.py --states 40       so many states of which they are made, each of a deployment
    python3 bench/fuzz_snapshots.py --cmd PROGRAM     with another program

States are those of examples/ and of random deployments (random_deployments.py), left by `play` after a random number of entries and
written by `compact`; in the first format they are spelled by snapshot_rows.py. Each is changed there, or left as it is, and lies
with a right header and right gates on side a or b, behind it sometimes a record that is none. By `state_of_snapshot`, evaluated by
rundefs (deployments.py says where it is looked for; without it nothing is run), the program has to end so:
- a snapshot that stands for no state: `status 8 bad-journal SIDE 0 snapshot`, and the files are as they were;
- one that stands for a state: `show` prints it to the byte, or tells of the record, and changes nothing. Of the first format it has
  written the other side, with the snapshot of the second;
- `compact` then has the next generation, and the other side has the same snapshot, to the byte (none for the first state).
It ends with 1 at the first that is answered differently, and writes its files into /tmp/fuzz_snapshots.
"""
import argparse
import collections
import json
import os
import random
import subprocess
import sys
import tempfile
import time

import deployments
import random_deployments
import snapshot_rows
from fuzz_journal import LARGEST, front_of, number, text, text_of

TOP = deployments.TOP
SIDES = ("a", "b")
MOST_LINES = 60
MOST_STEPS = 150
TRIES = 6
# the definitions take their time with a longer one
LONGEST = 2_500
# a record that is of no form
STRAY = b"\x01" + text(b"\x09")
KEPT = os.path.join(tempfile.gettempdir(), "fuzz_snapshots")


def run(program, words, folder, given=b""):
    done = subprocess.run([program, *words], cwd=folder, capture_output=True, input=given, timeout=60, check=False)
    return done.returncode, done.stdout


def write(folder, name, data):
    with open(os.path.join(folder, name), "wb") as f:
        f.write(data)


def read(folder, side):
    path = os.path.join(folder, "journal." + side)
    if not os.path.exists(path):
        return b""
    with open(path, "rb") as f:
        return f.read()


def side_of(form, generation, deployment, snapshot, records=b""):
    return b"\x01SLEEJ%d" % form + number(generation, 8) + text(deployment) + text(snapshot) + records + b"\x00"


def snapshot_in(side):
    deployment = text_of(side[15:])
    return text_of(deployment[1])[0]


def other(side):
    return SIDES[1 - SIDES.index(side)]


class Source:
    """A deployment with its definitions, and the snapshot of a state that the program left."""

    def __init__(self, world, program, name, deployment, lines, dice):
        self.name, self.json = name, deployment
        self.snapshot = self.left(program, lines, dice)
        self.state = snapshot_rows.read(self.snapshot, 2)
        if snapshot_rows.spelled(self.state, 2) != self.snapshot:
            sys.exit(f"{name}: the rows of a snapshot are spelled otherwise\n{self.snapshot.hex()}")
        self.value = deployments.Deployment(world, deployment)
        self.restored = world.eval("router_state.specs.Restoring.state_of_snapshot")
        self.spelled = world.eval("router_state.specs.Snapshot.spelled_state")
        self.snapshot_text = world.eval("router_state.specs.Restoring.snapshot_text")
        self.show_text = world.eval("router_state.specs.Show.show_text")

    def left(self, program, lines, dice):
        """The snapshot, of some, that has the most kinds of rows."""
        found = [self.left_behind(program, lines, dice.randrange(1, MOST_STEPS)) for _ in range(TRIES)]
        found = [it for it in found if it and len(it) <= LONGEST]
        if not found:
            raise LookupError("no state that isn't the first or too long")
        return max(found, key=lambda it: len(snapshot_rows.kinds(snapshot_rows.read(it, 2))))

    def left_behind(self, program, lines, steps):
        """What `compact` writes behind so many entries."""
        with tempfile.TemporaryDirectory() as folder:
            write(folder, "deploy.json", self.json)
            status, said = run(program, ["play", "1", str(steps)], folder, lines)
            if status not in (0, 11):
                sys.exit(f"{self.name}: play ends with {status}, {said[-300:]!r}")
            status, said = run(program, ["compact"], folder)
            if (status, said) != (0, b"generation 2\nstatus 0 ok\n"):
                sys.exit(f"{self.name}: compact ends with {status}, {said!r}")
            return snapshot_in(read(folder, "b"))

    def judged(self, form, snapshot):
        """The state for which a snapshot text stands, or nothing."""
        found = self.restored(form, self.value.deployed, self.value.program, tuple(snapshot))
        return found.args[0] if found.args else None


def examples():
    for name in sorted(os.listdir(os.path.join(TOP, "examples"))):
        folder = os.path.join(TOP, "examples", name)
        if os.path.exists(os.path.join(folder, "deploy.json")):
            parts = [os.path.join(folder, it) for it in sorted(os.listdir(folder)) if it.startswith("signals")]
            with open(os.path.join(folder, "deploy.json"), "rb") as f:
                yield name, f.read(), b"".join(open(it, "rb").read() for it in parts)


def random_source(dice):
    seed = dice.randrange(2**32)
    lines = random_deployments.Lines(dice)
    lines.alive = random_deployments.NAMES
    front = ["start c1", "fire c1 ping addr=tel:1 x=2", "start c2", "fire c2 ping addr=tel:1 x=2"]
    signals = "".join(line + "\n" for line in [*front, *[lines.line() for _ in range(dice.randrange(MOST_LINES))]])
    return f"random {seed}", json.dumps(random_deployments.deployment(seed)).encode(), signals.encode()


def is_deployment(program, deployment):
    with tempfile.TemporaryDirectory() as folder:
        write(folder, "deploy.json", deployment)
        return run(program, ["check"], folder)[0] == 0


def sources(world, program, count, dice):
    """So many states: a few of each example, and then those of random deployments."""
    known = list(examples())
    found = []
    while len(found) < count:
        given = known[len(found) % len(known)] if len(found) < count // 2 else random_source(dice)
        if not is_deployment(program, given[1]):
            continue
        try:
            found.append(Source(world, program, *given, dice))
        except (LookupError, deployments.Refused):
            continue
    return found


class Trial:
    """A damaged snapshot on a side, and what the program does with it."""

    def __init__(self, program, source, dice):
        self.program, self.source = program, source
        self.form = dice.choice((1, 2))
        self.snapshot, self.change = snapshot_rows.damaged(dice, source.state, self.form)
        self.side, self.generation = dice.choice(SIDES), dice.choice((0, 1, 1, 2, LARGEST))
        self.records = STRAY if dice.randrange(8) == 0 else b""
        self.bytes = side_of(self.form, self.generation, source.json, self.snapshot, self.records)

    def next(self, more):
        return (self.generation + more) % (LARGEST + 1)

    def outcome(self):
        """In a word what came of it, and what is wrong, if something is."""
        state = self.source.judged(self.form, self.snapshot)
        with tempfile.TemporaryDirectory() as folder:
            write(folder, "deploy.json", self.source.json)
            write(folder, "journal." + self.side, self.bytes)
            if state is None:
                return "refused", self.refused(folder, f"status 8 bad-journal {self.side} 0 snapshot\n")
            if self.records:
                at = len(self.bytes) - len(self.records) - 1
                return "record", self.refused(folder, f"status 8 bad-journal {self.side} {at} record\n")
            return "shown", self.shown(folder, state)

    def refused(self, folder, line):
        status, said = run(self.program, ["show"], folder)
        if (status, said) != (8, line.encode()):
            return f"status {status}, {said[-300:]!r}, and not {line!r}"
        if read(folder, self.side) != self.bytes or read(folder, other(self.side)):
            return "a file was changed"
        return None

    def shown(self, folder, state):
        status, said = run(self.program, ["show"], folder)
        wanted = bytes(self.source.show_text(state)) + b"status 0 ok\n"
        if (status, said) != (0, wanted):
            return f"status {status}, {said!r}, and not {wanted!r}"
        if read(folder, self.side) != self.bytes:
            return "show changed the side"
        snapshot = bytes(self.source.snapshot_text(2, state))
        if self.form == 2:
            # one spelling
            if snapshot not in (b"", self.snapshot):
                return f"the definitions spell {snapshot.hex()}"
            if read(folder, other(self.side)):
                return "show wrote the other side"
            return self.compacted(folder, other(self.side), 1, snapshot)
        if snapshot and snapshot_rows.spelled(snapshot_rows.read(self.snapshot, 1), 2) != snapshot:
            return f"the rows of the first format are spelled {snapshot.hex()} in the second by the definitions"
        if read(folder, other(self.side)) != side_of(2, self.next(1), self.source.json, snapshot):
            return "another side was written for one of the first format"
        return self.compacted(folder, self.side, 2, snapshot)

    def compacted(self, folder, goal, more, snapshot):
        """`compact` writes this side, so many generations further, with this snapshot."""
        before = read(folder, other(goal))
        status, said = run(self.program, ["compact"], folder)
        if (status, said) != (0, f"generation {self.next(more)}\nstatus 0 ok\n".encode()):
            return f"compact: status {status}, {said!r}"
        if read(folder, goal) != side_of(2, self.next(more), self.source.json, snapshot):
            return f"compact wrote another side: {front_of(read(folder, goal))!r}"
        return None if read(folder, other(goal)) == before else "compact changed the side before"

    def keep(self):
        os.makedirs(KEPT, exist_ok=True)
        write(KEPT, "deploy.json", self.source.json)
        write(KEPT, "journal." + self.side, self.bytes)


def play(world, given):
    program = os.path.abspath(given.cmd)
    dice = random.Random(given.seed)
    begun = time.perf_counter()
    found = sources(world, program, given.states, dice)
    sizes = sorted(len(it.snapshot) for it in found)
    print(f"{len(found)} states of {sizes[0]} to {sizes[-1]} bytes in {time.perf_counter() - begun:.0f} s", flush=True)
    kinds = collections.Counter(kind for it in found for kind in snapshot_rows.kinds(it.state))
    print("with " + ", ".join(f"{kind} {times}" for kind, times in sorted(kinds.items())), flush=True)
    seen = collections.Counter()
    for count in range(given.count):
        trial = Trial(program, dice.choice(found), dice)
        what, wrong = trial.outcome()
        if wrong:
            trial.keep()
            sys.exit(f"snapshot {count} ({trial.source.name}, format {trial.form}, {trial.change}), kept in {KEPT}: {wrong}")
        seen[trial.change, what] += 1
        if (count + 1) % 1000 == 0:
            print(f"{count + 1} in {time.perf_counter() - begun:.0f} s", flush=True)
    outcomes = ("refused", "shown", "record")
    print(f"{'change':>16} {'refused':>8} {'shown':>8} {'record':>8}")
    for change in sorted({change for change, _ in seen}):
        print(f"{change:>16} " + " ".join(f"{seen[change, what]:>8}" for what in outcomes))
    print(f"{given.count} snapshots in {time.perf_counter() - begun:.0f} s: none was answered differently")
    return 0


def main():
    words = argparse.ArgumentParser(description=__doc__, formatter_class=argparse.RawDescriptionHelpFormatter)
    words.add_argument("--count", type=int, default=10_000)
    words.add_argument("--seed", type=int, default=7)
    words.add_argument("--states", type=int, default=24)
    words.add_argument("--cmd", default=os.path.join(TOP, "slee"))
    given = words.parse_args()
    world = deployments.world()
    if world is None:
        print("not run: rundefs isn't there (RUNDEFS names its folder)")
        return 0
    import rundefs

    # the definitions recurse as deep as their lists are long
    return rundefs.deep(lambda: play(world, given))


if __name__ == "__main__":
    sys.exit(main())
