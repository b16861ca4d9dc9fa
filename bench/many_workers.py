#!/usr/bin/env python3
"""Plays random lines of random deployments with several workers, and looks at what they leave by the definitions. Outside the gate.

    bench/many_workers.py [--runs N] [--workers W] [--seed S] [--cmd PROGRAM]      200 runs of 4 workers by ./slee, where nothing is said

A run is a `play` that ends in the midst of the lines or after so many entries, `show`, a `resume` with the same lines, and `show` again. After each
part it is looked at, from the journal's records alone: each choice is enabled where it stands and each record that of its choice; lines were taken in
their order, each once; the printed text is that of these entries and of the status; the status is 0 where nothing is left to do, and 11 where something
is; the state is well formed, and `show` prints it. The last line tells how many histories one worker doesn't make. In the program's deployment most
handlers begin with a loop, so that they run beside each other; it does nothing, and the definitions have the deployment without it. What evaluates
definitions is rundefs (deployments.py says where); without it nothing is run, and the script says so.
"""
import argparse
import json
import os
import random
import subprocess
import sys
import tempfile

import deployments
import random_deployments
import run_definitions
import steps

MEMORY = "/dev/shm" if os.path.isdir("/dev/shm") else None
SECONDS = 120
# the calls that the lines begin with, so that several workers have something to do
CALLS = [f"c{n}" for n in range(1, 5)]
LINES = 90
PART_STEPS = 250
LAST_STEPS = 150
# a round has eight units, of 10,000 that a handler may spend
MOST_ROUNDS = 1000


class Wrong(Exception):
    """What the definitions don't allow."""


def slowed(dice, source):
    """The same deployment, where most handlers take their time first."""
    whole = json.loads(source)
    for block in whole["blocks"]:
        for handler in block["events"]:
            rounds = dice.randrange(-MOST_ROUNDS // 4, MOST_ROUNDS)
            if rounds > 0:
                handler["on"] = f"if true {{ let turns = 0; while turns < {rounds} {{ turns = turns + 1; }} }}\n" + handler["on"]
    return json.dumps(whole)


def put(folder, source):
    with open(os.path.join(folder, "deploy.json"), "w", encoding="utf-8") as file:
        file.write(source)


def lines_of(dice):
    """All calls start and get an event, and then come lines at random."""
    source = random_deployments.Lines(dice)
    lines = [f"start {name}" for name in CALLS] + [f"fire {name} ping addr=tel:{at} x={at}" for at, name in enumerate(CALLS)]
    source.alive = list(CALLS)
    return lines + [source.line() for _ in range(LINES)]


def called(command, folder, words, lines):
    """The text of a call, which ends with status 0 or 11."""
    given = "".join(line + "\n" for line in lines)
    ran = subprocess.run([command, *words], input=given.encode(), capture_output=True, cwd=folder, timeout=SECONDS, check=False)
    if ran.returncode not in (0, 11):
        raise Wrong(f"{' '.join(words)}: status {ran.returncode}: {ran.stdout[-200:]}{ran.stderr[-200:]}")
    return ran.returncode, ran.stdout


class Run:
    """A folder, and the state for which its journal stands by the definitions."""

    def __init__(self, world, state, folder):
        self.word, self.folder = world.eval, folder
        self.state, self.payloads = state, []

    def records(self):
        """The records behind those that were looked at."""
        with open(os.path.join(self.folder, "journal.a"), "rb") as file:
            found = run_definitions.Journal.read(file.read()).payloads
        if found[: len(self.payloads)] != self.payloads:
            raise Wrong("the records that stood before aren't the first ones")
        return found[len(self.payloads) :]

    def step(self, payload, left):
        """The entry of a record, and the lines that are left then."""
        found = self.word("router_steps.specs.Payloads.choice_in")(2, tuple(payload))
        if not found.args:
            raise Wrong(f"no record: {payload.hex()}")
        choice = found.args[0]
        if not self.word("router_steps.specs.Steps.is_enabled")(self.state, choice):
            raise Wrong(f"a choice that isn't enabled: {payload.hex()}")
        if bytes(self.word("router_steps.specs.Payloads.payload")(2, self.state, choice)) != payload:
            raise Wrong(f"another record than that of its choice: {payload.hex()}")
        if choice.con.name == "Input":
            if not left or left[0] != choice.args[0]:
                raise Wrong(f"not the next line: {payload.hex()}")
            left = left[1:]
        entry = self.word("router_steps.specs.Steps.step_entry")(self.state, choice)
        self.state = self.word("router_steps.specs.Steps.after")(self.state, choice)
        return entry, left

    def look(self, most, left, status, text):
        """Looks at a part of a run on these lines, in so many entries at most."""
        entries, records = [], self.records()
        for payload in records:
            entry, left = self.step(payload, left)
            entries.append(entry)
        self.payloads += records
        more = bool(self.word("router_steps.specs.Histories.solo_choice")(self.state, left).args)
        if status != (11 if more else 0) or len(entries) > most or (more and len(entries) != most):
            raise Wrong(f"status {status} after {len(entries)} of {most} entries, with {'something' if more else 'nothing'} to do")
        words = f"status 11 steps-spent {len(entries)}" if more else "status 0 ok"
        if bytes(self.word("usage_totals.specs.Totals.output_text")(tuple(entries), tuple(words.encode()))) != text:
            raise Wrong("another text than that of the entries")
        if not self.word("router_state.specs.Well.is_well")(self.state):
            raise Wrong("a state that isn't well formed")
        return left

    def shown(self, command):
        text = bytes(self.word("router_state.specs.Show.show_text")(self.state)) + b"status 0 ok\n"
        if called(command, self.folder, ["show"], [])[1] != text:
            raise Wrong("show prints another state")


def alone(command, source, lines):
    """What one worker prints."""
    with tempfile.TemporaryDirectory(dir=MEMORY) as folder:
        put(folder, source)
        return called(command, folder, ["play", "1", str(PART_STEPS)], lines)[1]


def play(world, command, workers, seed):
    """Plays a run, and answers how many entries it has, and whether one worker's text is another."""
    row, dice = steps.Row(world, f"many {seed}"), random.Random(f"many {seed}")
    lines, source = lines_of(dice), slowed(dice, row.source)
    signals = row.played.word("signal_script.specs.Signals.signals_of")(tuple("".join(line + "\n" for line in lines).encode())).args[0]
    with tempfile.TemporaryDirectory(dir=MEMORY) as folder:
        put(folder, source)
        run = Run(world, row.played.state, folder)
        status, text = called(command, folder, ["play", str(workers), str(PART_STEPS)], lines)
        left = run.look(PART_STEPS, signals, status, text)
        run.shown(command)
        status, more = called(command, folder, ["resume", str(workers), str(LAST_STEPS)], lines)
        run.look(LAST_STEPS, left, status, more)
        run.shown(command)
        return len(run.payloads), text != alone(command, source, lines)


def main():
    parser = argparse.ArgumentParser(description=__doc__, formatter_class=argparse.RawDescriptionHelpFormatter)
    parser.add_argument("--cmd", default=os.path.join(deployments.TOP, "slee"))
    parser.add_argument("--runs", type=int, default=200)
    parser.add_argument("--workers", type=int, default=4)
    parser.add_argument("--seed", type=int, default=0)
    given = parser.parse_args()
    world = deployments.world()
    if world is None:
        print("not run: rundefs isn't there (RUNDEFS names its folder)")
        return 0
    command, entries, others, wrong = os.path.abspath(given.cmd), 0, 0, 0
    for seed in range(given.seed, given.seed + given.runs):
        try:
            made, other = play(world, command, given.workers, seed)
        except (Wrong, subprocess.TimeoutExpired) as why:
            wrong += 1
            print(f"run {seed}: {why}", flush=True)
            continue
        entries, others = entries + made, others + other
    print(f"{given.runs} runs of {given.workers} workers, {entries} entries, {others} histories that one worker doesn't make, {wrong} wrong")
    return 1 if wrong else 0


def deep_main():
    """The definitions recurse as deep as their lists are long."""
    if deployments.world() is None:
        return main()
    import rundefs

    return rundefs.deep(main)


if __name__ == "__main__":
    sys.exit(deep_main())
