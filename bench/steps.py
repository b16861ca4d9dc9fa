#!/usr/bin/env python3
"""Plays steps by the definitions, and has `golden_steps` play the same by the router. Outside the gate.

    bench/steps.py --write                  the rows of crates/golden_steps: its stdin by worked cases, its stdout by definitions
    bench/steps.py [STEPS [SEED [PROGRAM]]] so many random steps, 1,000 where nothing is said, compared row by row
    bench/steps.py --cases [PROGRAM]        the worked cases that run_definitions.py plays, and rows that come to limits (limit_steps.py)
    bench/steps.py --texts [PROGRAM]        the texts of the worked cases, without the definitions
    bench/steps.py --speed [PROGRAM]        the instructions of a step with 10, 1,000 and 100,000 entities alive
    bench/steps.py --counts                 what may be done where a count is 2^62, by the definitions alone, since no run comes so far
    bench/steps.py --wide N [PROGRAM]       trees of so many children, a multiple of 250, that go: the definitions take minutes for 250

A random row is a deployment by random_deployments.py, and steps of which each is a line at random, or a choice that some activity has; in
between it is asked what may be done, and the whole state is shown. Each step tells its lines and what the journal keeps of it. What
evaluates definitions is rundefs (deployments.py says where). Build the program first: cd crates/golden_steps && rt run
"""
import itertools
import json
import os
import random
import subprocess
import sys
import tempfile
import time

import deployments
import limit_steps
import random_deployments
import run_definitions

TOP = deployments.TOP
FOLDER = os.path.join(TOP, "crates", "golden_steps")
PROGRAM = os.path.join(FOLDER, "out", "golden_steps")
KINDS = {"Initial": "initial", "Deliver": "deliver", "Finish": "finish"}
# a case with a longer text isn't a row that --write keeps
LONG_ROW = 6_000
ROW_STEPS = 60
LAST_STEPS = 10
ALIVE = (10, 1_000, 100_000)
ROUNDS = 10
# neighbours in rounds are far apart
STRIDE = 7919
# the activity of the first call, behind the table's
FIRST_CALL = 2
# a command that makes no step, and the function that does it and nothing else
MARK = "may initial 0"
MARK_FUNCTION = "*::tell_whether"
# the counts of a state, and the most that they come to while steps are made
COUNTS = ("inputs", "next_entity", "next_activity", "next_timer", "next_event")
MOST_COUNT = 2**62
# more than this by the entities that are alive is marked
MOST_RATIO = 2.5


class Played:
    """A row by definitions: a deployment, and commands."""

    def __init__(self, world, source):
        self.world, self.word = world, world.eval
        self.deployment = deployments.Deployment(world, source)
        self.state = self.word("router_state.specs.Initial.initial")(self.deployment.deployed, self.deployment.program)
        self.lines, self.said, self.steps = [], [], 0

    def choice(self, kind, activity):
        import rundefs

        return self.word("router_steps.specs.Steps.choice_on")(rundefs.Tup((activity, kind)))

    def next(self, activity):
        found = self.word("router_state.specs.Next.next")(self.state, activity)
        return found.args[0] if found.args else None

    def may(self, choice):
        return self.word("router_steps.specs.Steps.is_enabled")(self.state, choice)

    def signal(self, line):
        read = self.word("signal_script.specs.Signals.signals_of")(tuple((line + "\n").encode()))
        return self.world.variant("trace_history.choice.Choice", "Input")(read.args[0][0])

    def step(self, choice):
        """The text of a step, which is made."""
        if not self.may(choice):
            return "can't\n"
        entry = self.word("router_steps.specs.Steps.step_entry")(self.state, choice)
        payload = bytes(self.word("router_steps.specs.Payloads.payload")(2, self.state, choice))
        self.state, self.steps = self.word("router_steps.specs.Steps.after")(self.state, choice), self.steps + 1
        return "".join(bytes(line).decode() + "\n" for line in entry.lines) + f"= {payload.hex()}\n"

    def least(self):
        found = self.word("router_state.specs.Next.least")(self.state, ())
        return self.step(self.word("router_steps.specs.Steps.choice_on")(found.args[0])) if found.args else None

    def run(self):
        said = []
        while (text := self.least()) is not None:
            said.append(text)
        return "".join(said)

    def on(self, activity):
        kind = self.next(activity)
        return "none\n" if kind is None else self.step(self.choice(kind, activity))

    def asked(self, kind, activity):
        made = self.world.variant("router_state.kindred.Kindred", kind.capitalize()).value
        return "yes\n" if self.may(self.choice(made, activity)) else "no\n"

    def show(self):
        return bytes(self.word("router_state.specs.Show.show_text")(self.state)).decode()

    def answer(self, line):
        word, _, rest = line.partition(" ")
        if word == "take":
            return self.step(self.signal(rest))
        if word == "on":
            return self.on(int(rest))
        if word == "may":
            kind, activity = rest.split(" ")
            return self.asked(kind, int(activity))
        return {"least": lambda: self.least() or "none\n", "run": self.run, "show": self.show}[word]()

    def play(self, line):
        self.lines.append(line)
        self.said.append(self.answer(line))
        return self

    def text(self):
        return "".join(self.said)


class Row:
    """A row at random."""

    def __init__(self, world, seed):
        self.dice = random.Random(f"row {seed}")
        self.source = self.checked(world, seed)
        self.lines = random_deployments.Lines(self.dice)

    def checked(self, world, seed):
        """A deployment that is none of those refused: scripts at random may not pass."""
        for more in range(1000):
            source = json.dumps(random_deployments.deployment(f"{seed} {more}"))
            try:
                self.played = Played(world, source)
            except deployments.Refused as why:
                self.refused = why
                continue
            return source
        raise self.refused

    def activities(self):
        return [row.number[0] for row in self.played.state.activities]

    def able(self):
        return [it for it in self.activities() if self.played.next(it) is not None]

    def one(self):
        """A command."""
        dice, able = self.dice, self.able()
        if able and dice.random() < 0.75:
            return "least" if dice.random() < 0.3 else f"on {dice.choice(able)}"
        if dice.random() < 0.15:
            return f"may {dice.choice(['initial', 'deliver', 'finish'])} {dice.choice(self.activities() + [77])}"
        self.lines.alive = [bytes(row.kind.args[0]).decode() for row in self.played.state.activities if row.kind.con.name == "External" and not row.ending]
        return "take " + self.lines.line()

    def play(self):
        for line in ("take start c1", "take fire c1 ping addr=tel:1 x=2"):
            self.played.play(line)
        while self.played.steps < ROW_STEPS:
            self.played.play(self.one())
            if self.dice.random() < 0.1:
                self.played.play("show")
        # events may go round for ever: no `run`
        for line in ["least"] * LAST_STEPS + ["show"]:
            self.played.play(line)
        return self


def spelled(source, lines):
    return "".join(line + "\n" for line in [json.dumps(json.loads(source)), *lines]) + "\n"


def told(program, source, lines):
    """What the program says of a row, and its status."""
    ran = subprocess.run([program], input=spelled(source, lines).encode(), capture_output=True, check=False)
    return ran.returncode, ran.stdout.decode(errors="replace")


def first_difference(one, other):
    pairs = enumerate(zip([*one.splitlines(), None], [*other.splitlines(), None]), 1)
    return next(((place, a, b) for place, (a, b) in pairs if a != b), None)


def differs(program, name, played, source):
    """Prints where the program differs, if it does."""
    status, text = told(program, source, played.lines)
    if status == 0 and text == played.text():
        return False
    before, place = 0, len(played.lines)
    for n, said in enumerate(played.said):
        if text[before : before + len(said)] != said:
            place = n
            break
        before += len(said)
    print(f"{name}: differs (status {status}) at command {place + 1} of {len(played.lines)}: {played.lines[place] if place < len(played.lines) else 'the end'}")
    print(f"--- by definitions\n{played.said[place] if place < len(played.said) else ''}--- by the program\n{text[before : before + 3000]}", flush=True)
    with open(f"/tmp/differs-{name.replace(' ', '-').replace('/', '-')}", "w", encoding="utf-8") as f:
        f.write(spelled(source, played.lines))
    return True


def compare(world, steps, seed, program):
    """Rows at random until so many steps were made."""
    done = wrong = rows = 0
    began = time.time()
    while done < steps:
        row = Row(world, f"{seed} {rows}").play()
        done, rows = done + row.played.steps, rows + 1
        if not world.eval("router_state.specs.Well.is_well")(row.played.state):
            print(f"row {rows}: a state that isn't well formed", flush=True)
            wrong += 1
        wrong += differs(program, f"row {seed} {rows - 1}", row.played, row.source)
        if rows % 10 == 0:
            print(f"{done} steps of {rows} rows, {wrong} differ ({time.time() - began:.0f} s)", flush=True)
    print(f"{done} steps of {rows} rows by the seed {seed}: {wrong} differ")
    return 1 if wrong else 0


def rows_of_cases(world):
    """The worked cases that are runs from the first state: their names, deployments and commands."""
    folder = os.environ.get("CASES", "/work/shared/cases")
    found = list(run_definitions.examples_of(os.path.join(TOP, "examples")))
    found += list(run_definitions.cases_of(folder)) if os.path.isdir(folder) else []
    for name, path, steps in found:
        if not run_definitions.is_wanted(name, steps, []):
            continue
        try:
            yield name, *played_case(world, path, steps)
        except (run_definitions.Skipped, run_definitions.Misfit, deployments.Refused, KeyError, ValueError) as why:
            print(f"{name}: skipped ({type(why).__name__} {why})", file=sys.stderr)


def played_case(world, path, steps):
    """A case by the definitions: one worker's choices, with the state shown after each line and its choices."""
    source = run_definitions.read(path, "deploy.json")
    if not run_definitions.is_object(source):
        raise run_definitions.Skipped("a deployment that isn't an object")
    played = Played(world, source)
    for step in steps:
        if step["words"][:2] != ["play", "1"] or step["status"] not in (0, 11) or "stdin" not in step:
            continue
        played.play("run")
        for line in step["stdin"].splitlines():
            played.play("take " + line).play("run")
        return source, played.play("show")
    raise run_definitions.Skipped("nothing is played from the first state")


def rows_of_limits(world, rows):
    """Rows of limit_steps.py by the definitions."""
    for name, parts, lines in rows:
        source = json.dumps(parts)
        played = Played(world, source)
        for line in lines:
            played.play(line)
        yield name, source, played


def all_rows(world):
    yield from rows_of_cases(world)
    yield from rows_of_limits(world, limit_steps.rows())


def write(world):
    rows, texts = [], []
    for name, source, played in all_rows(world):
        if len(played.text()) > LONG_ROW:
            print(f"{name}: {len(played.text())} bytes, left out", file=sys.stderr)
            continue
        rows.append(spelled(source, played.lines))
        texts.append(played.text())
    for name, made in (("stdin", rows), ("stdout", texts)):
        with open(os.path.join(FOLDER, name), "w", encoding="utf-8") as f:
            f.write("".join(made))
    print(f"{len(rows)} rows, {sum(map(len, rows))} and {sum(map(len, texts))} bytes")
    return 0


def compare_rows(rows, program):
    wrong = ran = 0
    for name, source, played in rows:
        ran, wrong = ran + 1, wrong + differs(program, name, played, source)
    print(f"{ran} rows: {wrong} differ")
    return 1 if wrong else 0


def counts(world):
    """Whether a line is taken where a count is the most that it comes to, and none where it is one more."""
    wrong = 0
    for name in COUNTS:
        raised = world.term(f"λ (s : State) (count : ℕ). record s {{ {name} = count }}", "router_state.specs.State")
        for count in (MOST_COUNT, MOST_COUNT + 1):
            played = Played(world, json.dumps(limit_steps.deployment("")))
            played.state = raised(played.state, count)
            taken = played.answer("take start c1") != "can't\n"
            if taken != (count == MOST_COUNT) or not world.eval("router_state.specs.Well.is_well")(played.state):
                wrong += 1
                print(f"{name} at {count}: {'a line is taken' if taken else 'no line is taken'}")
    print(f"{len(COUNTS)} counts: {wrong} differ")
    return 1 if wrong else 0


def numbered(text):
    """The trace that a text of steps is: each heading with its number, without what the journal keeps."""
    numbers = itertools.count(1)
    lines = [it for it in text.splitlines() if not it.startswith("= ")]
    return "".join(f"{it}\n" if it.startswith("  ") else f"{next(numbers)} {it}\n" for it in lines)


def is_trace_of(step, text):
    """Whether a case wants this trace: all of what it prints but totals and status, or parts of it."""
    if "stdout" not in step:
        return all(part in text for part in step["has"])
    rest = step["stdout"][len(text) :].splitlines()
    return step["stdout"].startswith(text) and not any(it.startswith("  ") or it[:1].isdigit() for it in rest)


def compare_texts(program):
    """Compares with the texts of the worked cases themselves, those that take the definitions minutes too."""
    folder = os.environ.get("CASES", "/work/shared/cases")
    ran = wrong = 0
    for name, path, steps in run_definitions.cases_of(folder) if os.path.isdir(folder) else []:
        source = run_definitions.read(path, "deploy.json")
        first = next((it for it in steps if it["words"][:1] in (["play"], ["resume"], ["show"], ["compact"])), {"words": []})
        fits = first["words"][:2] == ["play", "1"] and first["status"] == 0 and "stdin" in first and ("stdout" in first or "has" in first)
        if not fits or not run_definitions.is_object(source) or run_definitions.read(path, "journal.a"):
            continue
        status, text = told(program, source, ["run", *(it for line in first["stdin"].splitlines() for it in ("take " + line, "run"))])
        ran += 1
        if status or not is_trace_of(first, numbered(text)):
            wrong += 1
            print(f"{name}: differs (status {status})\n{numbered(text)[:3000]}", flush=True)
    print(f"{ran} cases: {wrong} differ")
    return 1 if wrong else 0


def filling(alive):
    """Commands after which so many entities are alive, each a root on an activity of its own."""
    calls = [f"take {it}" for n in range(alive) for it in (f"start c{n}", f"fire c{n} ping addr=a x=1")]
    return ["run", *(it for line in calls for it in (line, "run"))]


def measured(alive):
    """Kinds of steps with commands that make one each; those without a name lead to others."""
    rounds = range(min(ROUNDS, alive))
    places = [(n * STRIDE) % alive for n in rounds]
    taken = lambda words: [f"take {words.format(place)}" for place in places]
    old = [f"on {place + FIRST_CALL}" for place in places]
    new = [f"on {alive + FIRST_CALL + n}" for n in rounds]
    yield "a line", taken("fire c{} ping addr=a x=2")
    yield from (("a selection of an old root", old), ("a delivery", old), ("a finish", old))
    yield "a line that starts an activity", taken("start d{}")
    yield "", taken("fire d{} ping addr=a x=1")
    yield from (("a selection of a new root", new), ("", new), ("", new))
    yield "a line that ends an activity", taken("end d{}")
    yield "a finish with which a tree goes", new
    for touch in limit_steps.TOUCHES:
        yield from (("", taken(f"fire c{{}} {touch}")), (f"a delivery: {touch}", old), ("", old))
        if touch == "null":
            yield "a finish of the least activity", ["least"] * len(rounds)


def costs(program, source, alive):
    """The instructions of each kind of step where so many entities are alive, with the text of the step."""
    kinds = list(measured(alive))
    lines = filling(alive) + [it for _, commands in kinds for it in (MARK, *commands)] + [MARK]
    with tempfile.TemporaryDirectory() as folder:
        # a part of the counts is written at each mark
        out = os.path.join(folder, "counts")
        words = ["valgrind", "--tool=callgrind", f"--callgrind-out-file={out}", f"--dump-before={MARK_FUNCTION}", program]
        ran = subprocess.run(words, input=spelled(source, lines).encode(), capture_output=True, check=False)
        wanted = sum(len(commands) for _, commands in kinds) + told(program, source, filling(alive))[1].count("\n= ")
        if ran.returncode or ran.stdout.count(b"\n= ") != wanted:
            sys.exit(f"{wanted} steps were wanted: {ran.stderr.decode()[-500:]}")
        parts = [total_of(f"{out}.{n + 2}") for n in range(len(kinds))]
    return {kind: part / len(commands) for (kind, commands), part in zip(kinds, parts) if kind}


def total_of(path):
    with open(path, encoding="utf-8") as counts:
        return int(next(line.split()[1] for line in counts if line.startswith("totals:")))


def speed(program):
    """Prints the instructions of each kind of step, with so many entities alive, each attached to an activity of its own."""
    source = json.dumps(limit_steps.touching())
    found = [costs(program, source, alive) for alive in ALIVE]
    print(f"{'instructions of':34}" + "".join(f"{alive:>12,}" for alive in ALIVE) + "   times")
    for kind in found[0]:
        ratio = found[-1][kind] / found[0][kind]
        print(f"{kind:34}" + "".join(f"{it[kind]:>12,.0f}" for it in found) + f"{ratio:>8.2f}" + (" *" if ratio > MOST_RATIO else ""))
    return 0


def main():
    words = sys.argv[1:]
    if words[:1] == ["--speed"]:
        return speed(words[1] if words[1:] else PROGRAM)
    if words[:1] == ["--texts"]:
        return compare_texts(words[1] if words[1:] else PROGRAM)
    world = deployments.world()
    if world is None:
        print("not run: rundefs isn't there (RUNDEFS names its folder)")
        return 0
    if words == ["--write"]:
        return write(world)
    if words == ["--counts"]:
        return counts(world)
    program = words[-1] if words and os.path.isfile(words[-1]) else PROGRAM
    if not os.path.isfile(program):
        sys.exit("build it first: cd crates/golden_steps && rt run")
    if words[:1] == ["--wide"]:
        return compare_rows(rows_of_limits(world, limit_steps.broad(int(words[1]))), program)
    if words[:1] == ["--cases"]:
        return compare_rows(all_rows(world), program)
    return compare(world, int(words[0]) if words else 1_000, words[1] if words[1:] else "1", program)


def deep_main():
    """The definitions recurse as deep as their lists are long."""
    if deployments.world() is None:
        return main()
    import rundefs

    return rundefs.deep(main)


if __name__ == "__main__":
    sys.exit(deep_main())
