#!/usr/bin/env python3
"""Runs the definitions of the router, from a deployment, lines and words to the text, and compares it to the byte.

    bench/run_definitions.py [NAME ..]      all cases whose names begin so; without names all of them but those that take minutes

The cases are those of examples/, and of /work/shared/cases or the folder that CASES names where it is there. What evaluates
definitions is rundefs, in /work/shared/tools/rundefs or the folder that RUNDEFS names; without it nothing is run, and the script says so.
Each play, resume, show, compact and trial of a case is computed by `router_state` and `router_steps`, the journal between them by the payloads
and snapshots of both formats. What isn't a definition there (workers, statuses of the disk, other commands) is skipped, with a word.
"""
import json
import os
import sys
import time

import deployments

TOP = deployments.TOP
TRIAL_STEPS = 1_000_000
SLOT_COUNT = 4
# A text so long takes its time, and so do ten thousand occurrences of a timer.
LONG_TEXT = 4_000
MANY = "clock 10000"
REPLAYED = ("record\n", "replay\n", "snapshot\n")


class Skipped(Exception):
    """A case that speaks of more than these definitions, or that the tool can't run."""


class Journal:
    """A side: its format, its generation, the snapshot text, and the payloads."""

    def __init__(self, deployment, generation=1, snapshot=b"", payloads=(), form=2):
        self.deployment, self.generation, self.snapshot, self.payloads = deployment, generation, snapshot, list(payloads)
        self.form = form

    def head(self):
        sized = [len(part).to_bytes(4, "little") + part for part in (self.deployment, self.snapshot)]
        return b"\x01SLEEJ%d" % self.form + self.generation.to_bytes(8, "little") + b"".join(sized)

    def bytes(self):
        return self.head() + b"".join(b"\x01" + len(p).to_bytes(4, "little") + p for p in self.payloads) + b"\x00"

    @staticmethod
    def read(side):
        if side[:7] not in (b"\x01SLEEJ1", b"\x01SLEEJ2"):
            raise Skipped("a journal without a header")
        size = int.from_bytes(side[15:19], "little")
        deployment, rest = side[19 : 19 + size], side[19 + size :]
        size = int.from_bytes(rest[:4], "little")
        snapshot, rest = rest[4 : 4 + size], rest[4 + size :]
        payloads = []
        while rest[:1] == b"\x01":
            size = int.from_bytes(rest[1:5], "little")
            payloads.append(rest[5 : 5 + size])
            rest = rest[5 + size :]
        return Journal(deployment, int.from_bytes(side[7:15], "little"), snapshot, payloads, side[6] - ord("0"))


class Misfit(Exception):
    def __init__(self, at, kind):
        self.line = f"status 8 bad-journal a {at} {kind}\n"


class Case:
    def __init__(self, world, source, side):
        self.world, self.source = world, source
        self.deployment = deployments.Deployment(world, source)
        self.journal = Journal.read(side) if side else None
        self.shown, self.renewed = {}, False

    def word(self, path):
        return self.world.eval(path)

    def initial(self):
        return self.word("router_state.specs.Initial.initial")(self.deployment.deployed, self.deployment.program)

    def base(self):
        """The state for which the journal stands; each record is tested where it stands."""
        if self.journal is None:
            return self.initial()
        restored = self.word("router_state.specs.Restoring.state_of_snapshot")
        found = restored(self.journal.form, self.deployment.deployed, self.deployment.program, tuple(self.journal.snapshot))
        if not found.args:
            raise Misfit(0, "snapshot")
        state = self.replayed(found.args[0])
        if self.journal.form == 1:
            self.renew(state)
        return state

    def renew(self, state):
        """A new side of format 2 with the state's snapshot; it isn't side A."""
        self.renewed = True
        snapshot = bytes(self.word("router_state.specs.Restoring.snapshot_text")(2, state))
        self.journal = Journal(self.source, self.journal.generation + 1 if self.journal else 2, snapshot)

    def replayed(self, state):
        at = len(self.journal.head())
        for payload in self.journal.payloads:
            found = self.word("router_steps.specs.Payloads.choice_in")(self.journal.form, tuple(payload))
            if not found.args:
                raise Misfit(at, "record")
            choice = found.args[0]
            if not self.word("router_steps.specs.Steps.is_enabled")(state, choice) or self.payload(self.journal.form, state, choice) != payload:
                raise Misfit(at, "replay")
            state = self.word("router_steps.specs.Steps.after")(state, choice)
            at += 5 + len(payload)
        return state

    def payload(self, form, state, choice):
        return bytes(self.word("router_steps.specs.Payloads.payload")(form, state, choice))

    def signals(self, text):
        read = self.word("signal_script.specs.Signals.signals_of")(tuple(text))
        if read.con.name != "Ok":
            raise Skipped("lines that aren't signals")
        return read.args[0]

    def solo(self, base, steps, lines):
        """The entries of one worker, and the state behind them."""
        entries, state = [], base
        while len(entries) < steps:
            found = self.word("router_steps.specs.Histories.solo_choice")(state, lines)
            if not found.args:
                return entries, state, False
            choice, lines = found.args[0]
            entries.append(self.word("router_steps.specs.Steps.step_entry")(state, choice))
            if self.journal is not None:
                self.journal.payloads.append(self.payload(2, state, choice))
            state = self.word("router_steps.specs.Steps.after")(state, choice)
        left = self.word("router_steps.specs.Histories.solo_choice")(state, lines)
        return entries, state, bool(left.args)

    def played(self, steps, lines):
        base = self.base()
        self.journal = self.journal or Journal(self.source)
        if lines is None:
            raise Skipped("no lines")
        taken = lines[base.inputs :] if self.resumes else lines
        entries, state, is_left = self.solo(base, steps, tuple(taken))
        self.well(state)
        status = f"status 11 steps-spent {steps}" if is_left else "status 0 ok"
        return bytes(self.word("usage_totals.specs.Totals.output_text")(tuple(entries), tuple(status.encode())))

    def well(self, state):
        if not self.word("router_state.specs.Well.is_well")(state):
            raise AssertionError("a state that isn't well formed")
        spelled = self.word("router_state.specs.Snapshot.spelled_state")
        restored = self.word("router_state.specs.Restoring.restored")
        for form in (1, 2):
            found = restored(form, self.deployment.deployed, self.deployment.program, spelled(form, state))
            if not found.args or bytes(spelled(form, found.args[0])) != bytes(spelled(form, state)):
                raise AssertionError("a snapshot that isn't read as its state")

    def show(self):
        return bytes(self.word("router_state.specs.Show.show_text")(self.base())) + b"status 0 ok\n"

    def compact(self):
        self.renew(self.base())
        return f"generation {self.journal.generation}\nstatus 0 ok\n".encode()

    def trial(self, seed, count):
        lines = self.signals("".join(line + "\n" for line in generated(self.deployment.json, seed, count)).encode())
        journal, self.journal = self.journal, None
        entries, _, _ = self.solo(self.initial(), TRIAL_STEPS, tuple(lines))
        self.journal = journal
        kinds = [bytes(line) for entry in entries for line in entry.lines]
        counts = [
            ("lines", sum(entry.choice.con.name == "Input" for entry in entries)),
            ("entries", len(entries)),
            ("started", sum(line.startswith(b"  started ") for line in kinds)),
            ("deliveries", sum(entry.choice.con.name == "Deliver" for entry in entries)),
            ("refused", sum(line.startswith(b"  refused ") for line in kinds)),
        ]
        totals = self.word("usage_totals.specs.Totals.total_lines")(tuple(entries))
        text = "".join(f"{word} {number}\n" for word, number in counts).encode()
        return text + b"".join(bytes(line) + b"\n" for line in totals) + b"status 0 ok\n"

    def answer(self, words, given):
        self.resumes = words[0] == "resume"
        if words[0] in ("play", "resume") and words[1] == "1":
            return self.played(int(words[2]), self.signals(given))
        if words == ["show"]:
            return self.show()
        if words == ["compact"]:
            return self.compact()
        if words[0] == "trial":
            return self.trial(int(words[1]), int(words[2]))
        if words[0] == "gen":
            return "".join(line + "\n" for line in generated(self.deployment.json, int(words[1]), int(words[2]))).encode()
        raise Skipped("the command " + " ".join(words))


def generated(deployment, seed, count):
    """The lines of the generator, as far as its definition isn't written: starts, ends, clocks and fired events."""
    events, slots, started, moment = deployment.get("events", []), [None] * SLOT_COUNT, 0, 0
    for _ in range(count):
        seed = (1664525 * seed + 1013904223) % 2**32
        r = seed // 65536
        k, q, p = r % 4, (r // 4) % 8, r // 32
        if slots[k] is None:
            started += 1
            slots[k] = f"g{started}"
            yield "start " + slots[k]
        elif q == 0:
            yield "end " + slots[k]
            slots[k] = None
        elif q == 1 or not events:
            moment += 1000
            yield f"clock {moment}"
        else:
            yield fired(slots[k], events[p % len(events)], p)


def fired(name, event, p):
    values = {"int": str(p % 1000), "text": f"tel:{p % 100}", "bool": "true" if p % 2 else "false"}
    fields = sorted(event.get("fields", {}).items())
    return f"fire {name} {event['key']}" + "".join(f" {field}={values[kind]}" for field, kind in fields if kind in values)


def fits(step, answer, case, place):
    """Whether the answer is what the case wants, and what differs."""
    case.shown[place] = answer
    wanted = [("stdout", answer == step["stdout"].encode())] if "stdout" in step else []
    wanted += [("has", part.encode() in answer) for part in step.get("has", [])]
    if "tail" in step:
        wanted.append(("tail", answer.endswith(step["tail"].encode())))
    if "same_as" in step:
        wanted.append(("same_as", answer == case.shown[step["same_as"]]))
    if "journal_a" in step and case.journal is not None and not case.renewed:
        wanted.append(("journal_a", case.journal.bytes().hex() == step["journal_a"]))
    return [word for word, holds in wanted if not holds]


def run_case(world, folder, steps):
    source = read(folder, "deploy.json")
    if not is_object(source):
        raise Skipped("a deployment that isn't an object")
    case = made(world, source, read(folder, "journal.a"))
    for place, step in enumerate(steps):
        if "stdin" not in step:
            raise Skipped("lines that aren't text")
        if step["status"] not in (0, 11) and not step["stdout"].endswith(REPLAYED):
            raise Skipped("status " + str(step["status"]))
        try:
            answer = case.answer(step["words"], step["stdin"].encode())
        except Misfit as wrong:
            answer = wrong.line.encode()
        wrong = fits(step, answer, case, place)
        if wrong:
            return f"{' '.join(step['words'])}: {', '.join(wrong)}\n{answer.decode(errors='replace')}"
    return None


def made(world, source, side):
    """A case with its deployment; what isn't found in one by its name is a fault of shape, which isn't told here."""
    try:
        return Case(world, source, side)
    except (KeyError, ValueError):
        raise Skipped("a deployment that is refused (shape)") from None


def is_object(source):
    try:
        return isinstance(json.loads(source), dict)
    except ValueError:
        return False


def read(folder, name):
    path = os.path.join(folder, name)
    return open(path, "rb").read() if os.path.isfile(path) else None


def cases_of(folder):
    for name in sorted(os.listdir(folder)):
        steps = read(os.path.join(folder, name), "steps.json")
        if steps and read(os.path.join(folder, name), "deploy.json"):
            yield name, os.path.join(folder, name), json.loads(steps)["steps"]


def examples_of(folder):
    """Each folder with a deployment and with words, signals and what they print behind one another."""
    for name in sorted(os.listdir(folder)):
        path = os.path.join(folder, name)
        ends = [""] + [f".{n}" for n in range(2, 10)]
        parts = [(read(path, "words" + e), read(path, "signals" + e), read(path, "expected" + e)) for e in ends]
        steps = [
            {"words": words.decode().split(), "stdin": (signals or b"").decode(), "stdout": expected.decode(), "status": 0}
            for words, signals, expected in parts
            if words and expected
        ]
        if steps and read(path, "deploy.json"):
            yield name, path, steps


def is_wanted(name, steps, names):
    slow = any(len(step.get("stdout", "")) > LONG_TEXT or MANY in (step.get("stdin") or "") for step in steps)
    return name.startswith(tuple(names)) if names else not slow


def outcome(world, folder, steps):
    try:
        return run_case(world, folder, steps)
    except Skipped as why:
        return f"skipped: {why}"
    except deployments.Refused as why:
        return f"skipped: a deployment that is refused ({why.args[0]})"


def main():
    world = deployments.world()
    if world is None:
        print("not run: rundefs isn't there (RUNDEFS names its folder)")
        return 0
    folder = os.environ.get("CASES", "/work/shared/cases")
    found = list(examples_of(os.path.join(TOP, "examples"))) + (list(cases_of(folder)) if os.path.isdir(folder) else [])
    ran = wrong = skipped = 0
    for name, path, steps in found:
        if not is_wanted(name, steps, sys.argv[1:]):
            continue
        began = time.time()
        said = outcome(world, path, steps)
        if said is None:
            ran += 1
        elif said.startswith("skipped"):
            skipped += 1
        else:
            wrong += 1
        print(f"{name}: {said or 'agrees'} ({time.time() - began:.1f} s)", flush=True)
    print(f"{ran} agree, {wrong} differ, {skipped} skipped")
    return 1 if wrong else 0


def deep_main():
    """The definitions recurse as deep as their lists are long."""
    if deployments.world() is None:
        return main()
    import rundefs

    return rundefs.deep(main)


if __name__ == "__main__":
    sys.exit(deep_main())
