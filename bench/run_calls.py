#!/usr/bin/env python3
"""Runs the router's definitions where a worked row is no run of the program: calls one behind another, and restarts.

    python3 bench/run_calls.py

- Lines that are taken in a row, with nothing delivered between them: a second end, an event behind the end, a name in use.
- Two deliveries to one entity, both seen before either is done: the second to be done finds what the first has changed, and where.
- A restart behind each entry of a prepaid call: the journal's payloads stand for the state, and the lines go on to the same end.
- A restart before and behind the record of a line that is taken.

What evaluates definitions is found as run_definitions.py finds it; without it nothing is run.
"""
import json
import sys

import deployments
from run_definitions import Case, Journal, read

BLOCK = {"name": "B", "vendor": "t", "version": "1"}


def source(events, block):
    kinds = [{"key": key, "name": key, "vendor": "t", "version": "1"} for key in events]
    service = {"key": "s", "name": "S", "vendor": "t", "version": "1", "root": "b", "active": True}
    return json.dumps({"events": kinds, "blocks": [{"key": "b", **BLOCK, **block}], "services": [service]}).encode()


class Calls:
    """Steps that are made one by one, with the lines that each gives."""

    def __init__(self, world, deployment):
        self.case = Case(world, deployment, None)
        self.state = self.case.initial()

    def word(self, path):
        return self.case.word(path)

    def choice(self, name, *args):
        return self.case.world.variant("trace_history.choice.Choice", name)(*args)

    def step(self, choice):
        if not self.word("router_steps.specs.Steps.is_enabled")(self.state, choice):
            raise AssertionError("a choice that isn't enabled")
        entry = self.word("router_steps.specs.Steps.step_entry")(self.state, choice)
        self.state = self.word("router_steps.specs.Steps.after")(self.state, choice)
        return [bytes(line).decode() for line in entry.lines]

    def take(self, line):
        return self.step(self.choice("Input", self.case.signals(line.encode())[0]))

    def on(self, name, activity):
        import rundefs

        return self.step(self.choice(name, rundefs.Tup((activity,))))


def lines_in_a_row(world):
    """The end of an activity, and what is refused behind it."""
    calls = Calls(world, source(["ping"], {"events": [{"event": "ping", "initial": ["activity"], "on": ""}]}))
    calls.take("start c1")
    yield calls.take("end c1"), ["input end c1", "  ending a1", "  queued v1 activity-end a1"]
    before = calls.state
    yield calls.take("fire c1 ping"), ["input fire c1 ping", "  refused ending"]
    yield calls.take("start c1"), ["input start c1", "  refused exists"]
    changed = [name for name in before.fields if before.fields[name] != calls.state.fields[name]]
    yield (changed, calls.state.inputs), (["inputs"], 4)


def two_attempts(world):
    """A field that two deliveries saw as 0: the first to be done makes it 1, and the second finds that."""
    import rundefs

    block = {"fields": {"n": "int"}, "events": [{"event": "hit", "initial": [], "on": "self.n = self.n + 1;"}]}
    calls = Calls(world, source(["hit"], block))
    for line in ("start c1", "start c2", "fire c1 hit", "fire c2 hit"):
        calls.take(line)
    yield calls.on("Initial", 1), ["initial a1 v1 s e1 new", "  attached e1 a1"]
    yield calls.on("Initial", 2), ["initial a2 v2 s e1 old", "  attached e1 a2"]
    key = world.variant("script_meaning.key.Key", "Field")(rundefs.Tup((1,)), rundefs.codes("n"))
    seen = calls.word("router_state.specs.Look.look")(calls.state, key)
    yield repr(seen), "Held (Some (Int 0))"
    known = (rundefs.Tup((key, seen)),)
    conflict = calls.word("router_state.specs.Observed.conflict")
    yield repr(conflict(known, calls.state)), "None"
    yield calls.on("Deliver", 2), ["deliver a2 v2 e1 fine"]
    found = conflict(known, calls.state).args[0]
    yield (repr(found[1]), repr(found[2])), ("Held (Some (Int 0))", "Held (Some (Int 1))")
    yield calls.on("Deliver", 1), ["deliver a1 v1 e1 fine"]
    yield repr(calls.word("router_state.specs.Look.look")(calls.state, key)), "Held (Some (Int 2))"


def restarts(world):
    """A prepaid call that is stopped behind each of its entries, and goes on from the journal."""
    folder = deployments.os.path.join(deployments.TOP, "examples", "prepaid")
    deployment = read(folder, "deploy.json")
    lines = b"start c1\nfire c1 invite addr=tel:5551\nend c1\n"
    whole = Case(world, deployment, None)
    whole.journal = Journal(deployment)
    signals = tuple(whole.signals(lines))
    entries, _, _ = whole.solo(whole.initial(), 100, signals)
    yield len(entries), 8
    for kept in range(len(entries) + 1):
        case = Case(world, deployment, None)
        case.journal = Journal(deployment)
        case.journal.payloads = list(whole.journal.payloads[:kept])
        case.resumes = True
        text = case.played(100, signals)
        yield (kept, text.count(b"\n")), (kept, sum(len(entry.lines) for entry in entries[kept:]) + 1)
        shown = b"clock 0\ninputs 3\nservice prepaid active\nactivity a1 active table accounts\nstatus 0 ok\n"
        yield (kept, case.show()), (kept, shown)


def unflushed(world):
    """A line whose record isn't written yet: a restart is before it, and once the record is written behind it."""
    deployment = source(["ping"], {"events": [{"event": "ping", "initial": ["activity"], "on": ""}]})
    calls = Calls(world, deployment)
    first = calls.state
    calls.take("start c1")
    line = calls.case.signals(b"start c1")[0]
    for written, inputs in ((0, 0), (1, 1)):
        case = Case(world, deployment, None)
        case.journal = Journal(deployment)
        case.journal.payloads = [case.payload(2, first, calls.choice("Input", line))][:written]
        yield case.base().inputs, inputs


def main():
    world = deployments.world()
    if world is None:
        print("run_calls: skipped, the tool that evaluates definitions isn't here (deployments.py)")
        return 0
    wrong = done = 0
    for rows in (lines_in_a_row, two_attempts, restarts, unflushed):
        for found, wanted in rows(world):
            done += 1
            if found != wanted:
                wrong += 1
                print(f"{rows.__name__}: {found}\n    wanted {wanted}")
    print(f"run_calls: {done} answers, {wrong} wrong")
    return 1 if wrong else 0


if __name__ == "__main__":
    if deployments.world() is None:
        sys.exit(main())
    import rundefs

    status = []
    rundefs.deep(lambda: status.append(main()))
    sys.exit(status[0])
