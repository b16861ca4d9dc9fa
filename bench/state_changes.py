#!/usr/bin/env python3
"""Makes changes of the state by definitions, and has `golden_state` make the same over the stores. Outside the gate.

    bench/state_changes.py --write          the rows of crates/golden_state: its stdin by worked cases, its stdout by definitions
    bench/state_changes.py [LISTS [SEED]]   so many random lists of changes that fit, 100 where nothing is said, one compared after the other

The worked cases are those of run_definitions.py: after each of their steps the state is shown, and it is asked what is next. A random
list is made of changes that fit by the definition; after each some questions are put, and at its end the whole state is shown, as words and
as the bytes of a snapshot. What
evaluates definitions is rundefs (deployments.py says where). Build the program first: cd crates/golden_state && rt run
"""
import json
import os
import random
import subprocess
import sys

import deployments
import run_definitions

TOP = deployments.TOP
FOLDER = os.path.join(TOP, "crates", "golden_state")
PROGRAM = os.path.join(FOLDER, "out", "golden_state")
CHANGE = "router_state.change.Change"
LISTS_AT_ONCE = 50
# a case with a longer text isn't a row that --write keeps
LONG_ROW = 6_000
LAST_MOMENT = 4 * 10**15
HIGH = 2**62
ONE_BLOCK = json.dumps(
    {
        "events": [{"key": it, "name": it, "vendor": "t", "version": "1"} for it in ("ping", "pong")],
        "blocks": [
            {
                "key": "b",
                "name": "B",
                "vendor": "t",
                "version": "1",
                "events": [{"event": "ping", "initial": ["activity"], "on": ""}, {"event": "pong", "on": ""}],
            }
        ],
        "services": [{"key": "s", "name": "S", "vendor": "t", "version": "1", "root": "b", "active": True}],
    }
)

KEEPS = {"all": "All", "last": "Last", "none-missed": "NoneMissed"}
STATES = {"inactive": "Inactive", "active": "Active", "stopping": "Stopping"}


def escaped(text):
    """A text as a word: bytes that a word can't have in hexadecimal digits."""
    return "".join(f"%{ord(it):02x}" if it in "% \n=" else it for it in bytes(text).decode())


def unescaped(word):
    parts = word.split("%")
    return tuple((parts[0] + "".join(chr(int(it[:2], 16)) + it[2:] for it in parts[1:])).encode())


def unescaped_text(word):
    return bytes(unescaped(word)).decode()


class Words:
    """Changes in words, and back."""

    def __init__(self, world):
        import rundefs

        self.world, self.some, self.none, self.pair = world, rundefs.SOME, rundefs.NONE, rundefs.Tup

    def id(self, kind, word):
        """A number of this kind."""
        return self.pair((int(word),))

    def value(self, word):
        kind, _, word = word.partition(":")
        made = self.world.variant("slee_value.value.Value", kind.capitalize())
        if kind == "int":
            return made(int(word))
        if kind == "text":
            return made(unescaped(word))
        if kind == "bool":
            return made(word == "true")
        return made(self.id({"activity": "ActivityId", "timer": "TimerId"}[kind], word))

    def fields(self, words):
        return tuple(self.pair((unescaped(name), self.value(value))) for name, _, value in (it.partition("=") for it in words))

    def kind(self, words):
        made = self.world.variant("router_state.rows.AcKind", words[0].capitalize())
        if words[0] == "external":
            return made(unescaped(words[1]))
        return made.value if words[0] == "null" else made(int(words[1]))

    def event(self, id, name, target, *fields):
        chosen = self.none if target == "-" else self.some(int(target))
        return self.world.record("router_state.rows.Event", id=self.id("EventId", id), name=unescaped(name), fields=self.fields(fields), target=chosen)

    def spec(self, activity, start, period, times, keep):
        kept = self.plain("slee_value.keep.Keep", KEEPS[keep])
        return self.world.record(
            "router_state.rows.TimerSpec", activity=self.id("ActivityId", activity), start=int(start), period=int(period), times=int(times), keep=kept
        )

    def conv_name(self, activity):
        return self.world.record(
            "slee_value.convergence.ConvName",
            activity=self.some(self.id("ActivityId", activity)),
            address=self.none,
            event_type=self.none,
            event=self.none,
            custom=self.none,
        )

    def change(self, line):
        verb, *words = line.split(" ")
        entity = lambda word: self.id("EntityId", word)
        activity = lambda word: self.id("ActivityId", word)
        text, number = unescaped, int
        forms = {
            "set-field": ("SetField", entity, text, self.value),
            "forget-fields": ("ForgetFields", entity),
            "create-root": ("CreateRoot", number, number, number),
            "create-child": ("CreateChild", entity, text, number, number),
            "remove": ("Remove", entity),
            "set-priority": ("SetPriority", entity, number),
            "root": ("Root", entity, self.conv_name),
            "end": ("End", activity),
            "drop": ("DropContext", activity),
            "attach": ("Attach", entity, activity),
            "detach": ("Detach", entity, activity),
            "set-attr": ("SetAttr", activity, text, self.value),
            "bind": ("Bind", text, activity),
            "unbind": ("Unbind", text),
            "forget-masks": ("ForgetMasks", entity, activity),
            "pop": ("Pop", activity),
            "hold": ("Hold", activity, number),
            "release": ("Release", activity),
            "mark-service": ("MarkService", activity, number),
            "mark-entity": ("MarkEntity", activity, entity),
            "cancel": ("Cancel", lambda word: self.id("TimerId", word)),
            "cancel-all": ("CancelAll", activity),
            "advance": ("Advance", number),
            "clock": ("Clock", number),
            "service": ("Service", number, lambda word: self.plain("router_state.rows.ServiceState", STATES[word]), activity),
            "remove-row": ("RemoveRow", number, text),
        }
        if verb in forms:
            name, *readers = forms[verb]
            return self.made(name, *(read(word) for read, word in zip(readers, words, strict=True)))
        return self.longer_change(verb, words)

    def longer_change(self, verb, words):
        entity_activity = lambda: (self.id("EntityId", words[0]), self.id("ActivityId", words[1]))
        if verb in ("taken", "next-event"):
            return self.made({"taken": "Taken", "next-event": "NextEvent"}[verb])
        if verb == "start":
            return self.made("Start", self.kind(words))
        if verb == "mask-on-attach":
            return self.made("MaskOnAttach", *entity_activity(), tuple(unescaped(it) for it in words[2:]))
        if verb in ("mask", "unmask"):
            return self.made("SetMask", *entity_activity(), unescaped(words[2]), verb == "mask")
        if verb == "push":
            return self.made("Push", self.id("ActivityId", words[0]), self.event(*words[1:]))
        if verb == "set-timer":
            return self.made("SetTimer", self.spec(*words))
        if verb in ("add-row", "update-row"):
            return self.made({"add-row": "AddRow", "update-row": "UpdateRow"}[verb], int(words[0]), unescaped(words[1]), self.fields(words[2:]))
        raise ValueError(verb)

    def plain(self, path, name):
        """A variant without fields."""
        return self.world.variant(path, name).value

    def made(self, name, *args):
        return self.world.variant(CHANGE, name)(*args) if args else self.plain(CHANGE, name)


class Spelling:
    """Changes as they are written in words."""

    def __init__(self, change):
        self.name, self.args = change.con.name, change.args

    def line(self):
        name, args = self.name, self.args
        ids = lambda *places: " ".join(str(args[it][0]) for it in places)
        plain = {
            "ForgetFields": "forget-fields",
            "Remove": "remove",
            "End": "end",
            "DropContext": "drop",
            "Attach": "attach",
            "Detach": "detach",
            "ForgetMasks": "forget-masks",
            "Pop": "pop",
            "Release": "release",
            "MarkEntity": "mark-entity",
            "Cancel": "cancel",
            "CancelAll": "cancel-all",
            "Taken": "taken",
            "NextEvent": "next-event",
        }
        if name in plain:
            return " ".join([plain[name], ids(*range(len(args)))]).strip()
        mixed = {
            "SetField": "set-field",
            "CreateRoot": "create-root",
            "CreateChild": "create-child",
            "SetPriority": "set-priority",
            "SetAttr": "set-attr",
            "Bind": "bind",
            "Unbind": "unbind",
            "Hold": "hold",
            "MarkService": "mark-service",
            "Advance": "advance",
            "Clock": "clock",
            "RemoveRow": "remove-row",
        }
        if name in mixed:
            return " ".join([mixed[name], *(self.word(it) for it in args)])
        return getattr(self, "_" + name)(*args)

    def word(self, it):
        if isinstance(it, int):
            return str(it)
        if hasattr(it, "con"):
            return self.value(it)
        if isinstance(it, deployments_tup()):
            return str(it[0])
        return escaped(it)

    def value(self, it):
        kind = it.con.name.lower()
        return f"{kind}:" + {"int": lambda x: str(x), "text": escaped, "bool": lambda x: "true" if x else "false"}.get(kind, lambda x: str(x[0]))(it.args[0])

    def fields(self, fields):
        return [f"{bytes(name).decode()}={self.value(value)}" for name, value in fields]

    def _Start(self, kind):
        words = {"External": lambda: ["external", escaped(kind.args[0])], "Null": lambda: ["null"]}
        return " ".join(["start", *words.get(kind.con.name, lambda: [kind.con.name.lower(), str(kind.args[0])])()])

    def _MaskOnAttach(self, entity, activity, names):
        return " ".join(["mask-on-attach", str(entity[0]), str(activity[0]), *map(escaped, names)])

    def _SetMask(self, entity, activity, event, on):
        return f"{'mask' if on else 'unmask'} {entity[0]} {activity[0]} {escaped(event)}"

    def _Push(self, activity, event):
        target = str(event.target.args[0]) if event.target.args else "-"
        return " ".join(["push", str(activity[0]), str(event.id[0]), escaped(event.name), target, *self.fields(event.fields["fields"])])

    def _SetTimer(self, spec):
        keep = {name: word for word, name in KEEPS.items()}[spec.keep.con.name]
        return f"set-timer {spec.activity[0]} {spec.start} {spec.period} {spec.times} {keep}"

    def _AddRow(self, table, row, fields):
        return " ".join(["add-row", str(table), escaped(row), *self.fields(fields)])

    def _UpdateRow(self, table, row, fields):
        return " ".join(["update-row", str(table), escaped(row), *self.fields(fields)])

    def _Service(self, service, state, activity):
        return f"service {service} {state.con.name.lower()} {activity[0]}"

    def _Root(self, entity, name):
        return f"root {entity[0]} {name.activity.args[0][0] if name.activity.args else 0}"


def deployments_tup():
    import rundefs

    return rundefs.Tup


class Played:
    """A row by definitions: a deployment, and lines of changes and questions."""

    def __init__(self, world, source):
        self.world, self.words = world, Words(world)
        self.deployment = deployments.Deployment(world, without_scripts(source))
        self.state = world.eval("router_state.specs.Initial.initial")(self.deployment.deployed, self.deployment.program)
        self.after = world.eval("router_state.specs.Changes.after_change")
        self.can_make = world.eval("router_stores.specs.Making.can_make")
        self.fits = world.eval("router_state.specs.Fitting.fits_change")

    def answer(self, line):
        word, _, rest = line.partition(" ")
        if word == "show":
            return bytes(self.world.eval("router_state.specs.Show.show_text")(self.state)).decode()
        if word == "bytes":
            return bytes(self.world.eval("router_state.specs.Snapshot.spelled_state")(2, self.state)).hex() + "\n"
        if word == "snapshot":
            return bytes(self.world.eval("router_state.specs.Restoring.snapshot_text")(2, self.state)).hex() + "\n"
        if word == "next":
            found = self.world.eval("router_state.specs.Next.next")(self.state, int(rest))
            return (found.args[0].con.name.lower() if found.args else "none") + "\n"
        if word == "least":
            found = self.world.eval("router_state.specs.Next.least")(self.state, tuple(map(int, rest.split())))
            return (f"a{found.args[0][0]} {found.args[0][1].con.name.lower()}" if found.args else "none") + "\n"
        if word == "look":
            return "seen" + self.seen(self.world.eval("router_state.specs.Look.look")(self.state, self.key(rest))) + "\n"
        change = self.words.change(line)
        if not self.can_make(change, self.state):
            return f"can't {line}\n"
        self.state = self.after(change, self.state)
        return ""

    def key(self, words):
        name, *words = words.split(" ")
        number = lambda word: (int(word),)
        forms = {
            "clock": ("Now",),
            "next": ("Next", number),
            "name": ("Named", unescaped),
            "priority": ("Priority", number),
            "activity": ("AcState", number),
            "timer": ("Timer", number),
            "activities": ("Activities", number),
            "row": ("Profile", unescaped, unescaped),
            "field": ("Field", number, unescaped),
            "children": ("Children", number, unescaped),
            "attr": ("Attr", number, unescaped),
            "attached": ("Attached", number, number),
            "masks": ("Mask", number, number),
        }
        made, *readers = forms[name]
        args = [read(word) if read is unescaped else self.words.pair(read(word)) for read, word in zip(readers, words, strict=True)]
        found = self.world.variant("script_meaning.key.Key", made)
        return found(*args) if args else found.value

    def seen(self, seen):
        it = seen.args[0]
        plain = lambda value: f" {value.con.name.lower()} " + unescaped_text(Spelling.value(self, value).split(":", 1)[1])
        text = lambda name: " " + bytes(name).decode()
        some = {
            "Next": lambda x: f" v{x[0][0]} e{x[1][0]}",
            "Held": plain,
            "Ac": lambda x: (" null" if x.null else " other") + (" ending" if x.ending else " active"),
            "Masks": lambda names: " names" + "".join(map(text, names)),
            "Refers": lambda x: f" a{x[0]}",
            "Row": lambda fields: " row" + "".join(text(name) + plain(value) for name, value in fields),
        }
        name = seen.con.name
        if name in some:
            return some[name](it.args[0]) if it.args else " none"
        return {"Ids": lambda: " ids" + "".join(f" {n}" for n in it), "Number": lambda: f" number {it}", "Flag": lambda: " true" if it else " false"}[name]()

    def play(self, lines):
        return "".join(self.answer(line) for line in lines)


class Recorder:
    """Which changes were made, by watching the definition of a change."""

    def __init__(self, world):
        self.names, path = world.space.names, "router_state.specs.Changes.after_change"
        world.eval(path)
        self.name, self.made = world.find(path).value.python, []
        self.kept = self.names[self.name]

    def __enter__(self):
        self.names[self.name] = self.watched
        return self

    def __exit__(self, *_):
        self.names[self.name] = self.kept

    def watched(self, change, state):
        state = state() if callable(state) and not hasattr(state, "fields") else state
        after = self.kept(change, state)
        self.made.append((state, change, after))
        return after

    def between(self, state, after):
        """The changes that lead from one state to the other."""
        by_after, found = {id(it[2]): it for it in self.made}, []
        while after is not state:
            before, change, _ = by_after[id(after)]
            found.insert(0, change)
            after = before
        return found


def questions(state):
    """What is asked of a state after a step: what is next on each activity, and what is seen of some things that are there."""
    activities = [row.number[0] for row in state.activities]
    asked = ["show", "least"] + [f"least {' '.join(map(str, activities[:n]))}" for n in range(1, min(len(activities), 4) + 1)]
    asked += [f"next {a}" for a in activities[:4]] + [f"look next {a}" for a in activities[-2:]]
    return asked


def rows_of_cases(world):
    """The worked cases as rows: their names, deployments and lines."""
    folder = os.environ.get("CASES", "/work/shared/cases")
    found = list(run_definitions.examples_of(os.path.join(TOP, "examples")))
    found += list(run_definitions.cases_of(folder)) if os.path.isdir(folder) else []
    for name, path, steps in found:
        if not run_definitions.is_wanted(name, steps, []):
            continue
        try:
            source, lines = row_of_case(world, path, steps)
        except (run_definitions.Skipped, run_definitions.Misfit, deployments.Refused, KeyError, ValueError) as why:
            print(f"{name}: skipped ({type(why).__name__} {why})", file=sys.stderr)
            continue
        yield name, source, lines


def row_of_case(world, path, steps):
    """The lines of the runs that are played from the first state."""
    source = run_definitions.read(path, "deploy.json")
    if not run_definitions.is_object(source):
        raise run_definitions.Skipped("a deployment that isn't an object")
    case = run_definitions.made(world, source, None)
    for step in steps:
        if step["words"][:2] != ["play", "1"] or step["status"] not in (0, 11):
            continue
        lines = []
        state, left = case.initial(), tuple(case.signals(step["stdin"].encode()))
        for _ in range(int(step["words"][2])):
            found = case.word("router_steps.specs.Histories.solo_choice")(state, left)
            if not found.args:
                break
            choice, left = found.args[0]
            with Recorder(world) as recorder:
                after = case.word("router_steps.specs.Steps.after")(state, choice)
                lines += [Spelling(it).line() for it in recorder.between(state, after)]
            state = after
            lines += questions(state)
        return source, [*lines, "bytes"] if lines else lines
    raise run_definitions.Skipped("nothing is played from the first state")


def row_of_claims():
    """A deployment with one block, and 66 calls with an event each: 64 workers claim calls from the first one on."""
    calls = range(1, 67)
    lines = [it for call in calls for it in (f"start external c{call}", f"push {call} {call} ping -", "next-event")]
    lines += ["create-root 0 0 0", "attach 1 65", "mark-service 65 0"]
    for count in (0, 1, 63, 64, 65, 66):
        lines.append(" ".join(["least", *map(str, calls[:count])]))
    lines += ["hold 65 5", " ".join(["least", *map(str, calls[:64])]), "release 65", " ".join(["least", *map(str, calls[:64])])]
    lines += ["mark-entity 65 1", " ".join(["least", *map(str, calls[:64])]), "pop 65", " ".join(["least", *map(str, calls[:64])])]
    return ONE_BLOCK, lines


def row_of_high_numbers():
    """Numbers just below 2^62: of activities that aren't there, of events, and of moments."""
    high = [HIGH - 3, HIGH - 2, HIGH - 1]
    lines = ["start null", "create-root 0 0 -128", "create-root 0 0 127"]
    for it in high:
        lines += [f"attach 1 {it}", f"attach 2 {it}", f"mask-on-attach 1 {it} ping pong", f"push {it} {it} ping -", f"hold {it} {it}"]
        lines += [f"set-timer {it} {it} {HIGH - 1} {it} last", f"set-attr {it} b.n int:{it}", "show", f"next {it}", f"look activities 1"]
    lines += [f"clock {HIGH - 1}", f"release {HIGH - 2}", f"next {HIGH - 2}", f"look next {HIGH - 2}", "least", f"advance {HIGH - 2}", "show"]
    lines += [f"unmask 1 {HIGH - 2} ping", f"look next {HIGH - 2}", f"mark-entity {HIGH - 2} 2", f"look next {HIGH - 2}", "set-priority 2 -128", "show"]
    lines += [f"forget-masks 1 {HIGH - 3}", f"detach 2 {HIGH - 1}", f"pop {HIGH - 3}", f"cancel-all {HIGH - 1}", f"drop {HIGH - 2}", "show"]
    return ONE_BLOCK, ["snapshot", *lines, "bytes"]


def row_of_each_change():
    """Each change with what it wants, and without: those that can't be made are told. What only doesn't fit is made all the same."""
    at = lambda *lines: [it for line in lines for it in (line, "show")] + ["bytes"]
    lines = ["snapshot", "bytes", "start external c1", "start null", "start service 1", "start external c1", "create-root 0 0 5", "create-root 9 7 -128", "create-child 1 leg 1 3"]
    lines += ["create-child 99 leg 1 3", "create-child 3 sub 1 0", "remove 1", "attach 1 3", "attach 1 3", "remove 1", "attach 99 3", "attach 2 88"]
    lines += at("set-field 1 n int:7", "set-field 1 n text:a%20b", "set-field 99 n bool:true", "forget-fields 99", "root 1 3", "root 1 4", "root 3 3", "root 99 3")
    lines += at("set-priority 1 127", "set-priority 99 1", "set-attr 3 b.n int:-1", "set-attr 3 b.n activity:3", "set-attr 88 b.n int:2")
    lines += ["bind a 3", "bind a 4", "bind b 88", "unbind c", "end 4", "end 4", "end 88", "bind b 4", "bind b 3", "unbind a", "show"]
    lines += at("mask-on-attach 1 3 ping pong", "mask-on-attach 1 3", "mask 1 3 pong", "mask 1 3 pong", "mask 99 88 zap", "unmask 1 3 pong", "unmask 1 3 zap", "forget-masks 9 9")
    lines += at("hold 3 9", "push 3 5 ping - x=int:5", "push 3 4 pong 1", "push 88 6 zap -", "mark-service 3 0", "mark-service 3 9", "mark-service 4 0", "mark-entity 3 1")
    lines += at("mark-entity 3 99", "mark-entity 4 1", "hold 3 9", "hold 3 7", "next 3", "pop 3", "release 3", "release 4", "pop 4", "pop 3", "pop 3", "next 3")
    lines += at("set-timer 3 10 0 1 all", "set-timer 3 5 5 0 last", "set-timer 88 1 2 3 none-missed", "set-timer 3 0 0 9 all", "advance 4", "advance 20", "cancel 1", "cancel 77")
    lines += at("cancel-all 3", "cancel-all 88", "clock 12", "clock 3", "taken", "next-event", "service 1 stopping 4", "service 2 inactive 0", "service 3 active 0")
    lines += at("add-row 0 a pin=int:1 who=text:x", "add-row 0 a pin=int:2 who=text:y", "add-row 0 b pin=int:1 who=text:y", "add-row 0 b pin=int:2", "add-row 0 b pin=int:2 who=int:3")
    lines += at("add-row 2 b pin=int:2 who=text:y", "add-row 0 b pin=int:2 who=text:y", "add-row 1 a t=bool:true", "update-row 0 a pin=int:2 who=text:z", "update-row 0 a pin=int:1 who=text:z")
    lines += at("update-row 0 c pin=int:9 who=text:z", "update-row 1 a t=int:1", "update-row 7 a t=bool:true", "remove-row 0 c", "remove-row 7 a", "remove-row 0 a", "remove-row 0 a")
    lines += at("detach 1 3", "detach 1 3", "detach 99 88", "drop 88", "drop 3", "remove 4", "remove 3", "remove 3", "remove 1", "remove 99")
    return GROUND, [*lines, "snapshot"]


def without_scripts(source):
    """The deployment as far as changes and what is asked of them know it."""
    whole = json.loads(source)
    keep = lambda part, *names: component(part["key"], **{name: part[name] for name in names if name in part})
    handler = lambda it: {"event": it["event"], "on": "", **({"initial": ["activity"]} if "initial" in it else {})}
    return json.dumps(
        {
            "events": [keep(it) for it in whole.get("events", [])],
            "profiles": [keep(it, "attributes", "unique") for it in whole.get("profiles", [])],
            "tables": whole.get("tables", {}),
            "blocks": [component(it["key"], events=list(map(handler, it.get("events", [])))) for it in whole.get("blocks", [])],
            "services": [keep(it, "root", "priority", "active") for it in whole.get("services", [])],
        }
    )


def parts_in_words(source):
    """The lines of a deployment."""
    whole = json.loads(source)
    for it in whole["events"]:
        yield f"event {it['key']}"
    for it in whole["profiles"]:
        attributes = deployments.in_order(it.get("attributes", {}))
        yield " ".join(["profile", it["key"], *(f"{name}:{kind}" + "!" * (name in it.get("unique", [])) for name, kind in attributes)])
    for name, profile in deployments.in_order(whole["tables"]):
        yield f"table {name} {profile}"
    for it in whole["blocks"]:
        yield " ".join(["block", it["key"], *(h["event"] + "!" * ("initial" in h) for h in it["events"])])
    for it in whole["services"]:
        yield f"service {it['key']} {it['root']} {it.get('priority', 0)} {'active' if it.get('active') else 'inactive'}"


def spelled(source, lines):
    return "".join(line + "\n" for line in [*parts_in_words(source), "begin", *lines]) + "\n"


def write(world):
    rows, texts = [], []
    made = [("claims", *row_of_claims()), ("high numbers", *row_of_high_numbers()), ("each change", *row_of_each_change())]
    for name, source, lines in [*made, *rows_of_cases(world)]:
        text = Played(world, source).play(lines)
        if not lines or (len(text) > LONG_ROW and name not in [it[0] for it in made]):
            print(f"{name}: {len(text)} bytes, left out", file=sys.stderr)
            continue
        rows.append(spelled(without_scripts(source), lines))
        texts.append(text)
    with open(os.path.join(FOLDER, "stdin"), "w", encoding="utf-8") as f:
        f.write("".join(rows))
    with open(os.path.join(FOLDER, "stdout"), "w", encoding="utf-8") as f:
        f.write("".join(texts))
    print(f"{len(rows)} rows, {sum(map(len, rows))} and {sum(map(len, texts))} bytes")
    return 0


def component(key, **more):
    return {"key": key, "name": key, "vendor": "t", "version": "1", **more}


GROUND = json.dumps(
    {
        "events": [component("ping", fields={"x": "int"}), component("pong"), component("zap")],
        "profiles": [component("account", attributes={"pin": "int", "who": "text"}, unique=["pin"]), component("note", attributes={"t": "bool"})],
        "tables": {"accounts": "account", "notes": "note"},
        "blocks": [
            component(
                "b",
                fields={"n": "int", "t": "text"},
                relations={"leg": {"block": "c"}},
                events=[{"event": "ping", "initial": ["activity"], "on": ""}, {"event": "pong", "mask": True, "on": ""}],
            ),
            component("c", relations={"sub": {"block": "c"}}, events=[{"event": "ping", "on": ""}, {"event": "zap", "on": ""}]),
            component("d", events=[{"event": "zap", "initial": ["activity"], "on": ""}, {"event": "pong", "initial": ["activity"], "on": ""}]),
        ],
        "services": [component("s", root="b", active=True), component("u", root="d", active=True, priority=3), component("w", root="d")],
    }
)
EVENTS = "ping pong zap activity-end timer".split()
TEXTS = ["a", "b", "tel:1", "tel:2", "a b", "é", "%", "B", "zz", "a-longer-text-than-the-others"]


class Dice:
    """Changes at random, over what a state has."""

    def __init__(self, seed, played):
        self.random, self.played = random.Random(seed), played

    def one(self, *of):
        return self.random.choice(of)

    def number(self, next_number):
        return self.random.randrange(1, next_number + 1) if self.random.random() < 0.97 else self.one(HIGH - 1, HIGH - 2)

    def line(self):
        s, of, one = self.played.state, self.random.randrange, self.one
        entity, activity = lambda: self.number(s.next_entity), lambda: self.number(s.next_activity)
        moment, text, event = lambda: one(of(40), of(40), HIGH - of(1, 4)), lambda: escaped(one(*TEXTS).encode()), lambda: one(*EVENTS)
        priority = lambda: one(-128, -1, 0, 0, 0, 1, 5, 127)
        return one(
            lambda: f"set-field {entity()} {one('n', 't', 'other')} {self.value()}",
            lambda: f"forget-fields {entity()}",
            lambda: f"create-root {of(3)} {of(3)} {priority()}",
            lambda: f"create-root {of(3)} {of(3)} {priority()}",
            lambda: f"create-child {entity()} {one('leg', 'sub')} {of(3)} {priority()}",
            lambda: f"create-child {entity()} {one('leg', 'sub')} {of(3)} {priority()}",
            lambda: f"remove {entity()}",
            lambda: f"set-priority {entity()} {priority()}",
            lambda: f"set-priority {entity()} {priority()}",
            lambda: f"root {entity()} {activity()}",
            lambda: f"start {one('null', 'service 1', 'table 0', 'external c1', 'external c2', 'external c3')}",
            lambda: f"start {one('null', 'external c1', 'external c2', 'external c3')}",
            lambda: f"end {activity()}",
            lambda: f"drop {activity()}",
            lambda: f"attach {entity()} {activity()}",
            lambda: f"attach {entity()} {activity()}",
            lambda: f"attach {entity()} {activity()}",
            lambda: f"detach {entity()} {activity()}",
            lambda: f"set-attr {activity()} {one('b.n', 'c.x', 'd')} {self.value()}",
            lambda: f"bind {text()} {activity()}",
            lambda: f"bind {text()} {activity()}",
            lambda: f"unbind {text()}",
            lambda: " ".join(["mask-on-attach", str(entity()), str(activity()), *sorted(set(event() for _ in range(of(3))))]),
            lambda: f"{one('mask', 'unmask')} {entity()} {activity()} {event()}",
            lambda: f"forget-masks {entity()} {activity()}",
            self.push,
            self.push,
            self.push,
            lambda: f"pop {activity()}",
            lambda: f"mark-service {activity()} {of(3)}",
            lambda: f"mark-entity {activity()} {entity()}",
            lambda: f"mark-entity {activity()} {entity()}",
            lambda: f"hold {activity()} {moment()}",
            lambda: f"release {activity()}",
            lambda: f"set-timer {activity()} {moment() % LAST_MOMENT} {one(0, 3, 10)} {one(0, 1, 5)} {one(*KEEPS)}",
            lambda: f"cancel {self.number(s.next_timer)}",
            lambda: f"cancel-all {activity()}",
            lambda: f"advance {moment()}",
            lambda: f"{one('add-row', 'update-row')} 0 {text()} pin=int:{of(4)} who=text:{text()}",
            lambda: f"{one('add-row', 'update-row')} 1 {text()} t=bool:{one('true', 'false')}",
            lambda: f"add-row {of(3)} {text()} pin=int:{of(9)} who=text:{text()}",
            lambda: f"remove-row {of(2)} {text()}",
            lambda: f"clock {moment()}",
            lambda: "taken",
            lambda: "next-event",
            lambda: f"service {of(4)} {one(*STATES)} {of(5)}",
        )()

    def value(self):
        return self.one("int:-5", "int:7", "text:" + escaped(self.one(*TEXTS).encode()), "bool:true", "activity:0", "activity:3", "timer:0", "timer:2")

    def push(self):
        s = self.played.state
        id = s.next_event + self.random.randrange(3) if self.random.random() < 0.9 else self.random.randrange(1, 9)
        return f"push {self.number(s.next_activity)} {id} {self.one(*EVENTS)} {self.one('-', '-', 0, 1, 2)}{self.one('', ' x=int:5')}"

    def question(self):
        s = self.played.state
        entity, activity = self.number(s.next_entity), self.number(s.next_activity)
        claimed = [str(it) for it in range(1, s.next_activity + 1) if self.random.random() < 0.5]
        return self.one(
            " ".join(["least", *claimed]),
            f"next {activity}",
            f"look next {activity}",
            f"look activities {entity}",
            f"look children {entity} leg",
            f"look priority {entity}",
            f"look masks {entity} {activity}",
            f"look field {entity} n",
            f"look attr {activity} b.n",
            f"look attached {entity} {activity}",
            f"look activity {activity}",
            f"look name {escaped(self.one(*TEXTS).encode())}",
            f"look timer {self.number(s.next_timer)}",
            f"look row accounts {escaped(self.one(*TEXTS).encode())}",
            "look clock",
        )

    def row(self, changes):
        """A list of lines, and what they say by definitions."""
        lines, said = [], []
        while len(lines) < changes:
            line = self.line()
            if self.played.fits(self.played.words.change(line), self.played.state):
                lines.append(line)
                said.append(self.played.answer(line))
                if self.random.random() < 0.4:
                    lines.append(self.question())
                    said.append(self.played.answer(lines[-1]))
        ends = ["least", "show", "bytes", "snapshot"]
        return lines + ends, "".join(said + [self.played.answer(it) for it in ends])


def compare(world, count, seed):
    """Has the program play so many lists, and says which it plays otherwise."""
    first, wrong, changes = Played(world, GROUND), 0, 0
    begun = first.state
    for start in range(0, count, LISTS_AT_ONCE):
        rows = []
        for place in range(start, min(start + LISTS_AT_ONCE, count)):
            first.state = begun
            dice = Dice(f"{seed} {place}", first)
            lines, said = dice.row(dice.random.choice((10, 40, 80)))
            changes += len(lines)
            rows.append((place, lines, said))
        ran = subprocess.run([PROGRAM], input="".join(spelled(without_scripts(GROUND), lines) for _, lines, _ in rows).encode(), capture_output=True, check=False)
        if ran.returncode or ran.stdout.decode() != "".join(said for _, _, said in rows):
            wrong += differing(rows)
    print(f"{count} lists of {changes} lines by the seed {seed}: {wrong} differ")
    return 1 if wrong else 0


def differing(rows):
    wrong = 0
    for place, lines, said in rows:
        ran = subprocess.run([PROGRAM], input=spelled(without_scripts(GROUND), lines).encode(), capture_output=True, check=False)
        if ran.returncode or ran.stdout.decode() != said:
            wrong += 1
            print(f"list {place} (status {ran.returncode}):\n" + "\n".join(lines) + f"\n--- by definitions\n{said}--- by the program\n{ran.stdout.decode()}", flush=True)
    return wrong


def deep_main():
    """The definitions recurse as deep as their lists are long."""
    if deployments.world() is None:
        return main()
    import rundefs

    return rundefs.deep(main)


def main():
    world = deployments.world()
    if world is None:
        print("not run: rundefs isn't there (RUNDEFS names its folder)")
        return 0
    if sys.argv[1:] == ["--write"]:
        return write(world)
    if not os.path.exists(PROGRAM):
        sys.exit("build it first: cd crates/golden_state && rt run")
    return compare(world, int(sys.argv[1]) if sys.argv[1:] else 100, sys.argv[2] if sys.argv[2:] else "1")


if __name__ == "__main__":
    sys.exit(deep_main())
