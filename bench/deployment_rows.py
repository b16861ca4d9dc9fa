#!/usr/bin/env python3
"""Deployments and the first fault of each, worked out by hand from docs/FORMATS.md. With no fault the answer is None.

    python3 bench/deployment_rows.py             do the definitions of deploy_model say the same? Without the tool that
                                                 evaluates definitions (deployments.py says where it is looked for) nothing is run
    python3 bench/deployment_rows.py --program   does the built program golden_parts? (cd crates/golden_parts && rt run < stdin)
    python3 bench/deployment_rows.py --write     writes what that program is run on when it is proved, and what it has to print

The rows are: deployments one by one; one good deployment with each fault that parts can have, in the order of the walk, alone and
together with the next one behind it (with every later one by --program alone); lists of thousands of items; and questions
by key. --write leaves out the pairs that don't stand side by side and most of the long lists.
"""
import copy
import json
import os
import subprocess
import sys

import deployments

CRATE = os.path.join(os.path.dirname(os.path.abspath(__file__)), "..", "crates", "golden_parts")


def item(key, **members):
    return {"key": key, "name": key, "vendor": "t", "version": "1", **members}


def on(event, **members):
    return {"event": event, "on": "", **members}


def deployment(events=(), profiles=(), tables=None, blocks=(), services=()):
    return {"events": list(events), "profiles": list(profiles), "tables": tables or {},
            "blocks": list(blocks), "services": list(services)}


def block_with(**members):
    return deployment(events=[item("ping", fields={"addr": "text", "n": "int"})], blocks=[item("b", **members)])


LONG = "k" * 64
PING = item("ping")

ROWS = [
    ("nothing", deployment(), None),
    ("prepaid", deployment(
        events=[{"key": "invite", "name": "Invite", "vendor": "demo", "version": "1.0", "fields": {"addr": "text"}}],
        profiles=[item("account", attributes={"seconds": "int"})], tables={"accounts": "account"},
        blocks=[item("call", fields={"who": "text"}, events=[
            on("invite", initial=["activity"]), on("timer"), on("activity-end")])],
        services=[item("prepaid", root="call", active=True)]), None),
    # keys and components
    ("key of 64 bytes", deployment(events=[item(LONG)]), None),
    ("key twice", deployment(events=[PING, item("ping", version="2")]), "/events/1/key repeated"),
    ("first key that stands twice", deployment(events=[item("a"), item("b"), item("b", version="2"), item("a", version="3")]),
     "/events/2/key repeated"),
    ("one key in two lists", deployment(events=[item("a")], blocks=[item("a")], profiles=[item("a")],
                                        services=[item("a", root="a")]), None),
    ("event with the key timer", deployment(events=[item("timer")]), "/events/0/key repeated"),
    ("block with the key timer", deployment(blocks=[item("timer")]), None),
    ("empty name", deployment(events=[item("a", name="")]), "/events/0/name range"),
    ("name of 256 bytes", deployment(events=[item("a", name="n" * 256)]), None),
    ("name of 257 bytes", deployment(events=[item("a", name="n" * 257)]), "/events/0/name range"),
    ("empty vendor", deployment(profiles=[item("a", vendor="")]), "/profiles/0/vendor range"),
    ("version of 257 bytes", deployment(blocks=[item("a", version="v" * 257)]), "/blocks/0/version range"),
    ("component twice", deployment(events=[item("a", name="x"), item("b", name="x")]), "/events/1/version repeated"),
    ("component twice in two lists", deployment(events=[item("a")], blocks=[item("b", name="a")]), None),
    ("components that differ in the vendor", deployment(events=[item("a", name="x"), item("b", name="x", vendor="u")]), None),
    ("components with one text in all", deployment(events=[item("a", name="x", vendor="yz"), item("b", name="xy", vendor="z")]), None),
    ("component of a later key fault", deployment(services=[item("s", root="b"), item("s", root="b")], blocks=[item("b")]),
     "/services/1/key repeated"),
    ("range of a name before a component that stands twice", deployment(blocks=[item("a", name=""), item("b", name="")]),
     "/blocks/0/name range"),
    # profiles and tables
    ("attribute of a profile that is an activity", deployment(profiles=[item("p", attributes={"a": "int", "z": "activity"})]),
     "/profiles/0/attributes/z range"),
    ("attribute of a profile that is a timer", deployment(profiles=[item("p", attributes={"a": "timer", "b": "activity"})]),
     "/profiles/0/attributes/a range"),
    ("unique attribute twice", deployment(profiles=[item("p", attributes={"a": "int"}, unique=["a", "a"])]), None),
    ("unique attribute that isn't there", deployment(profiles=[item("p", attributes={"a": "int"}, unique=["a", "b"])]),
     "/profiles/0/unique/1 unknown-name"),
    ("unique attribute of another profile", deployment(profiles=[item("p", attributes={"a": "int"}), item("q", unique=["a"])]),
     "/profiles/1/unique/0 unknown-name"),
    ("type before unique", deployment(profiles=[item("p", attributes={"a": "timer"}, unique=["b"])]), "/profiles/0/attributes/a range"),
    ("table of no profile", deployment(tables={"t": "p"}), "/tables/t unknown-name"),
    ("second table of no profile", deployment(profiles=[item("p")], tables={"a": "p", "b": "q", "c": "r"}), "/tables/b unknown-name"),
    ("tables of one profile", deployment(profiles=[item("p")], tables={"a": "p", "b": "p"}), None),
    ("table of a block's key", deployment(blocks=[item("p")], tables={"a": "p"}), "/tables/a unknown-name"),
    # fields, attributes, aliases
    ("fields of all types", block_with(fields={"a": "activity", "b": "bool", "c": "int", "d": "text", "e": "timer"}), None),
    ("event field that is a timer", deployment(events=[item("a", fields={"t": "timer", "u": "activity"})]), None),
    ("alias of no attribute", block_with(attributes={"a": "int"}, aliases={"b": "x"}), "/blocks/0/aliases/b unknown-name"),
    ("alias of a field", block_with(fields={"a": "int"}, aliases={"a": "x"}), "/blocks/0/aliases/a unknown-name"),
    ("alias of two types in one block", block_with(attributes={"a": "int", "b": "text"}, aliases={"a": "x", "b": "x"}),
     "/blocks/0/aliases/b alias"),
    ("alias of two types in two blocks", deployment(blocks=[
        item("b", attributes={"a": "int"}, aliases={"a": "x"}), item("c", attributes={"a": "text"}, aliases={"a": "x"})]),
     "/blocks/1/aliases/a alias"),
    ("alias of one type in two blocks", deployment(blocks=[
        item("b", attributes={"a": "int"}, aliases={"a": "x"}), item("c", attributes={"z": "int"}, aliases={"z": "x"})]), None),
    ("alias of the first type of three", deployment(blocks=[
        item("b", attributes={"a": "int"}, aliases={"a": "x"}), item("c", attributes={"a": "int"}, aliases={"a": "x"}),
        item("d", attributes={"a": "bool"}, aliases={"a": "x"})]), "/blocks/2/aliases/a alias"),
    ("alias with the name of an attribute", block_with(attributes={"a": "int", "x": "text"}, aliases={"a": "x"}), None),
    # relations and methods
    ("relation to a later block", deployment(blocks=[item("b", relations={"r": {"block": "c"}}), item("c")]), None),
    ("relation to its own block", block_with(relations={"r": {"block": "b", "priority": -128}}), None),
    ("relation to no block", block_with(relations={"r": {"block": "b"}, "s": {"block": "d", "priority": 127}}),
     "/blocks/0/relations/s/block unknown-name"),
    ("method without parameters", block_with(methods={"m": {"do": ""}}), None),
    ("parameter twice", block_with(methods={"a": {"do": ""}, "m": {"params": [
        {"name": "x", "type": "int"}, {"name": "y", "type": "int"}, {"name": "x", "type": "text"}], "do": ""}}),
     "/blocks/0/methods/m/params/2/name repeated"),
    ("parameters of two methods", block_with(methods={"a": {"params": [{"name": "x", "type": "int"}], "do": ""},
                                                      "b": {"params": [{"name": "x", "type": "int"}], "do": ""}}), None),
    # events of a block
    ("event that isn't there", block_with(events=[on("ping"), on("pong")]), "/blocks/0/events/1/event unknown-name"),
    ("event that is no name", block_with(events=[on("no name")]), "/blocks/0/events/0/event unknown-name"),
    ("built-in events", block_with(events=[on(e) for e in (
        "activity-end", "timer", "service-started", "profile-added", "profile-updated", "profile-removed")]), None),
    ("event twice", block_with(events=[on("timer"), on("ping"), on("timer")]), "/blocks/0/events/2/event repeated"),
    ("event in two blocks", deployment(events=[PING], blocks=[item("b", events=[on("ping")]), item("c", events=[on("ping")])]), None),
    ("initial by no variable", block_with(events=[on("ping", initial=[])]), None),
    ("initial by all variables", block_with(events=[on("ping", initial=["event", "activity", "address", "event-type", "custom"],
                                                       custom={"rule": "whole", "field": "addr"})]), None),
    ("word that is no variable", block_with(events=[on("ping", initial=["activity", "name"])]), "/blocks/0/events/0/initial/1 range"),
    ("variable twice", block_with(events=[on("ping", initial=["event", "activity", "event"])]), "/blocks/0/events/0/initial/2 repeated"),
    ("no variable, then one twice", block_with(events=[on("ping", initial=["x", "event", "event"])]), "/blocks/0/events/0/initial/0 range"),
    ("initial end of an activity", block_with(events=[on("activity-end", initial=["x", "x"])]), "/blocks/0/events/0/initial range"),
    ("initial timer", block_with(events=[on("timer", initial=["activity"])]), None),
    ("custom without its rule", block_with(events=[on("ping", initial=["custom"])]), "/blocks/0/events/0/custom missing"),
    ("rule without custom", block_with(events=[on("ping", initial=["activity"], custom={"rule": "x", "field": "x"})]),
     "/blocks/0/events/0/custom range"),
    ("rule of an event that isn't initial", block_with(events=[on("ping", custom={"rule": "whole", "field": "addr"})]),
     "/blocks/0/events/0/custom range"),
    ("rule that isn't there", block_with(events=[on("ping", initial=["custom"], custom={"rule": "half", "field": "x"})]),
     "/blocks/0/events/0/custom/rule range"),
    ("field of a rule that isn't there", block_with(events=[on("ping", initial=["custom"], custom={"rule": "digits3", "field": "x"})]),
     "/blocks/0/events/0/custom/field unknown-name"),
    ("field of a rule that is no text", block_with(events=[on("ping", initial=["custom"], custom={"rule": "scheme", "field": "n"})]),
     "/blocks/0/events/0/custom/field range"),
    ("row of a built-in event", block_with(events=[on("profile-added", initial=["custom"], custom={"rule": "screened", "field": "row"})]), None),
    ("timer of a built-in event", block_with(events=[on("timer", initial=["custom"], custom={"rule": "whole", "field": "which"})]),
     "/blocks/0/events/0/custom/field range"),
    ("variable twice before the rule", block_with(events=[on("ping", initial=["custom", "custom"])]), "/blocks/0/events/0/initial/1 repeated"),
    # services
    ("root that isn't there", deployment(services=[item("a", root="b")]), "/services/0/root unknown-name"),
    ("roots at both ends", deployment(blocks=[item("b")], services=[item("a", root="b", priority=-128), item("c", root="b", priority=127)]), None),
    ("root of an event's key", deployment(events=[item("b")], services=[item("a", root="b")]), "/services/0/root unknown-name"),
    # which of two faults
    ("profile before block", deployment(profiles=[item("p", unique=["x"])], blocks=[item("b", aliases={"a": "x"})]),
     "/profiles/0/unique/0 unknown-name"),
    ("table before block", deployment(tables={"t": "p"}, blocks=[item("b", name="")]), "/tables/t unknown-name"),
    ("alias before relation before event", block_with(aliases={"a": "x"}, relations={"r": {"block": "x"}}, events=[on("x")]),
     "/blocks/0/aliases/a unknown-name"),
    ("relation before event", block_with(relations={"r": {"block": "x"}}, events=[on("x")], methods={"m": {
        "params": [{"name": "x", "type": "int"}, {"name": "x", "type": "int"}], "do": ""}}), "/blocks/0/relations/r/block unknown-name"),
    ("event before method", block_with(events=[on("x")], methods={"m": {
        "params": [{"name": "x", "type": "int"}, {"name": "x", "type": "int"}], "do": ""}}), "/blocks/0/events/0/event unknown-name"),
    ("later block's key before an earlier service", deployment(blocks=[item("b"), item("b")], services=[item("s", root="x")]),
     "/blocks/1/key repeated"),
    ("relation to a block with faults of its own", deployment(blocks=[item("b", relations={"r": {"block": "c"}}), item("c", name="")]),
     "/blocks/1/name range"),
]

# A deployment without fault, in which each of the following faults can be made, whatever other ones are there.
GOOD = deployment(
    events=[item("ring", fields={"addr": "text", "n": "int"}), item("answer")],
    profiles=[item("person", attributes={"a": "int", "z": "text"}, unique=["a"]), item("line")],
    tables={"lines": "line", "people": "person"},
    blocks=[item("b", attributes={"p": "int", "q": "text"}, aliases={"p": "x"},
                 relations={"leg": {"block": "c"}, "note": {"block": "b", "priority": -128}},
                 events=[on("ring", initial=["activity", "custom"], custom={"rule": "whole", "field": "addr"}), on("timer"), on("answer")],
                 methods={"m": {"params": [{"name": "x", "type": "int"}, {"name": "y", "type": "text"}], "do": ""}}),
            item("c", attributes={"p": "int"}, aliases={"p": "x"}, events=[on("activity-end")]),
            item("d", attributes={"a": "int"}, aliases={"a": "x"})],
    services=[item("s", root="b", priority=-128), item("t", root="c", priority=127)])


def put(*path, to):
    """Puts a value to a place of a deployment."""
    def edit(d):
        *way, last = path
        for step in way:
            d = d[step]
        d[last] = to
    return edit


def add(*path, to, at=None):
    """Adds an item to a list of a deployment, behind all others where no place is told."""
    def edit(d):
        for step in path:
            d = d[step]
        d.insert(len(d) if at is None else at, to)
    return edit


def same(kind, *names, of=0, at=1):
    """Gives an item of a list what an earlier one has."""
    def edit(d):
        for name in names:
            d[kind][at][name] = d[kind][of][name]
    return edit


ID = ("name", "vendor", "version")
HANDLERS = ("blocks", 0, "events")

# Each fault that parts can have, in the order of the walk, and where it stands.
WALK = [
    (put("events", 0, "key", to="timer"), "/events/0/key repeated"),
    (put("events", 0, "name", to=""), "/events/0/name range"),
    (put("events", 0, "vendor", to="v" * 257), "/events/0/vendor range"),
    (put("events", 0, "version", to=""), "/events/0/version range"),
    (same("events", "key"), "/events/1/key repeated"),
    (same("events", *ID), "/events/1/version repeated"),
    (put("profiles", 0, "vendor", to=""), "/profiles/0/vendor range"),
    (put("profiles", 0, "attributes", "z", to="timer"), "/profiles/0/attributes/z range"),
    (add("profiles", 0, "unique", to="b"), "/profiles/0/unique/1 unknown-name"),
    (same("profiles", "key"), "/profiles/1/key repeated"),
    (same("profiles", *ID), "/profiles/1/version repeated"),
    (put("tables", "lines", to="ring"), "/tables/lines unknown-name"),
    (put("tables", "people", to="none"), "/tables/people unknown-name"),
    (put("blocks", 0, "name", to="n" * 257), "/blocks/0/name range"),
    (put("blocks", 0, "aliases", "o", to="y"), "/blocks/0/aliases/o unknown-name"),
    (put("blocks", 0, "aliases", "q", to="x"), "/blocks/0/aliases/q alias"),
    (put("blocks", 0, "relations", "leg", "block", to="ring"), "/blocks/0/relations/leg/block unknown-name"),
    (put("blocks", 0, "relations", "note", "block", to="e"), "/blocks/0/relations/note/block unknown-name"),
    (add(*HANDLERS, 0, "initial", to="name", at=1), "/blocks/0/events/0/initial/1 range"),
    (add(*HANDLERS, 0, "initial", to="activity"), "/blocks/0/events/0/initial/2 repeated"),
    (put(*HANDLERS, 0, "custom", "rule", to="half"), "/blocks/0/events/0/custom/rule range"),
    (put(*HANDLERS, 0, "custom", "field", to="n"), "/blocks/0/events/0/custom/field range"),
    (put(*HANDLERS, 1, to=on("timer", initial=["custom"], custom={"rule": "scheme", "field": "row"})),
     "/blocks/0/events/1/custom/field unknown-name"),
    (put(*HANDLERS, 2, "custom", to={"rule": "whole", "field": "addr"}), "/blocks/0/events/2/custom range"),
    (add(*HANDLERS, to=on("none")), "/blocks/0/events/3/event unknown-name"),
    (add(*HANDLERS, to=on("ring")), "/blocks/0/events/3/event repeated"),
    (add(*HANDLERS, to=on("activity-end", initial=[])), "/blocks/0/events/3/initial range"),
    (add(*HANDLERS, to=on("profile-added", initial=["custom"])), "/blocks/0/events/3/custom missing"),
    (put("blocks", 0, "methods", "m", "params", 1, "name", to="x"), "/blocks/0/methods/m/params/1/name repeated"),
    (put("blocks", 1, "vendor", to=""), "/blocks/1/vendor range"),
    (put("blocks", 1, "attributes", "p", to="bool"), "/blocks/1/aliases/p alias"),
    (same("blocks", "key", at=2), "/blocks/2/key repeated"),
    (same("blocks", *ID, of=1, at=2), "/blocks/2/version repeated"),
    (put("blocks", 2, "attributes", "a", to="text"), "/blocks/2/aliases/a alias"),
    (put("services", 0, "version", to=""), "/services/0/version range"),
    (put("services", 0, "root", to="ring"), "/services/0/root unknown-name"),
    (same("services", "key"), "/services/1/key repeated"),
    (same("services", *ID), "/services/1/version repeated"),
    (put("services", 1, "root", to="s"), "/services/1/root unknown-name"),
]


def with_faults(*places):
    """The good deployment with these faults of the walk. The first of them is the answer."""
    made = copy.deepcopy(GOOD)
    for at in places:
        WALK[at][0](made)
    return "faults " + " ".join(map(str, places)), made, WALK[places[0]][1]


def alone_and_in_pairs():
    yield "no fault of the walk", GOOD, None
    for at in range(len(WALK)):
        yield with_faults(at)
    for at in range(len(WALK) - 1):
        yield with_faults(at, at + 1)


def other_pairs():
    for at in range(len(WALK)):
        for later in range(at + 2, len(WALK)):
            yield with_faults(at, later)


def many(count):
    """Lists of many items, with a fault at their ends."""
    short = [dict(item(f"k{n}"), name="n", version=str(n)) for n in range(count)]
    last, keys = count - 1, [x["key"] for x in short]
    block = item("b", relations={key: {"block": "b"} for key in keys})
    lost = dict(short[last], relations={"r": {"block": keys[0]}, "s": {"block": "k"}})
    yield "as many tables", deployment(profiles=short, tables={key: keys[-1 - n] for n, key in enumerate(keys)}), None
    yield "as many relations", deployment(blocks=[block]), None
    yield "as many handlers", deployment(events=short, blocks=[item("b", events=[on(key) for key in keys])]), None
    yield "a key at both ends of blocks", deployment(blocks=[*short[:-1], dict(short[last], key=keys[0])]), f"/blocks/{last}/key repeated"
    yield "a component at both ends of events", deployment(events=[*short[:-1], dict(short[last], version="0")]), f"/events/{last}/version repeated"
    yield "the last relation of the last block", deployment(blocks=[*short[:-1], lost]), f"/blocks/{last}/relations/s/block unknown-name"
    yield "roots from the last block to the first", deployment(
        blocks=short, services=[dict(x, root=keys[-1 - n]) for n, x in enumerate(short)]), None
    yield "the last root", deployment(blocks=[item("b")], services=[dict(x, root="b" if n < last else "c") for n, x in enumerate(short)]), (
        f"/services/{last}/root unknown-name")


def long_lists(counts):
    return [row for count in counts for row in many(count)]


# Questions to deployments: which blocks handle an event, and which item of a list has a key.
ASKED = [
    ("nothing is named in nothing", deployment(), [
        ("handlers timer", "[]"), ("events ping", "None"), ("profiles p", "None"), ("tables t", "None"), ("blocks b", "None"),
        ("services s", "None")]),
    ("three blocks", deployment(
        events=[item("ping"), item("pong"), item("rest")], profiles=[item("p"), item("q")], tables={"s": "q", "t": "p"},
        blocks=[item("c", events=[on("ping"), on("timer")]), item("b", events=[on("pong")]),
                item("a", events=[on("timer"), on("pong"), on("ping")])],
        services=[item("y", root="b"), item("x", root="a")]), [
        ("handlers ping", "[0, 2]"), ("handlers pong", "[1, 2]"), ("handlers timer", "[0, 2]"), ("handlers rest", "[]"), ("handlers none", "[]"),
        ("events ping", "Some(0)"), ("events rest", "Some(2)"), ("events timer", "None"), ("profiles q", "Some(1)"), ("profiles t", "None"),
        ("tables s", "Some(0)"), ("tables t", "Some(1)"), ("tables p", "None"), ("blocks c", "Some(0)"), ("blocks a", "Some(2)"),
        ("blocks x", "None"), ("services y", "Some(0)"), ("services x", "Some(1)"), ("services b", "None")]),
    ("one handler of many blocks", deployment(blocks=[item(f"b{n}", events=[on("timer")] if n % 3 == 1 else []) for n in range(12)]), [
        ("handlers timer", "[1, 4, 7, 10]"), ("blocks b11", "Some(11)"), ("blocks b12", "None")]),
]

# How long the lists are that --write has, and those that it leaves out.
LONG_LIST, LONGER_LISTS = 1_000, (1_000, 5_000)

KIND = {"int": "Int", "text": "Text", "bool": "Bool", "activity": "Activity", "timer": "Timer"}
BAD = {"Missing": "missing", "Repeated": "repeated", "UnknownName": "unknown-name", "Range": "range", "Alias": "alias"}


class Builder:
    """Parts as the definitions see them."""

    def __init__(self, rundefs, world):
        self.rundefs = rundefs
        self.world = world
        found = {word: self.world.variant("slee_value.kind.Kind", name) for word, name in KIND.items()}
        self.kinds = {word: getattr(kind, "value", kind) for word, kind in found.items()}

    def record(self, kind_of_row, /, **fields):
        return self.world.record(f"deploy_model.parts.{kind_of_row}", **fields)

    def text(self, s):
        return self.rundefs.codes(s)

    def kind(self, word):
        return self.kinds[word]

    def fields(self, members):
        return tuple(self.rundefs.Tup((self.text(n), self.kind(k))) for n, k in sorted(members.items()))

    def option(self, value, make):
        return self.rundefs.NONE if value is None else self.rundefs.SOME(make(value))

    def head(self, x):
        ids = self.world.record("slee_value.component.ComponentId", name=self.text(x["name"]), vendor=self.text(x["vendor"]),
                                version=self.text(x["version"]))
        return {"key": self.text(x["key"]), "id": ids}

    def script(self, _):
        return ()

    def block_event(self, h):
        return self.record(
            "BlockEvent", event=self.text(h["event"]),
            initial=self.option(h.get("initial"), lambda ws: tuple(self.text(w) for w in ws)),
            custom=self.option(h.get("custom"), lambda c: self.record("CustomRule", rule=self.text(c["rule"]), field=self.text(c["field"]))),
            mask=h.get("mask", False), on=self.script(h["on"]))

    def method(self, name, m):
        params = tuple(self.rundefs.Tup((self.text(p["name"]), self.kind(p["type"]))) for p in m.get("params", []))
        return self.record("Method", name=self.text(name), params=params, returns=self.option(m.get("returns"), self.kind),
                           body=self.script(m["do"]))

    def block(self, b):
        names = sorted(b.get("aliases", {}).items())
        relations = sorted(b.get("relations", {}).items())
        return self.record(
            "Block", **self.head(b), fields=self.fields(b.get("fields", {})), attributes=self.fields(b.get("attributes", {})),
            aliases=tuple(self.rundefs.Tup((self.text(a), self.text(x))) for a, x in names),
            relations=tuple(self.record("Relation", name=self.text(n), block=self.text(r["block"]), priority=r.get("priority", 0))
                            for n, r in relations),
            events=tuple(self.block_event(h) for h in b.get("events", [])),
            methods=tuple(self.method(n, m) for n, m in sorted(b.get("methods", {}).items())),
            exception=self.option(b.get("exception"), self.script), rolled_back=self.option(b.get("rolled_back"), self.script),
            remove=self.option(b.get("remove"), self.script))

    def parts(self, d):
        return self.record(
            "Parts",
            events=tuple(self.record("EventType", **self.head(e), fields=self.fields(e.get("fields", {}))) for e in d["events"]),
            profiles=tuple(self.record("ProfileSpec", **self.head(p), attributes=self.fields(p.get("attributes", {})),
                                       unique=tuple(self.text(u) for u in p.get("unique", []))) for p in d["profiles"]),
            tables=tuple(self.record("Table", name=self.text(n), profile=self.text(p)) for n, p in sorted(d["tables"].items())),
            blocks=tuple(self.block(b) for b in d["blocks"]),
            services=tuple(self.record("Service", **self.head(s), root=self.text(s["root"]), priority=s.get("priority", 0),
                                       active=s.get("active", False)) for s in d["services"]))


def answer(fault):
    if fault.con.name == "None":
        return None
    found = fault.args[0]
    return bytes(found.path).decode() + " " + BAD[found.kind.con.name]


def counts(d):
    return "ok " + " ".join(str(len(d[k])) for k in ("events", "profiles", "tables", "blocks", "services"))


def told(wanted):
    """A fault as the program tells it."""
    path, kind = wanted.split()
    return path + " " + next(name for name, word in BAD.items() if word == kind)


def row_and_answer(d, wanted, asked=()):
    """A line of the program's input, and the lines that it has to print."""
    words = [dict(zip(("list", "key"), question.split())) for question, _ in asked]
    line = json.dumps({**d, "ask": words} if words else d, separators=(",", ":"))
    return line, [told(wanted) if wanted else counts(d), *(f"  {question}: {reply}" for question, reply in asked)]


def rows_kept():
    rows = [row_and_answer(d, wanted) for _, d, wanted in [*ROWS, *alone_and_in_pairs()]]
    asked = [row_and_answer(d, None, questions) for _, d, questions in ASKED]
    long = [row_and_answer(d, wanted) for name, d, wanted in many(LONG_LIST) if name in ("as many tables", "a key at both ends of blocks")]
    return [*rows, *asked, *long]


def write():
    for name, text in zip(("stdin", "stdout"), texts(rows_kept())):
        with open(os.path.join(CRATE, name), "w", encoding="utf-8") as f:
            f.write(text)


def texts(rows):
    lines, answers = [line for line, _ in rows], [line for _, lines in rows for line in lines]
    return "".join(line + "\n" for line in lines), "".join(line + "\n" for line in answers)


def run_program():
    rows = [*rows_kept(), *(row_and_answer(d, wanted) for _, d, wanted in [*other_pairs(), *long_lists(LONGER_LISTS)])]
    given, wanted = texts(rows)
    done = subprocess.run([os.path.join(CRATE, "out", "golden_parts")], input=given, capture_output=True, text=True, check=False)
    differ = 0
    for found, line in zip([*done.stdout.split("\n"), *[""] * len(wanted)], wanted.split("\n")):
        if found != line:
            differ += 1
            print(f"{found}, and by hand {line}")
    print(f"{len(rows)} rows, {differ} lines differ, status {done.returncode}")
    return 1 if differ or done.returncode else 0


def run_definitions():
    world = deployments.world()
    if world is None:
        print("deployment_rows: skipped, the tool that evaluates definitions isn't here (deployments.py)")
        return 0
    import rundefs

    builder = Builder(rundefs, world)
    fault_of = builder.world.eval("deploy_model.specs.Tables.parts_fault")
    rows = [*ROWS, *alone_and_in_pairs(), *other_pairs()]
    wrong = 0
    for name, row, wanted in rows:
        found = rundefs.deep(lambda row=row: answer(fault_of(builder.parts(row))))
        if found != wanted:
            wrong += 1
            print(f"{name}: {found}, and by hand {wanted}")
    print(f"{len(rows)} rows, {wrong} differ")
    return 1 if wrong else 0


def main():
    if sys.argv[1:] == ["--write"]:
        return write()
    return run_program() if sys.argv[1:] == ["--program"] else run_definitions()


if __name__ == "__main__":
    sys.exit(main())
