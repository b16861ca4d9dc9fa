#!/usr/bin/env python3
"""Documents and the first fault of each, worked out by hand from docs/FORMATS.md, and a check that the definition of
deploy_schema says the same. Without the tool that evaluates definitions (deployments.py says where it is looked for) nothing
is run, and it says so. With no fault the answer is None. Given a folder of cases, it runs their deployments too."""
import json
import os
import sys

import deployment_rows
import deployments
from deployment_rows import LONG, PING, block_with, deployment, item, on

BAD = {"WrongType": "type", "Missing": "missing", "UnknownMember": "unknown-member", "BadName": "bad-name",
       "Repeated": "repeated", "UnknownName": "unknown-name", "Range": "range", "Alias": "alias"}


def without(members, *names):
    return {name: value for name, value in members.items() if name not in names}


ROWS = [
    # the whole document
    ("an array", [], " type"),
    ("null", None, " type"),
    ("a text", "{}", " type"),
    ("an empty object", {}, None),
    ("unknown member at the top", {"a": 1, "events": []}, "/a unknown-member"),
    ("unknown members at the top, in byte order", {"z": 1, "B": 1, "a": 1}, "/B unknown-member"),
    ("unknown member with the empty name", {"": 1}, "/ unknown-member"),
    ("unknown member with characters of pointers", {"~/~1": 1}, "/~0~1~01 unknown-member"),
    ("known members before unknown ones", {"a": 1, "services": 1}, "/services type"),
    ("events that are an object", {"events": {}}, "/events type"),
    ("null in place of an array", {"blocks": None}, "/blocks type"),
    ("tables that are an array", {"tables": []}, "/tables type"),
    ("order of the top", {"services": 1, "blocks": 1, "tables": 1, "profiles": 1, "events": 1}, "/events type"),
    ("profiles before tables", {"services": 1, "blocks": 1, "tables": 1, "profiles": 1}, "/profiles type"),
    ("tables before blocks", {"services": 1, "blocks": 1, "tables": 1}, "/tables type"),
    ("blocks before services", {"services": 1, "blocks": 1}, "/blocks type"),
    # items
    ("item that is no object", {"events": [PING, 1]}, "/events/1 type"),
    ("item without key", {"events": [without(PING, "key")]}, "/events/0/key missing"),
    ("item without name", {"events": [without(PING, "name", "vendor")]}, "/events/0/name missing"),
    ("item without vendor", {"profiles": [without(PING, "vendor", "version")]}, "/profiles/0/vendor missing"),
    ("item without version", {"blocks": [without(PING, "version")]}, "/blocks/0/version missing"),
    ("key that is a number", {"events": [dict(PING, key=1)]}, "/events/0/key type"),
    ("key of 65 bytes", {"events": [dict(PING, key=LONG + "k")]}, "/events/0/key bad-name"),
    ("empty key", {"services": [dict(PING, key="")]}, "/services/0/key bad-name"),
    ("key with a capital", {"blocks": [dict(PING, key="Ping")]}, "/blocks/0/key bad-name"),
    ("key that begins with a digit", {"profiles": [dict(PING, key="1a")]}, "/profiles/0/key bad-name"),
    ("key of a built-in event", {"events": [item("activity-end")]}, "/events/0/key bad-name"),
    ("name that is no text", {"events": [dict(PING, name=None)]}, "/events/0/name type"),
    ("version that is a number", {"events": [dict(PING, version=1)]}, "/events/0/version type"),
    ("unknown member of an event", {"events": [dict(PING, root="a", active=True)]}, "/events/0/active unknown-member"),
    ("wanted members before unknown ones", {"events": [without(dict(PING, a=1), "version")]}, "/events/0/version missing"),
    ("fields of an event", {"events": [dict(PING, fields=[])]}, "/events/0/fields type"),
    ("name of a field", {"events": [dict(PING, fields={"A": 1})]}, "/events/0/fields/A bad-name"),
    ("type of a field", {"events": [dict(PING, fields={"a": 1, "b": "x"})]}, "/events/0/fields/a type"),
    ("word of a field's type", {"events": [dict(PING, fields={"a": "int", "b": "string"})]}, "/events/0/fields/b range"),
    ("field with characters of pointers", {"events": [dict(PING, fields={"~a/b": "int"})]}, "/events/0/fields/~0a~1b bad-name"),
    ("field whose name isn't ASCII", {"events": [dict(PING, fields={"\u00e9": "int"})]}, "/events/0/fields/\u00e9 bad-name"),
    ("names of the script language", {"events": [dict(PING, key="text", fields={"end": "int"})]}, None),
    # profiles and tables
    ("type of a profile's attribute", {"profiles": [item("p", attributes={"a": "x"})]}, "/profiles/0/attributes/a range"),
    ("name of an attribute before its type", {"profiles": [item("p", attributes={"A": "timer"})]}, "/profiles/0/attributes/A bad-name"),
    ("unique that is no array", {"profiles": [item("p", unique={})]}, "/profiles/0/unique type"),
    ("unique of numbers", {"profiles": [item("p", attributes={"a": "int"}, unique=["a", 1])]}, "/profiles/0/unique/1 type"),
    ("unique of no names", {"profiles": [item("p", attributes={"a": "int"}, unique=["A"])]}, "/profiles/0/unique/0 unknown-name"),
    ("name of a table", {"tables": {"T": "p"}}, "/tables/T bad-name"),
    ("profile of a table that is no name", {"profiles": [item("p")], "tables": {"t": "P"}}, "/tables/t unknown-name"),
    ("profile of a table that is no text", {"tables": {"t": 1}}, "/tables/t type"),
    # blocks
    ("field of a block", block_with(fields={"a": "object"}), "/blocks/0/fields/a range"),
    ("attribute of a block", block_with(attributes={"a": None}), "/blocks/0/attributes/a type"),
    ("alias that is no name", block_with(attributes={"a": "int"}, aliases={"a": "A"}), "/blocks/0/aliases/a bad-name"),
    ("alias that is no text", block_with(attributes={"a": "int"}, aliases={"a": 1}), "/blocks/0/aliases/a type"),
    ("alias of no attribute that is no text", block_with(attributes={"a": "int"}, aliases={"B": 1}), "/blocks/0/aliases/B unknown-name"),
    ("alias that a faulty block has too", deployment(blocks=[
        item("b", attributes={"a": "int"}, aliases={"a": "x"}), {"aliases": {"a": "x"}, "attributes": {"a": "text"}}]),
     "/blocks/1/key missing"),
    ("name of a relation", block_with(relations={"R": 1}), "/blocks/0/relations/R bad-name"),
    ("relation that is no object", block_with(relations={"r": "b"}), "/blocks/0/relations/r type"),
    ("relation without block", block_with(relations={"r": {}}), "/blocks/0/relations/r/block missing"),
    ("block of a relation that is no name", block_with(relations={"r": {"block": "B"}}), "/blocks/0/relations/r/block unknown-name"),
    ("relation to a block with a bad name", deployment(blocks=[item("b", relations={"r": {"block": "B"}}), item("B")]),
     "/blocks/0/relations/r/block unknown-name"),
    ("relation to a block with no other member", deployment(blocks=[item("b", relations={"r": {"block": "c"}}), {"key": "c"}]),
     "/blocks/1/name missing"),
    ("relation to a block without key", deployment(blocks=[item("b", relations={"r": {"block": ""}}), {}]),
     "/blocks/0/relations/r/block unknown-name"),
    ("unknown member of a relation", block_with(relations={"r": {"block": "b", "blocks": 1}}), "/blocks/0/relations/r/blocks unknown-member"),
    ("priority of 128", block_with(relations={"r": {"block": "b", "priority": 128}}), "/blocks/0/relations/r/priority range"),
    ("priority of -129", block_with(relations={"r": {"block": "b", "priority": -129}}), "/blocks/0/relations/r/priority range"),
    ("priority of the least i64", block_with(relations={"r": {"block": "b", "priority": -2**63}}), "/blocks/0/relations/r/priority range"),
    ("priority below the least i64", block_with(relations={"r": {"block": "b", "priority": -2**63 - 1}}), "/blocks/0/relations/r/priority type"),
    ("priority of the greatest i64", block_with(relations={"r": {"block": "b", "priority": 2**63 - 1}}), "/blocks/0/relations/r/priority range"),
    ("priority above the greatest i64", block_with(relations={"r": {"block": "b", "priority": 2**63}}), "/blocks/0/relations/r/priority type"),
    ("priority with a fraction", block_with(relations={"r": {"block": "b", "priority": 1.0}}), "/blocks/0/relations/r/priority type"),
    ("priority that is a text", block_with(relations={"r": {"block": "b", "priority": "1"}}), "/blocks/0/relations/r/priority type"),
    ("events of a block that are an object", block_with(events={}), "/blocks/0/events type"),
    ("handler that is no object", block_with(events=[on("ping"), "timer"]), "/blocks/0/events/1 type"),
    ("handler without event", block_with(events=[{"on": ""}]), "/blocks/0/events/0/event missing"),
    ("handler without script", block_with(events=[{"event": "ping"}]), "/blocks/0/events/0/on missing"),
    ("event that is a number", block_with(events=[{"event": 1, "on": ""}]), "/blocks/0/events/0/event type"),
    ("event with a bad name", deployment(blocks=[item("b", events=[on("Ping")])]), "/blocks/0/events/0/event unknown-name"),
    ("initial that is a text", block_with(events=[on("ping", initial="activity")]), "/blocks/0/events/0/initial type"),
    ("initial end of an activity that is a text", block_with(events=[on("activity-end", initial="activity")]), "/blocks/0/events/0/initial type"),
    ("initial that is null", block_with(events=[on("ping", initial=None)]), "/blocks/0/events/0/initial type"),
    ("variable that is a number", block_with(events=[on("ping", initial=[1, "custom"])]), "/blocks/0/events/0/initial/0 type"),
    ("empty variable before a number", block_with(events=[on("ping", initial=["", 1])]), "/blocks/0/events/0/initial/0 range"),
    ("custom that is an array", block_with(events=[on("ping", custom=[])]), "/blocks/0/events/0/custom type"),
    ("wanted custom that is an array", block_with(events=[on("ping", initial=["custom"], custom=[])]), "/blocks/0/events/0/custom type"),
    ("custom without rule", block_with(events=[on("ping", initial=["custom"], custom={"field": "addr"})]), "/blocks/0/events/0/custom/rule missing"),
    ("rule that is a number", block_with(events=[on("ping", initial=["custom"], custom={"rule": 1})]), "/blocks/0/events/0/custom/rule type"),
    ("custom without field", block_with(events=[on("ping", initial=["custom"], custom={"rule": "whole"})]), "/blocks/0/events/0/custom/field missing"),
    ("field of custom that is a number", block_with(events=[on("ping", initial=["custom"], custom={"rule": "whole", "field": 1})]),
     "/blocks/0/events/0/custom/field type"),
    ("unknown member of custom", block_with(events=[on("ping", initial=["custom"], custom={"rule": "whole", "field": "addr", "a": 1})]),
     "/blocks/0/events/0/custom/a unknown-member"),
    ("mask that is a number", block_with(events=[on("ping", mask=0)]), "/blocks/0/events/0/mask type"),
    ("script that is a number", block_with(events=[{"event": "ping", "on": 1}]), "/blocks/0/events/0/on type"),
    ("script with a line that is a number", block_with(events=[{"event": "ping", "on": ["", 1]}]), "/blocks/0/events/0/on/1 type"),
    ("script without lines", block_with(events=[{"event": "ping", "on": []}]), None),
    ("unknown member of a handler", block_with(events=[on("ping", o=1)]), "/blocks/0/events/0/o unknown-member"),
    ("name of a method", block_with(methods={"M": 1}), "/blocks/0/methods/M bad-name"),
    ("method without script", block_with(methods={"m": {}}), "/blocks/0/methods/m/do missing"),
    ("method with all members", block_with(methods={"m": {"params": [{"name": "a", "type": "timer"}], "returns": "activity", "do": [""]}}), None),
    ("method that returns null", block_with(methods={"m": {"returns": None, "do": ""}}), None),
    ("method that returns a number", block_with(methods={"m": {"returns": 1, "do": ""}}), "/blocks/0/methods/m/returns type"),
    ("method that returns no type", block_with(methods={"m": {"returns": "null", "do": ""}}), "/blocks/0/methods/m/returns range"),
    ("parameters that are an object", block_with(methods={"m": {"params": {}, "do": ""}}), "/blocks/0/methods/m/params type"),
    ("parameter without name", block_with(methods={"m": {"params": [{"type": "int"}], "do": ""}}), "/blocks/0/methods/m/params/0/name missing"),
    ("parameter without type", block_with(methods={"m": {"params": [{"name": "a"}], "do": ""}}), "/blocks/0/methods/m/params/0/type missing"),
    ("parameter with a bad name", block_with(methods={"m": {"params": [{"name": "A", "type": "int"}], "do": ""}}), "/blocks/0/methods/m/params/0/name bad-name"),
    ("callbacks", block_with(exception="", rolled_back=[""], remove=""), None),
    ("callback that is null", block_with(exception=None), "/blocks/0/exception type"),
    ("callback with a line that is null", block_with(remove=[None]), "/blocks/0/remove/0 type"),
    ("order of callbacks", block_with(exception="", rolled_back=1, remove=1), "/blocks/0/rolled_back type"),
    ("unknown member of a block", block_with(method={}), "/blocks/0/method unknown-member"),
    # services
    ("service without root", {"services": [item("s")]}, "/services/0/root missing"),
    ("root with a bad name", {"blocks": [item("b")], "services": [item("s", root="B")]}, "/services/0/root unknown-name"),
    ("service's priority", {"blocks": [item("b")], "services": [item("s", root="b", priority=True)]}, "/services/0/priority type"),
    ("active that is a text", {"blocks": [item("b")], "services": [item("s", root="b", active="true")]}, "/services/0/active type"),
    ("active that is null", {"blocks": [item("b")], "services": [item("s", root="b", active=None)]}, "/services/0/active type"),
]


class Documents:
    """JSON values as the definitions see them."""

    def __init__(self, rundefs, world):
        self.rundefs = rundefs
        self.made = {name: world.eval("serde_json.specs.Data." + name) for name in (
            "null", "boolean", "number", "string", "array", "object", "no_items", "item", "no_members", "member", "unsigned", "negative", "float")}

    def text(self, s):
        return tuple(s.encode())

    def number(self, n):
        made = self.made
        if isinstance(n, float) or not -2**63 <= n < 2**64:
            return made["float"](0)
        return made["unsigned"](n) if n >= 0 else made["negative"](n)

    def items(self, values):
        made = self.made["no_items"]
        for value in reversed(values):
            made = self.made["item"](self.data(value), made)
        return made

    def members(self, members):
        made = self.made["no_members"]
        for name, value in reversed(deployments.in_order(members)):
            made = self.made["member"](self.text(name), self.data(value), made)
        return made

    def data(self, value):
        made = self.made
        if value is None:
            return made["null"]
        if isinstance(value, bool):
            return made["boolean"](value)
        if isinstance(value, (int, float)):
            return made["number"](self.number(value))
        if isinstance(value, str):
            return made["string"](self.text(value))
        return made["array"](self.items(value)) if isinstance(value, list) else made["object"](self.members(value))


def answer(fault):
    if fault.con.name == "None":
        return None
    found = fault.args[0]
    return bytes(found.path).decode() + " " + BAD[found.kind.con.name]


def whole_number(text):
    return -0.0 if text == "-0" else int(text)


def wanted_of(case):
    """The shape fault that a case wants, None where it wants none, and nothing where it can't be said."""
    with open(os.path.join(case, "steps.json")) as source:
        first = json.load(source)["steps"][0]
    words = first.get("stdout", "").split()
    if words[:3] == ["status", "4", "bad-deploy"]:
        if words[3] == "json":
            return ()
        return (" ".join(words[4:6]),) if words[3] == "shape" else (None,)
    return (None,) if first.get("status") == 0 else ()


def cases(folder):
    for name in sorted(os.listdir(folder)):
        source = os.path.join(folder, name, "deploy.json")
        if os.path.isfile(source) and wanted_of(os.path.join(folder, name)):
            with open(source, "rb") as text:
                yield name, json.loads(text.read(), parse_int=whole_number), wanted_of(os.path.join(folder, name))[0]


def main():
    world = deployments.world()
    if world is None:
        print("deployment_shapes: skipped, the tool that evaluates definitions isn't here (deployments.py)")
        return
    import rundefs

    documents = Documents(rundefs, world)
    fault_of = world.eval("deploy_schema.specs.Tables.shape_fault")
    rows = ROWS + deployment_rows.ROWS + (list(cases(sys.argv[1])) if len(sys.argv) > 1 else [])
    wrong = 0
    for name, row, wanted in rows:
        found = rundefs.deep(lambda row=row: answer(fault_of(documents.data(row))))
        printed = "/" + found if found and found.startswith(" ") else found
        if found != wanted and printed != wanted:
            wrong += 1
            print(f"{name}: {found}, and by hand {wanted}")
    print(f"{len(rows)} rows, {wrong} differ")
    sys.exit(1 if wrong else 0)


if __name__ == "__main__":
    main()
