"""Deployments as the definitions have them, read from deploy.json. For scripts that run definitions; outside the gate.

    world = deployments.world()             the repository's definitions, by the tool that evaluates them, or None without it
    value = deployments.Deployment(world, bytes)
    value.codes                             all that scripts may name, with the scripts' trees
    value.program                           every script with its names resolved
    value.deployed                          the deployment that the state carries
"""
import json
import os
import sys

TOP = os.path.realpath(os.path.join(os.path.dirname(os.path.abspath(__file__)), ".."))
KINDS = {"int": "Int", "text": "Text", "bool": "Bool", "activity": "Activity", "timer": "Timer"}
VARIABLES = {"activity": "Activity", "address": "Address", "event-type": "EventType", "event": "Event", "custom": "Custom"}
RULES = {"whole": "Whole", "digits3": "Digits3", "scheme": "Scheme", "screened": "Screened"}


class Refused(Exception):
    """A deployment that isn't one: what is wrong with it, as far as the definitions that are run say it."""


def world(folder=None):
    folder = folder or os.environ.get("RUNDEFS", "/work/shared/tools/rundefs")
    if not os.path.isfile(os.path.join(folder, "rundefs.py")):
        return None
    sys.path.insert(0, folder)
    import rundefs
    from antt import values, words

    # whether two values of an enum without fields are one: a word of the kit that the tool may not know
    words.TEMPLATES.setdefault("sameb", (3, "({1} == {2})"))
    words.NEEDED.setdefault("sameb", {1, 2})
    # `Option.Some` by its type's name: a constructor that the tool takes for a field of a type
    if not hasattr(values.Undecided, "fields"):
        values.Undecided.fields = property(lambda self: {"Some": values.Fn(1, rundefs.SOME)})
    return rundefs.load(TOP)


def in_order(members):
    """The members of a JSON object in byte order."""
    return sorted(members.items(), key=lambda member: member[0].encode())


def text(value):
    return tuple(value.encode())


class Deployment:
    def __init__(self, world, source):
        import rundefs

        self.world, self.some, self.none = world, rundefs.SOME, rundefs.NONE
        self.json = json.loads(source)
        self.blocks = [block["key"] for block in self.json.get("blocks", [])]
        self.profiles = [profile["key"] for profile in self.json.get("profiles", [])]
        self.codes = self.codes_of()
        built = world.eval("script_types.specs.Programs.program_of")(self.codes)
        if built.con.name != "Ok":
            raise Refused("check", built.args[0])
        self.program = built.args[0]
        self.deployed = self.deployed_of()

    def option(self, value):
        return self.none if value is None else self.some(value)

    def kind(self, word):
        return self.world.variant("slee_value.kind.Kind", KINDS[word])()

    def fields(self, members):
        return tuple(self.record("codes.FieldCode", name=text(name), kind=self.kind(word)) for name, word in in_order(members))

    def record(self, path, **fields):
        return self.world.record("script_types." + path, **fields)

    def script(self, lines):
        """A script's tree, by the grammar's own definition."""
        source = text(lines if isinstance(lines, str) else "\n".join(lines))
        read = self.world.eval("script_tree.specs.Reading.script_read")(source)
        if read.con.name != "Ok":
            raise Refused("syntax", read.args[0])
        return read.args[0]

    def callback(self, block, name):
        return self.option(self.script(block[name]) if name in block else None)

    def attribute(self, block, name, word):
        alias = block.get("aliases", {}).get(name)
        key = alias if alias is not None else block["key"] + "." + name
        return self.record("codes.AttributeCode", name=text(name), key=text(key), kind=self.kind(word))

    def relations(self, block):
        return tuple(
            self.record("codes.RelationCode", name=text(name), block=self.blocks.index(relation["block"]), priority=relation.get("priority", 0))
            for name, relation in in_order(block.get("relations", {}))
        )

    def attributes(self, block):
        return tuple(self.attribute(block, name, word) for name, word in in_order(block.get("attributes", {})))

    def handlers(self, block):
        return tuple(
            self.record("specs.Codes.Handler", event=text(handler["event"]), mask=handler.get("mask", False), script=self.script(handler["on"]))
            for handler in block.get("events", [])
        )

    def methods(self, block):
        return tuple(self.method(name, method) for name, method in in_order(block.get("methods", {})))

    def method(self, name, method):
        parameters = tuple(self.record("codes.FieldCode", name=text(p["name"]), kind=self.kind(p["type"])) for p in method.get("params", []))
        result = method.get("returns")
        return self.record(
            "specs.Codes.Method",
            name=text(name),
            parameters=parameters,
            result=self.option(self.kind(result) if result else None),
            script=self.script(method["do"]),
        )

    def block_codes(self, block):
        return self.record(
            "specs.Codes.Block",
            key=text(block["key"]),
            fields=self.fields(block.get("fields", {})),
            attributes=self.attributes(block),
            relations=self.relations(block),
            handlers=self.handlers(block),
            methods=self.methods(block),
            exception=self.callback(block, "exception"),
            rolled_back=self.callback(block, "rolled_back"),
            remove=self.callback(block, "remove"),
        )

    def table_codes(self, name, profile):
        attributes = self.json["profiles"][self.profiles.index(profile)].get("attributes", {})
        return self.record("codes.TableCode", name=text(name), attributes=self.fields(attributes))

    def event_codes(self):
        return tuple(self.record("codes.EventCode", name=text(e["key"]), fields=self.fields(e.get("fields", {}))) for e in self.json.get("events", []))

    def codes_of(self):
        events = self.event_codes()
        tables = tuple(self.table_codes(name, profile) for name, profile in in_order(self.json.get("tables", {})))
        blocks = tuple(self.block_codes(block) for block in self.json.get("blocks", []))
        return self.record(
            "specs.Codes.Codes",
            events=events,
            tables=tables,
            services=tuple(text(service["key"]) for service in self.json.get("services", [])),
            blocks=blocks,
            names=self.world.eval("slee_descriptor.specs.CodesOfParts.names_in")(events, tables, blocks),
        )

    def given(self, kind, **fields):
        return self.world.record("deploy_model.specs.Deployed." + kind, **fields)

    def choice(self, kind, word):
        return self.world.variant("deploy_model.choice." + kind, word)()

    def handling(self, handler):
        initial, custom = handler.get("initial"), handler.get("custom")
        return self.given(
            "Handling",
            event=text(handler["event"]),
            initial=self.option(None if initial is None else tuple(self.choice("Variable", VARIABLES[word]) for word in initial)),
            custom=self.option(custom and self.given("CustomChoice", rule=self.choice("SelectRule", RULES[custom["rule"]]), field=text(custom["field"]))),
            mask=handler.get("mask", False),
        )

    def deployed_block(self, block):
        return self.given(
            "DeployedBlock",
            key=text(block["key"]),
            fields=self.fields(block.get("fields", {})),
            attributes=self.attributes(block),
            relations=self.relations(block),
            events=tuple(self.handling(handler) for handler in block.get("events", [])),
        )

    def deployed_profile(self, profile):
        return self.given(
            "DeployedProfile",
            key=text(profile["key"]),
            attributes=self.fields(profile.get("attributes", {})),
            unique=tuple(text(name) for name in profile.get("unique", [])),
        )

    def deployed_service(self, service):
        return self.given(
            "DeployedService",
            key=text(service["key"]),
            root=self.blocks.index(service["root"]),
            priority=service.get("priority", 0),
            active=service.get("active", False),
        )

    def deployed_of(self):
        return self.given(
            "Deployed",
            events=self.event_codes(),
            profiles=tuple(self.deployed_profile(profile) for profile in self.json.get("profiles", [])),
            tables=tuple(
                self.given("DeployedTable", name=text(name), profile=self.profiles.index(profile))
                for name, profile in in_order(self.json.get("tables", {}))
            ),
            blocks=tuple(self.deployed_block(block) for block in self.json.get("blocks", [])),
            services=tuple(self.deployed_service(service) for service in self.json.get("services", [])),
        )
