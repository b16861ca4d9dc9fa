"""Deployments with scripts at random, and lines at random for them: each effect, each built-in event and each callback may come up. Data for
bench/steps.py."""
import random

FIELDS = {"n": "int", "t": "text", "f": "bool", "a": "activity", "m": "timer"}
NAMES = ["c1", "c2", "c3", "c4"]
ROWS = ["r1", "r2", "tel:1", "r%204"]
EVENTS = ["ping", "pong", "go"]
BUILT_IN = ["activity-end", "timer", "service-started", "profile-added", "profile-updated", "profile-removed"]
SERVICES = ["s", "u", "w"]
RULES = ["whole", "digits3", "scheme", "screened"]
ADDRESSES = ["tel:1", "tel:55512", "sip:7", "anon:1", "", "b%20c"]


def component(key, **more):
    return {"key": key, "name": key, "vendor": "t", "version": "1", **more}


class Scripts:
    """Statements at random for blocks with the fields, attributes and relations of every block here."""

    def __init__(self, dice):
        self.dice, self.made = dice, 0

    def new(self, letter):
        self.made += 1
        return f"{letter}{self.made}"

    def one(self, *of):
        return self.dice.choice(of)

    def activity(self):
        if self.dice.random() < 0.06:
            return self.one("self.a", "lookup(\"x\")", "none")
        return self.one("activity", "activity", "activity", "activity", "table(accounts)")

    def whole(self):
        return self.one("1", "7", "self.n", "self.n + 1", "now", "count(leg)", "len(self.t)", "count(arm)", "12 / (self.n + 1)", "9000000000000000000 + self.n" if self.dice.random() < 0.1 else "self.n - 1")

    def text(self):
        return self.one("\"a\"", "self.t", "self.t ++ \"-\"", "text(self.n)", "\"é b\"", "text(active(activity))", "text(bound(\"x\"))", "\"l\\nm\"")

    def said(self):
        more = ["text(has_profile(accounts, \"r1\"))", "text(has_timer(self.m))", "text(attr(activity, hits))", "attr(activity, tag)", "text(now)"]
        return f"emit {self.one(self.text(), self.text(), *more)};"

    def statement(self):
        return self.one(
            self.said,
            self.said,
            lambda: f"self.n = {self.whole()};",
            lambda: "self.n = self.n + 1;",
            lambda: f"self.t = {self.text()};",
            lambda: f"self.a = {self.activity()};",
            lambda: f"attr({self.activity()}, hits) = {self.whole()};",
            lambda: f"attr(activity, tag) = {self.text()};",
            self.child,
            self.child,
            self.each_child,
            self.each_child,
            self.own,
            self.null,
            self.null,
            self.timer,
            self.timer,
            self.fire,
            self.fire,
            self.guarded,
            self.guarded,
            self.masking,
            self.naming,
            lambda: f"usage {self.one('calls', 'seconds')} {self.one('1', '-2', 'self.n')};",
            lambda: f"suspend {self.one('5', '20', '500')};",
            lambda: "resume activity;",
            lambda: f"detach self from {self.activity()};",
            lambda: f"attach self to {self.activity()};",
            self.ended,
            self.given_up,
            self.moved_row,
        )()

    def ended(self):
        return "end activity;" if self.dice.random() < 0.1 else "if self.a != none { if active(self.a) { if self.a != activity { end self.a; } } }"

    def given_up(self):
        what = self.one("rollback;", "throw \"oops\";", f"throw {self.text()};")
        return what if self.dice.random() < 0.3 else f"if self.n % 4 == 3 {{ {what} }}"

    def child(self):
        name = self.new("k")
        priority = self.one("", "", " priority 5", " priority -128", " priority self.n")
        more = [f"attach {name} to activity;", f"attach {name} to activity;", f"call {name}.grow(2);", f"call {name}.put(self.n) as {self.new('v')};"]
        more += [f"remove {name};", f"priority {name} 9;", f"call {name}.speak();", ""]
        return f"create {self.one('leg', 'leg', 'arm')} as {name}{priority}; {self.one(*more)} {self.one(*more[:2], '')}".replace(f"remove {name}; attach", f"detach {name} from activity; attach")

    def each_child(self):
        name = self.new("k")
        what = [f"remove {name};", f"attach {name} to activity;", f"detach {name} from activity;", f"call {name}.grow(1);", f"call {name}.speak();"]
        what += [f"priority {name} {self.one('1', '-5', '127', 'self.n')};", f"mask \"pong\" on activity;", f"call {name}.put(3);", f"emit text(priority({name}));"]
        return f"for {name} in {self.one('leg', 'leg', 'arm')} {{ {self.one(*what)} }}"

    def own(self):
        name = self.new("a")
        return f"for {name} in activities {{ {self.one(f'emit text({name} == activity);', f'detach self from {name};', f'resume {name};', f'self.a = {name};')} }}"

    def null(self):
        name = self.new("o")
        more = [f"attach self to {name};", f"fire \"pong\" on {name};", f"self.a = {name};", f"end {name};", f"bind \"x\" to {name};", f"unbind \"x\";"]
        more += [f"timer {self.new('t')} on {name} at now + 5;", f"attr({name}, hits) = 4;", f"detach self from {name};"]
        return f"null as {name}; " + " ".join(self.one(*more) for _ in range(self.dice.randrange(4)))

    def timer(self):
        name = self.new("t")
        every = self.one("", "", " every 5 times 3", " every 3 times 0 keep last", " every 2 times 4 keep none", " every 1 times 2 keep all", " keep last")
        return f"timer {name} on {self.activity()} at {self.one('now + 10', 'now', 'now + 1', '3')}{every}; {self.one(f'self.m = {name};', '', f'cancel {name};', 'cancel self.m;')}"

    def fire(self):
        target = self.one("", "", "", " for \"s\"", " for \"u\"", " for \"w\"")
        if self.one(True, False):
            return f"fire \"pong\" on {self.activity()}{target};"
        return f"fire \"go\" on {self.activity()}{target} {{ addr: {self.text()}, n: {self.one('1', 'self.n')} }};"

    def guarded(self):
        tests = ["self.n > 2", "self.n % 3 == 0", "active(self.a)", "attached(activity)", "bound(\"x\")", "self.f", "has_timer(self.m)", "count(leg) < 2"]
        return f"if {self.one(*tests)} {{ {self.statement()} }} else {{ {self.one(self.statement(), 'self.f = not self.f;')} }}"

    def masking(self):
        return f"if attached(activity) {{ {self.one('mask', 'unmask')} \"{self.one(*EVENTS)}\" on activity; }}"

    def naming(self):
        return self.one("if bound(\"x\") { unbind \"x\"; } else { bind \"x\" to activity; }", "if not bound(\"y\") { bind \"y\" to activity; }", "if bound(\"x\") { self.a = lookup(\"x\"); }")

    def moved_row(self):
        return self.one(
            "if has_profile(accounts, \"r1\") { emit profile(accounts, \"r1\", who); }", "attach self to table(accounts);", "attach self to table(notes);", "detach self from table(accounts);"
        )

    def script(self, most=6):
        return "\n".join(self.statement() for _ in range(self.dice.randrange(most)))

    def remove_script(self):
        return self.one("emit \"gone \" ++ text(self.n);", "emit self.t; emit text(self.n / 2);", "emit text(1 / self.n); emit \"late\";", "let i = 0; while i < self.n { emit text(i); i = i + 1; }", "")

    def callback(self):
        return self.one("emit failure;", "self.n = self.n + 1;", self.script(2) + "\nemit failure;", "attr(activity, hits) = 1;")


def handlers(dice, scripts, is_root):
    """Events that a block handles; only roots have initial ones."""
    found = []
    for event in dice.sample(EVENTS + BUILT_IN, dice.randrange(3, 8)):
        handler = {"event": event, "on": scripts.script()}
        if dice.random() < 0.3:
            handler["mask"] = True
        if is_root and event in EVENTS[:1] + EVENTS[2:] + BUILT_IN[2:] and dice.random() < 0.8:
            initial(dice, handler)
        found.append(handler)
    if is_root and not any("initial" in it for it in found):
        found = [it for it in found if it["event"] != "ping"] + [{"event": "ping", "initial": ["activity"], "on": scripts.script()}]
    return found


def initial(dice, handler):
    words = ["activity", "event-type", "event"] + (["address", "custom"] if handler["event"] in ("ping", "go") else [])
    handler["initial"] = dice.sample(words, dice.randrange(len(words)))
    if "custom" in handler["initial"]:
        handler["custom"] = {"rule": dice.choice(RULES), "field": "addr"}


def block(dice, scripts, key, is_root):
    made = component(
        key,
        fields=FIELDS,
        attributes={"hits": "int", "tag": "text"},
        aliases={"tag": "tag"},
        relations={"leg": {"block": dice.choice(["c", "d"]), "priority": 3}, "arm": {"block": "c"}},
        events=handlers(dice, scripts, is_root),
        methods={
            "grow": {"params": [{"name": "k", "type": "int"}], "do": "create arm as s; attach s to activity; if k > 0 { call s.grow(k - 1); }"},
            "put": {"params": [{"name": "k", "type": "int"}], "returns": "int", "do": "self.n = k; return self.n + 1;"},
            "speak": {"do": "emit \"n \" ++ text(self.n);"},
        },
    )
    for name, text in (("exception", scripts.callback), ("rolled_back", scripts.callback), ("remove", scripts.remove_script)):
        if dice.random() < 0.6:
            made[name] = text()
    return made


def deployment(seed):
    """A deployment, as JSON has it."""
    dice = random.Random(f"deployment {seed}")
    scripts = Scripts(dice)
    services = [component(key, root=dice.choice(["b", "e"]), active=dice.random() < 0.8, priority=dice.choice([0, 0, 5, -7, 127])) for key in SERVICES]
    return {
        "events": [component("ping", fields={"addr": "text", "x": "int"}), component("pong"), component("go", fields={"addr": "text", "n": "int"})],
        "profiles": [component("account", attributes={"pin": "int", "who": "text"}, unique=["pin"]), component("note", attributes={"t": "bool"})],
        "tables": {"accounts": "account", "notes": "note"},
        "blocks": [block(dice, scripts, key, key in "be") for key in "bcde"],
        "services": services,
    }


class Lines:
    """Lines at random; most can be done."""

    def __init__(self, dice):
        self.dice, self.moment, self.alive = dice, 0, []

    def name(self):
        """Mostly that of an activity that is there."""
        return self.one(*self.alive) if self.alive and self.dice.random() < 0.9 else self.one(*NAMES)

    def one(self, *of):
        return self.dice.choice(of)

    def fields(self, event):
        if event == "pong":
            return ""
        fields = {"addr": self.one(*ADDRESSES), "x" if event == "ping" else "n": str(self.one(0, 5, -3, 9))}
        given = [f"{name}={value}" for name, value in fields.items()]
        if self.dice.random() < 0.03:
            given.pop()
        if self.dice.random() < 0.3:
            given.reverse()
        return "".join(" " + it for it in given)

    def fire(self):
        event = self.one("ping", "ping", "pong", "go", "zap" if self.dice.random() < 0.1 else "ping")
        target = "@" + self.one(*SERVICES, "none") if self.dice.random() < 0.15 else ""
        return f"fire {self.name()} {event}{target}{self.fields(event)}"

    def clock(self):
        self.moment += self.one(0, 1, 1, 2, 5, 10, 30)
        return f"clock {max(0, self.moment - (self.dice.random() < 0.05) * 7)}"

    def row(self):
        if self.dice.random() < 0.3:
            return f"notes {self.one(*ROWS)} t={self.one('true', 'false', 'maybe')}"
        return f"accounts {self.one(*ROWS)} pin={self.one(1, 2, 3, 4)} who={self.one('ann', 'bob', '')}"

    def line(self):
        return self.one(
            lambda: f"start {self.one(*NAMES)}",
            lambda: f"start {self.one(*NAMES)}",
            self.fire,
            self.fire,
            self.fire,
            self.fire,
            self.fire,
            self.fire,
            lambda: f"end {self.name()}",
            self.clock,
            self.clock,
            lambda: f"{self.one('activate', 'activate', 'deactivate')} {self.one(*SERVICES, *SERVICES, 'none')}",
            lambda: "profile-add " + self.row(),
            lambda: "profile-update " + self.row(),
            lambda: f"profile-remove {self.one('accounts', 'notes', 'none')} {self.one(*ROWS)}",
        )()
