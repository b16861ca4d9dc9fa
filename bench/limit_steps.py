"""Rows of steps that come to limits: what fills a delivery, trees that are deep and wide and how they go, and what one run does twice. Data for
bench/steps.py; a row is a deployment and commands of golden_steps."""
from random_deployments import component

EVENTS = [component("ping", fields={"addr": "text", "x": "int"}), component("pong"), component("stop")]
LATEST = 4_000_000_000_000_000
# children that one run of a handler makes, and those of one delivery where more are made than a delivery may have effects
WIDE = 40
A_DELIVERY = 250


def deployment(on, child="", pong="", stop="", more=(), roots=("s",), last_words="emit \"gone \" ++ text(self.n);", **block):
    """A block that handles three events, with children that do too."""
    events = [{"event": "ping", "initial": ["activity"], "on": on}, {"event": "pong", "on": pong}, {"event": "stop", "on": stop}, *more]
    fields = {"n": "int", "t": "text", "a": "activity", "m": "timer"}
    methods = {
        "grow": {"params": [{"name": "k", "type": "int"}], "do": "if k > 0 { create sub as s; call s.grow(k - 1); }"},
        "here": {"do": "attach self to activity;"},
    }
    parts = {"fields": fields, "relations": {"leg": {"block": "c"}, "arm": {"block": "c", "priority": 9}}, "events": events, "attributes": {"hits": "int"}}
    below = component("c", fields=fields, relations={"sub": {"block": "c"}}, methods=methods, events=[{"event": "pong", "on": child}], remove=last_words)
    return {
        "events": EVENTS,
        "profiles": [component("account", attributes={"pin": "int"})],
        "tables": {"accounts": "account"},
        "blocks": [component("b", **parts, **block), below],
        "services": [component(key, root="b", active=True) for key in roots],
    }


# what a delivery may touch, by the event whose handler does it
TOUCHES = {
    "child": "create leg as k; attach k to activity; detach k from activity; remove k;",
    "null": "null as o; attach self to o; detach self from o;",
    "naming": "bind \"x\" to activity; unbind \"x\";",
    "timing": "timer t on activity at now + 5; cancel t;",
    "masking": "mask \"pong\" on activity; unmask \"pong\" on activity;",
    "attribute": "attr(activity, hits) = 1; attr(activity, hits) = 2;",
    "profile": "if has_profile(accounts, \"r\") { self.n = 1; }",
    "waiting": "suspend 5; resume activity;",
    "relation": "self.n = count(leg); for a in activities { self.a = a; }",
}


def touching():
    """A deployment whose root handles an event for each of these, and ping."""
    made = deployment("self.n = self.n + 1; emit event.addr;", more=[{"event": name, "on": on} for name, on in TOUCHES.items()])
    return made | {"events": EVENTS + [component(name) for name in TOUCHES]}


def called(*lines, name="c1"):
    """A call, an event, and these lines, each with what follows from it; the state is shown at last."""
    taken = [f"start {name}", f"fire {name} ping addr=a x=1", *lines]
    return [it for line in taken for it in (f"take {line}", "run")] + ["show"]


def filling():
    """Deliveries that fill their limits, and those that pass them by one."""
    loop = "let i = 0; while i < {0} {{ {1} i = i + 1; }}"
    for count in (255, 256, 257):
        yield f"{count} effects", deployment(loop.format(count, "self.n = i;"), exception="emit failure;"), called()
    # an effect of a said text is 14 bytes and the text
    for length in (4081, 4082, 4083):
        doubled = "let t = \"0123456789abcdef\"; let i = 0; while i < 7 { t = t ++ t; i = i + 1; }"
        more = "".join(f" emit t ++ \"{'x' * (length - 2048)}\";" for _ in range(8))
        yield f"8 texts of {length}", deployment(doubled + more, exception="emit failure;"), called()
    for count in (63, 64, 65):
        yield f"{count} keys", deployment(loop.format(count, "if has_profile(accounts, text(i)) { self.n = i; }"), exception="emit failure;"), called()
    yield "128 keys", deployment(
        loop.format(64, "if has_profile(accounts, text(i)) { self.n = i; }") + " rollback;", rolled_back=loop.format(64, "if has_profile(accounts, text(i + 100)) { self.n = i; }")
    ), called()
    yield "10,000 units", deployment("let i = 0; while true { i = i + 1; }", exception="emit failure;", rolled_back="emit failure;"), called()


def trees(wide):
    """Trees of so many children, and one 8 deep, that go by their parent's handler, by their root's, and with their activities."""
    grow = f"let i = 0; while i < {wide} {{ create leg as c; i = i + 1; }} create arm as d; call d.grow(6);"
    attached = f"let i = 0; while i < {wide // 2} {{ create leg as c; attach c to activity; i = i + 1; }} create arm as d; attach d to activity; call d.grow(6);"
    each = "for c in leg { remove c; } for d in arm { remove d; }"
    again = ["fire c1 pong"] * 3
    yield f"{wide} go by their parent", deployment(grow, pong=each), called("fire c1 pong", "fire c1 pong")
    yield f"{wide} go with their root", deployment(grow, pong=grow, stop="detach self from activity;", remove="emit \"root\";"), called(*again, "fire c1 stop")
    yield f"{wide} go with an activity", deployment(attached, pong="emit \"here\";", child="self.n = self.n + 1;"), called("fire c1 pong", "end c1")
    yield f"{wide} go with their service", deployment(grow, stop="detach self from activity;"), called("deactivate s", "fire c1 ping addr=a x=2", "fire c1 stop", "activate s")
    last = "for c in leg { detach c from activity; } detach self from activity;"
    yield f"{wide} are detached", deployment(attached, pong=last), called("fire c1 pong", "fire c1 ping addr=b x=3")


def broad(wide):
    """A tree of so many children, made by several deliveries, and 8 deep: it goes by its parent, by the end of its activity, and by closing."""
    grow = f"let i = 0; while i < {A_DELIVERY} {{ create sub as s; i = i + 1; }}"
    hub = "create leg as h; attach h to activity; create arm as d; call d.grow(6);"
    made = ["fire c1 pong"] * (wide // A_DELIVERY)
    ways = {
        "goes by its parent": ("for h in leg { remove h; } for d in arm { remove d; }", ["fire c1 stop"]),
        "goes with its activity": ("", ["end c1"]),
        "goes by closing": ("for h in leg { detach h from activity; } detach self from activity;", ["fire c1 stop"]),
    }
    for way, (stop, lines) in ways.items():
        yield f"{wide} wide {way}", deployment(hub, child=grow, stop=stop, last_words=""), called(*made, *lines)


def twice():
    """What one run does to the same thing more than once."""
    yield "an event on what the run ends", deployment("null as n; attach self to n; fire \"pong\" on n; end n;", pong="emit \"pong\"; self.n = 7;"), called()
    yield "ended before it is fired", deployment("null as n; attach self to n; end n; fire \"pong\" on n;", exception="emit failure;"), called()
    yield "twenty attachments", deployment("detach self from activity; attach self to activity; " * 20, pong="emit \"still\";"), called("fire c1 pong")
    yield "made, named, unnamed", deployment("null as n; bind \"x\" to n; unbind \"x\"; bind \"x\" to n; unbind \"x\"; emit text(bound(\"x\"));"), called()
    yield "named and kept", deployment("null as n; bind \"x\" to n; attach self to n;", pong="unbind \"x\"; detach self from self.a;"), called("fire c1 pong", "end c1")
    yield "a null activity for nobody", deployment("null as n; null as o; attach self to o; bind \"y\" to o;", stop="unbind \"y\"; for a in activities { detach self from a; }"), called("fire c1 stop")
    yield "masks that change", deployment("mask \"pong\" on activity; mask \"pong\" on activity; unmask \"pong\" on activity; mask \"stop\" on activity;", pong="emit \"p\";", stop="emit \"s\";"), called(
        "fire c1 pong", "fire c1 stop"
    )
    yield "suspended again", deployment("suspend 5; suspend 9;", pong="emit \"late\";"), called("fire c1 pong", "clock 5", "clock 9", "fire c1 pong")
    yield "resumed by another", deployment("bind \"first\" to activity; suspend 900;", stop="resume lookup(\"first\");"), [
        *called()[:-1], *called("fire c2 stop", name="c2")
    ]
    removing = "create leg as c; attach c to activity; remove c; create leg as d; attach d to activity; emit text(count(leg));"
    yield "removed as soon as made", deployment(removing, pong="emit \"root\";", child="emit \"child\";"), called("fire c1 pong")
    timed = "timer t on activity at now; cancel t; timer u on activity at now every 1 times 0 keep last; self.m = u;"
    yield "timers", deployment(timed, more=[{"event": "timer", "on": "emit \"due\";"}], stop="cancel self.m;"), called("clock 3", "clock 3", "clock 7", "fire c1 stop", f"clock {LATEST}")
    yield "two services", deployment("emit \"here\";", roots=("s", "u", "w"), pong="emit \"all\";"), called("fire c1 ping@u addr=b x=2", "deactivate u", "fire c1 pong", "end c1")


def rows():
    """The rows that are soon played by definitions: their names, deployments and commands."""
    yield from filling()
    yield from trees(WIDE)
    yield from twice()
