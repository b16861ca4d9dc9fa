#!/usr/bin/env python3
"""Times the reader of deployments. Outside the gate.

    python3 bench/read_deployments.py [NAME..]     all makes of deployments, or these

Each line is one deployment of a megabyte: the seconds to read its parts, and to read it with the check of its scripts, each the
median of five; and the memory at the peak as a multiple of its size. A deployment is to be read in under 0.3 seconds and 40
times its size. Where scripts are most of it, the seconds in which they are parsed (what the same deployment takes longer than
one whose scripts are comments of the same length) and checked come next: a check is to take at most twice as long as the
parser. Build the program first: cd crates/golden_deployments && rt run < stdin
"""
import json
import os
import re
import resource
import statistics
import subprocess
import sys

HERE = os.path.dirname(os.path.abspath(__file__))
PROGRAM = os.path.join(HERE, "..", "crates", "golden_deployments", "out", "golden_deployments")
SIZE = 1_048_576
TIMES = 20
RUNS = 5
DEPTH = 64
SCRIPT = ["self.who = event.addr; emit \"call \" ++ event.addr;", "if len(event.addr) > 3 { let s = 1 + 2 * 3; usage granted s; }"]
PREPAID = [
    "self.who = event.addr; emit \"call \" ++ event.addr;",
    "if has_profile(accounts, event.addr) { let s = profile(accounts, event.addr, seconds);",
    "usage granted s; timer t on activity at now + s * 1000; } else { emit \"no account\"; }",
]
STATEMENTS = [
    "if true { create leg as x priority 5; attach self to activity; detach x from activity; mask \"ping\" on activity;",
    "fire \"ping\" on self.a for \"s\" {n: 1, addr: \"x\"}; timer t on activity at 0 every 5 times 3 keep last;",
    "call x.run(1, \"two\") as z; bind \"name\" to self.a; unbind \"name\"; cancel t; null as b; end b; throw z; }",
]
EXPRESSIONS = [
    "if true { self.total = (self.first + self.second * self.third - self.fourth / 7) % self.limit;",
    "if not self.ready == true and count(leg) < 12 or -self.first >= 0 { self.total = self.total + 1; }",
    "let i = 0; while i < 100 { i = i + 1; self.who = self.who ++ text(i) ++ \", \"; } }",
]


def item(key, **members):
    return {"key": key, "name": key, "vendor": "t", "version": "1", **members}


def events(n):
    return {"events": [item(f"e{i}", fields={"addr": "text", "n": "int"}) for i in range(n)]}


def blocks(n):
    handler = {"event": "e", "initial": ["activity", "address"], "on": SCRIPT}
    made = [item(f"b{i}", fields={"who": "text"}, attributes={"a": "int"}, aliases={"a": f"x{i % 50}"},
                 relations={"r": {"block": f"b{(i * 7) % n}"}}, events=[handler, {"event": "timer", "on": "emit \"t\";"}],
                 methods={"m": {"params": [{"name": "p", "type": "int"}], "returns": "int", "do": "return p;"}}) for i in range(n)]
    return {"events": [item("e", fields={"addr": "text"})], "blocks": made}


def handlers(n):
    made = [{"event": f"e{i}", "on": ""} for i in range(n)]
    return {"events": [item(f"e{i}") for i in range(n)], "blocks": [item("b", events=made)]}


def script(n):
    return {"blocks": [item("b", fields={"who": "text"}, remove=["emit \"x\";"] * n)]}


def profiles(n):
    made = [item(f"p{i}", attributes={"a": "int", "b": "text"}, unique=["a", "b"]) for i in range(n)]
    return {"profiles": made, "tables": {f"t{i}": f"p{i}" for i in range(n)}, "blocks": [item("b")],
            "services": [item(f"s{i}", root="b", priority=i % 100) for i in range(n)]}


def names(n):
    """Scripts that name each of many fields once: what a look-up costs."""
    return {"blocks": [item("b", fields={f"f{i}": "int" for i in range(n)}, exception=[f"self.f{i} = 1;" for i in range(n)])]}


def variables(n):
    """One script with many variables, each of which is named once: what a look-up costs."""
    return {"blocks": [item("b", remove=["let v0 = 0;"] + [f"let v{i} = v{i - 1};" for i in range(1, n)])]}


def parameters(n):
    """A method with many parameters, each of which is named once."""
    made = [{"name": f"p{i}", "type": "int"} for i in range(n)]
    return {"blocks": [item("b", methods={"m": {"params": made, "do": [f"emit text(p{i});" for i in range(n)]}})]}


def nested(n):
    """One script with many variables, whose names stand again in blocks within blocks once those before them ended."""
    inner = ["if true { let x = v; if x < 9 { let y = x; while y > 0 { let z = y; y = z - 1; } } }", "if true { let z = v; let y = z; let x = y; v = x; }"]
    return {"blocks": [item("b", remove=["let v = 0;"] + [line for i in range(n) for line in [f"let v{i} = v;", *inner]])]}


def deepest(n):
    """One script of blocks within blocks to the depth that is allowed, over and over: what a block of one statement takes."""
    return {"blocks": [item("b", remove=["if true { " * DEPTH + "} " * DEPTH] * n)]}


def with_scripts(scripts):
    """Scripts of one block that may name what those above name."""
    numbers = ("first", "second", "third", "fourth", "limit", "total")
    fields = {"who": "text", "a": "activity", "ready": "bool", **{name: "int" for name in numbers}}
    run = {"params": [{"name": "x", "type": "int"}, {"name": "w", "type": "text"}], "returns": "text", "do": "return w;"}
    return {
        "events": [item("ping", fields={"addr": "text", "n": "int"})],
        "profiles": [item("account", attributes={"seconds": "int"})],
        "tables": {"accounts": "account"},
        "blocks": [item("b", fields=fields, relations={"leg": {"block": "b"}}, methods={"run": run}, events=[{"event": "ping", "on": it}])
                   if i == 0 else item(f"b{i}", fields=fields, relations={"leg": {"block": "b"}}, events=[{"event": "ping", "on": it}])
                   for i, it in enumerate(scripts)],
        "services": [item("s", root="b")],
    }


def calls(n):
    return with_scripts([PREPAID * 20] * n)


def call(n):
    return with_scripts([PREPAID * n])


def statements(n):
    return with_scripts([STATEMENTS * n])


def expressions(n):
    return with_scripts([EXPRESSIONS * n])


MAKES = (events, blocks, handlers, script, profiles, names, variables, parameters, nested, deepest, calls, call, statements, expressions)
OF_SCRIPTS = (calls, call, statements, expressions)


def sized(make):
    """The greatest deployment of this make that has no more than a megabyte."""
    low, high = 1, 200_000
    while low < high:
        middle = (low + high + 1) // 2
        if len(json.dumps(make(middle))) <= SIZE:
            low = middle
        else:
            high = middle - 1
    return json.dumps(make(low))


def commented(text):
    """The deployment with each line of its scripts turned into a comment of the same length."""
    whole = json.loads(text)
    for block in whole["blocks"]:
        for handler in block["events"]:
            handler["on"] = [re.sub(r".", "#", line) for line in handler["on"]]
    return json.dumps(whole)


def run(text, extent, times):
    begun = resource.getrusage(resource.RUSAGE_CHILDREN)
    done = subprocess.run([PROGRAM, extent, str(times)], input=text, capture_output=True, text=True)
    ended = resource.getrusage(resource.RUSAGE_CHILDREN)
    if done.returncode != 0:
        sys.exit(f"reading ended with {done.returncode}: {done.stdout}{done.stderr}")
    return ended.ru_utime + ended.ru_stime - begun.ru_utime - begun.ru_stime


def seconds(text, extent):
    return statistics.median((run(text, extent, TIMES) - run(text, extent, 0)) / TIMES for _ in range(RUNS))


def memory(text):
    peak = subprocess.run(["/usr/bin/time", "-f", "%M", PROGRAM, "deployment", "1"], input=text, capture_output=True, text=True)
    return f"{int(peak.stderr.split()[-1]) * 1024 / len(text):.0f} times" if peak.returncode == 0 else "not measured"


def main():
    if not os.path.exists(PROGRAM):
        sys.exit("build it first: cd crates/golden_deployments && rt run < stdin")
    for make in MAKES:
        if sys.argv[1:] and make.__name__ not in sys.argv[1:]:
            continue
        text = sized(make)
        parts, whole = seconds(text, "parts"), seconds(text, "deployment")
        line = f"{make.__name__:11} {len(text)} bytes  parts {parts:.3f} s  deployment {whole:.3f} s  memory {memory(text)}"
        if make in OF_SCRIPTS:
            parsed, checked = parts - seconds(commented(text), "parts"), whole - parts
            line += f"  parsed {parsed:.3f} s  checked {checked:.3f} s, {checked / parsed:.2f} times"
        print(line, flush=True)


if __name__ == "__main__":
    main()
