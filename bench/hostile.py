#!/usr/bin/env python3
"""Plays random deployments whose handlers do their worst, and looks at how the program ends. Outside the gate.

    python3 bench/hostile.py                  10,000 runs, with ./slee
    python3 bench/hostile.py --cmd PROGRAM    with another program
    python3 bench/hostile.py --runs 100       so many runs
    python3 bench/hostile.py --first 5000     those from this number on
    python3 bench/hostile.py --seed 8         other deployments
    python3 bench/hostile.py --only 17        the run of this number alone; its files stay and are named
    python3 bench/hostile.py --slack 8        bounds of time eight times as wide, for a program that looks after its memory

Handlers call themselves through children as deep as calls go and deeper, make 256 effects and one more, with as many bytes as effects may have,
write the longest texts, look at 64 keys and one more, make children by the hundred, remove what handles the same event, set timers of period 1,
change priorities while events wait, fire the event that they handle, and fail in all these. Each run is played, then `show` reads what is kept, `compact` keeps
it, and `resume` with the same lines goes on. At the end it says how many deployments had a script of each kind, and how often the traces show that it ran.

A run is wrong where the program dies or takes longer than a minute, where its last line isn't that of its status, where the status is none of 0, 7,
10, 11 and 12 that such a run may have, where `show`, `compact` or `resume` of its journal fails, where `show` gives another text behind `compact`, or
where a step takes longer than its bound: MOST_STEP seconds of the processor for each delivery (10,000 units for the handler and for each of two
callbacks) and MOST_LINE for each line of its trace.
A run that is only too slow is counted and its number is told, and the others go on. It ends with 1 where any run was wrong or too slow.
"""
import argparse
import collections
import json
import os
import random
import re
import resource
import shutil
import signal
import subprocess
import sys
import tempfile

TOP = os.path.dirname(os.path.dirname(os.path.abspath(__file__)))
MAY_END = {0, 7, 10, 11, 12}
MOST_STEP = 0.01
MOST_LINE = 0.0005
START = 0.25
LONGEST_RUN = 60
# Few runs are long: what a step attaches to one activity costs by all that is attached there (docs: bench/README.md).
STEPS = (50,) * 120 + (200,) * 79 + (1000,)
LONGEST = "x" * 4000
# What a trace shows of a kind of script.
SHOWN = {
    "a call below depth 8": r"^\d+ deliver .* failed depth$",
    "an effect or a byte of them too many": r"^\d+ deliver .* failed too-much$",
    "255 effects and as many bytes as may be": r"^\d+ deliver .* fine\n(?:  say e\d+ y{114}\n){255}",
    "a text above 4,096 bytes": r"^\d+ deliver .* failed too-long$",
    "a key too many": r"^\d+ deliver .* failed observed$",
    "a unit too many": r"^\d+ deliver .* failed budget$",
    "a tree removed by a handler": r"^\d+ deliver .*\n(?:  (?!removed).*\n)*  removed e",
    "an occurrence of a timer": r"^  queued v\d+ timer ",
    "more occurrences than are fired": r"^  refused too-many$",
    "priorities changed while an event waits": r"^  say e\d+ turned$",
    "a suspended delivery": r"^  suspended v",
    "a rolled-back callback": r"^  rolled-back ",
}
CROWD = 1000


def item(key, **more):
    return {"key": key, "name": key, "vendor": "t", "version": "1", **more}


def repeated(count, statement):
    return f"let i = 0; while i < {count} {{ {statement} i = i + 1; }}"


class Handlers:
    """Scripts at random for the blocks `node`, whose children are of its own kind, and `leaf`."""

    def __init__(self, dice):
        self.dice, self.made = dice, set()

    def near(self, limit):
        return max(1, limit + self.dice.choice((-2, -1, 0, 1, 2)))

    def dive(self):
        return "create leg as x; call x.dive(1) as n; emit text(n);"

    def effects(self):
        return repeated(self.near(256), "self.n = i;")

    def texts(self):
        return f'let t = "{LONGEST}"; ' + repeated(self.dice.choice((1, 3, 4, 5, 40)), "self.t = t; emit t;")

    def brim(self):
        """With the effect on `n`, as many effects as a run may have, and as many bytes, or one more."""
        return repeated(self.near(255), f'emit "{"y" * self.dice.choice((113, 114, 115))}";')

    def growth(self):
        return 'self.t = self.t ++ self.t ++ "abcdefgh"; emit text(len(self.t));'

    def keys(self):
        return repeated(self.near(62), "let k = bound(\"n\" ++ text(i)); emit text(k);")

    def crowd(self):
        return repeated(self.dice.choice((3, 30, 60, 84, 85, 86, 120)), "create leg as x priority i - 60; attach x to activity;")

    def leaves(self):
        return repeated(self.dice.choice((3, 60, 127, 128, 129)), "create arm as x; attach x to activity;")

    def brood(self):
        return repeated(self.dice.choice((100, 250)), "create arm as x;")

    def removal(self):
        return "for x in leg { remove x; } for y in arm { remove y; }"

    def each(self):
        return 'for x in leg { priority x 0 - priority(x); } if count(leg) > 1 { emit "turned"; }'

    def alarm(self):
        keep = self.dice.choice(("all", "last", "none"))
        times = self.dice.choice(("2", "100", "4000000000000000"))
        return f"timer w on activity at now + 1 every 1 times {times} keep {keep}; self.w = w;"

    def alarms(self):
        return repeated(self.dice.choice((5, 100, 200)), "timer w on activity at now + i every 1 times 9 keep all;")

    def echo(self):
        return self.dice.choice(('fire "ping" on activity { n: event.n + 1 };', 'fire "pong" on activity;', 'fire "ping" on activity { n: 1 }; fire "ping" on activity { n: 2 };'))

    def nulls(self):
        return repeated(self.dice.choice((3, 60, 128)), 'null as z; attach self to z; fire "pong" on z;')

    def names(self):
        return repeated(self.dice.choice((3, 60)), 'null as z; bind "k" ++ text(i) to z;')

    def ended(self):
        return "for z in activities { if z != activity { end z; } }"

    def masks(self):
        return 'mask "ping" on activity; unmask "ping" on activity; mask "pong" on activity;'

    def spent(self):
        return self.dice.choice(("while true { }", "let k = 0; while true { k = k + 1; }", "while true { self.n = self.n + 1; }"))

    def failing(self):
        return self.dice.choice(('throw "no";', "rollback;", "let n = 1 / 0;", "let n = 9223372036854775807 + 1;", "detach self from activity;"))

    def waiting(self):
        return self.dice.choice(("suspend 5;", "suspend 4000;", "resume activity;"))

    def script(self, is_callback=False):
        kinds = (self.dive, self.effects, self.texts, self.brim, self.growth, self.keys, self.crowd, self.leaves, self.brood, self.removal, self.each)
        kinds += (self.alarm, self.alarms, self.echo, self.nulls, self.names, self.ended, self.masks, self.spent, self.failing)
        kinds += () if is_callback else (self.waiting,)
        chosen = self.dice.sample(kinds, self.dice.choice((1, 1, 2, 3)))
        self.made.update(kind.__name__ for kind in chosen)
        parts = [kind() for kind in chosen]
        guarded = [f"if self.n % {self.dice.choice((2, 3, 5))} == {at} {{ {part} }}" if self.dice.random() < 0.5 else f"if true {{ {part} }}" for at, part in enumerate(parts)]
        return f"self.n = self.n + 1; {' '.join(guarded)}"

    def on(self, event, **more):
        text = self.script()
        return {"event": event, "on": text if event == "ping" else text.replace("event.n", "1"), **more}


def deployment(handlers):
    dice = handlers.dice
    deeper = dice.choice(("", "remove x; ")).join(("create leg as x; call x.dive(n + 1) as m; ", "return m;"))
    dive = deeper if dice.random() < 0.5 else f"if n < 6 {{ {deeper} }} return n;"
    shared = {"fields": {"n": "int", "t": "text", "w": "timer"}, "relations": {"leg": {"block": "node", "priority": 5}, "arm": {"block": "leaf"}}}
    node = item("node", **shared, events=[
        handlers.on("ping", initial=[dice.choice(("activity", "event", "event-type"))], mask=dice.random() < 0.1), handlers.on("pong"), handlers.on("timer"), handlers.on("activity-end")
    ], methods={"dive": {"params": [{"name": "n", "type": "int"}], "returns": "int", "do": dive}})
    for callback in ("exception", "rolled_back"):
        if dice.random() < 0.5:
            node[callback] = handlers.script(is_callback=True).replace("event.n", "1")
    node["remove"] = repeated(handlers.near(60), 'emit "abcd";')
    leaf = item("leaf", fields={"n": "int"}, events=[{"event": "ping", "on": "emit \"leaf\"; self.n = self.n + event.n;"}, {"event": "pong", "on": "detach self from activity;"}])
    services = [item("first", root="node", priority=dice.choice((-128, 0, 127)), active=True), item("second", root="node", priority=1, active=dice.random() < 0.5)]
    return {"events": [item("ping", fields={"n": "int"}), item("pong")], "blocks": [node, leaf], "services": services}


def lines(dice):
    clock, found = 0, ["start c1", "start c2"]
    for _ in range(dice.choice((3, 10, 40))):
        kind = dice.random()
        if kind < 0.6:
            found.append(f"fire c{dice.choice((1, 2))} ping n={dice.choice((0, 1, 9223372036854775807))}")
        elif kind < 0.7:
            found.append(f"fire c{dice.choice((1, 2))} pong")
        elif kind < 0.9:
            clock += dice.choice((0, 1, 10, 5000, 10 ** 9))
            found.append(f"clock {clock}")
        else:
            found.append(dice.choice(("end c1", "start c1", "deactivate first", "activate second", "start c3")))
    return "".join(line + "\n" for line in found)


def bound():
    resource.setrlimit(resource.RLIMIT_CPU, (LONGEST_RUN, LONGEST_RUN))


def run(command, words, given, folder):
    """The status, the text and the processor's seconds of a run; one that would take longer than a minute of it has no status."""
    with open(os.path.join(folder, "given"), "w", encoding="utf-8") as file:
        file.write(given)
    with open(os.path.join(folder, "given"), "rb") as lines, open(os.path.join(folder, "out"), "wb") as out:
        child = subprocess.Popen([command, *words], stdin=lines, stdout=out, cwd=folder, preexec_fn=bound)
        _, ended, usage = os.wait4(child.pid, 0)
    child.returncode = os.waitstatus_to_exitcode(ended)
    with open(os.path.join(folder, "out"), encoding="utf-8") as out:
        is_endless = child.returncode in (-signal.SIGXCPU, -signal.SIGKILL)
        return None if is_endless else child.returncode, out.read(), usage.ru_utime + usage.ru_stime


def fault_of(status, text, may_end):
    last = text.split("\n")[-2] if text.count("\n") else ""
    return None if status in may_end and last.startswith(f"status {status} ") else f"status {status}, last line {last!r}"


def delay_of(text, seconds, slack):
    steps = len(re.findall(r"^\d+ ", text, re.M))
    most = START + MOST_STEP * steps + MOST_LINE * text.count("\n")
    return f"{seconds:.2f} s for {steps} steps and {text.count(chr(10))} lines" if seconds > slack * most else None


def seen_in(text, shown):
    """How often the trace shows each kind, and whether `show` has a thousand children."""
    found = {what: len(re.findall(form, text, re.M)) for what, form in SHOWN.items()}
    found["a thousand children"] = int(len(re.findall(r"^entity e\d+ \w+ child ", shown, re.M)) >= CROWD)
    return collections.Counter(found)


def fault_behind(command, given, folder, found, shown):
    """What is wrong behind a run whose journal was shown so: about compacting it, showing it anew, and going on."""
    compacted, text, _ = run(command, ["compact"], "", folder)
    again, same, _ = run(command, ["show"], "", folder)
    resumed, more, _ = run(command, ["resume", "1", str(STEPS[0])], given, folder)
    answers = (("show", found, shown, {0, 12}), ("compact", compacted, text, {0, 10, 12}), ("show again", again, same, {0, 12}), ("resume", resumed, more, MAY_END))
    faults = [f"{word}: {fault_of(status, text, may)}" for word, status, text, may in answers if status is not None and fault_of(status, text, may)]
    if not faults and found == again == 0 and shown != same:
        faults = ["show gives another text behind compact"]
    return faults[0] if faults else None


def play(command, number, asked, folder, tally):
    """The status of a run, what is wrong with it, whether it was too slow, and the mean time of its steps; the kinds are counted in the tally."""
    dice = random.Random(f"{asked.seed} {number}")
    handlers = Handlers(dice)
    with open(os.path.join(folder, "deploy.json"), "w", encoding="utf-8") as file:
        json.dump(deployment(handlers), file)
    given, steps = lines(dice), str(dice.choice(STEPS))
    with open(os.path.join(folder, "signals"), "w", encoding="utf-8") as file:
        file.write(given)
    status, text, seconds = run(command, ["play", "1", steps], given, folder)
    fault, delay = fault_of(status, text, MAY_END), delay_of(text, seconds, asked.slack)
    shown = ""
    if status is None:
        fault, delay = None, f"more than {LONGEST_RUN} s for {steps} steps"
    elif not fault:
        found, shown, _ = run(command, ["show"], "", folder)
        fault = fault_behind(command, given, folder, found, shown)
    count = max(1, len(re.findall(r"^\d+ ", text, re.M)))
    tally["deliveries"] += collections.Counter(re.findall(r"^\d+ deliver .* (fine|asked|failed [a-z-]+)$", text, re.M))
    tally["deployments with"].update(handlers.made)
    tally["seen"] += seen_in(text, shown)
    return status, fault, delay, seconds / count


class Told:
    """What is told of all runs, each 500 and at the end."""

    def __init__(self):
        self.statuses, self.tally, self.slowest, self.slow = collections.Counter(), collections.defaultdict(collections.Counter), 0.0, []

    def add(self, number, status, delay, step):
        self.statuses[status] += 1
        self.slowest = max(self.slowest, step)
        if delay:
            self.slow.append(number)
            print(f"run {number} is too slow: {delay}", flush=True)
        if self.statuses.total() % 500 == 0:
            self.print()

    def print(self):
        slowest = f"slowest mean step of a run {1000 * self.slowest:.2f} ms"
        print(f"{self.statuses.total()} runs: statuses {dict(sorted(self.statuses.items(), key=str))}; {slowest}; {len(self.slow)} were too slow")
        for name, counts in self.tally.items():
            print(f"{name}: " + ", ".join(f"{count} {kind}" for kind, count in counts.most_common()))
        never = [what for what in (*SHOWN, "a thousand children") if not self.tally["seen"][what]]
        print("never seen: " + (", ".join(never) or "none"), flush=True)


def main():
    parser = argparse.ArgumentParser()
    parser.add_argument("--cmd", default=os.path.join(TOP, "slee"))
    parser.add_argument("--runs", type=int, default=10_000)
    parser.add_argument("--first", type=int, default=0)
    parser.add_argument("--seed", default="1")
    parser.add_argument("--only", type=int)
    parser.add_argument("--slack", type=float, default=1.0)
    given = parser.parse_args()
    command, told = os.path.abspath(given.cmd), Told()
    for number in [given.only] if given.only is not None else range(given.first, given.first + given.runs):
        folder = tempfile.mkdtemp(prefix="hostile-")
        status, fault, delay, step = play(command, number, given, folder, told.tally)
        if fault or given.only is not None:
            print(f"run {number}: {fault or delay or status}; its files are in {folder}")
            return 1 if fault else 0
        shutil.rmtree(folder)
        told.add(number, status, delay, step)
    told.print()
    return 1 if told.slow else 0


if __name__ == "__main__":
    sys.exit(main())
