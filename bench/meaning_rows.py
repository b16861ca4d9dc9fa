#!/usr/bin/env python3
"""Runs the definition of what a script means on the table of meaning_table.py. Outside the gate.

    python3 bench/meaning_rows.py [WORD]            all rows, or those whose script or name has WORD
    python3 bench/meaning_rows.py --write FOLDER [WHAT..]   writes the rows as a program can read them, FOLDER/stdin, and what it has to
                                                    print, FOLDER/stdout: all, which are those of crates/golden_runs, or those that
                                                    run this

Each row is a script, what the state answers, and what comes out: the outcome, the failure's text where there is one, the effects;
or the keys that are read; or the outcomes of a delivery. Of each run it is looked at besides that its effects refer to what it was
given, what it was told and what was made before them. Without the tool that evaluates definitions (deployments.py says where it is
looked for) nothing is run, and it says so.

What is written are rows of lines, an empty line behind each. The first line is a deployment's JSON. The second says what is run:
`handler` is the handler on `ping` of the first block, for entity 1 and activity 1; `exception` is the exception callback behind the
handler's run, whose failure, effects and keys it gets; `delivery` is the handler with its callbacks; `removal` is the remove script.
Then comes a line for each key that has an answer: the key in the words of meaning_table.py, ` = `, and the answer: `held` with
`none` or a type and a value, `ids`, `number`, `ac` with `none` or with `null` and `ending` where they are so, `flag`, `masks` with
`none` or `names` and the names, `refers` with `none` or a number, `row` with `none` or `values` and names, types and values. The fields
of the event are PING's. A value that is a text is a word text. What is printed is a line a row: what comes out, and behind ` | ` the
keys that a run read.
"""
import copy
import json
import os
import sys

import deployments
from meaning_table import BEHIND, DELIVERIES, DEPLOYMENT, MISSING, PING, READS, REMOVALS, ROWS, UNFIT, USUAL

NAMES = {"Field": "field", "Children": "children", "Priority": "priority", "AcState": "activity", "Attr": "attr", "Attached": "attached",
         "Mask": "masks", "Named": "name", "Timer": "timer", "Profile": "row", "Now": "clock", "Activities": "activities"}


def word_text(text):
    """A text as one word of a line."""
    return "".join(f"%{ord(c):02X}" if ord(c) < 0x21 or c in "%\x7f" else c for c in text)


def value_words(x):
    """A value as a row has it, with its type."""
    if isinstance(x, tuple):
        return f"{x[0]} {x[1]}"
    if isinstance(x, bool):
        return f"bool {str(x).lower()}"
    return f"text {word_text(x)}" if isinstance(x, str) else f"int {x}"


def key_words(name, words):
    return " ".join([name] + [word_text(word) for word in words])


def answer_words(name, found):
    """An answer as a row has it, as it is written."""
    if found is UNFIT:
        return "flag true" if name != "attached" else "number 1"
    if name in ("field", "attr"):
        return "held none" if found is None else f"held {value_words(found)}"
    if name in ("children", "activities"):
        return " ".join(["ids"] + [str(n) for n in found or ()])
    if name in ("priority", "clock"):
        return f"number {found or 0}"
    if name == "activity":
        return " ".join(["ac"] + ([w for w in ("null", "ending") if w in found] if found else ["none"]))
    if name == "attached":
        return f"flag {str(bool(found)).lower()}"
    if name == "masks":
        return "masks none" if found is None else " ".join(["masks", "names"] + found)
    if name in ("name", "timer"):
        return f"refers {'none' if found is None else found}"
    return "row none" if found is None else " ".join(["row", "values"] + [f"{n} {value_words(x)}" for n, x in sorted(found.items())])


class Stray(Exception):
    """Effects that refer to what isn't known."""


class Run:
    """The definitions, with the state's answers for one row."""

    def __init__(self, world):
        import rundefs

        self.world, self.rundefs, self.asked = world, rundefs, {}
        self.meaning = world.eval("script_meaning.specs.Meaning.meaning")
        self.delivered = world.eval("script_meaning.specs.Delivery.delivered")
        self.removal_lines = world.eval("script_meaning.specs.Removal.removal_lines")
        self.refer = world.eval("script_laws.specs.References.Refer")
        self.in_answer = world.eval("script_laws.specs.Told.in_answer")

    def variant(self, path, name):
        return self.world.variant(path, name)

    def value(self, x):
        make = lambda name: self.variant("slee_value.value.Value", name)
        if isinstance(x, bool):
            return make("Bool")(x)
        if isinstance(x, int):
            return make("Int")(x)
        if isinstance(x, str):
            return make("Text")(self.rundefs.codes(x))
        kind, number = x
        return make(kind.capitalize())(self.rundefs.Tup((number,)))

    def option(self, x):
        return self.rundefs.NONE if x is None else self.rundefs.SOME(x)

    def seen(self, name, *args):
        return self.rundefs.SOME(self.variant("script_meaning.seen.Seen", name)(*args))

    def names(self, values):
        return tuple((self.rundefs.Tup((self.rundefs.codes(n), self.value(x)))) for n, x in sorted(values.items()))

    def key(self, key):
        """A key in the words of the table."""
        return " ".join([NAMES[key.con.name]] + [self.word(x) for x in key.args])

    def answer(self, given, key):
        """What the state answers to a key; what a row doesn't say is as USUAL has it, or not there."""
        name, found = NAMES[key.con.name], given.get(self.key(key), USUAL.get(self.key(key)))
        if found is MISSING:
            return self.rundefs.NONE
        self.asked[key_words(name, [self.word(x) for x in key.args])] = answer_words(name, found)
        if found is UNFIT:
            return self.seen("Flag", True) if name != "attached" else self.seen("Number", 1)
        if name in ("field", "attr"):
            return self.seen("Held", self.option(None if found is None else self.value(found)))
        if name in ("children", "activities"):
            return self.seen("Ids", tuple(found or ()))
        if name in ("priority", "clock"):
            return self.seen("Number", found or 0)
        if name == "activity":
            return self.seen("Ac", self.option(found and self.world.record("script_meaning.seen.AcSeen", null="null" in found, ending="ending" in found)))
        if name == "attached":
            return self.seen("Flag", bool(found))
        if name == "masks":
            return self.seen("Masks", self.option(None if found is None else tuple(self.rundefs.codes(x) for x in found)))
        if name in ("name", "timer"):
            return self.seen("Refers", self.option(None if found is None else self.rundefs.Tup((found,))))
        return self.seen("Row", self.option(None if found is None else self.names(found)))

    def word(self, x):
        return str(x[0]) if isinstance(x, self.rundefs.Tup) else bytes(x).decode()

    def program(self, handler, **others):
        """The program of the deployment with this handler on `ping`, and with callbacks."""
        source = copy.deepcopy(DEPLOYMENT)
        source["blocks"][0]["events"][0]["on"] = handler
        source["blocks"][0].update({name: script for name, script in others.items() if script is not None})
        self.source = json.dumps(source, ensure_ascii=False, separators=(",", ":"))
        return deployments.Deployment(self.world, self.source).program

    def delivery(self, handler, exception, rolled_back, given):
        """The outcomes of a handler and its callbacks, and the effects that stand."""
        program = self.program(handler, exception=exception, rolled_back=rolled_back)
        answers = self.rundefs.Fn(1, lambda key: self.answer(given, key))
        one = self.rundefs.Tup((1,))
        ended = self.delivered(answers, program, 0, one, one, self.rundefs.codes("ping"), self.names(PING))
        if ended.con.name != "Complete":
            return repr(ended)
        it = ended.args[0]
        outcomes = [it.outcome] + [x.args[0] if x.con.name == "Some" else None for x in (it.exception, it.rolled_back)]
        words = ["-" if x is None else self.outcome(x) for x in outcomes]
        return (", ".join(words) + ": " + "; ".join(self.effect(e) for e in it.effects)).rstrip()

    def removal(self, script, given):
        """The lines of an entity's remove script."""
        program = self.program("", remove=script)
        answers = self.rundefs.Fn(1, lambda key: self.answer(given, key))
        lines = self.removal_lines(answers, program, program[0], self.rundefs.Tup((1,)))
        return "|".join(bytes(line).decode() for line in lines)

    def run(self, program, part, fields, failure, before, given):
        """What a script of the first block means: a report, or what else it comes to."""
        which = self.world.record("script_meaning.which.Which", block=0, part=part)
        args = self.world.record("script_meaning.outcome.Args", activity=self.rundefs.Tup((1,)), fields=fields, failure=failure)
        answers = self.rundefs.Fn(1, lambda key: self.answer(given, key))
        ended = self.meaning(answers, program, which, self.rundefs.Tup((1,)), args, before)
        if ended.con.name == "Done" and not self.refers(before, ended.args[0], given):
            raise Stray()
        return ended

    def refers(self, before, report, given):
        """Whether the effects refer to what is known, of which nothing is left out here that the run was given or told."""
        told = {self.reference(r) for key in before.keys + report.keys for r in self.in_answer(key, self.answer(given, key))}
        told |= {"ToEntity Known 1", "ToActivity Known 1", "ToActivity Known 0", "ToTimer Known 0", "ToActivity Known 2"}
        known = self.rundefs.Fn(1, lambda r: self.reference(r) in told)
        return self.world.decide(self.refer(known, before.effects + report.effects)) is True

    def reference(self, r):
        return f"{r.con.name} {r.args[0].con.name} {r.args[0].args[0]}"

    def handled(self, program, given):
        handler = self.variant("script_meaning.which.Part", "On")(0)
        before = self.world.record("script_meaning.specs.Meaning.Before", effects=(), keys=())
        return self.run(program, handler, self.names(PING), (), before, given)

    def told(self, script, given, effects=True):
        """The outcome and effects of a handler, as a row has them."""
        return self.report(self.handled(self.program(script), given), effects)

    def reads(self, script, given):
        """The keys that a handler reads."""
        return self.keys(self.handled(self.program(script), given))

    def whole(self, script, given):
        """All that is told of a handler."""
        ended = self.handled(self.program(script), given)
        return self.report(ended), self.keys(ended)

    def behind(self, handler, exception, given):
        """The outcome, effects and keys of an exception callback behind a handler that failed."""
        program = self.program(handler, exception=exception)
        failed = self.handled(program, {key: x for key, x in given.items() if x is not MISSING}).args[0]
        before = self.world.record("script_meaning.specs.Meaning.Before", effects=failed.effects, keys=failed.keys)
        ended = self.run(program, self.variant("script_meaning.which.Part", "Exception")(), (), failed.failure, before, given)
        return self.report(ended), self.keys(ended)

    def keys(self, ended):
        return [self.key(key) for key in ended.args[0].keys] if ended.con.name == "Done" else None

    def report(self, ended, effects=True):
        """A run's outcome, the text of a failure that isn't its kind's word, and the effects."""
        if ended.con.name != "Done":
            return f"need {self.key(ended.args[0])}" if ended.con.name == "Need" else "unchecked"
        report = ended.args[0]
        words, text = self.outcome(report.outcome), bytes(report.failure).decode()
        if words == "failed thrown":
            words = f"{words} {text}".rstrip()
        elif text != {"fine": "", "asked": "asked"}.get(words, words.removeprefix("failed ")):
            words += f" with the failure {text!r}"
        if not effects:
            return words
        return (words + ": " + "; ".join(self.effect(e) for e in report.effects)).rstrip()

    def outcome(self, outcome):
        if outcome.con.name != "Broken":
            return outcome.con.name.lower()
        return "failed " + "".join("-" + c.lower() if c.isupper() else c for c in outcome.args[0].con.name).lstrip("-")

    def ref(self, letter, ref):
        return letter + ("" if ref.con.name == "Known" else "+") + str(ref.args[0])

    def val(self, val):
        if val.con.name != "Plain":
            return {"NewActivity": "a+", "NewTimer": "t+"}[val.con.name] + str(val.args[0])
        value = val.args[0]
        x = value.args[0]
        return {"Int": lambda: str(x), "Text": lambda: bytes(x).decode(), "Bool": lambda: str(x).lower(),
                "Activity": lambda: f"a{x[0]}", "Timer": lambda: f"t{x[0]}"}[value.con.name]()

    def effect(self, e):
        """An effect in a few words."""
        text = lambda x: bytes(x).decode()
        entity, activity, timer = (lambda r: self.ref("e", r)), (lambda r: self.ref("a", r)), (lambda r: self.ref("t", r))
        fired = lambda x: "".join(f" {text(f[0])}={self.val(f[1])}" for f in x)
        service = lambda x: "@" + text(x.args[0]) if x.con.name == "Some" else ""
        forms = {
            "SetField": lambda r, n, v: f"set {entity(r)}.{text(n)} {self.val(v)}",
            "SetAttr": lambda r, k, v: f"attr {activity(r)} {text(k)} {self.val(v)}",
            "Create": lambda r, n, p: f"create {entity(r)}.{text(n)} {p}",
            "Remove": lambda r: f"remove {entity(r)}",
            "SetPriority": lambda r, p: f"priority {entity(r)} {p}",
            "Attach": lambda r, a: f"attach {entity(r)} {activity(a)}",
            "Detach": lambda r, a: f"detach {entity(r)} {activity(a)}",
            "SetMask": lambda r, a, n, on: f"mask {entity(r)} {activity(a)} {text(n)} {'on' if on else 'off'}",
            "Fire": lambda a, n, s, x: f"fire {activity(a)} {text(n)}{service(s)}{fired(x)}",
            "NewNull": lambda: "null",
            "EndNull": lambda a: f"end {activity(a)}",
            "SetTimer": lambda a, s, p, n, k: f"timer {activity(a)} {s} {p} {n} {'none' if k.con.name == 'NoneMissed' else k.con.name.lower()}",
            "CancelTimer": lambda t: f"cancel {timer(t)}",
            "Bind": lambda n, a: f"bind {text(n)} {activity(a)}",
            "Unbind": lambda n: f"unbind {text(n)}",
            "Emit": lambda r, t: f"say {entity(r)} {text(t)}",
            "Usage": lambda r, n, x: f"usage {entity(r)} {text(n)} {x}",
            "Suspend": lambda a, t: f"suspend {activity(a)} {t}",
            "Resume": lambda a: f"resume {activity(a)}",
        }
        return forms[e.con.name](*e.args)


def rows_of(run):
    """Each row: its name, what asks the definitions, and what is wanted."""
    for script, given, wanted in ROWS:
        yield script, lambda: run.told(script, given, ":" in wanted), wanted
    for script, given, wanted in READS:
        yield f"reads {script}", lambda: run.reads(script, given), wanted
    for handler, exception, given, wanted, keys in BEHIND:
        yield f"{handler} | exception {exception}", lambda: run.behind(handler, exception, given), (wanted, keys)
    for handler, exception, rolled_back, given, wanted in DELIVERIES:
        name = f"{handler} | exception {exception} | rolled_back {rolled_back}"
        yield name, lambda: run.delivery(handler, exception, rolled_back, given), wanted
    for script, given, wanted in REMOVALS:
        yield f"remove {script}", lambda: run.removal(script, given), wanted


def written(run):
    """Each row as it is written: what is run, what asks the definitions, and what comes out."""
    told = lambda x: x[0] if x[1] is None else f"{x[0]} | {', '.join(x[1])}".rstrip()
    for script, given, _ in ROWS + READS:
        yield "handler", lambda: told(run.whole(script, given))
    for handler, exception, given, _, _ in BEHIND:
        yield "exception", lambda: told(run.behind(handler, exception, given))
    for handler, exception, rolled_back, given, _ in DELIVERIES:
        yield "delivery", lambda: run.delivery(handler, exception, rolled_back, given)
    for script, given, _ in REMOVALS:
        yield "removal", lambda: run.removal(script, given)


def write(world, folder, wanted):
    run, rows, answers = Run(world), [], []
    for what, ask in written(run):
        if wanted and what not in wanted:
            continue
        run.asked = {}
        answers.append(ask())
        rows.append("\n".join([run.source, what] + [f"{key} = {answer}" for key, answer in run.asked.items()]) + "\n\n")
    for name, lines in (("stdin", rows), ("stdout", [answer + "\n" for answer in answers])):
        with open(os.path.join(folder, name), "w", encoding="utf-8") as file:
            file.write("".join(lines))
    print(f"meaning_rows: {len(rows)} rows written")
    return 0


def main(world):
    if sys.argv[1:2] == ["--write"]:
        return write(world, sys.argv[2], sys.argv[3:])
    run, wrong, done = Run(world), 0, 0
    for name, ask, wanted in rows_of(run):
        if len(sys.argv) > 1 and sys.argv[1] not in name:
            continue
        done += 1
        try:
            told = ask()
        except deployments.Refused as refused:
            told = f"refused {refused.args}"
        except Stray:
            told = "effects that refer to what isn't known"
        if told != wanted:
            wrong += 1
            print(f"meaning_rows: {name[:160]}\n    wanted {str(wanted)[:300]}\n    found  {str(told)[:300]}")
    print(f"meaning_rows: {done} runs, {wrong} wrong")
    return 1 if wrong else 0


if __name__ == "__main__":
    definitions = deployments.world()
    if definitions is None:
        print("meaning_rows: skipped, the tool that evaluates definitions isn't here (deployments.py)")
        sys.exit(0)
    import rundefs

    status = []
    rundefs.deep(lambda: status.append(main(definitions)))
    sys.exit(status[0])
