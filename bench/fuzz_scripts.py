#!/usr/bin/env python3
"""Compares the parser of scripts with another one, written from the grammar alone. Outside the gate.

    python3 bench/fuzz_scripts.py [COUNT] [SEED]

It makes COUNT scripts from the grammar, spoils most of them a little, and asks both what each is and how a good one is laid
out; each good one has to be printed, read and printed again alike. Build the program first: cd crates/golden_scripts && rt run < stdin
"""
import os
import random
import re
import subprocess
import sys

HERE = os.path.dirname(os.path.abspath(__file__))
PROGRAM = os.path.join(HERE, "..", "crates", "golden_scripts", "out", "golden_scripts")
ONE = ("text", "len", "active", "attached", "bound", "lookup", "has_timer")
NAMED = ("table", "count", "priority")
CONSTANTS = ("true", "false", "none", "now", "activity", "failure")
VERBS = ("end", "cancel", "unbind", "emit", "return", "throw", "suspend", "resume")
WORDS = set(ONE + NAMED + CONSTANTS + VERBS) | set(
    "masked attr profile has_profile self event or and not let if else while for in activities create as remove attach to "
    "detach from mask on unmask fire null timer at every times keep all last bind usage call rollback".split()
)
LEVELS = (("or",), ("and",), None, ("==", "!=", "<", "<=", ">", ">="), ("++",), ("+", "-"), ("*", "/", "%"))


class Fault(Exception):
    pass


def tokens_of(text):
    """Triples of kind, text and place; the kind of a place where no token begins is `bad`, and ends the list."""
    found, at = [], 0
    while at < len(text):
        rest = text[at:]
        if rest[0] in b" \t\r\n":
            at += 1
            continue
        if rest[0] == ord("#"):
            at += len(re.match(rb"[^\n]*", rest).group())
            continue
        kind, size = token_at(rest)
        found.append((kind, rest[:size].decode("utf8", "replace"), at))
        if kind == "bad":
            break
        at += size
    return found


def token_at(rest):
    word = re.match(rb"[a-z][a-z0-9_]*", rest)
    if word:
        if word.group().decode() in WORDS:
            return "word", word.end()
        return ("name" if word.end() <= 64 else "bad"), word.end()
    digits = re.match(rb"[0-9]+", rest)
    if digits:
        fine = str(int(digits.group())) == digits.group().decode() and int(digits.group()) < 2**63
        return ("int" if fine else "bad"), digits.end()
    quoted = re.match(rb'"((?:[^"\\\x00-\x1f]|\\["\\n])*)"', rest)
    if quoted:
        return ("text" if len(quoted.group(1)) <= 4096 else "bad"), quoted.end()
    sign = re.match(rb"==|!=|<=|>=|\+\+|[-(){}.,:;=<>+*/%]", rest)
    return ("sign", sign.end()) if sign else ("bad", 1)


class Reader:
    def __init__(self, text):
        self.text, self.tokens, self.at, self.depth, self.count = text, tokens_of(text), 0, 0, 0

    def fault(self, kind=None):
        if self.at == len(self.tokens):
            raise Fault(len(self.text), "end")
        found, _, place = self.tokens[self.at]
        raise Fault(place, kind or ("token" if found == "bad" else "expected"))

    def sees(self, *words):
        return self.at < len(self.tokens) and self.tokens[self.at][0] in ("word", "sign") and self.tokens[self.at][1] in words

    def kind(self):
        return self.tokens[self.at][0] if self.at < len(self.tokens) else None

    def take(self, word):
        if not self.sees(word):
            self.fault()
        if word in "({":
            if self.depth == 64:
                self.fault("deep")
            self.depth += 1
        if word in ")}":
            self.depth -= 1
        self.at += 1

    def maybe(self, word):
        if self.sees(word):
            self.take(word)
            return True
        return False

    def some(self, kind):
        if self.kind() != kind:
            self.fault()
        self.at += 1

    def name(self):
        self.some("name")

    def expr(self, level=0):
        if level == len(LEVELS):
            self.maybe("-")
            return self.prim()
        if LEVELS[level] is None:
            self.maybe("not")
            return self.expr(level + 1)
        self.expr(level + 1)
        while self.sees(*LEVELS[level]):
            self.at += 1
            self.expr(level + 1)
            if level == 3:
                break

    def prim(self):
        if self.kind() in ("int", "text", "name"):
            self.at += 1
        elif self.sees(*CONSTANTS):
            self.at += 1
        elif self.sees("self", "event"):
            self.at += 1
            self.take(".")
            self.name()
        elif self.sees("("):
            self.take("(")
            self.expr()
            self.take(")")
        else:
            self.function()

    def function(self):
        for words, parts in (
            (ONE, "e"), (NAMED, "n"), (("masked",), "t,e"), (("attr",), "e,n"), (("profile",), "n,e,n"), (("has_profile",), "n,e"),
        ):
            if self.sees(*words):
                self.at += 1
                self.take("(")
                for part in parts:
                    self.part(part)
                return self.take(")")
        self.fault()

    def part(self, part):
        if part == "e":
            self.expr()
        elif part == "n":
            self.name()
        elif part == "t":
            self.some("text")
        elif part == "b":
            self.block()
        elif part == "w":
            self.at += 1 if self.sees("self") or self.kind() == "name" else self.fault()
        elif part == "o":
            self.at += 1 if self.sees("activities") or self.kind() == "name" else self.fault()
        else:
            self.take(part)

    def parts(self, text):
        for part in text.split():
            self.part(part)

    def block(self):
        self.take("{")
        while self.statement():
            pass
        self.take("}")

    def statement(self):
        """Whether one began here."""
        plain = {
            "let": "n = e ;", "self": ". n = e ;", "attr": "( e , n ) = e ;", "remove": "n ;", "priority": "n e ;",
            "attach": "w to e ;", "detach": "w from e ;", "mask": "t on e ;", "unmask": "t on e ;", "null": "as n ;",
            "bind": "e to e ;", "usage": "n e ;", "rollback": ";", "while": "e b", "for": "n in o b", "if": "e b",
            "create": "n as n", "fire": "t on e", "timer": "n on e at e", "call": "n . n (",
        }
        if self.kind() == "name":
            self.at += 1
            self.parts("= e ;")
        elif self.sees(*VERBS):
            self.at += 1
            self.parts("e ;")
        elif self.sees(*plain):
            word = self.tokens[self.at][1]
            self.at += 1
            self.parts(plain[word])
            if hasattr(self, "rest_" + word):
                getattr(self, "rest_" + word)()
        else:
            return False
        self.count += self.depth == 0
        return True

    def rest_if(self):
        if self.maybe("else"):
            self.block()

    def rest_create(self):
        if self.maybe("priority"):
            self.expr()
        self.take(";")

    def rest_fire(self):
        if self.maybe("for"):
            self.some("text")
        if self.maybe("{"):
            self.parts("n : e")
            while self.maybe(","):
                self.parts("n : e")
            self.take("}")
        self.take(";")

    def rest_timer(self):
        if self.maybe("every"):
            self.parts("e times e")
        if self.maybe("keep"):
            self.at += 1 if self.sees("all", "last", "none") else self.fault()
        self.take(";")

    def rest_call(self):
        if not self.sees(")"):
            self.expr()
            while self.maybe(","):
                self.expr()
        self.take(")")
        if self.maybe("as"):
            self.name()
        self.take(";")

    def answer(self):
        try:
            while self.statement():
                pass
            if self.at < len(self.tokens):
                self.fault()
        except Fault as fault:
            place, kind = fault.args
            before = self.text[:place]
            return f"{before.count(10) + 1}:{place - (before.rfind(10) + 1) + 1} {kind}"
        letters = {"word": "w", "name": "w", "int": "i", "text": "t", "sign": "s"}
        head = f"script {self.count} {''.join(letters[kind] for kind, _, _ in self.tokens)} again"
        return "\n".join([head] + ["  | " + line for line in laid_out([(kind, text) for kind, text, _ in self.tokens])])


CALLED = ONE + NAMED + ("masked", "attr", "profile", "has_profile")


def laid_out(tokens):
    """The lines of a script's text: no blank before . ; , : and ), none behind ( and ., none between a function and its (."""
    words = [text if kind in ("word", "sign") else "" for kind, text in tokens]
    lines, line, depth = [], "", 0
    for at, (_, text) in enumerate(tokens):
        before, here = (words[at - 1] if at else None), words[at]
        if before is None or here in (".", ";", ",", ":", ")") and here or before in ("(", "."):
            line += text
        elif before in CALLED and here == "(":
            line += text
        elif before in (";", "{") or here == "}" or (before == "}" and here != "else"):
            lines.append(line)
            line = "  " * (depth - (here == "}")) + text
        else:
            line += " " + text
        depth += (here == "{") - (here == "}")
    return lines + [line] if tokens else []


NAMES = ("x", "leg", "ends", "selfish", "a" * 64, "count_of")


def pick(*choices):
    return random.choice(choices)


def expression(size):
    if size <= 0:
        return pick(*CONSTANTS, *NAMES, "0", "12", str(2**63 - 1), '"a b"', '"\\"\\n"', "self.x", "event.leg", "table(x)", "count(leg)", "priority(x)")
    one, two = (lambda: expression(size - 1)), (lambda: expression(size // 2))
    return pick(
        lambda: f"({one()})", lambda: f"-({one()})", lambda: f"not {one()}", lambda: f"{pick(*ONE)}({one()})", lambda: f'masked("e", {one()})',
        lambda: f"attr({one()}, x)", lambda: f"profile(x, {one()}, leg)", lambda: f"has_profile(x, {one()})",
        lambda: f"{two()} {pick(*[op for level in LEVELS if level for op in level])} {two()}",
    )()


def statement(size):
    e, b = (lambda: expression(random.randint(0, 4))), (lambda: "{ " + script(size - 1) + "}")
    plain = (
        lambda: f"let x = {e()};", lambda: f"x = {e()};", lambda: f"self.x = {e()};", lambda: f"attr({e()}, x) = {e()};",
        lambda: f"create leg as x{pick('', ' priority ' + e())};", lambda: "remove x;", lambda: f"priority x {e()};",
        lambda: f"attach {pick('self', 'x')} to {e()};", lambda: f"detach {pick('self', 'x')} from {e()};", lambda: f'mask "e" on {e()};',
        lambda: f'unmask "e" on {e()};', lambda: f'fire "e" on {e()}{pick("", chr(32) + "for " + chr(34) + "s" + chr(34))}{pick("", " { x: " + e() + " }", " { x: " + e() + ", leg: " + e() + " }")};',
        lambda: "null as x;", lambda: f"timer x on {e()} at {e()}{pick('', ' every ' + e() + ' times ' + e())}{pick('', ' keep all', ' keep last', ' keep none')};",
        lambda: f"bind {e()} to {e()};", lambda: f"usage x {e()};", lambda: f"call x.leg({pick('', e(), e() + ', ' + e())}){pick('', ' as x')};",
        lambda: "rollback;", lambda: f"{pick(*VERBS)} {e()};",
    )
    nested = (lambda: f"if {e()} {b()}", lambda: f"if {e()} {b()} else {b()}", lambda: f"while {e()} {b()}", lambda: f"for x in {pick('leg', 'activities')} {b()}")
    return pick(*(plain + nested * 3 if size > 0 else plain))()


def script(size):
    return "".join(statement(size) + pick(" ", "\n", "\r\n", "\t", " # said; \n") for _ in range(random.randint(0, 3)))


def spoiled(text):
    parts = re.findall(r'[a-z0-9_]+|"[^"]*"|\s+|[^\sa-z0-9_]', text) or [""]
    for _ in range(random.choice((0, 1, 1, 1, 2))):
        at = random.randrange(len(parts))
        new = pick(*sorted(WORDS), *NAMES, *"(){}.,:;=<>+-*/%", "==", "++", "7", "007", str(2**63), '"t"', '"', "!", "\u00e9", "b" * 65, "#", '"\\t"')
        what = random.randrange(4)
        if what == 0:
            parts[at] = ""
        elif what == 1:
            parts[at] = f" {new} "
        elif what == 2:
            parts.insert(at, f" {new} ")
        else:
            parts = parts[: at + 1]
    return "".join(parts)


def deep():
    levels = [random.choice(("if x {", "while (x) {", "for x in leg {")) for _ in range(random.randint(58, 66))]
    inner = random.choice(("emit (((1)));", 'fire "e" on a { n: (1) };', "call x.y((1));", "x = text(count(leg));", ""))
    return " ".join(levels) + inner + "}" * random.randint(56, 66)


def main():
    count = int(sys.argv[1]) if len(sys.argv) > 1 else 20_000
    random.seed(int(sys.argv[2]) if len(sys.argv) > 2 else 1)
    texts = [deep() if at % 50 == 0 else spoiled(script(3)) for at in range(count)]
    texts = [text for text in texts if "\n%\n" not in text and not text.startswith("%\n") and not text.endswith("\n%")]
    done = subprocess.run([PROGRAM], input="\n%\n".join(texts).encode(), capture_output=True)
    if done.returncode != 0:
        sys.exit(f"reading ended with {done.returncode}")
    answers = []
    for line in done.stdout.decode().split("\n")[:-1]:
        if line.startswith("  | "):
            answers[-1] += "\n" + line
        else:
            answers.append(line)
    wrong = 0
    kinds = {}
    for text, answer in zip(texts, answers, strict=True):
        wanted = Reader(text.encode()).answer()
        kind = "script" if wanted.startswith("script") else wanted.split()[1]
        kinds[kind] = kinds.get(kind, 0) + 1
        if wanted != answer:
            wrong += 1
            if wrong < 10:
                print(f"{text!r}\n  here {wanted}\n  there {answer}")
    print(f"{len(texts)} scripts, {wrong} told differently;", ", ".join(f"{name} {kinds[name]}" for name in sorted(kinds)))
    sys.exit(wrong != 0)


if __name__ == "__main__":
    main()
