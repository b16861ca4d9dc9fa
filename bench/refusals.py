#!/usr/bin/env python3
"""Lists the public calls that may refuse, each with the clauses that say when, and what stays then.

    bench/refusals.py             all of them, a line each: crate, call, answer, names of the clauses
    bench/refusals.py --lacking   those alone that lack such a clause; status 1 where there is one

Public is what a library's `pub fn` and the methods of its `pub trait` are. A call may refuse where it answers a Result or an Option. It lacks
a clause on the cause where what its clauses say of its answer, they say where it is Ok or Some alone; where want of memory is the only refusal,
which is free, no cause is asked for. A call that changes what it is given (`&mut`) lacks a clause on what stays where none of its clauses says,
of another answer than Ok too, what was there before. Crates of tests, their words and measurements are left out, since no program calls them.

What a caller builds and lets go of where a call on it is refused (BUILT: a text or bytes that are written, a draft of a step, the variables of a
script) isn't used again, so nothing is asked of it; such calls are listed as `built`. Those of LEFT_FREE lack a clause; each is listed with why.
"""
import os
import re
import sys

TOP = os.path.dirname(os.path.dirname(os.path.abspath(__file__)))
LEFT_OUT = ("test_",)
SHORT_CUT = "None says that the general way is taken, which gives the same"
FILE_FAULT = "nothing is said of a file that fails; the disk over it counts the fault"
BUILT = re.compile(r"\w+: &mut (?:Vec<|String\b|Draft\b|Changes\b|Locals<|Fields\b|MemorySink\b)")
BUILDERS = ("Changes::", "Draft::")
LEFT_FREE = {
    "script_run_machine: reckon": SHORT_CUT,
    "script_run_machine: Machine::seen_again": SHORT_CUT,
    "script_run_terms: calculated_at_hand": SHORT_CUT,
    "slee_disk: read_pieces": FILE_FAULT,
    "slee_disk: write_pieces": FILE_FAULT,
}
HEAD = re.compile(r"^(?P<indent> *)(?P<open>pub (?:const )?)?fn (?P<name>\w+)")
PLACE = re.compile(r"^(?P<words>(?:pub )?(?:impl|trait)\b.*?) *\{$")
CLAUSE = re.compile(r"^ *ensures *(?P<name>\w*) *\{ *(?P<text>.*?) *\}? *;?$")
MEMORY_ALONE = re.compile(r"^Result<.*\b(?:NoMemory|AllocError)>$", re.S)
OF_OK = re.compile(r"\b(?:IfOk|OnOk|IfSome|OnSome) result\b *")


def crates():
    with open(f"{TOP}/crates.txt", encoding="utf-8") as file:
        found = re.findall(r"^(\w+):", file.read(), re.M)
    return [it for it in found if not it.startswith(LEFT_OUT)]


def signature(lines, at):
    """The lines of a function from its name to its body, or to the end of a trait's method, without comments."""
    taken, depth = [], 0
    for line in lines[at:]:
        line = re.sub(r" *//.*", "", line)
        taken.append(line)
        is_clause = depth > 0 or line.lstrip().startswith(("ensures", "requires"))
        if not is_clause and line.endswith("{"):
            break
        depth += line.count("{") - line.count("}")
        if depth == 0 and line.endswith(";"):
            break
    return taken


def joined(lines):
    """Clauses that go on in the next line, each as one line."""
    found = []
    for line in lines:
        if found and not re.match(r" *(ensures|requires|fn|pub|\{)", line) and found[-1].count("{") > found[-1].count("}"):
            found[-1] += " " + line.strip()
        else:
            found.append(line)
    return found


def beyond_ok(text):
    """What a clause says, but for what it says of an answer that is Ok or Some."""
    found = OF_OK.search(text)
    if not found:
        return text
    end, depth = found.end(), 0
    while end < len(text):
        depth += {"(": 1, ")": -1}.get(text[end], 0)
        end += 1
        if depth <= 0 and (text[end - 1] == ")" or not text[found.end()] == "("):
            break
    return text[: found.start()] + beyond_ok(text[end:])


class Call:
    def __init__(self, crate, place, name, lines):
        text = "\n".join(lines)
        head = re.split(r"\n *(?:ensures|requires|where)\b", text)[0]
        answer = re.search(r"->\s*(.*?)\s*[{;]?\s*$", head, re.S)
        self.answer = " ".join(answer.group(1).split()) if answer else ""
        self.name, self.changes = f"{crate}: {place}{name}", "&mut" in head
        changed = re.findall(r"&mut self|\w+: &mut ", head)
        self.builds = place in BUILDERS or len(changed) == len(BUILT.findall(head)) > 0
        self.clauses = [(it["name"], it["text"]) for it in map(CLAUSE.match, joined(lines)) if it]

    def may_refuse(self):
        return re.match(r"(io::)?(Result|Option)\b", self.answer) is not None

    def lacks(self):
        spoken = [beyond_ok(text) for _, text in self.clauses]
        is_caused = MEMORY_ALONE.match(self.answer) or any(re.search(r"\bresult\b", it) for it in spoken)
        is_kept = not self.changes or self.builds or any(".old" in it for it in spoken)
        return [word for word, has in (("the cause", is_caused), ("what stays", is_kept)) if not has]


def calls():
    for crate in crates():
        folder = f"{TOP}/crates/{crate}/src"
        for file in sorted(os.listdir(folder)):
            with open(f"{folder}/{file}", encoding="utf-8") as it:
                lines, place = it.read().split("\n"), ""
            for at, line in enumerate(lines):
                place = "" if line == "}" else PLACE.match(line)["words"] if PLACE.match(line) else place
                head = HEAD.match(line)
                if head and (head["open"] or place.startswith("pub trait")):
                    kind = re.sub(r"^(?:pub )?(?:impl|trait)(?:<.*?>)? *|<.*|:.*", "", place)
                    yield Call(crate, f"{kind}::" if kind else "", head["name"], signature(lines, at))


def main():
    refusing = [it for it in calls() if it.may_refuse()]
    lacking = [(it, it.lacks()) for it in refusing if it.lacks()]
    known = [it for it, _ in lacking if it.name in LEFT_FREE]
    unlisted = [(it, words) for it, words in lacking if it.name not in LEFT_FREE]
    gone = sorted(LEFT_FREE.keys() - {it.name for it in known})
    if "--lacking" not in sys.argv:
        for it in refusing:
            built = "; built" if it.builds else ""
            print(f"{it.name} -> {it.answer}: {', '.join(name or 'its only clause' for name, _ in it.clauses) or 'none'}{built}")
        for it in known:
            print(f"{it.name}: {LEFT_FREE[it.name]}")
        print(f"{len(refusing)} public calls may refuse, {len(lacking)} of them lack a clause, {len(known)} with a reason; {sum(it.builds for it in refusing)} build what is let go")
        return 0
    for it, words in unlisted:
        print(f"{it.name} -> {it.answer} says nothing of {' or of '.join(words)}")
    for name in gone:
        print(f"{name} lacks nothing any more, or is gone: it needs no reason")
    return 1 if unlisted or gone else 0


if __name__ == "__main__":
    sys.exit(main())
