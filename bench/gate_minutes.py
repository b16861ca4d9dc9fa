#!/usr/bin/env python3
"""Runs the gate and says where its time went: processor minutes by crate, for the proof, the tests and the wrong bodies.

    python3 bench/gate_minutes.py                        `.ci/run` in a new clone of what is committed, and the table of it
    python3 bench/gate_minutes.py --folder DIR           in DIR, a clone that is there
    python3 bench/gate_minutes.py --log FILE             keeps what the gate prints
    python3 bench/gate_minutes.py --keep FILE            keeps what was measured
    python3 bench/gate_minutes.py --read FILE            reads it from there, and runs nothing
    python3 bench/gate_minutes.py --crates NAME..        `rt ci NAME..` in place of the gate: these crates and those below them
    python3 bench/gate_minutes.py --with FILE ..         takes from these, which --keep wrote, each crate that this run didn't prove
    python3 bench/gate_minutes.py --edits                each wrong body's seconds too, behind the table
    python3 bench/gate_minutes.py --write                puts the table into docs/ARCHITECTURE.md between its two marks

It looks at the processes under `.ci/run` four times a second, as /proc shows them: each belongs to a crate (the prover is given
its name, and works in its folder), and what it is for is seen from its words and from its folder: an edited copy is a wrong
body. Building and running a program counts as its proof, running tests as the tests. What can't be told so, and the last
quarter of a second of each process, is in the line `the rest`: the whole is what the system counted for `.ci/run`. `rt ci` keeps
what has passed on a machine, so a run shows what it proved itself; with --with the table is of several runs. Linux only.
"""
import argparse
import json
import os
import re
import resource
import subprocess
import sys
import tempfile
import time
from collections import defaultdict

TOP = os.path.dirname(os.path.dirname(os.path.abspath(__file__)))
DOCUMENT = os.path.join(TOP, "docs", "ARCHITECTURE.md")
BEGIN = "<!-- made by bench/gate_minutes.py: begin -->"
END = "<!-- made by bench/gate_minutes.py: end -->"
KINDS = ("proof", "tests", "edits")
TICKS = os.sysconf("SC_CLK_TCK")
PAUSE = 0.25


class Process:
    """A process under the gate: what it is for, and the processor seconds that it has taken itself."""

    def __init__(self, parent, started):
        self.parent, self.started = parent, started
        self.crate = self.kind = self.folder = None
        self.seconds = 0.0


def stat_of(pid):
    """Returns a process's parent, its own processor seconds and when it began, or None where it is gone."""
    try:
        with open(f"/proc/{pid}/stat", encoding="utf-8", errors="replace") as f:
            fields = f.read().rpartition(")")[2].split()
    except OSError:
        return None
    return int(fields[1]), (int(fields[11]) + int(fields[12])) / TICKS, int(fields[19])


def words_of(pid):
    try:
        with open(f"/proc/{pid}/cmdline", "rb") as f:
            return f.read().decode("utf-8", "replace").split("\0")
    except OSError:
        return []


def folder_of(pid):
    try:
        return os.readlink(f"/proc/{pid}/cwd")
    except OSError:
        return ""


def purpose_of(words, folder, crates):
    """Returns the crate that a process works for and what it does for it, or None and None."""
    for word in words:
        played = re.search(r"/rt-run-[^/]*/bin/(\w+?)(_tests)?(\.by-rattle)?$", word)
        if played and played[1] in crates:
            return played[1], "tests" if played[2] else "proof"
    if "--crate-name" in words[:-1]:
        crate = words[words.index("--crate-name") + 1]
        if "/rt-edit-" in folder:
            return crate, "edits"
        return crate, "tests" if "--test" in words else "proof"
    inside = re.search(r"/crates/(\w+)$", folder)
    if inside and inside[1] in crates:
        return inside[1], "tests" if any(word.endswith(f"/{inside[1]}_tests") for word in words) else "proof"
    return None, None


def look(root, seen, crates):
    """Counts once more what each process below the root has taken."""
    below, found = {root}, {}
    for name in os.listdir("/proc"):
        if name.isdigit():
            stat = stat_of(name)
            if stat:
                found[int(name)] = stat
    children = defaultdict(list)
    for pid, (parent, _, _) in found.items():
        children[parent].append(pid)
    waiting = [root]
    while waiting:
        for pid in children[waiting.pop()]:
            if pid not in below:
                below.add(pid)
                waiting.append(pid)
    for pid in below & set(found):
        parent, seconds, started = found[pid]
        one = seen.setdefault((pid, started), Process(parent, started))
        one.seconds = max(one.seconds, seconds)
        words, folder = words_of(pid), folder_of(pid)
        crate, kind = purpose_of(words, folder, crates)
        # (a process that is ending has no words any more)
        if crate and any(words):
            one.crate, one.kind, one.folder = crate, kind, folder


def crates_of(folder):
    with open(os.path.join(folder, "crates.txt"), encoding="utf-8") as f:
        return [line.split(":")[0].split()[0] for line in f if ":" in line.split("#")[0]]


def edits_of(folder, crate):
    try:
        return sorted(name[:-5] for name in os.listdir(os.path.join(folder, "crates", crate, "must-fail")) if name.endswith(".edit"))
    except OSError:
        return []


def measured(folder, log, command):
    """Runs the gate (or that command) in the folder and returns what it took, with its status and its last line."""
    crates, seen, began = crates_of(folder), {}, time.time()
    before = resource.getrusage(resource.RUSAGE_CHILDREN)
    with open(log, "w+", encoding="utf-8", errors="replace") as said:
        gate = subprocess.Popen(command, cwd=folder, stdin=subprocess.DEVNULL, stdout=said, stderr=subprocess.STDOUT)
        while gate.poll() is None:
            look(gate.pid, seen, set(crates))
            time.sleep(PAUSE)
        said.seek(0)
        lines = said.read().rstrip("\n").split("\n")
    after = resource.getrusage(resource.RUSAGE_CHILDREN)
    spent, tried = {it: dict.fromkeys(KINDS, 0.0) for it in crates}, {it: defaultdict(float) for it in crates}
    for one in sorted(seen.values(), key=lambda it: it.started):
        if one.crate in spent:
            spent[one.crate][one.kind] += one.seconds
            if one.kind == "edits":
                # (the copy that one wrong body is tried in is a folder of its own)
                tried[one.crate][one.folder] += one.seconds
    return {
        "status": gate.returncode,
        "last": lines[-1],
        "failed": [line for line in lines if re.search(r"NOT PROVED|NOT REFUSED|BAD EDIT|FAILED", line)],
        "minutes": (time.time() - began) / 60,
        "processor": (after.ru_utime + after.ru_stime - before.ru_utime - before.ru_stime) / 60,
        "spent": spent,
        "edits": {it: [edits_of(folder, it), [*tried[it].values()]] for it in crates if tried[it]},
        "commit": said_by(["git", "rev-parse", "--short", "HEAD"], folder),
        "date": time.strftime("%-d %B %Y"),
        "processors": len(os.sched_getaffinity(0)),
    }


def said_by(words, folder):
    return subprocess.run(words, cwd=folder, capture_output=True, text=True, check=False).stdout.strip()


def figure(minutes):
    return f"{minutes:.1f}" if minutes >= 0.05 else ""


def of_parts(run):
    parts = run.get("parts", 1)
    return "" if parts == 1 else f", {parts - 1} earlier runs of its parts included, whose proofs it kept"


def table(run):
    """The lines of the table, and of what stands before it."""
    spent = run["spent"]
    lines = [
        f"The gate on {run['date']} at commit {run['commit']}: {run['last']}, {run['minutes']:.0f} minutes on {run['processors']} processors; {run['processor']:.0f} processor minutes{of_parts(run)}.",
        "",
        "| crate | proof | tests | wrong bodies | in all |",
        "|---|---|---|---|---|",
    ]
    for crate, kinds in spent.items():
        row = [kinds[it] / 60 for it in KINDS]
        lines.append(f"| `{crate}` | {' | '.join(figure(it) for it in [*row, sum(row)])} |")
    sums = [sum(kinds[it] for kinds in spent.values()) / 60 for it in KINDS]
    rest = max(run["processor"] - sum(sums), 0)
    lines.append(f"| the rest | | | | {figure(rest)} |")
    lines.append(f"| in all | {' | '.join(figure(it) for it in [*sums, run['processor']])} |")
    return lines


def edit_lines(run):
    """One line a wrong body with its seconds. The first pays for the crate's first check, and the last of all is the crate as it is, over the same work."""
    for crate, (names, seconds) in run["edits"].items():
        names = [*names, "(the crate itself)", *["(tried again)"] * len(seconds)]
        for name, took in zip(names, seconds):
            yield f"{took:7.1f} s  {crate}/{name}"


def write(lines):
    with open(DOCUMENT, encoding="utf-8") as f:
        text = f.read()
    head, begin, behind = text.partition(BEGIN)
    _, end, tail = behind.partition(END)
    if not begin or not end:
        sys.exit(f"docs/ARCHITECTURE.md has no lines {BEGIN} and {END}")
    with open(DOCUMENT, "w", encoding="utf-8") as f:
        f.write("\n".join([head + BEGIN, *lines, END + tail]))


# A crate whose proof took less was proved by an earlier run, and this one only built or played it.
PROVED = 8.0


def with_earlier(run, files):
    """Adds to a run what earlier ones took for the crates, tests and wrong bodies that it didn't have to prove or try again."""
    for file in files:
        with open(file, encoding="utf-8") as f:
            earlier = json.load(f)
        for crate, kinds in earlier["spent"].items():
            own = run["spent"].get(crate)
            if own is None:
                continue
            for kind in KINDS:
                if own[kind] < PROVED < kinds[kind]:
                    run["processor"] += (kinds[kind] - own[kind]) / 60
                    own[kind] = kinds[kind]
        run["parts"] = run.get("parts", 1) + earlier.get("parts", 1)
    return run


def run_gate(given):
    if given.read:
        with open(given.read, encoding="utf-8") as f:
            return json.load(f)
    with tempfile.TemporaryDirectory(prefix="gate-") as room:
        folder = given.folder or os.path.join(room, "clone")
        if not given.folder:
            subprocess.run(["git", "clone", "-q", TOP, folder], check=True)
        command = ["rt", "ci", *given.crates] if given.crates else [".ci/run"]
        return measured(folder, given.log or os.path.join(room, "log"), command)


def main():
    parser = argparse.ArgumentParser(description=__doc__, formatter_class=argparse.RawDescriptionHelpFormatter)
    parser.add_argument("--folder", help="a clone to run the gate in")
    parser.add_argument("--log", help="a file for what the gate prints")
    parser.add_argument("--keep", help="a file for what was measured")
    parser.add_argument("--read", help="a file that --keep wrote")
    parser.add_argument("--crates", nargs="+", default=[], help="run `rt ci` over these crates in place of the gate")
    parser.add_argument("--with", nargs="+", default=[], dest="earlier", help="files that --keep wrote, of earlier runs")
    parser.add_argument("--edits", action="store_true", help="print each wrong body's seconds")
    parser.add_argument("--write", action="store_true", help="put the table into docs/ARCHITECTURE.md")
    given = parser.parse_args()
    run = with_earlier(run_gate(given), given.earlier)
    if given.keep:
        with open(given.keep, "w", encoding="utf-8") as f:
            json.dump(run, f, indent=1)
    lines = table(run)
    print("\n".join([*run["failed"], *lines]))
    if given.edits:
        print("\n".join(edit_lines(run)))
    if given.write and run["status"] == 0:
        write(lines)
    return run["status"]


if __name__ == "__main__":
    sys.exit(main())
