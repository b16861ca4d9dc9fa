#!/usr/bin/env python3
"""Tries the wrong bodies in trials/, those that the gate doesn't try: the prover has to refuse each.

    python3 bench/trials.py                    every crate's, in a new clone of what is committed
    python3 bench/trials.py slee_run           those of these crates
    python3 bench/trials.py --gate             those that the gate tries too, from crates/*/must-fail
    python3 bench/trials.py --quick            looks at the changed files' functions alone
    python3 bench/trials.py --try FILE ..      these files alone, of trials/ or must-fail/
    python3 bench/trials.py --folder DIR       in DIR, a clone that is there and may have kept work
    python3 bench/trials.py --jobs 2           so many crates at a time; as many as there are processors where nothing is said
    python3 bench/trials.py --texts            proves nothing: says in a second which can't be tried any more, here as it stands

A line for each: `refused`; `PROVED` where the contract lets the wrong body through; `BROKEN` where it couldn't be tried, since
its text doesn't stand in the code any more or doesn't compile. It ends with status 0 where all were refused. What the crates
below a crate have kept in out/ of this repository is used, and else they are proved first; then each wrong body takes half a
minute or so, and the first of a crate the time of its proof. With --quick only the functions of the files that a wrong body
changes are checked, with what these call in their crate: mostly a quarter of the time. A wrong body that they let through is
tried over the whole crate, and one in a crate's root file too.
"""
import argparse
import glob
import itertools
import os
import re
import shutil
import subprocess
import sys
import tempfile
import threading
from concurrent.futures import ThreadPoolExecutor

TOP = os.path.dirname(os.path.dirname(os.path.abspath(__file__)))
LINE = re.compile(r"^rt: must-fail (\w+)/(\S+)\.edit: (refused|NOT REFUSED|BAD EDIT)(.*)")
VERDICTS = {"refused": "refused", "NOT REFUSED": "PROVED", "BAD EDIT": "BROKEN"}


def crates_of(folder):
    """The crates by crates.txt, each with those of this repository that it stands on."""
    found = {}
    with open(os.path.join(folder, "crates.txt"), encoding="utf-8") as f:
        for line in f:
            name, colon, below = line.split("#")[0].partition(":")
            if colon:
                found[name.split()[0]] = below.split()
    return {name: [it for it in below if it in found] for name, below in found.items()}


def below(crates, name):
    """The crates below this one, each behind those that it stands on."""
    found = []
    for one in crates[name]:
        found += [it for it in [*below(crates, one), one] if it not in found]
    return found


def edits_of(folder):
    return sorted(glob.glob(os.path.join(folder, "*.edit")))


def unfit(folder, crate, edit):
    """Why an edit can't be tried, or nothing where each of its texts stands once in the file that it names."""
    path, old, texts = None, None, {}
    with open(edit, encoding="utf-8") as f:
        lines = f.read().split("\n")
    for line in lines:
        word, _, text = line.partition(": ")
        if word == "file":
            path = os.path.join(folder, "crates", crate, text.strip())
            if not os.path.isfile(path):
                return f"there is no file {text.strip()}"
            with open(path, encoding="utf-8") as f:
                texts.setdefault(path, f.read())
        elif word == "old":
            old = text
        elif word in ("new", "new:") and old:
            count = texts[path].count(old)
            if count != 1:
                return f"its text stands {count} times in {os.path.relpath(path, folder)}: {old}"
            texts[path] = texts[path].replace(old, text)
    return "" if old else "it has no line 'old: '"


def look_at_texts(folder, given):
    """Prints the wrong bodies, of the gate and of trials/, that can't be tried any more, and returns how many they are."""
    broken = 0
    places = sorted(glob.glob(os.path.join(folder, "crates", "*", "must-fail")) + glob.glob(os.path.join(folder, "trials", "*")))
    for place in places:
        crate = os.path.relpath(place, folder).split(os.sep)[1]
        for edit in edits_of(place) if not given.crates or crate in given.crates else []:
            why = unfit(folder, crate, edit)
            if why:
                broken += 1
                print(f"BROKEN  {os.path.relpath(edit, folder)}  {why}")
    print(f"{broken} BROKEN")
    return 1 if broken else 0


def prepare(folder, crate, with_gate):
    """Puts the crate's trials where `rt must-fail` looks for them, in place of the gate's wrong bodies or beside them."""
    place = os.path.join(folder, "crates", crate, "must-fail")
    os.makedirs(place, exist_ok=True)
    for edit in [] if with_gate else edits_of(place):
        os.remove(edit)
    for edit in edits_of(os.path.join(folder, "trials", crate)):
        shutil.copy(edit, place)


def take_kept(folder, crate):
    """Takes over what the crate has kept in this repository, where it is a library that was built here."""
    kept, to = (os.path.join(it, "crates", crate, "out", "rlib") for it in (TOP, folder))
    if os.path.exists(os.path.join(kept, "stamp")) and not os.path.exists(to):
        shutil.copytree(kept, to)


def build(folder, crate):
    ran = subprocess.run(["rt", "lib"], cwd=os.path.join(folder, "crates", crate), capture_output=True, text=True, errors="replace", check=False)
    if ran.returncode:
        sys.exit(f"{crate}, on which others stand, isn't proved:\n{ran.stdout[-2000:]}{ran.stderr[-2000:]}")


def tried(folder, crate):
    """Returns each wrong body's name with its verdict and what the prover said first."""
    ran = subprocess.run(["rt", "must-fail", crate], cwd=folder, capture_output=True, text=True, errors="replace", check=False)
    said = [found.groups() for found in map(LINE.match, ran.stdout.split("\n")) if found]
    answers = {name: (VERDICTS[word], more.lstrip(":, ")) for of, name, word, more in said if of == crate}
    for edit in edits_of(os.path.join(folder, "crates", crate, "must-fail")):
        name = os.path.basename(edit)[: -len(".edit")]
        answers.setdefault(name, ("BROKEN", f"nothing was said of it: {(ran.stdout + ran.stderr)[-300:]}"))
    return answers


class Edit:
    """A wrong body put into the crate's files, which stand as they were once it was looked at."""

    def __init__(self, folder, crate, edit):
        self.place, self.texts = os.path.join(folder, "crates", crate), {}
        path, old = None, None
        with open(edit, encoding="utf-8") as f:
            lines = f.read().split("\n")
        for line in lines:
            word, _, text = line.partition(": ")
            if word == "file":
                path = text.strip()
                with open(os.path.join(self.place, path), encoding="utf-8") as f:
                    self.texts.setdefault(path, f.read())
            elif word == "old":
                old = text
            elif word in ("new", "new:") and old:
                self.texts[path] = self.texts[path].replace(old, text)

    def modules(self):
        """The modules that it changes, or None where one is the root or no module."""
        named = [re.fullmatch(r"src/(.*)\.rt", path) for path in self.texts]
        if not all(named) or any(it[1] in ("lib", "main") for it in named):
            return None
        return [it[1].replace("/", "::") for it in named]

    def __enter__(self):
        self.were = {}
        for path, text in self.texts.items():
            with open(os.path.join(self.place, path), encoding="utf-8") as f:
                self.were[path] = f.read()
            with open(os.path.join(self.place, path), "w", encoding="utf-8") as f:
                f.write(text)
        return self

    def __exit__(self, *_):
        for path, text in self.were.items():
            with open(os.path.join(self.place, path), "w", encoding="utf-8") as f:
                f.write(text)


def looked_at(folder, crate, edit):
    """What the prover says of a wrong body where only the functions of the changed files are checked: None where that isn't enough."""
    with Edit(folder, crate, edit) as trial:
        modules = trial.modules()
        if modules is None:
            return None
        words = [word for module in modules for word in ("--only", module)]
        ran = subprocess.run(["rt", "check", "--jobs", "1", *words], cwd=trial.place, capture_output=True, text=True, errors="replace", check=False)
    lines = ran.stdout.rstrip().split("\n")
    # Libraries that are built on the way say so too; the last line is the crate's own.
    ended = re.findall(r"^only=(\d+) proved=(\d+)", ran.stdout, re.M)[-1:]
    told = [it for it in lines if re.match(r"(note: )?\S+:\d+:\d+:", it)]
    if ended and ended[0][0] != ended[0][1] and ran.returncode == 1:
        by_name = r"(\./)?proofs/.*(has no field|is not in scope|has no `|was not admitted)"
        first = next((it for it in told if ": error" in it and not re.match(by_name, it)), None) or next(iter(told), "")
        return "refused", first
    return None if ran.returncode == 0 else ("BROKEN", " ".join(lines[-3:])[-300:])


class Lane:
    """One clone for each lane of work, since one check works in a clone at a time."""

    def __init__(self, room, folder):
        self.room, self.folder, self.local, self.count = room, folder, threading.local(), itertools.count()

    def clone(self, crates, crate):
        if not hasattr(self.local, "folder"):
            self.local.folder = os.path.join(self.room, f"lane{next(self.count)}")
            subprocess.run(["git", "clone", "-q", self.folder, self.local.folder], check=True)
        for it in below(crates, crate):
            take_kept(self.local.folder, it)
        return self.local.folder


def tried_quickly(lane, crates, crate, given):
    """Gives each wrong body's name with its verdict and what the prover said first, as soon as it is known."""
    folder = lane.clone(crates, crate)
    places = [os.path.join(folder, "trials", crate)] + [os.path.join(folder, "crates", crate, "must-fail")] * given.gate
    left = []
    for edit in [it for place in places for it in edits_of(place) if is_chosen(it, given)]:
        name, why = os.path.basename(edit)[: -len(".edit")], unfit(folder, crate, edit)
        said = ("BROKEN", why) if why else looked_at(folder, crate, edit)
        if said:
            yield name, said
        else:
            left.append(edit)
    if left:
        place = os.path.join(folder, "crates", crate, "must-fail")
        kept = {edit: open(edit, encoding="utf-8").read() for edit in left}
        shutil.rmtree(place, ignore_errors=True)
        os.makedirs(place)
        for edit, text in kept.items():
            with open(os.path.join(place, os.path.basename(edit)), "w", encoding="utf-8") as f:
                f.write(text)
        yield from tried(folder, crate).items()
        subprocess.run(["git", "checkout", "-q", "--", "."], cwd=folder, check=True)


def is_chosen(edit, given):
    return not given.tries or os.path.join(*edit.split(os.sep)[-3:]) in given.tries or os.path.join(*edit.split(os.sep)[-4:]) in given.tries


def play_quickly(room, folder, given):
    crates, lane = crates_of(folder), Lane(room, folder)
    chosen = [it for it in crates if not given.crates or it in given.crates]
    chosen = [it for it in chosen if any(is_chosen(edit, given) for edit in edits_of(os.path.join(folder, "trials", it)) + edits_of(os.path.join(folder, "crates", it, "must-fail")) * given.gate)]
    return told(lambda it: tried_quickly(lane, crates, it, given), chosen, given)


def told(call, chosen, given):
    """Prints what is said of each wrong body of these crates, as it comes, and returns the status."""
    counts, printing = dict.fromkeys(VERDICTS.values(), 0), threading.Lock()

    def tell(crate):
        for name, (verdict, said) in call(crate):
            with printing:
                counts[verdict] += 1
                print(f"{verdict:7} {crate}/{name}  {said[:200]}", flush=True)

    with ThreadPoolExecutor(given.jobs) as pool:
        for run in [pool.submit(tell, it) for it in chosen]:
            run.result()
    print(", ".join(f"{count} {verdict}" for verdict, count in counts.items()))
    return 0 if counts["refused"] and sum(counts.values()) == counts["refused"] else 1


def play(folder, given):
    crates = crates_of(folder)
    trials = [it for it in crates if edits_of(os.path.join(folder, "trials", it)) or (given.gate and edits_of(os.path.join(folder, "crates", it, "must-fail")))]
    unknown = [it for it in given.crates if it not in trials]
    if unknown:
        sys.exit(f"no trials for {', '.join(unknown)}")
    chosen = [it for it in trials if not given.crates or it in given.crates]
    needed = {it for crate in chosen for it in below(crates, crate)}
    for crate in [it for it in crates if it in needed]:
        take_kept(folder, crate)
        build(folder, crate)
    for crate in chosen:
        prepare(folder, crate, given.gate)
    return told(lambda it: tried(folder, it).items(), chosen, given)


def main():
    parser = argparse.ArgumentParser(description=__doc__, formatter_class=argparse.RawDescriptionHelpFormatter)
    parser.add_argument("crates", nargs="*", help="the crates whose trials are tried; all where none is named")
    parser.add_argument("--folder", help="a clone to work in; its must-fail folders are changed")
    parser.add_argument("--gate", action="store_true", help="the gate's wrong bodies too")
    parser.add_argument("--quick", action="store_true", help="check the changed files' functions alone")
    parser.add_argument("--try", dest="tries", nargs="+", default=[], help="these wrong bodies alone, with --quick")
    parser.add_argument("--texts", action="store_true", help="look at the texts alone")
    parser.add_argument("--jobs", type=int, default=len(os.sched_getaffinity(0)), help="how many crates at a time")
    given = parser.parse_args()
    if given.texts:
        return look_at_texts(given.folder or TOP, given)
    if given.folder and os.path.samefile(given.folder, TOP):
        sys.exit("this repository's own folder isn't changed: name a clone")
    with tempfile.TemporaryDirectory(prefix="trials-") as room:
        folder = given.folder or os.path.join(room, "clone")
        if not given.folder:
            subprocess.run(["git", "clone", "-q", TOP, folder], check=True)
        if given.quick or given.tries:
            return play_quickly(room, folder, given)
        return play(folder, given)


if __name__ == "__main__":
    sys.exit(main())
