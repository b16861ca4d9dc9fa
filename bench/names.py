#!/usr/bin/env python3
"""Says which names of documents and scripts stand for nothing any more. It ends with status 0 where there is none.

    bench/names.py

In README.md, docs, bench, examples, .ci/run and the program's words: each path (crates/.., trials/.., bench/.., docs/.., examples/..,
CRATE/specs/FILE, CRATE.specs.FILE, CRATE/src/FILE.rt) is there, one of a crate in apart/ as in a copy that has it among its crates; each
name in backticks that has an underscore is a crate, a wrong body, a file or a word of the sources; and each crate with a row in
docs/ARCHITECTURE.md, but in the gate's table, has one row. Every crate has its row there and its line in crates.txt, or in apart/lines,
under the same headings, and each folder of trials/ is a crate's. (What wrong bodies cite is looked at by `bench/trials.py --texts`.)
"""
import glob
import os
import re
import sys

import apart

TOP = os.path.dirname(os.path.dirname(os.path.abspath(__file__)))
MARKED = re.compile(r"<!-- made by (\S+): begin -->.*?<!-- made by \1: end -->", re.S)


def read(path):
    with open(os.path.join(TOP, path), encoding="utf-8") as file:
        return file.read()


def files(*patterns):
    found = []
    for pattern in patterns:
        found += [os.path.relpath(path, TOP) for path in glob.glob(os.path.join(TOP, pattern), recursive=True)]
    return sorted(path for path in found if os.path.isfile(os.path.join(TOP, path)))


def of_the_gate():
    return set(os.listdir(os.path.join(TOP, "crates")))


def crates():
    return of_the_gate() | set(apart.names())


def is_there(path):
    """Whether a path names something, or would in a copy with the crates of apart/."""
    kept = re.sub(r"^crates/", "apart/", path)
    return any(os.path.exists(os.path.join(TOP, it)) for it in (path, kept, kept + ".txt"))


def outside():
    """The crates of the toolchain that crates.txt names, and std."""
    below = {crate for line in read("crates.txt").split("\n") for crate in line.split("#")[0].partition(":")[2].split()}
    return below - crates() | {"std"}


def words_of_sources():
    words = set()
    for path in files(*(f"{it}/*/{part}" for it in ("crates", "apart") for part in ("src/**/*.rt*", "specs/**/*.antt*", "proofs/**/*.antt*")), "bench/*.py"):
        words |= set(re.findall(r"[A-Za-z_]\w*", read(path)))
    return words


def wrong_bodies():
    return files("crates/*/must-fail/*.edit", "trials/*/*.edit")


def paths_in(text):
    return re.findall(r"(?<![\w/.<])((?:crates|trials|bench|docs|examples)/[\w./-]*\w)(?![*/\w])", text)


def wrong_paths(name, text):
    for path in paths_in(text):
        whole = path.rstrip(".")
        if re.search(r"\b[A-Z]{3,}\b", re.sub(r"[A-Z]+\.md|README", "", whole)) or "out/" in whole:
            continue
        if not is_there(whole):
            yield f"{name}: no {path}"
    for crate, kind, rest in re.findall(r"(?<![\w/])([a-z]\w*)/(specs|src)(?:/([\w/]+(?:\.rt)?))?", text):
        folder = f"crates/{crate}/{kind}"
        if crate in ("crates", "CRATE"):
            continue
        suffix = "" if kind == "src" else ".antt"
        if not is_there(folder) or (rest and not is_there(f"{folder}/{rest}{suffix}")):
            yield f"{name}: no {crate}/{kind}/{rest}"
    for crate, file in re.findall(r"\b([a-z]\w*)\.specs\.([A-Z]\w*)", text):
        if crate not in outside() and not is_there(f"crates/{crate}/specs/{file}.antt"):
            yield f"{name}: no {crate}.specs.{file}"
    for program in re.findall(r"[\"']((?:golden|bench)_\w+)[\"']", text):
        if program not in crates():
            yield f"{name}: no crate {program}"


def wrong_words(name, text, known):
    for word in sorted(set(re.findall(r"`([a-z]\w*_\w*)`", text))):
        if word not in known:
            yield f"{name}: nothing is called {word}"


def wrong_rows():
    page = MARKED.sub("", read("docs/ARCHITECTURE.md"))
    page = page[page.index("\n## Crates"): page.index("\n## A crate's folder")]
    rows = []
    for line in page.split("\n"):
        if line.startswith("| `"):
            rows += re.findall(r"`(\w+)`", line.split("|")[1])
    for crate in sorted(set(rows)):
        if rows.count(crate) > 1:
            yield f"docs/ARCHITECTURE.md: {crate} has {rows.count(crate)} rows"
    for crate in sorted(crates() ^ set(rows)):
        yield f"docs/ARCHITECTURE.md: {crate} " + ("has no row" if crate in crates() else "is no crate")
    for page_of, there in (("crates.txt", of_the_gate()), ("apart/lines", set(apart.names()))):
        lines = [line.split(":")[0] for line in read(page_of).split("\n") if ":" in line.split("#")[0]]
        for crate in sorted(there ^ set(lines)):
            yield f"{page_of}: {crate} " + ("has no line" if crate in there else "is no crate")
    listed = read("crates.txt").split("\n")[1:] + read("apart/lines").split("\n")
    headings = [line[2:].split(":")[0].split(",")[0] for line in listed if line.startswith("# ")]
    for heading in headings:
        if not re.search(rf"^### {re.escape(heading)}", page, re.M | re.I):
            yield f"docs/ARCHITECTURE.md: no heading {heading}"
    for crate in sorted(set(os.listdir(os.path.join(TOP, "trials"))) - crates()):
        yield f"trials/{crate}: no such crate"


def main():
    known = words_of_sources() | crates()
    known |= {os.path.basename(path)[:-5] for path in wrong_bodies()}
    wrong = []
    for name in files("README.md", "docs/*.md", "bench/*.md", "bench/*.py", "examples/**/run", "examples/check", ".ci/run", "crates/slee/src/help.rt"):
        text = MARKED.sub("", read(name))
        wrong += wrong_paths(name, text)
        if name.endswith(".md"):
            wrong += wrong_words(name, text, known)
    wrong += wrong_rows()
    for line in wrong:
        print(line)
    sys.exit(1 if wrong else 0)


if __name__ == "__main__":
    main()
