#!/usr/bin/env python3
"""Proves the crates in apart/, for which the gate has no time: tests of single parts, programs whose output is compared, and programs that measure.

    bench/apart.py                     their names
    bench/apart.py --prove [NAME ..]   proves these, or all, with their tests, runs them and compares what they print, as the gate does with its crates
    bench/apart.py --put FOLDER        makes a copy of the repository in FOLDER, where these are among the crates: scripts of bench/ that
                                       ask for such a program are run there

A crate stands in apart/NAME as it would in crates/NAME, but that each file of code or of statements has .txt behind its name: rt takes none
that the gate doesn't prove. apart/lines holds what crates.txt would say of them.
"""
import argparse
import os
import shutil
import subprocess
import sys
import tempfile

TOP = os.path.dirname(os.path.dirname(os.path.abspath(__file__)))
APART = os.path.join(TOP, "apart")
KEPT_AS_TEXT = (".rt.txt", ".antt.txt")


def names():
    return sorted(it for it in os.listdir(APART) if os.path.isdir(os.path.join(APART, it)))


def lines():
    with open(os.path.join(APART, "lines"), encoding="utf-8") as file:
        return file.read()


def copy_repository(folder):
    """Copies the files of the repository as they stand, but those that git ignores."""
    listed = ["git", "ls-files", "-z", "--cached", "--others", "--exclude-standard"]
    found = subprocess.run(listed, cwd=TOP, capture_output=True, text=True, check=True).stdout
    for path in filter(None, found.split("\0")):
        if os.path.isfile(os.path.join(TOP, path)):
            os.makedirs(os.path.dirname(os.path.join(folder, path)), exist_ok=True)
            shutil.copy2(os.path.join(TOP, path), os.path.join(folder, path))


def put(folder):
    """Makes a copy of the repository, which must not be there yet, with the crates of apart/ among its crates."""
    os.makedirs(folder)
    copy_repository(folder)
    for name in names():
        to = os.path.join(folder, "crates", name)
        shutil.move(os.path.join(folder, "apart", name), to)
        for at, _, files in os.walk(to):
            for file in files:
                if file.endswith(KEPT_AS_TEXT):
                    os.rename(os.path.join(at, file), os.path.join(at, file.removesuffix(".txt")))
    with open(os.path.join(folder, "crates.txt"), "a", encoding="utf-8") as file:
        file.write("\n" + lines())


def prove(chosen):
    with tempfile.TemporaryDirectory(prefix="slee-apart-") as room:
        folder = os.path.join(room, "slee")
        put(folder)
        return subprocess.run(["rt", "ci", *chosen], cwd=folder, check=False).returncode


def main():
    parser = argparse.ArgumentParser(description=__doc__.split("\n", maxsplit=1)[0])
    parser.add_argument("--prove", nargs="*", metavar="NAME", help="prove these, or all")
    parser.add_argument("--put", metavar="FOLDER", help="make a copy of the repository with these crates")
    given = parser.parse_args()
    foreign = sorted(set(given.prove or []) - set(names()))
    if foreign:
        sys.exit(f"apart/ has no {', '.join(foreign)}")
    if given.put:
        put(os.path.abspath(given.put))
    elif given.prove is not None:
        sys.exit(prove(given.prove or names()))
    else:
        print("\n".join(names()))


if __name__ == "__main__":
    main()
