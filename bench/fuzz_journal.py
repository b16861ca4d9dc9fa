#!/usr/bin/env python3
"""Throws mutated journals at a built program, and sees that it answers as its documents say. Outside the gate.

    python3 bench/fuzz_journal.py                     10,000 pairs of files, with ./slee show
    python3 bench/fuzz_journal.py --count 500         so many
    python3 bench/fuzz_journal.py --seed 8            others
    python3 bench/fuzz_journal.py --deploy FILE       with the deployment of a file, in place of that of examples/restart
                                                      (and of `bench` for bench_journal)
    python3 bench/fuzz_journal.py --cmd PROGRAM..     with another program and its words, as
                                                      --cmd crates/bench_journal/out/bench_journal open bench

Each pair of files `journal.a` and `journal.b` lies in a folder of its own beside the deployment `deploy.json`. The
program has to end by itself with a status that is named for such files: 0, or 8 for a damaged journal and 9 for
another deployment, of which the last line tells; `bench_journal` has the status 1 for both. What it tells of headers,
lengths, sides and deployments has to be what the definitions say (`recovered` of commit_journal, evaluated by rundefs where it
is at hand, else as this script retells docs/FORMATS.md; where both are, they have to agree), and after a fault both files are as
they were. Sides are of either format, also of one each. The program goes on with none of the first format: where nothing else is
wrong with such a side, it has a fault of the header.
"""
import argparse
import os
import random
import re
import subprocess
import sys
import tempfile
import time

import deployments
import lines

TOP = os.path.join(os.path.dirname(os.path.abspath(__file__)), "..")
SLEE = "slee"
JOURNAL_BENCH = "bench_journal"
# What may be wrong with the records themselves, of which this script knows nothing.
DEEPER = r"status 8 bad-journal [ab] (0 snapshot|\d+ (record|replay))"
LARGEST = 2**64 - 1
# The names of the two formats.
NAMES = (b"SLEEJ1", b"SLEEJ2")


def number(value, size):
    return value.to_bytes(size, "little")


def text(bytes_):
    return number(len(bytes_), 4) + bytes_


def payload(chance):
    """A payload that a journal may hold: a line, a selection, a delivery or a finish, or any bytes."""
    kind = chance.randrange(6)
    if kind < 3:
        return b"\x01" + text(chance.choice([b"start c1", b"end c1", b"clock 5", b"start c2", b"fire c1 invite", b"fire c1 x", b""]))
    if kind == 3:
        return chance.choice([b"\x02", b"\x04"]) + number(chance.randrange(4), 8)
    if kind == 4:
        return b"\x03" + number(chance.randrange(4), 8) + bytes([chance.randrange(3)]) + number(0, 4)
    return chance.randbytes(chance.randrange(20))


def side(chance, own):
    """A side that is spelled right, or nearly, mostly for the program's own deployment."""
    generation = chance.choice([0, 1, 1, 1, 2, LARGEST])
    deployment = chance.choice([own] * 6 + [b"", own + b"x", b"other"])
    snapshot = b"" if chance.randrange(8) else chance.randbytes(9)
    name = chance.choice(NAMES)
    # the second format has the clock before each payload
    clock = b"" if name == NAMES[0] else number(0, 8)
    records = b"".join(b"\x01" + text(clock + payload(chance)) for _ in range(chance.randrange(5)))
    gate = bytes([chance.choice([0, 0, 0, 7, 255])])
    tail = b"" if chance.randrange(4) else chance.randbytes(chance.randrange(9))
    return b"\x01" + name + number(generation, 8) + text(deployment) + text(snapshot) + records + gate + tail


def mutated(chance, bytes_):
    data = bytearray(bytes_)
    for _ in range(chance.randrange(1, 5)):
        at = chance.randrange(len(data) + 1)
        what = chance.randrange(6)
        if what == 0 and data:
            data[at % len(data)] = chance.randrange(256)
        elif what == 1 and data:
            data[at % len(data)] ^= 1 << chance.randrange(8)
        elif what == 2:
            del data[at:]
        elif what == 3:
            data[at:at] = chance.randbytes(chance.randrange(1, 9))
        elif what == 4:
            del data[at : at + chance.randrange(1, 9)]
        else:
            data[at:at] = data[: chance.randrange(len(data) + 1)]
    return bytes(data)


def text_of(bytes_):
    """A text that bytes begin with, and what follows it, or nothing."""
    end = 4 + int.from_bytes(bytes_[:4], "little")
    return (bytes_[4:end], bytes_[end:]) if 4 <= end <= len(bytes_) and len(bytes_) >= 4 else None


def front_of(bytes_):
    """A blank side, no header, or the generation, the format, the deployment, the snapshot's length and what follows them."""
    if len(bytes_) < 2 or bytes_[0] != 1:
        return "blank"
    deployment = text_of(bytes_[15:]) if bytes_[1:7] in NAMES and len(bytes_) >= 15 else None
    snapshot = text_of(deployment[1]) if deployment else None
    if not snapshot or not snapshot[1]:
        return "header"
    return int.from_bytes(bytes_[7:15], "little"), NAMES.index(bytes_[1:7]) + 1, deployment[0], len(snapshot[0]), snapshot[1]


def newer(a, b):
    """Whether generation a counts, and not b."""
    if a == (b + 1) % (LARGEST + 1):
        return True
    return b != (a + 1) % (LARGEST + 1) and a > b


def found(pair, own):
    """What two sides stand for: a fault as it is printed, or the side that counts, its format and how many records."""
    fronts = {name[-1]: front_of(bytes_) for name, bytes_ in pair.items()}
    for name, front in fronts.items():
        if front == "header":
            return f"bad-journal {name} 0 header"
    sides = [(name, front) for name, front in fronts.items() if front != "blank"]
    if not sides:
        return "a", 2, 0
    if len(sides) == 2 and sides[0][1][0] == sides[1][1][0]:
        return "bad-journal b 0 sides"
    name, (_, form, deployment, snapshot, rest) = sides[0] if len(sides) == 1 or newer(sides[0][1][0], sides[1][1][0]) else sides[1]
    at, records = 23 + len(deployment) + snapshot, 0
    while rest[0] == 1:
        payload = text_of(rest[1:])
        if not payload or not payload[1]:
            return f"bad-journal {name} {at} length"
        at, records, rest = at + 5 + len(payload[0]), records + 1, payload[1]
    if deployment != own:
        return f"other-deployment {len(deployment)} {len(os.path.commonprefix([deployment, own]))}"
    return name, form, records


class Definitions:
    """The same by the definition of the repository, or None where what evaluates it isn't at hand."""

    def __init__(self):
        self.world = deployments.world()
        self.recovered = self.world and self.world.eval("commit_journal.specs.Reading.recovered")

    def found(self, pair, own):
        from antt.values import Rec

        read = self.recovered(tuple(own), Rec({name[-1]: tuple(bytes_) for name, bytes_ in pair.items()}))
        if read.con.name == "Err":
            wrong = read.args[0]
            words = [str(arg.con.name).lower() if hasattr(arg, "con") else str(arg) for arg in wrong.args]
            return ("bad-journal " if wrong.con.name == "Bad" else "other-deployment ") + " ".join(words)
        if not read.args[0].args:
            return "a", 2, 0
        kept = read.args[0].args[0]
        return kept.side.con.name.lower(), ("One", "Two").index(kept.head.format.con.name) + 1, len(kept.payloads)


def is_right(kind, status, last, what):
    """Whether a program of this kind says so of two sides."""
    if kind == JOURNAL_BENCH:
        return (status, last) == ((1, what) if isinstance(what, str) else (0, f"format {what[1]} records {what[2]}"))
    if not isinstance(what, str):
        whole = (0, "status 0 ok") if what[1] == 2 else (8, f"status 8 bad-journal {what[0]} 0 header")
        return (status, last) == whole or (status == 8 and re.fullmatch(DEEPER, last) is not None)
    code = 8 if what.startswith("bad") else 9
    return (status, last) == (code, f"status {code} {what}")


def files_of(chance, own):
    pair = {}
    for name in ("journal.a", "journal.b"):
        good = side(chance, own) if chance.randrange(3) else chance.choice([b"", b"\x00", b"\x01", b"\x00rest"])
        pair[name] = mutated(chance, good) if chance.randrange(4) else good
    return pair


def read(folder, name):
    with open(os.path.join(folder, name), "rb") as f:
        return f.read()


def trial(kind, command, own, pair, what):
    """The last line, or why the program is wrong."""
    with tempfile.TemporaryDirectory() as folder:
        for name, bytes_ in {**pair, "deploy.json": own}.items():
            with open(os.path.join(folder, name), "wb") as f:
                f.write(bytes_)
        done = subprocess.run(command, cwd=folder, capture_output=True, stdin=subprocess.DEVNULL, timeout=60)
        last = (done.stdout.decode("utf-8", "replace").splitlines() or [""])[-1]
        if not is_right(kind, done.returncode, last, what):
            return None, f"status {done.returncode}, last line {last!r}, {done.stderr!r}; the files stand for {what!r}"
        if done.returncode != 0 and any(read(folder, name) != bytes_ for name, bytes_ in pair.items()):
            return None, f"a file was changed, last line {last!r}"
        return re.sub(r"\d+", "N", last), None


def main():
    words = argparse.ArgumentParser(description=__doc__, formatter_class=argparse.RawDescriptionHelpFormatter)
    words.add_argument("--count", type=int, default=10_000)
    words.add_argument("--seed", type=int, default=7)
    words.add_argument("--cmd", nargs="+", default=[os.path.join(TOP, "slee"), "show"])
    words.add_argument("--deploy", type=argparse.FileType("rb"))
    given = words.parse_args()
    program = os.path.abspath(given.cmd[0])
    kind = JOURNAL_BENCH if os.path.basename(program) == JOURNAL_BENCH else SLEE
    if not given.deploy and kind != JOURNAL_BENCH:
        given.deploy = open(lines.CALLS, "rb")
    own = given.deploy.read() if given.deploy else b"bench"
    chance = random.Random(given.seed)
    definitions = Definitions()
    seen = {}
    begun = time.perf_counter()
    for count in range(given.count):
        pair = files_of(chance, own)
        what = found(pair, own)
        if definitions.recovered and what != definitions.found(pair, own):
            sys.exit(f"pair {count}: by the definition {definitions.found(pair, own)!r}, and not {what!r}\n{pair}")
        answer, wrong = trial(kind, [program, *given.cmd[1:]], own, pair, what)
        if wrong:
            sides = ", ".join(f"{name} {bytes_.hex() or '-'}" for name, bytes_ in pair.items())
            sys.exit(f"pair {count}: {wrong}\n{sides}")
        seen[answer] = seen.get(answer, 0) + 1
    for answer, times in sorted(seen.items()):
        print(f"{times:>7} {answer}")
    print(f"{given.count} pairs in {time.perf_counter() - begun:.0f} s: no other answer, and no file changed by a fault")


if __name__ == "__main__":
    main()
