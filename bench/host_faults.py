#!/usr/bin/env python3
"""Runs the built program where the system refuses it: a folder that can't be written, a full disk, a full standard
output, a standard input that can't be read, standard streams that are closed, a journal that another program has open or that
is too long, calls that signals interrupt, and each call in turn that fails (both by `strace`, where it is there). Outside the gate.

    python3 bench/host_faults.py                  with ./slee
    python3 bench/host_faults.py --cmd PROGRAM    with another program

The folders have the deployment of examples/restart. Each line says what was tried, the status, and `ok` or what is wrong.
After a fault of the disk, `show` over a copy of the files has to give what the acknowledged entries made, which are those of
whole batches of 131,072 bytes, or what those of the batch that was being written made too; without one, what the acknowledged
entries made. The read-only folder and the full disk are small file systems of the test's own making; where `mount` isn't
allowed they are skipped. It ends with 1 where a line is wrong.
"""
import argparse
import contextlib
import fcntl
import os
import random
import re
import shutil
import signal
import subprocess
import sys
import tempfile
import time

from fail_alloc import COMPACT, CREDIT, PLAY, RESUME, SHOW, Row, fault_of_other, fault_of_played
from lines import CALLS, PREPAID, deploy, fresh

CALL = b"start c1\nfire c1 invite addr=tel:5551\nend c1\n"
MANY = b"".join(b"start c%d\n" % i for i in range(1, 20_001))
# A step whose batch then has so many bytes is a flush.
BATCH = 131_072
# The most bytes of a side.
SIDE = 268_435_456
# Calls of the system that a signal may interrupt.
CALLED = ("openat", "read", "write", "pread64", "pwrite64", "fsync", "ftruncate", "flock", "statx")
# A record of a `start` line: its gate, its length, the clock, the tag and the length of the line, which follows them.
RECORD = 1 + 4 + 8 + 1 + 4
WRONG = []


def run(command, words, lines, folder, **streams):
    streams.setdefault("stdout", subprocess.PIPE)
    if "stdin" not in streams:
        streams["input"] = lines
    done = subprocess.run([command, *words], cwd=folder, timeout=120, **streams)
    return done.returncode, (done.stdout or b"").decode()


def say(what, status, fault):
    print(f"{what}: status {status}: {fault or 'ok'}")
    if fault:
        WRONG.append(what)


def entries_of(text):
    return len(re.findall(r"^[0-9]+ ", text, re.M))


def flushed(lines):
    """How many entries each flush of a run of `start` lines acknowledges in all, the closing one too."""
    counts, pending = [0], 0
    for number, line in enumerate(lines.splitlines(), 1):
        pending += RECORD + len(line)
        if pending >= BATCH:
            counts.append(number)
            pending = 0
    return counts + [len(lines.splitlines())]


def shown_in_copy(command, folder):
    """What `show` gives over a copy of the journal, in a folder that can be written."""
    with fresh() as copy:
        for name in ("deploy.json", "journal.a", "journal.b"):
            if os.path.exists(os.path.join(folder, name)):
                shutil.copy(os.path.join(folder, name), copy)
        return run(command, ["show"], b"", copy)


def shown_fault(shown, *counts):
    """What is wrong about the state behind one of these numbers of `start` lines."""
    status, text = shown
    if status != 0:
        return f"show ends with {status}: {text.strip()}"
    inputs = int(re.search(r"^inputs ([0-9]+)$", text, re.M)[1])
    alive = re.findall(r"^activity a([0-9]+) active external c([0-9]+)$", text, re.M)
    if inputs not in counts:
        return f"show has {inputs} inputs, and not {' or '.join(map(str, counts))}"
    if alive != [(str(i), str(i)) for i in range(1, inputs + 1)]:
        return f"show has {inputs} inputs, and its activities are others"
    return None


@contextlib.contextmanager
def small_disk(options):
    """A file system in memory of its own, or None where that isn't allowed."""
    with tempfile.TemporaryDirectory() as folder:
        made = subprocess.run(["mount", "-t", "tmpfs", "-o", options, "tmpfs", folder], capture_output=True, check=False)
        if made.returncode != 0:
            yield None
            return
        try:
            yield folder
        finally:
            subprocess.run(["umount", folder], check=True)


def read_only_folder(command):
    what = "a folder that can't be written"
    with small_disk("size=1m") as folder:
        if folder is None:
            print(f"{what}: skipped, mount isn't allowed")
            return
        deploy(folder, CALLS)
        subprocess.run(["mount", "-o", "remount,ro", folder], check=True)
        status, text = run(command, ["play", "1", "100"], CALL, folder)
        wrong = status != 7 or text != "status 7 disk-fault\n" or os.listdir(folder) != ["deploy.json"]
        say(what + ", empty", status, f"printed {text!r}, left {os.listdir(folder)}" if wrong else None)
        subprocess.run(["mount", "-o", "remount,rw", folder], check=True)
        status, _ = run(command, ["play", "1", "100"], b"start c1\nstart c2\n", folder)
        say(what + ", while it can", status, None if status == 0 else "played not")
        subprocess.run(["mount", "-o", "remount,ro", folder], check=True)
        status, text = run(command, ["play", "1", "100"], b"start c3\n", folder)
        say(what + ", with a journal", status, f"printed {text!r}" if (status, text) != (7, "status 7 disk-fault\n") else None)
        say(what + ", shown", 0, shown_fault(shown_in_copy(command, folder), 2))


def full_disk(command):
    what = "a full disk"
    counts = flushed(MANY)
    for size in (4, 8, 64, 192, 320, 448):
        with small_disk(f"size={size}k") as folder:
            if folder is None:
                print(f"{what}: skipped, mount isn't allowed")
                return
            deploy(folder, CALLS)
            status, text = run(command, ["play", "1", "1000000"], MANY, folder)
            entries = entries_of(text)
            wrong = status != 7 or not text.endswith("status 7 disk-fault\n")
            at = [i for i, count in enumerate(counts) if count == entries]
            fault = text[-200:] if wrong else None if at else "the acknowledged entries are no whole batches"
            say(f"{what} of {size} KiB, {entries} entries", status, fault)
            say(f"{what} of {size} KiB, shown", 0, shown_fault(shown_in_copy(command, folder), *counts[at[0] : at[0] + 2] if at else ()))


def full_output(command):
    with fresh() as folder, open("/dev/full", "wb") as out:
        status, _ = run(command, ["play", "1", "100"], b"start c1\nstart c2\n", folder, stdout=out)
        say("a full standard output", status, None if status == 6 else "should be 6")
        say("a full standard output, shown", 0, shown_fault(shown_in_copy(command, folder), 2))


def unreadable_input(command):
    with fresh() as folder:
        given = os.open(folder, os.O_RDONLY)
        status, text = run(command, ["play", "1", "100"], None, folder, stdin=given)
        os.close(given)
        wrong = status != 3 or text != "status 3 read-fault\n" or os.listdir(folder) != ["deploy.json"]
        say("a standard input that can't be read", status, f"printed {text!r}" if wrong else None)


def unreadable_deployment(command):
    for what in ("no deployment", "a deployment that is a folder"):
        with tempfile.TemporaryDirectory() as folder:
            if what != "no deployment":
                os.mkdir(os.path.join(folder, "deploy.json"))
            left = os.listdir(folder)
            for words in (["play", "1", "100"], ["show"]):
                status, text = run(command, words, CALL, folder)
                wrong = status != 3 or text != "status 3 read-fault\n" or os.listdir(folder) != left
                say(f"{what}, {words[0]}", status, f"printed {text!r}, left {os.listdir(folder)}" if wrong else None)


def closed_streams(command):
    """A file of the journal doesn't take the place of a closed stream."""
    for places, expected in (((1,), 6), ((0,), 3), ((0, 1), 6), ((0, 1, 2), 6), ((2,), 0)):
        with fresh() as folder:
            run(command, ["play", "1", "100"], b"start c1\n", folder)
            status, _ = run(command, ["play", "1", "100"], b"start c2\n", folder, preexec_fn=lambda: list(map(os.close, places)))
            entries = 1 if 0 in places else 2
            what = "closed " + ", ".join(("standard input", "standard output", "standard error")[i] for i in places)
            say(what, status, None if status == expected else f"should be {expected}")
            say(what + ", shown", 0, shown_fault(shown_in_copy(command, folder), entries))


def files_of(folder):
    """What stands in the journal's files, those alone that are there."""
    found = {}
    for name in ("journal.a", "journal.b"):
        if os.path.exists(os.path.join(folder, name)):
            with open(os.path.join(folder, name), "rb") as f:
                found[name] = f.read()
    return found


def refused_fault(command, folder, words, lines):
    """What is wrong about a run that finds the journal locked."""
    before = files_of(folder)
    status, text = run(command, words, lines, folder)
    if (status, text) != (7, "status 7 disk-fault\n"):
        return status, f"printed {text!r}"
    return status, None if files_of(folder) == before else "the files changed"


def locked_journal(command):
    """Another process has the lock: what opens the journal is refused, what doesn't isn't, and afterwards all goes on."""
    what = "a locked journal"
    for begun in (False, True):
        with fresh() as folder:
            if begun:
                run(command, ["play", "1", "100"], b"start c1\n", folder)
            with open(os.path.join(folder, "journal.a"), "ab") as held:
                fcntl.flock(held, fcntl.LOCK_EX)
                for words in (["play", "1", "100"], ["resume", "1", "100"], ["show"], ["trial", "7", "5"]):
                    say(f"{what}, {words[0]}", *refused_fault(command, folder, words, b"start c2\n"))
                for words in (["check"], ["gen", "7", "5"]):
                    status, _ = run(command, words, b"", folder)
                    say(f"{what}, {words[0]}", status, None if status == 0 else "should be 0")
            status, _ = run(command, ["play", "1", "100"], b"start c%d\n" % (1 + begun), folder)
            say(f"{what}, let go of", status, shown_fault(shown_in_copy(command, folder), 1 + begun))


def two_programs(command):
    """A second program while the first plays, and a third one at once behind its end by SIGKILL."""
    what = "a second program"
    with fresh() as folder:
        with open(os.path.join(folder, "signals"), "wb") as f:
            f.write(MANY)
        with open(os.path.join(folder, "signals"), "rb") as given:
            first = subprocess.Popen([command, "play", "1", "1000000"], stdin=given, stdout=subprocess.DEVNULL, cwd=folder)
        side = os.path.join(folder, "journal.a")
        while first.poll() is None and not (os.path.exists(side) and os.path.getsize(side) > BATCH):
            time.sleep(0.001)
        first.send_signal(signal.SIGSTOP)
        if first.poll() is not None:
            say(what, first.returncode, "the first had ended already")
            return
        for words in (["play", "1", "100"], ["show"]):
            say(f"{what}, {words[0]}", *refused_fault(command, folder, words, b"start d1\n"))
        first.kill()
        first.wait()
        status, text = run(command, ["show"], b"", folder)
        say(f"{what}, killed, show", status, shown_fault((status, text), *flushed(MANY)))
        status, _ = run(command, ["resume", "1", "1000000"], MANY, folder)
        say(f"{what}, killed, resume", status, shown_fault(shown_in_copy(command, folder), len(MANY.splitlines())))


def written_meanwhile(command):
    """A program that asks for no lock writes the files while they are read: each run ends, with a status of the journal."""
    what, seen = "a journal that is written while it is read", {}
    with fresh() as folder:
        run(command, ["play", "1", "1000000"], MANY, folder)
        whole = files_of(folder)["journal.a"]
        writer = os.fork()
        if writer == 0:
            chance = random.Random(7)
            while True:
                with open(os.path.join(folder, "journal.a"), "r+b") as f:
                    f.truncate(chance.randrange(len(whole)))
                    f.seek(chance.randrange(len(whole)))
                    f.write(whole[: chance.randrange(1, BATCH)])
                    f.seek(0)
                    f.write(whole)
        for number in range(100):
            words = ["show"] if number % 2 else ["play", "1", "10"]
            status, text = run(command, words, b"start d1\n", folder)
            seen[status] = seen.get(status, 0) + 1
            if status not in (0, 7, 8, 9, 11) or not text.splitlines()[-1].startswith(f"status {status} "):
                say(f"{what}, {words[0]}", status, f"printed {text[-100:]!r}")
        os.kill(writer, signal.SIGKILL)
        os.waitpid(writer, 0)
    say(f"{what}, 100 runs, statuses {seen}", 0, None)


def long_file(command):
    """A file that is longer than a side may be isn't read."""
    for name in ("journal.a", "journal.b"):
        with fresh() as folder:
            run(command, ["play", "1", "100"], b"start c1\n", folder)
            path = os.path.join(folder, name)
            os.truncate(path, 3_000_000_000)
            child = subprocess.Popen([command, "show"], cwd=folder, stdout=subprocess.PIPE)
            text = child.stdout.read()
            _, ended, usage = os.wait4(child.pid, 0)
            status = os.waitstatus_to_exitcode(ended)
            wrong = status != 12 or text != b"status 12 no-memory\n" or os.path.getsize(path) != 3_000_000_000
            what = f"3 GB of {name}, {usage.ru_maxrss // 1024} MiB of memory"
            say(what, status, f"printed {text!r}" if wrong else None if usage.ru_maxrss * 1024 < SIDE else "the file was read")
            os.truncate(path, SIDE)
            status, text = run(command, ["show"], b"", folder)
            wrong = status != 0 or "inputs 1\n" not in text
            say(f"the most bytes of {name}", status, f"printed {text!r}" if wrong else None)


def traced(command, words, lines, folder, call, *more):
    """Runs the program by `strace`; the status, the text and the lines that it traced of one kind of call."""
    log = os.path.join(folder, "calls")
    given = ["strace", "-qq", "-o", log, "-e", f"trace={call}", *more, command, *words]
    done = subprocess.run(given, input=lines, cwd=folder, timeout=120, stdout=subprocess.PIPE, check=False)
    with open(log, encoding="utf-8") as f:
        return done.returncode, done.stdout.decode(), f.read().splitlines()


def interrupted_calls(command):
    """Each other call of one kind is interrupted by a signal, and the run ends as it does without. The calls that a process
    makes before its program begins are left alone."""
    if shutil.which("strace") is None:
        print("interrupted calls: skipped, strace isn't here")
        return
    for call in CALLED:
        with fresh() as folder:
            before = len(traced(command, ["--version"], b"", folder, call)[2])
            text, times, statuses = "", 0, []
            for lines in (b"start c1\nfire c1 invite addr=tel:5551\n", b"end c1\n"):
                often = f"inject={call}:error=EINTR:when={before + 1}+2"
                status, printed, calls = traced(command, ["play", "1", "100"], lines, folder, call, "-e", often)
                text, times = text + printed, times + sum("(INJECTED)" in line for line in calls)
                statuses.append(status)
                with open(os.path.join(folder, "journal.a"), "ab") as f:
                    f.write(b"left behind by a stop, and cut off by the next run")
            status, shown = run(command, ["show"], b"", folder)
            wrong = statuses != [0, 0] or entries_of(text) != 8 or (status, "inputs 3\n" in shown) != (0, True)
            say(f"interrupted {call}, {times} times", statuses[-1], f"statuses {statuses}, printed {text!r}" if wrong else None)


def fault_of_failing(row, status, text, whole, states, shown):
    """What is wrong about a run in which one call failed, and about what it left."""
    if status == 3:
        return None if (text, shown) == ("status 3 read-fault\n", states[0]) else "another text, or something was kept"
    if status not in (0, 6, 7):
        return "another status"
    entries = entries_of(text) if row.is_played() else 0
    right = states[entries:] if status in (6, 7) else states[entries : entries + 1]
    fault = fault_of_played(status, text, whole) if row.is_played() else fault_of_other(status, text, whole, 0)
    return fault or (None if shown in right else f"show ends with {shown[0]}, or gives another state")


def failing_once(command, row, lines, call, number):
    """The status, the text and what `show` gives of a run whose call of this number fails, and what it gives behind `resume` with
    these lines; None where it makes no such call."""
    with row.folder() as folder:
        row.begin(command, folder)
        if row.before:
            with open(os.path.join(folder, "journal.a"), "ab") as f:
                f.write(b"left behind by a stop, and cut off by the next run")
        status, text, calls = traced(command, row.words, row.lines, folder, call, "-e", f"inject={call}:error=EIO:when={number}")
        shown = shown_in_copy(command, folder)
        run(command, RESUME, lines, folder)
        ended = run(command, SHOW, b"", folder)
    return (status, text, shown, ended) if any("(INJECTED)" in line for line in calls) else None


def failing_calls(command):
    """Each call of each kind fails in turn with EIO: while a journal is begun, while it is found with something behind its end, and while it
    is compacted. What is left is shown, and a later run comes to the end that it comes to without a fault."""
    if shutil.which("strace") is None:
        print("failing calls: skipped, strace isn't here")
        return
    rows = (
        (Row("a call", CALLS, [], RESUME, CALL), CALL),
        (Row("a call that goes on", CALLS, [(["play", "1", "2"], CALL)], RESUME, CALL), CALL),
        (Row("a call with credit", PREPAID, [], RESUME, CREDIT), CREDIT),
        (Row("compacting it", PREPAID, [(PLAY, CREDIT)], COMPACT), CREDIT),
    )
    for row, lines in rows:
        with row.folder() as folder:
            row.begin(command, folder)
            before = run(command, SHOW, b"", folder)
            whole = run(command, row.words, row.lines, folder)[1]
            end = run(command, SHOW, b"", folder)
        states = row.states(command, whole) if row.is_played() else [before]
        for call in CALLED:
            fail_each(command, row, lines, call, whole, states, end)


def fail_each(command, row, lines, call, whole, states, end):
    """The same for one kind of call."""
    with row.folder() as folder:
        number = len(traced(command, ["--version"], b"", folder, call)[2]) + 1
    statuses, wrong = [], []
    while answer := failing_once(command, row, lines, call, number):
        status, text, shown, ended = answer
        fault = fault_of_failing(row, status, text, whole, states, shown)
        fault = fault or (None if ended == end else f"a later run comes to another end: {ended}")
        wrong += [f"{number}: {fault}, printed {text[-100:]!r}"] if fault else []
        statuses.append(status)
        number += 1
    say(f"failing {call} of {row.name}, {len(statuses)} in turn, statuses {statuses}", 0, "; ".join(wrong))


def main():
    here = os.path.dirname(os.path.abspath(__file__))
    parser = argparse.ArgumentParser()
    parser.add_argument("--cmd", default=os.path.join(here, "..", "slee"))
    command = os.path.abspath(parser.parse_args().cmd)
    unreadable_input(command)
    unreadable_deployment(command)
    closed_streams(command)
    full_output(command)
    locked_journal(command)
    two_programs(command)
    written_meanwhile(command)
    long_file(command)
    interrupted_calls(command)
    failing_calls(command)
    read_only_folder(command)
    full_disk(command)
    if WRONG:
        sys.exit(f"wrong: {len(WRONG)}")


if __name__ == "__main__":
    main()
