#!/usr/bin/env python3
"""Refuses each allocation of the built program in turn, and looks at what it answers and keeps. Outside the gate.

    python3 bench/fail_alloc.py                  with ./slee
    python3 bench/fail_alloc.py --cmd PROGRAM    with another program
    python3 bench/fail_alloc.py --onward         from the N-th allocation on all are refused, and not the N-th alone
    python3 bench/fail_alloc.py --long           instead, a run of 18,000 lines: some of its allocations, and limits on its address space
    python3 bench/fail_alloc.py --long --most 40 so many of each

Each run is over real files in a fresh folder. Played are a call of the service of examples/restart and two of examples/prepaid, one without an
account and one with; resumed, shown and compacted is what they leave; and five deployments are checked. `show` then reads the files with ample memory.

A run that plays has to end with 0 and the whole text, or with 12, 6 or 7 and a front of it, or with 12 and no text where no memory was found to begin
with. What `show` gives has to be the state behind the entries that were acknowledged: those of the text at 0 and 12, so that at 12 the trace of all
that is kept is out. At 7, where the batch that was being written may be there too, and at 6, where the text may be shorter than what is kept, it
has to be a state behind at least those of the text. What shows or compacts ends with the whole text, with 6 and a front of it, or with the
line of 12 or 7, and `show` gives the same as before. A check ends with its whole text, with 12, or with 6 and a front of it.

With `--long` the entries that are printed at 12 have to be all that the journal has. A C compiler is wanted for the small library that refuses.
"""
import argparse
import collections
import os
import re
import resource
import subprocess
import sys
import tempfile

from kill import records_of
from lines import CALLS, PREPAID, calls_of, fresh

REFUSES = r"""
#define _GNU_SOURCE
#include <dlfcn.h>
#include <errno.h>
#include <stdio.h>
#include <stdlib.h>
#include <sys/syscall.h>
#include <unistd.h>
static long at, first, onward, held;
__attribute__((constructor)) static void begin(void) {
    const char *n = getenv("REFUSED_ALLOCATION");
    first = n ? atol(n) : 0;
    onward = getenv("REFUSED_ONWARD") != NULL;
    at = 0;
    held = 0;
}
static void write_to(const char *name, long count) {
    FILE *f = name ? fopen(name, "w") : NULL;
    if (f) {
        fprintf(f, "%ld", count);
        fclose(f);
    }
}
__attribute__((destructor)) static void end(void) {
    long count = at, left = held;
    first = 0;
    write_to(getenv("COUNTED_ALLOCATIONS"), count);
    write_to(getenv("HELD_ALLOCATIONS"), left);
}
/* A build without its proofs ends so. */
void _exit(int status) {
    end();
    syscall(SYS_exit_group, status);
    __builtin_unreachable();
}
static int refused(void) {
    at += 1;
    if (first > 0 && (at == first || (onward && at > first))) {
        errno = ENOMEM;
        return 1;
    }
    return 0;
}
static void *kept(void *made) {
    if (made) held += 1;
    return made;
}
void *malloc(size_t size) {
    static void *(*real)(size_t);
    if (!real) real = (void *(*)(size_t))dlsym(RTLD_NEXT, "malloc");
    return refused() ? NULL : kept(real(size));
}
void *realloc(void *old, size_t size) {
    static void *(*real)(void *, size_t);
    if (!real) real = (void *(*)(void *, size_t))dlsym(RTLD_NEXT, "realloc");
    if (refused()) return NULL;
    return old ? real(old, size) : kept(real(old, size));
}
void *aligned_alloc(size_t align, size_t size) {
    static void *(*real)(size_t, size_t);
    if (!real) real = (void *(*)(size_t, size_t))dlsym(RTLD_NEXT, "aligned_alloc");
    return refused() ? NULL : kept(real(align, size));
}
int posix_memalign(void **to, size_t align, size_t size) {
    static int (*real)(void **, size_t, size_t);
    if (!real) real = (int (*)(void **, size_t, size_t))dlsym(RTLD_NEXT, "posix_memalign");
    if (refused()) return ENOMEM;
    int status = real(to, align, size);
    if (status == 0) kept(*to);
    return status;
}
void free(void *old) {
    static void (*real)(void *);
    if (!real) real = (void (*)(void *))dlsym(RTLD_NEXT, "free");
    if (old) held -= 1;
    real(old);
}
"""
CALL = b"start c1\nfire c1 invite addr=tel:5551\nend c1\n"
CREDIT = b"profile-add accounts tel:5551 seconds=30\nstart c1\nfire c1 invite addr=tel:5551\nclock 30000\nend c1\n"
PLAY, RESUME, SHOW, COMPACT, CHECK = ["play", "1", "100"], ["resume", "1", "100"], ["show"], ["compact"], ["check"]
# How the runs of so many calls are told from others: they make 18,000 lines.
MANY_CALLS = 6_000


def library(folder):
    made = os.path.join(folder, "refuses.so")
    with open(os.path.join(folder, "refuses.c"), "w", encoding="utf-8") as f:
        f.write(REFUSES)
    compiler = os.environ.get("CC", "cc")
    subprocess.run([compiler, "-O1", "-shared", "-fPIC", "-o", made, f.name, "-ldl"], check=True)
    return made



def run(command, words, lines, folder, refuses=None, at=0, onward=False, room=None):
    """The status and the text of a run, with the allocation of this number refused, or with so many bytes of address space."""
    env = dict(os.environ)
    if refuses:
        env.update(LD_PRELOAD=refuses, REFUSED_ALLOCATION=str(at), **({"REFUSED_ONWARD": "1"} if onward else {}))
    limit = (lambda: resource.setrlimit(resource.RLIMIT_AS, (room, room))) if room else None
    done = subprocess.run([command, *words], input=lines, cwd=folder, env=env, capture_output=True, timeout=60, check=False, preexec_fn=limit)
    return done.returncode, done.stdout.decode("utf-8", "replace")


def allocations_of(command, words, lines, folder, refuses):
    """How many allocations a run makes; a program with an allocator of its own can't be tried."""
    with tempfile.NamedTemporaryFile() as counted:
        env = dict(os.environ, LD_PRELOAD=refuses, COUNTED_ALLOCATIONS=counted.name)
        subprocess.run([command, *words], input=lines, cwd=folder, env=env, capture_output=True, timeout=60, check=False)
        count = int(counted.read())
    return count or sys.exit("no allocation was seen: the program doesn't take its memory from the system's library")


def entries_of(text):
    return len(re.findall(r"^[0-9]+ ", text, re.M))


class Row:
    """A run over what the runs before it left; `faults` gives what is wrong about its answer."""

    def __init__(self, name, deployment, before, words, lines=b""):
        self.name, self.deployment, self.before, self.words, self.lines = name, deployment, before, words, lines

    def folder(self):
        return fresh(self.deployment)

    def begin(self, command, folder):
        for words, lines in self.before:
            run(command, words, lines, folder)

    def states(self, command, whole):
        """What `show` gives behind each number of the run's entries, by runs with ample memory that stop there."""
        found = []
        for steps in range(entries_of(whole) + 1):
            with self.folder() as folder:
                self.begin(command, folder)
                if steps:
                    run(command, [*self.words[:2], str(steps)], self.lines, folder)
                found.append(run(command, SHOW, b"", folder))
        return found

    def is_played(self):
        return self.words[0] in ("play", "resume")

    def is_kept(self):
        return self.words != CHECK


def fault_of_played(status, text, whole):
    """What is wrong about the answer of a run that plays with a refused allocation."""
    trace = re.sub(r"(?:^usage .*\n)*^status 0 ok\n\Z", "", whole, flags=re.M)
    if status == 0:
        return None if text == whole else "status 0 and another text"
    if status == 6 or (status == 12 and text == ""):
        return None if whole.startswith(text) else "the text is no front"
    last = {7: "status 7 disk-fault\n", 12: "status 12 no-memory\n"}.get(status)
    if last is None:
        return "another status"
    if not text.endswith(last):
        return "another last line"
    return None if is_front(text.removesuffix(last), trace, whole) else "the text is no front"


def is_front(text, trace, whole):
    """Whether the text has whole entries of the trace, and behind all of them the totals or not."""
    totals = whole.removeprefix(trace).removesuffix("status 0 ok\n")
    entries = re.findall(r"^[0-9]+ .*\n(?:  .*\n)*", trace, re.M)
    counted = re.sub(r"^usage .*\n", "", text, flags=re.M)
    return counted == "".join(entries[: entries_of(text)]) and (text == counted or text == counted + totals or entries_of(text) < len(entries))


def fault_of_other(status, text, whole, ended):
    """The same of one that shows, compacts or checks."""
    if status == ended:
        return None if text == whole else "the same status and another text"
    if status == 6:
        return None if whole.startswith(text) else "the text is no front"
    return None if (status, text) in ((12, ""), (12, "status 12 no-memory\n"), (7, "status 7 disk-fault\n")) else "another answer"


def refused(row, command, refuses, onward):
    """Refuses each allocation of a row in turn; the number, the status, and what is wrong."""
    with row.folder() as folder:
        row.begin(command, folder)
        ended, whole = run(command, row.words, row.lines, folder)
    states = row.states(command, whole) if row.is_played() else []
    with row.folder() as folder:
        row.begin(command, folder)
        before = run(command, SHOW, b"", folder) if row.is_kept() else None
        count = allocations_of(command, row.words, row.lines, folder, refuses)
    for at in range(1, count + 1):
        with row.folder() as folder:
            row.begin(command, folder)
            status, text = run(command, row.words, row.lines, folder, refuses, at, onward)
            shown = run(command, SHOW, b"", folder) if row.is_kept() else None
        if not row.is_played():
            fault = fault_of_other(status, text, whole, ended)
            yield at, status, fault or (None if shown == before else "show gives another state")
            continue
        entries = entries_of(text)
        right = states[entries:] if status in (6, 7) else states[entries : entries + 1]
        yield at, status, fault_of_played(status, text, whole) or (None if shown in right else f"show ends with {shown[0]}, or gives another state")


def deployments():
    """The deployments of the page that are checked: that of prepaid calls, one that is no JSON, one of a wrong shape, and two with other scripts."""
    with open(PREPAID, encoding="utf-8") as file:
        text = file.read()
    first = 'self.who = event.addr; emit \\"call \\" ++ event.addr;'
    script = re.compile(r'"on":\["' + re.escape(first) + r'",\s*"[^\n]*",\s*"[^\n]*"\]')
    service = '{"services":[{"key":"a","name":"A","vendor":"v","version":"1","root":"b"}]}'
    named = (("prepaid", text), ("no JSON", "{"), ("no root", service))
    return named + tuple((f"the script {it}", script.sub(lambda _: f'"on":"{it}"', text)) for it in ("self.n = ;", "self.m = 1;"))


def rows(folder):
    """The rows, with the deployments that are checked in files of this folder."""
    called, credited = [(PLAY, CALL)], [(PLAY, CREDIT)]
    found = [
        Row("play of a call", CALLS, [], PLAY, CALL),
        Row("show behind it", CALLS, called, SHOW),
        Row("play of a call without an account", PREPAID, [], PLAY, CALL),
        Row("play of a call with credit", PREPAID, [], PLAY, CREDIT),
        Row("resume of it behind 7 entries", PREPAID, [(["play", "1", "7"], CREDIT)], RESUME, CREDIT),
        Row("show behind it", PREPAID, credited, SHOW),
        Row("compact behind it", PREPAID, credited, COMPACT),
        Row("resume behind that", PREPAID, [(["play", "1", "7"], CREDIT), (COMPACT, b"")], RESUME, CREDIT),
    ]
    for name, text in deployments():
        path = os.path.join(folder, name)
        with open(path, "w", encoding="utf-8") as file:
            file.write(text)
        found.append(Row(f"check of {name}", path, [], CHECK))
    return found


class Long:
    """A long run with ample memory, beside which others are held."""

    def __init__(self, command, refuses):
        self.command, self.refuses, self.lines, self.words = command, refuses, calls_of(MANY_CALLS), ["play", "1", "1000000"]
        with fresh() as folder:
            status, self.whole = run(command, self.words, self.lines, folder)
            self.records = records_of(folder)
        self.trace = self.whole.removesuffix("status 0 ok\n")
        if status != 0 or entries_of(self.whole) != len(self.records):
            sys.exit(f"the long run ends with {status}, {entries_of(self.whole)} entries and {len(self.records)} records")
        with fresh() as folder:
            self.count = allocations_of(command, self.words, self.lines, folder, refuses)

    def tried(self, **limits):
        """The status of a run with this limit, how many entries it printed, and what is wrong."""
        with fresh() as folder:
            status, text = run(self.command, self.words, self.lines, folder, **limits)
            kept = records_of(folder) if os.path.exists(os.path.join(folder, "journal.a")) else []
        if kept != self.records[: len(kept)]:
            return status, 0, "the records are no front"
        entries = entries_of(text)
        fault = fault_of_played(status, text, self.whole) if status >= 0 else "killed by a signal"
        if not fault and (len(kept) < entries if status in (6, 7) else len(kept) != entries):
            fault = f"{len(kept)} records are kept, and {entries} entries printed"
        return status, entries, fault

    def refusals(self, most, onward):
        """Refuses so many of the allocations, spread over all."""
        for at in sorted({1 + number * (self.count - 1) // (most - 1) for number in range(most)}):
            yield at, *self.tried(refuses=self.refuses, at=at, onward=onward)

    def rooms(self, most):
        """Limits the address space to so many sizes, from the least in which a program begins to one in which all is played."""
        least = enough = 1 << 20
        while run(self.command, ["--version"], b"", None, room=least)[0] != 0:
            least += 1 << 16
        while self.tried(room=enough)[0] != 0:
            enough *= 2
        for number in range(most):
            room = least + (enough - least) * number // most
            yield room, *self.tried(room=room)


def tell(name, answers, what="allocations refused in turn"):
    """Prints how often each answer came, and answers whether all are right."""
    found, printed = {}, collections.defaultdict(list)
    for at, status, *entries, fault in answers:
        found.setdefault((status, fault or "ok"), []).append(at)
        printed[status].extend(entries)
    print(f"{name}: {sum(map(len, found.values()))} {what}")
    for (status, fault), tried in sorted(found.items()):
        some = sum(1 for it in printed[status] if it)
        more = f", {some} of them with entries" if some else ""
        print(f"  status {status:>2}: {len(tried):>5} times, {fault}{more}" + ("" if fault == "ok" else f", first at {tried[0]}"), flush=True)
    return all(fault == "ok" for _, fault in found)


def main():
    here = os.path.dirname(os.path.abspath(__file__))
    parser = argparse.ArgumentParser()
    parser.add_argument("--cmd", default=os.path.join(here, "..", "slee"))
    parser.add_argument("--onward", action="store_true")
    parser.add_argument("--long", action="store_true")
    parser.add_argument("--most", type=int, default=300)
    given = parser.parse_args()
    command = os.path.abspath(given.cmd)
    with tempfile.TemporaryDirectory() as folder:
        refuses = library(folder)
        if given.long:
            long = Long(command, refuses)
            name = f"play of {3 * MANY_CALLS} lines, {len(long.records)} entries"
            right = [tell(name, long.refusals(given.most, given.onward), f"of {long.count} allocations refused in turn")]
            right.append(tell(name, long.rooms(given.most), "limits on the address space"))
        else:
            right = [tell(row.name, refused(row, command, refuses, given.onward)) for row in rows(folder)]
    if not all(right):
        sys.exit("wrong")


if __name__ == "__main__":
    main()
