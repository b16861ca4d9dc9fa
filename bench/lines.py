#!/usr/bin/env python3
"""Times the built program on signal lines, in a fresh folder each time. Outside the gate.

    python3 bench/lines.py                  all tables, with ./slee
    python3 bench/lines.py full             one of them
    python3 bench/lines.py --cmd PROGRAM    with another program
    python3 bench/lines.py --small          a tenth of the lines

It plays the call service of examples/restart. Tables: `starts`, n, 2n and 4n lines of `start` (all activities stay alive); `calls`, calls of three lines one after
another; `trial`, 100,000 generated lines of examples/prepaid; `reading`, megabytes a second of reading alone, in processor time, by the program bench_lines (build it first:
cd crates/bench_lines && rt run -- 1 < stdin), and in wall time by runs of one entry; `memory`, the memory and the user time of 180,000
lines with 480,000 entries; `alive`, the cost of a step while 10, 1,000 and 10,000 calls are alive; `files`, entries a second over real files
in the current folder, and how much of that is waiting for the disk; `bare`, playing 180,000 lines and a trial over real files in the current
folder, beside writing the same bytes of journal and trace there and syncing them; `opening`, the time of `show` as the journal grows; `full`, the memory of opening a journal that has nearly as many bytes as
a side may have; `snapshot`, the time and the memory of `compact` where the snapshot has 64 MB, and of opening it again.
Times are the least of three runs. All but `files` run in a folder in memory where there is one, so that the journal's
syncs cost nothing there.
"""
import argparse
import contextlib
import json
import os
import resource
import shutil
import subprocess
import sys
import tempfile
import time


MEMORY = "/dev/shm" if os.path.isdir("/dev/shm") else None
TOP = os.path.join(os.path.dirname(os.path.abspath(__file__)), "..")
LINE_BENCH = os.path.join(TOP, "crates", "bench_lines", "out", "bench_lines")
CALLS = os.path.join(TOP, "examples", "restart", "deploy.json")
PREPAID = os.path.join(TOP, "examples", "prepaid", "deploy.json")
TRIAL = ["trial", "7", "100000"]
PLAY = ["play", "1", "1000000"]


def deploy(folder, deployment):
    """Gives a folder its deployment."""
    shutil.copy(deployment, os.path.join(folder, "deploy.json"))


@contextlib.contextmanager
def fresh(deployment=CALLS, where=None):
    """A folder of its own that has the deployment alone."""
    with tempfile.TemporaryDirectory(dir=where) as folder:
        deploy(folder, deployment)
        yield folder


def run(command, words, lines, where=MEMORY, deployment=CALLS):
    """Seconds, peak memory in KiB, status and last line of one run in a folder that has the deployment alone."""
    with fresh(deployment, where) as folder:
        with open(os.path.join(folder, "signals"), "wb") as f:
            f.write(lines)
        with open(os.path.join(folder, "signals"), "rb") as given, open(os.path.join(folder, "out"), "wb") as out:
            begun = time.perf_counter()
            child = subprocess.Popen([command, *words], stdin=given, stdout=out, cwd=folder)
            _, status, usage = os.wait4(child.pid, 0)
            took = time.perf_counter() - begun
        with open(os.path.join(folder, "out"), "rb") as out:
            out.seek(0, os.SEEK_END)
            size = out.tell()
            out.seek(max(0, size - 200))
            last = out.read().decode("utf-8", "replace").strip().splitlines()[-1]
        return took, usage.ru_maxrss, os.waitstatus_to_exitcode(status), last


def best(command, words, lines, times=3, where=MEMORY, deployment=CALLS):
    found = min((run(command, words, lines, where, deployment) for _ in range(times)), key=lambda r: r[0])
    if found[2] not in (0, 11):
        sys.exit(f"status {found[2]}: {found[3]}")
    return found


def calls_of(count):
    return b"".join(b"start c%d\nfire c%d invite addr=tel:%d\nend c%d\n" % (i, i, i, i) for i in range(1, count + 1))


def starts(command, small):
    print("starts: lines of `start`, all alive")
    print(f"{'lines':>9} {'ms':>9} {'us/line':>9} {'KiB':>9} {'bytes/line':>11}")
    first = None
    for n in [s // (10 if small else 1) for s in (50_000, 100_000, 200_000)]:
        lines = b"".join(b"start c%d\n" % i for i in range(1, n + 1))
        took, memory, _, _ = best(command, ["play", "1", "1000000"], lines)
        first = first or took
        print(f"{n:>9} {took * 1e3:>9.1f} {took / n * 1e6:>9.2f} {memory:>9} {memory * 1024 / n:>11.0f}")
    print(f"4n costs {took / first:.2f} times n")


def calls(command, small):
    print("calls: three lines each, one after another")
    print(f"{'lines':>9} {'ms':>9} {'us/line':>9} {'KiB':>9}")
    costs = []
    for n in [s // (10 if small else 1) for s in (3_333, 16_666, 100_000)]:
        took, memory, status, last = best(command, ["play", "1", "1000000"], calls_of(n))
        costs.append(took / (3 * n))
        print(f"{3 * n:>9} {took * 1e3:>9.1f} {took / (3 * n) * 1e6:>9.2f} {memory:>9}  {last}")
    print(f"the cost of a line varies {max(costs) / min(costs):.2f} times")


def trial(command, small):
    print("trial: generated lines of examples/prepaid")
    print(f"{'lines':>9} {'ms':>9} {'us/line':>9} {'KiB':>9}")
    for n in [s // (10 if small else 1) for s in (10_000, 100_000)]:
        took, memory, status, last = best(command, ["trial", "7", str(n)], b"", deployment=PREPAID)
        print(f"{n:>9} {took * 1e3:>9.1f} {took / n * 1e6:>9.2f} {memory:>9}  {last}")


def bare_seconds(sizes):
    """The least time of three in which files of these sizes are written here and synced."""
    found = []
    for _ in range(3):
        with tempfile.TemporaryDirectory(dir=".") as folder:
            begun = time.perf_counter()
            for number, size in enumerate(sizes):
                handle = os.open(os.path.join(folder, str(number)), os.O_CREAT | os.O_WRONLY)
                block = b"." * 131_072
                for at in range(0, size, len(block)):
                    os.write(handle, block[: size - at])
                    os.fsync(handle)
                os.close(handle)
            found.append(time.perf_counter() - begun)
    return min(found)


def bare(command, small):
    print("bare: a run over real files in this folder, beside a bare write of the same bytes, synced as often as batches are")
    print(f"{'run':>16} {'bytes':>11} {'ms':>9} {'bare ms':>9} {'times':>7}")
    for name, words, lines, deployment in (("180,000 lines", PLAY, calls_of(60_000), CALLS), ("trial 7 100000", TRIAL, b"", PREPAID)):
        with fresh(deployment, ".") as folder:
            with open(os.path.join(folder, "out"), "wb") as out:
                begun = time.perf_counter()
                subprocess.run([command, *words], input=lines, cwd=folder, stdout=out)
                took = time.perf_counter() - begun
            sizes = [os.path.getsize(os.path.join(folder, it)) for it in ("out", "journal.a", "journal.b") if os.path.exists(os.path.join(folder, it))]
        plain = bare_seconds(sizes)
        print(f"{name:>16} {sum(sizes):>11} {took * 1e3:>9.1f} {plain * 1e3:>9.1f} {took / plain:>7.1f}")


def user_seconds(command, words, lines):
    """The user time, the peak memory in KiB and the bytes that are written, of the best of three runs."""
    found = []
    for _ in range(3):
        with fresh(where=MEMORY) as folder:
            with open(os.path.join(folder, "signals"), "wb") as f:
                f.write(lines)
            with open(os.path.join(folder, "signals"), "rb") as given, open(os.path.join(folder, "out"), "wb") as out:
                child = subprocess.Popen([command, *words], stdin=given, stdout=out, cwd=folder)
                _, _, usage = os.wait4(child.pid, 0)
            found.append((usage.ru_utime, usage.ru_maxrss, os.path.getsize(os.path.join(folder, "out"))))
    return min(found)


KINDS = (
    ("start", lambda i: b"start c%d\n" % i),
    ("fire with one field", lambda i: b"fire c%d invite addr=tel:%d\n" % (i, i)),
    ("fire with escapes", lambda i: b"fire c%d invite addr=%%20%%25%%20%%25%%20%%25%%20%%25\n" % i),
    ("profile-add with ten fields", lambda i: b"profile-add t r%d " % i + b" ".join(b"f%d=%d" % (k, i) for k in range(10)) + b"\n"),
    ("4,096 bytes each", lambda i: b"fire c1 invite addr=".ljust(4096, b"5") + b"\n"),
)


def lines_of(line_of, most):
    """So many bytes of lines at most, and how many lines there are."""
    lines, size = [], 0
    while size < most:
        lines.append(line_of(len(lines) + 1))
        size += len(lines[-1])
    return b"".join(lines[:-1]), len(lines) - 1


def processor_seconds(whole, times):
    """The processor time in which the lines are read so many times, the best of three runs."""
    found = []
    for _ in range(3):
        begun = resource.getrusage(resource.RUSAGE_CHILDREN)
        subprocess.run([LINE_BENCH, str(times)], input=whole, stdout=subprocess.DEVNULL, check=True)
        ended = resource.getrusage(resource.RUSAGE_CHILDREN)
        found.append(ended.ru_utime + ended.ru_stime - begun.ru_utime - begun.ru_stime)
    return min(found)


def reading(command, small):
    print("reading: lines that are read whole; alone, and in a run that plays the first of them")
    print(f"{'lines':>9} {'bytes':>10} {'MB/s alone':>11} {'MB/s run':>9} {'KiB':>9}  of")
    for name, line_of in KINDS:
        whole, count = lines_of(line_of, 1_600_000 if small else 16_000_000)
        alone = "-"
        if os.path.exists(LINE_BENCH):
            alone = f"{5 * len(whole) / (processor_seconds(whole, 6) - processor_seconds(whole, 1)) / 1e6:.1f}"
        took, memory, status, last = min((run(command, ["play", "1", "1"], whole) for _ in range(3)), key=lambda r: r[0])
        print(f"{count:>9} {len(whole):>10} {alone:>11} {len(whole) / took / 1e6:>9.1f} {memory:>9}  {name} ({last})")


def memory(command, small):
    count = 6_000 if small else 60_000
    lines = calls_of(count)
    user, peak, written = user_seconds(command, ["play", "1", "1000000"], lines)
    print("memory: calls of three lines, one after another")
    print(f"{'lines':>9} {'entries':>9} {'trace':>11} {'user s':>9} {'KiB':>9}")
    print(f"{3 * count:>9} {8 * count:>9} {written:>11} {user:>9.2f} {peak:>9}")


def alive(command, small):
    print("alive: the cost of a step while calls are alive")
    print(f"{'alive':>9} {'us/step':>9}")
    costs = []
    for n in (10, 1_000, 10_000):
        begin = b"".join(b"start b%d\nfire b%d invite addr=tel:%d\n" % (i, i, i) for i in range(1, n + 1))
        more = 2_000 if small else 10_000
        loop = calls_of(more)
        words = ["play", "1", "1000000"]
        base = best(command, words, begin)[0]
        took = best(command, words, begin + loop)[0]
        step = (took - base) / (8 * more)
        costs.append(step)
        print(f"{n:>9} {step * 1e6:>9.2f}")
    print(f"with 10,000 alive a step costs {costs[-1] / costs[0]:.2f} times that with 10")


def files(command, small):
    print("files: calls over real files in this folder, each batch synced")
    print(f"{'entries':>9} {'entries/s':>10} {'in memory':>10} {'waiting':>8}")
    for n in [s // (10 if small else 1) for s in (125, 1_250)]:
        words = ["play", "1", "1000000"]
        took = best(command, words, calls_of(n), where=".")[0]
        memory = best(command, words, calls_of(n))[0]
        print(f"{8 * n:>9} {8 * n / took:>10.0f} {8 * n / memory:>10.0f} {1 - memory / took:>8.0%}")


def opening(command, small):
    print("opening: `show` over a journal of so many entries")
    print(f"{'entries':>9} {'ms':>9} {'us/entry':>9}")
    for n in [s // (10 if small else 1) for s in (2_000, 10_000, 50_000)]:
        with fresh(where=MEMORY) as folder:
            subprocess.run([command, "play", "1", "1000000"], input=calls_of(n), cwd=folder, capture_output=True, check=True)
            took = []
            for _ in range(3):
                begun = time.perf_counter()
                subprocess.run([command, "show"], cwd=folder, capture_output=True, check=True)
                took.append(time.perf_counter() - begun)
        print(f"{8 * n:>9} {min(took) * 1e3:>9.1f} {min(took) / (8 * n) * 1e6:>9.2f}")


def full(command, small):
    """Calls whose numbers go on from run to run, until the next run might not have room; then the journal is opened."""
    print("full: a journal of many runs, shown, and played on by one call")
    print(f"{'bytes':>11} {'entries':>9} {'word':>5} {'s':>7} {'KiB':>9}  last line")
    with fresh(where=MEMORY) as folder:
        side, once, done, size = os.path.join(folder, "journal.a"), 3_000 if small else 120_000, 0, 0
        while size < (3_000_000 if small else 230_000_000):
            subprocess.run([command, *PLAY], input=calls_of(once), cwd=folder, stdout=subprocess.DEVNULL, check=True)
            done, size = done + once, os.path.getsize(side)
        for words, lines in ((["show"], b""), (PLAY, calls_of(1))):
            begun = time.perf_counter()
            child = subprocess.Popen([command, *words], stdin=subprocess.PIPE, stdout=subprocess.PIPE, cwd=folder)
            child.stdin.write(lines)
            child.stdin.close()
            text = child.stdout.read()
            _, _, usage = os.wait4(child.pid, 0)
            took, last = time.perf_counter() - begun, text.decode().splitlines()[-1]
            print(f"{size:>11} {8 * done:>9} {words[0]:>5} {took:>7.1f} {usage.ru_maxrss:>9}  {last}", flush=True)


def component(key, **more):
    return {"key": key, "name": key, "vendor": "bench", "version": "1", **more}


# Each call has an entity with fields and a convergence name, an activity with an attribute, an attachment with a mask, a name, a timer, and
# a row of a profile table.
INVITED = "self.addr = event.addr; attr(activity, mark) = event.addr; bind event.addr to activity; mask \"timer\" on activity; timer bell on activity at now + 1000; self.bell = bell;"
HELD = {
    "events": [component("invite", fields={"addr": "text"})],
    "profiles": [component("number", attributes={"pin": "int"}, unique=["pin"])],
    "tables": {"numbers": "number"},
    "blocks": [
        component("call", fields={"addr": "text", "n": "int", "bell": "timer"}, attributes={"mark": "text"}, events=[{"event": "invite", "initial": ["address"], "on": INVITED}])
    ],
    "services": [component("calls", root="call", active=True)],
}


def held_of(begin, count):
    """Lines of calls that stay."""
    numbers = range(begin, begin + count)
    return b"".join(b"start c%d\nfire c%d invite addr=tel:%d\nprofile-add numbers tel:%d pin=%d\n" % (i, i, i, i, i) for i in numbers)


def spent(command, words, folder, given=b""):
    """Seconds, the processor's seconds, and peak memory in KiB of one run in this folder, whose text is dropped."""
    begun = time.perf_counter()
    child = subprocess.Popen([command, *words], stdin=subprocess.PIPE, stdout=subprocess.DEVNULL, cwd=folder)
    child.stdin.write(given)
    child.stdin.close()
    _, status, usage = os.wait4(child.pid, 0)
    if os.waitstatus_to_exitcode(status) != 0:
        sys.exit(f"{' '.join(words)} ends with {os.waitstatus_to_exitcode(status)}")
    return time.perf_counter() - begun, usage.ru_utime + usage.ru_stime, usage.ru_maxrss


def snapshot(command, small):
    runs, once = 4, 5_000 if small else 50_000
    print(f"snapshot: {runs * once} calls that stay, played in {runs} runs, compacted, opened again, and compacted again")
    print(f"{'word':>8} {'of bytes':>10} {'s':>7} {'cpu s':>7} {'KiB':>9}")
    with fresh(where=MEMORY) as folder:
        with open(os.path.join(folder, "deploy.json"), "w", encoding="utf-8") as f:
            json.dump(HELD, f)
        side_a, side_b = (os.path.join(folder, "journal." + name) for name in "ab")
        more = held_of(runs * once + 1, 1)
        steps = [(PLAY, held_of(run * once + 1, once), side_a) for run in range(runs)]
        steps += [(["compact"], b"", side_a), (["show"], b"", side_b), (["resume", *PLAY[1:]], b"", side_b), (["compact"], b"", side_b), (PLAY, more, side_a)]
        for words, given, side in steps:
            size = os.path.getsize(side) if os.path.exists(side) else 0
            took, busy, memory = spent(command, words, folder, given)
            print(f"{words[0]:>8} {size:>10} {took:>7.2f} {busy:>7.2f} {memory:>9}", flush=True)


TABLES = {"starts": starts, "calls": calls, "trial": trial, "reading": reading, "memory": memory, "alive": alive, "files": files, "bare": bare, "opening": opening, "full": full, "snapshot": snapshot}


def main():
    here = os.path.dirname(os.path.abspath(__file__))
    parser = argparse.ArgumentParser()
    parser.add_argument("--cmd", default=os.path.join(here, "..", "slee"))
    parser.add_argument("--small", action="store_true")
    parser.add_argument("tables", nargs="*", default=list(TABLES))
    given = parser.parse_args()
    command = os.path.abspath(given.cmd)
    for table in given.tables:
        TABLES[table](command, given.small)
        print()


if __name__ == "__main__":
    main()
