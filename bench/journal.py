#!/usr/bin/env python3
"""Times a flush of the journal over real files, beside a bare write and fsync of the same bytes. Outside the gate.

    python3 bench/journal.py

Each line is the median of five runs of 2,000 flushes, taken in turn with the bare loop. The ratio is to be at most 2.5.
Build the program first: cd crates/bench_journal && rt run -- write 0 1
"""
import os
import statistics
import subprocess
import sys
import tempfile
import time

HERE = os.path.dirname(os.path.abspath(__file__))
PROGRAM = os.path.join(HERE, "..", "crates", "bench_journal", "out", "bench_journal")
COUNT = 2_000
RUNS = 5


def write(folder, count, size):
    begun = time.perf_counter()
    done = subprocess.run([PROGRAM, "write", str(count), str(size)], cwd=folder, capture_output=True, text=True)
    took = time.perf_counter() - begun
    if done.returncode != 0:
        sys.exit(f"writing ended with {done.returncode}: {done.stdout}{done.stderr}")
    return took


def bare(folder, count, size):
    handle = os.open(os.path.join(folder, "bare"), os.O_CREAT | os.O_RDWR)
    record = b"." * (size + 5)
    at = 0
    begun = time.perf_counter()
    for _ in range(count):
        os.pwrite(handle, record, at)
        os.fsync(handle)
        at += len(record)
    took = time.perf_counter() - begun
    os.close(handle)
    return took


def both(size):
    """Seconds of the flushes and of the bare writes, in one folder of this disk."""
    with tempfile.TemporaryDirectory(dir=".") as folder:
        empty = write(folder, 0, size)
    with tempfile.TemporaryDirectory(dir=".") as folder:
        return write(folder, COUNT, size) - empty, bare(folder, COUNT, size)


def main():
    if not os.path.exists(PROGRAM):
        sys.exit("build it first: cd crates/bench_journal && rt run -- write 0 1")
    print(f"{'bytes':>7} {'us/flush':>9} {'us/bare':>9} {'ratio':>6} {'least':>6} {'most':>6}")
    for size in (16, 256, 4_096, 65_535):
        runs = [both(size) for _ in range(RUNS)]
        flushes, bares = (statistics.median(run[which] for run in runs) / COUNT * 1e6 for which in (0, 1))
        ratios = sorted(flush / plain for flush, plain in runs)
        middle = statistics.median(ratios)
        print(f"{size:>7} {flushes:>9.1f} {bares:>9.1f} {middle:>6.2f} {ratios[0]:>6.2f} {ratios[-1]:>6.2f}")


if __name__ == "__main__":
    main()
