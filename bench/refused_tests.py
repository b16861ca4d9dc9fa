#!/usr/bin/env python3
"""Refuses each allocation of each test in turn, in the crates of tests as they are built. Outside the gate, in a copy that
bench/apart.py --put makes, since these crates stand in apart/.

    python3 bench/refused_tests.py                 all of them; a crate's tests are built by `rt test` if they aren't there
    python3 bench/refused_tests.py test_disks       the tests of these crates
    python3 bench/refused_tests.py --most 300      at most so many allocations of a test, spread over all that it makes

The test `want_of_memory::a_refused_allocation_leaves_a_front_of_the_call` of test_recovery plays a call over objects in memory. With
an allocation refused the run has to end with 12 or with the row's own text (with 6 or 7 where the growth of the sink or of the
disk was refused), and what any stop in any call of its disk leaves has to be shown as the state behind some of the
call's entries. `want_of_memory::what_is_kept_at_want_of_memory_is_printed` of test_faults plays it too: at 12 the trace of all that is kept has
to be out. These tests say so themselves, so they have to pass; of their crates they alone are run.

A test of another crate has to pass, or to end with want of memory: another answer in its place fails here. The tests over
sinks and disks in memory may also stop where such an object answered a fault of its own, as it does when it can't grow.
A C compiler is wanted for the small library that refuses (see bench/fail_alloc.py).
"""
import argparse
import os
import subprocess
import sys
import tempfile

from fail_alloc import library

TOP = os.path.dirname(os.path.dirname(os.path.abspath(__file__)))
CRATES = ("test_recovery", "test_faults", "test_values", "test_lines", "test_disks")
WHOLE_CALLS = {
    "test_recovery": "want_of_memory::a_refused_allocation_leaves_a_front_of_the_call",
    "test_faults": "want_of_memory::what_is_kept_at_want_of_memory_is_printed",
}
# How want of memory is told: by the crates of this repository, and by the library.
NO_MEMORY = ("NoMemory", "OutOfMemory", "AllocError", "AllocFailed")
# Tests over objects in memory that answer a fault where they can't grow.
OVER_OBJECTS = {
    "objects::a_sink_takes_what_comes_before_a_fault",
    "objects::a_failed_call_changes_nothing_that_is_read",
    "objects::a_stop_tears_what_no_sync_covers",
}


def run(tests, words, env):
    with tempfile.TemporaryDirectory() as folder:
        done = subprocess.run([tests, *words], cwd=folder, env={**os.environ, **env}, capture_output=True, timeout=600, check=False)
    return done.returncode, (done.stdout + done.stderr).decode("utf-8", "replace")


def tests_of(crate):
    """The file of the crate's built tests, and the names of those that are run."""
    folder = os.path.join(TOP, "crates", crate)
    built = os.path.join(folder, "out", f"{crate}_tests")
    if not os.path.exists(built):
        print(f"the tests of {crate} are built first", file=sys.stderr)
        subprocess.run(["rt", "test"], cwd=folder, stdout=subprocess.DEVNULL, check=True)
    if crate in WHOLE_CALLS:
        return built, [WHOLE_CALLS[crate]]
    _, text = run(built, ["--list"], {})
    return built, [line[: -len(": test")] for line in text.split("\n") if line.endswith(": test")]


def is_well(test, status, text):
    """Whether the test may end so where an allocation was refused."""
    if status == 0:
        return True
    stopped = "test stopped at" in text
    failed = "the test failed" in text
    told = any(it in text for it in NO_MEMORY) or (stopped and test in OVER_OBJECTS)
    return test not in WHOLE_CALLS.values() and (stopped or failed) and told


def chosen(count, most):
    """The numbers of the allocations that are refused."""
    if not most or count <= most:
        return range(1, count + 1)
    return sorted({1 + at * (count - 1) // max(most - 1, 1) for at in range(most)})


def refuse(built, test, refuses, most):
    """Refuses the test's allocations in turn, and returns how many were refused, how many it makes, and how many ends were wrong."""
    with tempfile.TemporaryDirectory() as folder:
        counted = os.path.join(folder, "counted")
        status, text = run(built, [test], {"LD_PRELOAD": refuses, "COUNTED_ALLOCATIONS": counted})
        if status != 0:
            sys.exit(f"{test} with ample memory: status {status}\n{text}")
        with open(counted, encoding="utf-8") as f:
            count = int(f.read())
    failed, numbers = 0, chosen(count, most)
    for at in numbers:
        status, text = run(built, [test], {"LD_PRELOAD": refuses, "REFUSED_ALLOCATION": str(at)})
        if not is_well(test, status, text):
            failed += 1
            print(f"{test}, allocation {at}: status {status}\n{text}")
    return len(numbers), count, failed


def main():
    parser = argparse.ArgumentParser(description=__doc__, formatter_class=argparse.RawDescriptionHelpFormatter)
    parser.add_argument("crates", nargs="*", metavar="crate", help=f"of {', '.join(CRATES)}; all where none is named")
    parser.add_argument("--most", type=int, default=0, help="how many allocations of a test are refused; 0 for all")
    given = parser.parse_args()
    unknown = [it for it in given.crates if it not in CRATES]
    if unknown:
        parser.error(f"no crate of tests: {', '.join(unknown)}")
    tried = made = failed = 0
    with tempfile.TemporaryDirectory() as folder:
        refuses = library(folder)
        for crate in given.crates or CRATES:
            built, tests = tests_of(crate)
            for test in tests:
                refused, count, wrong = refuse(built, test, refuses, given.most)
                print(f"{crate} {test}: {refused} of {count} refused, {wrong} failed", flush=True)
                tried, made, failed = tried + refused, made + count, failed + wrong
    print(f"{tried} of {made} allocations refused in turn: {failed} failed")
    return 1 if failed else 0


if __name__ == "__main__":
    sys.exit(main())
