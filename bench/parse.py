#!/usr/bin/env python3
"""Times the parser of scripts. Outside the gate.

    python3 bench/parse.py

Each line is the median of five runs over texts of one size, in megabytes of script text a second of the processor. It is
to be at least 20. Build the program first: cd crates/golden_scripts && rt run < stdin
"""
import os
import resource
import statistics
import subprocess
import sys

HERE = os.path.dirname(os.path.abspath(__file__))
PROGRAM = os.path.join(HERE, "..", "crates", "golden_scripts", "out", "golden_scripts")
SIZES = (2_000, 16_000, 1_000_000)
WHOLE = 20_000_000
RUNS = 5

PREPAID = (
    'self.who = event.addr; emit "call " ++ event.addr;\n'
    "if has_profile(accounts, event.addr) {\n"
    "    let s = profile(accounts, event.addr, seconds);\n"
    "    usage granted s; timer t on activity at now + s * 1000;\n"
    '} else { emit "no account"; }\n'
)
STATEMENTS = (
    "create leg as x priority 5; attach self to activity; detach y from activity;\n"
    'mask "ping" on activity; fire "ping" on a for "prepaid" { n: 1, who: "x" };\n'
    "timer t on activity at 0 every 5 times 3 keep last; call x.run(1, \"two\") as z;\n"
    'bind "name" to a; unbind "name"; cancel t; null as b; end b; throw failure;\n'
)
EXPRESSIONS = (
    "total = (first + second * third - fourth / 7) % limit;\n"
    "if not ready == true and count(leg) < 12 or -offset >= 0 { sum = sum + 1; }\n"
    'while i < 100 { i = i + 1; text_so_far = text_so_far ++ text(i) ++ ", "; }\n'
)
COMMENTED = "# what follows is said at length, so that there is something to skip\nlet some_name_of_a_variable = 123456789;\n"


def seconds(text, times):
    begun = resource.getrusage(resource.RUSAGE_CHILDREN)
    done = subprocess.run([PROGRAM, str(times)], input=text, capture_output=True, text=True)
    ended = resource.getrusage(resource.RUSAGE_CHILDREN)
    took = ended.ru_utime + ended.ru_stime - begun.ru_utime - begun.ru_stime
    if done.returncode != 0:
        sys.exit(f"reading ended with {done.returncode}: {done.stdout}{done.stderr}")
    return took


def speed(text):
    """Megabytes a second, without what the program takes to begin and to read its input."""
    times = WHOLE // len(text)
    return len(text) * times / (seconds(text, times) - seconds(text, 0)) / 1e6


def main():
    if not os.path.exists(PROGRAM):
        sys.exit("build it first: cd crates/golden_scripts && rt run < stdin")
    print(f"{'text':>12} {'bytes':>8} {'MB/s':>6} {'least':>6} {'most':>6}")
    for name, piece in (("prepaid", PREPAID), ("statements", STATEMENTS), ("expressions", EXPRESSIONS), ("commented", COMMENTED)):
        for size in SIZES:
            text = piece * (size // len(piece))
            speeds = sorted(speed(text) for _ in range(RUNS))
            print(f"{name:>12} {len(text):>8} {statistics.median(speeds):>6.1f} {speeds[0]:>6.1f} {speeds[-1]:>6.1f}")


if __name__ == "__main__":
    main()
