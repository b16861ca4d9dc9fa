#!/usr/bin/env python3
"""Throws traces at slee_ladder, whole and damaged, and sees that the page shows what they say.

    python3 bench/ladder_rows.py            the traces of the examples, damaged ones, and a long one
    python3 bench/ladder_rows.py --long     a trace of a million lines too
"""
import argparse
import os
import re
import subprocess
import sys
import xml.dom.minidom

TOP = os.path.join(os.path.dirname(os.path.abspath(__file__)), "..")
LADDER = os.path.join(TOP, "slee_ladder")
# A call of five entries, and what stands behind the last one.
CALL = """{0} input start c{call}
  started a{call} c{call}
{1} input fire c{call} invite addr=tel:5551
  queued v{call} invite a{call}
{2} initial a{call} v{call} service e{call} new
  attached e{call} a{call}
{3} deliver a{call} v{call} e{call} failed overflow
  rolled-back fine
  say e{call} <b>&"'
{4} finish a{call} v{call}
  gone a{call}
  removed e{call}
"""
END = "status 0 ok\n"


def calls(count, first=1):
    """A trace of so many calls, one behind the other."""
    return "".join(CALL.format(*range(5 * call + first, 5 * call + first + 5), call=call + 1) for call in range(count))


def drawn(trace, *words):
    """The status, the page, and the lines on standard error."""
    data = trace if isinstance(trace, bytes) else trace.encode()
    made = subprocess.run([sys.executable, LADDER, *words], input=data, capture_output=True)
    return made.returncode, made.stdout.decode(), made.stderr.decode().splitlines()


def count(page, shape):
    return len(re.findall(shape, page))


def see(name, holds):
    print(f"{'ok  ' if holds else 'WRONG'} {name}")
    return holds


def examples():
    """Each entry, entity and activity of an example stands in its picture."""
    for name in sorted(os.listdir(os.path.join(TOP, "examples"))):
        path = os.path.join(TOP, "examples", name, "expected")
        if not os.path.exists(path):
            continue
        trace = open(path, encoding="utf-8").read()
        status, page, told = drawn(trace)
        xml.dom.minidom.parseString(page.split("\n", 1)[1])
        delivered = re.findall(r"^\d+ deliver a\d+ v\d+ e\d+ (\w+)", trace, re.M)
        entities = set(re.findall(r"\be\d+\b", re.sub(r"(say|input|usage) .*", "", trace)))
        yield see(f"{name}: read without a word", (status, told) == (0, []))
        yield see(f"{name}: each entry has its number", count(page, 'class="number"') == len(re.findall(r"^\d+ ", trace, re.M)))
        yield see(f"{name}: each delivery is an arrow", count(page, 'class="arrow (fine|asked|failed)"') == len(delivered))
        yield see(f"{name}: each entity has a box", {one for one in entities if f"<title>{one} " in page or f"<title>{one}<" in page} == entities)
        yield see(f"{name}: nothing comes from elsewhere", not re.search(r"<script|href=|src=|url\(|@import", page))


def damaged():
    trace = calls(2) + END
    status, page, told = drawn(trace)
    yield see("texts are escaped", status == 0 and "&lt;b&gt;&amp;" in page and "<b>" not in page)
    status, page, told = drawn(trace[: -len(END) - 4])
    yield see("a trace that was cut: its last line is told, the rest is drawn", (status, told) == (1, ["slee_ladder: line 24 is no line of a trace"]) and count(page, 'class="number"') == 10)
    lines = trace.splitlines(keepends=True)
    status, page, told = drawn("".join([*lines[:3], "hello\n", *lines[3:7], "  created e9\n", *lines[7:]]))
    yield see("foreign lines are told by number", (status, told) == (1, [f"slee_ladder: line {n} is no line of a trace" for n in (4, 9)]))
    status, page, told = drawn("".join(lines[:2]).encode() + b"\xff\n")
    yield see("bytes that are no text are told", (status, told) == (1, ["slee_ladder: line 3 is no line of a trace"]))
    status, page, told = drawn(trace + calls(1, 11))
    yield see("nothing stands behind the status line", status == 1 and len(told) == 12)
    status, page, told = drawn("")
    yield see("an empty trace has no page", (status, page, told) == (1, "", ["slee_ladder: there is no such entry"]))
    status, page, told = drawn("".join(lines[:2] + lines[7:]) + "x\n" * 30)
    yield see("of many wrong lines the first twenty are told", status == 1 and len(told) == 21 and told[20].startswith("slee_ladder: nor are "))


def long(count_of_calls):
    trace = calls(count_of_calls) + END
    entries = 5 * count_of_calls
    status, page, told = drawn(trace)
    yield see(f"{entries} entries: the first 2,000 are drawn, and that is told", status == 0 and count(page, 'class="number"') == min(entries, 2000) and bool(told) == (entries > 2000))
    status, page, told = drawn(trace, "--call", "c7")
    yield see("one call alone", (status, told) == (0, []) and count(page, 'class="number"') == 5 and "a7 c7" in page and "a8 c8" not in page)
    status, page, told = drawn(trace, "--from", "101", "--to", "120")
    yield see("a part", (status, told) == (0, []) and count(page, 'class="number"') == 20)
    widths = {int(width) for width in re.findall(r'<svg width="(\d+)"', page)}
    yield see("calls behind one another share lanes", max(widths) < 1000)


def main():
    words = argparse.ArgumentParser(description=__doc__, formatter_class=argparse.RawDescriptionHelpFormatter)
    words.add_argument("--long", action="store_true", help="a trace of a million lines too")
    asked = words.parse_args()
    held = [*examples(), *damaged(), *long(1000), *(long(84000) if asked.long else [])]
    print(f"{sum(held)} of {len(held)} hold")
    return 0 if all(held) else 1


if __name__ == "__main__":
    sys.exit(main())
