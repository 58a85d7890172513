#!/usr/bin/env python3
"""Measures two builds of the program by turns, and prints what each takes beside the other.

    bench/compare.py OLD NEW

OLD and NEW are built programs. For each measurement of this folder both builds run one after the other
on the same script, so that a slower hour of the machine is one for both. The instructions of a line are
those of 4,000 requests more than 4,000, counted by valgrind's callgrind where there is one.
"""

import pathlib
import re
import shutil
import subprocess
import sys
import tempfile

import events
import load
import messages
import opening
import sources
from measuring import FIRST, program_named

COUNTED = 4_000


def instructions(program, folder, requests):
    """The instructions of one run of so many requests."""
    script, record = folder / "script", folder / "record"
    load.write_script(script, requests)
    words = ["valgrind", "--tool=callgrind", f"--callgrind-out-file={folder / 'out'}", str(program),
             "replay", FIRST, script, record]
    run = subprocess.run(words, stdout=subprocess.DEVNULL, stderr=subprocess.PIPE, check=True)
    return int(re.search(rb"Collected : (\d+)", run.stderr).group(1))


def of_a_line(program, folder):
    more, less = (instructions(program, folder, n) for n in (2 * COUNTED, COUNTED))
    return (more - less) / COUNTED


def least(measure):
    return min(measure() for _ in range(3))


def scenes(program, folder):
    """The milliseconds of 500 CreateScene in a row."""
    start, whole = (sources.measure(program, folder, sources.scene, n) for n in (0, sources.COUNT))
    return 1e3 * (whole - start)


def measurements():
    """Each with its name, its unit, and how it is made of a program and a folder."""
    for size in load.SIZES:
        yield (f"{size:,} requests", "lines a second",
               lambda p, f, size=size: (size + 2) / least(lambda: load.measure(p, f, size)[0]))
    if shutil.which("valgrind"):
        yield "instructions of a line", "", of_a_line
    yield ("an event that 63 are told", "us",
           lambda p, f: 1e6 * least(lambda: events.measure(p, f, 63, events.ALL)[0]) / events.EVENTS)
    for sort in messages.SORTS:
        yield (f"a message of 1 MiB of {sort}", "ms",
               lambda p, f, sort=sort: 1e3 * messages.for_one(p, f, sort)[0])
    yield "500 CreateScene in a row", "ms", scenes
    yield ("opening 512 sources and 2048 items", "ms",
           lambda p, f: 1e3 * opening.opened(p, f)[0])


def main():
    if len(sys.argv) != 3:
        sys.exit("bench/compare.py OLD NEW")
    programs = [program_named([word]) for word in sys.argv[1:]]
    print("| what | unit | old | new | new to old |\n|---|---|---|---|---|")
    with tempfile.TemporaryDirectory() as name:
        for what, unit, measure in measurements():
            old, new = (measure(program, pathlib.Path(name)) for program in programs)
            print(f"| {what} | {unit} | {old:,.1f} | {new:,.1f} | {new / old:.3f} |", flush=True)


if __name__ == "__main__":
    main()
