#!/usr/bin/env python3
"""Refuses each allocation of a run in turn by the kit's own means, and prints what comes of it.

    tools/refused_memory.py [FIRST [LAST]]

Runs `rt try` over the first example once for each N from FIRST (1 unless it is given), with the Nth
allocation refused, up to LAST, or for ever. Prints a line for each N:

    8    the run ended with status 8, and wrote a front of the right output
    0    the run went on to its end, and all its lines are right

Ends with 1 at anything else. A line is a minute of one processor, since the program is built anew
each time; refused_program.py does the same in seconds, once the program is built.
"""

import itertools
import pathlib
import subprocess
import sys

HOME = pathlib.Path(__file__).resolve().parent.parent
CRATE = HOME / "crates/lenkhov"
WANTED = (CRATE / "stdout").read_bytes()


def outcome(number):
    words = ["rt", "try", "--fail-alloc", str(number)]
    for name in ("first.collection", "first.script"):
        words += ["--data", f"{name}={HOME}/examples/{name}"]
    words += ["--", "replay", "first.collection", "first.script", "first.record"]
    run = subprocess.run(words, cwd=CRATE, capture_output=True, check=False)
    whole = run.returncode == 0 and run.stdout == WANTED
    torn = run.returncode == 8 and WANTED.startswith(run.stdout)
    if not (whole or torn):
        sys.exit(f"{number}: status {run.returncode}\n{run.stderr.decode(errors='replace')}")
    return run.returncode


def main():
    given = [int(word) for word in sys.argv[1:3]]
    first = given[0] if given else 1
    numbers = range(first, given[1] + 1) if len(given) > 1 else itertools.count(first)
    for number in numbers:
        print(number, outcome(number), flush=True)


if __name__ == "__main__":
    main()
