#!/usr/bin/env python3
"""Refuses each allocation of the program in turn, over the first example.

    tools/refused_program.py [PROGRAM]

PROGRAM is crates/lenkhov/out/lenkhov unless it is named; `rt run` in crates/lenkhov builds it. Builds
refuse_alloc.c with gcc, runs the program once for each N with the Nth allocation refused, until none
is refused any more, and looks at each run: status 8 and a front of the right output, or status 0 and
the whole of it, as where a shelf goes on without a block; the record stays empty. Prints how many
runs ended with each status, and ends with 1 at anything else.
"""

import collections
import os
import pathlib
import subprocess
import sys
import tempfile

HOME = pathlib.Path(__file__).resolve().parent.parent
PROGRAM = HOME / "crates/lenkhov/out/lenkhov"
WANTED = (HOME / "crates/lenkhov/stdout").read_bytes()
COLLECTION = HOME / "examples/first.collection"
SCRIPT = HOME / "examples/first.script"


def run(program, shim, folder, number):
    """The status, the output, the record, and how many allocations were asked for."""
    record, count = folder / "record", folder / "count"
    told = dict(os.environ, LD_PRELOAD=str(shim), REFUSE_AT=str(number), REFUSE_COUNT=str(count))
    words = [program, "replay", COLLECTION, SCRIPT, record]
    done = subprocess.run(words, env=told, stdout=subprocess.PIPE, timeout=60, check=False)
    kept = record.read_bytes() if record.exists() else b""
    return done.returncode, done.stdout, kept, int(count.read_text() or 0)


def main():
    program = pathlib.Path(sys.argv[1]) if len(sys.argv) > 1 else PROGRAM
    if not program.is_file():
        sys.exit(f"{program} isn't there: `rt run` in crates/lenkhov builds it")
    statuses = collections.Counter()
    with tempfile.TemporaryDirectory() as name:
        folder = pathlib.Path(name)
        shim = folder / "refuse.so"
        source = HOME / "tools/refuse_alloc.c"
        subprocess.run(["gcc", "-shared", "-fPIC", "-O1", "-o", shim, source, "-ldl"], check=True)
        number = 0
        while True:
            number += 1
            status, output, record, asked = run(program, shim, folder, number)
            statuses[status] += 1
            whole = status == 0 and output == WANTED
            torn = status == 8 and WANTED.startswith(output)
            if record or not (whole or torn):
                sys.exit(f"allocation {number}: status {status}, {len(output)} bytes written")
            if asked < number:
                break
    print(", ".join(f"{count} runs with status {status}" for status, count in sorted(statuses.items())))


if __name__ == "__main__":
    main()
