"""What the measurements share: which program is measured, and what one run of it costs."""

import os
import pathlib
import subprocess
import sys

HOME = pathlib.Path(__file__).resolve().parent.parent
PROGRAM = HOME / "crates/lenkhov/out/lenkhov"
FIRST = HOME / "examples/first.collection"


def program_named(words):
    """The program that the first of these words names, or the one that `rt run` builds."""
    program = pathlib.Path(words[0]) if words else PROGRAM
    if not program.is_file():
        sys.exit(f"{program} isn't there: `rt run` in crates/lenkhov builds it")
    return program


def replay(program, collection, script, record, look):
    """Replays a script into a file beside it, and then hands each line of the output to `look`. The
    status, the seconds of processor time and the most bytes of memory."""
    output = script.with_name("output")
    words = [program, "replay", collection, script, record]
    with open(output, "wb") as file:
        run = subprocess.Popen(words, stdout=file)
        _, ended, used = os.wait4(run.pid, 0)
    run.returncode = os.waitstatus_to_exitcode(ended)
    with open(output, "rb") as file:
        for line in file:
            look(line)
    return run.returncode, used.ru_utime + used.ru_stime, used.ru_maxrss * 1024
