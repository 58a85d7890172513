#!/usr/bin/env python3
"""Tries the built program on an outside that fails, and on words that are wrong.

    tools/outside_cases.py [--quiet] [PROGRAM]

PROGRAM is crates/lenkhov/out/lenkhov unless it is named; `rt run` in crates/lenkhov builds it. Each
case runs the program once in a folder of its own, and looks at its status, at what it wrote, and at
the files that must not have changed. A wrong answer is printed and ends the script with 1. A case
that this machine has no means for is skipped. The last line says how many cases were right; with
--quiet it comes only where one was wrong.
"""

import os
import pathlib
import resource
import shutil
import subprocess
import sys
import tempfile

HOME = pathlib.Path(__file__).resolve().parent.parent
PROGRAM = HOME / "crates/lenkhov/out/lenkhov"
WANTED = (HOME / "crates/lenkhov/stdout").read_bytes()
COLLECTION = (HOME / "examples/first.collection").read_bytes()
SCRIPT = (HOME / "examples/first.script").read_bytes()
OLD = b"an older record\n"
# What a short write takes of the output.
FRONT = 100


class Case:
    """One run: its words, where its output goes, what may lie where it runs, and what must come."""

    def __init__(self, name, words, status, **more):
        self.name, self.words, self.status = name, words, status
        # What is laid into the folder before, and what the file R holds afterwards.
        self.lay = more.get("lay", lambda folder: None)
        self.record = more.get("record", OLD)
        # What has to be written, and where: a pipe that is read to its end, unless it is named.
        self.output = more.get("output", b"")
        self.out = more.get("out", "pipe")
        # What this machine has to have.
        self.needs = more.get("needs")


def replay(collection="C", script="S", record="R"):
    return ["replay", collection, script, record]


def link(target, name):
    return lambda folder: os.symlink(target, folder / name)


CASES = [
    Case("a whole run", replay(), 0, output=WANTED, record=b""),
    Case("a record that wasn't there", replay(record="new"), 0, output=WANTED),
    Case("a record that is a device", replay(record="/dev/null"), 0, output=WANTED,
         needs="/dev/null"),
    Case("a script that is empty", replay(script="/dev/null"), 0, record=b"", needs="/dev/null"),
    # Words.
    Case("no words", [], 2),
    Case("one word", ["replay"], 2),
    Case("three words", replay()[:3], 2),
    Case("five words", [*replay(), "more"], 2),
    Case("an unknown word", ["play", "C", "S", "R"], 2),
    Case("a word in other letters", ["Replay", "C", "S", "R"], 2),
    Case("a word that isn't UTF-8", [*replay()[:3], b"\xff"], 2),
    Case("an unknown word that isn't UTF-8", [b"\xff"], 2),
    # Files that can't be had.
    Case("a collection that is missing", replay(collection="none"), 5),
    Case("a script that is missing", replay(script="none"), 5),
    Case("a file below a file", replay(script="C/S"), 5),
    Case("a word without letters as a file", replay(script=""), 5),
    Case("a record in a folder that is missing", replay(record="none/R"), 5),
    Case("a record that is a folder", replay(record="folder"), 5),
    Case("a link to itself", replay(script="round"), 5, lay=link("round", "round")),
    # Reads that fail behind an open that didn't.
    Case("a collection that is a folder", replay(collection="folder"), 5, record=b""),
    Case("a script that is a folder", replay(script="folder"), 5, record=b""),
    Case("a script that can't be read", replay(script="/proc/self/mem"), 5, record=b"",
         needs="/proc/self/mem"),
    # A record that is one of the files that are read.
    Case("a record that is the collection", replay(record="C"), 5),
    Case("a record that is the script", replay(record="S"), 5),
    Case("a record in another spelling", replay(record="folder/../C"), 5),
    Case("a record by its whole path", replay(record="{folder}/S"), 5),
    Case("a record that is a link to the collection", replay(record="to"), 5, lay=link("C", "to")),
    Case("a record that is a link to a link", replay(record="on"), 5,
         lay=lambda folder: (link("S", "to")(folder), link("to", "on")(folder))),
    Case("a record that is the script by another name", replay(record="hard"), 5,
         lay=lambda folder: os.link(folder / "S", folder / "hard")),
    Case("a script that is a link to the record", replay(script="to"), 5, lay=link("R", "to")),
    # An output that fails.
    Case("a full device", replay(), 6, out="/dev/full", record=b"", needs="/dev/full"),
    Case("a pipe that nobody reads", replay(), 6, out="closed pipe", record=b""),
    Case("no standard output", replay(), 6, out="none", record=b""),
    Case("an output that takes a part of a piece", replay(), 6, out="short file",
         output=WANTED[:FRONT], record=b""),
]


def limit_files():
    resource.setrlimit(resource.RLIMIT_FSIZE, (FRONT, resource.RLIM_INFINITY))


def close_output():
    os.close(1)


def run(program, words, out, folder):
    """The status of a run, and what it wrote, where that can be seen. The signals of a closed pipe
    and of a file that is too long are passed over, so that the write fails."""
    how = {"cwd": folder, "stdin": subprocess.DEVNULL, "timeout": 60, "restore_signals": False}
    call = [program, *words]
    if out == "pipe":
        done = subprocess.run(call, stdout=subprocess.PIPE, check=False, **how)
        return done.returncode, done.stdout
    if out == "closed pipe":
        reading, writing = os.pipe()
        os.close(reading)
        with os.fdopen(writing, "wb") as to:
            return subprocess.run(call, stdout=to, check=False, **how).returncode, b""
    if out == "none":
        return subprocess.run(call, preexec_fn=close_output, check=False, **how).returncode, b""
    if out == "short file":
        with open(folder / "out", "wb") as to:
            done = subprocess.run(call, stdout=to, preexec_fn=limit_files, check=False, **how)
        return done.returncode, (folder / "out").read_bytes()
    with open(out, "wb") as to:
        return subprocess.run(call, stdout=to, check=False, **how).returncode, b""


def wrong(case, program, folder):
    """What is wrong with what the program did, in words."""
    (folder / "C").write_bytes(COLLECTION)
    (folder / "S").write_bytes(SCRIPT)
    (folder / "R").write_bytes(OLD)
    (folder / "folder").mkdir()
    case.lay(folder)
    words = [it.format(folder=folder) if isinstance(it, str) else it for it in case.words]
    before = set(os.listdir(folder))
    status, output = run(program, words, case.out, folder)
    found = []
    if status != case.status:
        found.append(f"status {status}, and not {case.status}")
    if output != case.output:
        found.append(f"{len(output)} bytes written, and not the {len(case.output)} wanted")
    if (folder / "C").read_bytes() != COLLECTION or (folder / "S").read_bytes() != SCRIPT:
        found.append("the collection or the script has changed")
    if (folder / "R").read_bytes() != case.record:
        found.append("the record isn't what it should be")
    if case.status in (2, 5) and set(os.listdir(folder)) != before:
        found.append("a file was made, or is gone")
    return found


def main():
    words = [it for it in sys.argv[1:] if it != "--quiet"]
    program = pathlib.Path(words[0]).resolve() if words else PROGRAM
    if not program.is_file():
        sys.exit(f"{program} isn't there: `rt run` in crates/lenkhov builds it")
    right, skipped, failed = 0, 0, False
    for case in CASES:
        if case.needs and not os.path.exists(case.needs):
            skipped += 1
            continue
        folder = pathlib.Path(tempfile.mkdtemp(prefix="outside-"))
        try:
            found = wrong(case, program, folder)
        finally:
            shutil.rmtree(folder)
        right += not found
        for it in found:
            failed = True
            print(f"{case.name}: {it}")
    if failed or "--quiet" not in sys.argv:
        print(f"outside: {right} of {len(CASES) - skipped} cases are right, {skipped} skipped")
    sys.exit(1 if failed else 0)


if __name__ == "__main__":
    main()
