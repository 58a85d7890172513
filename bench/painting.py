#!/usr/bin/env python3
"""Measures painting on a scene of twelve rasters, beside a C program that paints the same.

    bench/painting.py [PROGRAM [TOOLS]]

PROGRAM is crates/mix_painting/out/mix_painting unless it is named; `rt run` in crates/mix_painting builds
it. TOOLS is the folder shared/tools beside this repository unless it is named: it has painting_peer.c, the
C program, which gcc compiles twice, for this machine and for the instructions that the kit compiles for.
The canvas has 1920 by 1080 pixels.

All run by turns, five times. Prints the least milliseconds that a picture takes: of processor time, by the
C programs; a copy of the picture by them; the scene, its lowest layer alone, and nothing, each at two
numbers of pictures, so that the start falls out; its digest, at two numbers of digests, beside what
`sha256sum` takes for as many bytes; and then, by the clock, the scene by one, two and four workers, for
which the machine must be idle. Ends with 1 where a run goes wrong.
"""

import pathlib
import resource
import subprocess
import sys
import tempfile
import time

from measuring import HOME
from painting_picture import digest

RUNS = 5
FEW, MANY = 5, 25
PEER_PICTURES = 20
BYTES = 4 * 1920 * 1080


def program_of(words):
    """The program that the first of these words names, or the one that `rt run` builds."""
    program = pathlib.Path(words[0]) if words else HOME / "crates/mix_painting/out/mix_painting"
    if not program.is_file():
        sys.exit(f"{program} isn't there: `rt run` in crates/mix_painting builds it")
    return program


def peer_of(words):
    """The C program's text."""
    tools = pathlib.Path(words[0]) if words else HOME.parent / "shared/tools"
    if not (tools / "painting_peer.c").is_file():
        sys.exit(f"{tools} has no painting_peer.c: name the folder that has it")
    return tools / "painting_peer.c"


def compiled(source, folder, machine):
    """The C program, compiled for a kind of machine."""
    peer = folder / machine
    subprocess.run(["gcc", "-O3", f"-march={machine}", "-o", peer, source], check=True)
    return peer


def seconds(words):
    """What a run takes: the seconds of processor time, those by the clock, and its output."""
    before, begun = resource.getrusage(resource.RUSAGE_CHILDREN), time.perf_counter()
    run = subprocess.run([str(word) for word in words], check=True, capture_output=True, text=True)
    ended, after = time.perf_counter(), resource.getrusage(resource.RUSAGE_CHILDREN)
    used = after.ru_utime + after.ru_stime - before.ru_utime - before.ru_stime
    return used, ended - begun, run.stdout


def a_picture(program, layers, workers=1):
    """The milliseconds of a picture more, of processor time and by the clock."""
    few, many = (seconds([program, layers, times, workers, 0]) for times in (FEW, MANY))
    return [(many[kind] - few[kind]) / (MANY - FEW) * 1000 for kind in (0, 1)]


def a_digest(program):
    """The milliseconds of processor time of a digest more."""
    few, many = (seconds([program, 0, 1, 1, times])[0] for times in (1, 9))
    return (many - few) / 8 * 1000


def a_sum(folder):
    """Those of `sha256sum` for as many bytes as a picture has, of a file of eight times as many."""
    file = folder / "bytes"
    file.write_bytes(bytes(BYTES) * 8)
    return seconds(["sha256sum", file])[0] / 8 * 1000


def main():
    program, source = program_of(sys.argv[1:2]), peer_of(sys.argv[2:3])
    if seconds([program, 12, 1, 2, 1])[2] != digest() + "\n":
        sys.exit("the picture isn't that of the rules")
    with tempfile.TemporaryDirectory() as name:
        folder = pathlib.Path(name)
        native, plain = (compiled(source, folder, machine) for machine in ("native", "x86-64-v2"))
        rows = []
        for _ in range(RUNS):
            row = {
                "the C program": float(seconds([native, PEER_PICTURES])[2]),
                "the C program for x86-64-v2": float(seconds([plain, PEER_PICTURES])[2]),
                "a copy of the picture": float(seconds([native, PEER_PICTURES, "copy"])[2]),
                "nothing": a_picture(program, 0)[0],
                "the lowest layer": a_picture(program, 1)[0],
                "a digest": a_digest(program),
                "sha256sum": a_sum(folder),
            }
            row["the scene"], row["the scene by the clock"] = a_picture(program, 12)
            row["by two workers"] = a_picture(program, 12, 2)[1]
            row["by four workers"] = a_picture(program, 12, 4)[1]
            rows.append(row)
    least = {word: min(row[word] for row in rows) for word in rows[0]}
    for word, found in least.items():
        print(f"{word}: {found:.1f} ms")
    scene = least["the scene"]
    print(f"the scene by the C programs: {scene / least['the C program']:.2f}, "
          f"{scene / least['the C program for x86-64-v2']:.2f}")
    print(f"two workers by one: {least['by two workers'] / least['the scene by the clock']:.2f}")
    print(f"a digest by sha256sum: {least['a digest'] / least['sha256sum']:.2f}")


if __name__ == "__main__":
    main()
