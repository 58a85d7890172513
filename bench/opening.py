#!/usr/bin/env python3
"""Measures the program where it opens a full house: 512 sources and 2048 items.

    bench/opening.py [PROGRAM]

PROGRAM is crates/lenkhov/out/lenkhov unless it is named; `rt run` in crates/lenkhov builds it. Of the
sources 64 are scenes, each of which shows 32 inputs. Prints the milliseconds of processor time that
opening takes, which is the time of a run without an action less that of one with a single scene, and
the most memory. A time is the least of five runs. Ends with 1 where the collection isn't opened.
"""

import pathlib
import sys
import tempfile

from measuring import FIRST, program_named, replay

RUNS = 5
SCENES = 64
INPUTS = 448
ITEMS = 32
SETTINGS = '{"color":4278190335,"height":1,"width":1}'


def write_collection(path):
    with open(path, "w", encoding="ascii") as file:
        file.write('mixer-collection 1\ncanvas [2,1]\nrate [30,1]\nrecord ["rgba",1]\n')
        file.writelines(f'scene ["S{number}"]\n' for number in range(SCENES))
        for number in range(INPUTS):
            file.write(f'input ["color_source_v3","I{number}",{SETTINGS}]\n')
        for scene in range(SCENES):
            for number in range(ITEMS):
                file.write(f'item ["S{scene}","I{(scene * ITEMS + number) % INPUTS}",{{}}]\n')
        file.write('program ["S0"]\n')


def measure(program, folder, collection):
    """The least seconds of processor time of a run without an action, and the most memory."""
    script, record = folder / "script", folder / "record"
    script.write_text("", encoding="ascii")
    times, most = [], 0
    for _ in range(RUNS):
        status, seconds, memory = replay(program, collection, script, record, lambda line: None)
        if status != 0:
            sys.exit(f"status {status}; wanted is 0")
        times.append(seconds)
        most = max(most, memory)
    return min(times), most


def opened(program, folder):
    """The seconds that a full house takes to open, and the most memory."""
    house = folder / "collection"
    write_collection(house)
    small, _ = measure(program, folder, FIRST)
    full, memory = measure(program, folder, house)
    return full - small, memory


def main():
    program = program_named(sys.argv[1:])
    with tempfile.TemporaryDirectory() as folder:
        seconds, memory = opened(program, pathlib.Path(folder))
        print(f"512 sources and 2048 items: {seconds * 1e3:.1f} ms, {memory / 2**20:.0f} MiB at most")


if __name__ == "__main__":
    main()
