#!/usr/bin/env python3
"""Measures the program on pictures.

    bench/pictures.py [PROGRAM]

PROGRAM is crates/lenkhov/out/lenkhov unless it is named; `rt run` in crates/lenkhov builds it. A canvas
of 8 by 8 pixels has a scene with 1, 12 and 100 items over one another, each an input of its own with a
colour that lets shine through what is below. Each picture is taken by `v` and given back by `f`. Prints
for each scene the microseconds of processor time for a picture, with its two lines. Then the times of
100,000 and of 200,000 pictures of one item, and their ratio, which is 2 where the time for a picture
doesn't depend on how many came before. Ends with 1 where a picture is missing or isn't the one that it
must be.
"""

import pathlib
import sys
import tempfile

from measuring import program_named, replay

SIDE = 8
ITEMS = (1, 12, 100)
FEW = 20_000
MANY = (100_000, 200_000)


def colour(number):
    """Red, green, blue and alpha of the input of this number."""
    return (37 * number % 256, 91 * number % 256, 143 * number % 256, 64 + number)


def write_collection(path, items):
    lines = ["mixer-collection 1", f"canvas [{SIDE},{SIDE}]", "rate [25,1]", 'record ["rgba",1]']
    lines.append('scene ["A"]')
    for number in range(items):
        red, green, blue, alpha = colour(number)
        settings = f'{{"color":{(alpha << 24) + (blue << 16) + (green << 8) + red}}}'
        lines.append(f'input ["color_source_v3","i{number}",{settings}]')
        lines.append(f'item ["A","i{number}",{{}}]')
    lines.append('program ["A"]')
    path.write_text("".join(line + "\n" for line in lines), encoding="ascii")


def painted(items):
    """The text of the picture: each colour over what is below it, rounded to the nearest."""
    pixel = [0, 0, 0]
    for number in range(items):
        *channels, alpha = colour(number)
        pixel = [
            (top * alpha + below * (255 - alpha) + 127) // 255
            for top, below in zip(channels, pixel)
        ]
    digits = "".join(f"{channel:02x}" for channel in pixel)
    return " ".join([digits] * (SIDE * SIDE))


def write_script(path, pictures):
    with open(path, "w", encoding="ascii") as file:
        file.writelines(f"v\nf {number}\n" for number in range(pictures))


def lines_wanted(items, pictures):
    """The lines of the output, in their order."""
    picture = painted(items)
    for number in range(pictures):
        yield f"v {number} {picture}\n".encode("ascii")
        yield f"f {number}\n".encode("ascii")


def measure(program, folder, items, pictures):
    """The seconds of processor time and the most bytes of memory of one run, after a look at all that it
    wrote."""
    collection, script, record = (folder / name for name in ("collection", "script", "record"))
    write_collection(collection, items)
    write_script(script, pictures)
    wanted = lines_wanted(items, pictures)
    right = 0

    def look(line):
        nonlocal right
        right += line == next(wanted, None)

    status, seconds, memory = replay(program, collection, script, record, look)
    if (status, right) != (0, 2 * pictures):
        sys.exit(f"{items} items: status {status}, {right} lines are right of {2 * pictures}")
    return seconds, memory


def main():
    program = program_named(sys.argv[1:])
    with tempfile.TemporaryDirectory() as folder:
        place = pathlib.Path(folder)
        for items in ITEMS:
            seconds, _ = measure(program, place, items, FEW)
            print(f"{items} items: {seconds / FEW * 1e6:.1f} us a picture", flush=True)
        times = []
        for pictures in MANY:
            seconds, memory = measure(program, place, 1, pictures)
            times.append(seconds)
            print(f"{pictures} pictures: {seconds:.2f} s, {memory / 2**20:.0f} MiB at most", flush=True)
        print(f"ratio of the times: {times[1] / times[0]:.2f}")


if __name__ == "__main__":
    main()
