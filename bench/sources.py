#!/usr/bin/env python3
"""Measures the program where each request makes a source: 500 scenes, or 500 inputs of one scene.

    bench/sources.py [PROGRAM]

PROGRAM is crates/lenkhov/out/lenkhov unless it is named; `rt run` in crates/lenkhov builds it. Prints
for each sort the milliseconds of processor time that the requests take, which is the time of a run
without the time of one that makes none, and then how much longer the last hundred take than the first.
A time is the least of nine runs, since whatever else the machine does only adds to it. Ends with 1
where a request isn't answered with 100.
"""

import pathlib
import sys
import tempfile

from measuring import FIRST, program_named, replay

COUNT = 500
RUNS = 9


def scene(number):
    return f'"requestType":"CreateScene","requestData":{{"sceneName":"S{number}"}}'


def hidden(number):
    return source(number, "false")


def seen(number):
    return source(number, "true")


def source(number, enabled):
    settings = '"color":4278190335,"height":1,"width":1'
    return ('"requestType":"CreateInput","requestData":{"sceneName":"A",'
            f'"inputName":"I{number}","inputKind":"color_source_v3",'
            f'"inputSettings":{{{settings}}},"sceneItemEnabled":{enabled}}}')


def write_script(path, made, count):
    with open(path, "w", encoding="ascii") as file:
        file.write("+\n")
        file.write('<c1 {"op":1,"d":{"rpcVersion":1,"eventSubscriptions":0}}\n')
        for number in range(count):
            file.write(f'<c1 {{"op":6,"d":{{"requestId":"{number}",{made(number)}}}}}\n')


def measure(program, folder, made, count):
    """The least seconds of processor time of a run with so many requests."""
    script, record = folder / "script", folder / "record"
    write_script(script, made, count)
    times = []
    for _ in range(RUNS):
        done = 0

        def look(line):
            nonlocal done
            done += b'"code":100' in line

        status, seconds, _ = replay(program, FIRST, script, record, look)
        if (status, done) != (0, count):
            sys.exit(f"{count} requests: status {status}, {done} answered with 100")
        times.append(seconds)
    return min(times)


def main():
    program = program_named(sys.argv[1:])
    with tempfile.TemporaryDirectory() as name:
        folder = pathlib.Path(name)
        for sort, made in (("scenes", scene), ("inputs that aren't seen", hidden),
                           ("inputs that are seen", seen)):
            start = measure(program, folder, made, 0)
            first = measure(program, folder, made, 100)
            before = measure(program, folder, made, COUNT - 100)
            whole = measure(program, folder, made, COUNT)
            ratio = (whole - before) / max(first - start, 1e-4)
            print(f"{COUNT} {sort}: {1000 * (whole - start):.0f} ms;"
                  f" the last hundred take {ratio:.1f} times as long as the first", flush=True)


if __name__ == "__main__":
    main()
