#!/usr/bin/env python3
"""Measures the program on scripts of 100,000 and of 200,000 requests.

    bench/load.py [PROGRAM]

PROGRAM is crates/lenkhov/out/lenkhov unless it is named; `rt run` in crates/lenkhov builds it. Each
script asks by turns for the list of scenes and for a scene. Only a few names are asked for, so a few
scenes are made, and every later request for one is answered with 601. Prints for each script the
lines in a second of processor time, the most memory, and at the end the ratio of the two times, which
is 2 where the time for a request doesn't depend on how many came before. A time is the least of three
runs, since whatever else the machine does only adds to it. Ends with 1 where an answer is missing.
"""

import pathlib
import sys
import tempfile

from measuring import FIRST, program_named, replay

SIZES = (100_000, 200_000)
NAMES = 8
RUNS = 3


def request(number):
    if number % 2 == 0:
        asked = f'"requestType":"GetSceneList","requestId":"{number}"'
    else:
        name = f"S{number // 2 % NAMES}"
        data = f'"requestData":{{"sceneName":"{name}"}}'
        asked = f'"requestType":"CreateScene","requestId":"{number}",{data}'
    return f'<c1 {{"op":6,"d":{{{asked}}}}}\n'


def write_script(path, requests):
    with open(path, "w", encoding="ascii") as file:
        file.write("+\n")
        file.write('<c1 {"op":1,"d":{"rpcVersion":1,"eventSubscriptions":0}}\n')
        file.writelines(map(request, range(requests)))


def measure(program, folder, requests):
    """The seconds of processor time and the most bytes of memory of one run, after a look at all that
    it wrote."""
    script, record = folder / "script", folder / "record"
    write_script(script, requests)
    done = made = known = 0

    def look(line):
        nonlocal done, made, known
        done += 1
        made += b'"responseData":{"sceneUuid"' in line
        known += b'"code":601' in line

    status, seconds, memory = replay(program, FIRST, script, record, look)
    wanted = (0, requests + 2, NAMES, requests // 2 - NAMES)
    if (status, done, made, known) != wanted:
        found = f"status {status}, {done} lines, {made} scenes made, {known} names known"
        sys.exit(f"{requests} requests: {found}; wanted are {wanted}")
    return seconds, memory


def main():
    program = program_named(sys.argv[1:])
    times = []
    with tempfile.TemporaryDirectory() as folder:
        for requests in SIZES:
            runs = [measure(program, pathlib.Path(folder), requests) for _ in range(RUNS)]
            seconds, memory = min(run[0] for run in runs), max(run[1] for run in runs)
            times.append(seconds)
            lines = (requests + 2) / seconds
            print(f"{requests} requests: {seconds:.2f} s, {lines:,.0f} lines a second,"
                  f" {memory / 2**20:.0f} MiB at most", flush=True)
    print(f"ratio of the times: {times[1] / times[0]:.2f}")


if __name__ == "__main__":
    main()
