#!/usr/bin/env python3
"""Measures the program on messages of 1,048,576 bytes, the longest that a connection may say.

    bench/messages.py [PROGRAM]

PROGRAM is crates/lenkhov/out/lenkhov unless it is named; `rt run` in crates/lenkhov builds it. Each
message broadcasts an event whose data is one text of letters, one of backslashes, a list of empty
lists, or one of numbers. Prints for each sort the milliseconds of processor time for one message,
which are a fourth of what a run with five takes more than one with one, and the most memory. A time
is the least of five runs, since whatever else the machine does only adds to it. Ends with 1 where a
message isn't answered with 100.
"""

import pathlib
import sys
import tempfile

from measuring import FIRST, program_named, replay

BYTES = 1_048_576
RUNS = 5
MORE = 4
BEFORE = '{"op":6,"d":{"requestType":"BroadcastCustomEvent","requestId":"1","requestData":{"eventData":{"v":'
BEHIND = "}}}}"


def listed(word, room):
    """A list of as many of this word as have room."""
    count = (room - 1) // (len(word) + 1)
    return f"[{','.join([word] * count)}]"


def message(sort):
    """A message of this sort, filled up with blanks."""
    room = BYTES - len(BEFORE) - len(BEHIND)
    held = {
        "letters": lambda: f'"{"a" * (room - 2)}"',
        "backslashes": lambda: '"' + "\\\\" * ((room - 2) // 2) + '"',
        "empty lists": lambda: listed("[]", room),
        "numbers": lambda: listed("1", room),
    }[sort]()
    return BEFORE + held + " " * (room - len(held)) + BEHIND


SORTS = ("letters", "backslashes", "empty lists", "numbers")


def write_script(path, text, count):
    """So many times this message, in which the script writes a backslash twice."""
    with open(path, "w", encoding="ascii") as file:
        file.write("+\n")
        file.write('<c1 {"op":1,"d":{"rpcVersion":1,"eventSubscriptions":0}}\n')
        line = text.replace("\\", "\\\\")
        for _ in range(count):
            file.write(f"<c1 {line}\n")


def measure(program, folder, text, count):
    """The least seconds of processor time of a run with so many messages, and the most memory."""
    script, record = folder / "script", folder / "record"
    write_script(script, text, count)
    times, most = [], 0
    for _ in range(RUNS):
        done = 0

        def look(line):
            nonlocal done
            done += b'"code":100' in line

        status, seconds, memory = replay(program, FIRST, script, record, look)
        if (status, done) != (0, count):
            sys.exit(f"status {status}, {done} done; wanted are 0, {count}")
        times.append(seconds)
        most = max(most, memory)
    return min(times), most


def for_one(program, folder, sort):
    """The seconds that one message of this sort takes, and the most memory of a run with five."""
    text = message(sort)
    one, _ = measure(program, folder, text, 1)
    more, memory = measure(program, folder, text, 1 + MORE)
    return (more - one) / MORE, memory


def main():
    program = program_named(sys.argv[1:])
    with tempfile.TemporaryDirectory() as folder:
        for sort in SORTS:
            seconds, memory = for_one(program, pathlib.Path(folder), sort)
            print(f"{sort}: {seconds * 1e3:.1f} ms, {memory / 2**20:.0f} MiB at most", flush=True)


if __name__ == "__main__":
    main()
