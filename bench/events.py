#!/usr/bin/env python3
"""Measures the program on 100,000 events that 63 connections are told.

    bench/events.py [PROGRAM]

PROGRAM is crates/lenkhov/out/lenkhov unless it is named; `rt run` in crates/lenkhov builds it. One
connection broadcasts 100,000 events. 63 others want all that can be wanted so far; each asks for what
waits for it after 2,000 events. Prints the microseconds of processor time for an event, and for one
that is told to one connection, and the most memory. Then the same without anybody who wants an event,
with 1 and with 63 others: what an action costs for which nobody is told anything. Ends with 1 where an
answer is missing.
"""

import pathlib
import sys
import tempfile

from measuring import FIRST, program_named, replay

EVENTS = 100_000
BETWEEN = 2_000
ALL = 4294574079
DATA = '{"name":"a controller\'s own","values":[1,2,3]}'


def asked(number):
    data = f'"requestData":{{"eventData":{DATA}}}'
    fields = f'"requestType":"BroadcastCustomEvent","requestId":"{number}",{data}'
    return f'<c1 {{"op":6,"d":{{{fields}}}}}\n'


def write_script(path, others, mask):
    with open(path, "w", encoding="ascii") as file:
        for conn in range(1, others + 2):
            wanted = 0 if conn == 1 else mask
            file.write("+\n")
            file.write(f'<c{conn} {{"op":1,"d":{{"rpcVersion":1,"eventSubscriptions":{wanted}}}}}\n')
        for number in range(EVENTS):
            file.write(asked(number))
            if number % BETWEEN == BETWEEN - 1:
                file.writelines(f"?c{conn}\n" for conn in range(2, others + 2))


def measure(program, folder, others, mask):
    """The seconds of processor time and the most bytes of memory of one run, after all that it wrote was
    counted."""
    script, record = folder / "script", folder / "record"
    write_script(script, others, mask)
    answers = events = 0

    def look(line):
        nonlocal answers, events
        answers += b'"code":100' in line
        events += b'"op":5' in line

    status, seconds, memory = replay(program, FIRST, script, record, look)
    told = EVENTS * others if mask else 0
    if (status, answers, events) != (0, EVENTS, told):
        found = f"status {status}, {answers} answers, {events} events"
        sys.exit(f"{others} others: {found}; wanted are 0, {EVENTS}, {told}")
    return seconds, memory


def main():
    program = program_named(sys.argv[1:])
    with tempfile.TemporaryDirectory() as folder:
        place = pathlib.Path(folder)
        for others, mask in ((63, ALL), (1, 0), (63, 0)):
            seconds, memory = measure(program, place, others, mask)
            each = seconds / EVENTS * 1e6
            line = f"{others} others, mask {mask}: {each:.1f} us an event"
            if mask:
                line += f", {each / others:.2f} us for each that is told it"
            print(f"{line}, {memory / 2**20:.0f} MiB at most", flush=True)


if __name__ == "__main__":
    main()
