#!/usr/bin/env python3
"""Runs a gate and tells what each crate cost, as the table of docs/COST.md.

    tools/gate_costs.py OUT [COMMAND ..]

COMMAND is `rt ci --anew` unless it is named; it runs in this repository, and its output goes where ours
does. Looks at all its processes twice a second, and writes a table to OUT each minute and at the end:
for each crate the processor seconds of its proof, its tests, the check that its wrong bodies begin with,
and the wrong bodies, and the most memory of one process. What a process used after the last look at it
isn't in the table; the sums below it are the system's own. Run nothing beside it. Ends as COMMAND does.
"""

import collections
import os
import pathlib
import re
import subprocess
import sys
import time

HOME = pathlib.Path(__file__).resolve().parent.parent
TICK = os.sysconf("SC_CLK_TCK")
PAGE = os.sysconf("SC_PAGE_SIZE")
PHASES = ("proof", "tests", "start of wrong bodies", "wrong bodies", "programs")


def phase_of(line, place):
    """What a process of the prover does, by its words and the folder that it runs in."""
    words = line.split()
    if "rt-edits-" in line:
        return "start of wrong bodies" if "/seed" in line else "wrong bodies"
    if "/rt-edit-" in place:
        return "wrong bodies"
    if "--test" in words:
        return "tests"
    return "proof" if words[1:2] in (["build"], ["check"]) else "programs"


def processes():
    """Of each process its number, its parent's, its start, seconds, bytes, words and folder."""
    for name in filter(str.isdigit, os.listdir("/proc")):
        try:
            stat = pathlib.Path("/proc", name, "stat").read_text()
            line = pathlib.Path("/proc", name, "cmdline").read_bytes().replace(b"\0", b" ").decode("utf-8", "replace")
            place = os.readlink(f"/proc/{name}/cwd")
        except OSError:
            continue
        fields = stat[stat.rindex(")") + 2 :].split()
        seconds = (int(fields[11]) + int(fields[12])) / TICK
        yield int(name), int(fields[1]), fields[19], seconds, int(fields[21]) * PAGE, line, place


class Costs:
    """What was seen of the processes below one."""

    def __init__(self, root):
        self.known = {root}
        self.seen = {}

    def look(self):
        now = list(processes())
        grown = True
        while grown:
            below = {number for number, parent, *_ in now if parent in self.known}
            grown = not below <= self.known
            self.known |= below
        for number, _, start, seconds, memory, line, place in now:
            crate = re.search(r"--crate-name (\S+)", line)
            if number in self.known and crate:
                key = number, start
                most = max(memory, self.seen[key][3]) if key in self.seen else memory
                self.seen[key] = crate[1], phase_of(line, place), seconds, most

    def table(self):
        cost, most = collections.Counter(), collections.Counter()
        for crate, phase, seconds, memory in self.seen.values():
            cost[crate, phase] += seconds
            most[crate] = max(most[crate], memory)
        rows = ["| crate | " + " | ".join(PHASES) + " | all | GB |", "|---" * (len(PHASES) + 3) + "|"]
        for crate in sorted(most, key=lambda it: -sum(cost[it, phase] for phase in PHASES)):
            parts = [cost[crate, phase] for phase in PHASES]
            told = " | ".join(f"{part:.0f}" if part else "" for part in parts)
            rows.append(f"| {crate} | {told} | {sum(parts):.0f} | {most[crate] / 1e9:.1f} |")
        sums = [sum(cost[crate, phase] for crate in most) for phase in PHASES]
        told = " | ".join(f"{part:.0f}" for part in sums)
        return [*rows, f"| all | {told} | {sum(sums):.0f} | |"]


def main():
    out = pathlib.Path(sys.argv[1]) if len(sys.argv) > 1 else sys.exit(__doc__)
    command = sys.argv[2:] or ["rt", "ci", "--anew"]
    begun = time.time()
    run = subprocess.Popen(command, cwd=HOME)
    costs, written = Costs(run.pid), begun
    while True:
        ended, status, used = os.wait4(run.pid, os.WNOHANG)
        if ended:
            break
        costs.look()
        if time.time() - written > 60:
            written = time.time()
            out.write_text("\n".join(costs.table()) + "\n")
        time.sleep(0.5)
    total = f"{(used.ru_utime + used.ru_stime) / 60:.0f} processor minutes in {(time.time() - begun) / 60:.0f} minutes"
    out.write_text("\n".join([*costs.table(), "", total]) + "\n")
    sys.exit(os.waitstatus_to_exitcode(status))


if __name__ == "__main__":
    main()
