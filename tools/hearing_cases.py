"""Writes the cases of hearing from a table of messages and of what is said to them.

usage: hearing_cases.py TABLE FOLDER

A line of TABLE has a situation (fresh, secret or identified), a message as it stands in a line of a
script, and what is said to it there: lines with ⏎ between them, or `(nothing)`. Each situation and
op is one case in FOLDER: every message of it comes from a connection of its own, which leaves
where it wasn't closed. A message that needs what isn't built has a case of its own, which it ends.

From the top of the repository

    python3 tools/hearing_cases.py crates/mix_cases/data/hearing.tsv crates/mix_cases/data

writes the cases that stand there, so that `git status` shows whether they are the table's.
"""
import glob
import json
import os
import re
import shutil
import sys

SECRET = 'secret ["hunter2","%s"]' % ("0" * 64)

COLLECTION = [
    "mixer-collection 1",
    "canvas [2,1]",
    "rate [30,1]",
    'record ["rgba",1]',
    'scene ["A"]',
    'program ["A"]',
]

ZEROS = "A" * 43 + "="

LOGIN = '"authentication":{"challenge":"%s","salt":"%s"},' % (ZEROS, ZEROS)

IDENTIFY = '{"op":1,"d":{"rpcVersion":1,"eventSubscriptions":0}}'

IDENTIFIED = '{"d":{"negotiatedRpcVersion":1},"op":2}'

# what each op that a client says is called, and everything else
OPS = {"1": "identify", "3": "reidentify", "6": "requests", "8": "batches", None: "shapes"}

# the bits of a mask that aren't built: activity and showing
NOT_BUILT_BITS = 131072 | 262144


def unescaped(text):
    return text.replace("\\\\", "\0").replace("\\n", "\n").replace("\0", "\\")


def op_of(message):
    """The first op that stands in a message, or None where it is none that a client says."""
    found = re.search(r'"op":([^,}]*)', message)
    return found.group(1) if found and found.group(1) in OPS else None


def is_built(message, said):
    """Whether a run goes on after what is said: a batch and some masks end it."""
    if not said.startswith(">"):
        return True
    op = json.loads(unescaped(said.split(" ", 1)[1]))["op"]
    if op != 2:
        return op != 9
    mask = json.loads(unescaped(message))["d"].get("eventSubscriptions") or 0
    return mask & NOT_BUILT_BITS == 0


class Run:
    """A script and its output, as they grow."""

    def __init__(self, situation):
        self.situation = situation
        self.script = []
        self.output = []
        self.connections = 0
        self.status = 0

    def come(self):
        """A connection comes and gets into the situation."""
        self.connections += 1
        login = LOGIN if self.situation == "secret" else ""
        self.script.append("+")
        self.output.append(
            '>c%d {"d":{%s"obsWebSocketVersion":"5.0.0","rpcVersion":1},"op":0}'
            % (self.connections, login)
        )
        if self.situation == "identified":
            self.script.append("<c%d %s" % (self.connections, IDENTIFY))
            self.output.append(">c%d %s" % (self.connections, IDENTIFIED))

    def hear(self, message, said):
        """The connection says a message, and leaves where it isn't closed."""
        self.script.append("<c%d %s" % (self.connections, message))
        for line in [] if said == "(nothing)" else said.split("⏎"):
            self.output.append(line.replace("c1 ", "c%d " % self.connections, 1))
        if not said.startswith("!") and "⏎!" not in said:
            self.script.append("-c%d" % self.connections)
            self.output.append("-c%d" % self.connections)

    def end(self, message):
        """The connection says a message that isn't built."""
        self.script.append("<c%d %s" % (self.connections, message))
        self.output.append("not built: line %d" % len(self.script))
        self.status = 9

    def write(self, folder):
        os.makedirs(folder)
        collection = list(COLLECTION)
        if self.situation == "secret":
            collection.insert(4, SECRET)
        texts = {"collection": collection, "script": self.script, "output": self.output}
        if self.status:
            texts["status"] = [str(self.status)]
        for name, lines in texts.items():
            with open(os.path.join(folder, name), "w", encoding="utf-8", newline="\n") as out:
                out.write("".join(line + "\n" for line in lines))


def write_cases(situation, op, rows, folder):
    """The case of a situation and an op, and those of its messages that aren't built."""
    name = os.path.join(folder, "hearing_%s_%s" % (situation, OPS[op]))
    built = Run(situation)
    ends = []
    for message, said in rows:
        if is_built(message, said):
            built.come()
            built.hear(message, said)
        else:
            ends.append(message)
    built.write(name)
    for number, message in enumerate(ends, 1):
        run = Run(situation)
        run.come()
        run.end(message)
        run.write("%s_not_built_%d" % (name, number))


def main():
    table, folder = sys.argv[1:]
    groups = {}
    with open(table, encoding="utf-8", newline="\n") as file:
        for line in file:
            situation, message, said = line.rstrip("\n").split("\t")
            op = op_of(unescaped(message))
            groups.setdefault((situation, op), []).append((message, said))
    for case in glob.glob(os.path.join(glob.escape(folder), "hearing_*")):
        shutil.rmtree(case)
    for (situation, op), rows in groups.items():
        write_cases(situation, op, rows, folder)


main()
