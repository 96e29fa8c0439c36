"""The worked rows of tests/rows.txt: what the program prints of small files, each computed by hand from the rules.

A row begins with `== NAME` and a sentence. Then come the texts of the config, the requests and the script, each behind a line `-- FILE`, and behind
`-- COMMAND` what that command prints of these files, with status 0 and nothing on standard error.
"""

import os
import sys

sys.path.insert(0, os.path.join(os.path.dirname(os.path.abspath(__file__)), "lib"))
from harness import TOP, Files, Tally, build, run

FILES = ("config", "requests", "script")
COMMANDS = ("replay", "services", "waits")

tally = Tally()
program = build()
files = Files()


def parts_of(row):
    """A row's name, its sentence, and its texts by their heads, in order."""
    name, sentence, *lines = row.split("\n")
    texts = {}
    for line in lines:
        if line.startswith("-- "):
            head = line[3:]
            texts[head] = ""
        else:
            texts[head] += line + "\n"
    return name, sentence, texts


with open(os.path.join(TOP, "tests", "rows.txt"), encoding="utf-8") as source:
    ROWS = [parts_of(row.rstrip("\n")) for row in ("\n" + source.read()).split("\n== ")[1:]]

for name, sentence, texts in ROWS:
    *given, command = texts
    tally.check(f"the row {name} has its parts", (tuple(given), command in COMMANDS, sentence.endswith(".")), (FILES, True, True))
    names = [files(kind, texts[kind]) for kind in FILES]
    tally.check(name, run(program, [command, *names]), (0, texts[command].encode(), b""))
tally.check("each name stands once", sorted({name for name, _, _ in ROWS}), sorted(name for name, _, _ in ROWS))
tally.check("there are rows", len(ROWS) >= 20, True)
tally.end()
