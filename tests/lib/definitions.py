"""The page docs/proof/DEFINITIONS.md: each definition that a row of docs/proof/PROVED.md names, in the words of the comments above it and in it.

usage: python3 tests/lib/definitions.py >docs/proof/DEFINITIONS.md

A name of PROVED's contract column is looked up in the `specs/` of the crates whose files its row names.
"""

import os
import re
import sys

from harness import TOP, lines_of_crates
from statements import all_specs

HEAD = """# Definitions

Each definition that a row of [PROVED.md](PROVED.md) names, in words: {count} in {crates} crates. Each stands in a file of its crate's folder `specs/`, and `Order.AreCounted` is `AreCounted` of `Order.antt` there. `python3 tests/lib/definitions.py >docs/proof/DEFINITIONS.md` makes this page of the comments above the definitions and above the fields of records. The tests make it again and compare. What has no comment stands as it is written.

## Conventions

Requests and queues are named by their numbers, from 0. Widths, seats and limits are whole numbers of concurrency seats.

Definitions and contracts use these short names:

| Name | Stands for | Elsewhere |
|---|---|---|
| `r` | a request's number | in `apf_run`, `r : Report` is a report, and `r : Returned` is what came back from the workers |
| `q` | a queue's number | in `apf_run`, `q : Request` is a request that names another |
| `h` | a history, its newest event first | in `apf_flow`, the number that a hand is dealt from; in `apf_queue`'s `Finishes`, how many levels a node stands over the leaves |
| `w` | a world | of a call that answers a word, a level word; `w : Wait` is a wait |
| `v` | what contracts see of a thing, as `v : LedgerView` of a ledger | in `Fair`, the numbers of virtual time; in `apf_gate`'s `Rule`, the records at one seat |
| `k` | the width, or the cost, that a dispatch is charged | in `apf_gate`, a Station's number; in `Stretch`, a place of a log; in `apf_run`'s faults, a worker's number; `k : LevelId` is which level it is; in `apf_commands`, a number of bits |
| `p`, `j` | another queue's number, another request's number | |
| `i` | a place in a list | in `apf_gate`'s `Rule`, a seat of the table; in `Finishes`, a node of the tree |
| `d`, `e` | a decision, an event | in `apf_gate`'s `Rule`, `Desk d` is the Desk's record |
| `s` | the shape that a gate was opened with | in `apf_queue`, what contracts see of the queues; in `apf_run`, a Station |
| `t` | a token, of a Pass or a Station | in `apf_gate`'s `Rule`, the state of the table |

- A name with a prime is the thing after a step: `desk` before it, `desk'` after it.
- `x.old` and `x.new` are what a call found and left, and `x.now` is what it only reads. `result` is its answer.
- In `IfOk result (λ v. ..)` and its like, the name after `λ` is what the answer holds, as the `Vec` or the book.
- A list named `widths` has one number for each request. It holds costs where a level has costs.
"""
HEADINGS = {("Promise", "Contract", "File"), ("Behavior", "Test", "File")}


def rows_of_proved():
    """The rows of the tables of docs/proof/PROVED.md, each the texts of its cells."""
    with open(os.path.join(TOP, "docs", "proof", "PROVED.md"), encoding="utf-8") as page:
        cells = [tuple(cell.strip() for cell in line.strip("|").split("|")) for line in re.findall(r"^\|.*$", page.read(), re.M)]
    return [it for it in cells if it not in HEADINGS and not all(re.fullmatch("-+", cell) for cell in it)]


def sentence(lines):
    """A comment's lines as a sentence."""
    text = " ".join(it.strip().removeprefix("--").strip() for it in lines)
    return text[0].upper() + text[1:] + ("" if text.endswith((".", ":")) else ".")


def words_of(definition):
    """What the comments say of a definition and of its fields; without comments what it says itself."""
    above, said, held = [], [], []
    for line in definition.text.split("\n"):
        field = re.match(r"\s+pub ([\w'-]+) :", line)
        if line.startswith("--"):
            above.append(line)
        elif line.strip().startswith("--"):
            held.append(line)
        elif field:
            said += [f"`{field[1]}`: {sentence(held)}"] if held else []
            held = []
    said = ([sentence(above)] if above else []) + said
    return " ".join(said or [f"`{' '.join(definition.text.split())}`"]).replace("|", "\\|")


def page():
    specs, named = all_specs(), set()
    for row in rows_of_proved():
        crates = {it.split("/")[0] for it in re.findall(r"`([^`]+)`", row[-1])}
        parts = {part for it in re.findall(r"`([^`]+)`", row[1]) for part in it.split("::")}
        named |= {it for it in specs.definitions if it[1] in parts and it[0].split(".")[1] in crates}
    body = []
    for crate in lines_of_crates():
        those = sorted((it for key, it in specs.definitions.items() if key in named and key[0].split(".")[1] == crate), key=lambda it: (it.path, it.line))
        if those:
            rows = "\n".join(f"| `{it.module.rpartition('.')[2]}.{it.name}` | {words_of(it)} |" for it in those)
            body.append(f"\n## {crate}\n\n| Definition | In words |\n|---|---|\n{rows}\n")
    return HEAD.format(count=len(named), crates=len(body)) + "".join(body)


if __name__ == "__main__":
    sys.stdout.write(page())
