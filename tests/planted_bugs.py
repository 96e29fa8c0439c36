"""The planted bugs still apply: those of planted/, which ./plant tries, and those of crates/*/must-fail, which `rt ci` tries. For each it is
recorded what refused it, and each that `./test all` is to try is there."""

import os
import sys

sys.path.insert(0, os.path.join(os.path.dirname(os.path.abspath(__file__)), "lib"))
from edits import CRATES, LISTED, PLANTED, BadEdit, goals_of, listed, must_fail_of, planted_of, reader_of
from harness import Tally

# as many as `rt ci` tries at most: the first of a crate proves the crate once more, and each further one takes half a minute
MOST = 8
tally = Tally()
crates = sorted(os.listdir(CRATES))
folders = [it for it in os.listdir(PLANTED) if it != os.path.basename(LISTED)]
tally.check("each folder of planted bugs is of a crate", [it for it in folders if it not in crates], [])
planted_in = {crate: planted_of(crate) for crate in folders}
there = {(crate, bug.name) for crate, bugs in planted_in.items() for bug in bugs}
tally.check("each bug of the list is there", [it for it in listed() if it not in there], [])
tally.check("the list has each bug once, in order", listed(), sorted(set(listed())))


def fault(edit, read):
    """Why the edit cannot be applied, or changes nothing."""
    try:
        changed = edit.applied({}, read)
    except BadEdit as why:
        return str(why)
    return None if any(read(file) != text for file, text in changed.items()) else "it changes nothing"


tried = 0
for crate in crates:
    kept, planted = must_fail_of(crate), planted_in.get(crate, [])
    tried += len(kept)
    tally.check(f"{crate}: each name stands once", sorted({it.name for it in kept} & {it.name for it in planted}), [])
    read = reader_of(os.path.join(CRATES, crate))
    for it in [*kept, *planted]:
        tally.check(f"{crate}/{it.name} applies", fault(it, read), None)
    tally.check(f"{crate}: goals.txt has each", sorted(goals_of(crate)), sorted(it.name for it in [*kept, *planted]))
    bodies = [(tuple(it.pairs), it.name) for it in [*kept, *planted]]
    tally.check(f"{crate}: no two are the same", [name for at, (pairs, name) in enumerate(bodies) if pairs in [other for other, _ in bodies[:at]]], [])
tally.check(f"at most {MOST} in crates/*/must-fail", tried <= MOST, True)
tally.end()
