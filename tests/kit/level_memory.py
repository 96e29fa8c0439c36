"""Each allocation of a level refused in turn: it is not opened, or not ended, or all is as with ample memory, and so is each answer between."""

import os
import subprocess
import sys

HERE = os.path.dirname(os.path.dirname(os.path.abspath(__file__)))
sys.path.insert(0, os.path.join(HERE, "lib"))
from harness import Files, Tally, build_crate, run

tally = Tally()
program = build_crate("apf_trials")
files = Files()
shim = os.path.join(files.folder.name, "refuse.so")
subprocess.run(["cc", "-O1", "-shared", "-fPIC", "-o", shim, os.path.join(HERE, "lib", "refuse.c")], check=True)
marker = os.path.join(files.folder.name, "refused")

# one seat, one queue, and four requests of one seat each; the calls, with what each is to answer
CALLS = (
    ("try_admit 0", "Run"),
    ("begin 1", "Waits"),
    ("begin 2", "Waits"),
    ("poll 1", "Waits"),
    ("cancel 1", "Over(Cancelled)"),
    ("look", "Word(LevelWord { closed: false, waiters: 2, seats: 1, limit: 1 })"),
    ("strike 1", "Struck(true)"),
    ("look", "Word(LevelWord { closed: false, waiters: 1, seats: 1, limit: 1 })"),
    ("stats", "Numbers(Stats { entered: 2, dispatched: 0, struck: 1, full: 0, waiting: 1 })"),
    ("copy_events", "Copied(3, [Enter(1, 0), Enter(2, 0), Strike(1, 0), Full(9, 9)])"),
    ("release 0", "Released(true)"),
    ("dispatch", "Dispatched(1)"),
    ("stats", "Numbers(Stats { entered: 2, dispatched: 1, struck: 1, full: 0, waiting: 0 })"),
    ("poll 1", "Over(Cancelled)"),
    ("poll 2", "Run"),
    ("release 2", "Released(false)"),
    ("admit 3", "Run"),
    ("release 3", "Released(false)"),
    ("close", "Closed(First)"),
)
ANSWERS = "".join(answer + "\n" for _, answer in CALLS).encode()
ENDED = b"Counts { executed: 3, queue_full: 0, closed: 0, concurrency_limit: 0, cancelled: 1 }\n"
AMPLE = (0, ANSWERS + ENDED, b"")
NOT_OPENED = (3, b"", b"out of memory\n")
NOT_ENDED = (3, ANSWERS, b"out of memory at the end\n")

tally.check("with ample memory", run(program, ["levels", "memory"]), AMPLE)
number, runs = 0, []
while number < 10_000:
    number += 1
    if os.path.exists(marker):
        os.remove(marker)
    got = run(program, ["levels", "memory"], env=dict(os.environ, LD_PRELOAD=shim, APF_REFUSE=str(number), APF_REFUSED=marker))
    if not os.path.exists(marker):
        break
    # a list that is refused its room at first may find some later
    tally.check(f"without allocation {number}", got, got if got in (AMPLE, NOT_ENDED) else NOT_OPENED)
    runs.append(got)
tally.check("the last run meets no refusal", (os.path.exists(marker), got), (False, AMPLE))
# the runs that want memory: at first those that are not opened, and after them those that are not ended
places = [got == NOT_ENDED for got in runs if got != AMPLE]
tally.check("no run that is opened is followed by one that is not", places, sorted(places))
tally.check("a run is not opened, and one is not ended", set(places), {False, True})
tally.end()
