"""A level whose slots are used again: each allocation of it refused in turn, and its memory while many requests come."""

import os
import subprocess
import sys

HERE = os.path.dirname(os.path.dirname(os.path.abspath(__file__)))
sys.path.insert(0, os.path.join(HERE, "lib"))
from harness import Files, Memory, Tally, build_crate, run

tally = Tally()
program = build_crate("apf_trials")
files = Files()
shim = os.path.join(files.folder.name, "refuse.so")
subprocess.run(["cc", "-O1", "-shared", "-fPIC", "-o", shim, os.path.join(HERE, "lib", "refuse.c")], check=True)
marker = os.path.join(files.folder.name, "refused")


def ticket(slot, given, width=1):
    """The number of a request: how many times its slot was given until then, its width, and its slot."""
    return "Ticket { number: %d }" % ((given * 2**15 + width) * 2**14 + slot)


# one seat, one queue, and three slots; the calls, with what each is to answer
CALLS = (
    ("try_arrive 0", "Is(Run)"),
    ("arrive 1", "Came(Waits, Some(Enter(%s, 0)))" % ticket(1, 1)),
    ("arrive 2", "Came(Waits, Some(Enter(%s, 0)))" % ticket(2, 1)),
    ("arrive 2", "Came(Wrong, None)"),
    ("cancel what never began in slot 1", "Cancelled(Other)"),
    ("cancel 1", "Cancelled(Is(Cancelled))"),
    ("poll 1", "Is(Over(Cancelled))"),
    ("arrive 1", "Came(Waits, Some(Enter(%s, 0)))" % ticket(1, 2)),
    ("finish 0", "Is(Released(true))"),
    ("poll 2", "Is(Run)"),
    ("set_limit 2", "Limit(1)"),
    ("poll 1", "Is(Run)"),
    ("copy_events from 1", "Copied(1, 4, Enter(%s, 0))" % ticket(2, 1)),
    ("stats", "Numbers(LifeStats { entered: 3, dispatched: 2, struck: 1, full: 0 })"),
    ("finish 2", "Is(Released(false))"),
    ("finish 1", "Is(Released(false))"),
    ("finish 1", "Is(Wrong)"),
    ("close", "Closed(First)"),
    ("arrive 0", "Came(Over(Closed), None)"),
)
ANSWERS = "".join(answer + "\n" for _, answer in CALLS).encode()
ENDED = b"Counts { executed: 3, queue_full: 0, closed: 1, concurrency_limit: 0, cancelled: 1 }\n"
AMPLE = (0, ANSWERS + ENDED, b"")
NOT_OPENED = (3, b"", b"out of memory\n")
NOT_ENDED = (3, ANSWERS, b"out of memory at the end\n")

tally.check("with ample memory", run(program, ["lives", "memory"]), AMPLE)
number, runs = 0, []
while number < 10_000:
    number += 1
    if os.path.exists(marker):
        os.remove(marker)
    got = run(program, ["lives", "memory"], env=dict(os.environ, LD_PRELOAD=shim, APF_REFUSE=str(number), APF_REFUSED=marker))
    if not os.path.exists(marker):
        break
    # a list that is refused its room at first may find some later
    tally.check(f"without allocation {number}", got, got if got in (AMPLE, NOT_ENDED) else NOT_OPENED)
    runs.append(got)
tally.check("the last run meets no refusal", (os.path.exists(marker), got), (False, AMPLE))
# the runs that want memory: at first those that are not opened, and after them those that are not ended
places = [got == NOT_ENDED for got in runs if got != AMPLE]
tally.check("the level is refused at its opening and at its end", (set(places), places == sorted(places)), ({False, True}, True))


def after(rounds):
    """What a run of this many rounds says, and the memory that it had."""
    with subprocess.Popen([program, "lives", "rounds", str(rounds)], stdout=subprocess.PIPE) as process:
        memory = Memory(process)
        said = process.stdout.read()
    return (process.returncode, said), memory


def counts(executed):
    return (0, b"Counts { executed: %d, queue_full: 0, closed: 0, concurrency_limit: 0, cancelled: 0 }\n" % executed)


# 64 requests a round
FEW, MANY = 10, int(os.environ.get("APF_ROUNDS", "30000"))
few, _ = after(FEW)
many, memory = after(MANY)
tally.check(f"{FEW} rounds", few, counts(64 * FEW))
tally.check(f"{MANY} rounds", many, counts(64 * MANY))
print(f"{64 * MANY} requests: {memory.most()} KiB, of which {memory.growth()} after a quarter of the time")
tally.check("memory does not grow", memory.growth() <= 256, True)
tally.end()
