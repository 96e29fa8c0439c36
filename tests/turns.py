"""What each worker of `run` does, and when: whose work is done, by which worker, and how much of it; that all workers are at work at once; and in which order a worker
brings a request to its end. Nothing that the program prints says so. The program's threads run an instruction at a time, each turn of work is counted, and threads
are held at chosen places until others come to theirs (tests/lib/turns.c). So what would be a race has one end."""

import json
import os
import platform
import struct
import subprocess
import sys

HERE = os.path.dirname(os.path.abspath(__file__))
sys.path.insert(0, os.path.join(HERE, "lib"))
from harness import Files, Tally, build, run

if platform.machine() != "x86_64":
    print("not tried: all of it, as the processor is no x86-64")
    print("0 passed, 0 failed, 1 skipped")
    sys.exit(0)

tally = Tally()
program = build()
files = Files()
LOADED = files("turns.so", b"")
subprocess.run(["cc", "-O1", "-shared", "-fPIC", "-o", LOADED, os.path.join(HERE, "lib", "turns.c"), "-ldl"], check=True)
KINDS = ("begin", "turn", "sleep", "stop", "woken", "wake", "end")
THREADS = PLACES = 64
FORM = f"{THREADS * len(KINDS) + 2 * PLACES}q"


class Ran:
    """A run of these requests by workers, some of which are held: its answer, what each of them did, and at which places there were turns of work."""

    def __init__(self, config, requests, workers, holds=(), places=(), rounds=1):
        path = files("counts", bytes(struct.calcsize(FORM)))
        environment = {**os.environ, "LD_PRELOAD": LOADED, "APF_COUNTS": path, "APF_HOLDS": " ".join(holds), "APF_PLACES": " ".join(f"{it:x}" for it in places)}
        words = ["run", files("config", json.dumps(config)), files("requests", json.dumps(requests)), str(workers), "--rounds", str(rounds)]
        self.answer = run(program, words, env=environment)
        with open(path, "rb") as file:
            numbers = struct.unpack(FORM, file.read())
        self.did = [dict(zip(KINDS, numbers[at:])) for at in range(0, THREADS * len(KINDS), len(KINDS))][:workers]
        self.places = [it for it in numbers[THREADS * len(KINDS) :: 2] if it]

    def turns(self):
        return [it["turn"] for it in self.did]


def book(closed, *numbers):
    return (
        "level %s seats 0 waiting 0\nexecuted %d rejected %d cancelled %d undecided 0\n"
        "queue-full %d closed %d concurrency-limit %d\nentered %d dispatched %d struck %d\n" % (closed, *numbers)
    ).encode()


def executed(count):
    return 0, book("open", count, 0, 0, 0, 0, 0, 0, 0, 0), b""


def one_queue(limit, **more):
    return {"limit": limit, "queues": 1, "handSize": 1, "queueLengthLimit": 10, **more}


def working(*requests):
    """These requests, each of which works for one turn, where it says nothing else."""
    return [{"hash": 0, "work": 1, **it} for it in requests]


# ---- one worker: the work of who executes is done, each as much as it says, and nobody else's. The third request is cancelled, and the fourth one closes the level

FIVE = [{"hash": 0, "work": 5, "cancels": 2}, {"hash": 0, "work": 70}, {"hash": 0, "work": 900}, {"hash": 0, "work": 1000, "closes": True}, {"hash": 0, "work": 20_000}]
ran = Ran(one_queue(1), FIVE, 1)
tally.check("five requests", (ran.answer, ran.turns()), ((0, book("closed", 2, 2, 1, 0, 2, 0, 0, 0, 0), b""), [75]))
# One worker never waits for a lock, so that each place is one of work. A compiler makes some of one loop, by how many turns are left. Those of rounds are others
MANY = working(*({"work": turns} for turns in range(1, 41)))
PLACES_OF = {rounds: Ran(one_queue(1), MANY, 1, rounds=rounds).places for rounds in (1, 2)}
tally.check("turns of work have places", [len(it) > 0 for it in PLACES_OF.values()], [True, True])
# in each of two rounds all five come, and the first one names nobody yet. Then the level is closed
ran = Ran(one_queue(1), FIVE, 1, rounds=2)
tally.check("five requests twice", (ran.answer, ran.turns()), ((0, book("closed", 3, 7, 0, 0, 7, 0, 0, 0, 0), b""), [975]))

# ---- which worker does which requests' work: worker K of M has those whose number leaves K when divided by M, and does each one's once

for count, workers, rounds, want in (
    (6, 2, 1, [21, 42]),
    (6, 2, 3, [63, 126]),
    (10, 4, 1, [1 + 16 + 256, 2 + 32 + 512, 4 + 64, 8 + 128]),
    (5, 8, 1, [1, 2, 4, 8, 16, 0, 0, 0]),
):
    ran = Ran(one_queue(10), working(*({"work": 1 << number} for number in range(count))), workers, places=PLACES_OF[min(rounds, 2)], rounds=rounds)
    tally.check(f"the shares of {count} requests by {workers} workers in {rounds} rounds", (ran.answer, ran.turns()), (executed(count * rounds), want))

# ---- all workers are at work at once: each request waits for as many others as there are workers, for the first of each worker, then for the second, and so on


def meeting(workers, times):
    """Each worker waits at its first turn until all make theirs, and so at its second one, and so on."""
    return [f"{one}.turn.{time}:{other}.turn.{time}" for one in range(workers) for other in range(workers) for time in range(1, times + 1) if one != other]


for workers, times in ((2, 1), (8, 1), (2, 3)):
    ran = Ran(one_queue(workers), working({}) * (workers * times), workers, meeting(workers, times), PLACES_OF[1])
    tally.check(f"{workers} workers meet {times} times", (ran.answer, ran.turns()), (executed(workers * times), workers * [times]))
ran = Ran(one_queue(3), working({}) * 3, 3, meeting(3, 4), PLACES_OF[2], rounds=4)
tally.check("three workers meet in each of four rounds", (ran.answer, ran.turns()), (executed(12), [4, 4, 4]))

# ---- in which order a worker brings a request to its end. The first requests of all workers are at work together, and end one after another: each only when the worker
# of the one before sleeps, as its next request waits


def in_turn(workers):
    return meeting(workers, 1) + [f"{one}.turn.1:{one - 1}.sleep.1" for one in range(1, workers)]


ORDERS = [
    # the third one waits for the seats of the second, which names it. Were the seats free before that, it would execute
    ("the named is cancelled before seats are free", 2, [{}, {"cancels": 2}, {"width": 2}], book("open", 2, 0, 1, 0, 0, 0, 1, 0, 1), [1, 1]),
    # the fourth and the fifth wait, and the third names the fifth
    ("the named is struck", 3, [{}, {}, {"cancels": 4}, {"width": 3}, {"width": 3}], book("open", 4, 0, 1, 0, 0, 0, 2, 1, 1), [2, 1, 1]),
    # the third one waits until the second gives its seat back. Where nobody dispatched it, the run would not end
    ("who gives seats back dispatches", 2, [{}, {}, {"width": 2}], book("open", 3, 0, 0, 0, 0, 0, 1, 1, 0), [2, 1]),
]
for name, workers, requests, want, turns in ORDERS:
    ran = Ran(one_queue(workers), working(*requests), workers, in_turn(workers), PLACES_OF[1])
    tally.check(name, (ran.answer, ran.turns()), ((0, want, b""), turns))

# The named is struck before seats are free. Of three seats the third request has one when the fifth, which needs all of them, waits, and the sixth behind it. The
# third names the fifth: when that is struck, the sixth is dispatched, and the third worker wakes it, still with the level's lock. Now the fourth request comes, for
# two seats. Its worker waits for the lock, and gets it while the third worker is held as it gives the lock back. The third request has its seat, so there is no
# room, and the fourth one enters the queue and waits. Had that seat been given back before, it would execute at once. The worker of the fifth is held all the time, so
# that it strikes nothing itself
HELD = ["3.begin.1:2.wake.2", "2.wake.2:3.stop.1", "2.wake.3:3.stop.2", "0.woken.1:3.stop.2", "1.turn.2:3.stop.2"]
ran = Ran(one_queue(3), working({}, {}, {"cancels": 4}, {"width": 2}, {"width": 3}, {}), 4, in_turn(3) + HELD, PLACES_OF[1])
want = (0, book("open", 5, 0, 1, 0, 0, 0, 3, 2, 1), b""), [1, 2, 1, 1], 2
tally.check("the named is struck before seats are free", (ran.answer, ran.turns(), ran.did[3]["sleep"]), want)

# ---- rounds in which requests name one another, or close the level: whoever executes does its work

alike = [{"hash": number} for number in range(8)]
named = [{**it, "cancels": (number + 1) % 8, **({"width": 2} if number % 3 == 2 else {})} for number, it in enumerate(alike)]
closing = [{}, {"hash": 1, "cancels": 0}, {"hash": 2, "closes": True}, {"hash": 3}]
for name, requests in (("alike", alike), ("each of which names another one", named), ("of which one closes the level", closing)):
    ran = Ran(one_queue(2), working(*requests), 4, places=PLACES_OF[2], rounds=20)
    status, out, err = ran.answer
    words = out.split() + [b""] * 7
    tally.check(f"requests {name}: as many turns as are executed", (status, words[6:8], err), (0, [b"executed", b"%d" % sum(ran.turns())], b""))
    if requests is alike:
        tally.check(f"requests {name}: all are executed", sum(ran.turns()), 160)
tally.end()
