"""Long traces: `simulate` of twenty traces of many requests, which are made while they are read, with a simulation in C, tests/lib/simulate.c.

Each has 250,000 requests, or as many as APF_LONG says: `./test all` says a million.
"""

import json
import os
import subprocess
import sys
from concurrent.futures import ThreadPoolExecutor

sys.path.insert(0, os.path.join(os.path.dirname(os.path.abspath(__file__)), "lib"))
from harness import Files, Memory, Tally, build
from in_c import compiled, level_of, run_of
from simulation import words_of

tally = Tally()
program = build()
files = Files()
# the same draws each time; APF_SEED draws others
seed = int(os.environ.get("APF_SEED", "1056"))
LEAST = 250_000
MANY = int(os.environ.get("APF_LONG", LEAST))
# of a program that reads a trace of any length, in KiB
MOST_MEMORY = 65_536
model, makes = compiled(files, "simulate"), compiled(files, "long")
print(f"seed {seed}")


def through_both(makes_it, runs, words):
    """The processes that make a trace, and read it: the simulation in C of these runs, and the program with these words. It is made once for both."""
    judging = subprocess.Popen([model, runs], stdin=subprocess.PIPE, stdout=subprocess.PIPE)
    copy = judging.stdin.fileno()
    making = subprocess.Popen([*makes_it, str(copy)], stdin=subprocess.DEVNULL, stdout=subprocess.PIPE, pass_fds=[copy])
    running = subprocess.Popen([program, *words], stdin=making.stdout, stdout=subprocess.PIPE)
    # the two pipes are theirs
    judging.stdin.close()
    making.stdout.close()
    return judging, making, running


# by what requests are charged where nobody says it
USUAL = None
# the lines that are read before the first request is handed out
READ = 131_073
# levels for long traces: what they are, the level, the patience, what is charged, how many flows there are, for how many seats they have work, and a line
# with a cost
LONG = [
    ("the level of the noisy client", level_of(10, 64, 8), 8_000_000, USUAL, 200, 11, 0),
    ("short queues", level_of(100, 32, 4, 8), 100_000, "time", 200, 120, 0),
    ("workload-low", level_of(245, 128, 6), 15_000_000, USUAL, 200, 260, 0),
    ("by seats", level_of(20, 16, 4, 10), 1_000_000, "seats", 200, 22, 0),
    ("nobody gives up", level_of(50, 8, 2, 500), 0, USUAL, 200, 50, 0),
    ("a level that rejects", level_of(100, 0), 1_000_000, USUAL, 200, 110, 0),
    ("a cost that is read early", level_of(20, 8, 2, 40), 200_000, USUAL, 200, 21, READ),
    ("a cost that is read late", level_of(20, 8, 2, 40), 200_000, USUAL, 200, 21, READ + 1),
    ("one queue", level_of(30, 1, 1, 9000), 2_000_000, USUAL, 200, 31, 0),
    ("more flows than have a line", level_of(30, 256, 6, 20), 1_000_000, USUAL, 150_000_000_000 // MANY, 31, 0),
    ("one seat", level_of(1, 8, 2, 100), 5_000_000, USUAL, 200, 1, 0),
    ("a hand of all queues", level_of(40, 8, 8, 30), 1_000_000, USUAL, 200, 42, 0),
    ("1,024 queues", level_of(60, 1024, 4, 4), 500_000, USUAL, 200, 66, 0),
    ("twice the work", level_of(50, 64, 6, 50), 1_000_000, USUAL, 200, 100, 0),
    ("half the work", level_of(50, 64, 6, 50), 1_000_000, USUAL, 200, 25, 0),
    ("hardly any patience", level_of(50, 64, 6, 50), 1_000, USUAL, 200, 55, 0),
    ("one flow", level_of(25, 16, 2, 60), 1_000_000, USUAL, 1, 27, 0),
    ("5,000 flows by seats", level_of(80, 128, 8, 10), 2_000_000, "seats", 5_000, 85, 0),
    ("20,000 flows", level_of(245, 128, 6), 15_000_000, "time", 20_000, 250, 0),
    ("a level that rejects most", level_of(10, 0), 0, USUAL, 200, 40, 0),
]


def looked_at(number):
    """Of a trace of many requests, made while it is read, nearly in order: what was looked at, what came and what has to come by the simulation in C; and
    what is printed of it."""
    name, config, patience, charge, flows, seats, cost = LONG[number]
    makes_it = [makes, "trace", *map(str, (seed + number, MANY, flows, seats, cost))]
    runs = files(f"runs{number}", run_of(config, patience, charge, "/dev/stdin"))
    words = ["simulate", files(f"config{number}", json.dumps(config)), "-", *words_of(patience, charge)]
    judging, making, running = through_both(makes_it, runs, words)
    memory = Memory(running)
    got, want = running.stdout.read().decode(), judging.stdout.read().decode()
    statuses = making.wait(), running.wait()
    lines, foreseen = got.splitlines(), want.splitlines()[:-1]
    apart = [it for it in zip(lines, foreseen) if it[0] != it[1]]
    others = [line for line in foreseen if line.startswith("others ")]
    found = [
        ("the status of the simulation in C", judging.wait(), 0),
        ("the statuses", statuses, (0, 0)),
        (f"the lines of {MANY} requests", (len(lines), apart[:3]), (len(foreseen), [])),
        ("percentiles of many waits", "~" in want or MANY < LEAST, True),
        ("the others have a line", len(others), 1 if flows > 100_000 and MANY >= LEAST else 0),
    ]
    if flows <= 200:
        found.append((f"at most {MOST_MEMORY} KiB: {memory.most()}", memory.most() <= MOST_MEMORY, True))
    return name, found, f"{memory.most()} KiB; {foreseen[-3]}; {foreseen[-2]}; {foreseen[-1]}"


def check_long():
    """Each of them, two side by side."""
    with ThreadPoolExecutor(2) as pool:
        for name, found, line in pool.map(looked_at, range(len(LONG))):
            for what, got, want in found:
                tally.check(f"{name}: {what}", got, want)
            print(f"{MANY} requests, {name}: {line}")


check_long()
tally.end()
