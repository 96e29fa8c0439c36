"""A long log: an audit log of a million events goes through a pipe of `trace` and `simulate`, and the sums are those that it was made with."""

import json
import os
import sys

sys.path.insert(0, os.path.join(os.path.dirname(os.path.abspath(__file__)), "lib"))
from harness import Files, Memory, Tally, build
from in_c import compiled, level_of, through

tally = Tally()
program = build()
files = Files()
# the same draws each time; APF_SEED draws others
seed = int(os.environ.get("APF_SEED", "1056"))
EVENTS = int(os.environ.get("APF_EVENTS", "1000000"))
# of each of the two programs, in KiB: a log is not in the order of its arrivals, so both stores of the window are there
MOST_MEMORY = 81_920
makes = compiled(files, "long")
print(f"seed {seed}")


def check_log():
    """An audit log through two programs. Each of its requests executes, so each user's seat-time is how long the user's requests ran."""
    schema, sums = "service-accounts", files("sums", b"")
    makes_it = [makes, "log", str(seed), str(EVENTS), sums]
    config = level_of(25, 64, 8, 1000)
    making, tracing, running = through(
        [makes_it, [program, "trace", "-", schema], [program, "simulate", files("config", json.dumps(config)), "-", "0"]], stderr=open(files("said", b""), "wb")
    )
    memories = [Memory(it) for it in (tracing, running)]
    lines = running.stdout.read().decode().splitlines()
    tally.check("a log: the statuses", [it.wait() for it in (making, tracing, running)], [0, 0, 0])
    with open(sums) as made, open(os.path.join(files.folder.name, "said")) as said:
        *users, (refused, unnamed) = [[*map(int, line.split())] for line in made]
        told = said.read().splitlines()
    want = {f'"{schema}" "system:serviceaccount:team-{user % 20}:worker-{user}"': (count, count, ran) for user, count, ran in users if count}
    got = {}
    for line in lines[:-5]:
        words, _, name = line.partition(" of ")
        words = words.split()
        got[name] = (int(words[3]), int(words[5]), int(words[11]))
    tally.check(f"a log of {EVENTS} events: the requests of each user, those that executed, and how long they ran", got, want)
    tally.check("a log: the whole", lines[-3], f"executed {EVENTS} rejected 0 cancelled 0 undecided 0")
    tally.check("a log: many wait", int(lines[-1].split()[1]) > EVENTS // 50, True)
    tally.check("a log: what was left out", sorted(it.split(":")[1].strip() for it in told), sorted(["events without a user's name, as of a failed login, are left out", f"{refused} of {EVENTS} requests were turned away with status 429"]))
    tally.check("a log: how many", [it for it in told if "login" in it], [f"apf: events without a user's name, as of a failed login, are left out: {unnamed}"])
    for name, memory in zip(("trace", "simulate"), memories):
        tally.check(f"a log: {name} takes at most {MOST_MEMORY} KiB: {memory.most()}", memory.most() <= MOST_MEMORY, True)


check_log()
tally.end()
