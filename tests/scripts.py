"""2,000 random scripts of all commands, on levels of both responses: `replay`, `services` and `waits` against an independent
model, and the bound of each wait."""

import json
import os
import random
import sys

sys.path.insert(0, os.path.join(os.path.dirname(os.path.abspath(__file__)), "lib"))
from harness import Files, Tally, build, run
from level import Level, answer

tally = Tally()
program = build()
files = Files()
# the same draws each time; APF_SEED draws others
seed = int(os.environ.get("APF_SEED", "1040"))
draw = random.Random(seed)
print(f"seed {seed}")


def config():
    """A level that is small, so that its queues are full and its seats are taken."""
    queues = draw.choice([1, 1, 2, 3, 5, 8, 64])
    hand = draw.randint(1, min(queues, 8))
    return {
        "limit": draw.choice([1, 1, 2, 3, 5, 8, 20]),
        "queues": queues,
        "handSize": hand,
        "queueLengthLimit": draw.choice([1, 2, 3, 10]),
        "limitResponse": draw.choice(["Queue", "Queue", "Queue", "Reject"]),
    }


def request():
    flow = draw.choice([{"hash": draw.choice([0, 1, 2, 7, draw.getrandbits(64)])}, {"schema": draw.choice("ab"), "distinguisher": draw.choice("cd")}])
    return {**flow, "width": draw.choice([1, 1, 1, 2, 3, 7])} if draw.random() < 0.6 else flow


def line(count, arrived):
    """Mostly arrivals of those that did not come yet and finishes of those that did, so that much happens."""
    kind = draw.random()
    if kind < 0.45:
        number = len(arrived) if len(arrived) < count and draw.random() < 0.9 else draw.randrange(count)
        arrived.append(number)
        return f"arrive {number}"
    if kind < 0.8:
        return f"finish {draw.choice(arrived) if arrived and draw.random() < 0.9 else draw.randrange(count)}"
    if kind < 0.93:
        return f"cancel {draw.randrange(count)}"
    if kind < 0.99:
        return f"limit {draw.choice([1, 2, 3, 5, 9, 10_000])}"
    return "close"


def script(count):
    arrived = []
    return "".join(f"{line(count, arrived)}\n" for _ in range(draw.choice([5, 20, 60, 150]))) if count else "close\n"


def adds_up(requests, out):
    """The book's sums, whatever the model says of it."""
    level, decided, rejected, log = (line.split() for line in out.decode().splitlines()[-4:])
    numbers = [int(word) for word in [*level[3::2], *decided[1::2], *rejected[1::2], *log[1::2]]]
    _, waiting, executed, refused, cancelled, undecided, full, closed, concurrency, entered, dispatched, struck = numbers
    sums = (executed + refused + cancelled + undecided, full + closed + concurrency, dispatched + struck + waiting)
    return sums == (len(requests), refused, entered)


def is_bounded(level, requests, out):
    """Whether each wait is bounded: another queue is given at most the seats before the request and twice the largest width."""
    widest = max((it.get("width", 1) for it in requests), default=0)
    for line in out.decode().splitlines():
        ahead, most, total = (int(line.split()[place]) for place in (5, 7, 9))
        if most > ahead + 2 * widest or total > ahead + (level["queues"] - 1) * (ahead + 2 * widest):
            return False
    return True


SCRIPTS = int(os.environ.get("APF_SCRIPTS", "2000"))
seen = dict.fromkeys(["again", "queued", "queue-full", "concurrency-limit", "closed", "cancelled", "not running", "dispatch", "strike", "close already", "was"], 0)
waited = 0
for number in range(SCRIPTS):
    requests = [request() for _ in range(draw.choice([0, 1, 5, 20, 50]))]
    level = config()
    contents = [json.dumps(level).encode(), json.dumps(requests).encode(), script(len(requests)).encode()]
    paths = [files(name, content) for name, content in zip(("config", "requests", "script"), contents)]
    got = run(program, ["replay", *paths])
    tally.check(f"replay of {contents}", got, answer(*contents))
    tally.check(f"services of {contents}", run(program, ["services", *paths]), answer(*contents, Level.services))
    got_waits = run(program, ["waits", *paths])
    tally.check(f"waits of {contents}", got_waits, answer(*contents, Level.waits))
    tally.check(f"the waits of {contents} are bounded", is_bounded(level, requests, got_waits[1]), True)
    waited += any(line.split()[7] != "0" for line in got_waits[1].decode().splitlines())
    tally.check(f"the book of {contents} adds up", adds_up(requests, got[1]), True)
    for what in seen:
        seen[what] += any(what in it for it in got[1].decode().splitlines()[:-4])
for what, count in seen.items():
    tally.check(f"many scripts have a line with {what}: {count}", count >= min(100, SCRIPTS // 20), True)
tally.check(f"in many scripts a request is overtaken: {waited}", waited >= min(100, SCRIPTS // 20), True)
tally.end()
