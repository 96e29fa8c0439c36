"""Runs by workers, in threads: each book says what it must say in every schedule."""

import json
import os
import random
import resource
import sys
import time

sys.path.insert(0, os.path.join(os.path.dirname(os.path.abspath(__file__)), "lib"))
from books import BOOK, Rules, faults
from harness import Files, Tally, build, run

tally = Tally()
program = build()
files = Files()
# the same draws each time; APF_SEED draws others
seed = int(os.environ.get("APF_SEED", "1040"))
draw = random.Random(seed)
print(f"seed {seed}")


def ran(config, requests, workers):
    return run(program, ["run", files("config", json.dumps(config)), files("requests", json.dumps(requests)), str(workers)])


def book(closed, *numbers):
    return (
        "level %s seats 0 waiting 0\nexecuted %d rejected %d cancelled %d undecided 0\n"
        "queue-full %d closed %d concurrency-limit %d\nentered %d dispatched %d struck %d\n" % (closed, *numbers)
    ).encode()


def one_queue(limit, **more):
    return {"limit": limit, "queues": 1, "handSize": 1, "queueLengthLimit": 10, **more}


# worked rows, which come out so in every schedule
plain = {"hash": 0}
for name, config, requests, workers, want in [
    ("thousand workers", one_queue(1000), [plain] * 1000, 8, book("open", 1000, 0, 0, 0, 0, 0, 0, 0, 0)),
    ("thousand workers, Reject", one_queue(1000, limitResponse="Reject"), [plain] * 1000, 8, book("open", 1000, 0, 0, 0, 0, 0, 0, 0, 0)),
    ("cancels and closes", one_queue(1), [{"hash": 0, "cancels": 2}, plain, plain, {"hash": 0, "closes": True}, plain], 1, book("closed", 2, 2, 1, 0, 2, 0, 0, 0, 0)),
    ("all cancel one", one_queue(8), [{"hash": 0, "cancels": 15}] * 8 + [plain] * 8, 8, book("open", 15, 0, 1, 0, 0, 0, 0, 0, 0)),
    ("nobody", one_queue(1), [], 64, book("open", 0, 0, 0, 0, 0, 0, 0, 0, 0)),
    ("one cancels itself", one_queue(1), [{"hash": 0, "cancels": 0}], 1, book("open", 1, 0, 0, 0, 0, 0, 0, 0, 0)),
]:
    tally.check(name, ran(config, requests, workers), (0, want, b""))
# of two workers each has every other request, in their order. Who names a later one of its worker cancels it, and who names an earlier one comes too late
for early, late in ((0, 2), (0, 4), (2, 4), (1, 3), (1, 5), (3, 5)):
    for one, other, when, want in ((early, late, "a later", (5, 0, 1)), (late, early, "an earlier", (6, 0, 0))):
        requests = [{"hash": 0, "cancels": other} if number == one else plain for number in range(6)]
        tally.check(f"request {one} names {when} one of its worker", ran(one_queue(6), requests, 2), (0, book("open", *want, 0, 0, 0, 0, 0, 0), b""))
status, out, err = ran(one_queue(1), [plain] * 400, 4)
found = BOOK.fullmatch(out.decode())
tally.check("four workers", (status, found and found.groups()[:10], err), (0, ("open", "0", "0", "400", "0", "0", "0", "0", "0", "0"), b""))
tally.check("four workers: whoever entered was dispatched", found and (found[11] == found[12], found[13]), (True, "0"))


def request(count):
    more = {"width": draw.choice([1, 1, 2, 3, 9])} if draw.random() < 0.5 else {}
    if draw.random() < 0.2:
        more["cancels"] = draw.randrange(count)
    if draw.random() < 0.6:
        more["work"] = draw.choice([0, 100, 2000, 20_000])
    return {"hash": draw.choice([0, 1, 7, draw.getrandbits(64)]), **more}


def drawn():
    queues = draw.choice([1, 2, 5, 64])
    config = {
        "limit": draw.choice([1, 1, 2, 3, 8, 10_000]),
        "queues": queues,
        "handSize": draw.randint(1, min(queues, 8)),
        "queueLengthLimit": draw.choice([1, 2, 10, 100]),
        "limitResponse": draw.choice(["Queue", "Queue", "Reject"]),
    }
    count = draw.choice([1, 5, 40, 300, 1000])
    requests = [request(count) for _ in range(count)]
    if draw.random() < 0.3:
        requests[draw.randrange(count)]["closes"] = True
    return config, requests, draw.choice([1, 3, 8, 64, draw.randint(1, 64)])


began = time.monotonic()
seen = {}
for number in range(200):
    config, requests, workers = drawn()
    status, out, err = ran(config, requests, workers)
    text = out.decode(errors="replace")
    tally.check(f"run {number} of {len(requests)} by {workers} at {config}", (status, faults(config, requests, workers, text), err), (0, [], b""))
    found = BOOK.fullmatch(text)
    for place, name in [(8, "queue-full"), (9, "closed"), (10, "concurrency-limit"), (12, "dispatched"), (13, "struck"), (6, "cancelled")]:
        seen[name] = seen.get(name, 0) + (int(found[place]) > 0 if found else 0)
print(f"200 runs took {time.monotonic() - began:.1f} s; runs that had some: {seen}")
tally.check("the draws reach each kind but a strike, which is a race", [it for it in ("queue-full", "closed", "concurrency-limit", "dispatched", "cancelled") if seen[it] == 0], [])

# 64 workers on 10,000 requests: all end
rounds = int(os.environ.get("APF_ROUNDS", "100"))
many = [plain] * 10_000
began = time.monotonic()
for name, config in [
    ("limit 1", {"limit": 1, "queues": 64, "queueLengthLimit": 64}),
    ("limit 1, Reject", {"limit": 1, "limitResponse": "Reject"}),
    ("limit 10,000", {"limit": 10_000}),
    ("limit 10,000, Reject", {"limit": 10_000, "limitResponse": "Reject"}),
]:
    words = ["run", files("config", json.dumps(config)), files("many", json.dumps(many)), "64"]
    rules = Rules(config, many, 64)
    for _ in range(rounds):
        status, out, err = run(program, words)
        tally.check(f"64 workers, {name}", (status, rules.faults(out.decode(errors="replace")), err), (0, [], b""))
print(f"{4 * rounds} runs of 10,000 requests by 64 workers took {time.monotonic() - began:.1f} s")



def processor_time(units):
    """The time that a processor was busy with a run of a hundred requests that work this many units each."""
    before = resource.getrusage(resource.RUSAGE_CHILDREN).ru_utime
    got = ran(one_queue(100), [{"hash": 0, "work": units}] * 100, 1)
    tally.check(f"requests of {units} units", got, (0, book("open", 100, 0, 0, 0, 0, 0, 0, 0, 0), b""))
    return resource.getrusage(resource.RUSAGE_CHILDREN).ru_utime - before


# each request works as many units as its file says
none, some = processor_time(0), processor_time(1_000_000)
tally.check(f"work takes time: {none:.3f} s without, {some:.3f} s with a million units each", some > 2 * none + 0.01, True)

# a book that is wrong in one thing is refused
config, requests = one_queue(2), [{"hash": 0, "cancels": 3}, plain, plain, plain, {"hash": 0, "closes": True}, plain]
for name, closed, numbers, broken in [
    ("open", "open", (2, 2, 2, 0, 2, 0, 0, 0, 0), "it is closed exactly if a request closes it"),
    ("one left out", "closed", (1, 2, 2, 0, 2, 0, 0, 0, 0), "each request is decided"),
    ("one too many", "closed", (3, 2, 2, 0, 2, 0, 0, 0, 0), "each request is decided"),
    ("rejected for nothing", "closed", (2, 2, 2, 0, 1, 0, 0, 0, 0), "the rejected are of three kinds"),
    ("two cancelled", "closed", (2, 2, 2, 0, 2, 0, 0, 0, 0), "whoever is cancelled is named"),
    ("executed after a close", "closed", (6, 0, 0, 0, 0, 0, 0, 0, 0), "whoever comes after his worker's close is closed or cancelled"),
    ("one still in a queue", "closed", (3, 2, 1, 0, 2, 0, 2, 1, 0), "whoever entered was dispatched or struck"),
    ("dispatched and not executed", "closed", (0, 5, 1, 0, 5, 0, 1, 1, 0), "whoever was dispatched is executed"),
    ("struck and not cancelled", "closed", (3, 3, 0, 0, 3, 0, 1, 0, 1), "whoever was struck is cancelled"),
    ("refused at once", "closed", (3, 2, 1, 0, 1, 1, 0, 0, 0), "nobody is refused at once of a level with queues"),
    ("a queue that was full", "closed", (3, 2, 1, 1, 1, 0, 0, 0, 0), "no queue is full that has room for all workers"),
]:
    tally.check(f"a wrong book is refused: {name}", broken in faults(config, requests, 2, book(closed, *numbers).decode()), True)

# faults: a dealer that can't deal, and words
tally.check("a dealer fault", ran({"limit": 1, "queues": 3}, [], 1), (1, b"", b"apf: dealer fault 2: hand too large\n"))
tally.check("no dealer on a level that rejects", ran({"limit": 1, "queues": 3, "limitResponse": "Reject"}, [plain], 1), (0, book("open", 1, 0, 0, 0, 0, 0, 0, 0, 0), b""))
for workers in ("0", "65", "x", "-1"):
    status, out, err = run(program, ["run", files("config", '{"limit":1}'), files("requests", "[]"), workers])
    tally.check(f"{workers} workers", (status, out, err != b""), (2, b"", True))
tally.end()
