"""Runs in rounds: each worker goes again and again through its requests, and the book says what it must say in every schedule."""

import json
import os
import random
import re
import subprocess
import sys
import time

sys.path.insert(0, os.path.join(os.path.dirname(os.path.abspath(__file__)), "lib"))
from books import BOOK
from harness import Files, Memory, Tally, build, run

tally = Tally()
program = build()
files = Files()
# the same draws each time; APF_SEED draws others
seed = int(os.environ.get("APF_SEED", "1040"))
draw = random.Random(seed)
print(f"seed {seed}")


def words(config, requests, workers, rounds):
    more = [] if rounds is None else ["--rounds", str(rounds)]
    return ["run", files("config", json.dumps(config)), files("requests", json.dumps(requests)), str(workers), *more]


def ran(config, requests, workers, rounds=None):
    return run(program, words(config, requests, workers, rounds))


def book(closed, *numbers):
    return (
        "level %s seats 0 waiting 0\nexecuted %d rejected %d cancelled %d undecided 0\n"
        "queue-full %d closed %d concurrency-limit %d\nentered %d dispatched %d struck %d\n" % (closed, *numbers)
    ).encode()


def one_queue(limit, **more):
    return {"limit": limit, "queues": 1, "handSize": 1, "queueLengthLimit": 100, **more}


# worked rows, which come out so in every schedule
plain = {"hash": 0}
for name, config, requests, workers, rounds, want in [
    ("all fit", one_queue(1000), [plain] * 100, 8, 50, book("open", 5000, 0, 0, 0, 0, 0, 0, 0, 0)),
    ("all fit, Reject", one_queue(1000, limitResponse="Reject"), [plain] * 100, 8, 50, book("open", 5000, 0, 0, 0, 0, 0, 0, 0, 0)),
    ("two rounds", one_queue(1), [plain] * 3, 1, 2, book("open", 6, 0, 0, 0, 0, 0, 0, 0, 0)),
    ("each round executes all", one_queue(2), [plain, {"hash": 1, "width": 2}, {"hash": 2, "work": 7}], 1, 3, book("open", 9, 0, 0, 0, 0, 0, 0, 0, 0)),
    ("each round executes all, Reject", one_queue(3, limitResponse="Reject"), [plain, {"hash": 0, "width": 3}], 1, 3, book("open", 6, 0, 0, 0, 0, 0, 0, 0, 0)),
    ("nobody", one_queue(1), [], 64, 1_000_000, book("open", 0, 0, 0, 0, 0, 0, 0, 0, 0)),
    ("more workers than requests", one_queue(1), [plain], 64, 7, book("open", 7, 0, 0, 0, 0, 0, 0, 0, 0)),
    # who did not come yet is nobody, and who came is over when one worker comes to the next request
    ("one worker cancels nobody", one_queue(1), [{"hash": 0, "cancels": 1}, {"hash": 0, "cancels": 0}], 1, 9, book("open", 18, 0, 0, 0, 0, 0, 0, 0, 0)),
    ("one cancels itself", one_queue(1), [{"hash": 0, "cancels": 0}], 1, 9, book("open", 9, 0, 0, 0, 0, 0, 0, 0, 0)),
    # the level closes in the first round, and stays so
    ("closes", one_queue(1), [plain, {"hash": 0, "closes": True}, plain], 1, 10, book("closed", 1, 29, 0, 0, 29, 0, 0, 0, 0)),
    # in a single round the third request is cancelled before it comes; in two nobody came yet whom the first one could cancel
    ("a single round cancels", one_queue(1), [{"hash": 0, "cancels": 2}, plain, plain, {"hash": 0, "closes": True}, plain], 1, 1, book("closed", 2, 2, 1, 0, 2, 0, 0, 0, 0)),
    ("two rounds cancel nobody", one_queue(1), [{"hash": 0, "cancels": 2}, plain, plain, {"hash": 0, "closes": True}, plain], 1, 2, book("closed", 3, 7, 0, 0, 7, 0, 0, 0, 0)),
    ("closes at once", one_queue(1), [{"hash": 0, "closes": True}], 1, 1000, book("closed", 0, 1000, 0, 0, 1000, 0, 0, 0, 0)),
]:
    tally.check(name, ran(config, requests, workers, rounds), (0, want, b""))

# a single round is a run without the option
for config, requests, workers in [
    (one_queue(1), [{"hash": 0, "cancels": 2}, plain, plain, {"hash": 0, "closes": True}, plain], 1),
    (one_queue(8), [{"hash": 0, "cancels": 15}] * 8 + [plain] * 8, 8),
    (one_queue(1000), [plain] * 100, 8),
]:
    tally.check("one round", ran(config, requests, workers, 1), ran(config, requests, workers))


def faults(config, requests, workers, rounds, text):
    """The sentences that the book of this many rounds breaks."""
    found = BOOK.fullmatch(text)
    if not found:
        return ["it has four lines"]
    is_closed = found[1] == "closed"
    seats, waiting, executed, rejected, cancelled, undecided, full, closed, limited, entered, dispatched, struck = map(int, found.groups()[1:])
    rejects = config.get("limitResponse", "Queue") == "Reject"
    closes = any(request.get("closes") for request in requests)
    named = {request["cancels"] for request in requests if "cancels" in request}
    roomy = not rejects and config.get("queueLengthLimit", 50) >= workers
    sentences = [
        ("no seat is taken and nobody waits", seats == waiting == 0),
        ("each request of each round is decided", undecided == 0 and executed + rejected + cancelled == rounds * len(requests)),
        ("the rejected are of three kinds", rejected == full + closed + limited),
        ("it is closed exactly if a request closes it", is_closed == closes),
        ("whoever is cancelled is named", cancelled <= rounds * len(named)),
        ("nobody is closed of an open level", closed == 0 or is_closed),
        ("whoever comes after his worker's close is closed or cancelled", not closes or executed <= rounds * len(requests) - (rounds - 1)),
        ("whoever entered was dispatched or struck", entered == dispatched + struck),
        ("whoever was dispatched is executed", dispatched <= executed),
        ("whoever was struck is cancelled", struck <= cancelled),
        ("nobody is refused as full of a level without queues", not rejects or full == entered == 0),
        ("nobody is refused at once of a level with queues", rejects or limited == 0),
        ("no queue is full that has room for all workers", not roomy or full == 0),
        ("all execute where queues have room and nobody is named or closes", not roomy or closes or named or executed == rounds * len(requests)),
        ("nobody waits of one worker", workers > 1 or entered == cancelled == 0),
    ]
    return [name for name, holds in sentences if not holds]


def request(count):
    more = {"width": draw.choice([1, 1, 2, 3, 9])} if draw.random() < 0.5 else {}
    if draw.random() < 0.3:
        more["cancels"] = draw.randrange(count)
    if draw.random() < 0.6:
        more["work"] = draw.choice([0, 100, 2000])
    return {"hash": draw.choice([0, 1, 7, draw.getrandbits(64)]), **more}


def drawn():
    queues = draw.choice([1, 2, 5, 64])
    config = {
        "limit": draw.choice([1, 1, 2, 3, 8, 10_000]),
        "queues": queues,
        "handSize": draw.randint(1, min(queues, 8)),
        "queueLengthLimit": draw.choice([1, 2, 10, 100]),
        "limitResponse": draw.choice(["Queue", "Queue", "Reject"]),
    }
    count = draw.choice([1, 5, 40, 100])
    requests = [request(count) for _ in range(count)]
    if draw.random() < 0.2:
        requests[draw.randrange(count)]["closes"] = True
    if draw.random() < 0.2:
        requests = [{key: value for key, value in it.items() if key != "cancels"} for it in requests]
    return config, requests, draw.choice([1, 3, 8, 64]), draw.choice([2, 3, 10, 100])


began = time.monotonic()
seen = {}
# APF_TRACES leaves most of them out
DRAWN = min(100, int(os.environ.get("APF_TRACES", "100")))
for number in range(DRAWN):
    config, requests, workers, rounds = drawn()
    status, out, err = ran(config, requests, workers, rounds)
    text = out.decode(errors="replace")
    tally.check(f"run {number}: {rounds} times {len(requests)} by {workers} at {config}", (status, faults(config, requests, workers, rounds, text), err), (0, [], b""))
    found = BOOK.fullmatch(text)
    for place, name in [(8, "queue-full"), (9, "closed"), (10, "concurrency-limit"), (12, "dispatched"), (13, "struck"), (6, "cancelled")]:
        seen[name] = seen.get(name, 0) + (int(found[place]) > 0 if found else 0)
print(f"{DRAWN} runs took {time.monotonic() - began:.1f} s; runs that had some: {seen}")
tally.check("the draws reach a closed level", seen["closed"] > 0, True)

# crowds of four workers at two seats: of nobody who is named all execute, and each of the others says what it must
alike = [{"hash": number} for number in range(8)]
in_turn = [{**it, "cancels": (number + 1) % 8, **({"width": 2} if number % 3 == 2 else {})} for number, it in enumerate(alike)]
closing = [plain, {"hash": 1, "cancels": 0}, {"hash": 2, "closes": True}, {"hash": 3}]
for name, requests in (("alike", alike), ("each of which names another one", in_turn), ("of which one closes the level", closing)):
    status, out, err = ran(one_queue(2), requests, 4, 2000)
    tally.check(f"2,000 rounds of requests {name}", (status, faults(one_queue(2), requests, 4, 2000, out.decode(errors="replace")), err), (0, [], b""))
    if requests is alike:
        tally.check("16,000 are executed", out.split(b"\n")[1], b"executed 16000 rejected 0 cancelled 0 undecided 0")

# What becomes of a crowd at one seat is a race. A full machine runs one worker at a time, so its requests work longer until one of them is met at work.
alone = [{"hash": number % 3} for number in range(8)]
# those of a slot come one after another, each request naming another one
crowd = [{**it, "cancels": (number + 1) % 8} for number, it in enumerate(alone)]
short = {**one_queue(1), "queueLengthLimit": 1}
# APF_ROUNDS leaves these out
LONG = [] if "APF_ROUNDS" in os.environ else [(1_000_000, 30)] * 5
for name, place, config, requests in [
    ("cancelled", 6, one_queue(1), crowd),
    ("dispatched", 12, one_queue(1), crowd),
    ("rejected by a full queue", 8, short, alone),
    ("rejected at the limit", 10, {**one_queue(1), "limitResponse": "Reject"}, alone),
]:
    some = 0
    for work, rounds in [(0, 3000), (10_000, 300), (100_000, 100), *LONG]:
        if some == 0:
            asked = [{**it, "work": work} for it in requests]
            status, out, err = ran(config, asked, 8, rounds)
            text = out.decode(errors="replace")
            tally.check(f"a crowd at one seat with work {work}, for some that are {name}", (status, faults(config, asked, 8, rounds, text), err), (0, [], b""))
            found = BOOK.fullmatch(text)
            some = int(found[place]) if found else 0
            print(f"a crowd of 8 at one seat, {rounds} rounds with work {work}: {some} of {8 * rounds} were {name}")
    tally.check(f"a crowd at one seat: some were {name}", some > 0, True)

# a book that is wrong in one thing is refused
config, requests = one_queue(2), [{"hash": 0, "cancels": 3}, plain, plain, plain]
for name, asked, closed, numbers, broken in [
    ("one left out", requests, "open", (37, 0, 2, 0, 0, 0, 0, 0, 0), "each request of each round is decided"),
    ("the first requests of the slots counted too", requests, "open", (42, 0, 2, 0, 0, 0, 0, 0, 0), "each request of each round is decided"),
    ("one round alone", requests, "open", (4, 0, 0, 0, 0, 0, 0, 0, 0), "each request of each round is decided"),
    ("too many cancelled", requests, "open", (29, 0, 11, 0, 0, 0, 0, 0, 0), "whoever is cancelled is named"),
    ("closed by nobody", requests, "closed", (38, 0, 2, 0, 0, 0, 0, 0, 0), "it is closed exactly if a request closes it"),
    ("opened again", [*requests[:3], {"hash": 0, "closes": True}], "closed", (38, 2, 0, 0, 2, 0, 0, 0, 0), "whoever comes after his worker's close is closed or cancelled"),
    ("a queue that was full", requests, "open", (38, 2, 0, 2, 0, 0, 0, 0, 0), "no queue is full that has room for all workers"),
    ("one cancelled whom nobody names", [plain] * 4, "open", (39, 0, 1, 0, 0, 0, 0, 0, 0), "all execute where queues have room and nobody is named or closes"),
]:
    tally.check(f"a wrong book is refused: {name}", broken in faults(config, asked, 2, 10, book(closed, *numbers).decode()), True)

# words
config, requests = files("config", '{"limit":1}'), files("requests", "[]")
for more in (["--rounds", "0"], ["--rounds", "1000001"], ["--rounds", "-1"], ["--rounds", "x"], ["--rounds", "1.5"], ["--rounds", ""], ["--rounds"], ["--rounds", "2", "--rounds", "3"], ["--round", "2"]):
    status, out, err = run(program, ["run", config, requests, "1", *more])
    tally.check(f"{' '.join(more)}", (status, out, err != b""), (2, b"", True))
one = files("one", '[{"hash":0}]')
for more, rounds in ((["--rounds", "1"], 1), (["--rounds", "1000000"], 1_000_000), (["--rounds=5"], 5), (["--rounds", "007"], 7)):
    tally.check(f"{' '.join(more)} of nobody", run(program, ["run", config, requests, "1", *more]), (0, book("open", 0, 0, 0, 0, 0, 0, 0, 0, 0), b""))
    tally.check(f"{' '.join(more)}", run(program, ["run", config, one, "1", *more]), (0, book("open", rounds, 0, 0, 0, 0, 0, 0, 0, 0), b""))
tally.check("rounds before the files", run(program, ["run", "--rounds", "3", config, one, "1"]), (0, book("open", 3, 0, 0, 0, 0, 0, 0, 0, 0), b""))
tally.check("help names the option", re.search(rb"--rounds <N>", run(program, ["run", "--help"])[1]) is not None, True)

# faults of a run in rounds: a dealer that can't deal, and files
tally.check("a dealer fault", ran({"limit": 1, "queues": 3}, [], 1, 2), (1, b"", b"apf: dealer fault 2: hand too large\n"))
tally.check("no dealer on a level that rejects", ran({"limit": 1, "queues": 3, "limitResponse": "Reject"}, [plain], 1, 2), (0, book("open", 2, 0, 0, 0, 0, 0, 0, 0, 0), b""))
tally.check("a file fault", ran({"limit": 0}, [], 1, 2), (1, b"", b"apf: config fault 5: bad value of limit\n"))


def memory(rounds):
    """The memory that a run of this many rounds had, and how many requests it executed."""
    child = subprocess.Popen([program, *words(one_queue(2), [plain, {"hash": 1, "cancels": 0}], 2, rounds)], stdin=subprocess.DEVNULL, stdout=subprocess.PIPE)
    memory = Memory(child)
    out = child.stdout.read()
    status = child.wait()
    found = BOOK.fullmatch(out.decode())
    return memory, (status, found and int(found[4]) + int(found[6]))


# memory does not grow with the rounds: APF_ROUNDS asks for other than a million
most = int(os.environ.get("APF_ROUNDS", "1000000"))
began = time.monotonic()
few, many = memory(10), memory(most)
tally.check("ten rounds of two", few[1], (0, 20))
tally.check(f"{most} rounds of two", many[1], (0, 2 * most))
print(f"{most} rounds of two requests took {time.monotonic() - began:.1f} s; memory {many[0].most()} KiB, of which {many[0].growth()} after a quarter of the time")
tally.check("memory does not grow", many[0].growth() < 1024, True)
tally.end()
