"""Requests that run on a level as they come, over slots that are used again: drawn traces against the independent computation. `fates` has each request once, with
its queue, its times and its decision. `timeline` has each end in its turn, and `simulate` the book. What a request was charged is told by how far it is
misjudged when it runs for as long as one may. Then long traces through a pipe: their sums, the time and the memory that they take."""

import collections
import json
import os
import random
import subprocess
import sys

HERE = os.path.dirname(os.path.dirname(os.path.abspath(__file__)))
sys.path.insert(0, os.path.join(HERE, "lib"))
import simulation
from bound import sides, sides_of
from charges import taken
from harness import Files, Memory, Tally, build, run
from simulation import Run, words_of
from trace import request_of

tally = Tally()
program = build()
files = Files()
# the same draws each time; APF_SEED draws others
seed = int(os.environ.get("APF_SEED", "2043"))
draw, choose = random.Random(seed), random.Random(seed + 1)
TRACES = int(os.environ.get("APF_TRACES", "1500"))
MANY = int(os.environ.get("APF_REQUESTS", "1000000"))
# the longest run of a request, in microseconds
LONGEST = 10_000_000_000
print(f"seed {seed}")


def drawn_level():
    queues = draw.choice([1, 2, 2, 3, 4, 8])
    return {
        "limit": draw.choice([1, 1, 2, 3, 5]),
        "queues": queues,
        "handSize": draw.randint(1, min(queues, 3)),
        "queueLengthLimit": draw.choice([1, 2, 10, 50]),
        "limitResponse": draw.choice(["Queue"] * 5 + ["Reject"]),
    }


def drawn_objects():
    flows = [draw.randrange(20) for _ in range(draw.randint(1, 6))]
    runs = [draw.choice([0, 1, 5, 20, 20, 100, 100, 1000, 20_000]) for _ in flows]
    gaps = draw.choice([[0, 0, 1, 5], [0, 0, 0, 50], [0, 1, 20, 500]])
    widths = draw.choice([[1], [1, 1, 2], [1, 3, 7]])
    has_costs = draw.random() < 0.25
    time, objects = 0, []
    for _ in range(draw.choice([3, 8, 20, 30, 60])):
        time += draw.choice(gaps)
        flow = draw.randrange(len(flows))
        each = {"hash": flows[flow], "arrivesAt": time, "runsFor": draw.choice([runs[flow], runs[flow], runs[flow] // 2, draw.choice(runs)])}
        if widths != [1]:
            each["width"] = draw.choice(widths)
        if has_costs and draw.random() < 0.3:
            each["cost"] = draw.choice([1, 2, 30, 1000, 9_999, 4_294_967_295])
        objects.append(each)
    if draw.random() < 0.3:
        draw.shuffle(objects)
    return objects


def printed(command, config, objects, patience, charge, *more):
    """What the program does by a command on a level and the requests of these objects."""
    content = b"".join(json.dumps(it).encode() + b"\n" for it in objects)
    return run(program, [command, files("config", json.dumps(config)), files("trace", content), *words_of(patience, charge), *more])


def told(lines):
    return 0, "".join(f"{line}\n" for line in lines).encode(), b""


def check_book(name, made, objects, charge):
    """What `simulate` prints, and by time the two sides of the bound."""
    more, line = (["--bound"], [sides(made).line()]) if charge == "time" else ([], [])
    got = printed("simulate", made.config, objects, made.patience, charge, *more)
    tally.check(f"simulate of {name}", got, told([*simulation.simulate(made), *line]))


def is_told(made, request):
    """Whether the sides of the bound would be others if this one had cost one more."""
    costs, took = [it["cost"] for it in made.asked], [taken(it["width"], it["runsFor"]) for it in made.trace]
    before = sides_of(made.level, costs, took)
    costs[request] += 1
    return sides_of(made.level, costs, took).slack != before.slack


def check_cost(name, made, objects):
    """What one request was charged: it runs for the longest, so it is misjudged by nearly all of that. Answers whether a cost of one more would be seen."""
    dispatched = [request for kind, request, _ in made.level.log if kind == "dispatch"]
    if not dispatched:
        return False
    request = choose.choice(dispatched)
    longer = [{**it, "runsFor": LONGEST} if number == request else it for number, it in enumerate(objects)]
    again = Run(made.config, [request_of(it) for it in longer], made.patience, "time")
    check_book(f"{name}, of which request {request} runs for the longest", again, longer, "time")
    return is_told(again, request)


def check_drawn():
    """Each drawn trace by three commands."""
    met = {"rejected": 0, "gave up": 0, "waited and executed": 0, "another order than that of the lines": 0, "a cost is told": 0}
    for number in range(TRACES):
        config, objects = drawn_level(), drawn_objects()
        patience = draw.choice([0, 0, 1, 30, 100, 1000, 30_000])
        charge = draw.choice(["time", "seats"])
        made = Run(config, [request_of(it) for it in objects], patience, charge)
        name = f"{number}: {config}, {objects}, patience {patience}, charged by {charge}"
        tally.check(f"fates of {name}", printed("fates", config, objects, patience, charge), told(simulation.fates(made)))
        tally.check(f"timeline of {name}", printed("timeline", config, objects, patience, charge), told(simulation.timeline(made)))
        check_book(name, made, objects, charge)
        decided = {*made.level.decided.values()}
        met["rejected"] += "queue-full" in decided or "concurrency-limit" in decided
        met["gave up"] += "cancelled" in decided
        met["waited and executed"] += any(made.started.get(it, 0) > asked["arrivesAt"] for it, asked in enumerate(made.trace))
        met["another order than that of the lines"] += objects != sorted(objects, key=lambda it: it["arrivesAt"])
        met["a cost is told"] += charge == "time" and check_cost(name, made, objects)
    print(", ".join(f"{what}: {how_many}" for what, how_many in met.items()))
    for what, how_many in met.items():
        tally.check(f"{what} in a twentieth of the traces at least: {how_many}", how_many * 20 >= TRACES, True)


def long_trace(requests, counts, flows=20):
    """Pieces of a trace of this many requests, of which about nine in ten seats are taken. How many each flow has is counted."""
    stream, lines = random.Random(7), []
    for number in range(requests):
        flow = stream.randrange(flows)
        counts[flow] += 1
        lines.append('{"hash":%d,"arrivesAt":%d,"runsFor":%d}\n' % (flow, 100 * number, stream.randrange(1, 9_000)))
        if len(lines) == 10_000:
            yield "".join(lines).encode()
            lines.clear()
    yield "".join(lines).encode()


def ran(config, patience, charge, pieces):
    """What `simulate` prints of a trace that it reads from a pipe, with its status, the most memory that it had, in KiB, and its seconds of a processor."""
    words = [program, "simulate", files("config", json.dumps(config)), "-", *words_of(patience, charge)]
    with subprocess.Popen(words, stdin=subprocess.PIPE, stdout=subprocess.PIPE) as process:
        memory = Memory(process)
        try:
            for piece in pieces:
                process.stdin.write(piece)
            process.stdin.close()
        except BrokenPipeError:
            # it ended before the trace did, and says why
            pass
        said = process.stdout.read().decode()
        _, status, used = os.wait4(process.pid, 0)
        process.returncode = os.waitstatus_to_exitcode(status)
    return process.returncode, said, memory, used.ru_utime + used.ru_stime


def check_long():
    """Two traces that are longer than the window, one of which is three times as long: each request of each flow is decided, and the memory is the same. Of
    so few flows the waits are counted early."""
    level = {"limit": 49, "queues": 64, "handSize": 8, "queueLengthLimit": 50, "limitResponse": "Queue"}
    sizes = {}
    for requests in (3 * MANY // 10, MANY):
        counts = collections.Counter()
        status, said, memory, seconds = ran(level, 15_000_000, "time", long_trace(requests, counts))
        lines = [line.split() for line in said.splitlines()]
        came = {int(it[1], 16): int(it[3]) for it in lines if it[0] == "flow"}
        decided = [int(it[place]) for it in lines if it[0] == "executed" for place in (1, 3, 5, 7)]
        tally.check(f"{requests} requests: the status, and the requests of each flow", (status, came), (0, counts))
        tally.check(f"{requests} requests: each is decided: {decided}", (sum(decided[:3]), decided[3:]), (requests, [0]))
        sizes[requests] = memory.most()
        print(f"{requests} requests: {sizes[requests]} KiB, {seconds:.2f} s of a processor, {1e6 * seconds / requests:.2f} us a request")
    tally.check(f"memory does not grow once the window is full: {sizes}", sizes[MANY] <= sizes[3 * MANY // 10] + 4_096, True)


def check_crowd():
    """One request more than there are slots."""
    level = {"limit": 1, "queues": 128, "handSize": 6, "queueLengthLimit": 1000, "limitResponse": "Queue"}
    crowd = [{"hash": number, "arrivesAt": number // 1000, "runsFor": 1_000_000} for number in range(10_001)]
    said = b"apf: at line 10001, at 10, more than 10000 requests are there at once\n"
    tally.check("one more than there are slots", printed("simulate", level, crowd, 0, "seats"), (1, b"", said))
    status, out, err = printed("simulate", level, crowd[:-1], 0, "seats")
    tally.check("as many as there are slots", (status, b"executed 10000 rejected 0 cancelled 0 undecided 0\n" in out, err), (0, True, b""))


check_drawn()
check_long()
check_crowd()
tally.end()
