"""What the requests of a trace are charged, by the program and by the independent computation: 2,000 drawn traces in which it matters, word for
word. Then long traces: of a flow of which more than 256 requests finish, and of more flows than a set of the table has room for."""

import json
import os
import random
import sys

sys.path.insert(0, os.path.join(os.path.dirname(os.path.abspath(__file__)), "lib"))
import simulation
from bound import sides
from charges import NEWEST, SETS, WAYS
from harness import Files, Tally, build, run
from simulation import Run, words_of
from trace import request_of

tally = Tally()
program = build()
files = Files()
# the same draws each time; APF_SEED draws others
seed = int(os.environ.get("APF_SEED", "1042"))
draw = random.Random(seed)
TRACES = int(os.environ.get("APF_TRACES", "2000"))
print(f"seed {seed}")


def printed(command, config, objects, *how, more=()):
    """What the program does by a command on a level and the requests of these objects."""
    content = b"".join(json.dumps(it).encode() + b"\n" for it in objects)
    return run(program, [command, files("config", json.dumps(config)), files("trace", content), *words_of(*how), *more])


def told(lines):
    return 0, "".join(f"{line}\n" for line in lines).encode(), b""


def drawn_level():
    queues = draw.choice([1, 2, 2, 3, 4, 8])
    return {
        "limit": draw.choice([1, 1, 2, 3, 5]),
        "queues": queues,
        "handSize": draw.randint(1, min(queues, 3)),
        "queueLengthLimit": draw.choice([2, 10, 50]),
        "limitResponse": "Queue",
    }


def drawn_objects():
    """Few flows, of which each has runs of its own length, and comes again when it is known."""
    kind = draw.random()
    if kind < 0.1:
        # more flows than a set of the table has room for
        flows = [{"hash": SETS * it + 3} for it in range(WAYS + 3)]
    else:
        flows = [draw.choice([{"hash": draw.randrange(20)}, {"schema": "a", "distinguisher": draw.choice("abcdefgh")}]) for _ in range(draw.randint(2, 6))]
    runs = [draw.choice([0, 1, 5, 20, 20, 100, 100, 1000, 20_000]) for _ in flows]
    gaps = draw.choice([[0, 0, 1, 5], [0, 0, 0, 50], [0, 1, 20, 500]])
    if kind > 0.9:
        # runs of which no cost has all
        runs[0], gaps = 10_000_000_000, [0, 0, 0, 20_000_000_000]
    widths = draw.choice([[1], [1, 1, 2], [1, 3, 7]])
    has_costs = draw.random() < 0.25
    time, objects = 0, []
    for _ in range(draw.choice([8, 20, 20, 30, 45])):
        time += draw.choice(gaps)
        flow = draw.randrange(len(flows))
        each = {**flows[flow], "arrivesAt": time, "runsFor": draw.choice([runs[flow], runs[flow], runs[flow] // 2, draw.choice(runs)])}
        if widths != [1]:
            each["width"] = draw.choice(widths)
        if has_costs and draw.random() < 0.3:
            each["cost"] = draw.choice([1, 2, 30, 1000, 9_999, 10_001, 4_294_967_295])
        objects.append(each)
    if draw.random() < 0.3:
        draw.shuffle(objects)
    return objects


# what happens in a drawn trace, and in how many of 2,000 at least
MATTERS = "by time it is another run than by seats"
BEYOND = "a queue's requests take more than twice the largest cost more than those of one that is never empty"
NO_PAIR = "there is one queue alone, or no request waits"
LATER = "the pair that came furthest apart is not that of the first two queues"
SEEN = {
    MATTERS: 500,
    "a line has a cost, and by time it is another run than as usual": 30,
    "two requests of a flow, of one width, wait and have unlike costs": 500,
    "a request that gave up": 300,
    "a full queue": 150,
    "a cost of 10,000 a seat": 500,
    "the largest cost, which no line has": 30,
    "a cost of 1, which no line has": 30,
    "a flow that was forgotten": 20,
    # the test of the bound can tell: with less it would fail
    BEYOND: 300,
    NO_PAIR: 100,
    LATER: 300,
}


def happenings(made, fates, by_seats, as_usual):
    """Those of them that happen in this run by time, whose fates are these, with those by seats and as usual."""
    trace, asked = made.trace, made.asked
    entered = [it for kind, it, _ in made.level.log if kind == "enter"]
    own = [it for it in range(len(trace)) if trace[it]["cost"] is None]
    costs = {}
    for it in entered:
        if it in own:
            costs.setdefault((trace[it]["hash"], trace[it]["width"]), set()).add(asked[it]["cost"])
    known = sum(map(len, made.means.sets.values()))
    finished = {trace[it]["hash"] for it in made.started}
    happens = {
        MATTERS: fates != by_seats,
        "a line has a cost, and by time it is another run than as usual": len(own) < len(trace) and fates != as_usual,
        "two requests of a flow, of one width, wait and have unlike costs": any(len(it) > 1 for it in costs.values()),
        "a request that gave up": "cancelled" in made.level.decided.values(),
        "a full queue": "queue-full" in made.level.decided.values(),
        "a cost of 10,000 a seat": any(asked[it]["cost"] == 10_000 * trace[it]["width"] for it in entered if it in own),
        "the largest cost, which no line has": any(asked[it]["cost"] == 4_294_967_295 for it in entered if it in own),
        "a cost of 1, which no line has": any(asked[it]["cost"] == 1 for it in entered if it in own),
        "a flow that was forgotten": known < len(finished),
    }
    return [what for what, is_so in happens.items() if is_so]


def check_drawn():
    """Each trace by time: what became of each request, and now and then what the other commands print."""
    seen, nearest = dict.fromkeys(SEEN, 0), (-(10**30),)
    for number in range(TRACES):
        config, objects, patience = drawn_level(), drawn_objects(), draw.choice([0, 0, 30, 200, 1000, 1_000_000_000])
        made = Run(config, [request_of(it) for it in objects], patience, "time")
        name = f"{number}: {config}, {objects}, patience {patience}"
        fates, by_seats = (simulation.fates(it) for it in (made, Run(config, made.trace, patience, "seats")))
        # where no line has a cost, the usual charge is time
        as_usual = by_seats if any(it["cost"] is not None for it in made.trace) else fates
        happened = happenings(made, fates, by_seats, as_usual)
        # where both ways say the same, and it matters, they are asked in turn; `simulate` below is by time in any case
        is_asked_once = MATTERS in happened and as_usual == fates
        if not is_asked_once or number % 2:
            tally.check(f"fates by time of {name}", printed("fates", config, objects, patience, "time"), told(fates))
        if MATTERS in happened and (not is_asked_once or number % 2 == 0):
            tally.check(f"fates as usual of {name}", printed("fates", config, objects, patience), told(as_usual))
        if number % 10 == 5:
            tally.check(f"timeline by time of {name}", printed("timeline", config, objects, patience, "time"), told(simulation.timeline(made)))
        told_sides = sides(made)
        _, worst, largest, slack = told_sides
        tally.check(f"the bound of {name}: {told_sides.line()}", worst <= told_sides.limit(), True)
        bounded = printed("simulate", config, objects, patience, "time", more=["--bound"])
        tally.check(f"both sides of the bound of {name}", bounded, told([*simulation.simulate(made), told_sides.line()]))
        nearest = max(nearest, (worst - 2 * largest - 2 * slack, worst, largest, slack))
        happens = [*happened, *[BEYOND] * (worst > 2 * largest), *[NO_PAIR] * (told_sides.pair is None), *[LATER] * (told_sides.pair not in (None, (0, 1)))]
        for what in happens:
            seen[what] += 1
    print("of the traces that came nearest: {1} more seat-time than a queue that is never empty, the largest cost {2}, and {3} misjudged at one moment".format(*nearest))
    for what, count in seen.items():
        tally.check(f"in many traces: {what}: {count}", count >= SEEN[what] * TRACES // 2000, True)


def check_worked_bounds():
    """Both sides of the bound, worked by hand. Two short requests of queue 1 are dispatched while a long one waits in queue 0, each charged what it takes.
    Then two of a crawler are, at 10,000 each, while two of alice wait that are charged that a seat too and take 20 a seat."""
    crawler, alice = {"schema": "batch", "distinguisher": "crawler"}, {"schema": "users", "distinguisher": "alice"}
    short, long = {"hash": 1, "runsFor": 10}, {"hash": 0, "runsFor": 100}
    learned = [{**long, "arrivesAt": 0}, {**short, "arrivesAt": 200}, {"hash": 2, "arrivesAt": 300, "runsFor": 1000}, {**long, "arrivesAt": 301}]
    learned += [{**short, "arrivesAt": 302}] * 2
    first = [{**crawler, "arrivesAt": 0, "runsFor": 100}] * 6 + [{**alice, "arrivesAt": 50, "runsFor": 20}, {**alice, "arrivesAt": 60, "runsFor": 20, "width": 2}]
    for config, objects, line in (
        ({"limit": 1, "queues": 2, "handSize": 1}, learned, "bound 0 1 20 cost 100 misjudged 0 limit 200"),
        ({"limit": 2, "queues": 2, "handSize": 1, "queueLengthLimit": 2}, first, "bound 0 1 200 cost 20000 misjudged 19960 limit 99880"),
    ):
        status, out, err = printed("simulate", config, objects, 0, more=["--bound"])
        tally.check(f"worked by hand: {line}", (status, out.splitlines()[-1:], err), (0, [line.encode()], b""))
        paths = (os.path.join(files.folder.name, name) for name in ("config", "trace"))
        tally.check(f"asked for before the files: {line}", run(program, ["simulate", "--bound", *paths, "0"]), (status, out, err))


def check_met_bound():
    """The bound is met to the microsecond: what requests are misjudged by counts three times, and not two. Costs are at most 100, and requests are misjudged by 50.

    At 10, when the first request gives all seats back, five are dispatched: two of queue 1, which then stands at 101, and three of queue 2, which stands at 251;
    its last one at 151. That one is charged 100 and takes 150: when it ends, queue 2 stands at 301. Then the first of queue 1 ends, charged 1 and taking 51, so
    queue 1 stands at 151, where virtual time is. It is waited in again, as queue 2 is, and stands no lower. The second one ends, charged 100 and taking 50:
    queue 1 stands at 101. So it is behind by the largest cost and twice what is misjudged. Two of it are dispatched, which take 100 each. One of queue 0 is, so that
    in the tie that follows queue 1 comes first: its third one is charged 100 like the one that waits in queue 2 at 301, and takes 150."""
    first = [{"hash": 0, "arrivesAt": 0, "runsFor": 10, "width": 20, "cost": 1}]
    misjudged = [{"hash": 1, "arrivesAt": 1, "runsFor": 17, "width": 3, "cost": 1}, {"hash": 1, "arrivesAt": 2, "runsFor": 50, "cost": 100}]
    run_on = [{"hash": 2, "arrivesAt": 3, "runsFor": 100, "cost": 100}, {"hash": 2, "arrivesAt": 4, "runsFor": 51, "cost": 51}]
    run_on += [{"hash": 2, "arrivesAt": 5, "runsFor": 15, "width": 10, "cost": 100}]
    # they take the seats that are free, or are given back, and were not dispatched from a queue
    fill = [{"hash": 0, "arrivesAt": at, "runsFor": 1000, "width": width, "cost": 1} for at, width in ((11, 4), (25, 10), (27, 3))]
    waits = [{"hash": 2, "arrivesAt": 30, "runsFor": 100, "cost": 100}]
    ahead = [{"hash": 1, "arrivesAt": 31 + it, "runsFor": runs, "cost": 100} for it, runs in enumerate((100, 100, 150))]
    tie = [{"hash": 0, "arrivesAt": 80, "runsFor": 1, "cost": 1}]
    config = {"limit": 20, "queues": 3, "handSize": 1, "queueLengthLimit": 50, "limitResponse": "Queue"}
    objects = [*first, *misjudged, *run_on, *fill, *waits, *ahead, *tie]
    made = Run(config, [request_of(it) for it in objects], 0, "time")
    told_sides = sides(made)
    tally.check("three times what is misjudged is needed", (told_sides.ahead, told_sides.largest, told_sides.slack), (350, 100, 50))
    line = "bound 2 1 350 cost 100 misjudged 50 limit 350"
    tally.check("the bound is met to the microsecond", printed("simulate", config, objects, 0, "time", more=["--bound"]), told([*simulation.simulate(made), line]))


def check_bound_of_seats():
    """Where requests are charged their seats there is no such line: by the command line, and by a line that has a cost."""
    config = {"limit": 2, "queues": 4, "handSize": 2, "queueLengthLimit": 50, "limitResponse": "Queue"}
    refused = 2, b"", b"apf: --bound is of measured time: requests must be charged time\n"
    plain, costly = [{"hash": 1, "arrivesAt": 0, "runsFor": 1}], [{"hash": 1, "arrivesAt": 0, "runsFor": 1, "cost": 3}]
    tally.check("no bound by seats", printed("simulate", config, plain, 0, "seats", more=["--bound"]), refused)
    tally.check("no bound where a line has a cost", printed("simulate", config, costly, 0, more=["--bound"]), refused)
    made = Run(config, [request_of(it) for it in plain], 0)
    tally.check("none where nobody waits", printed("simulate", config, plain, 0, more=["--bound"]), told([*simulation.simulate(made), "bound none"]))
    rejects = {**config, "limitResponse": "Reject"}
    made = Run(rejects, [request_of(it) for it in plain], 0)
    tally.check("none where there are no queues", printed("simulate", rejects, plain, 0, more=["--bound"]), told([*simulation.simulate(made), "bound none"]))


def check_long():
    """A flow of which more requests finish than its mean remembers, beside one that comes again; and many flows of one set."""
    config = {"limit": 2, "queues": 4, "handSize": 2, "queueLengthLimit": 50, "limitResponse": "Queue"}
    steady = [{"hash": 1, "arrivesAt": 40 * it, "runsFor": draw.choice([20, 30, 90])} for it in range(2 * NEWEST)]
    now_and_then = [{"hash": 2, "arrivesAt": 400 * it, "runsFor": draw.choice([20, 60, 900])} for it in range(NEWEST // 5)]
    one_set = [{"hash": SETS * draw.randrange(2 * WAYS) + 7, "arrivesAt": 13 * it, "runsFor": draw.choice([5, 50])} for it in range(NEWEST)]
    for name, objects in (("a steady flow", steady + now_and_then), ("flows of one set", one_set + now_and_then)):
        made = Run(config, [request_of(it) for it in objects], 2000, "time")
        tally.check(f"{name}: some wait", made.level.count("dispatch") > 100, True)
        tally.check(f"{name}: fates by time", printed("fates", config, objects, 2000, "time"), told(simulation.fates(made)))
        bounded = printed("simulate", config, objects, 2000, "time", more=["--bound"])
        tally.check(f"{name}: both sides of the bound", bounded, told([*simulation.simulate(made), sides(made).line()]))


check_drawn()
check_long()
check_worked_bounds()
check_met_bound()
check_bound_of_seats()
tally.end()
