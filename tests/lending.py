"""Seats that `cluster` lends every ten seconds, on the built program, against the independent lending (tests/lib/lending.py): drawn clusters of few seats,
with logs in which what is asked for moves from level to level, and clusters worked by hand."""

import json
import os
import random
import sys

HERE = os.path.dirname(os.path.abspath(__file__))
sys.path.insert(0, os.path.join(HERE, "lib"))
from clusters import EVERYTHING, HALF, SECOND, Clusters, level_object, level_of, log_of, notes_of, objects_in, objects_of, parts_of, read_by, table, whole_cluster
from harness import Files, Tally, build, run
from lending import PERIOD, Claim, division, limit_of, observed_of, smoothed_of, stretches_of, way_of

tally = Tally()
program = build()
files = Files()
# the same draws each time; APF_SEED draws others
seed = int(os.environ.get("APF_SEED", "4712"))
draw = random.Random(seed)
clusters = Clusters(draw)
LENT = int(os.environ.get("APF_CLUSTERS", "150"))
print(f"seed {seed}")


# ---- the independent lending, by hand


def claims(*rows):
    return tuple(Claim(*it) for it in rows)


# the first level asks for 60 seats and may have 50 at most; the others share the 50 that are left as 20 is to 30
tally.check("by one factor", division(100, claims((5, 10, 50, 60_000), (10, 15, 130, 20_000), (20, 20, 160, 30_000))), [50, 20, 30])
# of the 12 seats above the least limits there are 6: each has the half of its own, halves rounded up
tally.check("by parts", division(16, claims((5, 10, 50, 60_000), (5, 12, 50, 60_000))), [8, 9])
tally.check("the least limits", division(15, claims((5, 10, 50, 60_000), (10, 12, 50, 60_000))), [5, 10])
tally.check("the greatest limits", division(61, claims((5, 10, 50, 60_000), (1, 1, 10, 1_000), (0, 0, 9, 0))), [50, 10, 9])
tally.check("just the greatest limits", division(60, claims((5, 10, 50, 60_000), (1, 1, 10, 1_000), (0, 0, 9, 0))), [50, 10, 0])
# 4 seats for 2 s, 10 for 1 s, and none for 7 s: the root of 13.2 - 3.24 is 3.155
stretches = stretches_of([(3, 2_000_000, 1)] * 3 + [(-5, 2_000_000, 1), (7, 7, 1)] + [(2_000_000, 3_000_000, 1)] * 8 + [(2_000_000, 3_000_000, 2)], 0, PERIOD)
tally.check("the stretches of a period", stretches, [(1, 3), (4, 1_999_997), (10, SECOND), (0, 7 * SECOND)])
tally.check("a demand", observed_of([(4, 2 * SECOND), (10, SECOND), (0, 7 * SECOND)]), (10, 1_800, 3_155))
tally.check("what was asked for once falls", [smoothed_of(4_955, observed_of([(0, 5)])), smoothed_of(1, observed_of([(0, 5)]))], [4_841, 0])


# ---- drawn clusters

met = dict.fromkeys(["adjusted", "moved", "borrowed", "lent", "over the limit", "exempt", "behind the last", "quiet", "least", "part", "factor", "most", "gave up", "warmed up"], 0)


def meet(parts, lender):
    """Counts what a drawn cluster has of what matters here."""
    limited = [it for it in parts if it.limits]
    last = max((it["arrivesAt"] for part in parts for it in part.run.trace), default=0)
    ways = [way_of(lender.seats, those) for _, those in lender.adjusted]
    met["adjusted"] += len(ways) > 0
    met["moved"] += any(len({*it.limits}) > 1 for it in limited)
    met["borrowed"] += any(max(it.limits) > limit_of(it.nominal) for it in limited)
    met["lent"] += any(min(it.limits) < limit_of(it.nominal) for it in limited)
    met["exempt"] += any(it.run.trace and not it.limits for it in parts) and len(ways) > 0
    met["behind the last"] += any(time > last for time, _ in lender.adjusted)
    met["gave up"] += any(it.whole()["timedOut"] for it in limited)
    # at the end of a period more execute than the level may have from then on
    for part in limited:
        times = [(part.run.started[it], part.run.started[it] + part.run.trace[it]["runsFor"]) for it in part.run.started]
        executing = [sum(begin <= time < end for begin, end in times) for time, _ in lender.adjusted]
        if any(now > limit for now, limit in zip(executing, part.limits[1:])):
            met["over the limit"] += 1
            break
    # a period in which nobody asked for anything, in front of one in which somebody did
    comes = {it["arrivesAt"] // PERIOD for part in parts for it in part.run.trace}
    met["quiet"] += any(place not in comes and place + 1 in comes for place in range(len(ways)))
    for way in {*ways}:
        met[way] += 1


def between(name, words, said):
    """Each limit is one between those that `objects` prints."""
    lines = [it.split(" ") for it in run(program, ["objects", words[1], *words[4:6]])[1].decode().splitlines()]
    limits = {it[1]: [*map(int, it[5].split(".."))] for it in lines if it[0] == "level" and it[4] == "limits"}
    had = {it["level"]: (it["leastLimit"], it["greatestLimit"]) for it in map(dict, said) if "leastLimit" in it}
    wrong = [(level, limits.get(level), its) for level, its in had.items() if level not in limits or not limit_of(limits[level][0]) <= its[0] <= its[1] <= limit_of(limits[level][1])]
    tally.check(name, (len(had), wrong), (len(limits), []))


def drawn_words(objects, content, seats, patience):
    return ["cluster", files("objects.json", json.dumps(objects)), files("audit.log", content), str(patience), "--seats", str(seats)]


for number in range(LENT):
    objects, levels, schemas = clusters.lending_cluster()
    content = clusters.moving_log()
    seats, patience = draw.choice([1, 3, 10, 10, 20, 40, 5000]), draw.choice([0, SECOND, HALF, PERIOD, 3 * HALF, 60 * SECOND])
    read = read_by(schemas, content)
    words = [*drawn_words(objects, content, seats, patience), "--flows", "1000000"]
    if read.fault:
        tally.check(f"{number}: a fault", run(program, words)[0], 1)
        continue
    parts, lender = parts_of(levels, schemas, read, seats, patience, lends=True)
    name = f"{number}: {seats} seats, patience {patience}, {len(read.requests)} requests"
    tally.check(name, run(program, words), (0, table(parts, 1_000_000).encode(), notes_of(read)))
    status, out, err = run(program, [*words, "--json"])
    tally.check(f"{name}, as JSON", (status, objects_in(out), err), (0, objects_of(parts, 1_000_000), notes_of(read)))
    if number % 3 == 0:
        since = draw.choice([1, PERIOD - 1, PERIOD, PERIOD + 1, draw.randrange(4 * PERIOD), 100 * PERIOD])
        late, _ = parts_of(levels, schemas, read, seats, patience, lends=True, since=since)
        words_since = [*words, "--warm-up", str(since)]
        tally.check(f"{name}, from {since} on", run(program, words_since), (0, table(late, 1_000_000).encode(), notes_of(read)))
        out = run(program, [*words_since, "--json"])[1]
        tally.check(f"{name}, from {since} on, as JSON", objects_in(out), objects_of(late, 1_000_000))
        met["warmed up"] += any(it.limits and it.limits_since()[0] != it.limits[0] for it in late)
    meet(parts, lender)
    between(f"{name}, between the limits of objects", words, objects_in(out))
if LENT >= 100:
    tally.check(f"in most clusters a limit moved: {met}", met["moved"] * 2 > LENT, True)
    tally.check(f"each was met: {met}", [it for it, often in met.items() if not often], [])


# ---- levels that neither lend nor borrow have what they have without lending

for number in range(10):
    objects, levels, schemas = clusters.lending_cluster()
    for it in objects["items"]:
        for part in ("limited", "exempt"):
            if part in it["spec"]:
                it["spec"][part] |= {"lendablePercent": 0} | ({"borrowingLimitPercent": 0} if part == "limited" else {})
    given = {it["metadata"]["name"] for it in objects["items"]}
    objects["items"] += [level_object(level_of(it["name"], it["shares"], borrowing=0)) for it in levels if it["name"] not in given and not it["exempt"]]
    words = drawn_words(objects, clusters.moving_log(), 10, 5 * SECOND)
    tally.check(f"{number}: nothing to lend", run(program, words), run(program, [*words, "--no-lending"]))

# ---- clusters worked by hand, of 10 seats: two levels have 5 each, where nothing else is said


def worked(name, levels, coming, lines, patience="0", words=()):
    """What is printed of these levels. Each takes the requests of the user of its name: in `coming` stand how many, when they come, and how long they run."""
    schemas = [{"name": it["name"], "level": it["name"], "by": "user", "rules": [([("User", it["name"])], *EVERYTHING)]} for it in levels]
    objects, *_ = whole_cluster([*levels, level_of("catch-all", 0)], schemas)
    status, out, err = run(program, ["cluster", files("objects.json", json.dumps(objects)), files("audit.log", log_of(coming)), patience, "--seats", "10", *words])
    tally.check(name, (status, out.decode().split("\n")[1 : 1 + len(lines)], err), (0, lines, b""))


QUEUE = (1, 1, 50)
NOTHING = "0 0 0 0 0 0% 0us 0us 0us"
quiet, busy = (level_of(it, 50, QUEUE, lendable=50) for it in ("quiet", "busy"))
# 5 are executed at once. From 10 s on 3 more may be, and the others follow at 30, 40 and 60 s
many = ("busy", 20, 0, 30)
worked("lent", [quiet, busy], [many], [f"quiet 5 2..5 {NOTHING}", "busy 5 5..8 20 20 0 0 0 133% 30s 60s 60s"])
worked("not lent", [quiet, busy], [many], [f"quiet 5 5 {NOTHING}", "busy 5 5 20 20 0 0 0 100% 30s 90s 90s"], words=["--no-lending"])
# at 20 s the quiet level has its seats back by right, and at 30 and 40 s in fact. From 50 s on it has 3
lines = ["quiet 5 2..5 6 6 0 0 0 24% 8000ms 20s 20s", "busy 5 5..8 20 20 0 0 0 120% 30s 70s 70s"]
worked("taken back", [quiet, busy], [many, ("quiet", 6, 12, 20)], lines)
# what is over in the microsecond in which it came was never asked for
some = ("busy", 12, 0, 30)
lines = ["quiet 5 2..5 5 5 0 0 0 0% 0us 0us 0us", "busy 5 5..8 12 12 0 0 0 120% 10s 30s 30s"]
worked("for no time", [quiet, busy], [some, ("quiet", 5, 3, 0)], lines)
worked("for a microsecond", [quiet, busy], [some, ("quiet", 5, 3, 0.000001)], [lines[0], "busy 5 5..8 12 12 0 0 0 120% 20s 30s 30s"])
# the first five are over at 10 s, then the limits are 3 and 7, and then eight come, one of which is turned away
lines = [f"quiet 5 3..5 {NOTHING}", "busy 5 5..7 13 12 1 0 0 103% 0us 0us 0us"]
worked("at the end of a period", [quiet, {**busy, "queuing": None}], [("busy", 5, 0, 10), ("busy", 8, 10, 1)], lines)
# the sixth has waited for 10 s when its level is lent seats
lines = [f"quiet 5 3..5 {NOTHING}", "busy 5 5..8 6 5 0 1 0 100% 0us 0us 0us"]
worked("gives up at the end of a period", [quiet, busy], [("busy", 6, 0, 30)], lines, patience="10s")
# behind the last request the limits are set where somebody is there as a period ends
lines = [f"quiet 5 5 {NOTHING}", "busy 5 5 5 5 0 0 0 100% 0us 0us 0us"]
worked("over as the first period ends", [quiet, busy], [("busy", 5, 0, 10)], lines)
lines = [f"quiet 5 3..5 {NOTHING}", "busy 5 5..7 5 5 0 0 0 100% 0us 0us 0us"]
worked("over a microsecond later", [quiet, busy], [("busy", 5, 0, 10.000001)], lines)
lines = [f"quiet 5 4..5 {NOTHING}", "busy 5 5..6 8 8 0 0 0 80% 0us 30s 30s"]
worked("a limit of what is borrowed", [quiet, {**busy, "borrowing": 20}], [("busy", 8, 0, 30)], lines)
# of a level that is exempt the seats are taken which it asked for: 4, and none from 30 s on
free = level_of("free", 50, exempt=True, lendable=100)
lines = ["free 5 - 4 4 0 0 0 - 0us 0us 0us", "busy 5 5..10 12 12 0 0 0 120% 10s 30s 30s"]
worked("an exempt level", [free, {**busy, "lendable": 0}], [("free", 4, 0, 15), some], lines)
lines = ["none 0 1..4 3 3 0 0 0 225% 10s 10s 10s", f"quiet 10 6..10 {NOTHING}"]
worked("a level without shares", [level_of("none", 0, QUEUE), quiet], [("none", 3, 0, 30)], lines)
# counted from a time on: five run for 30 s, and of three that come at 12 s two fit the limit of 7, and one waits until they are over. From 20 s on it is 8
coming = [("busy", 5, 0, 30), ("busy", 3, 12, 5)]
for time, quiet_limits, busy_limits, used in (("5s", "2..5", "5..8", 17), ("9.999999s", "2..5", "5..8", 24), ("10s", "2..3", "7..8", 25), ("12s", "2..3", "7..8", 30)):
    lines = [f"quiet 5 {quiet_limits} {NOTHING}", f"busy 5 {busy_limits} 3 3 0 0 0 {used}% 0us 5000ms 5000ms"]
    worked(f"from {time} on", [quiet, busy], coming, lines, words=["--warm-up", time])
lines = ["quiet 5 2..3 0 0 0 0 0 - 0us 0us 0us", "busy 5 7..8 0 0 0 0 0 - 0us 0us 0us"]
worked("from behind the last request on", [quiet, busy], coming, lines, words=["--warm-up", "12.000001s"])
# ten thousand periods
lines = [f"quiet 5 5 {NOTHING}", "busy 5 5 2 2 0 0 0 0% 0us 0us 0us"]
worked("a day", [quiet, busy], [("busy", 1, 0, 1), ("busy", 1, 100_000, 1)], lines)

tally.end()
