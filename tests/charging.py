"""Who is turned away, where requests are charged by time and where by seats: quiet flows of short requests beside five flows that ask for twice the
level. First with an `apf serve` in the middle: the client, tests/lib/client.c, keeps the clock, and everything else is the program's. Then by `apf simulate`. All requests are
counted. They come for 90 times as long as a loud one runs, if that is longer than APF_SECONDS.

APF_SEED draws other arrivals.
"""

import bisect
import functools
import itertools
import json
import math
import os
import random
import subprocess
import sys

sys.path.insert(0, os.path.join(os.path.dirname(os.path.abspath(__file__)), "lib"))
from harness import Files, Tally, build
from in_c import compiled

tally = Tally()
files = Files()
program, client = build(), compiled(files, "client")
seed = int(os.environ.get("APF_SEED", "1040"))
SECONDS = int(os.environ.get("APF_SECONDS", "90"))
print(f"seed {seed}")
LEVEL = files("level.json", json.dumps({"limit": 49, "queues": 128, "handSize": 6, "queueLengthLimit": 50}))
SECOND = 1_000_000
PATIENCE = 15 * SECOND
SHORT, QUIET_FLOWS, LOUD_FLOWS = 10_000, 10, 5
# no request runs for less
SOONEST = SHORT * 3 // 4


def arrivals_of(flows, name, runs_for, seats, beside, seconds):
    """The arrivals in this many seconds of flows that ask for this many seats together, at times that know nothing of one another. Each runs up to a
    quarter longer or shorter. In fewer seconds they are the first of them."""
    each = runs_for * len(flows) / seats
    arrivals = []
    for flow in flows:
        draw, who = random.Random(f"{seed} {beside} {name} {flow}").random, f"{name}-{flow}"
        # a million are drawn: an exponential time between two, as `expovariate` has it, and then the run, as `uniform` has it
        at = -math.log(1 - draw()) * each
        while at < seconds * SECOND:
            arrivals.append((int(at), who, int(runs_for * (0.75 + 0.5 * draw()))))
            at -= math.log(1 - draw()) * each
    return arrivals


@functools.lru_cache(maxsize=1)
def duel(runs_for, seconds):
    """The arrivals of the quiet flows and of the loud ones, whose requests run this long, in the order of their times."""
    quiet = arrivals_of(range(QUIET_FLOWS), "quiet", SHORT, 4.9, runs_for, seconds)
    return sorted(quiet + arrivals_of(range(LOUD_FLOWS), "loud", runs_for, 98, runs_for, seconds))


def seconds_of(runs_for):
    """For how long requests come where the loud ones run this long."""
    return max(SECONDS, 90 * runs_for // SECOND)


def turned_away(runs_for, charge):
    """The part of the quiet flows' requests that is turned away beside requests that run this long."""
    seconds = seconds_of(runs_for)
    lines, _, quiet = trace_of(runs_for, seconds)
    told = files("told", b"")
    served = subprocess.Popen([program, "serve", LEVEL, "--charge", charge], stdin=subprocess.PIPE, stdout=subprocess.PIPE)
    words = [client, files("duel.jsonl", "".join(lines)), str(PATIENCE), str(SOONEST), told]
    asking = subprocess.Popen(words, stdin=served.stdout, stdout=served.stdin)
    # the two pipes are theirs
    served.stdin.close()
    served.stdout.close()
    statuses = asking.wait(), served.wait()
    with open(told) as file:
        ends = [line.split() for line in file]
    came, away = (sum(int(it[place]) for it in ends if it[0].startswith("quiet-")) for place in (1, 2))
    tally.check(f"{runs_for} us by {charge}: nothing is left", (statuses, ends[LOUD_FLOWS + QUIET_FLOWS :][:1], came), ((0, 0), ["level open seats 0 waiting 0".split()], quiet[-1]))
    if statuses != (0, 0):
        tally.end()
    print(f"served for {seconds} s, loud requests of {runs_for // 1000} ms, charged by {charge}: {away} of {came} quiet requests turned away, {100 * away / came:.2f} %")
    return away / came


@functools.lru_cache(maxsize=1)
def trace_of(runs_for, seconds):
    """The lines of the trace of these arrivals, in the order of their times, with these times and the numbers of quiet requests among the first ones."""
    arrivals = duel(runs_for, seconds)
    form = '{"schema":"duel","distinguisher":"%s","arrivesAt":%d,"runsFor":%d}\n'
    quiet = [*itertools.accumulate([flow.startswith("quiet") for _, flow, _ in arrivals], initial=0)]
    return [form % (flow, at, ran) for at, flow, ran in arrivals], [it[0] for it in arrivals], quiet


def simulated_for(seconds, runs_for, charge, of):
    """By a simulation of the arrivals in this many seconds, which are the first ones of those in more: how many of the quiet flows' requests came, and how
    many were turned away."""
    lines, times, quiet = trace_of(runs_for, of)
    count = bisect.bisect_left(times, seconds * SECOND)
    trace = files("duel.jsonl", "".join(lines[:count]))
    done = subprocess.run([program, "simulate", LEVEL, trace, "15s", "--charge", charge], stdout=subprocess.PIPE, stderr=subprocess.PIPE)
    rows = [line.split() for line in done.stdout.decode().split("\n") if line.startswith("flow ") and '"quiet-' in line]
    came, executed = (sum(int(row[row.index(word) + 1]) for row in rows) for word in ("requests", "executed"))
    tally.check(f"{runs_for} us for {seconds} s by {charge}: each is simulated", (done.returncode, done.stderr, came), (0, b"", quiet[count]))
    return came, came - executed


def simulated(runs_for, charge):
    """The part that is turned away of all, and of those behind the first third. Of those in it some are there at its end. If nobody comes behind them,
    fewer of these are turned away, so the second part is at most this."""
    seconds = seconds_of(runs_for)
    came, away = simulated_for(seconds, runs_for, charge, seconds)
    came_first, away_first = simulated_for(seconds // 3, runs_for, charge, seconds)
    behind = (away - away_first) / (came - came_first)
    print(f"simulated for {seconds} s, loud requests of {runs_for // 1000} ms, charged by {charge}: {away} of {came} quiet requests turned away, {100 * away / came:.2f} %; {100 * behind:.3f} % behind the first third")
    return away / came, behind


for milliseconds in (30, 100, 300, 1_000, 10_000):
    served, (away, behind) = turned_away(milliseconds * 1000, "time"), simulated(milliseconds * 1000, "time")
    tally.check(f"with serve, loud requests of {milliseconds} ms: at most 1 % of the quiet ones are turned away", served <= 0.01, True)
    tally.check(f"by simulate, loud requests of {milliseconds} ms: as many are", away, served)
    # those of 10 s hold all seats from the fifth second on, and the first of them end some seconds later: nearly all who are turned away come then
    tally.check(f"by simulate, loud requests of {milliseconds} ms: at most 0.1 % of those behind the first third", behind <= 0.001, True)
    # the same where dispatches are charged their seats: the test can tell
    if milliseconds == 300:
        tally.check("charged by seats, a fifth and more of them are", turned_away(milliseconds * 1000, "seats") >= 0.2, True)
    if milliseconds >= 1_000:
        tally.check(f"by simulate too, of {milliseconds} ms", [it >= 0.2 for it in simulated(milliseconds * 1000, "seats")], [True, True])
tally.end()
