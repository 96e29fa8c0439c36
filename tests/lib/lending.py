"""How a server lends seats among its levels: an independent computation, written from the rules, with exact fractions, and slow on purpose. Nothing is kept of
what requests ask for, but which of them were over before: it is made anew at the end of each period, from the times at which they came and were over.

A level is a dict: `exempt`, `shares`, `lendable` and `borrowing`, both in per cent, the second of them None where there is no limit. It may
have a nominal limit that is `fixed`, in seats.
"""

import collections
import functools
import math

from simulation import ARRIVE

# in microseconds
PERIOD = 10_000_000
# the most seats of a level, and the most requests that are there at once
MOST = 10_000

Bounds = collections.namedtuple("Bounds", "least nominal most")
# the target is in thousandths of a seat
Claim = collections.namedtuple("Claim", "least current most target")
Observed = collections.namedtuple("Observed", "high mean deviation")


def half_up(number, of=1):
    """The whole number nearest to a fraction, and of two the greater one."""
    return (2 * number + of) // (2 * of)


def bounds_of(level, levels, seats):
    """The limits of a level of these, where the server has so many seats. Its nominal limit may be fixed."""
    total = sum(it["shares"] for it in levels)
    nominal = -(-seats * level["shares"] // total) if total else 0
    if level.get("fixed") is not None:
        nominal = level["fixed"]
    borrowed = seats if level["borrowing"] is None else half_up(nominal * level["borrowing"], 100)
    return Bounds(nominal - half_up(nominal * level["lendable"], 100), nominal, nominal + borrowed)


def limit_of(seats):
    """The limit that a level is set."""
    return min(max(seats, 1), MOST)


# ---- what requests ask for


def stays_of(run, since, left):
    """From when until when each request is there that arrived and was not rejected, without an end as long as none is known, and for how many seats it asks;
    of those that are there later than this time. `left` are the requests of which it may be so, and then those of which it may be so later."""
    started, waited_until, decided, coming, trace = run.started, run.waited_until, run.level.decided, run.coming, run.trace
    stays, later = [], []
    for request in left:
        asked = trace[request]
        if request in started:
            over = started[request] + asked["runsFor"]
        elif request in waited_until:
            over = waited_until[request]
        elif request in coming:
            # it did not arrive yet
            later.append(request)
            continue
        elif request in decided:
            # it was rejected
            continue
        else:
            over = math.inf
        if over > since:
            stays.append((asked["arrivesAt"], over, asked["width"]))
            later.append(request)
    left[:] = later
    return stays


def stretches_of(stays, begin, end):
    """For how many seats is asked from the one time to the other, and for how long."""
    changes = collections.defaultdict(int, {begin: 0, end: 0})
    for came, over, seats in stays:
        if came < over and came < end and over > begin:
            changes[max(came, begin)] += seats
            changes[min(over, end)] -= seats
    asked, stretches = 0, []
    times = sorted(changes)
    for time, later in zip(times, times[1:]):
        asked += changes[time]
        stretches.append((asked, later - time))
    return stretches


def observed_of(stretches):
    """The most seats at once; the mean and the deviation, in thousandths of a seat."""
    length = sum([micros for _, micros in stretches])
    mean = 1000 * sum([seats * micros for seats, micros in stretches]) // length
    squares = 1_000_000 * sum([seats * seats * micros for seats, micros in stretches]) // length
    return Observed(max([seats for seats, _ in stretches]), mean, math.isqrt(max(squares - mean * mean, 0)))


# where nobody asks for a seat
NOTHING = observed_of([(0, PERIOD)])


def smoothed_of(before, observed):
    lately = observed.mean + observed.deviation
    return max(lately, (977 * before + 23 * lately) // 1000)


def claim_of(level, bounds, high, smoothed):
    current = max(bounds.least, min(bounds.nominal, high))
    if level["exempt"]:
        return Claim(current, current, current, 0)
    return Claim(bounds.least, current, bounds.most, max(1000 * current, smoothed))


# ---- how the seats are divided


def share(claim, factor, of=1):
    """What a level has by this factor, which is a fraction, as that fraction's numerator."""
    return min(claim.most * of, max(claim.current * of, factor * claim.target))


def factor_of(seats, claims):
    """The factor by which all have these seats together, as a fraction: between two factors at which a level ceases to follow it, what all have grows
    evenly."""
    # these factors are whole numbers of such parts
    parts = math.lcm(*(claim.target for claim in claims if claim.target))
    ends = {at * (parts // claim.target) for claim in claims if claim.target for at in (claim.current, claim.most)}
    below, had = 0, parts * sum(claim.current for claim in claims)
    for end in sorted(ends):
        have = sum(share(claim, end, parts) for claim in claims)
        if have >= parts * seats:
            return below * (have - had) + (end - below) * (parts * seats - had), parts * (have - had)
        below, had = end, have
    raise ValueError("they have no more than that by any factor")


def way_of(seats, claims):
    """How the seats are divided."""
    if seats <= sum(it.least for it in claims):
        return "least"
    if seats <= sum(it.current for it in claims):
        return "part"
    return "most" if sum(it.most if it.target else it.current for it in claims) < seats else "factor"


# the last ones are kept: where nobody asks for seats, one period is as the one before it
@functools.lru_cache(maxsize=64)
def division(seats, claims):
    """The limit of each level."""
    way = way_of(seats, claims)
    if way == "least":
        return [it.least for it in claims]
    if way == "most":
        return [it.most for it in claims]
    if way == "factor":
        factor, of = factor_of(seats, claims)
        return [half_up(share(it, factor, of), of) for it in claims]
    least, current = sum(it.least for it in claims), sum(it.current for it in claims)
    return [it.least + half_up((it.current - it.least) * (seats - least), current - least) for it in claims]


# ---- levels side by side


class Lender:
    """Runs levels side by side that have come to no call yet, each to its end, and sets them their limits every ten seconds. `limits` are those that each
    of them had, none of a level that is exempt."""

    def __init__(self, levels, runs, seats):
        self.levels, self.runs = levels, runs
        # most levels are asked for nothing
        self.asked, self.left = [it for it in runs if it.trace], [[*range(len(it.trace))] for it in runs]
        self.bounds = [bounds_of(it, levels, seats) for it in levels]
        # what is divided
        self.seats = sum(it.nominal for it in self.bounds)
        self.limits = [[] if level["exempt"] else [limit_of(own.nominal)] for level, own in zip(levels, self.bounds)]
        self.smoothed = [0] * len(levels)
        # at which times the limits were set, and what each level claimed
        self.adjusted = []
        last = max((it["arrivesAt"] for run in runs for it in run.trace), default=0)
        time = PERIOD
        while time <= last or self.is_anybody_there(time):
            self.adjust(time)
            time += PERIOD
        for run in runs:
            run.go_on()

    def go_on(self, time):
        """Carries out what comes in front of the end of a period at this time: all that is due, but for requests that arrive then."""
        for run in self.asked:
            run.go_on((time, ARRIVE))

    def is_anybody_there(self, time):
        self.go_on(time)
        return any(run.level.running or run.level.waiting() for run in self.asked)

    def adjust(self, time):
        self.go_on(time)
        claims = []
        for place, run in enumerate(self.runs):
            stays = self.left[place] and stays_of(run, time - PERIOD, self.left[place])
            observed = observed_of(stretches_of(stays, time - PERIOD, time)) if stays else NOTHING
            self.smoothed[place] = smoothed_of(self.smoothed[place], observed)
            claims.append(claim_of(self.levels[place], self.bounds[place], observed.high, self.smoothed[place]))
        self.adjusted.append((time, claims))
        for level, run, limits, seats in zip(self.levels, self.runs, self.limits, division(self.seats, tuple(claims))):
            if not level["exempt"]:
                limits.append(limit_of(seats))
                run.set_limit(time, limit_of(seats))
