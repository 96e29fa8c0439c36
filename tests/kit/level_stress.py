"""A level under load, ten times: eight threads, 10,000 requests of mixed widths on a small limit, with cancels, limits that change and a close.

The whole of each report is judged by the rules (lib/report.py), and its oldest part by the plain program too, as the run itself says. Then copies of
a true report, each false in one thing, are judged: each is refused.
"""

import os
import subprocess
import sys

sys.path.insert(0, os.path.join(os.path.dirname(os.path.dirname(os.path.abspath(__file__))), "lib"))
from harness import Tally, build_crate, run
from report import History, Report, faults_of, named

SEEDS = range(1, 11)
REQUESTS = 10_000

tally = Tally()
program = build_crate("apf_trials")
print("seeds", *SEEDS)


def report_of(seed):
    """The report of the level of this seed, or None if there is none in time."""
    try:
        status, out, err = run(program, ["levels", "stress", str(seed), str(REQUESTS)])
    except subprocess.TimeoutExpired:
        tally.check(f"seed {seed} ends in two minutes", False, True)
        return None
    tally.check(f"seed {seed}", (status, err), (0, b""))
    return Report(out.decode()) if status == 0 else None


def place_of(report, holds):
    """The first place of the log at which this holds of the events from there on."""
    return next(place for place in range(len(report.events)) if holds(report.events[place:]))


def kind_at(kind):
    return lambda rest: rest[0][0] == kind


def with_events(report, place, old, new):
    report.events[place : place + old] = new


def two_of_two_queues(rest):
    return len(rest) > 1 and rest[0][0] == rest[1][0] == "dispatch" and rest[0][2] != rest[1][2]


def exchanged(report):
    place = place_of(report, two_of_two_queues)
    with_events(report, place, 2, report.events[place : place + 2][::-1])


def left_out(kind):
    return lambda report: with_events(report, place_of(report, kind_at(kind)), 1, [])


def doubled(kind):
    def change(report):
        place = place_of(report, kind_at(kind))
        with_events(report, place, 1, 2 * [report.events[place]])

    return change


def before_its_turn(report):
    """The first request that is dispatched from a queue in which another waits changes places with that one."""
    queues = [[] for _ in range(report.config[1])]
    for place, (kind, request, queue) in enumerate(report.events):
        if kind == "enter":
            queues[queue].append(request)
        elif kind == "dispatch" and len(queues[queue]) > 1:
            with_events(report, place, 1, [(kind, queues[queue][1], queue)])
            return
        elif kind != "full":
            queues[queue].remove(request)


def other_queue(kind):
    def change(report):
        place = place_of(report, kind_at(kind))
        _, request, queue = report.events[place]
        with_events(report, place, 1, [(kind, request, (queue + 1) % report.config[1])])

    return change


def never_served(report):
    report.events = [it for it in report.events if it[0] != "dispatch" or it[2] != 0]


def decided(kind, decision):
    def change(report):
        report.decisions[named(report, kind)[0]] = decision

    return change


def one_more(numbers, place=0):
    def change(report):
        getattr(report, numbers)[place] += 1

    return change


def first_told(decision, *how):
    def change(report):
        place = report.decisions.index("execute")
        width, number, _, was = report.requests[place]
        report.requests[place] = width, number, decision, was | set(how)

    return change


def changed(name, change):
    return lambda report: setattr(report, name, change(getattr(report, name)))


def without_first(holds):
    """The list without the first item of which this holds."""

    def change(items):
        place = next(place for place, it in enumerate(items) if holds(*it))
        return items[:place] + items[place + 1 :]

    return change


def first_told_another(cancels):
    (request, told), *rest = cancels
    return [(request, "execute" if told == "closed" else "closed"), *rest]


# what is false, how, and what the judge is to say of it
FALSE = [
    ("two dispatches are exchanged", exchanged, "fair"),
    ("a dispatch is doubled", doubled("dispatch"), "legal"),
    ("an arrival is doubled", doubled("enter"), "legal"),
    ("a rejection is doubled", doubled("full"), "legal"),
    ("an arrival is left out", left_out("enter"), "legal"),
    ("a dispatch is left out", left_out("dispatch"), "legal"),
    ("a strike is left out", left_out("strike"), "waiting"),
    ("a dispatch before its turn", before_its_turn, "legal"),
    ("an arrival in another queue", other_queue("enter"), "legal"),
    ("a dispatch from another queue", other_queue("dispatch"), "legal"),
    ("a rejection by another queue", other_queue("full"), "legal"),
    ("a queue that is never served", never_served, "balanced"),
    ("a dispatched request is cancelled", decided("dispatch", "cancelled"), "agreement"),
    ("a struck request is executed", decided("strike", "execute"), "agreement"),
    ("a rejected request is closed", decided("full", "closed"), "agreement"),
    ("a caller is told another decision", first_told("cancelled"), "told"),
    ("a request that executes is late", first_told("execute", "late"), "late"),
    ("a canceller is told another decision", changed("cancels", first_told_another), "told"),
    ("a cancel that nobody made", changed("cancels", lambda it: [(r, told) for r, told in it if told != "cancelled"]), "cancels"),
    ("a strike that is told twice", changed("strikes", lambda it: it + it[:1]), "strikes"),
    ("two first closes", changed("closes", lambda it: ["First", *it]), "closed"),
    # a change that sets the limit that was there already leaves no trace
    ("a limit that is lost", changed("limits", without_first(lambda old, new: old != new)), "limits"),
    ("seats beyond the limit", changed("most", lambda it: it + 10), "seats"),
    ("a seat that is kept", one_more("word", 1), "word"),
    ("a sum of one more", one_more("counts"), "sums"),
    ("statistics of one more", one_more("stats", 1), "stats"),
    ("a reading of one more", one_more("read"), "stats"),
]

seen = {"executed": 0, "queue-full": 0, "closed": 0, "cancelled": 0, "struck": 0, "tried": 0, "compared": 0, "wide": 0, "limits": 0, "closes": 0}
# the first report in which each kind of event stands, of a level that was closed
first = None
for seed in SEEDS:
    report = report_of(seed)
    if report is None:
        break
    tally.check(f"seed {seed}: the requests", len(report.requests), REQUESTS)
    tally.check(f"seed {seed}: by the plain program", report.plain, "fair true agrees true balanced true adds-up true")
    tally.check(f"seed {seed}: by the rules", faults_of(report), [])
    history = History(report).follow()
    widest = max([report.config[0], *(new for _, new in report.limits)])
    for name, count in [
        ("executed", report.counts[0]),
        ("queue-full", report.counts[1]),
        ("closed", report.counts[2]),
        ("cancelled", report.counts[4]),
        ("struck", len(named(report, "strike"))),
        ("tried", sum("tried" in how for *_, how in report.requests)),
        ("compared", history.compared),
        ("wide", sum(width > widest for (width, *_), it in zip(report.requests, report.decisions) if it == "execute")),
        ("limits", len(report.limits)),
        ("closes", report.closes.count("First")),
    ]:
        seen[name] += count
    if first is None and "First" in report.closes and {kind for kind, *_ in report.events} == {"enter", "full", "dispatch", "strike"}:
        first = report
print(", ".join(f"{name} {count}" for name, count in seen.items()))
# each kind of thing came about, most requests were served, and not every level was closed
tally.check("what came about", [name for name, count in seen.items() if count < 5], [])
tally.check("most requests are executed", seen["executed"] > len(SEEDS) * REQUESTS // 2, True)
tally.check("queues are compared", seen["compared"] > REQUESTS, True)

tally.check("a report to be falsified", first is not None, True)
for name, change, fault in FALSE if first else []:
    false = first.copy()
    change(false)
    tally.check(f"refused: {name}", fault in faults_of(false), True)
tally.end()
