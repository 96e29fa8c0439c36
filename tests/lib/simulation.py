"""What the commands print of requests with times: an independent computation, slow on purpose.

A run carries out what is due first, and makes the calls of the independent level (level.py). A request is given its cost as it arrives, by the
means of what finished until then (charges.py). By time, what it took is charged in the place of its cost as it finishes.
"""

import collections
import functools
import re
from fractions import Fraction
from heapq import heapify, heappop, heappush

from charges import Means, taken
from judge import Refused, config_of, dealer_fault
from level import Level, hand_of
from jsontext import json_text
from trace import trace_of

# what is due at one time comes in this order, and by number among equals
FINISH, CANCEL, ARRIVE = range(3)
WORDS = ("finish", "cancel", "arrive")
# the units of a patience, in microseconds, and the longest one
UNITS = {"": 1, "us": 1, "ms": 1000, "s": 1_000_000, "m": 60_000_000}
LONGEST = 1_000_000_000
# the most requests of a script
LISTED = 10_000
BAD_PATIENCE = (
    "apf: PATIENCE must be a number with m, s, ms or us behind it, as 1.5s, or a whole number of microseconds: at most 1000000000 microseconds"
)


def patience_of(text):
    """The patience that a command line names, in microseconds, or None. A number may have a plus in front, and zeros. With a unit it may have a point, and
    one to six digits behind it."""
    found = re.fullmatch(r"\+?([0-9]+)(?:\.([0-9]{1,6})(?=[a-z]))?([a-z]*)", text, re.A)
    if not found or found[3] not in UNITS:
        return None
    patience = Fraction(f"{found[1]}.{found[2] or 0}") * UNITS[found[3]]
    return int(patience) if patience <= LONGEST and patience.denominator == 1 else None


def usual_charge(trace):
    """What requests are charged where nobody says it: time, if no line has a cost."""
    return "seats" if any(it["cost"] is not None for it in trace) else "time"


def words_of(patience=None, charge=None):
    """The words of a command line that say so."""
    return [*([] if patience is None else [str(patience)]), *([] if charge is None else [f"--charge={charge}"])]


class Run:
    """A trace on a level of one thread, from its first call to its last, or until a time. With a patience of 0 no request gives up. What requests are
    charged is "time", "seats", or as usual."""

    def __init__(self, config, trace, patience, charge=None, until=None):
        self.config, self.trace, self.patience = config, trace, patience
        self.means = Means() if (charge or usual_charge(trace)) == "time" else None
        # what each request asks of the level: its cost is there once it arrived
        self.asked = [{**it} for it in trace]
        self.level = Level(config, self.asked)
        # the requests that did not arrive yet
        self.coming = set(range(len(trace)))
        # what is due, as far as it is known, the first on top: its time, its kind and its request
        self.calendar = [(asked["arrivesAt"], ARRIVE, it) for it, asked in enumerate(trace)]
        heapify(self.calendar)
        # when each request took its seats, and when each wait was over: by its seats, or by giving up
        self.started, self.waited_until = {}, {}
        # each call that was made: its time, its kind and its request
        self.calls = []
        self.go_on(until)

    def go_on(self, until=None):
        """Carries out what is due, to its end or until a call would come at this time, or later. Behind a time may stand a kind of call."""
        while (due := self.due()) and (until is None or due[0] < until):
            self.carry_out(*heappop(self.calendar))

    def due(self):
        """What is due first. Who does not wait any more does not give up. A call may make more due at once: the finish of a request that runs for no time."""
        calendar, decided = self.calendar, self.level.decided
        while calendar and calendar[0][1] == CANCEL and calendar[0][2] in decided:
            heappop(calendar)
        return calendar[:1]

    def cost(self, request):
        """The cost of a request that arrives now: that of its line, or of its flow by time, or its width."""
        asked = self.trace[request]
        if asked["cost"] is not None:
            return asked["cost"]
        return self.means.cost(asked["hash"], asked["width"]) if self.means else asked["width"]

    def carry_out(self, time, kind, request):
        if kind == ARRIVE:
            self.coming.remove(request)
            self.asked[request]["cost"] = self.cost(request)
        if kind == FINISH and self.means:
            asked = self.trace[request]
            self.level.settle(request, taken(asked["width"], asked["runsFor"]))
            self.means.learn(asked["hash"], asked["runsFor"])
        getattr(self.level, WORDS[kind])(request)
        self.calls.append((time, kind, request))
        self.seat(self.level.seated[len(self.started) :], time)
        if kind == CANCEL:
            self.waited_until[request] = time
        if kind == ARRIVE and self.patience and request not in self.level.decided:
            heappush(self.calendar, (time + self.patience, CANCEL, request))

    def seat(self, requests, time):
        """These took seats at this time, and it is known when they finish."""
        for request in requests:
            self.started[request] = self.waited_until[request] = time
            heappush(self.calendar, (time + self.trace[request]["runsFor"], FINISH, request))

    def set_limit(self, time, limit):
        self.level.set_limit(limit)
        self.seat(self.level.seated[len(self.started) :], time)

    def wait(self, request):
        """How long it waited for its seats, or until it gave up. A request that is rejected does not wait."""
        arrival = self.trace[request]["arrivesAt"]
        return self.waited_until.get(request, arrival) - arrival

    def seat_time(self, request):
        return self.trace[request]["width"] * self.trace[request]["runsFor"] if request in self.started else 0

    def end(self):
        return self.calls[-1][0] if self.calls else 0


class Flows:
    """The flows of the last trace that was asked for, as several answers are told of one trace, which nobody changes."""

    trace, flows = None, {}


def flows_of(trace):
    """The numbers of each flow's requests, by the flow's hash, in the order of the flows' first requests."""
    if Flows.trace is not trace:
        Flows.trace, Flows.flows = trace, {}
        for number, request in enumerate(trace):
            Flows.flows.setdefault(request["hash"], []).append(number)
    return Flows.flows


def names_of(trace, members):
    """The names of a flow as JSON texts, escaped where JSON must or a terminal would obey: those of its first request, none where that one gives a hash."""
    return [json_text(it) for it in trace[members[0]]["names"] or ()]


def of_names(trace, members):
    return "".join(f" {it}" for it in ["of", *names_of(trace, members)]) if names_of(trace, members) else ""


def nearest_rank(waits, percent):
    """The least wait such that at least this many of a hundred are not above it; 0 of none."""
    ordered = sorted(waits)
    for place, wait in enumerate(ordered, 1):
        if 100 * place >= percent * len(ordered):
            return wait
    return 0


def shown_rank(waits, percent):
    """The same as it is printed: of more than 10,000 waits with a mark, and with zeros behind its first eight binary digits."""
    rank = nearest_rank(waits, percent)
    if len(waits) <= 10_000:
        return str(rank)
    behind = max(0, rank.bit_length() - 8)
    return f"~{rank >> behind << behind}"


def flow_line(run, flow, members):
    decisions = [run.level.decided[it] for it in members]
    executed, cancelled = decisions.count("execute"), decisions.count("cancelled")
    waits = [run.wait(it) for it in members if it in run.started]
    return (
        f"flow {flow:016x} requests {len(members)}"
        f" executed {executed} rejected {len(members) - executed - cancelled} cancelled {cancelled}"
        f" seat-time {sum(map(run.seat_time, members))}"
        f" wait median {shown_rank(waits, 50)} p99 {shown_rank(waits, 99)} longest {max(waits, default=0)}{of_names(run.trace, members)}"
    )


def simulate(run):
    flows = [flow_line(run, flow, members) for flow, members in flows_of(run.trace).items()]
    used, waited = (sum(map(each, range(len(run.trace)))) for each in (run.seat_time, run.wait))
    end = f"end {run.end()} seat-time {used} of {run.config['limit'] * run.end()} waited {waited} patience {run.patience}"
    return [*flows, end, *run.level.transcript().splitlines()[-4:]]


FATES = "request flow arrival queue start end decision schema distinguisher"
COMPARED = "flow requests median median-2 p99 p99-2 longest longest-2 rejected rejected-2 cancelled cancelled-2 schema distinguisher"


def fates(run):
    """What became of each request, in the order of the arrivals. It ended with the last call that names it."""
    entered = {request: queue for kind, request, queue in run.level.log if kind == "enter"}
    ended = {request: time for time, _, request in run.calls}
    lines = [FATES]
    for it in sorted(range(len(run.trace)), key=lambda it: (run.trace[it]["arrivesAt"], it)):
        request = run.trace[it]
        seated = [entered.get(it, "-"), run.started.get(it, "-")]
        fields = [it, f"{request['hash']:016x}", request["arrivesAt"], *seated, ended[it], run.level.decided[it]]
        lines.append(" ".join(map(str, [*fields, *names_of(run.trace, [it])])))
    return lines


def figures(run, members):
    """The median, the 99th percentile and the longest of the waits of those that executed; the rejected, and those that gave up."""
    waits = [run.wait(it) for it in members if it in run.started]
    gave_up = [it for it in members if run.level.decided[it] == "cancelled"]
    rejected = len(members) - len(waits) - len(gave_up)
    return [shown_rank(waits, 50), shown_rank(waits, 99), max(waits, default=0), rejected, len(gave_up)]


def compare(one, other):
    """Two runs of one trace: the flows whose longest wait changes most first, and then all requests. Each number stands twice."""
    lines = []
    for flow, members in flows_of(one.trace).items():
        pair = [figures(run, members) for run in (one, other)]
        line = [f"{flow:016x}", len(members), *twice(*pair), *names_of(one.trace, members)]
        lines.append((abs(pair[0][2] - pair[1][2]), line))
    # what is equal keeps its order
    lines.sort(key=lambda it: it[0], reverse=True)
    everybody = range(len(one.trace))
    whole = ["whole", len(everybody), *twice(figures(one, everybody), figures(other, everybody))]
    return [COMPARED, *(" ".join(map(str, line)) for line in [*(it for _, it in lines), whole])]


def twice(one, other):
    return [number for pair in zip(one, other) for number in pair]


def timeline(run):
    return [f"{WORDS[kind]} {request}" for _, kind, request in run.calls]


def requests(trace):
    """One array, one object a line, without blanks: the flow as the trace gives it, and a width that is not 1."""
    lines = []
    for request in trace:
        flow = dict(zip(("schema", "distinguisher"), request["names"])) if request["names"] else {"hash": request["hash"]}
        width = {"width": request["width"]} if request["width"] != 1 else {}
        lines.append(json_text({**flow, **width}))
    return ["[", *(f"{line}," for line in lines[:-1]), *lines[-1:], "]"]


def dealt_of(config, flows):
    """The queues of each flow's hand, in the order in which they were dealt. A level that rejects deals none."""
    queues = config["queues"] if config["limitResponse"] == "Queue" else 0
    return {flow: hand_of(queues, config["handSize"] if queues else 0, flow) for flow in flows}


def hands(config, trace):
    """Each hand, with how many other flows have each of its queues, and the first ten of those that have all of them."""
    flows, lines = flows_of(trace), []
    dealt = dealt_of(config, flows)
    queues_of = {flow: frozenset(hand) for flow, hand in dealt.items()}
    # how many flows have each queue; and who has the same ones, in their order: as all hands are of one size, who has all queues of a hand has no other
    holders, alike = collections.Counter(), collections.defaultdict(list)
    for flow, queues in queues_of.items():
        holders.update(queues)
        alike[queues].append(flow)
    for flow, members in flows.items():
        own = queues_of[flow]
        lines.append(" ".join([f"flow {flow:016x} hand", *map(str, dealt[flow])]) + of_names(trace, members))
        for queue in dealt[flow]:
            if sharers := holders[queue] - 1:
                lines.append(f"  shares {queue} with {sharers} flows")
        covers = [it for it in alike[own] if it != flow] if own else []
        if covers:
            lines.append(" ".join(["  covered by", *(f"{it:016x}" for it in covers[:10])]))
        if covers[10:]:
            lines.append(f"  covered by {len(covers[10:])} more")
    return lines


def hands_of(config, trace, name):
    """The hands of the flows of a distinguisher, and all who share a queue with each."""
    flows, lines = flows_of(trace), []
    dealt = dealt_of(config, flows)
    queues_of = {flow: frozenset(hand) for flow, hand in dealt.items()}
    for flow, members in flows.items():
        if (trace[members[0]]["names"] or (None, None))[1] != name:
            continue
        lines.append(" ".join([f"flow {flow:016x} hand", *map(str, dealt[flow])]) + of_names(trace, members))
        covers = []
        for other, its_members in flows.items():
            shared = [queue for queue in dealt[flow] if queue in queues_of[other]]
            if other != flow and shared:
                lines.append(" ".join(["  shares", *map(str, shared), "with", f"{other:016x}", *names_of(trace, its_members)]))
                covers += [f"{other:016x}"] if shared == dealt[flow] else []
        if covers:
            lines.append(" ".join(["  covered by", *covers]))
    return lines


@functools.lru_cache(maxsize=2)
def run_of(config, content, patience, charge):
    """The run of a trace on a level, both of which are good files with these bytes. The last ones are kept, as several commands are tried on them."""
    return Run(config_of(config), trace_of(content, in_pieces=True), patience, charge)


def answer(command, contents, patience=None, charge=None):
    """The status, output and errors of one of these commands, on files of these bytes that are judged in this order: the configs
    of its levels, and the trace. Then the levels are opened. Without a patience it makes no run."""
    try:
        *configs, content = contents
        levels = [config_of(it) for it in configs]
        trace = trace_of(content, in_pieces=command in (simulate, compare, fates, timeline, hands))
        for level in levels:
            fault = level["limitResponse"] == "Queue" and dealer_fault(level["queues"], level["handSize"])
            if fault:
                raise Refused(fault)
        if command is timeline and len(trace) > LISTED:
            raise Refused(f"apf: there are more than {LISTED} requests: simulate, compare and fates take any number")
        lines = command(*levels, trace) if patience is None else command(*(run_of(it, content, patience, charge) for it in configs))
        return 0, "".join(f"{line}\n" for line in lines).encode(), b""
    except Refused as line:
        return 1, b"", f"{line}\n".encode()
