"""A judge of runs of requests with times, by the rules alone: it makes no run of its own, and reads the script and what `replay` prints."""

import re

# what is due at one time comes in this order
ORDER = ("finish", "cancel", "arrive")


def area(begins, ends, weight):
    """The sum, over all times, of the weights of the requests that began and did not end yet."""
    changes = [(time, weight(it)) for it, (time, _) in begins.items()] + [(ends[it], -weight(it)) for it in begins if it in ends]
    height = total = before = 0
    for time, change in sorted(changes):
        total += height * (time - before)
        height, before = height + change, time
    return total


class Record:
    """A run by its script and its transcript. Times are computed from the trace and from where the requests took their seats."""

    def __init__(self, limit, trace, patience, script, transcript):
        self.limit, self.trace, self.patience = limit, trace, patience
        # each call: its time, its place in ORDER, its request, and after how many calls it was known that it would be due
        self.calls = []
        # of each request, the time and the place of the call in which it arrived, took its seats, entered a queue, was struck
        self.arrived, self.started, self.entered, self.struck = {}, {}, {}, {}
        self.broken = []
        # the seats in use
        self.seats = 0
        lines = [line.split() for line in transcript]
        for command in script:
            if not re.fullmatch(f"({'|'.join(ORDER)}) [0-9]+", command) or int(command.split()[1]) >= len(trace):
                self.broken.append("each call is one of the trace")
                continue
            word, number = command.split()
            line = lines.pop(0) if lines else []
            if line[:2] != [word, number] or line[2:] in (["again"], ["not", "running"]):
                self.broken.append("each call has its line")
            self.follow(word, int(number), line[2:])
            while lines and lines[0][:1] in (["dispatch"], ["strike"]):
                self.take_out(*lines.pop(0)[:2])
            if not self.seats and set(self.entered) - set(self.started) - set(self.struck):
                self.broken.append("no request waits while no seat is taken")
        if lines:
            self.broken.append("each line is of a call")

    def follow(self, word, request, rest):
        arrival, here = self.trace[request]["arrivesAt"], len(self.calls)
        if word == "arrive":
            time, since = arrival, 0
            self.arrived[request] = (time, here)
            if rest == ["execute"]:
                self.start(request, (time, here))
            if rest[:1] == ["queued"]:
                self.entered[request] = (time, here)
        elif word == "cancel":
            time, since = arrival + self.patience, self.arrived.get(request, (0, here))[1] + 1
        else:
            start, since = self.started.get(request, (0, here))
            time, since = start + self.trace[request]["runsFor"], since + 1
            self.seats -= self.trace[request]["width"]
        self.calls.append((time, ORDER.index(word), request, since))

    def take_out(self, kind, request):
        """A line of a request that the last call took out of a queue."""
        here = (self.calls[-1][0], len(self.calls) - 1)
        if kind == "strike":
            self.struck[int(request)] = here
        else:
            self.start(int(request), here)

    def start(self, request, here):
        width = self.trace[request]["width"]
        if request in self.started:
            self.broken.append("each request takes its seats once")
        if self.seats and self.seats + width > self.limit:
            self.broken.append("each request takes its seats where there is room")
        self.seats += width
        self.started[request] = here

    def is_in_order(self):
        """Whether no call was made while one that comes before it was known to be due."""
        keys = [call[:3] for call in self.calls]
        return all(keys[place] > max(keys[since:place], default=(-1,)) for place, (*_, since) in enumerate(self.calls))

    def of(self, word):
        return sorted(request for _, kind, request, _ in self.calls if ORDER[kind] == word)

    def starts_in_time(self, request):
        return not self.patience or request not in self.started or self.started[request][0] <= self.trace[request]["arrivesAt"] + self.patience

    def areas(self):
        """The time of the last call, the area under the seats in use, and the area under the number of those that wait."""
        finished = {request: time for time, kind, request, _ in self.calls if ORDER[kind] == "finish"}
        left = {it: time for it, (time, _) in [*self.started.items(), *self.struck.items()]}
        seats = area(self.started, finished, lambda it: self.trace[it]["width"])
        return self.calls[-1][0] if self.calls else 0, seats, area(self.entered, left, lambda it: 1)

    def faults(self):
        """The sentences that the run breaks."""
        entered, started, struck = set(self.entered), set(self.started), set(self.struck)
        sentences = [
            ("what is due is carried out in its order", self.is_in_order()),
            ("each request arrives once", self.of("arrive") == [*range(len(self.trace))]),
            ("each request that took its seats finishes once, and no other one finishes", self.of("finish") == sorted(started)),
            ("each request that is struck gave up once, and no other one gives up", self.of("cancel") == sorted(struck)),
            ("without patience no request gives up", bool(self.patience) or not struck),
            ("no request takes its seats after the time of giving up", all(map(self.starts_in_time, started))),
            ("each request that entered took its seats or gave up, and not both", entered <= started | struck and not started & struck),
            ("each request that gave up had entered", struck <= entered),
        ]
        return [*self.broken, *(name for name, holds in sentences if not holds)]


FORM = re.compile(
    r"(flow [0-9a-f]{16} requests \d+ executed \d+ rejected \d+ cancelled \d+ seat-time \d+ wait median \d+ p99 \d+ longest \d+( of \".*\" \".*\")?\n)*"
    r"end \d+ seat-time \d+ of \d+ waited \d+ patience \d+\n"
    r"level (open|closed) seats \d+ waiting \d+\n"
    r"executed \d+ rejected \d+ cancelled \d+ undecided \d+\n"
    r"queue-full \d+ closed \d+ concurrency-limit \d+\n"
    r"entered \d+ dispatched \d+ struck \d+\n",
    re.ASCII,
)


def sums_broken(trace, config, lines):
    """The sums that the lines of `simulate` break: columns against the book, and the parts of the line of the whole."""
    if not FORM.fullmatch("".join(f"{line}\n" for line in lines)):
        return ["each line has its form"]
    *flows, end, level, decided, rejected, log = (line.split(" ") for line in lines)
    columns = ("requests", "executed", "rejected", "cancelled", "seats")
    numbers = {name: sum(int(flow[3 + 2 * place]) for flow in flows) for place, name in enumerate(columns)}
    book = [int(decided[place]) for place in (1, 3, 5, 7)]
    sentences = [
        ("the requests are those of the trace", numbers["requests"] == len(trace)),
        ("the columns are the book's", [numbers[it] for it in ("executed", "rejected", "cancelled")] == book[:3]),
        ("each request is decided", book[3] == 0 and sum(book) == len(trace)),
        ("the rejected requests are of three kinds, and none is closed", sum(int(it) for it in rejected[1::2]) == book[1] and rejected[3] == "0"),
        ("the seat-time is that of the flows", numbers["seats"] == int(end[3])),
        ("what could be used is the limit times the end", int(end[5]) == config["limit"] * int(end[1])),
        ("the waits of a flow ascend", all(int(flow[14]) <= int(flow[16]) <= int(flow[18]) for flow in flows)),
        ("the level is empty", level == "level open seats 0 waiting 0".split(" ")),
        ("each request that entered was dispatched or struck", int(log[1]) == int(log[3]) + int(log[5]) and int(log[5]) == book[2]),
    ]
    return [name for name, holds in sentences if not holds]


FATE = re.compile(
    r"\d+ [0-9a-f]{16} \d+ (\d+|-) (\d+ \d+ execute|- \d+ (queue-full|concurrency-limit|cancelled))( \".*\" \".*\")?", re.ASCII
)


class Fates:
    """What `fates` prints, read without any run: of each request, in the order of the lines, its fields by their names."""

    def __init__(self, lines):
        self.header, *rows = lines or [""]
        names = self.header.split(" ")
        self.rows = [dict(zip(names, row.split(" ", 8))) for row in rows]
        self.are_formed = all(map(FATE.fullmatch, rows))

    def broken(self, limit, trace, patience):
        """The sentences that the lines break."""
        if not self.are_formed or sorted(int(it["request"]) for it in self.rows) != [*range(len(trace))]:
            return ["each request has one line of its form"]
        each = [(it, trace[int(it["request"])]) for it in self.rows]
        arrivals = [(int(it["arrival"]), int(it["request"])) for it in self.rows]
        executed = [(it, request) for it, request in each if it["decision"] == "execute"]
        rejected = [it for it in self.rows if it["decision"] in ("queue-full", "concurrency-limit")]
        cancelled = [it for it in self.rows if it["decision"] == "cancelled"]
        ends = [(it["queue"] != "-", int(it["end"]) - int(it["arrival"])) for it in cancelled]
        sentences = [
            ("each line is of its request", all(it["arrival"] == str(request["arrivesAt"]) and it["flow"] == f"{request['hash']:016x}" for it, request in each)),
            ("the lines are in the order of the arrivals", arrivals == sorted(arrivals)),
            ("who executed ends when it ran", all(int(it["start"]) + request["runsFor"] == int(it["end"]) for it, request in executed)),
            ("who waited had entered a queue", all(int(it["start"]) >= int(it["arrival"]) and (it["queue"] != "-" or it["start"] == it["arrival"]) for it, _ in executed)),
            ("nobody starts after the end of its patience", not patience or all(int(it["start"]) - int(it["arrival"]) <= patience for it, _ in executed)),
            ("who is rejected enters no queue, and ends at its arrival", all((it["queue"], it["end"]) == ("-", it["arrival"]) for it in rejected)),
            ("who gives up had entered a queue, and ends with its patience", all(patience > 0 and it == (True, patience) for it in ends)),
            ("the seats in use are within the limit", self.is_within(limit, executed)),
        ]
        return [name for name, holds in sentences if not holds]

    def is_within(self, limit, executed):
        """Whether at each start the seats in use fit, or are those of one request. Runs of no time use none."""
        spans = [(int(it["start"]), int(it["end"]), request["width"]) for it, request in executed]
        spans = [it for it in spans if it[0] < it[1]]
        # by their times; at one time those that end come first, and those that start are all there before it is looked at
        changes = sorted([(end, 0, -width, -1) for _, end, width in spans] + [(start, 1, width, 1) for start, _, width in spans])
        seats = there = 0
        for (time, is_start, width, one), (next_time, *_) in zip(changes, [*changes[1:], (None,)]):
            seats, there = seats + width, there + one
            if is_start and next_time != time and seats > limit and there > 1:
                return False
        return True

    def waits(self, flow=None):
        """How long the executed requests of a flow, or all of them, waited, in ascending order."""
        return sorted(int(it["start"]) - int(it["arrival"]) for it in self.of(flow) if it["decision"] == "execute")

    def of(self, flow):
        return [it for it in self.rows if flow in (None, it["flow"])]

    def figures(self, flow=None):
        """The median, the 99th percentile and the longest wait, the rejected, and those that gave up."""
        waits, decisions = self.waits(flow), [it["decision"] for it in self.of(flow)]
        ranks = [waits[-(-percent * len(waits) // 100) - 1] if waits else 0 for percent in (50, 99, 100)]
        return [*ranks, decisions.count("queue-full") + decisions.count("concurrency-limit"), decisions.count("cancelled")]


def comparison(one, other):
    """The lines of `compare` without their header and names, by those of `fates` on the two levels."""
    flows = list(dict.fromkeys(it["flow"] for it in sorted(one.rows, key=lambda it: int(it["request"]))))
    lines = []
    for place, flow in enumerate([*flows, None]):
        pairs = zip(one.figures(flow), other.figures(flow))
        numbers = [len(one.of(flow)), *(number for pair in pairs for number in pair)]
        change = abs(numbers[5] - numbers[6]) if flow else -1
        lines.append((-change, place, " ".join(map(str, [flow or "whole", *numbers]))))
    return [line for *_, line in sorted(lines)]
