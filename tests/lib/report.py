"""What a level and its callers told, judged by the rules: each event, request and call is looked at once.

It is written from the definitions (docs/proof/AUDIT.md), and shares no step with the program.
"""

from collections import Counter

from level import DECISIONS, hand_of

# the names of what may be wrong
KINDS = ("form", "legal", "waiting", "fair", "balanced", "agreement", "told", "cancels", "strikes", "closed", "late", "limits", "seats", "word", "sums", "stats")


class Report:
    """The output of `apf_trials levels stress`, a line for each fact."""

    def __init__(self, text):
        self.config, self.most, self.read, self.stats, self.counts, self.word, self.plain = [], 0, [], [], [], [], ""
        # for each request its width, its hash, what its caller was told, and how
        self.requests, self.decisions, self.events = [], [], []
        self.cancels, self.strikes, self.limits, self.closes = [], [], [], []
        for line in text.split("\n")[:-1]:
            name, *words = line.split(" ")
            getattr(self, "read_" + name)(words)

    def copy(self):
        """Another one with the same facts, of which each may be changed."""
        other = Report("")
        for name, fact in vars(self).items():
            setattr(other, name, fact.copy() if isinstance(fact, list) else fact)
        return other

    def read_config(self, words):
        self.config = [int(it) for it in words]

    def read_request(self, words):
        number, width, hash_, told, *how = words
        if int(number) != len(self.requests):
            raise ValueError(f"request {number}")
        self.requests.append((int(width), int(hash_), told, set(how)))

    def read_cancel(self, words):
        self.cancels.append((int(words[0]), words[1]))

    def read_strike(self, words):
        self.strikes.append(int(words[0]))

    def read_limit(self, words):
        self.limits.append((int(words[0]), int(words[1])))

    def read_close(self, words):
        self.closes.append(words[0])

    def read_most(self, words):
        self.most = int(words[0])

    def read_read(self, words):
        self.read = [int(it) for it in words]

    def read_word(self, words):
        self.word = [words[0], *(int(it) for it in words[1:])]

    def read_decision(self, words):
        if int(words[0]) != len(self.decisions):
            raise ValueError(f"decision {words[0]}")
        self.decisions.append(words[1])

    def read_event(self, words):
        self.events.append((words[0], int(words[1]), int(words[2])))

    def read_stats(self, words):
        self.stats = [int(it) for it in words]

    def read_counts(self, words):
        self.counts = [int(it) for it in words]

    def read_plain(self, words):
        self.plain = " ".join(words)


class History:
    """The queues of a log, event by event."""

    def __init__(self, report):
        self.report = report
        _, self.count, self.hand, self.most = report.config
        self.queues = [[] for _ in range(self.count)]
        # virtual time: where each queue's next service starts, how far the level is, and who was served last
        self.starts, self.time, self.last = [0] * self.count, 0, self.count - 1
        self.arrived = set()
        # the seats that each queue was given, and for each two queues that are not empty the least and the most
        # by which the first was given more, since both are not empty
        self.given, self.ahead = [0] * self.count, {}
        self.widest = max((width for width, *_ in report.requests), default=0)
        self.hands = {}
        self.faults = set()
        # how many times two queues were compared
        self.compared = 0

    def width(self, request):
        return self.report.requests[request][0]

    def busy(self):
        return [queue for queue in range(self.count) if self.queues[queue]]

    def shortest(self, request):
        flow = self.report.requests[request][1]
        if flow not in self.hands:
            self.hands[flow] = hand_of(self.count, self.hand, flow)
        hand = self.hands[flow]
        lengths = [len(self.queues[queue]) for queue in hand]
        return hand[lengths.index(min(lengths))]

    def choice(self):
        finish = {queue: self.starts[queue] + self.width(self.queues[queue][0]) for queue in self.busy()}
        least = min(finish.values())
        round_from = [(self.last + 1 + step) % self.count for step in range(self.count)]
        return next(queue for queue in round_from if finish.get(queue) == least)

    def compare(self, queue):
        """After the queue was entered or served: how far it is ahead of each other one."""
        for other in self.busy():
            if other != queue:
                first, second = min(queue, other), max(queue, other)
                now = self.given[first] - self.given[second]
                least, most = self.ahead.get((first, second), (now, now))
                self.ahead[first, second] = min(least, now), max(most, now)
                self.compared += 1
                if max(most, now) - min(least, now) > 2 * self.widest:
                    self.faults.add("balanced")

    def settle(self, queue):
        """After the queue changed: it is compared, or left out while it is empty."""
        if self.queues[queue]:
            self.compare(queue)
        else:
            self.ahead = {pair: ahead for pair, ahead in self.ahead.items() if queue not in pair}

    def enter(self, request, queue):
        room = len(self.queues[queue]) < self.most
        if request in self.arrived or queue != self.shortest(request) or not room:
            self.faults.add("legal")
        self.arrived.add(request)
        if not self.queues[queue]:
            self.starts[queue] = max(self.starts[queue], self.time)
        self.queues[queue].append(request)

    def full(self, request, queue):
        if request in self.arrived or queue != self.shortest(request) or len(self.queues[queue]) != self.most:
            self.faults.add("legal")
        self.arrived.add(request)

    def dispatch(self, request, queue):
        if self.queues[queue][:1] != [request]:
            self.faults.add("legal")
        if request in self.queues[queue]:
            if queue != self.choice():
                self.faults.add("fair")
            self.queues[queue].remove(request)
        self.time = max(self.time, self.starts[queue])
        self.starts[queue] += self.width(request)
        self.last = queue
        self.given[queue] += self.width(request)

    def strike(self, request, queue):
        if request in self.queues[queue]:
            self.queues[queue].remove(request)
        else:
            self.faults.add("legal")

    def follow(self):
        for kind, request, queue in self.report.events:
            if not (0 <= request < len(self.report.requests) and 0 <= queue < self.count):
                self.faults.add("legal")
                continue
            getattr(self, kind)(request, queue)
            self.settle(queue)
        if self.busy():
            self.faults.add("waiting")
        return self


def named(report, kind):
    """The requests that an event of this kind names, as many times as it does."""
    return [request for name, request, _ in report.events if name == kind]


def decided(report, decision):
    return {request for request, it in enumerate(report.decisions) if it == decision}


def judge_decisions(report):
    """The log agrees with the decisions, and each caller was told the request's one decision."""
    dispatched, struck, full, entered = (set(named(report, kind)) for kind in ("dispatch", "strike", "full", "enter"))
    executed, cancelled = decided(report, "execute"), decided(report, "cancelled")
    if not dispatched <= executed or not struck <= cancelled or full != decided(report, "queue-full") or entered & executed != dispatched:
        yield "agreement"
    for request, (_, _, told, how) in enumerate(report.requests):
        if told != report.decisions[request]:
            yield "told"
        # who took its seats outside the lock, or waited, has no event, or entered
        if "tried" in how and (request in entered | full or request not in executed) or "waited" in how and request not in entered:
            yield "told"
        if "late" in how and (report.decisions[request] not in ("closed", "cancelled") or request in entered | full):
            yield "late"


def judge_calls(report):
    """The calls of Stations were told what the level said at its end."""
    if any(told != report.decisions[request] for request, told in report.cancels):
        yield "told"
    if {request for request, told in report.cancels if told == "cancelled"} != decided(report, "cancelled"):
        yield "cancels"
    if Counter(report.strikes) - Counter(set(named(report, "strike"))):
        yield "strikes"
    is_closed = report.word[0] == "closed"
    if report.closes.count("First") != is_closed or set(report.closes) - {"First", "Already"} or (decided(report, "closed") and not is_closed):
        yield "closed"
    # each change of the limit found what an earlier one had left: in some order they are one chain
    limits = [report.config[0], *(new for _, new in report.limits)]
    if Counter(limits) != Counter([*(old for old, _ in report.limits), report.word[3]]):
        yield "limits"
    if report.most > max(limits):
        yield "seats"
    if report.word[1:3] != [0, 0]:
        yield "word"


def judge_numbers(report):
    """The sums are those of the decisions, and the statistics those of the log."""
    each = Counter(report.decisions)
    if report.counts != [each[it] for it in DECISIONS[:2]] + [each["closed"], each["concurrency-limit"], each["cancelled"]] or sum(report.counts) != len(report.requests):
        yield "sums"
    if each["concurrency-limit"]:
        yield "agreement"
    entered, dispatched, struck, full = (len(named(report, kind)) for kind in ("enter", "dispatch", "strike", "full"))
    numbers = [entered, dispatched, struck, full, entered - dispatched - struck]
    if report.stats != numbers or report.read != numbers:
        yield "stats"


def is_whole(report):
    """Whether each part is there, so that it can be judged."""
    lengths = [len(report.config), len(report.read), len(report.stats), len(report.counts), len(report.word)]
    return lengths == [4, 5, 5, 5, 4] and len(report.decisions) == len(report.requests) and set(report.decisions) <= set(DECISIONS)


def faults_of(report):
    """The names of all that is wrong, in the order of KINDS."""
    if not is_whole(report):
        return ["form"]
    found = {*History(report).follow().faults, *judge_decisions(report), *judge_calls(report), *judge_numbers(report)}
    return [kind for kind in KINDS if kind in found]
