"""What a replay prints: an independent computation, written from the rules and slow on purpose."""

import functools
import hashlib

from judge import Refused, config_of, dealer_fault, requests_of, script_of

DECISIONS = ("execute", "queue-full", "closed", "concurrency-limit", "cancelled")


@functools.lru_cache(maxsize=4096)
def hand_of(deck, hand, number):
    """Takes cards out of a list. What is dealt is not changed by who asks."""
    cards, dealt = list(range(deck)), []
    for _ in range(hand):
        number, place = divmod(number, len(cards))
        dealt.append(cards.pop(place))
    return dealt


@functools.lru_cache(maxsize=4096)
def hash_of(schema, distinguisher):
    digest = hashlib.sha256(schema.encode() + b"\0" + distinguisher.encode()).digest()
    return int.from_bytes(digest[:8], "little")


class Level:
    """A level of one thread. Lists and scans alone: nothing is kept that could be counted. Only the queues in which somebody waits are known, since a level
    may have a thousand."""

    def __init__(self, config, requests):
        self.config, self.requests = config, requests
        self.limit, self.closed = config["limit"], False
        queues = config["queues"] if config["limitResponse"] == "Queue" else 0
        self.queues = [[] for _ in range(queues)]
        self.busy = set()
        # virtual time: where each queue's next service starts, how far the level is, and who was served last
        self.starts, self.time, self.last = [0] * queues, 0, queues - 1
        self.arrived, self.running, self.decided = set(), set(), {}
        # all that ever took seats, in that order
        self.seated = []
        # for each request that was dispatched and is not settled: its queue, and what that is charged for it. For each that is settled: what it took
        self.charged, self.settled = {}, {}
        # each change of a charge: how many events there were before it, whether it is the last one, its request and its queue, and what that is
        # charged from then on
        self.changes = []
        self.lines, self.log = [], []

    def width(self, request):
        return self.requests[request]["width"]

    def cost(self, request):
        """What its dispatch is charged: the width of a request without a cost."""
        asked = self.requests[request]
        return asked["cost"] if "cost" in asked else asked["width"]

    def seats(self):
        return sum([self.requests[request]["width"] for request in self.running])

    def waiting(self):
        return sum([len(self.queues[queue]) for queue in self.busy])

    def fits(self, request):
        seats = self.seats()
        return seats == 0 or seats + self.width(request) <= self.limit

    def note(self, kind, request, queue):
        self.log.append((kind, request, queue))
        if kind in ("dispatch", "strike"):
            self.lines.append(f"{kind} {request} queue {queue}")

    def seat(self, request):
        self.decided[request] = "execute"
        self.running.add(request)
        self.seated.append(request)

    def leave(self, request, queue):
        self.queues[queue].remove(request)
        if not self.queues[queue]:
            self.busy.remove(queue)

    def dispatch(self):
        # where no seat is free nobody fits
        while self.busy and self.seats() < self.limit:
            # of those that finish first, the next one behind the last that was served
            behind, count = self.last + 1, len(self.queues)
            chosen = min([(self.starts[queue] + self.cost(self.queues[queue][0]), (queue - behind) % count, queue) for queue in self.busy])[2]
            request = self.queues[chosen][0]
            if not self.fits(request):
                return
            self.leave(request, chosen)
            self.time = max(self.time, self.starts[chosen])
            self.starts[chosen] += self.cost(request)
            self.charged[request] = (chosen, self.cost(request))
            self.last = chosen
            self.seat(request)
            self.note("dispatch", request, chosen)

    def arrive(self, request):
        if request in self.arrived:
            self.lines.append(f"arrive {request} again")
            return
        self.arrived.add(request)
        if request not in self.decided and self.closed:
            self.decided[request] = "closed"
        elif request not in self.decided and not self.busy and self.fits(request):
            self.seat(request)
        elif request not in self.decided and not self.queues:
            self.decided[request] = "concurrency-limit"
        if request in self.decided:
            self.lines.append(f"arrive {request} {self.decided[request]}")
        else:
            self.enter(request)

    def enter(self, request):
        flow = self.requests[request]["flow"]
        number = flow if isinstance(flow, int) else hash_of(*flow)
        hand = hand_of(len(self.queues), self.config["handSize"], number)
        lengths = [len(self.queues[queue]) for queue in hand]
        queue = hand[lengths.index(min(lengths))]
        if len(self.queues[queue]) == self.config["queueLengthLimit"]:
            self.decided[request] = "queue-full"
            self.lines.append(f"arrive {request} queue-full {queue}")
            self.note("full", request, queue)
            return
        if not self.queues[queue]:
            self.starts[queue] = max(self.starts[queue], self.time)
        self.queues[queue].append(request)
        self.busy.add(queue)
        self.lines.append(f"arrive {request} queued {queue}")
        self.note("enter", request, queue)
        self.dispatch()

    def finish(self, request):
        self.lines.append(f"finish {request}" + ("" if request in self.running else " not running"))
        if request in self.running:
            self.running.remove(request)
            self.dispatch()

    def settle(self, request, took):
        """What a request took is charged in place of what was, once and for all."""
        if request in self.charged:
            queue, amount = self.charged.pop(request)
            self.starts[queue] += took - amount
            self.settled[request] = took
            self.changes.append((len(self.log), "settle", request, queue, took))

    def spend(self, request, took):
        """What a request took so far is charged, if that is more than what was."""
        if request in self.charged and took > self.charged[request][1]:
            queue, amount = self.charged[request]
            self.starts[queue] += took - amount
            self.charged[request] = (queue, took)
            self.changes.append((len(self.log), "spend", request, queue, took))

    def cancel(self, request):
        self.decided.setdefault(request, "cancelled")
        self.lines.append(f"cancel {request} {self.decided[request]}")
        if self.decided[request] == "cancelled":
            for queue in [it for it in self.busy if request in self.queues[it]]:
                self.leave(request, queue)
                self.note("strike", request, queue)
                self.dispatch()

    def close(self, _):
        self.lines.append("close already" if self.closed else "close first")
        self.closed = True

    def set_limit(self, limit):
        self.lines.append(f"limit {limit} was {self.limit}")
        self.limit = limit
        self.dispatch()

    def follow(self, commands):
        calls = {"arrive": self.arrive, "finish": self.finish, "cancel": self.cancel, "close": self.close, "limit": self.set_limit}
        for name, number in commands:
            calls[name](number)

    def count(self, kind):
        return sum(1 for event in self.log if event[0] == kind)

    def transcript(self):
        each = {decision: list(self.decided.values()).count(decision) for decision in DECISIONS}
        rejected = each["queue-full"] + each["closed"] + each["concurrency-limit"]
        book = [
            f"level {'closed' if self.closed else 'open'} seats {self.seats()} waiting {self.waiting()}",
            f"executed {each['execute']} rejected {rejected} cancelled {each['cancelled']} undecided {len(self.requests) - len(self.decided)}",
            f"queue-full {each['queue-full']} closed {each['closed']} concurrency-limit {each['concurrency-limit']}",
            f"entered {self.count('enter')} dispatched {self.count('dispatch')} struck {self.count('strike')}",
        ]
        return "".join(f"{line}\n" for line in [*self.lines, *book])

    def services(self):
        lines = []
        for queue in range(len(self.queues)):
            entered = sum(1 for kind, _, other in self.log if (kind, other) == ("enter", queue))
            service = sum(self.width(request) for kind, request, other in self.log if (kind, other) == ("dispatch", queue))
            if entered:
                lines.append(f"queue {queue} entered {entered} service {service}\n")
        return "".join(lines)

    def waits(self):
        """For each request that entered: the seats before it, and what was granted from then to its end, by walks over the whole log."""
        lines = []
        for request in range(len(self.requests)):
            entries = [place for place, event in enumerate(self.log) if event[:2] == ("enter", request)]
            if not entries:
                continue
            entry = entries[0]
            queue = self.log[entry][2]
            there = []
            for kind, other, at in self.log[:entry]:
                if at == queue and kind == "enter":
                    there.append(other)
                elif at == queue and kind in ("dispatch", "strike"):
                    there.remove(other)
            ends = [place for place, event in enumerate(self.log) if event[0] in ("dispatch", "strike") and event[1] == request]
            end = ends[0] if ends else len(self.log)
            what = {"dispatch": "dispatched", "strike": "struck"}[self.log[end][0]] if ends else "waiting"
            granted = [(at, self.width(other)) for kind, other, at in self.log[entry + 1 : end] if kind == "dispatch"]
            others = [sum(width for at, width in granted if at == one) for one in range(len(self.queues)) if one != queue]
            ahead, most, total = sum(map(self.width, there)), max(others, default=0), sum(width for _, width in granted)
            lines.append(f"request {request} queue {queue} ahead {ahead} most {most} all {total} {what}\n")
        return "".join(lines)


# the last one is kept: a test asks for all that is told of it
@functools.lru_cache(maxsize=1)
def followed(config, requests, script):
    """The level after the script in files of these bytes, read and judged in this order."""
    level = config_of(config)
    asked = requests_of(requests)
    commands = script_of(script, len(asked))
    fault = level["limitResponse"] == "Queue" and dealer_fault(level["queues"], level["handSize"])
    if fault:
        raise Refused(fault)
    done = Level(level, asked)
    done.follow(commands)
    return done


def answer(config, requests, script, tells=Level.transcript):
    """The status, output and errors of `replay`, or of `services` or `waits`, on files of these bytes."""
    try:
        return 0, tells(followed(config, requests, script)).encode(), b""
    except Refused as line:
        return 1, b"", f"{line}\n".encode()
