"""The command `cluster` against one `apf serve` for each level of a cluster: what it says of a log is what levels behind pipes do with the same requests. The
clock is virtual, and is kept here: requests arrive at their times, finish when they have run, and are cancelled when they have waited for long enough. All
decisions are those of the levels. Where seats are lent, each level is told its limit every ten seconds, by the independent lending (tests/lib/lending.py)
and by what requests asked for here.

APF_SEED draws other clusters, and APF_CLUSTERS says how many.
"""

import collections
import heapq
import json
import os
import random
import subprocess
import sys

HERE = os.path.dirname(os.path.abspath(__file__))
sys.path.insert(0, os.path.join(HERE, "lib"))
from clusters import EVERYTHING, HALF, SECOND, Clusters, level_of, log_of, notes_of, objects_in, objects_of, parts_of, read_by, told_flows, whole_cluster
from harness import Files, Tally, build, run
from lending import MOST, PERIOD, limit_of
from simulation import ARRIVE, CANCEL, FINISH, Run

tally = Tally()
program = build()
files = Files()
# the same draws each time; APF_SEED draws others
seed = int(os.environ.get("APF_SEED", "4713"))
draw = random.Random(seed)
clusters = Clusters(draw)
CLUSTERS = int(os.environ.get("APF_CLUSTERS", "40"))
print(f"seed {seed}")
# all flows are told
WORDS = ["--json", "--flows", "1000000"]


# ---- a level behind two pipes


class Level:
    """An `apf serve`, and what is known of its requests by what it prints. A request has a number of the protocol while it is there."""

    def __init__(self, config, count):
        self.config, self.limit, slots = config, config["limit"], min(max(count, 1), MOST)
        words = [program, "serve", files("config.json", json.dumps(config)), "--slots", str(slots)]
        self.process = subprocess.Popen(words, stdin=subprocess.PIPE, stdout=subprocess.PIPE)
        self.free, self.numbers, self.requests = [*range(slots)], {}, {}
        # who executes, who waits and in which queue, and what was decided
        self.running, self.queued, self.decided = set(), {}, {}
        # what it printed in another way than it must
        self.wrong = []
        queuing = f"queues {config['queues']} hand {config['handSize']} length {config['queueLengthLimit']} queue"
        self.expect(self.line(), f"serve 1 slots {slots} limit {self.limit} {queuing if config['limitResponse'] == 'Queue' else 'reject'}")

    def expect(self, got, want):
        if got != want:
            self.wrong.append((got, want))

    def line(self):
        line = self.process.stdout.readline().decode()
        if not line.endswith("\n"):
            raise EOFError(f"a level of {self.config} ended: {line!r}")
        return line[:-1]

    def ask(self, words):
        """Its answer, and the lines of requests that left a queue then. Its book is asked for too: what comes before that is all."""
        self.process.stdin.write(f"{words}\nbook\n".encode())
        self.process.stdin.flush()
        answer, left = self.line(), []
        while not (line := self.line()).startswith("level "):
            left.append(line)
        self.book = [line, *(self.line() for _ in range(3))]
        return answer, left

    def take_out(self, left, kind):
        """The requests of these lines, all of which must be of this kind."""
        for line in left:
            request = self.requests[int(line.split(" ")[1])]
            self.expect(line, f"{kind} {self.numbers[request]} queue {self.queued.pop(request, 'none')}")
            yield request

    def execute(self, requests):
        """These execute now."""
        self.running.update(requests)
        self.decided.update(dict.fromkeys(requests, "execute"))
        # each takes one seat
        self.expect(self.book[0], f"level open seats {len(self.running)} waiting {self.waiting()}")
        return requests

    def leave(self, request):
        self.free.append(self.numbers[request])
        del self.requests[self.numbers.pop(request)]

    def waiting(self):
        return len(self.queued)

    # each of these answers who took seats

    def arrive(self, request, names):
        number = self.numbers[request] = self.free.pop()
        self.requests[number] = request
        answer, left = self.ask(f"arrive {number} {json.dumps(dict(zip(('schema', 'distinguisher'), names)))}")
        self.expect(answer.split(" ")[:2], ["arrive", str(number)])
        word, *queue = answer.split(" ")[2:]
        if word == "queued":
            [self.queued[request]] = queue
        elif word != "execute":
            self.decided[request] = word
            self.leave(request)
        return self.execute([*self.take_out(left, "dispatch"), *([request] if word == "execute" else [])])

    def finish(self, request, ran):
        words = f"finish {self.numbers[request]}"
        answer, left = self.ask(f"{words} {ran}")
        self.expect(answer, words)
        self.running.remove(request)
        self.leave(request)
        return self.execute([*self.take_out(left, "dispatch")])

    def cancel(self, request):
        answer, left = self.ask(f"cancel {self.numbers[request]}")
        self.expect(answer, f"cancel {self.numbers[request]} cancelled")
        self.expect([*self.take_out(left, "strike")], [request])
        self.decided[request] = "cancelled"
        self.leave(request)
        return self.execute([])

    def set_limit(self, limit):
        answer, left = self.ask(f"limit {limit}")
        self.expect(answer, f"limit {limit} was {self.limit}")
        self.limit = limit
        return self.execute([*self.take_out(left, "dispatch")])

    def end(self):
        """The sums of its book: how many executed, were rejected and were cancelled, and how many are undecided."""
        self.process.stdin.close()
        book = self.process.stdout.read().decode().splitlines()
        self.process.stdout.close()
        self.expect((self.process.wait(), book[:1]), (0, ["level open seats 0 waiting 0"]))
        return [int(it) for it in book[1].split(" ")[1::2]]


class Served(Run):
    """A trace on such a level, by this clock."""

    def __init__(self, config, trace, patience, charge, until):
        self.config, self.trace, self.patience = config, trace, patience
        self.level = Level(config, len(trace))
        self.coming, self.started, self.waited_until = set(range(len(trace))), {}, {}
        # what is due, as far as it is known; and what was done: its time, its kind and its request
        self.calendar = [(asked["arrivesAt"], ARRIVE, it) for it, asked in enumerate(trace)]
        heapq.heapify(self.calendar)
        self.calls = []
        self.go_on(until)

    def due(self):
        """What is due first. Who does not wait any more is not cancelled."""
        while self.calendar and self.calendar[0][1] == CANCEL and self.calendar[0][2] not in self.level.queued:
            heapq.heappop(self.calendar)
        return self.calendar[:1]

    def carry_out(self, time, kind, request):
        self.calls.append((time, kind, request))
        asked = self.trace[request]
        if kind == ARRIVE:
            self.coming.remove(request)
            self.seat(self.level.arrive(request, asked["names"]), time)
            if self.patience and request in self.level.queued:
                heapq.heappush(self.calendar, (time + self.patience, CANCEL, request))
        elif kind == FINISH:
            self.seat(self.level.finish(request, asked["runsFor"]), time)
        else:
            self.seat(self.level.cancel(request), time)
            self.waited_until[request] = time

    def set_limit(self, time, limit):
        met["over the limit"] += len(self.level.running) > limit
        dispatched = self.level.set_limit(limit)
        met["dispatched by a limit"] += len(dispatched)
        self.seat(dispatched, time)


# ---- drawn clusters


def drawn_cluster():
    """A cluster in which those whom no drawn schema takes mostly come to one of its levels, and not to the server's own `catch-all`, where nobody waits."""
    levels = clusters.levels()
    schemas = clusters.schemas(levels)
    if draw.random() < 0.8:
        by = draw.choice(["user", "namespace", "nothing"])
        schemas.append({"name": "rest", "level": draw.choice(levels)["name"], "by": by, "rules": [([("User", "*")], *EVERYTHING)]})
    return whole_cluster(levels, schemas, draw.shuffle)


def drawn_log(users, step):
    """A log in which all times are multiples of a step, so that much is due at one time."""
    time, events = 0, []
    for _ in range(draw.choice([20, 150, 250])):
        time += step * draw.choice([0, 0, 0, 1, 2])
        events.append(clusters.event(time, step * draw.choice([0, 1, 2, 5, 10]), draw.choice(users)))
    return clusters.lines(events)


def taken_back():
    """A cluster of two levels that lend each other seats, and its log: the first one asks for many, and then the second one for those that it lent."""
    names = ["first", "second"]
    levels = [level_of(it, 50, (8, 2, 20), lendable=draw.choice([50, 90])) for it in names]
    schemas = [{"name": it, "level": it, "by": "user", "rules": [([("User", it)], *EVERYTHING)]} for it in names]
    coming = [("first", draw.randint(10, 40), 0, draw.choice([15, 25, 31])), ("second", draw.randint(5, 20), draw.choice([10, 12, 19]), 20)]
    return whole_cluster([*levels, level_of("catch-all", 0)], schemas), log_of(coming).encode()


# of so many most come once, so that the line of a flow tells what became of one request
USERS = [f"user-{it}" for it in range(1000)]


def drawn(kind):
    """A cluster, with a log, seats and a patience, by the number of its kind: requests at all times; at few times; from level to level; and to two levels."""
    if kind == 2:
        patience = draw.choice([0, SECOND, HALF, 2 * HALF, 3 * HALF, 60 * SECOND])
        return clusters.lending_cluster(), clusters.moving_log(), draw.choice([3, 10, 10, 20, 40]), patience
    if kind == 3:
        return *taken_back(), draw.choice([9, 10, 20]), draw.choice([0, HALF, 3 * HALF])
    seats, users = draw.choice([1, 5, 10, 20]), draw.choice(["abcd", USERS])
    if kind == 1:
        step = draw.choice([1000, HALF // 10, SECOND, HALF])
        return drawn_cluster(), drawn_log(users, step), seats, step * draw.choice([0, 1, 2, 3, 10, 20])
    patience = draw.choice([0, 1000, SECOND, HALF, 4 * HALF])
    return drawn_cluster(), clusters.log([1000, HALF // 10, HALF // 10], users), seats, patience


COUNTED = ["requests", "executed", "rejected", "timedOut"]
AT_ONE_TIME = {(FINISH, CANCEL): "finish and cancel", (FINISH, ARRIVE): "finish and arrival", (CANCEL, ARRIVE): "cancel and arrival"}
OF_LIMITS = ["moved", "borrowed", "lent", "over the limit", "dispatched by a limit", "arrival at the end of a period"]
met = dict.fromkeys([*COUNTED, "waited", "flows of one request", *AT_ONE_TIME.values(), *OF_LIMITS], 0)


def meet(parts):
    """Counts what a cluster has of what matters here."""
    for part in parts:
        whole = part.whole()
        for key in COUNTED:
            met[key] += whole[key]
        met["waited"] += sum(part.run.wait(it) > 0 for it in part.run.started)
        kinds = collections.defaultdict(set)
        for time, kind, _ in part.run.calls:
            kinds[time].add(kind)
        for pair, name in AT_ONE_TIME.items():
            met[name] += sum(kinds[time].issuperset(pair) for time in kinds)
        met["arrival at the end of a period"] += sum(time > 0 and time % PERIOD == 0 and ARRIVE in kinds[time] for time in kinds)
    met["flows of one request"] += sum(figures["requests"] == 1 for _, figures, _ in told_flows(parts))
    limited = [it for it in parts if it.limits]
    met["moved"] += any(len({*it.limits}) > 1 for it in limited)
    met["borrowed"] += any(max(it.limits) > limit_of(it.nominal) for it in limited)
    met["lent"] += any(min(it.limits) < limit_of(it.nominal) for it in limited)


for number in range(CLUSTERS):
    (objects, levels, schemas), content, seats, patience = drawn(number % 4)
    read = read_by(schemas, content)
    words = ["cluster", files("objects.json", json.dumps(objects)), files("audit.log", content), str(patience), "--seats", str(seats), *WORDS]
    for lends in (False, True):
        name = f"{number}: {seats} seats, patience {patience}, {len(read.requests)} requests, {'lending' if lends else 'no lending'}"
        parts, _ = parts_of(levels, schemas, read, seats, patience, lends, runs=Served)
        status, out, err = run(program, words if lends else [*words, "--no-lending"])
        tally.check(name, (status, objects_in(out), err), (0, objects_of(parts, 1_000_000), notes_of(read)))
        told = [[it["executed"], it["rejected"], it["timedOut"], 0] for it in map(json.loads, out.splitlines()) if "level" in it]
        tally.check(f"{name}: the books of the levels", [it.run.level.end() for it in parts], told)
        tally.check(f"{name}: all that the levels print", [it.run.level.wrong for it in parts if it.run.level.wrong], [])
        meet(parts)
if CLUSTERS >= 40:
    tally.check(f"each was met: {met}", [it for it, often in met.items() if often < 5], [])
print(f"met: {met}")
tally.end()
