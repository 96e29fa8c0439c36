"""What a level's requests are charged: an independent computation of costs by the mean running times of flows, written from the rules."""

from collections import OrderedDict, defaultdict

# in microseconds: what a request is expected to run if none has, and the most that is told of one
FIRST_GUESS = 10_000
MOST_RAN = 10**12
MOST = 2**32 - 1
MOST_TAKEN = 2**46
SETS, WAYS, NEWEST = 512, 8, 256


def taken(width, ran):
    """What a request took that ran this long: its seats times that."""
    return max(1, min(MOST_TAKEN, width * ran))


class Mean:
    """The mean of all, or of about the newest 256."""

    def __init__(self):
        self.count = self.micros = 0

    def add(self, ran):
        ran = min(ran, MOST)
        self.count = min(self.count + 1, NEWEST)
        # towards zero, where Python's division goes down
        step = abs(ran - self.micros) // self.count
        self.micros += step if ran >= self.micros else -step


class Means:
    """The means of flows, in sets of eight, in each of which the flow goes that learned longest ago."""

    def __init__(self):
        self.sets = defaultdict(OrderedDict)
        self.firsts = Mean()

    def expected(self, flow):
        known = self.sets[flow % SETS].get(flow)
        if known:
            return known.micros
        return self.firsts.micros if self.firsts.count else FIRST_GUESS

    def cost(self, flow, width):
        return max(1, min(MOST, width * self.expected(flow)))

    def learn(self, flow, ran):
        flows = self.sets[flow % SETS]
        if flow not in flows:
            self.firsts.add(ran)
            if len(flows) == WAYS:
                flows.popitem(last=False)
            flows[flow] = Mean()
        flows[flow].add(ran)
        flows.move_to_end(flow)
