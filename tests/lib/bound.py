"""How far apart the seat-times of queues come while one of them is never empty, and how far they may: an independent computation, from the log of a
level that was simulated or served."""

from typing import NamedTuple

from charges import taken


class Sides(NamedTuple):
    """Both sides: the queue that was never empty, the other one, and by how much more that one's requests took, or no pair; and the two parts of what is
    allowed. One is the largest cost. The other is by how much the requests that execute at one moment are misjudged, from one queue, or from one queue and
    another way from a second one."""

    pair: tuple | None
    ahead: int
    largest: int
    slack: int

    def limit(self):
        return 2 * self.largest + 3 * self.slack

    def line(self):
        """What the program prints of it."""
        if self.pair is None:
            return "bound none"
        return f"bound {self.pair[0]} {self.pair[1]} {self.ahead} cost {self.largest} misjudged {self.slack} limit {self.limit()}"


def entries_of(level):
    """The entries of a level's log, each with its kind, its request, its queue, and what that is charged from then on where it is a change of a
    charge; which stands where it was made."""
    entries, changes = [], [*level.changes]
    for place, entry in enumerate([*level.log, None]):
        while changes and changes[0][0] == place:
            entries.append(changes.pop(0)[1:])
        if entry:
            entries.append((*entry, None))
    return entries


def sides(run):
    """Of a simulation that is over. What a request takes is known from its start."""
    took = [taken(it["width"], it["runsFor"]) for it in run.trace]
    return sides_of(run.level, [it["cost"] for it in run.asked], took)


def session_sides(service):
    """Of a session, by what its client told. Of whom it told no time when it ended, what it was charged is taken for what it took."""
    level = service.level
    costs = [it["cost"] for it in service.requests]
    charged = {it: level.charged[it][1] for it in level.charged} | level.settled
    return sides_of(level, costs, [charged.get(it, cost) for it, cost in enumerate(costs)])


def sides_of(level, costs, took):
    """Of a level's log whose requests have these costs and take this: the pair that came furthest apart, and of those that came equally far the
    first."""
    queues = range(len(level.queues))
    waiting, service, charged, misjudged = [0] * len(queues), [0] * len(queues), {}, [0] * len(queues)
    largest, slack = 0, 0
    # of each queue that is not empty: how far each other one was ahead of it at the least since then; and how far it ever came from there
    least, furthest = {}, {}
    for kind, request, queue, charge in entries_of(level):
        if kind == "enter":
            largest = max(largest, costs[request])
            waiting[queue] += 1
        elif kind in ("dispatch", "strike"):
            waiting[queue] -= 1
        if kind == "dispatch":
            service[queue] += took[request]
            charged[request] = costs[request]
            misjudged[queue] += took[request] - charged[request]
        elif kind == "spend":
            misjudged[queue] -= charge - charged[request]
            charged[request] = charge
        elif kind == "settle":
            misjudged[queue] -= took[request] - charged.pop(request)
        slack = max([slack, *map(abs, misjudged), max(misjudged, default=0) - min(misjudged, default=0)])
        for one in queues:
            if not waiting[one]:
                least.pop(one, None)
                continue
            # seat-times grow by dispatches alone
            if one in least and kind != "dispatch":
                continue
            ahead = [service[other] - service[one] for other in queues]
            before = least.setdefault(one, ahead)
            for other in queues:
                if other != one:
                    furthest[one, other] = max(furthest.get((one, other), 0), ahead[other] - before[other])
            least[one] = [min(pair) for pair in zip(ahead, before)]
    if not furthest:
        return Sides(None, 0, largest, slack)
    ahead, busy, other = min((-ahead, *pair) for pair, ahead in furthest.items())
    return Sides((busy, other), -ahead, largest, slack)
