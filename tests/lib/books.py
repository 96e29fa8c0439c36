"""What the book of a run by workers must say in every schedule, by the rules and not by the code."""

import re

BOOK = re.compile(
    r"level (open|closed) seats (\d+) waiting (\d+)\n"
    r"executed (\d+) rejected (\d+) cancelled (\d+) undecided (\d+)\n"
    r"queue-full (\d+) closed (\d+) concurrency-limit (\d+)\n"
    r"entered (\d+) dispatched (\d+) struck (\d+)\n"
)


def shares(requests, workers):
    """The numbers of the requests that each worker handles, in its order."""
    return [range(first, len(requests), workers) for first in range(workers)]


def before_close(requests, share):
    """The requests that a worker handles before the first of them that closes the level."""
    for place, number in enumerate(share):
        if requests[number].get("closes"):
            return share[:place]
    return share


def surely_cancelled(config, requests, workers):
    """The requests that a request of the same worker names which surely executes before they arrive."""
    names = {request["cancels"] for request in requests if "cancels" in request}
    if any(request.get("closes") for request in requests) or not queues_never_full(config, workers):
        return set()
    sure = set()
    for share in shares(requests, workers):
        for place, number in enumerate(share):
            other = requests[number].get("cancels")
            if other is not None and number not in names and other in share[place + 1 :]:
                sure.add(other)
    return sure


def queues_never_full(config, workers):
    """Whether no request can find its queue full: each worker has one request at a time."""
    return config.get("limitResponse", "Queue") == "Queue" and config.get("queueLengthLimit", 50) >= workers


def alone(config, requests):
    """The decisions of one worker's requests: each finds the level empty, as the one before gave its seats back."""
    closed, cancelled, decisions = False, set(), []
    for number, request in enumerate(requests):
        closed = closed or bool(request.get("closes"))
        if number in cancelled:
            decisions.append("cancelled")
        elif closed:
            decisions.append("closed")
        else:
            decisions.append("execute")
            if request.get("cancels", -1) > number:
                cancelled.add(request["cancels"])
    return decisions


class Rules:
    """What the books must say of these requests by these workers."""

    def __init__(self, config, requests, workers):
        self.config, self.requests, self.workers = config, requests, workers
        self.rejects = config.get("limitResponse", "Queue") == "Reject"
        self.closes = any(request.get("closes") for request in requests)
        self.named = {request["cancels"] for request in requests if "cancels" in request}
        self.sure = surely_cancelled(config, requests, workers)
        self.open_yet = sum(len(before_close(requests, share)) for share in shares(requests, workers))
        self.all_fit = sum(sorted((it.get("width", 1) for it in requests), reverse=True)[:workers]) <= config["limit"]

    def faults(self, text):
        """The sentences that the book breaks."""
        found = BOOK.fullmatch(text)
        if not found:
            return ["it has four lines"]
        config, requests, workers, rejects = self.config, self.requests, self.workers, self.rejects
        is_closed = found[1] == "closed"
        seats, waiting, executed, rejected, cancelled, undecided, full, closed, limited, entered, dispatched, struck = map(int, found.groups()[1:])
        sentences = [
            ("no seat is taken and nobody waits", seats == waiting == 0),
            ("each request is decided", undecided == 0 and executed + rejected + cancelled == len(requests)),
            ("the rejected are of three kinds", rejected == full + closed + limited),
            ("it is closed exactly if a request closes it", is_closed == self.closes),
            ("whoever is cancelled is named", cancelled <= len(self.named)),
            ("whoever is surely cancelled is", cancelled >= len(self.sure)),
            ("nobody is closed of an open level", closed == 0 or is_closed),
            ("whoever comes after his worker's close is closed or cancelled", executed <= self.open_yet and closed + cancelled >= len(requests) - self.open_yet),
            ("whoever entered was dispatched or struck", entered == dispatched + struck),
            ("whoever was dispatched is executed", dispatched <= executed),
            ("whoever was struck is cancelled", struck <= cancelled),
            ("nobody is refused as full of a level without queues", not rejects or full == entered == 0),
            ("nobody is refused at once of a level with queues", rejects or limited == 0),
            ("no queue is full that has room for all workers", not queues_never_full(config, workers) or full == 0),
            ("one at a time, each is executed that is not cancelled or closed", workers > 1 or (executed, closed, cancelled) == tuple(alone(config, requests).count(it) for it in ("execute", "closed", "cancelled"))),
            ("nobody waits where all fit", rejects or not self.all_fit or entered == full == 0),
            ("nobody is refused where all fit", not rejects or not self.all_fit or limited == 0),
        ]
        return [name for name, holds in sentences if not holds]


def faults(config, requests, workers, text):
    """The sentences that the book of one run breaks."""
    return Rules(config, requests, workers).faults(text)
