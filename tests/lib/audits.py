"""Audit logs for tests: drawn ones, each with the requests that it was made of, and faulty ones, each with its first fault."""

import datetime
import json

from audit import BAD_ARRIVAL, BAD_RECEIVED, BAD_RUN, BAD_STAGE, BAD_USER, BAD_WAIT, Choice, LASTING, NOT_EVENT, NOT_JSON, QUEUE_WAIT
from jsontext import encoder

USERS = ["system:serviceaccount:kube-system:job-controller", "system:node:node-7", "alice@example.com", "kubernetes-admin", "", 'o"\\\u20ac\U0001f600\u0001\u007f\u0085\u200f\u202e\u2028\u2067']
VERBS = ["get", "list", "create", "update", "patch", "delete", "deletecollection"]
STAGES = ["RequestReceived", "ResponseStarted", "Panic", "responsecomplete", ""]
# of subresources that are taken: none is a connection that lasts
OTHER_SUBRESOURCES = ["status", "scale", "binding", "logs", "Log", "", None, 7]
# microseconds from 1970 on
NOON = 1_795_608_000_000_000


def time_text(micros, draw=None):
    """An instant as the API server writes it, or in another form of RFC 3339."""
    whole, part = divmod(micros, 10**6)
    offset = draw.choice([0, 0, 0, 0, 60, -210, 840]) if draw else 0
    clock = datetime.datetime.fromtimestamp(whole + 60 * offset, datetime.timezone.utc).isoformat()[:19]
    fraction = f"{part:06d}"
    if draw and draw.random() < 0.2:
        # digits beyond a microsecond, which are cut
        fraction += draw.choice(["9", "999", "000"])
    if draw and draw.random() < 0.3:
        fraction = fraction.rstrip("0")
    zone = f"{'-' if offset < 0 else '+'}{abs(offset) // 60:02d}:{abs(offset) % 60:02d}" if offset else "Z"
    return f"{clock}.{fraction}{zone}" if fraction else f"{clock}{zone}"


def duration_text(nanos):
    """A duration as Go writes it."""
    for unit, size in (("ns", 1), ("µs", 10**3), ("ms", 10**6)):
        if 0 < nanos < 1000 * size:
            return fraction_text(nanos, size) + unit
    minutes, rest = divmod(nanos, 60 * 10**9)
    hours, minutes = divmod(minutes, 60)
    front = f"{hours}h{minutes}m" if hours else (f"{minutes}m" if minutes else "")
    return front + fraction_text(rest, 10**9) + "s"


def fraction_text(nanos, size):
    whole, part = divmod(nanos, size)
    return f"{whole}.{part:0{len(str(size)) - 1}d}".rstrip("0") if part else str(whole)


class Logs:
    """Draws of one seed."""

    def __init__(self, draw):
        self.draw = draw

    def request(self, received=None):
        """What an event that is taken says: the arrival, the run, the user, and the nanoseconds in the queue, or None."""
        received = self.draw.choice([0, 1, 999, 10**6, self.draw.randrange(10**7)]) if received is None else received
        run = self.draw.choice([0, 1, 250, 999_999, 10**10, self.draw.randrange(10**7)])
        wait = self.draw.choice([None, None, 0, 1, 999, 1500, 2_250_000, 63_500_000_000, 3_600_000_000_000, 10**13, self.draw.randrange(10**13)])
        return NOON + received, run, self.draw.choice(USERS), wait

    def event(self, request):
        received, run, user, wait = request
        event = {
            "kind": "Event",
            "apiVersion": "audit.k8s.io/v1",
            "level": self.draw.choice(["Metadata", "Request"]),
            "auditID": f"{self.draw.getrandbits(128):032x}",
            "stage": "ResponseComplete",
            "requestURI": "/api/v1/namespaces/default/pods?limit=500",
            "verb": self.draw.choice(VERBS),
            "user": {"username": user, "groups": ["system:authenticated"]},
            "sourceIPs": ["10.0.0.7"],
            "responseStatus": {"metadata": {}, "code": 200},
            "requestReceivedTimestamp": time_text(received, self.draw),
            "stageTimestamp": time_text(received + run + (wait or 0) // 1000, self.draw),
        }
        if self.draw.random() < 0.2:
            event["impersonatedUser"] = event["user"]
            event["user"] = {"username": self.draw.choice(USERS)}
        if self.draw.random() < 0.7:
            event["objectRef"] = {"resource": "pods", "namespace": "default", "apiVersion": "v1"}
            if self.draw.random() < 0.4:
                event["objectRef"]["subresource"] = self.draw.choice(OTHER_SUBRESOURCES)
        if wait is not None or self.draw.random() < 0.5:
            event["annotations"] = {"authorization.k8s.io/decision": "allow"}
            if wait is not None:
                event["annotations"][QUEUE_WAIT] = duration_text(wait)
        return event

    def other(self):
        """An event that is not taken. What it says of its user and its times is not judged."""
        event = self.event(self.request())
        kind = self.draw.randrange(3)
        if kind == 0:
            event["stage"] = self.draw.choice(STAGES)
        elif kind == 1:
            event["verb"] = "watch"
        else:
            event["objectRef"] = {"resource": "pods", "subresource": self.draw.choice(LASTING)}
        for key in ("user", "requestReceivedTimestamp", "stageTimestamp"):
            if self.draw.random() < 0.3:
                event[key] = self.draw.choice([None, 7, "x", {}])
        return event

    def line(self, event):
        """The event in one of the ways in which JSON can be written."""
        keys = [*event]
        self.draw.shuffle(keys)
        blank = self.draw.choice(["", "", "", " ", "\t", " \r "])
        text = encoder(self.draw.random() < 0.5, blank)({key: event[key] for key in keys})
        return f"{blank}{text}{self.draw.choice(['', '', blank, chr(13)])}".encode()

    def good(self):
        """A log, and the requests of it in the order of its lines."""
        count = self.draw.choice([0, 1, 2, 10, 30])
        late = self.draw.choice([0, 0, 10**12])
        requests, lines = [], []
        for number in range(count):
            while self.draw.random() < 0.3:
                lines.append(self.line(self.other()))
            requests.append(self.request(late if number == count - 1 and late else None))
            lines.append(self.line(self.event(requests[-1])))
        if late and count > 1:
            # the earliest one arrives a million seconds before the last line's
            requests[0] = (NOON, *requests[0][1:])
            lines = [self.line(self.event(it)) for it in requests]
        return b"".join(it + b"\n" for it in lines), requests

    def cut(self):
        """A log that is still written, and the requests of its lines: the last one has no LF, and is whole or not."""
        content, requests = self.good()
        last = self.request(requests[0][0] - NOON if requests else None)
        line = self.line(self.event(last)).strip()
        if self.draw.random() < 0.4:
            return content + line, [*requests, last], False
        return content + self.draw.choice([line[: self.draw.randrange(1, len(line))], b"{", b'{"', b'{"\xe2']), requests, True

    def chosen(self):
        """A log with requests that were turned away, in some namespaces, and a choice of some of them."""
        lines = []
        for _ in range(self.draw.choice([0, 1, 5, 30, 90])):
            if self.draw.random() < 0.1:
                lines.append(self.line(self.other()))
            event = self.event(self.request())
            if self.draw.random() < 0.4:
                event["responseStatus"] = self.draw.choice(STATUSES)
            if self.draw.random() < 0.6:
                event["objectRef"] = {"resource": "pods", "namespace": self.draw.choice(["default", "kube-system", "", "\u20ac"])}
            if self.draw.random() < 0.002:
                event["objectRef"] = {"namespace": self.draw.choice([7, None, [], "x" * 4097])}
            if self.draw.random() < 0.002:
                event["stageTimestamp"] = self.draw.choice(NO_TIMES)
            lines.append(self.line(event))
        return b"".join(it + b"\n" for it in lines), self.choice()

    def choice(self):
        name = self.draw.choice([it for it in USERS if "\u0001" not in it])
        names = [None, None, None, name, f"{name}*", f"{name[: self.draw.randrange(len(name) + 1)]}*", "*", f"{name}x", "nobody*"]
        ends = sorted(NOON + self.draw.choice([0, 1, 999, 10**6, self.draw.randrange(10**7)]) for _ in range(2))
        since, until = (it if self.draw.random() < 0.4 else None for it in ends)
        return Choice(self.draw.choice(["user", "user", "namespace"]), self.draw.choice(names), since, until)

    def words(self, choice):
        """The words of a command line that choose so."""
        given = {"by": choice.by if choice.by != "user" or self.draw.random() < 0.3 else None, "user": choice.user}
        given |= {key: time_text(at, self.draw) if at is not None else None for key, at in (("since", choice.since), ("until", choice.until))}
        words = [[f"--{key}={text}"] if self.draw.random() < 0.5 or text.startswith("-") else [f"--{key}", text] for key, text in given.items() if text is not None]
        self.draw.shuffle(words)
        return [word for pair in words for word in pair]

    # what is not allowed

    def spoiled(self, fault):
        """An event with this fault, and perhaps some that come after it."""
        event = self.event(self.request())
        for number in range(BAD_RUN, fault, -1):
            if self.draw.random() < 0.2:
                self.spoil(event, number)
        self.spoil(event, fault)
        return event

    def spoil(self, event, fault):
        if fault == NOT_EVENT:
            key = self.draw.choice(["stage", "verb"])
            event[key] = self.draw.choice([None, 7, ["get"], {}])
        elif fault == BAD_USER:
            bad = self.draw.choice([{"username": None}, {"username": 7}, {"username": "x" * 4097}, {"username": "\u20ac" * 1366}])
            event[self.draw.choice(["user", "impersonatedUser"]) if "impersonatedUser" not in event else "impersonatedUser"] = bad
        elif fault in (BAD_RECEIVED, BAD_STAGE):
            key = "requestReceivedTimestamp" if fault == BAD_RECEIVED else "stageTimestamp"
            event[key] = self.draw.choice(NO_TIMES)
        elif fault == BAD_WAIT:
            event["annotations"] = {QUEUE_WAIT: self.draw.choice(NO_WAITS)}
        else:
            received = NOON + self.draw.randrange(10**6)
            run, wait = self.draw.choice([(-1, None), (-(10**9), None), (10**10 + 1, None), (999, "1ms"), (0, "1µs"), (10**10 + 2, "1µs")])
            event["requestReceivedTimestamp"], event["stageTimestamp"] = time_text(received), time_text(received + run)
            event["annotations"] = {QUEUE_WAIT: wait} if wait else {}

    def faulty_line(self, fault):
        if fault == NOT_JSON:
            return self.draw.choice(NO_JSON)(self.line(self.event(self.request())))
        if fault == NOT_EVENT and self.draw.random() < 0.3:
            return self.draw.choice([b"[]", b"null", b"7", b'"stage"', b"{}", b'{"stage":"ResponseComplete"}', b'{"verb":"get"}'])
        return self.line(self.spoiled(fault))

    def before(self):
        return [self.line(self.draw.choice([self.other(), self.event(self.request())])) for _ in range(self.draw.choice([0, 0, 1, 2, 9]))]

    def faulty(self, fault):
        """A log, and its fault's line."""
        if fault == BAD_ARRIVAL:
            last = [self.line(self.event((NOON + 10**12 + late, 5, "alice", None))) for late in (1, 10**9)]
            front = self.draw.choice([0, 1])
            lines = [*last[:front], *self.before(), self.line(self.event((NOON, 5, "bob", None))), *last[front:]]
            return b"".join(it + b"\n" for it in lines), 1 if front else len(lines) - 1
        lines = self.before()
        place = len(lines) + 1
        lines.append(self.faulty_line(fault))
        lines += [self.faulty_line(self.draw.randint(NOT_JSON, BAD_RUN)) for _ in range(self.draw.choice([0, 0, 1, 3]))]
        return b"".join(it + b"\n" for it in lines) + self.draw.choice([b"", b"", b"{"]), place

    def all_faulty(self, count):
        """This many logs with their faults' numbers and lines."""
        for number in range(count):
            fault = (*range(NOT_JSON, BAD_RUN + 1), BAD_ARRIVAL)[number % 8]
            content, line = self.faulty(fault)
            yield content, fault, line


STATUSES = [{"code": 429}, {"metadata": {}, "status": "Failure", "reason": "TooManyRequests", "code": 429}, {"code": 429}, {"code": "429"}, {"code": 428}, 429, None, {"status": 429}]
NO_TIMES = [None, 7, "", "x", "2026-11-25", "2026-11-25T12:00:00", "2026-13-25T12:00:00Z", "2026-11-31T12:00:00Z", "2026-11-25T24:00:01Z", "2026-11-25T12:60:00Z"]
NO_TIMES += ["1969-12-31T23:59:59Z", "2026-11-25T12:00:00.Z", "2026-11-25T12:00:00.1234567890Z", "2026-11-25T12:00:00Zx", " 2026-11-25T12:00:00Z", "1795608000"]
NO_WAITS = [None, 7, "", "x", "1", "s", "1x", "-1s", "-1.5ms", "1.5.5s", "10000.000000001s", "10001s", "2h46m41s", "1.s", "1ss"]
NO_JSON = [
    lambda line: b"",
    lambda line: b" ",
    lambda line: b"\r",
    lambda line: line.rstrip()[:-3],
    lambda line: line + b"x",
    lambda line: line + line,
    lambda line: b"\xef\xbb\xbf" + line,
    lambda line: b'{"stage":"ResponseComplete","verb":"get","user":{"username":"\xff"}}',
    lambda line: b'{"stage":"ResponseComplete","verb":"get","user":{"username":"\\ud800"}}',
    lambda line: b'{"stage":"ResponseComplete","verb":"get","a":NaN}',
    lambda line: b"{'stage':'ResponseComplete'}",
    lambda line: b"# " + line,
]
