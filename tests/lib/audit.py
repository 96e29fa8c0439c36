"""What an audit log says, by the table of its faults: an independent judge of its bytes.

An audit log has one event a line, as JSON. `read_of` answers what is printed of the trace of its chosen requests, what is noted of the log,
and its first fault, if it has one. `trace_of` answers the trace as text, or raises AuditFault.
"""

import bisect
import collections
import datetime
import functools
import heapq
import json
import math
import re
from fractions import Fraction

from explain import found, line_not_json
from jsontext import json_text
from judge import Json, NotJson, Refused
from trace import needed

# how many requests late a line may come
WINDOW = 131_072
# the runs of a flow that are kept as they are, and the flows that have runs of their own
EXACT = 10_000
FLOWS = 100_000
# bytes of the name of a user
NAME = 4096
# microseconds after the earliest request
ARRIVAL = 1_000_000_000_000
# microseconds
RUN = 10_000_000_000
WAIT = 10_000_000_000

# each fault's number is its place in the order in which a line is judged, but for that of a namespace, which stands behind that of a user;
# BAD_ARRIVAL is judged when a request is handed out
TOO_LONG, NOT_JSON, NOT_EVENT, BAD_USER, BAD_RECEIVED, BAD_STAGE, BAD_WAIT, BAD_RUN = range(1, 9)
BAD_ARRIVAL, BAD_NAMESPACE, TOO_LATE = 10, 12, 13
# what makes a flow, or a call that answers it of an event and its user, the name of a user or its beginning with `*`, and microseconds from 1970 on
Choice = collections.namedtuple("Choice", "by user since until", defaults=("user", None, None, None))
EVERY = Choice()
# bytes of a line, without its LF
BYTES = 1_048_576
CUT = "apf: the last line is left out: it has no LF at its end, and is not whole JSON"
LASTING = ("exec", "attach", "portforward", "proxy", "log")
QUEUE_WAIT = "apiserver.latency.k8s.io/apf-queue-wait"
RFC_3339 = re.compile(r"(\d{4}-\d\d-\d\dT\d\d:\d\d:\d\d)(?:\.(\d{1,9}))?(Z|[+-]\d\d:\d\d)", re.ASCII)
# as Go writes a duration: hours, minutes, and a last unit that may have a fraction
DURATION = re.compile(r"(-?)(?:(\d+)h)?(?:(\d+)m)?(?:(\d+(?:\.\d+)?)(s|ms|µs|us|ns))?", re.ASCII)
# of a second
UNITS = {"s": 1, "ms": Fraction(1, 10**3), "µs": Fraction(1, 10**6), "us": Fraction(1, 10**6), "ns": Fraction(1, 10**9)}
EPOCH = datetime.datetime(1970, 1, 1, tzinfo=datetime.timezone.utc)


class Flow(str):
    """What tells a flow from others of its schema, with the name of that."""

    def __new__(cls, schema, distinguisher):
        flow = super().__new__(cls, distinguisher)
        flow.schema = schema
        return flow


class AuditFault(Refused):
    """A fault of an audit log: its number, its line from 1, and what is wrong with it: the line's bytes, or of BAD_ARRIVAL how long after the
    first one its request arrives."""

    def __init__(self, number, line, content):
        self.number, self.line = number, line
        super().__init__(f"apf: audit fault {number} at line {line}: {told(number, content)}")


def shown(value):
    return "absent" if value is None else found(value[0])


def told(number, content):
    """What is wrong with a line of these bytes, or with a request that arrives this long after the first one."""
    if number == BAD_ARRIVAL:
        return f"this request arrives {content} microseconds after the first one: at most {ARRIVAL} may be between them"
    if number == TOO_LONG:
        return f"the line has more than {BYTES} bytes"
    if number == NOT_JSON:
        return line_not_json(content)
    value = Json(content).whole()
    if number == NOT_EVENT:
        if not isinstance(value, dict):
            return f"an audit event is a JSON object, but this is {found(value)}"
        return needed(value, "verb" if isinstance(value.get("stage"), str) else "stage", "a text")
    times = {key: [value[key]] if key in value else None for key in ("stageTimestamp", "requestReceivedTimestamp")}
    annotations = value.get("annotations") if isinstance(value.get("annotations"), dict) else {}
    wait = [annotations[QUEUE_WAIT]] if QUEUE_WAIT in annotations else None
    if number == BAD_USER:
        who = "impersonatedUser" if "impersonatedUser" in value else "user"
        user = value.get(who) if isinstance(value.get(who), dict) else {}
        name = {f"{who}.username": user["username"]} if "username" in user else {}
        return needed(name, f"{who}.username", f"a text of at most {NAME} bytes")
    if number == BAD_NAMESPACE:
        return f"objectRef.namespace is {found(value['objectRef']['namespace'])}: it must be a text of at most {NAME} bytes"
    if number in (BAD_RECEIVED, BAD_STAGE):
        key = "requestReceivedTimestamp" if number == BAD_RECEIVED else "stageTimestamp"
        return needed(value, key, 'an instant from 1970 on, as "2026-01-31T12:00:00.000000Z"')
    if number == BAD_WAIT:
        return f'apf-queue-wait is {found(wait[0])}: it must be a duration from 0 to 10000 s, as "1.5s"'
    if number == BAD_RUN:
        run = f"the run, which is the first less the others, must be from 0 to {RUN} microseconds"
        stage, received = (shown(times[key]) for key in ("stageTimestamp", "requestReceivedTimestamp"))
        return f"stageTimestamp is {stage}, requestReceivedTimestamp is {received} and apf-queue-wait is {shown(wait)}: {run}"
    received = shown(times["requestReceivedTimestamp"])
    return f"requestReceivedTimestamp is {received}, and more than {WINDOW} requests of lines before it were received later"


def no_constant(word):
    raise ValueError(word)


def finite(text):
    if math.isinf(float(text)):
        raise ValueError(text)
    return float(text)


decoded = json.JSONDecoder(parse_constant=no_constant, parse_float=finite).decode


# the last lines are kept, as large logs of the tests repeat some; what is made of one is not changed
@functools.lru_cache(maxsize=256)
def value_of(line):
    """The JSON value of a line. Python alone takes NaN and the like, numbers without an end, a mark of byte order, and halves of a surrogate pair, which stand
    there as escapes."""
    try:
        text = line.decode("utf-8")
        if text.startswith("\ufeff"):
            raise NotJson
        value = decoded(text)
        if "\\u" in text:
            json.dumps(value, ensure_ascii=False).encode("utf-8")
    except (ValueError, RecursionError):
        raise NotJson from None
    return value


def at(value, *path):
    """What stands at the path, or None."""
    for key in path:
        value = value.get(key) if isinstance(value, dict) else None
    return value


def text_at(value, *path):
    found = at(value, *path)
    return found if isinstance(found, str) else None


@functools.lru_cache(maxsize=1024)
def instant(text):
    """The whole microseconds from 1970 on, or None."""
    # its two letters may be small
    found = RFC_3339.fullmatch((text or "").upper())
    if not found:
        return None
    second, fraction, offset = found.groups()
    try:
        whole = datetime.datetime.fromisoformat(second + offset.replace("Z", "+00:00"))
    except ValueError:
        return None
    since = whole - EPOCH
    micros = (86_400 * since.days + since.seconds) * 10**6 + int((fraction or "")[:6].ljust(6, "0"))
    return micros if micros >= 0 else None


def duration(text):
    """The whole microseconds of a duration, or None. The longest one has no fraction of a microsecond more."""
    found = DURATION.fullmatch(text)
    if not found or not any(found.groups()[1:]):
        return None
    sign, hours, minutes, last, unit = found.groups()
    seconds = 3600 * int(hours or 0) + 60 * int(minutes or 0) + (Fraction(last) * UNITS[unit] if last else 0)
    micros = (-1 if sign else 1) * seconds * 10**6
    return int(micros) if 0 <= micros <= WAIT else None


def wait_of(event):
    annotations = at(event, "annotations")
    if not isinstance(annotations, dict) or QUEUE_WAIT not in annotations:
        return 0
    wait = annotations[QUEUE_WAIT]
    return duration(wait) if isinstance(wait, str) else None


def is_taken(event):
    return event["stage"] == "ResponseComplete" and event["verb"] != "watch" and at(event, "objectRef", "subresource") not in LASTING


def namespace_of(event):
    """The namespace of the event's object, empty where there is none, or None where it is no name."""
    there = event.get("objectRef")
    if not isinstance(there, dict) or "namespace" not in there:
        return ""
    name = there["namespace"]
    return name if isinstance(name, str) and len(name.encode()) <= NAME else None


def is_chosen(choice, user, received):
    if choice.user is not None and choice.user.endswith("*"):
        if user[: len(choice.user) - 1] != choice.user[:-1]:
            return False
    elif choice.user not in (None, user):
        return False
    return (choice.since is None or received >= choice.since) and (choice.until is None or received < choice.until)


def was_turned_away(event):
    code = at(event, "responseStatus", "code")
    return type(code) is int and code == 429


def has_name(event):
    """Whether something stands where the event has the name of its user. A user who is impersonated is the one."""
    user = event.get("impersonatedUser" if "impersonatedUser" in event else "user")
    return isinstance(user, dict) and "username" in user


def request_of(event, line, text, choice):
    """The arrival from 1970 on, the run and the flow of an event that is taken, with no run if it was turned away; None if it is not chosen."""
    user = text_at(event, "impersonatedUser" if "impersonatedUser" in event else "user", "username")
    if user is None or len(user.encode()) > NAME:
        raise AuditFault(BAD_USER, line, text)
    if callable(choice.by):
        flow = choice.by(event, user)
    else:
        flow = user if choice.by == "user" else namespace_of(event)
    if flow is None:
        raise AuditFault(BAD_NAMESPACE, line, text)
    times = [instant(text_at(event, key)) for key in ("requestReceivedTimestamp", "stageTimestamp")]
    if times[0] is None:
        raise AuditFault(BAD_RECEIVED, line, text)
    if not is_chosen(choice, user, times[0]):
        return None
    if was_turned_away(event):
        return times[0], None, flow
    if times[1] is None:
        raise AuditFault(BAD_STAGE, line, text)
    wait = wait_of(event)
    if wait is None:
        raise AuditFault(BAD_WAIT, line, text)
    run = times[1] - times[0] - wait
    if not 0 <= run <= RUN:
        raise AuditFault(BAD_RUN, line, text)
    return times[0], run, flow


def lines_of(content):
    """The lines, without a last one that no LF ends, that begins as an event does and is no JSON; and whether there is such a one."""
    *lines, rest = content.split(b"\n")
    if not rest:
        return lines, False
    if len(rest) > BYTES:
        return [*lines, rest], False
    try:
        value_of(rest)
    except NotJson:
        if rest.startswith(b"{") and not rest.startswith(b"{\0"):
            return lines, True
    return [*lines, rest], False


def median(runs):
    """The median of sorted runs, with zeros behind its first eight binary digits where they are many."""
    if not runs:
        return 0
    run = runs[(len(runs) - 1) // 2]
    behind = max(run.bit_length() - 8, 0) if len(runs) > EXACT else 0
    return run >> behind << behind


class Runs:
    """The runs of the requests that were read, sorted: of each of the first flows of which one ran, and of all."""

    def __init__(self):
        self.of_flow, self.of_all = {}, []

    def add(self, run, flow):
        bisect.insort(self.of_all, run)
        if flow in self.of_flow or len(self.of_flow) < FLOWS:
            bisect.insort(self.of_flow.setdefault(flow, []), run)

    def estimate(self, flow):
        return median(self.of_flow.get(flow, self.of_all))


# what is found in an event without a user's name
UNNAMED = "unnamed"


def judged(line, text, choice):
    """What the line of this number holds: the arrival, the run and the flow of a request, or UNNAMED, or None where it is no chosen request."""
    if len(text) > BYTES:
        raise AuditFault(TOO_LONG, line, text)
    try:
        event = value_of(text)
    except NotJson:
        raise AuditFault(NOT_JSON, line, text) from None
    if text_at(event, "stage") is None or text_at(event, "verb") is None:
        raise AuditFault(NOT_EVENT, line, text)
    if not is_taken(event):
        return None
    if not has_name(event):
        return UNNAMED
    return request_of(event, line, text, choice)


Read = collections.namedtuple("Read", "requests unnamed is_cut fault")


class Handed(tuple):
    """A request that is handed out, with the line of its event, and its seats."""

    def __new__(cls, line, parts, width=1):
        self = super().__new__(cls, parts)
        self.line, self.width = line, width
        return self


@functools.lru_cache(maxsize=2)
def read_of(content, choice=EVERY, window=WINDOW):
    """What is read of a log: the requests that are handed out, each with its arrival from 1970 on, its run, its flow and whether it was turned
    away; how many events without a user's name were left out; whether the last line was; and the first fault, if there is one.

    Of a request that is before more than the window's size of those of the lines before it that is TOO_LATE. The earliest of all is handed out
    once one more than the window's size are there, and a request that was turned away gets its run then."""
    lines, is_cut = lines_of(content)
    held, requests, unnamed, last, runs, known = [], [], 0, None, Runs(), {}

    def hand_out():
        received, line, run, flow = heapq.heappop(held)
        if requests and received - requests[0][0] > ARRIVAL:
            raise AuditFault(BAD_ARRIVAL, line, received - requests[0][0])
        requests.append(Handed(line, (received, runs.estimate(flow) if run is None else run, flow, run is None)))
        return received, line

    try:
        for line, text in enumerate(lines, 1):
            found = known[text] if text in known else judged(line, text, choice)
            # large logs of the tests repeat some lines
            if len(known) < 100:
                known[text] = found
            if found is UNNAMED:
                unnamed += 1
            if found in (None, UNNAMED):
                continue
            received, run, flow = found
            if run is not None:
                runs.add(run, flow)
            if last and (received, line) < last:
                raise AuditFault(TOO_LATE, line, text)
            heapq.heappush(held, (received, line, run, flow))
            if len(held) > window:
                last = hand_out()
        while held:
            hand_out()
    except AuditFault as fault:
        return Read(requests, unnamed, is_cut, fault)
    return Read(requests, unnamed, is_cut, None)


def text_of(requests, schema):
    """The lines of the trace of requests that are handed out, of this schema or of that of their flows."""
    start = requests[0][0] if requests else 0
    form = '{{"schema":{},"distinguisher":{},"arrivesAt":{},"runsFor":{}}}\n'
    return "".join(
        form.format(json_text(getattr(user, "schema", schema)), json_text(user), received - start, run) for received, run, user, _ in requests
    )


def turned_away(content, choice=EVERY):
    """How many of the chosen requests of a good log were turned away, of how many."""
    requests = read_of(content, choice).requests
    return sum(away for *_, away in requests), len(requests)


def notes(unnamed, is_cut, away=0, of=0):
    """What is said beside the trace of a good log: of so many chosen requests so many were turned away."""
    nameless = f"apf: events without a user's name, as of a failed login, are left out: {unnamed}\n" if unnamed else ""
    median = "each gets the median runsFor of those of its flow that ran, or of all that ran"
    said = f"apf: {away} of {of} requests were turned away with status 429: {median}\n" if away else ""
    return nameless + (f"{CUT}\n" if is_cut else "") + said


def trace_of(content, schema, choice=EVERY):
    read = read_of(content, choice)
    if read.fault:
        raise read.fault
    return text_of(read.requests, schema)
