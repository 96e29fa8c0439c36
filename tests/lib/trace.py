"""What a trace file says, by the table of its faults: an independent judge of its bytes.

A trace is one JSON object a line, for a request each. `trace_of` answers the requests, or raises TraceFault.
"""

import contextlib
import functools

from explain import LIKE_EVENT, LIKE_TRACE, flow_line, found, is_event, line_not_json, unknown
from judge import Json, NotJson, Refused, flow_of, whole_in
from level import hash_of

LINES = 10_000
# of a line without its LF
BYTES = 65_536

# each fault's number is its place in the order in which a line is judged
TOO_MANY, TOO_LONG, NOT_JSON, NOT_OBJECT, UNKNOWN_KEY, BAD_ARRIVAL, BAD_RUN, BAD_FLOW, BAD_WIDTH, BAD_COST, TRUNCATED = range(1, 12)
KEYS = ("arrivesAt", "runsFor", "schema", "distinguisher", "hash", "width", "cost")
KNOWN = frozenset(KEYS)
# key: lowest, highest, and the fault of another value; the two times must be there
TIMES = {"arrivesAt": (0, 1_000_000_000_000, BAD_ARRIVAL), "runsFor": (0, 10_000_000_000, BAD_RUN)}
SEATS = {"width": (1, 20_000, BAD_WIDTH), "cost": (1, 4_294_967_295, BAD_COST)}


class TraceFault(Refused):
    """The first fault of a trace: its number, its line from 1, and what is wrong."""

    def __init__(self, number, line, said):
        self.number, self.line = number, line
        super().__init__(f"apf: trace fault {number} at line {line}: {said}")


def needed(value, key, wanted):
    """What is wrong with the value at a key, which has to be there."""
    return f"{key} is {found(value[key])}: it must be {wanted}" if key in value else f"the key {key} is missing: it must be {wanted}"


# behind what a file is that is one object
NO_TRACE = ": a trace has one object on each line"
# the most bytes of a config, and of the objects of a cluster
MOST, MOST_OF_OBJECTS = 65_536, 8_388_608


def whole_said(content):
    """What is said of a file whose first line is no JSON: what it is, where it is one object."""
    try:
        value = Json(content).whole() if len(content) <= MOST_OF_OBJECTS else None
    except NotJson:
        return ""
    if not isinstance(value, dict):
        return ""
    if is_event(value):
        return LIKE_EVENT + NO_TRACE
    for key in ("apiVersion", "kind"):
        if key in value:
            return LIKE_TRACE[key] + NO_TRACE
    return LIKE_TRACE["limit"] + NO_TRACE if "limit" in value and len(content) <= MOST else ""


def told(number, line, value=None, file=""):
    """What is wrong with a line that has this fault, and what is known of its file."""
    if number == TOO_MANY:
        return f"there are more than {LINES} lines"
    if number == TOO_LONG:
        return f"the line has {len(line)} bytes: at most {BYTES} may be there"
    if number == NOT_JSON:
        return line_not_json(line, file)
    if number == NOT_OBJECT:
        return f"a request is a JSON object, but this is {found(value)}"
    if number == UNKNOWN_KEY:
        return f"{unknown(value, KEYS, LIKE_TRACE)}: a request of a trace has {', '.join(KEYS[:-1])} and {KEYS[-1]}"
    if number == BAD_FLOW:
        return flow_line(value)
    if number == TRUNCATED:
        return "the last line has no LF at its end"
    for key, (low, high, fault) in TIMES.items():
        if fault == number:
            return needed(value, key, f"a whole number of microseconds from {low} to {high}")
    for key, (low, high, fault) in SEATS.items():
        if fault == number:
            return needed(value, key, f"a whole number from {low} to {high}")
    raise AssertionError(number)


def lines_of(content):
    """Each line without its LF, and whether it has one: bytes after the last LF are a line without."""
    *lines, rest = content.split(b"\n")
    return [*((line, True) for line in lines), *([(rest, False)] if rest else [])]


def value_of(line):
    """The JSON value of a line."""
    return Json(line).whole()


# the last lines are kept, as large traces of the tests repeat one, and a drawn one is read in pieces and as a whole
@functools.lru_cache(maxsize=512)
def read_of(line):
    """The JSON value of a line, its first fault, and its request where it has none."""
    value = value_of(line)
    fault = value_fault(value)
    return value, fault, None if fault else request_of(value)


def value_fault(value):
    """The first fault of a line's value, or None. A flow is named as in the requests file: by its hash alone, or by both texts alone."""
    if not isinstance(value, dict):
        return NOT_OBJECT
    if not value.keys() <= KNOWN:
        return UNKNOWN_KEY
    for key, (low, high, fault) in TIMES.items():
        if not whole_in(value.get(key), low, high):
            return fault
    if flow_of(value) is None:
        return BAD_FLOW
    for key, (low, high, fault) in SEATS.items():
        if key in value and not whole_in(value[key], low, high):
            return fault
    return None


def request_of(value):
    flow = flow_of(value)
    names = None if isinstance(flow, int) else flow
    return {
        "arrivesAt": value["arrivesAt"],
        "runsFor": value["runsFor"],
        "flow": flow,
        "names": names,
        "hash": flow if names is None else hash_of(*names),
        "width": value.get("width", 1),
        "cost": value.get("cost"),
    }


# the last ones are kept, as several commands are tried on one; what it answers is not changed
@functools.lru_cache(maxsize=2)
def trace_of(content, in_pieces=False):
    """The requests of a trace. One that is read in pieces may have any number of lines, and no line that is too long is kept."""
    *lines, rest = content.split(b"\n")
    # most traces have no fault: no line of those is looked at but by what is known of it
    if not rest and (in_pieces or len(lines) <= LINES) and max(map(len, lines), default=0) <= BYTES:
        with contextlib.suppress(NotJson):
            read = [*map(read_of, lines)]
            if not any(fault for _, fault, _ in read):
                return [request for _, _, request in read]
    requests = []
    for number, (line, is_ended) in enumerate(lines_of(content), 1):
        if number > LINES and not in_pieces:
            raise TraceFault(TOO_MANY, number, told(TOO_MANY, line))
        if len(line) > BYTES:
            raise TraceFault(TOO_LONG, number, f"the line has more than {BYTES} bytes" if in_pieces else told(TOO_LONG, line))
        try:
            value, fault, request = read_of(line)
        except NotJson:
            file = whole_said(content) if number == 1 else ""
            raise TraceFault(NOT_JSON, number, told(NOT_JSON, line, file=file)) from None
        fault = fault or (None if is_ended else TRUNCATED)
        if fault:
            raise TraceFault(fault, number, told(fault, line, value))
        requests.append(request)
    return requests
