"""The log that an API server writes for itself beside an audit log: an independent reading of its lines, and of what becomes of the requests of the audit log
by them; and drawn lines."""

import ast
import collections
import json
import re

from audit import Handed, NotJson, at, lines_of, value_of
from audits import duration_text
from jsontext import json_text

# a key and its value, which stands between quotes or ends at a blank
PAIR = re.compile(r'([A-Za-z_-]+)=("(?:[^"\\]|\\.)*"|[^ ]*)')
AMOUNT = re.compile("([0-9]+(?:[.][0-9]+)?)(ns|us|\u00b5s|\u03bcs|ms|s|m|h)")
NANOS = {"ns": 1, "us": 10**3, "\u00b5s": 10**3, "\u03bcs": 10**3, "ms": 10**6, "s": 10**9, "m": 60 * 10**9, "h": 3600 * 10**9}
LONGEST_ID = 64

# ---- what is read

Line = collections.namedtuple("Line", "schema width run")


def text_in(value):
    """The text that Go quoted, or the value as it stands. Python's own quotes know each escape of Go's, and these tests have no bytes alone."""
    if not value.startswith('"'):
        return value
    # most texts have no escape
    return ast.literal_eval(value) if "\\" in value else value[1:-1]


def nanos_in(value):
    nanos = 0
    for count, name in AMOUNT.findall(text_in(value)):
        whole, _, behind = count.partition(".")
        nanos += int(whole + behind) * NANOS[name] // 10 ** len(behind)
    return nanos


def line_in(text):
    """The id that a line of a request has, and what it says; None for another line."""
    front, bracket, rest = text.partition("]")
    if not bracket or not rest.startswith(' "HTTP"'):
        return None
    pairs = PAIR.findall(rest)
    # of a key that stands there twice the first one counts
    said = dict(reversed(pairs))
    name = text_in(said.get("audit-ID", ""))
    if not name:
        return None
    width = max(int(text_in(said.get(key, "0"))) for key in ("apf_iseats", "apf_fseats"))
    run = None
    if "apf_execution_time" in said:
        run = (nanos_in(said["apf_execution_time"]) + nanos_in(said.get("apf_additionalLatency", "0s"))) // 1000
    schema = text_in(said["apf_fs"]) if "apf_fs" in said else None
    return name, Line(schema, max(width, 1), run)


def ids_of(content):
    """The ids that the lines of an audit log have, by the numbers of the lines."""
    found = {}
    for number, text in enumerate(lines_of(content)[0], 1):
        try:
            name = at(value_of(text), "auditID")
        except NotJson:
            continue
        if isinstance(name, str) and len(name.encode()) <= LONGEST_ID:
            found[number] = name
    return found


class Joined:
    """What becomes of the requests that were read of an audit log, where a server's own log stands beside it. No id has two lines there."""

    def __init__(self, read, audit_log, server_log):
        # what stands behind the last LF is not read
        lines = [line_in(it) for it in server_log.decode(errors="surrogateescape").split("\n")[:-1]]
        self.lines = dict(it for it in lines if it)
        assert len(self.lines) == sum(map(bool, lines))
        self.ids = ids_of(audit_log)
        self.joined = self.timed = self.agreed = 0
        self.others = []
        self.read = read._replace(requests=[self.join(it) for it in read.requests])
        self.requests = len(read.requests)

    def join(self, handed):
        line = self.lines.pop(self.ids.get(handed.line), None)
        if line is None:
            return handed
        received, run_for, flow, away = handed
        self.joined += 1
        if not away and line.run is not None:
            self.timed += 1
            run_for = line.run
        if line.schema == flow.schema:
            self.agreed += 1
        elif line.schema is not None:
            self.others.append((handed.line, flow.schema, line.schema))
        return Handed(handed.line, (received, run_for, flow, away), line.width)

    def told(self):
        """The lines for people."""
        differ = len(self.others)
        said = [
            f"how many seats {self.joined} of {self.requests} requests take (here the others take one)",
            f"how long {self.timed} requests ran there (here the others run as long as in the audit log)",
            f"the schema of {self.agreed + differ} requests (here {self.agreed} have the same one, and {differ} another)",
        ]
        first = [
            f"line {number} of the audit log: the schema is {json_text(here)} here, and {shown(there)} in the server's log"
            for number, here, there in self.others[:2]
        ]
        return [*(f"in the server's log: {it}" for it in said), *first]

    def members(self):
        """The same for programs."""
        numbers = {"requests": self.requests, "joined": self.joined, "timed": self.timed, "agreed": self.agreed, "differ": len(self.others)}
        return {"serverLog": numbers}


def shown(text):
    size = len(text.encode(errors="surrogateescape"))
    return json_text(text) if size <= 256 else f"a text of {size} bytes"


# ---- what is drawn


MARKS = str.maketrans({'"': '\\"', "\\": "\\\\", "\n": "\\n", "\t": "\\t"})


def quoted(text, draw):
    """A text as Go quotes it, with one or the other way to write what it can write in two."""
    marked = text.translate(MARKS)
    if not marked.isascii():
        marked = "".join(f"\\u{ord(it):04x}" if 127 < ord(it) < 65_536 and draw.random() < 0.5 else it for it in marked)
    return f'"{marked}"'


class ServerLogs:
    """Draws of lines for the events of an audit log."""

    def __init__(self, draw):
        self.draw = draw

    def value(self, value):
        return value if self.draw.random() < 0.5 else f'"{value}"'

    def time(self):
        nanos = self.draw.choice([0, 1, 999, 1500, 10**6, 2_500_000, self.draw.randrange(10**8), self.draw.randrange(20 * 10**9), 3_723 * 10**9 + 5])
        return self.value(duration_text(nanos).replace("\u00b5", self.draw.choice(["\u00b5", "\u03bc", "u"])))

    def line(self, name, schema):
        """A line of the request of this id, or of none, of this schema."""
        draw = self.draw
        pairs = {"verb": '"LIST"', "URI": quoted('/api/v1/pods?a="b c=d"', draw), "latency": '"3.1ms"', "srcIP": '"10.0.0.1:4"', "resp": "200"}
        pairs |= {"userAgent": quoted('kube "x" apf_iseats=9 y', draw), "apf_pl": '"some-level"', "apf_fs": quoted(schema, draw)}
        if name is not None:
            pairs["audit-ID"] = quoted(name, draw)
        pairs["apf_iseats"] = self.value(draw.choice(["1", "1", "1", "2", "3", "10", "0", "007"]))
        pairs["apf_fseats"] = self.value(draw.choice(["0", "0", "0", "1", "4"]))
        pairs["apf_additionalLatency"] = self.value("0s") if draw.random() < 0.7 else self.time()
        pairs["apf_execution_time"] = self.time()
        for key in ("apf_fs", "apf_iseats", "apf_fseats", "apf_additionalLatency", "apf_execution_time"):
            if draw.random() < 0.1:
                del pairs[key]
        keys = [*pairs]
        if draw.random() < 0.5:
            draw.shuffle(keys)
        said = [f"{key}={pairs[key]}" for key in keys]
        if draw.random() < 0.1:
            # a key that stands there again counts for nothing
            said += ["apf_iseats=7", 'apf_execution_time="5s"', 'audit-ID="again"']
        blanks = draw.choice([" ", " ", "  "])
        return f'I1125 12:00:00.123456       1 httplog.go:132] "HTTP" {blanks.join(said)}'

    def other(self, name):
        """A line of another kind, which may name an id."""
        draw = self.draw
        return draw.choice([
            f'I1125 12:00:00.123456       1 trace.go:236] Trace[7]: "List" audit-id:{name} (25-Nov-2026 12:00:00.000) (total time: 501ms):',
            f'I1125 12:00:00.123456       1 httplog.go:132] "Watching" verb="WATCH" audit-ID="{name}" apf_iseats=9',
            f'"HTTP" audit-ID="{name}" apf_iseats=9',
            f'E1125 12:00:00.123456       1 x.go:1] " "HTTP" audit-ID="{name}" apf_iseats=9',
            "",
            "W1125 \"HTTP\" apf_iseats",
        ])

    def log(self, audit_log, schemas, schema_at):
        """Lines for most of the events of an audit log, in about their order or in none, with others between them. The schema of the request of a line of
        the audit log is looked up there, and now and then another one is named."""
        draw, lines = self.draw, []
        for number, name in ids_of(audit_log).items():
            kind = draw.random()
            if kind < 0.15:
                continue
            schema = schema_at.get(number) if draw.random() < 0.9 else None
            lines.append((number, self.line(name, schema or draw.choice([*schemas, 'of "none"\u20ac\u202e', "long" * 70]))))
            if kind < 0.25:
                lines.append((number, self.other(name)))
            if kind < 0.3:
                lines.append((number, self.line(draw.choice([None, "", f"{number} of no event"]), draw.choice(schemas))))
        names, kept = {}, []
        for number, text in lines:
            found = line_in(text)
            # of an id there is one line
            if not found or names.setdefault(found[0], text) is text:
                kept.append((number, text))
        lines = kept
        how = draw.random()
        if how < 0.2:
            draw.shuffle(lines)
        elif how < 0.6:
            lines.sort(key=lambda it: it[0] + draw.choice([0, 0, 3, 20]))
        end = draw.choice([b"", b"", b'I1125 12:00:00.1 1 httplog.go:132] "HTTP" audit-ID="half', self.line("of the end", schemas[0]).encode()])
        return "".join(f"{text}\n" for _, text in lines).encode() + end


def event_with_id(event, draw):
    """The event with an id as it is, or now and then with one of another kind or none."""
    kind = draw.random()
    if kind < 0.05:
        del event["auditID"]
    elif kind < 0.1:
        event["auditID"] = draw.choice([7, None, "x" * 65, "", "twice", 'o" \\\u20ac\n', "y" * 64])
    return event
