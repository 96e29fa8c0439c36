"""What `apf explain` says of three files, by docs/FORMATS.md: an independent model, on top of the judges of the files.

`answer` computes the status, the output and the errors. A fault's line is computed here from the bytes, and not from the judge's fault.
"""

import re
import unicodedata
from decimal import Decimal

from judge import CONFIG, MOST, REQUEST, RESPONSE, Json, NotJson, Number, Refused, command_of, config_of, dealer_fault, judge_size, number_of, requests_of, script_of, whole_in
from jsontext import json_text

STANDARD_INPUT = "standard input"
FORMS = "a line is arrive N, finish N, cancel N, close or limit N, with one blank before N, which has one to five digits and no zero in front"
FLOW = "either hash alone, or both schema and distinguisher"
# the longest text that is shown, in bytes
LONGEST = 64


# ---- what stands in a file

SHORT = {'"': '\\"', "\\": "\\\\", "\0": "\\0", "\t": "\\t", "\n": "\\n", "\r": "\\r"}


def quoted(text):
    """A text between quotes. Escaped is what does not print, and what extends the character before it."""
    found = []
    for it in text:
        kind = unicodedata.category(it)
        is_hidden = kind[0] == "C" or kind in ("Zl", "Zp", "Mn", "Me") or (kind == "Zs" and it != " ")
        found.append(SHORT.get(it) or (f"\\u{{{ord(it):x}}}" if is_hidden else it))
    return '"' + "".join(found) + '"'


def sized(text, what):
    count = len(text.encode())
    return quoted(text) if count <= LONGEST else f"{what} of {count} bytes"


def float_text(value):
    """The shortest digits that are read as this number: plain from 0.000001 on and below 10^16, else with an exponent that has a sign."""
    sign, digits, exponent = Decimal(repr(float(value))).as_tuple()
    minus = "-" if sign else ""
    text = "".join(map(str, digits)).lstrip("0")
    if not text:
        return f"{minus}0.0"
    exponent += len(text) - len(text.rstrip("0"))
    text = text.rstrip("0")
    # how many digits stand before the point
    point = len(text) + exponent
    if 0 < point <= 16:
        whole = text.ljust(point, "0")
        return f"{minus}{whole[:point]}.{whole[point:] or '0'}"
    if -5 <= point <= 0:
        return f"{minus}0.{'0' * -point}{text}"
    return f"{minus}{text[0]}{'.' if text[1:] else ''}{text[1:]}e{point - 1:+d}"


def found(value):
    """A value, as a person reads it."""
    if value is None or isinstance(value, bool):
        return {None: "null", True: "true", False: "false"}[value]
    if isinstance(value, str):
        return sized(value, "a text")
    if isinstance(value, Number):
        return float_text(value)
    return str(value) if isinstance(value, int) else ("an array" if isinstance(value, list) else "an object")


# ---- bytes that are no JSON

BLANKS = " \t\n\r"
BLANK = re.compile(f"[{BLANKS}]*")
# what may stand behind a number or a word
ENDS = BLANKS + "{}[]:,"
TEXT = re.compile(r'"(?:[^"\\\x00-\x1f]|\\["\\/bfnrt]|\\u[0-9a-fA-F]{4})*"')
# the front of a text, which may end within an escape
TEXT_FRONT = re.compile(r'"(?:[^"\\\x00-\x1f]|\\["\\/bfnrt]|\\u[0-9a-fA-F]{4})*(?:\\(?:u[0-9a-fA-F]{0,3})?)?')
NUMBER = re.compile(r"-?(?:0|[1-9][0-9]*)(?:\.[0-9]+)?(?:[eE][+-]?[0-9]+)?")
NUMBER_FRONT = re.compile(r"-|-?(?:0|[1-9][0-9]*)\.|-?(?:0|[1-9][0-9]*)(?:\.[0-9]+)?[eE][+-]?")
WORDS = ("true", "false", "null")
DEEP = ": more than 127 arrays and objects stand in one another"
LARGE = ": the number here is too large"
EARLY = ": the text ends too early"
YAML = ": the bytes begin as YAML does: write them as JSON"


class Stop(Exception):
    """Where the reader stopped, as a place in the text, and why, where that is a size."""


class Reader:
    """Where a text stops to be JSON. The reader takes one mark after another, and with a value the comma behind it. It stops at the beginning of a
    mark, a word, a number or a text that is wrong, or cannot follow what came before; and behind one that is right by itself, but not
    where it stands: a key in an array, another value than a text for a key, the wrong bracket, one array or object too deep, a number beyond all floats."""

    def __init__(self, text):
        self.text, self.at = text, 0
        self.blank()
        # what came before: nothing or an opening mark or a colon; a comma; a value
        self.came = "opening"

    def blank(self):
        self.at = BLANK.match(self.text, self.at).end()

    def here(self):
        return self.text[self.at : self.at + 1]

    def passes(self, count):
        self.at += count
        self.blank()

    def ends_value(self):
        self.came = "value"
        if self.here() == ",":
            self.passes(1)
            self.came = "comma"

    def stop(self, why=""):
        raise Stop(self.at, why)

    def scalar(self):
        """The length of the word or number here."""
        lengths = [len(it) for it in WORDS if self.text.startswith(it, self.at)]
        number = NUMBER.match(self.text, self.at)
        length = lengths[0] if lengths else len(number[0]) if number else 0
        behind = self.text[self.at + length : self.at + length + 1]
        if not length or (behind and behind not in ENDS):
            self.stop()
        return length

    def is_text(self):
        whole = TEXT.match(self.text, self.at)
        if not whole:
            return None
        try:
            Json(whole[0].encode()).whole()
        except NotJson:
            return None
        return len(whole[0])

    def mark(self):
        """Takes the next mark, and answers its kind and its text; or None at the end."""
        here = self.here()
        if not here or here in "}]":
            if self.came == "comma":
                self.stop()
            if not here:
                return None
            self.passes(1)
            self.ends_value()
            return here, here
        if self.came == "value" or here in ",:\\":
            self.stop()
        if here in "{[":
            self.passes(1)
            self.came = "opening"
            return here, here
        if here != '"':
            text = self.text[self.at : self.at + self.scalar()]
            self.passes(len(text))
            self.ends_value()
            return "scalar", text
        length = self.is_text()
        if length is None:
            self.stop()
        self.passes(length)
        if self.here() == ":":
            self.passes(1)
            self.came = "opening"
            return "key", None
        self.ends_value()
        return "scalar", '"'

    def value(self, depth):
        kind, text = self.mark() or self.stop()
        if kind in ("key", "}", "]"):
            self.stop()
        if kind in "{[" and depth == Json.DEPTH:
            self.stop(DEEP)
        if kind == "scalar" and (text[0] == "-" or text[0].isdigit()) and abs(float(text)) == float("inf"):
            self.stop(LARGE)
        if kind == "[":
            while not (self.here() == "]" and self.came != "comma"):
                self.value(depth + 1)
            self.mark()
        while kind == "{":
            inner = (self.mark() or self.stop())[0]
            if inner == "}":
                return
            if inner != "key":
                self.stop()
            self.value(depth + 1)

    def whole(self):
        self.value(0)
        if self.here() or self.came == "comma":
            self.stop()


def is_front(text):
    """Whether the text is the front of a JSON text, or one in which only a text's escapes or a number's size are wrong and which is not at its end."""
    closes, wants, at = [], "value", 0
    while True:
        at = BLANK.match(text, at).end()
        here = text[at : at + 1]
        if not here:
            return bool(closes) or wants != "behind"
        if here in "{[" and wants in ("value", "value or end") and len(closes) < Json.DEPTH:
            closes.append("}" if here == "{" else "]")
            wants = "key or end" if here == "{" else "value or end"
        elif here in "}]" and closes and ((here == "}" and wants == "key or end") or (here == "]" and wants == "value or end") or (wants == "behind" and closes[-1] == here)):
            closes.pop()
            wants = "behind"
        elif here == "," and wants == "behind" and closes:
            wants = "key" if closes[-1] == "}" else "value"
        elif here == ":" and wants == "colon":
            wants = "value"
        elif wants in ("value", "value or end") or (wants in ("key", "key or end") and here == '"'):
            whole = TEXT.match(text, at) if here == '"' else re.compile("|".join(WORDS)).match(text, at)
            if here == '"' and not whole:
                return TEXT_FRONT.match(text, at).end() == len(text)
            if not whole and here in "tfn":
                return any(it.startswith(text[at:]) for it in WORDS)
            if not whole:
                run = re.compile(r"[-+.eE0-9]*").match(text, at)[0]
                if not NUMBER.fullmatch(run):
                    return at + len(run) == len(text) and bool(NUMBER_FRONT.fullmatch(run))
                at += len(run)
            else:
                at = whole.end()
            wants = "colon" if wants in ("key", "key or end") else "behind"
            continue
        else:
            return False
        at += 1


def place(content, at):
    """Line and column of the byte at this place; behind the last one the column is the number of bytes of the last line."""
    before = content[:at]
    return before.count(b"\n") + 1, len(before) - (before.rfind(b"\n") + 1) + (at < len(content))


def stop_of(content):
    """Where bytes stop to be JSON, by line and column, and what is known of why."""
    try:
        text = content.decode()
    except UnicodeDecodeError as fault:
        # cut inside a character, where some other character would go on with a JSON text
        is_cut = fault.reason == "unexpected end of data" and is_front(content[: fault.start].decode() + "\u00e9")
        return *place(content, fault.start), EARLY if is_cut else ": the bytes here are not UTF-8"
    try:
        Reader(text).whole()
        raise AssertionError(f"{content!r} is JSON")
    except Stop as stop:
        at, why = stop.args
    return *place(content, len(text[:at].encode())), why or (YAML if begins_yaml(content) else EARLY if is_front(text) else "")


def begins_yaml(content):
    """Whether the first line that is neither empty nor a comment begins with `---`, or with a word and a colon."""
    first = next((it for it in content.split(b"\n") if it and not it.startswith(b"#")), b"")
    return re.match(rb"---|[A-Za-z]+:", first) is not None


def begins_as_trace(content):
    """Whether the first line is a JSON object that has the time of an arrival."""
    try:
        value = Json(content.split(b"\n")[0]).whole()
    except NotJson:
        return False
    return isinstance(value, dict) and "arrivesAt" in value


# how bytes that are no JSON may begin, and what is said of that, whatever they are
MARKS = [
    (b"\xef\xbb\xbf", ": the bytes begin with a mark of byte order (BOM): take it away"),
    (b"\xff\xfe", ": the bytes begin as UTF-16 does: they must be UTF-8"),
    (b"\xfe\xff", ": the bytes begin as UTF-16 does: they must be UTF-8"),
    *((begin, ": the bytes begin as UTF-16 does: they must be UTF-8") for begin in (b"[\0", b"{\0", b"\0[", b"\0{")),
    (b"\x1f\x8b", ": the bytes begin as gzip does: unpack them first"),
]
# a config that begins as an array does, requests that begin as an object does, objects that begin as an array does, and a line that does
NO_CONFIG = (b"[", ": an array begins here: a config is one object")
NO_REQUESTS = (b"{", ": an object begins here: requests are one array of them")
NO_OBJECTS = (b"[", ": an array begins here: objects are one JSON object, as kubectl prints a list")
NO_LINE = (b"[", ": an array begins here: write one object on each line")
# what is said of a trace in the place of each
TRACE_AS_CONFIG = ": the first line is a request of a trace: a config is one object"
TRACE_AS_REQUESTS = ": the first line is a request of a trace: apf requests makes requests of it"
TRACE_AS_OBJECTS = ": the first line is a request of a trace: objects are one JSON object, as kubectl prints a list"


def mark_of(content, marks):
    return next((said for begin, said in marks if content.startswith(begin)), "")


def not_json(name, content, bracket, trace):
    """The line of bytes that are no JSON."""
    line, column, why = stop_of(content)
    strange = trace if begins_as_trace(content) else mark_of(content, [bracket])
    return f"{name}:{line}:{column}: this is not JSON{mark_of(content, MARKS) or why or strange}"


def line_not_json(line, file=""):
    """What is said of a line that is no JSON, and of its file where that is known."""
    _, column, why = stop_of(line)
    return f"this is not JSON at column {column}{mark_of(line, [*MARKS, NO_LINE]) or file or why}"


# ---- the files


# which file has such a key in the place of another one
LIKE_CONFIG = {
    "apiVersion": ": this is an object as kubectl prints it",
    "kind": ": this is an object as kubectl prints it",
    "arrivesAt": ": this is a request of a trace",
}
LIKE_TRACE = {
    "apiVersion": ": this is an object as kubectl prints it",
    "kind": ": this is an object as kubectl prints it",
    **{key: ": this is a config" for key in ("limit", "queues", "handSize", "queueLengthLimit", "limitResponse")},
}
LIKE_EVENT = ": this is an event of an audit log"


def is_event(value):
    """Whether a value is an event of an audit log."""
    return isinstance(value, dict) and "stage" in value and "verb" in value


def unknown(value, known, like=()):
    """The first key that is none of these, by its bytes; with what it is called, and the file that has such a key."""
    keys = sorted(it.encode() for it in value if it not in known)
    if not keys:
        return None
    shown = sized(keys[0].decode(), "a key")
    if len(keys[0]) > LONGEST:
        return f"{shown} is unknown"
    likeness = LIKE_EVENT if like and is_event(value) else dict(like).get(keys[0].decode(), "")
    return f"the key {shown} is unknown{likeness}"


def range_of(low, high):
    return f"a whole number from {low} to {high}"


def config_line(name, content):
    try:
        value = Json(content).whole()
    except NotJson:
        return not_json(name, content, NO_CONFIG, TRACE_AS_CONFIG)
    if not isinstance(value, dict):
        return f"{name}: a config is a JSON object, but this is {found(value)}"
    stranger = unknown(value, [*CONFIG, RESPONSE], LIKE_CONFIG)
    if stranger:
        return f"{name}: {stranger}: a config has limit, queues, handSize, queueLengthLimit and limitResponse"
    if "limit" not in value:
        return f"{name}: the key limit is missing: it must be {range_of(1, 10_000)}"
    for key, (low, high, absent) in CONFIG.items():
        if not whole_in(value.get(key, absent), low, high):
            return f"{name}: {key} is {found(value[key])}: it must be {range_of(low, high)}"
    return f'{name}: {RESPONSE} is {found(value[RESPONSE])}: it must be "Queue" or "Reject"'


def flow_line(value):
    """What is wrong with a flow, or None."""
    named = [it for it in ("schema", "distinguisher") if it in value]
    if "hash" in value and named:
        return f"hash stands beside {' and '.join(named)}: a flow is {FLOW}"
    if "hash" in value:
        good = whole_in(value["hash"], 0, (1 << 64) - 1)
        return None if good else f"hash is {found(value['hash'])}: it must be {range_of(0, 18446744073709551615)}"
    if not named:
        return f"the flow is missing: it is {FLOW}"
    if len(named) == 1:
        other = {"schema": "distinguisher", "distinguisher": "schema"}[named[0]]
        return f"{named[0]} stands without {other}: a flow is {FLOW}"
    bad = [it for it in named if not isinstance(value[it], str)]
    return f"{bad[0]} is {found(value[bad[0]])}: it must be a text" if bad else None


def member_line(value, count):
    """What is wrong with a request, or None."""
    if not isinstance(value, dict):
        return f"a request is a JSON object, but this is {found(value)}"
    stranger = unknown(value, REQUEST)
    if stranger:
        return f"{stranger}: a request has schema, distinguisher, hash, width, work, cancels and closes"
    flow = flow_line(value)
    if flow:
        return flow
    for key, good, wanted in (
        ("width", lambda it: whole_in(it, 1, 20_000), range_of(1, 20_000)),
        ("work", lambda it: whole_in(it, 0, 1_000_000), range_of(0, 1_000_000)),
        ("cancels", lambda it: whole_in(it, 0, count - 1), f"the number of a request, 0 to {count - 1}"),
        ("closes", lambda it: isinstance(it, bool), "true or false"),
    ):
        if key in value and not good(value[key]):
            return f"{key} is {found(value[key])}: it must be {wanted}"
    return None


def requests_line(name, content):
    try:
        value = Json(content).whole()
    except NotJson:
        return not_json(name, content, NO_REQUESTS, TRACE_AS_REQUESTS)
    if not isinstance(value, list):
        return f"{name}: requests are a JSON array, but this is {found(value)}"
    if len(value) > 10_000:
        return f"{name}: there are {len(value)} requests: at most 10000 may be there"
    for number, it in enumerate(value):
        line = member_line(it, len(value))
        if line:
            return f"{name}: request {number}: {line}"
    raise AssertionError("the requests are good")


def known_requests(count):
    return ["there are no requests", "the only request is 0"][count] if count < 2 else f"the requests are 0 to {count - 1}"


def bad_line(line):
    if not line:
        return f"the line is empty: {FORMS}"
    if line[-1:] == b"\r":
        return "the line ends with CR: a line ends with LF alone"
    try:
        text = quoted(line.decode()) if len(line) <= LONGEST else "the line"
    except UnicodeDecodeError:
        text = "the line"
    return f"{text} is no command: {FORMS}"


def script_line(name, content, count):
    lines = content.split(b"\n")
    mark = mark_of(content, MARKS)
    for number, line in enumerate(lines, 1):
        is_last = number == len(lines)
        no_script = f"this is no script{mark}" if mark and number == 1 else ""
        if number > 100_000 and not (is_last and not line):
            return f"{name}:{number}: there are more than 100000 lines"
        if is_last:
            return f"{name}:{number}: {no_script or 'the last line has no LF at its end'}"
        try:
            command_of(line, number, count)
        except Refused as fault:
            kind = str(fault).split()[3]
            given = number_of(line.split(b" ")[-1])
            said = {
                "3": lambda: no_script or bad_line(line),
                "4": lambda: f"there is no request {given}: {known_requests(count)}",
                "6": lambda: f"the limit is {given}: it must be from 1 to 10000",
            }[kind]()
            return f"{name}:{number}: {said}"
    raise AssertionError("the script is good")


def dealer_line(name, queues, hand_size):
    sizes = f"{name}: handSize is {hand_size} and queues is {queues}"
    if hand_size > queues:
        return f"{sizes}: a hand can't have more queues than there are (8 and 64 if absent)"
    return f"{sizes}: queues to the power of handSize must be at most 2 to the power of 60 (8 and 64 if absent)"


# ---- the command


def too_large(name, kind):
    plural = {"config": "a config has at most this many", "requests": "requests have at most this many", "script": "a script has at most this many"}[kind]
    return f"{name}: more than {MOST[kind]} bytes: {plural}"


ABSENT, FOLDER, NOT_ALLOWED = "there is no such file", "it is a folder", "reading it is not allowed"


def cant_read(name, cause):
    return f"{name}: can't be read: {cause}"


def answer(names, contents):
    """The status, output and errors of `explain` on files of these names and bytes."""
    names = [STANDARD_INPUT if it == "-" else json_text(it)[1:-1] for it in names]
    config, requests, script = contents

    def refused(line, fault):
        return 1, f"{line}\n".encode(), f"{fault}\n".encode()

    for kind, name, content, judge, line_of in (
        ("config", names[0], config, config_of, config_line),
        ("requests", names[1], requests, requests_of, requests_line),
    ):
        try:
            judge_size(kind, content)
        except Refused as fault:
            return refused(too_large(name, kind), fault)
        try:
            judge(content)
        except Refused as fault:
            return refused(line_of(name, content), fault)
    count = len(requests_of(requests))
    try:
        judge_size("script", script)
    except Refused as fault:
        return refused(too_large(names[2], "script"), fault)
    try:
        script_of(script, count)
    except Refused as fault:
        return refused(script_line(names[2], script, count), fault)
    level = config_of(config)
    fault = level[RESPONSE] == "Queue" and dealer_fault(level["queues"], level["handSize"])
    return refused(dealer_line(names[0], level["queues"], level["handSize"]), fault) if fault else (0, b"", b"")
