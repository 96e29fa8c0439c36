"""What the three files say, by the tables of docs/FORMATS.md: an independent judge of their bytes.

Each function answers the value, or raises Refused with the program's line.
"""

import json
import re


class Refused(Exception):
    """A fault of a file, whose text is the line on standard error."""


class NotJson(Exception):
    """The bytes are no JSON text in UTF-8."""


class Number(float):
    """A number that is not written as a whole number of 64 bits: with a fraction, an exponent, as -0, or beyond."""


class Json:
    """A reader of JSON (RFC 8259) for texts in UTF-8, of at most 127 levels."""

    DEPTH = 127
    # what is passed over at once: blanks, digits, and what a string holds that is no quote, no escape and no control
    BLANKS = re.compile("[ \t\n\r]*")
    DIGITS = re.compile("[0-9]+")
    PLAIN = re.compile(r'[^"\\\x00-\x1f]+')
    # a string without escapes, and one that is a key
    SIMPLE = re.compile(r'"([^"\\\x00-\x1f]*)"')
    KEY = re.compile(r'[ \t\n\r]*"([^"\\\x00-\x1f]*)"[ \t\n\r]*:')
    # a key with a whole number or a string of these, and an object of such ones alone
    MEMBER = re.compile(KEY.pattern + r'[ \t\n\r]*(?:((?:0|-?[1-9][0-9]{0,17})(?![0-9.eE]))|"([^"\\\x00-\x1f]*)")')
    OF_MEMBERS = re.compile("[ \t\n\r]*{(?:MEMBER(?:[ \t\n\r]*,MEMBER)*)?[ \t\n\r]*}[ \t\n\r]*".replace("MEMBER", MEMBER.pattern.replace("(", "(?:").replace("(?:?", "(?")))
    # what stands behind a value in brackets
    NEXT = re.compile("[ \t\n\r]*([]},]?)")
    # a whole number that 64 bits hold, but for -0
    WHOLE = re.compile("(?:0|-?[1-9][0-9]{0,17})(?![0-9.eE])")
    WORDS = {"t": ("true", True), "f": ("false", False), "n": ("null", None)}
    ESCAPES = {'"': '"', "\\": "\\", "/": "/", "b": "\b", "f": "\f", "n": "\n", "r": "\r", "t": "\t"}

    def __init__(self, content):
        try:
            self.text = content.decode("utf-8")
        except UnicodeDecodeError:
            raise NotJson from None
        self.at = 0

    def peek(self):
        return self.text[self.at : self.at + 1]

    def blank(self):
        self.at = self.BLANKS.match(self.text, self.at).end()

    def take(self, wanted):
        if not self.text.startswith(wanted, self.at):
            raise NotJson
        self.at += len(wanted)

    def whole(self):
        # no other reader of JSON takes such a text for anything else
        if self.OF_MEMBERS.fullmatch(self.text):
            return json.loads(self.text)
        value = self.value(0)
        self.blank()
        if self.peek():
            raise NotJson
        return value

    def value(self, depth):
        self.blank()
        begin = self.peek()
        if begin == "{":
            return self.members(depth + 1)
        if begin == "[":
            return self.items(depth + 1)
        if begin == '"':
            return self.string()
        if begin not in self.WORDS:
            return self.number()
        word, value = self.WORDS[begin]
        self.take(word)
        return value

    def list(self, close, depth, one):
        if depth > self.DEPTH:
            raise NotJson
        self.at += 1
        self.blank()
        if self.peek() == close:
            self.at += 1
            return
        while True:
            one()
            behind = self.NEXT.match(self.text, self.at)
            self.at = behind.end()
            if behind[1] == close:
                return
            if behind[1] != ",":
                raise NotJson

    def items(self, depth):
        found = []
        self.list("]", depth, lambda: found.append(self.value(depth)))
        return found

    def members(self, depth):
        found = {}

        def one():
            if member := self.MEMBER.match(self.text, self.at):
                key, number, text = member.groups()
                self.at = member.end()
                found[key] = text if number is None else int(number)
                return
            if simple := self.KEY.match(self.text, self.at):
                key, self.at = simple[1], simple.end()
            else:
                self.blank()
                key = self.string()
                self.blank()
                self.take(":")
            found[key] = self.value(depth)

        self.list("}", depth, one)
        return found

    def digits(self):
        found = self.DIGITS.match(self.text, self.at)
        if not found:
            raise NotJson
        self.at = found.end()
        return found[0]

    def number(self):
        if whole := self.WHOLE.match(self.text, self.at):
            self.at = whole.end()
            return int(whole[0])
        begin, is_whole = self.at, True
        if self.peek() == "-":
            self.at += 1
        first = self.digits()
        if len(first) > 1 and first[0] == "0":
            raise NotJson
        if self.peek() == ".":
            self.at, is_whole = self.at + 1, False
            self.digits()
        if self.peek() and self.peek() in "eE":
            self.at, is_whole = self.at + 1, False
            if self.peek() and self.peek() in "+-":
                self.at += 1
            self.digits()
        text = self.text[begin : self.at]
        if is_whole and text != "-0" and -(1 << 63) <= int(text) < 1 << 64:
            return int(text)
        found = Number(text)
        if found in (float("inf"), float("-inf")):
            raise NotJson
        return found

    def unit(self):
        text = self.text[self.at : self.at + 4]
        if len(text) < 4 or any(it not in "0123456789abcdefABCDEF" for it in text):
            raise NotJson
        self.at += 4
        return int(text, 16)

    def escape(self):
        begin = self.peek()
        self.at += 1
        if begin in self.ESCAPES and begin:
            return self.ESCAPES[begin]
        if begin != "u":
            raise NotJson
        high = self.unit()
        if 0xD800 <= high < 0xDC00:
            self.take("\\u")
            low = self.unit()
            if not 0xDC00 <= low < 0xE000:
                raise NotJson
            return chr(0x10000 + ((high - 0xD800) << 10) + (low - 0xDC00))
        if 0xDC00 <= high < 0xE000:
            raise NotJson
        return chr(high)

    def string(self):
        if simple := self.SIMPLE.match(self.text, self.at):
            self.at = simple.end()
            return simple[1]
        self.take('"')
        found = []
        while self.peek() != '"':
            if plain := self.PLAIN.match(self.text, self.at):
                found.append(plain[0])
                self.at = plain.end()
            else:
                # a control, the end of the text, or an escape
                self.take("\\")
                found.append(self.escape())
        self.at += 1
        return "".join(found)


def whole_in(value, low, high):
    """Whether the value is a whole number of this range. (True and False are none.)"""
    return type(value) is int and low <= value <= high


# the most bytes that a file may have
MOST = {"config": 65_536, "requests": 16_777_216, "script": 2_097_152}


def judge_size(name, content):
    if len(content) > MOST[name]:
        raise Refused(f"apf: {name} too large: more than {MOST[name]} bytes")


# key: lowest, highest, if absent
CONFIG = {"limit": (1, 10_000, None), "queues": (1, 1_024, 64), "handSize": (1, 15, 8), "queueLengthLimit": (1, 10_000, 50)}
RESPONSE = "limitResponse"


def config_of(content):
    def refuse(number, text):
        raise Refused(f"apf: config fault {number}: {text}")

    judge_size("config", content)
    try:
        value = Json(content).whole()
    except NotJson:
        refuse(1, "not JSON")
    if not isinstance(value, dict):
        refuse(2, "not an object")
    if any(key not in CONFIG and key != RESPONSE for key in value):
        refuse(3, "unknown key")
    if "limit" not in value:
        refuse(4, "limit missing")
    config = {}
    for key, (low, high, absent) in CONFIG.items():
        config[key] = value.get(key, absent)
        if not whole_in(config[key], low, high):
            refuse(5, f"bad value of {key}")
    config[RESPONSE] = value.get(RESPONSE, "Queue")
    if config[RESPONSE] not in ("Queue", "Reject"):
        refuse(5, f"bad value of {RESPONSE}")
    return config


REQUEST = ("schema", "distinguisher", "hash", "width", "work", "cancels", "closes")


def flow_of(value):
    """The flow that the request names, or None: its hash, or the schema's name and the distinguisher."""
    if "hash" in value:
        is_alone = "schema" not in value and "distinguisher" not in value
        return value["hash"] if is_alone and whole_in(value["hash"], 0, (1 << 64) - 1) else None
    schema, distinguisher = value.get("schema"), value.get("distinguisher")
    return (schema, distinguisher) if isinstance(schema, str) and isinstance(distinguisher, str) else None


def request_of(value, place, count):
    def refuse(number, text):
        raise Refused(f"apf: requests fault {number} at {place}: {text}")

    if not isinstance(value, dict):
        refuse(4, "not an object")
    if any(key not in REQUEST for key in value):
        refuse(5, "unknown key")
    if flow_of(value) is None:
        refuse(6, "bad flow")
    if not whole_in(value.get("width", 1), 1, 20_000):
        refuse(7, "bad width")
    if not whole_in(value.get("work", 0), 0, 1_000_000):
        refuse(8, "bad work")
    if not whole_in(value.get("cancels", 0), 0, count - 1) and "cancels" in value:
        refuse(9, "bad cancels")
    if not isinstance(value.get("closes", False), bool):
        refuse(10, "bad closes")
    return {"flow": flow_of(value), "width": value.get("width", 1)}


def requests_of(content):
    def refuse(number, text):
        raise Refused(f"apf: requests fault {number}: {text}")

    judge_size("requests", content)
    try:
        value = Json(content).whole()
    except NotJson:
        refuse(1, "not JSON")
    if not isinstance(value, list):
        refuse(2, "not an array")
    if len(value) > 10_000:
        refuse(3, "too many requests")
    return [request_of(it, place, len(value)) for place, it in enumerate(value)]


def number_of(text):
    """The number that one to five decimal digits write, with no zero before another digit; or None."""
    is_number = 1 <= len(text) <= 5 and all(48 <= it <= 57 for it in text) and (len(text) == 1 or text[0] != 48)
    return int(text) if is_number else None


def command_of(line, place, count):
    def refuse(number, text):
        raise Refused(f"apf: script fault {number} at line {place}: {text}")

    if line == b"close":
        return "close", None
    for name in (b"arrive", b"finish", b"cancel", b"limit"):
        number = number_of(line[len(name) + 1 :]) if line.startswith(name + b" ") else None
        if number is None:
            continue
        if name != b"limit" and number >= count:
            refuse(4, "unknown request")
        if name == b"limit" and not 1 <= number <= 10_000:
            refuse(6, "bad limit")
        return name.decode(), number
    return refuse(3, "bad line")


def script_of(content, count):
    judge_size("script", content)
    *lines, rest = content.split(b"\n")
    # most lines of a long script stand in it more than once
    commands, known = [], {}
    for place, line in enumerate([*lines, rest], 1):
        is_last = place > len(lines)
        if is_last and not line:
            break
        if place > 100_000:
            raise Refused(f"apf: script fault 1 at line {place}: too many lines")
        if is_last:
            raise Refused(f"apf: script fault 2 at line {place}: truncated")
        if line not in known:
            known[line] = command_of(line, place, count)
        commands.append(known[line])
    return commands


def dealer_fault(deck, hand):
    """The first fault of these sizes, or None."""
    faults = [
        (deck < 1 or hand < 1, "1: not positive"),
        (hand > deck, "2: hand too large"),
        (deck > 1 << 26, "3: deck too large"),
        (deck**hand > 1 << 60, "4: too much entropy"),
    ]
    return next((f"apf: dealer fault {text}" for is_so, text in faults if is_so), None)
