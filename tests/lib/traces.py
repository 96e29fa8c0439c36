"""Traces for tests: drawn ones, those at the ends of what is allowed, and faulty ones, of which each comes with its first fault."""

from jsontext import encoder
from trace import BAD_ARRIVAL, BAD_COST, BAD_FLOW, BAD_RUN, BAD_WIDTH, NOT_JSON, NOT_OBJECT, TOO_LONG, TOO_MANY, TRUNCATED, UNKNOWN_KEY

LETTERS = 'abcABC012 -_/.:äß€😀\u2028\n\t\x01\x1c\x7f\x85\u200f\u202e\u2067"\\'


class Traces:
    """Draws of one seed."""

    def __init__(self, draw):
        self.draw = draw

    # what is allowed

    def config(self):
        """A level that is small, so that its queues are full and its seats are taken."""
        queues = self.draw.choice([1, 1, 2, 3, 5, 8, 64])
        return {
            "limit": self.draw.choice([1, 2, 2, 3, 5, 8, 20]),
            "queues": queues,
            "handSize": self.draw.randint(1, min(queues, 8)),
            "queueLengthLimit": self.draw.choice([1, 2, 3, 10, 50]),
            "limitResponse": self.draw.choice(["Queue"] * 6 + ["Reject"]),
        }

    def name(self):
        return "".join(self.draw.choice(LETTERS) for _ in range(self.draw.choice([0, 1, 3, 12])))

    def flow(self):
        if self.draw.random() < 0.4:
            return {"hash": self.draw.choice([0, 1, 2, 7, self.draw.getrandbits(64)])}
        return {"schema": self.draw.choice(["a", "b", self.name()]), "distinguisher": self.draw.choice(["c", "d", self.name()])}

    def times(self, count):
        """Times of arrivals: all at once, in bursts, on a coarse grid with many ties, or apart."""
        kind = self.draw.randrange(4)
        if kind == 0:
            return [self.draw.choice([0, 7, 999_999_999_999])] * count
        if kind == 1:
            bursts = [self.draw.randrange(500) for _ in range(self.draw.choice([1, 3, 6]))]
            return [self.draw.choice(bursts) for _ in range(count)]
        if kind == 2:
            return [10 * self.draw.randrange(1 + count // self.draw.choice([1, 2, 8])) for _ in range(count)]
        last = self.draw.choice([3, 30, 1000]) * count
        return [self.draw.randint(1, last) for _ in range(count)]

    def trace(self, has_costs=True):
        """The objects of a trace's lines, and a patience. Runs are short, of no time, or on the grid of the times."""
        count = self.draw.choice([0, 1, 5, 20, 40, 60, 80, 100, 120, 150])
        flows = [self.flow() for _ in range(self.draw.choice([1, 2, 3, 12, 40]))]
        runs = self.draw.choice([[0], [0, 10], [10, 20, 30], [0, 1, 2, 5, 10, 100], [0, 50, 300], [100, 1000, 10_000_000_000]])
        widths = self.draw.choice([[1], [1, 1, 1, 2, 3], [1, 1, 2, 7, 30], [1, 1, 1, 2, 5], [20_000, 1]])
        costs = self.draw.choice([[], [1, 2, 3], [1, 100, 4_294_967_295]]) if has_costs else []
        objects = []
        for time in self.times(count):
            each = {**self.draw.choice(flows), "arrivesAt": time, "runsFor": self.draw.choice(runs)}
            if self.draw.random() < 0.7:
                each["width"] = self.draw.choice(widths)
            if costs and self.draw.random() < 0.7:
                each["cost"] = self.draw.choice(costs)
            objects.append(each)
        return objects, self.draw.choice([0, 0, 1, 5, 10, 20, 40, 100, 100, 1000, 1_000_000_000])

    def charge(self):
        """What requests are charged, or that it is not said."""
        return self.draw.choice([None, "time", "time", "seats"])

    def line(self, each):
        """The object in one of the ways in which JSON can be written: keys in any order, blanks, characters as escapes."""
        keys = [*each]
        self.draw.shuffle(keys)
        blank = self.draw.choice(["", "", " ", "\t", " \r "])
        text = encoder(self.draw.random() < 0.5, blank)({key: each[key] for key in keys})
        return f"{blank}{text}{blank}".encode()

    def content(self, objects):
        return b"".join(self.line(each) + b"\n" for each in objects)

    def small(self):
        """The object of one line that is good."""
        more = {"width": self.draw.choice([1, 2, 20_000])} if self.draw.random() < 0.3 else {}
        more.update({"cost": self.draw.choice([1, 20_000, 4_294_967_295])} if self.draw.random() < 0.3 else {})
        return {**self.flow(), "arrivesAt": self.draw.choice([0, 1, 10**12]), "runsFor": self.draw.choice([0, 1, 10**10]), **more}

    # what is not

    def spoiled(self, fault):
        """An object with this fault, and perhaps some that come after it in the order of the list."""
        each = self.small()
        for number in range(TRUNCATED - 1, fault, -1):
            if number >= UNKNOWN_KEY and self.draw.random() < 0.15:
                self.spoil(each, number)
        self.spoil(each, fault)
        return each

    def spoil(self, each, fault):
        if fault == UNKNOWN_KEY:
            each[self.draw.choice(UNKNOWN)] = self.draw.choice([1, None, "x", []])
        elif fault == BAD_FLOW:
            for key in ("hash", "schema", "distinguisher"):
                each.pop(key, None)
            each.update(self.draw.choice(FLOWS))
        else:
            key = {BAD_ARRIVAL: "arrivesAt", BAD_RUN: "runsFor", BAD_WIDTH: "width", BAD_COST: "cost"}[fault]
            each[key] = self.draw.choice(OTHERS + BEYOND[key])
            if each[key] is ABSENT:
                del each[key]

    def faulty_line(self, fault):
        """The bytes of a line with this fault as its first one, without LF."""
        if fault == TOO_LONG:
            inside = self.draw.choice([self.line(self.small()), self.line(self.spoiled(BAD_RUN)), b"{", b"\xff", b"", b"[]"])
            return inside + self.draw.choice([b" ", b"x"]) * (self.draw.choice([1, 1, 1000]) + 65_536 - len(inside))
        if fault == NOT_JSON:
            return self.draw.choice(NO_JSON)(self.line(self.draw.choice([self.small(), self.spoiled(BAD_RUN)])))
        if fault == NOT_OBJECT:
            return self.draw.choice(NO_OBJECT)(self.line(self.draw.choice([self.small(), self.spoiled(BAD_RUN)])))
        if fault == TRUNCATED:
            return self.line(self.small())
        return self.line_as_written(self.spoiled(fault))

    def line_as_written(self, each):
        """The line of an object, in which some numbers stand as texts of JSON that Python would not write so."""
        text = self.line(each)
        for number, mark in enumerate(RAW):
            text = text.replace(b'"%s%d"' % (MARK, number), mark)
        return text

    def faulty(self, fault):
        """A file, and its first fault's line, which is of this number."""
        before = [self.line(self.small()) for _ in range(self.draw.choice([0, 0, 1, 2, 9]))]
        if fault == TOO_MANY:
            before = [self.draw.choice([b'{"hash":0,"arrivesAt":0,"runsFor":0}', self.line(self.small())])] * 10_000
            lines = [*before, self.draw.choice([self.line(self.small()), b"", b"x" * 70_000, b"{}"])]
        else:
            lines = [*before, self.faulty_line(fault)]
        place = len(lines)
        if fault == TRUNCATED:
            return b"\n".join(lines), place
        after = [self.faulty_line(self.draw.choice(ANY)) for _ in range(self.draw.choice([0, 0, 1, 3]))]
        lines += after
        # the last line is cut of its LF, which is a fault that comes after the others of a line and is none of an empty line
        is_cut = self.draw.random() < 0.3 and lines[-1] != b""
        return b"\n".join(lines) + (b"" if is_cut else b"\n"), place

    def all_faulty(self, count):
        """This many files with their numbers and lines. Of the last line but 10,000, which makes large files, there are few."""
        for number in range(count):
            fault = TOO_MANY if number % 100 == 99 else TOO_LONG + number % (TRUNCATED - TOO_LONG + 1)
            content, line = self.faulty(fault)
            yield content, fault, line


ABSENT = object()
ANY = (TOO_LONG, NOT_JSON, NOT_OBJECT, UNKNOWN_KEY, BAD_ARRIVAL, BAD_RUN, BAD_FLOW, BAD_WIDTH, BAD_COST)
UNKNOWN = ["", "arrivesat", "ArrivesAt", "arrivesAt ", "runFor", "schemas", "Hash", "work", "cancels", "closes", "width\x00", "\ufeffhash", "priority"]
# a text of a line that begins so stands for a number as it is in RAW
MARK = b"number "
RAW = [b"1.0", b"1e0", b"10E-1", b"0.5", b"-0", b"-0.0", b"1e3", b"18446744073709551616", b"-9223372036854775809", b"1" + b"0" * 40, b"-1"]
NUMBERS = [f"{MARK.decode()}{number}" for number in range(len(RAW))]
# no whole numbers of any range that a key has
OTHERS = [*NUMBERS, -1, None, True, False, "1", "", [], [1], {}]
BEYOND = {
    "arrivesAt": [ABSENT, ABSENT, 10**12 + 1, (1 << 64) - 1],
    "runsFor": [ABSENT, ABSENT, 10**10 + 1, 10**12],
    "width": [0, 20_001, 65_537, (1 << 32) + 1],
    "cost": [0, 1 << 32, (1 << 32) + 1, 1 << 64],
}
NAMES = {"schema": "a", "distinguisher": "b"}
FLOWS = [
    {},
    {"schema": "a"},
    {"distinguisher": "b"},
    {"hash": 0, "schema": "a"},
    {"hash": 0, "distinguisher": "b"},
    {"hash": 0, **NAMES},
    {"hash": None, **NAMES},
    {"schema": 1, "distinguisher": "b"},
    {"schema": "a", "distinguisher": None},
    {"schema": None, "distinguisher": "b"},
    {"schema": ["a"], "distinguisher": "b"},
    {"schema": "a", "distinguisher": True},
    *({"hash": it} for it in [-1, 1 << 64, None, True, "0", "b2cfa8521298df5f", [], {}, *NUMBERS]),
]
DEEP = 128
# each makes of a good line one that is no JSON text
NO_JSON = [
    lambda line: b"",
    lambda line: b" ",
    lambda line: b"\r",
    lambda line: b"{",
    lambda line: line.strip()[:-1],
    lambda line: line.strip()[1:],
    lambda line: line + b"x",
    lambda line: line + line,
    lambda line: line + b",",
    lambda line: line.strip()[:-1] + b",}",
    lambda line: line + b"//",
    lambda line: b"\xef\xbb\xbf" + line,
    lambda line: line + b"\x00",
    lambda line: line + b"\x0b",
    lambda line: b"\xff" + line,
    lambda line: line.strip()[:-1] + b',"schema":"\xed\xa0\x80"}',
    lambda line: line.strip()[:-1] + b',"schema":"\xc0\x80"}',
    lambda line: line.strip()[:-1] + b',"schema":"\\ud800"}',
    lambda line: line.strip()[:-1] + b',"schema":"\\udc00\\ud800"}',
    lambda line: line.strip()[:-1] + b',"schema":"\\x41"}',
    lambda line: line.strip()[:-1] + b',"schema":"\t"}',
    lambda line: line.strip()[:-1] + b",'schema':1}",
    lambda line: line.strip()[:-1] + b',"width":01}',
    lambda line: line.strip()[:-1] + b',"width":+1}',
    lambda line: line.strip()[:-1] + b',"width":1.}',
    lambda line: line.strip()[:-1] + b',"width":.5}',
    lambda line: line.strip()[:-1] + b',"width":0x1}',
    lambda line: line.strip()[:-1] + b',"width":1e}',
    lambda line: line.strip()[:-1] + b',"width":-}',
    lambda line: line.strip()[:-1] + b',"width":1_0}',
    lambda line: line.strip()[:-1] + b',"width":NaN}',
    lambda line: line.strip()[:-1] + b',"width":Infinity}',
    lambda line: line.strip()[:-1] + b',"width":-Infinity}',
    lambda line: line.strip()[:-1] + b',"width":1e999}',
    lambda line: line.strip()[:-1] + b',"width":True}',
    lambda line: line.strip()[:-1] + b',"width":nul}',
    lambda line: b"[" * DEEP + b"]" * DEEP,
    lambda line: b"[" * 60_000,
    lambda line: line.replace(b":", b"=", 1),
    lambda line: line.replace(b"}", b"]"),
]
# each makes of a good line a JSON text that is no object
NO_OBJECT = [
    lambda line: b"[]",
    lambda line: b"[" + line + b"]",
    lambda line: b"0",
    lambda line: b" -1.5e3 ",
    lambda line: b'"arrivesAt"',
    lambda line: b"null",
    lambda line: b"true",
    lambda line: b"\tfalse\r",
    lambda line: b"[" * (DEEP - 1) + b"]" * (DEEP - 1),
]


def good_ends():
    """Files at the ends of what is allowed: a name, the bytes, and the objects that its lines mean."""
    plain, zero = b'{"hash":0,"arrivesAt":0,"runsFor":0}', {"hash": 0, "arrivesAt": 0, "runsFor": 0}
    yield "no line", b"", []
    yield "zeros and ones", b'{"hash":0,"arrivesAt":0,"runsFor":0,"width":1,"cost":1}\n', [{**zero, "width": 1, "cost": 1}]
    yield "the greatest numbers", (
        b'{"hash":18446744073709551615,"arrivesAt":1000000000000,"runsFor":10000000000,"width":20000,"cost":4294967295}\n'
    ), [{"hash": (1 << 64) - 1, "arrivesAt": 10**12, "runsFor": 10**10, "width": 20_000, "cost": 4_294_967_295}]
    yield "no cost beside a width", plain[:-1] + b',"width":7}\n', [{**zero, "width": 7}]
    yield "a cost beside no width", plain[:-1] + b',"cost":7}\n', [{**zero, "width": 1, "cost": 7}]
    yield "one flow by its names", b'{"schema":"batch","distinguisher":"crawler","arrivesAt":0,"runsFor":100}\n', [
        {"schema": "batch", "distinguisher": "crawler", "arrivesAt": 0, "runsFor": 100}
    ]
    yield "times in any order", b'{"arrivesAt":60,"runsFor":20,"hash":7,"width":2}\n{"runsFor":1,"hash":7,"arrivesAt":50}\n', [
        {"hash": 7, "arrivesAt": 60, "runsFor": 20, "width": 2},
        {"hash": 7, "arrivesAt": 50, "runsFor": 1},
    ]
    yield "two empty names", b'{"schema":"","distinguisher":"","arrivesAt":1,"runsFor":2}\n', [
        {"schema": "", "distinguisher": "", "arrivesAt": 1, "runsFor": 2}
    ]
    yield "keys and names as escapes", (
        b'{"\\u0073chema":"\\u0062atch","distinguisher":"\\ud83d\\uDE00\\/","arrives\\u0041t":1,"runsFor":2}\n'
    ), [{"schema": "batch", "distinguisher": "\U0001f600/", "arrivesAt": 1, "runsFor": 2}]
    yield "the last value of a key that stands twice", b'{"hash":"x","hash":0,"arrivesAt":-1,"arrivesAt":3,"runsFor":0}\n', [
        {**zero, "arrivesAt": 3}
    ]
    yield "blanks and CR", b' \t{ "hash" : 0 , "arrivesAt" : 0 , "runsFor" : 0 }\t\r\n', [zero]
    yield "a line of 65,536 bytes and its LF", plain + b" " * (65_536 - len(plain)) + b"\n" + plain + b"\n", [zero] * 2
    yield "10,000 lines", (plain + b"\n") * 10_000, [zero] * 10_000


PLAIN = b'{"hash":0,"arrivesAt":0,"runsFor":0}\n'
FLOWLESS = b'{"arrivesAt":0,"runsFor":0%s}\n'
# files next to the ends of what is allowed, and two faults at once: the first fault's number and line
FAULTY_ENDS = [
    (PLAIN * 10_001, TOO_MANY, 10_001),
    (PLAIN * 10_000 + b"x", TOO_MANY, 10_001),
    (PLAIN * 10_000 + b"\n", TOO_MANY, 10_001),
    (PLAIN * 10_000 + b" " * 65_537, TOO_MANY, 10_001),
    (PLAIN * 9_999 + b"{}\n" + PLAIN, BAD_ARRIVAL, 10_000),
    (PLAIN * 9_999 + PLAIN[:-1], TRUNCATED, 10_000),
    (PLAIN[:-1] + b" " * (65_537 - len(PLAIN[:-1])) + b"\n", TOO_LONG, 1),
    (PLAIN[:-1] + b" " * (65_537 - len(PLAIN[:-1])), TOO_LONG, 1),
    (PLAIN[:-1] + b" " * (65_536 - len(PLAIN[:-1])), TRUNCATED, 1),
    (PLAIN + b"\xff" * 65_537 + b"\n", TOO_LONG, 2),
    (b"\xff" * 65_536 + b"\n", NOT_JSON, 1),
    (b"{}\n" + b" " * 65_537 + b"\n", BAD_ARRIVAL, 1),
    (b"\n", NOT_JSON, 1),
    (PLAIN + b"\n" + PLAIN, NOT_JSON, 2),
    (PLAIN + PLAIN[:-1] + b" " * (65_537 - len(PLAIN[:-1])), TOO_LONG, 2),
    *((it + b"\n", NOT_JSON, 1) for it in (b"\r", b"{", b"{}x", b"{}{}", b"\xff", PLAIN[:-2] + b",}", PLAIN[:-3] + b"01}", b"\xef\xbb\xbf" + PLAIN[:-1])),
    *((it + b"\n", NOT_JSON, 1) for it in (PLAIN[:-1] + b" // a comment", b'{"schema":"\\ud800"}')),
    *((it + b"\n", NOT_OBJECT, 1) for it in (b"[]", b"0", b"null", b'"arrivesAt"', b"[{}]")),
    *((it, UNKNOWN_KEY, 1) for it in (b'{"ArrivesAt":0}\n', b'{"":0}\n', b'{"hash":0,"arrivesAt":-1,"runsFor":0,"closes":true}')),
    *((b'{"hash":0,"arrivesAt":%s,"runsFor":0}\n' % it, BAD_ARRIVAL, 1) for it in (b"-0", b"1e0", b"null", b"0.5")),
    (b"{}\n[]\n", BAD_ARRIVAL, 1),
    (b'{"arrivesAt":0.5}\n', BAD_ARRIVAL, 1),
    (b'{"arrivesAt":0,"runsFor":null,"width":0}\n', BAD_RUN, 1),
    (FLOWLESS % b',"hash":"b2cfa8521298df5f"', BAD_FLOW, 1),
    (FLOWLESS % b',"hash":null', BAD_FLOW, 1),
    (FLOWLESS % b',"hash":0,"width":4294967297', BAD_WIDTH, 1),
    (b" ", NOT_JSON, 1),
    (b"{", NOT_JSON, 1),
    (b"[" + PLAIN[:-1] + b"]\n", NOT_OBJECT, 1),
    (b"[" * 127 + b"]" * 127 + b"\n", NOT_OBJECT, 1),
    (b"[" * 128 + b"]" * 128 + b"\n", NOT_JSON, 1),
    (b"[]", NOT_OBJECT, 1),
    (b'{"work":0}\n', UNKNOWN_KEY, 1),
    (b'{"hash":0,"arrivesAt":-1,"runsFor":0,"work":0}', UNKNOWN_KEY, 1),
    (b"{}\n", BAD_ARRIVAL, 1),
    (b'{"hash":0,"runsFor":-1}\n', BAD_ARRIVAL, 1),
    (b'{"hash":0,"arrivesAt":-1,"runsFor":0}\n', BAD_ARRIVAL, 1),
    (b'{"hash":0,"arrivesAt":1000000000001,"runsFor":0}\n', BAD_ARRIVAL, 1),
    (b'{"hash":0,"arrivesAt":0.0,"runsFor":0}\n', BAD_ARRIVAL, 1),
    (b'{"hash":0,"arrivesAt":"0","runsFor":0}\n', BAD_ARRIVAL, 1),
    (b'{"arrivesAt":0}\n', BAD_RUN, 1),
    (b'{"hash":0,"arrivesAt":1000000000000,"runsFor":-1}\n', BAD_RUN, 1),
    (b'{"hash":0,"arrivesAt":0,"runsFor":10000000001}\n', BAD_RUN, 1),
    (b'{"hash":0,"arrivesAt":0,"runsFor":1e1}\n', BAD_RUN, 1),
    (b'{"hash":0,"arrivesAt":0,"runsFor":null}\n', BAD_RUN, 1),
    (FLOWLESS % b"", BAD_FLOW, 1),
    (FLOWLESS % b',"width":0,"cost":0', BAD_FLOW, 1),
    (FLOWLESS % b',"hash":-1', BAD_FLOW, 1),
    (FLOWLESS % b',"hash":18446744073709551616', BAD_FLOW, 1),
    (FLOWLESS % b',"hash":"0"', BAD_FLOW, 1),
    (FLOWLESS % b',"schema":"a"', BAD_FLOW, 1),
    (FLOWLESS % b',"distinguisher":"b"', BAD_FLOW, 1),
    (FLOWLESS % b',"schema":"a","distinguisher":1', BAD_FLOW, 1),
    (FLOWLESS % b',"schema":null,"distinguisher":"b"', BAD_FLOW, 1),
    (FLOWLESS % b',"hash":0,"schema":"a"', BAD_FLOW, 1),
    (FLOWLESS % b',"hash":0,"distinguisher":"b"', BAD_FLOW, 1),
    (FLOWLESS % b',"hash":0,"schema":"a","distinguisher":"b"', BAD_FLOW, 1),
    (FLOWLESS % b',"hash":null,"schema":"a","distinguisher":"b"', BAD_FLOW, 1),
    (FLOWLESS % b',"hash":0,"width":0,"cost":0', BAD_WIDTH, 1),
    (FLOWLESS % b',"hash":0,"width":20001', BAD_WIDTH, 1),
    (FLOWLESS % b',"hash":0,"width":1.5', BAD_WIDTH, 1),
    (FLOWLESS % b',"hash":0,"width":null', BAD_WIDTH, 1),
    (FLOWLESS % b',"hash":0,"cost":0', BAD_COST, 1),
    (FLOWLESS % b',"hash":0,"cost":4294967296', BAD_COST, 1),
    (FLOWLESS % b',"hash":0,"cost":true', BAD_COST, 1),
    ((FLOWLESS % b',"hash":0,"cost":0')[:-1], BAD_COST, 1),
    (PLAIN + FLOWLESS % b',"hash":0,"cost":0' + b"{}\n" + PLAIN[:-1], BAD_COST, 2),
    (PLAIN[:-1], TRUNCATED, 1),
    (PLAIN + PLAIN[:-1], TRUNCATED, 2),
    (PLAIN[:-1] + b"\r", TRUNCATED, 1),
]
