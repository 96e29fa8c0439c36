"""`apf serve` against an independent computation of it (lib/serve.py): random sessions word for word, with both sides of the bound of those that are
charged by time, long lines, clients that die or never read, what it says of a bad config and of bad words, its metrics, and its memory over many
requests.

APF_SEED draws other sessions, and APF_SESSIONS says how many. With APF_BOUNDS both sides of the bound are printed for each of them, and else for the
one that came nearest. APF_REQUESTS says how many requests pass through a hundred numbers: 10000000 is the whole of what is promised, and takes two
minutes.
"""

import contextlib
import functools
import hashlib
import json
import os
import queue
import random
import re
import select
import signal
import subprocess
import sys
import threading
import time

sys.path.insert(0, os.path.join(os.path.dirname(os.path.abspath(__file__)), "lib"))
from bound import session_sides
from explain import answer
from harness import TOP, Files, Tally, build, build_serving, run
from judge import Refused, config_of
from level import answer as replayed
from metrics import BadMetrics, metrics_of
from serve import Service, session

tally = Tally()
files = Files()
program, is_built = build_serving()
# of lines and books: the built program has `replay` in any case
other = build()
seed = int(os.environ.get("APF_SEED", "1040"))
draw = random.Random(seed)
print(f"seed {seed}")
# no wait of a test is longer, in seconds
MOST = int(os.environ.get("APF_MOST", "60"))


def config(**more):
    """A level that is small, so that its queues are full and its seats are taken."""
    queues = draw.choice([1, 1, 2, 3, 5, 8, 64])
    return {
        "limit": draw.choice([1, 1, 2, 3, 5, 8, 20]),
        "queues": queues,
        "handSize": draw.randint(1, min(queues, 8)),
        "queueLengthLimit": draw.choice([1, 2, 3, 10]),
        "limitResponse": draw.choice(["Queue", "Queue", "Queue", "Reject"]),
        **more,
    }


@functools.lru_cache(maxsize=None)
def file_of(text):
    """The file of this config, which is written once."""
    return files(f"config-{hashlib.sha256(text.encode()).hexdigest()[:16]}", text)


def service_of(level, *how, **more):
    return Service(config_of(json.dumps(level).encode()), *how, **more)


NAMES = ["", "a", "global-default", "alice", "ü", "\U0001f600", 'a "quoted" one', "back\\slash", "\x01", "a b", "x" * 64, "x" * 65]


def asked():
    """What an arrival asks, as a text."""
    flow = draw.choice([{"hash": draw.choice([0, 1, 2, 7, 2**64 - 1, draw.getrandbits(64)])}, {"schema": draw.choice(NAMES), "distinguisher": draw.choice(NAMES)}])
    if draw.random() < 0.4:
        flow["width"] = draw.choice([1, 1, 2, 3, 7, 20_000])
    if draw.random() < 0.3:
        flow["cost"] = draw.choice([1, 2, 3, 50, 20_000, 4_294_967_295])
    items = [*flow.items()]
    draw.shuffle(items)
    text = json.dumps(dict(items), ensure_ascii=draw.random() < 0.5, separators=draw.choice([(",", ":"), (", ", ": ")]))
    # of a key that stands twice the last value counts
    return text.replace("{", '{"width":3,', 1) if draw.random() < 0.03 else text


# lines that are no command, and objects that are none of an arrival
NO_LINES = [b"", b" ", b"\r", b"arrive", b"arrive 0", b"arrive 0 ", b"arrive 0 []", b"arrive 0  {}", b"arrive  0 {}", b"arrive 00 {}", b"arrive -1 {}", b"try", b"try 0 1"]
NO_LINES += [b"finish", b"finish ", b"finish 0 ", b" finish 0", b"finish 00", b"finish +0", b"finish 0\r", b"FINISH 0", b"finish\t0", b"finish 0 x", b"finish 0 01", b"finish 0  1", b"finish 0 1 ", b"finish 0 1 2", b"finish 0 -1", b"finish x 1", b"spent 0", b"spent 0 01", b"spent x 1", b"spent 0 1 2", b"cancel x", b"cancel 0 1", b"cancel 0 0", b"limit", b"limit 01"]
NO_LINES += [b"limit 1.5", b"close ", b"close 0", b"books", b"queues 0", b"metrics\r", b"\xff", b"arrive 0 {\xff}", b"finish \xc3\xbc", b"\0", b"again 0", b"dispatch 0 queue 0", b"arrive 0 \xef\xbb\xbf{}"]
NO_LIMITS = [b"limit 0", b"limit 10001", b"limit 4294967296", b"limit 18446744073709551617", b"limit " + b"9" * 5_000]
NO_TIMES = [b"spent 0 1000000000001", b"finish 0 1000000000001", b"finish 0 18446744073709551616", b"finish 1 " + b"9" * 5_000]
NO_NUMBERS = [b"finish 10000 1000000000001", b"finish 4294967296", b"cancel 18446744073709551616", b"finish " + b"9" * 5_000, b'arrive 10000 {"hash":0}', b"try 10000 {"]
NO_OBJECTS = ["{}", "{", '{"hash":0', '{"hash":0}}', '{"hash":0} 1', '{"hash":01}', '{"hash":0,}', '{"hash":-1}', '{"hash":1.0}', '{"hash":1e3}', '{"hash":1e999}', '{"hash":18446744073709551616}']
NO_OBJECTS += ['{"hash":"0"}', '{"hash":null}', '{"hash":[]}', '{"hash":0,"schema":"a"}', '{"schema":"a"}', '{"distinguisher":"a"}', '{"schema":1,"distinguisher":"a"}']
NO_OBJECTS += ['{"schema":"a","distinguisher":true}', '{"hash":0,"width":0}', '{"hash":0,"width":20001}', '{"hash":0,"width":"\\u001b"}', '{"hash":0,"width":-0}', '{"hash":0,"cost":0}']
NO_OBJECTS += ['{"hash":0,"cost":4294967296}', '{"hash":0,"cost":{}}', '{"hash":0,"cost":2.5}', '{"hash":0,"work":1}', '{"hash":0,"arrivesAt":0}', '{"hash":0,"Width":1}', '{"\\u202e":1,"hash":0}']
NO_OBJECTS += ['{"%s":1}' % ("k" * 65), '{"hash":"%s"}' % ("v" * 65), '{"a":%s1%s}' % ("[" * 127, "]" * 127), '{"a":%s1%s}' % ("[" * 126, "]" * 126), "{'hash':0}", '{"hash":0,"width":1,"width":0}']


def number_in(service):
    return draw.randrange(service.slots) if draw.random() < 0.9 else draw.choice([0, service.slots, service.slots + 1])


def spoiled(line):
    """The line with one byte taken out, changed or put in. An LF makes two of it."""
    at, other = draw.randrange(len(line)), draw.choice(b'\n\r\0 \x80\xff{}"\\:,0129e.-a')
    return draw.choice([line[:at] + line[at + 1 :], line[:at] + bytes([other]) + line[at + 1 :], line[:at] + bytes([other]) + line[at:]])


def fault_in(service):
    number = number_in(service)
    return draw.choice(
        [
            lambda: draw.choice(NO_LINES),
            lambda: draw.choice(NO_LIMITS),
            lambda: draw.choice([*NO_NUMBERS, *NO_TIMES]),
            lambda: f"{draw.choice(['arrive', 'try'])} {number} {draw.choice(NO_OBJECTS)}".encode(),
            lambda: f"{draw.choice(['arrive', 'try'])} {number} {asked()}".encode() if draw.random() < 0.5 else f"{draw.choice(['finish', 'cancel'])} {number}".encode(),
            lambda: spoiled(f"arrive {number} {asked()}".encode()),
            lambda: spoiled(f"{draw.choice(['finish', 'cancel', 'limit'])} {number}".encode()),
        ]
    )()


def ran():
    """How long a request ran, as a finish says it, or nothing of that."""
    if draw.random() < 0.3:
        return ""
    return f" {draw.choice([0, 1, 999, 10_000, 10**12, 2**32, draw.randrange(1, 100_000), draw.randrange(1, 100_000)])}"


def line_in(service):
    """A line that does something mostly: those arrive that are not there, and those finish that run."""
    kind = draw.random()
    running = [number for number, request in service.there.items() if request in service.level.running]
    waiting = [number for number, request in service.there.items() if request not in service.level.running]
    if kind < 0.44:
        for number in draw.sample(range(service.slots), min(8, service.slots)):
            if number not in service.there:
                return f"{'arrive' if kind < 0.36 else 'try'} {number} {asked()}".encode()
    if kind < 0.70 and running:
        return f"finish {draw.choice(running)}{ran()}".encode()
    if kind < 0.72 and service.there and draw.random() < 0.5:
        return f"spent {draw.choice(running if running and draw.random() < 0.35 else [*service.there])} {draw.choice([0, 1, 999, 20_000, 10**12, draw.randrange(1, 100_000)])}".encode()
    if kind < 0.72 and waiting:
        return f"finish {draw.choice(waiting)}{ran()}".encode()
    if kind < 0.79 and service.there:
        return f"cancel {draw.choice(waiting if waiting and draw.random() < 0.8 else [*service.there])}".encode()
    if kind < 0.82:
        return f"limit {draw.choice([1, 2, 3, 5, 9, 10_000])}".encode()
    if kind < 0.90:
        return draw.choice([b"book", b"queues", b"metrics"])
    return b"close" if kind > 0.995 else fault_in(service)


def drawn(service, count, rest=b""):
    """A session of this many lines: what is read, with these bytes behind the last LF, and what is printed for each line."""
    lines, answers = [], []
    while len(lines) < count:
        for line in line_in(service).split(b"\n"):
            lines.append(line)
            answers.append(service.answer(line))
    return lines, answers


def as_bytes(lines):
    return b"".join(it + b"\n" for it in lines)


def is_of_metrics(line):
    return line.startswith(("# ", "apiserver_flowcontrol_"))


def compared(out):
    """The lines that were printed. Those of metrics are read, and stand there as types and samples; what their help says is free."""
    lines, block = [], []
    for line in out.decode(errors="replace").split("\n"):
        if not is_of_metrics(line):
            lines += [*block, line]
            block = []
            continue
        block.append(line)
        if line == "# EOF":
            try:
                types, samples = metrics_of(block)
                lines.append(f"metrics {sorted(types.items())} {sorted(samples.items())}")
            except BadMetrics as why:
                lines.append(f"bad metrics: {why}")
            block = []
    return [*lines, *block]


def first_difference(got, want):
    """Where two outputs differ first, with what stands around it."""
    if got == want:
        return "no difference"
    got, want = compared(got), compared(want)
    at = next((at for at, (one, two) in enumerate(zip(got, want)) if one != two), min(len(got), len(want)))
    return "no difference" if got == want else f"line {at + 1}: {got[at - 1 : at + 2]}, and not {want[at - 1 : at + 2]}"


def serve(content, level, *words, **how):
    """The status, the output and the errors of a session with this input."""
    return run(program, ["serve", file_of(json.dumps(level)), *words], content, **how)


class Conversation:
    """The program behind two pipes, and what it printed so far."""

    def __init__(self, level, *words, **how):
        self.process = subprocess.Popen(
            [program, "serve", file_of(json.dumps(level)), *words], stdin=subprocess.PIPE, stdout=subprocess.PIPE, stderr=subprocess.PIPE, bufsize=0, **how
        )
        self.told, self.ends = b"", time.monotonic() + MOST

    def send(self, content):
        self.process.stdin.write(content)

    def more(self):
        """Reads what is there, and waits for it; whether there was something before the end, and before it has waited too long."""
        if not select.select([self.process.stdout], [], [], max(0, self.ends - time.monotonic()))[0]:
            return False
        part = self.process.stdout.read(65_536)
        self.told += part
        return len(part) > 0

    def hear(self, lines=None):
        """Reads until this many lines stand there, or to the end."""
        while (lines is None or self.told.count(b"\n") < lines) and self.more():
            pass
        return self.told

    def end(self):
        """The end of its input: the status, all that it printed, and its errors."""
        if not self.process.stdin.closed:
            self.process.stdin.close()
        if not self.process.stdout.closed:
            self.hear()
        return self.left(), self.told, self.process.stderr.read()

    def left(self):
        """Its status once it has ended, or None where it does not end."""
        try:
            return self.process.wait(MOST)
        except subprocess.TimeoutExpired:
            self.process.kill()
            self.process.wait()
            return None

    def memory(self, what):
        """A line of what the system tells of its memory, in KiB."""
        with open(f"/proc/{self.process.pid}/status") as status:
            return next(int(line.split()[1]) for line in status if line.startswith(f"{what}:"))


# ---- random sessions, word for word

SESSIONS = int(os.environ.get("APF_SESSIONS", "2000" if is_built else "40"))
KINDS = ["arrive N execute", "arrive N queued", "arrive N queue-full", "arrive N closed", "arrive N concurrency-limit", "try N execute", "try N busy", "try N closed", "try N concurrency-limit"]
KINDS += ["finish N", "finish N not running", "spent N", "spent N not running", "cancel N cancelled", "cancel N execute", "limit N was", "close first", "close already", "level open", "level closed", "queue N waiting", "end", "# EOF"]
KINDS += ["dispatch N queue", "strike N queue", "fault N bad line", "fault N bad number", "fault N bad time", "fault N N is there", "fault N N is not there", "fault N this is not JSON", "fault N bad limit"]
KINDS += ["fault N truncated", "fault N the key", "fault N width is", "fault N cost is", "fault N hash"]
# words that are numbers
NUMBERS = re.compile(r"(?<![^ ])[0-9]+(?![^ ])")
# the test of the bound can tell: with less it would fail
BEYOND = "a queue whose requests take more than twice the largest cost more than those of one that is never empty"
seen, nearest = dict.fromkeys([*KINDS, "a number that is used again", BEYOND], 0), (0, "")
for number in range(SESSIONS):
    level, slots = config(), draw.choice([1, 2, 3, 5, 20, 100, 10_000])
    words = [] if slots == 10_000 and draw.random() < 0.5 else ["--slots", str(slots)]
    name = draw.choice(["level", "level", "global-default", "a.b-0"])
    words += [] if name == "level" else ["--name", name]
    charge = draw.choice(["time", "time", "seats"])
    words += [] if charge == "time" and draw.random() < 0.8 else ["--charge", charge]
    service = service_of(level, slots, name, charge)
    lines, answers = drawn(service, draw.choice([5, 20, 60, 150]))
    rest = draw.choice([b"", b"", b"", b"finish 0", b"x", b"\0"])
    content = as_bytes(lines) + rest
    want = "".join(f"{it}\n" for it in [service_of(level, slots, name, charge).first(), *sum(answers, [])] + ([f"fault {len(lines) + 1} truncated"] if rest else []) + service.book()).encode()
    status, out, err = serve(content, level, *words)
    tally.check(f"session {number} of {level}, {words}: {content}", (status, first_difference(out, want), err), (0, "no difference", b""))
    shapes = "".join(f"\n{it} " for it in {NUMBERS.sub("N", line) for line in want.decode().split("\n")})
    for kind in KINDS:
        seen[kind] += f"\n{kind} " in shapes
    seen["a number that is used again"] += len(service.requests) > len(set(service.number.values()))
    if charge == "time":
        sides = session_sides(service)
        tally.check(f"the bound of session {number} of {level}: {content}: {sides.line()}", sides.ahead <= sides.limit(), True)
        if os.environ.get("APF_BOUNDS"):
            print(f"session {number}: {sides.line()}")
        if sides.pair:
            nearest = max(nearest, (sides.ahead / sides.limit(), sides.line()))
        seen[BEYOND] += sides.ahead > 2 * sides.largest
print(f"of the sessions that came nearest: {nearest[1]}")
for what, count in seen.items():
    tally.check(f"many sessions have a line with {what}: {count}", count >= min(60, SESSIONS // 30), True)

# ---- a session in which each number is used once is a replay


def once(count):
    """A level, a script in which each of this many requests arrives once, and the lines of `serve` for it. Who finishes or is cancelled is there."""
    level, asks = config(), [json.loads(asked()) for _ in range(count)]
    service, script = service_of(level, count), []
    for it in asks:
        it.pop("cost", None)
    number = 0
    while number < count or draw.random() < 0.95:
        kind = draw.random()
        there = [*service.there]
        if kind < 0.5 and number < count:
            service.answer(f"arrive {number} {json.dumps(asks[number])}".encode())
            script.append(f"arrive {number}")
            number += 1
            continue
        line = f"{'finish' if kind < 0.85 else 'cancel'} {draw.choice(there)}" if there and kind < 0.96 else draw.choice(["limit 1", "limit 3", "limit 9", "close"] if kind > 0.99 else ["limit 2"])
        service.answer(line.encode())
        script.append(line)
    lines = [f"{line} {json.dumps(asks[int(line.split()[1])])}" if line.startswith("arrive") else line for line in script]
    return level, asks, script, [it.encode() for it in lines]


for number in range(max(10, SESSIONS // 20)):
    level, asks, script, lines = once(draw.choice([1, 5, 20, 50]))
    names = [files("config", json.dumps(level)), files("requests", json.dumps(asks)), files("script", "".join(f"{it}\n" for it in script))]
    # where no time is told, each request is expected to run as long as any other, so both ways serve in one order
    status, out, err = serve(as_bytes(lines), level, "--slots", str(len(asks)), "--charge", draw.choice(["time", "seats"]))
    transcript = run(other, ["replay", *names])
    tally.check(f"replay {number} as the model has it", transcript, replayed(json.dumps(level).encode(), json.dumps(asks).encode(), "".join(f"{it}\n" for it in script).encode()))
    tally.check(f"replay {number} of {level}: {lines}", (status, first_difference(out.partition(b"\n")[2], transcript[1]), err), (0, "no difference", b""))

# ---- a line at a time, all at once, in pieces of any size, and again: the same bytes

for number in range(max(4, SESSIONS // 200)):
    level, slots = config(), draw.choice([3, 20])
    service = service_of(level, slots)
    lines, answers = drawn(service, 150)
    at_once = serve(as_bytes(lines), level, "--slots", str(slots))
    talk = Conversation(level, "--slots", str(slots))
    count, is_answered = 1, True
    talk.hear(count)
    # a page of metrics has more lines than the model's, where their help has
    for line, told in zip(lines, answers):
        talk.send(line + b"\n")
        count += len(told)
        is_answered = is_answered and talk.hear(count).count(b"\n") == count
    tally.check(f"each answer comes before the next line, {number}", is_answered, True)
    tally.check(f"a line at a time and all at once, {number}", talk.end(), at_once)
    pieces = Conversation(level, "--slots", str(slots))
    content = as_bytes(lines)
    while content:
        size = draw.choice([1, 7, 100, 5_000])
        pieces.send(content[:size])
        content = content[size:]
    tally.check(f"in pieces, {number}", pieces.end(), at_once)
    tally.check(f"recorded, and fed again, {number}", serve(as_bytes(lines), level, "--slots", str(slots)), at_once)

# many lines at once, and more answers than a pipe holds
ONE = {"limit": 1, "queues": 1, "handSize": 1, "queueLengthLimit": 10_000}
turns = [b'arrive 0 {"hash":0}', b'arrive 1 {"hash":0}', b"finish 0", b"finish 1"] * 5_000
want = b"serve 1 slots 10000 limit 1 queues 1 hand 1 length 10000 queue\n" + b"arrive 0 execute\narrive 1 queued 0\nfinish 0\ndispatch 1 queue 0\nfinish 1\n" * 5_000
want += b"level open seats 0 waiting 0\nexecuted 10000 rejected 0 cancelled 0 undecided 0\nqueue-full 0 closed 0 concurrency-limit 0\nentered 5000 dispatched 5000 struck 0\n"
tally.check("20,000 lines at once", serve(as_bytes(turns), ONE), (0, want, b""))
# as many requests at once as there are numbers; the next number is none. The independent computation takes too long for that many
most = 10_000 if is_built else 300
content = as_bytes(b'arrive %d {"hash":0}' % number for number in range(most + 1))
want = b"serve 1 slots %d limit 1 queues 1 hand 1 length 10000 queue\narrive 0 execute\n" % most + b"".join(b"arrive %d queued 0\n" % number for number in range(1, most))
want += b"fault %d bad number\nlevel open seats 1 waiting %d\nexecuted 1 rejected 0 cancelled 0 undecided %d\n" % (most + 1, most - 1, most - 1)
want += b"queue-full 0 closed 0 concurrency-limit 0\nentered %d dispatched 0 struck 0\n" % (most - 1)
tally.check(f"{most} requests at once", serve(content, ONE, "--slots", str(most)), (0, want, b""))

# ---- rows by hand: lines of a level with 100 numbers where nothing else happens, and what is answered, where the line's own number is L

FLOW = "a flow is either hash alone, or both schema and distinguisher"
KEYS = "an arrival has schema, distinguisher, hash, width and cost"
HASH, SEATS = "it must be a whole number from 0 to 18446744073709551615", "it must be a whole number from 1 to 20000"
COST = "it must be a whole number from 1 to 4294967295"
BY_HAND = [
    *((it, "fault L bad line") for it in ("", " ", "close ", " close", "Close", "close 1", "closed", "books", "queue", "metrics ", "close\r")),
    *((it, "fault L bad line") for it in ("finish", "finish ", "finish 099", "finish 1 ", "finish 1 x", "finish 1 02", "finish 1  2", "finish 1 2 ", "finish 1 2 3", "finish  1", "cancel 1 2", "cancel 1x", "cancel -1", "cancel +1", "limit", "limit ", "limit 010", "limit 1.5", "limit 1e3", "finish\t1")),
    *((it, "fault L bad line") for it in ("arrive", "arrive ", "arrive 0", "arrive 0 ", "arrive 0 x", "arrive 0 []", "arrive 0  {}", "arrive  0 {}", "arrive 00 {}", "arrive 01 {}", "arrive +1 {}", "arrive -1 {}")),
    *((it, "fault L bad line") for it in ("arrive 0x {}", "tri 0 {}", "arrive 0\t{}", "arrive 100 x", "try 4294967297 []", "arrive {}", "arrive  {}", b"arrive 0 {\xff}")),
    *((it, "fault L bad number") for it in ("arrive 100 {}", "try 100 {", "finish 100", "cancel 100", "finish 4294967295", "finish 4294967296", "finish 4294967297", "finish 18446744073709551616")),
    *((it, "fault L bad number") for it in (f"arrive {26 * '9'} {{}}", "finish " + 65_529 * "9")),
    *((f"finish {it}", "fault L bad number") for it in ("100 1", "100 1000000000001")),
    *((f"finish 99 {it}", "fault L bad time") for it in ("1000000000001", "18446744073709551616", 65_000 * "9")),
    *((f"finish 99 {it}", "fault L 99 is not there") for it in ("0", "1000000000000")),
    *((f"limit {it}", "fault L bad limit") for it in ("0", "10001", "4294967296", "4294967297", 20 * "9")),
    ("x" * 65_536, "fault L bad line"),
    ("x" * 65_537, "fault L line too long"),
    ("finish 99", "fault L 99 is not there"),
    ("cancel 5", "fault L 5 is not there"),
    # what is wrong with an object
    ("arrive 0 {}", "fault L the flow is missing: it is either hash alone, or both schema and distinguisher"),
    ('arrive 0 {"width":0,"cost":0}', "fault L the flow is missing: it is either hash alone, or both schema and distinguisher"),
    *(
        (f"arrive 0 {{{it}}}", f"fault L {said}: {FLOW}")
        for it, said in (
            ('"hash":1,"schema":"a"', "hash stands beside schema"),
            ('"hash":1,"distinguisher":"a"', "hash stands beside distinguisher"),
            ('"hash":1,"schema":"a","distinguisher":"a"', "hash stands beside schema and distinguisher"),
            ('"schema":"a"', "schema stands without distinguisher"),
            ('"distinguisher":"a"', "distinguisher stands without schema"),
        )
    ),
    ('arrive 0 {"schema":1,"distinguisher":"a"}', "fault L schema is 1: it must be a text"),
    ('arrive 0 {"schema":"a","distinguisher":null}', "fault L distinguisher is null: it must be a text"),
    *((f'arrive 0 {{"hash":{it},"width":0}}', f"fault L hash is {shown}: {HASH}") for it, shown in (('"1"', '"1"'), ("-1", "-1"), ("1.5", "1.5"), ("18446744073709551616", "1.8446744073709552e+19"), ("[1]", "an array"))),
    *((f'arrive 0 {{"hash":1,"width":{it},"cost":0}}', f"fault L width is {it}: {SEATS}") for it in ("0", "20001", '"x"', "null", "1.0")),
    *((f'arrive 0 {{"hash":1,"cost":{it}}}', f"fault L cost is {shown}: {COST}") for it, shown in (("0", "0"), ("4294967296", "4294967296"), ("[1]", "an array"), ("{}", "an object"), ("true", "true"))),
    # the first unknown key by its bytes; one of 64 bytes, and one of 65
    ('arrive 0 {"zz":1,"aa":2,"hash":"x","width":0}', f'fault L the key "aa" is unknown: {KEYS}'),
    *((f'arrive 0 {{"hash":1,"{it}":1}}', f'fault L the key "{it}" is unknown: {KEYS}') for it in ("work", "arrivesAt", "", 64 * "k")),
    (f'arrive 0 {{"{65 * "k"}":1}}', f"fault L a key of 65 bytes is unknown: {KEYS}"),
    *(
        (f"arrive 0 {it}", f"fault L this is not JSON at column {said}")
        for it, said in (
            ("{", "1: the text ends too early"),
            ('{"hash":1,}', "11"),
            ('{"hash":1}x', "11"),
            ('{"hash":01}', "9"),
            ('{"hash":1} {}', "12"),
            ('{"hash":1e999}', "14: the number here is too large"),
            ('{"hash":"\\x"}', "9"),
            ('{"hash":1,"width":20000', "23: the text ends too early"),
            (128 * '{"a":', "637: more than 127 arrays and objects stand in one another"),
        )
    ),
    # arrivals, and what is asked: the width shows in the seats that a queue was given
    ('arrive 0 {"hash": 1}', "arrive 0 execute"),
    ('arrive 0 {"hash":1}', "fault L 0 is there"),
    ('try 0 {"hash":1', "fault L 0 is there"),
    ("finish 0", "finish 0"),
    ('try 99 {"hash":0}', "try 99 execute"),
    ("cancel 99", "cancel 99 execute"),
    ("finish 99", "finish 99"),
    ('arrive 12 { "hash" :18446744073709551615,"width":20000,"cost":20000 } ', "arrive 12 execute"),
    ('try 3 {"schema":"global-default","distinguisher":"alice"}', "try 3 busy"),
    ('arrive 1 {"hash":2,"hash":3,"width":2,"width":7}\r', "arrive 1 queued 0"),
    ('arrive 2 {"cost":3,"hash":1,"width":7}', "arrive 2 queued 0"),
    (f'arrive 4 {{"hash":1,"width":5}}{(65_536 - 31) * " "}', "arrive 4 queued 0"),
    ("limit 10000", "limit 10000 was 1"),
    ("limit 1", "limit 1 was 10000"),
    ("queues", "queue 0 waiting 3 entered 3 service 0\nend"),
    # each is alone, being wider than the limit
    ("finish 12", "finish 12\ndispatch 1 queue 0"),
    ("queues", "queue 0 waiting 2 entered 3 service 7\nend"),
    ("finish 1", "finish 1\ndispatch 2 queue 0"),
    ("queues", "queue 0 waiting 1 entered 3 service 14\nend"),
    ("finish 2", "finish 2\ndispatch 4 queue 0"),
    ("queues", "queue 0 waiting 0 entered 3 service 19\nend"),
    ("close", "close first"),
    ("close", "close already"),
    ('arrive 5 {"hash":1}', "arrive 5 closed"),
    ("book", "level closed seats 5 waiting 0\nexecuted 6 rejected 1 cancelled 0 undecided 0\nqueue-full 0 closed 1 concurrency-limit 0\nentered 3 dispatched 3 struck 0"),
]
content = as_bytes(it.encode() if isinstance(it, str) else it for it, _ in BY_HAND)
want = [it.replace("fault L ", f"fault {number} ") for number, (_, it) in enumerate(BY_HAND, 1)]
status, out, err = serve(content, ONE, "--slots", "100", "--charge", "seats")
told, at = out.decode().split("\n"), 1
for (line, _), it in zip(BY_HAND, want):
    lines = it.split("\n")
    tally.check(f"the line {line[:200]!r}", told[at : at + len(lines)], lines)
    at += len(lines)
tally.check("the lines by hand", (status, out.decode(), err), (0, "\n".join([told[0], *want, *want[-1].split("\n"), ""]), b""))
tally.check("the lines by hand, by the model", session(service_of(ONE, 100, charge="seats"), content).split("\n")[1:-1], [*"\n".join(want).split("\n"), *want[-1].split("\n")])

# ---- what is charged, by hand: one seat, and the two flows of even and of odd hashes in a queue each

TWO = {"limit": 1, "queues": 2, "handSize": 1, "queueLengthLimit": 10}
LEARNT = [
    # nothing ran yet, so 10 ms are expected of a seat
    ('arrive 0 {"hash":0}', "arrive 0 execute"),
    ('arrive 1 {"hash":0,"width":3}', "arrive 1 queued 0"),
    ('arrive 2 {"hash":1,"cost":7}', "arrive 2 queued 1"),
    # the first flow took 300 ms. What waits keeps its cost. Who was dispatched is charged at its end what it took, whatever it cost
    ("finish 0 300000", "finish 0\ndispatch 2 queue 1"),
    ("finish 2 10000", "finish 2\ndispatch 1 queue 0"),
    ("queues", "queue 0 waiting 0 entered 1 service 30000\nqueue 1 waiting 0 entered 1 service 10000\nend"),
    ("finish 1", "finish 1"),
    ("finish 1 5", "fault L 1 is not there"),
    # 300 ms are expected of the first flow, 10 ms of the second, and (300 + 10) / 2 of any other
    ('arrive 9 {"hash":8}', "arrive 9 execute"),
    ('arrive 0 {"hash":0}', "arrive 0 queued 0"),
    ('arrive 1 {"hash":1}', "arrive 1 queued 1"),
    ('arrive 2 {"hash":1,"width":2}', "arrive 2 queued 1"),
    ('arrive 3 {"hash":3}', "arrive 3 queued 1"),
    ("finish 9 0", "finish 9\ndispatch 1 queue 1"),
    ("finish 1", "finish 1\ndispatch 2 queue 1"),
    ("finish 2", "finish 2\ndispatch 3 queue 1"),
    ("queues", "queue 0 waiting 1 entered 2 service 30000\nqueue 1 waiting 0 entered 4 service 195000\nend"),
    # one that waits learns nothing
    ("finish 0 1", "finish 0 not running"),
    ("finish 3 1000000000000", "finish 3\ndispatch 0 queue 0"),
    ("queues", "queue 0 waiting 0 entered 2 service 330000\nqueue 1 waiting 0 entered 4 service 1000000040000\nend"),
    # a mean of 4,294,967,295, and of two of it: (300000 + (0 - 300000) / 2). Who took nothing took a microsecond of a seat
    ("finish 0 0", "finish 0"),
    ('arrive 9 {"hash":8}', "arrive 9 execute"),
    ('arrive 0 {"hash":0}', "arrive 0 queued 0"),
    ('arrive 1 {"hash":3,"width":2}', "arrive 1 queued 1"),
    ("finish 9", "finish 9\ndispatch 0 queue 0"),
    ("finish 0", "finish 0\ndispatch 1 queue 1"),
    ("queues", "queue 0 waiting 0 entered 3 service 180001\nqueue 1 waiting 0 entered 5 service 1004295007295\nend"),
]
BY_SEATS = [
    ('arrive 0 {"hash":0}', "arrive 0 execute"),
    ('arrive 1 {"hash":0,"width":3}', "arrive 1 queued 0"),
    ('arrive 2 {"hash":1,"cost":7}', "arrive 2 queued 1"),
    ("finish 0 300000", "finish 0\ndispatch 1 queue 0"),
    ("finish 1 1", "finish 1\ndispatch 2 queue 1"),
    ("queues", "queue 0 waiting 0 entered 1 service 3\nqueue 1 waiting 0 entered 1 service 1\nend"),
]
SPENT = [
    ('arrive 0 {"hash":0}', "arrive 0 execute"),
    # who took its seats as it came is never charged
    ("spent 0 5", "spent 0"),
    ('arrive 1 {"hash":0,"cost":100}', "arrive 1 queued 0"),
    ('arrive 2 {"hash":1,"cost":200}', "arrive 2 queued 1"),
    ('arrive 3 {"hash":1,"cost":1}', "arrive 3 queued 1"),
    ("spent 1 5", "spent 1 not running"),
    ("finish 0 1000", "finish 0\ndispatch 1 queue 0"),
    # what is less than the charge changes nothing, and what is more is charged now
    ("spent 1 50", "spent 1"),
    ("queues", "queue 0 waiting 0 entered 1 service 100\nqueue 1 waiting 2 entered 2 service 0\nend"),
    ("spent 1 300", "spent 1"),
    ("queues", "queue 0 waiting 0 entered 1 service 300\nqueue 1 waiting 2 entered 2 service 0\nend"),
    ('arrive 4 {"hash":0,"cost":1}', "arrive 4 queued 0"),
    # at its end it is charged what it took, less here; the queue's next one would be done at 251, and the other queue's at 200, then at 41
    ("finish 1 250", "finish 1\ndispatch 2 queue 1"),
    ("finish 2 40", "finish 2\ndispatch 3 queue 1"),
    ("finish 3 1000", "finish 3\ndispatch 4 queue 0"),
    ("spent 9 1", "fault L 9 is not there"),
    ("spent 10 1", "fault L bad number"),
    ("spent 10 1000000000001", "fault L bad number"),
    ("spent 4 1000000000001", "fault L bad time"),
    *((it, "fault L bad line") for it in ("spent 4", "spent 4 ", "spent 4 01", "spent 4 1 ", "spent 4 1 2", "spent  4 1", "spent x 1", "spent 4 x", " spent 4 1", "spent 4 -1")),
    ("queues", "queue 0 waiting 0 entered 2 service 251\nqueue 1 waiting 0 entered 2 service 1040\nend"),
    # the most that is told of a time, of many seats
    ('arrive 5 {"hash":0,"width":20000}', "arrive 5 queued 0"),
    ("finish 4", "finish 4\ndispatch 5 queue 0"),
    ("spent 5 1000000000000", "spent 5"),
    ("queues", "queue 0 waiting 0 entered 3 service 70368744177915\nqueue 1 waiting 0 entered 2 service 1040\nend"),
]
SPENT_BY_SEATS = [
    ('arrive 0 {"hash":0}', "arrive 0 execute"),
    ('arrive 1 {"hash":0}', "arrive 1 queued 0"),
    ('arrive 2 {"hash":0}', "arrive 2 queued 0"),
    ('arrive 3 {"hash":1,"cost":2}', "arrive 3 queued 1"),
    ("finish 0 1000", "finish 0\ndispatch 1 queue 0"),
    ("spent 1 1000", "spent 1"),
    # were what it took charged, the other queue would be next
    ("finish 1 1000", "finish 1\ndispatch 3 queue 1"),
]
for by, rows in (("time", LEARNT), ("seats", BY_SEATS), ("time", SPENT), ("seats", SPENT_BY_SEATS)):
    content = as_bytes(it.encode() for it, _ in rows)
    want = [it.replace("fault L ", f"fault {number} ") for number, (_, it) in enumerate(rows, 1)]
    status, out, err = serve(content, TWO, "--slots", "10", "--charge", by)
    told = "\n".join(want).split("\n")
    tally.check(f"charged by {by}, by hand", (status, out.decode().split("\n")[1:-5], err), (0, told, b""))
    tally.check(f"charged by {by}, by the model", session(service_of(TWO, 10, charge=by), content).split("\n")[1:-5], told)
tally.check("charged by time where nothing is said", serve(as_bytes(it.encode() for it, _ in LEARNT), TWO, "--slots", "10"), serve(as_bytes(it.encode() for it, _ in LEARNT), TWO, "--slots", "10", "--charge", "time"))
done = subprocess.run([program, "serve", file_of(json.dumps(TWO)), "--charge", "widths"], input=b"", capture_output=True, timeout=MOST)
tally.check("charged by nothing that is known", (done.returncode, done.stdout, done.stderr), (2, b"", b"apf: --charge must be time or seats\n"))

# the first line says the level: what a config of its limit alone has, and one of the most; a level that rejects has no queues
for text, said in (
    ('{"limit":1}', "1 queues 64 hand 8 length 50 queue"),
    ('{"limit":1,"queues":8}', "1 queues 8 hand 8 length 50 queue"),
    ('{"limit":10000,"queues":1024,"handSize":6,"queueLengthLimit":10000}', "10000 queues 1024 hand 6 length 10000 queue"),
    ('{"limit":10000,"queues":16,"handSize":15,"queueLengthLimit":10000,"limitResponse":"Queue"}', "10000 queues 16 hand 15 length 10000 queue"),
    ('{"limit":10,"queues":1,"limitResponse":"Reject"}', "10 reject"),
):
    done = subprocess.run([program, "serve", file_of(text)], input=b"", capture_output=True, timeout=MOST)
    tally.check(f"the first line of {text}", (done.returncode, done.stdout.decode().split("\n")[0]), (0, f"serve 1 slots 10000 limit {said}"))

# ---- long lines


def arrival(size):
    return b'arrive 0 {"hash":0' + b" " * (size - 19) + b"}"


for size, told in ((65_536, "arrive 0 execute"), (65_537, "fault 2 line too long"), (3_000_000, "fault 2 line too long")):
    service = service_of(ONE)
    lines = [b"book", arrival(size), b"finish 0", b"x" * size, b"queues"]
    want = session(service, as_bytes(lines))
    tally.check(f"a line of {size} bytes", (told in want.split("\n"), serve(as_bytes(lines), ONE)), (True, (0, want.encode(), b"")))
    # and one that is sent in two parts
    talk = Conversation(ONE)
    talk.send(lines[0] + b"\n" + lines[1][:40_000])
    talk.hear(5)
    talk.send(lines[1][40_000:] + b"\n" + as_bytes(lines[2:]))
    tally.check(f"a line of {size} bytes in two parts", talk.end(), (0, want.encode(), b""))
if is_built:
    talk = Conversation(ONE)
    talk.send(b"book\n")
    talk.hear(5)
    before = talk.memory("VmHWM")
    for _ in range(64):
        talk.send(b"x" * 1_000_000)
    talk.send(b"\nbook\n")
    talk.hear(10)
    tally.check("a line of 64 MB takes no memory", talk.memory("VmHWM") - before < 1_000, True)
    tally.check("a line of 64 MB", talk.end(), (0, session(service_of(ONE), b"book\n" + b"x" * 70_000 + b"\nbook\n").encode(), b""))

# ---- the end of the input

for name, content in [
    ("no input", b""),
    ("bytes behind the last LF", b'arrive 0 {"hash":0}\narrive 1 {"hash":0}\nfinish 0'),
    ("a command without an LF", b"book"),
    ("who waits at the end", b'arrive 0 {"hash":0}\narrive 1 {"hash":0}\nclose\n'),
    ("an LF alone", b"\n"),
]:
    tally.check(name, serve(content, ONE), (0, session(service_of(ONE), content).encode(), b""))

# a client that dies in the middle of a line: its two pipes are closed at once
talk = Conversation(ONE)
talk.send(b'arrive 0 {"hash":0}\narrive 1 {"ha')
talk.hear(2)
talk.process.stdout.close()
tally.check("a client that dies in the middle of a line", talk.end()[::2], (1, b"apf: cannot write\n"))

# an output that is closed or full, whatever the signal of a broken pipe does
for name, does in (("ends", signal.SIG_DFL), ("ignored", signal.SIG_IGN)):
    how = {"restore_signals": False, "preexec_fn": lambda does=does: signal.signal(signal.SIGPIPE, does)}
    talk = Conversation(ONE, **how)
    talk.hear(1)
    talk.process.stdout.close()
    talk.send(b"book\n")
    tally.check(f"a closed output, SIGPIPE {name}: it ends though its input is open", talk.left(), 1)
    tally.check(f"a closed output, SIGPIPE {name}: what it says", talk.process.stderr.read(), b"apf: cannot write\n")
    reading, writing = os.pipe()
    os.close(reading)
    done = subprocess.run([program, "serve", file_of(json.dumps(ONE))], stdin=subprocess.DEVNULL, stdout=writing, stderr=subprocess.PIPE, timeout=MOST, **how)
    os.close(writing)
    tally.check(f"an output that was never open, SIGPIPE {name}", (done.returncode, done.stderr), (1, b"apf: cannot write\n"))
with open("/dev/full", "wb") as full:
    done = subprocess.run([program, "serve", file_of(json.dumps(ONE))], stdin=subprocess.DEVNULL, stdout=full, stderr=subprocess.PIPE, timeout=MOST)
tally.check("a full disk", (done.returncode, done.stderr), (1, b"apf: cannot write\n"))

# a client that never reads: the process stands still, and takes no more of its input
talk = Conversation(ONE)
talk.hear(1)
before = talk.memory("VmRSS")
os.set_blocking(talk.process.stdin.fileno(), False)
taken, still = 0, 0
# it stands still where nothing was taken for half a second
while still < 10 and taken < 100_000_000 and talk.process.poll() is None:
    try:
        part = os.write(talk.process.stdin.fileno(), b"metrics\n" * 512)
        taken, still = taken + part, 0
    except BlockingIOError:
        still += 1
        time.sleep(0.05)
tally.check(f"a client that never reads: {taken} bytes are taken", (talk.process.poll(), taken < 1_000_000), (None, True))
if is_built:
    tally.check("a client that never reads: the process does not grow", talk.memory("VmRSS") - before < 1_000, True)
talk.process.kill()
tally.check("a client that never reads: it can be killed", talk.left(), -signal.SIGKILL)

# ---- configs and words

for text in ('{"limit":0}', "{}", "[]", "", '{"limit":1,"queues":4}', '{"limit":1,"color":1}', '{"limit":1,"queues":1024,"handSize":15}', '{"limit":1,"limitResponse":"None"}', " " * 65_537):
    path = files("bad", text)
    # the line of the fault, and behind it the one that explains it
    status, explained, line = answer([path, "requests", "script"], [text.encode(), b"[]", b""])
    tally.check(f"the config {text[:40]}", (run(program, ["serve", path]), status), ((1, b"", line + explained), 1))
ABSENT, FOLDER = "there is no such file", "it is a folder"
for path, why in ((os.path.join(files.folder.name, "missing"), ABSENT), (files.folder.name, FOLDER), ("", ABSENT)):
    tally.check(f"the config at {path}", run(program, ["serve", path]), (1, b"", f"apf: cannot read config: {path}: {why}\n".encode()))
good = files("good", json.dumps(ONE))
for words in (["--slots", "0"], ["--slots", "10001"], ["--slots", "-1"], ["--slots", "x"], ["--slots", ""], ["--slots", "1.5"], ["--slots", "4294967297"], ["--slots"], ["--nonsense"], ["more"]):
    status, out, err = run(program, ["serve", good, *words])
    tally.check(f"serve {words}", (status, out, len(err) > 0), (2, b"", True))
for name in ("", "A", "a_b", "a b", "a\n", 'a"', "a\\", "\u00e4", "a" * 254):
    status, out, err = run(program, ["serve", good, "--name", name])
    tally.check(f"serve --name {name!r}", (status, out, len(err) > 0), (2, b"", True))
status, out, err = run(program, ["serve"])
tally.check("serve without a config", (status, out, len(err) > 0), (2, b"", True))
rejects = {"limit": 7, "limitResponse": "Reject", "queues": 3}
tally.check("the first line of a level that rejects", serve(b"", rejects, "--slots", "1")[1].split(b"\n")[0], b"serve 1 slots 1 limit 7 reject")
tally.check("the first line of a level that queues", serve(b"", {"limit": 7}, "--slots", "10000")[1].split(b"\n")[0], b"serve 1 slots 10000 limit 7 queues 64 hand 8 length 50 queue")

# ---- metrics: what kube-apiserver calls them, and numbers that are counted here by hand

TYPES = {f"apiserver_flowcontrol_{it}": "gauge" for it in ("current_inqueue_requests", "current_executing_requests", "current_executing_seats", "current_limit_seats")}
TYPES |= {f"apiserver_flowcontrol_{it}": "counter" for it in ("dispatched_requests_total", "rejected_requests_total")}
# 0 executes on 3 seats with 2, 1 and 2 wait, 3 finds the queue full, 1 is cancelled, 4 is tried in vain, 5 comes late; 0 ends, and 2 is dispatched
lines = [b'arrive 0 {"hash":0,"width":2}', b'arrive 1 {"hash":0,"width":3}', b'arrive 2 {"hash":0,"width":3}', b'arrive 3 {"hash":0}', b"cancel 1", b'try 4 {"hash":0}']
lines += [b"limit 5", b"close", b'arrive 5 {"hash":0}']
numbers = {"current_inqueue_requests": 0, "current_executing_requests": 2, "current_executing_seats": 5, "current_limit_seats": 5, "dispatched_requests_total": 2}
reasons = {"queue-full": 1, "concurrency-limit": 0, "closed": 1, "cancelled": 1}
for name in ("level", "global-default", "a" * 253):
    label = ("priority_level", name)
    out = serve(as_bytes([*lines, b"metrics"]), {"limit": 3, "queues": 1, "handSize": 1, "queueLengthLimit": 2}, *([] if name == "level" else ["--name", name]))[1].decode().split("\n")
    block = [it for it in out if is_of_metrics(it)]
    want = {(f"apiserver_flowcontrol_{key}", (label,)): value for key, value in numbers.items()}
    want |= {("apiserver_flowcontrol_rejected_requests_total", (label, ("reason", reason))): value for reason, value in reasons.items()}
    try:
        tally.check(f"the metrics of {name[:20]}", metrics_of(block), (TYPES, want))
    except BadMetrics as why:
        tally.check(f"the metrics of {name[:20]}", str(why), "the text format")
    tally.check(f"no name has an empty help, {name[:20]}", all(it.split(" ", 3)[3].strip() for it in block if it.startswith("# HELP")), True)

# ---- the client of docs/SERVE.md in many threads: nobody is lost, and no more execute than there are seats

with open(os.path.join(TOP, "docs", "SERVE.md"), encoding="utf-8") as page:
    client = {"__name__": "client"}
    exec(re.search(r"^```python client\.py\n(.*?)^```$", page.read(), re.M | re.S)[1], client)
level = client["Level"](program, "serve", files("config", json.dumps({"limit": 3, "queues": 8, "handSize": 2, "queueLengthLimit": 2})), slots=20)
inside, most, ends, lock = 0, 0, [], threading.Lock()


def visitor(user):
    """One user's requests, one after another. Some have no patience."""
    global inside, most
    for number in range(20):
        try:
            with level.seat(user, 0.001 if number % 5 == 4 else MOST):
                with lock:
                    inside += 1
                    most = max(most, inside)
                time.sleep(0.002)
                with lock:
                    inside -= 1
                    ends.append("execute")
        except PermissionError as why:
            ends.append(str(why).split()[0])
        except queue.Empty:
            # who has no patience may find no number free, since there are more threads than numbers
            if number % 5 != 4:
                raise
            ends.append("no number")


threads = [threading.Thread(target=visitor, args=(f"user-{number}",), daemon=True) for number in range(25)]
for thread in threads:
    thread.start()
for thread in threads:
    thread.join(2 * MOST)
tally.check("the client in 25 threads: each request has an end, and no more execute than there are seats", (len(ends), most, level.end()), (500, 3, 0))
tally.check("the client in 25 threads: what they heard", set(ends) - {"cancelled", "queue-full", "no number"}, {"execute"})

# ---- many requests through a hundred numbers

REQUESTS = int(os.environ.get("APF_REQUESTS", "300000"))
# on ten seats and ten queues, so that each turn leaves the level as it was: ten execute, and the others wait, each in the queue of its last digit; one is
# tried in vain, and one comes twice. The last ten are cancelled, and the others are served in the order of their numbers
FAIR = {"limit": 10, "queues": 10, "handSize": 1, "queueLengthLimit": 9}
TURN = [*(b'arrive %d {"hash":%d,"width":1}' % (number, number) for number in range(99)), b'try 99 {"hash":9}', b'arrive 99 {"hash":99}', b'arrive 99 {"hash":0,"width":"1"}', b"try 100 {}"]
TURN += [b"cancel %d" % number for number in range(90, 100)] + [b'arrive 99 {"hash":"0"}'] + [b"finish %d" % number for number in range(90)]
TOLD = [*(b"arrive %d execute" % number for number in range(10)), *(b"arrive %d queued %d" % (number, number % 10) for number in range(10, 99)), b"try 99 busy", b"arrive 99 queued 9"]
TOLD += [b"fault %d 99 is there", b"fault %d bad number", *(b"cancel %d cancelled\nstrike %d queue %d" % (number, number, number % 10) for number in range(90, 100))]
TOLD += [b'fault %d hash is "0": it must be a whole number from 0 to 18446744073709551615']
TOLD += [b"finish %d" % number + (b"\ndispatch %d queue %d" % (number + 10, number % 10) if number < 80 else b"") for number in range(90)]
FAULTS = (TURN.index(b'arrive 99 {"hash":0,"width":"1"}') + 1, TURN.index(b"try 100 {}") + 1, TURN.index(b'arrive 99 {"hash":"0"}') + 1)


def passed(turns):
    """This many turns: the status, whether each byte of the answers was right, and the process's memory after the first tenth and at the end."""
    talk = Conversation(FAIR, "--slots", "100")
    talk.ends = time.monotonic() + 20 * MOST
    talk.hear(1)
    is_right, memory, at_once = talk.told == b"serve 1 slots 100 limit 10 queues 10 hand 1 length 9 queue\n", [], 50
    talk.told = b""
    turn, told = as_bytes(TURN), as_bytes(TOLD)
    # it writes while the answers are read here
    def write():
        # where an answer is wrong, the process is ended below
        with contextlib.suppress(OSError):
            for _ in range(turns // at_once):
                talk.send(turn * at_once)

    writer = threading.Thread(target=write, daemon=True)
    writer.start()
    for part in range(turns // at_once):
        want = b"".join(told % tuple((part * at_once + one) * len(TURN) + line for line in FAULTS) for one in range(at_once))
        while len(talk.told) < len(want) and talk.more():
            pass
        is_right, talk.told = is_right and talk.told.startswith(want), talk.told[len(want) :]
        if part in (turns // at_once // 10, turns // at_once - 1):
            memory.append((talk.memory("VmData"), talk.memory("VmHWM")))
        if not is_right:
            talk.process.kill()
            break
    writer.join(MOST)
    return talk.end(), is_right, memory


if is_built:
    turns = REQUESTS // 100 // 50 * 50
    end, is_right, memory = passed(turns)
    print(f"{turns * 100} requests through 100 numbers: memory in KiB after a tenth and at the end: {memory}")
    book = b"level open seats 0 waiting 0\nexecuted %d rejected 0 cancelled %d undecided 0\n" % (turns * 90, turns * 10)
    book += b"queue-full 0 closed 0 concurrency-limit 0\nentered %d dispatched %d struck %d\n" % (turns * 90, turns * 80, turns * 10)
    tally.check("many requests: each answer, and the book", (is_right, end), (True, (0, book, b"")))
    tally.check("many requests: the memory in use", (memory[0][0] == memory[-1][0], memory[-1][1] - memory[0][1] < 100), (True, True))
tally.end()
