"""What is refused of the second cluster that `cluster` runs beside the first, on the built program: each line of a change, by what docs/FORMATS.md says of it; the
order in which files and changes are judged; and what no second cluster goes with."""

import json
import os
import subprocess
import sys

HERE = os.path.dirname(os.path.abspath(__file__))
sys.path.insert(0, os.path.join(HERE, "lib"))
from harness import TOP, Files, Tally, build, run

tally = Tally()
program = build()
files = Files()
OBJECTS = os.path.join(TOP, "examples", "cluster", "objects.json")
LOG = os.path.join(TOP, "examples", "audit", "audit.log")

# ---- objects: a level that queues and borrows without a limit, one that rejects, and a schema that dangles

API = {"apiVersion": "flowcontrol.apiserver.k8s.io/v1"}


def level(name, **limited):
    return {**API, "kind": "PriorityLevelConfiguration", "metadata": {"name": name}, "spec": {"type": "Limited", "limited": limited}}


def schema(name, of, **spec):
    return {**API, "kind": "FlowSchema", "metadata": {"name": name}, "spec": {"priorityLevelConfiguration": {"name": of}, **spec}}


def cluster_file(name, *items):
    return files(name, json.dumps({"kind": "List", "items": [*items]}))


QUEUE, REJECT = {"limitResponse": {"type": "Queue"}}, {"limitResponse": {"type": "Reject"}}
small = cluster_file("small.json", level("low", **QUEUE), level("high", **REJECT), level("none", **QUEUE, borrowingLimitPercent=5), schema("all", "low"), schema("lost", "gone"))
# and one of which each number is known: a level that queues, one that rejects, whose name has a dot, and three schemas, one of which dangles
known = cluster_file(
    "known.json",
    level("workload-low", nominalConcurrencyShares=100, lendablePercent=90, limitResponse={"type": "Queue", "queuing": {"queues": 128, "handSize": 6, "queueLengthLimit": 50}}),
    level("node.high", nominalConcurrencyShares=40, borrowingLimitPercent=50, **REJECT),
    schema("service-accounts", "workload-low", matchingPrecedence=9000, distinguisherMethod={"type": "ByUser"}),
    schema("nodes", "node.high", matchingPrecedence=500),
    schema("lost", "gone", matchingPrecedence=700),
)
empty = files("audit.log", b"")
gone = f"{empty}.gone"


def changed(*texts, objects=small, log=empty, words=()):
    return run(program, ["cluster", objects, log, "1s", *words, *(word for it in texts for word in ("--set", it))])


def refused(text, reason, told=None, objects=small):
    """The change of this text is refused for this reason, whatever stands behind it."""
    want = (2, b"", f"apf: --set {told or text}: {reason}\n".encode())
    tally.check(f"refused: {text!r}", changed(text, objects=objects), want)
    tally.check(f"refused behind another: {text!r}", changed("user:bob.rate=1x", text, "no", objects=objects), want)


# ---- a text that is no change

KEY = "it must be LEVEL.shares, .lendable, .borrowing, .queues, .hand, .length, .response or .seats, schema:NAME.precedence, .level, .by or .rate, user:NAME.rate, or server.seats"
NUMBER = "a whole number below 4294967296, as 20, or one behind * or +, as *2 or +20"
RATE = "0, or a whole number below 4294967296 with x behind it, as 2x, or one behind * or +, as *2 or +1"
for text in ("", "low", "low.shares", "schema:all.level"):
    refused(text, "there is no =: it must be KEY=VALUE")
for text in ("low=5", "shares=1", "=", "low.share=5", "low.Shares=", "low.shares==1", "low.rate=1x", "server.rate=1x", "schema:all.shares=5", "schema:all.seats=1", "user:bob.shares=5", ".=1"):
    key = text.rpartition("=")[0]
    refused(text, f'there is no key "{key}": {KEY}')
for key in ("low.shares", "low.lendable", "low.queues", "low.hand", "low.length", "low.seats", "schema:all.precedence", "server.seats"):
    for value in ("", "x", "-1", "1.5", " 5", "1 ", "4294967296", "none", "*", "+-1", "++1", "2x"):
        refused(f"{key}={value}", f'{key} is "{value}": it must be {NUMBER}')
for value in ("", "None", "5%"):
    refused(f"low.borrowing={value}", f'low.borrowing is "{value}": it must be {NUMBER}, or none')
for value in ("", "queue", "Exempt"):
    refused(f"low.response={value}", f'low.response is "{value}": it must be Queue or Reject')
for value in ("", "ByUser", "nothing"):
    refused(f"schema:all.by={value}", f'schema:all.by is "{value}": it must be user, namespace or none')
for key in ("schema:all.rate", "user:bob.rate"):
    for value in ("", "1", "2", "00", "x", "*2x", "-1x", "1.5x", "none"):
        refused(f"{key}={value}", f'{key} is "{value}": it must be {RATE}')

# ---- what is not there, and what has no such setting

LISTS = "apf objects lists those of a cluster"
for setting in ("shares=5", "lendable=5", "borrowing=none", "queues=5", "hand=5", "length=5", "response=Queue", "seats=5"):
    refused(f"other.{setting}", f'there is no level "other": {LISTS}')
refused("schema:all.level=other", f'there is no level "other": {LISTS}')
refused("schema:lost.level=other", f'there is no level "other": {LISTS}')
for setting in ("precedence=5", "by=user", "rate=2x", "level=low", "level=other"):
    refused(f"schema:other.{setting}", f'there is no schema "other": {LISTS}')
for setting in ("precedence=5", "by=user", "rate=2x"):
    refused(f"schema:lost.{setting}", 'the level of the schema "lost" is not there: only its level can be changed')
for setting in ("borrowing=5", "borrowing=none", "queues=5", "hand=5", "length=5", "response=Reject"):
    refused(f"exempt.{setting}", 'the level "exempt" is exempt: only its shares, lendable and seats can be changed')
for setting in ("queues=5", "hand=5", "length=5"):
    refused(f"high.{setting}", 'the level "high" rejects, so it has no queues: with the response Queue it has some')
for value in ("*2", "+20"):
    refused(f"low.borrowing={value}", 'the level "low" borrows without a limit, so there is no number for * and +: it must be a whole number, or none')

# ---- numbers outside their bounds, also those that are meant by what stands there

SHARES = 2147483647
# what each number is called, and between which numbers it is
NAMED = {
    "shares": ("the number of the level's shares", 0, SHARES),
    "lendable": ("how many per cent of its nominal limit the level lends at most", 0, 100),
    "borrowing": ("how many per cent of its nominal limit the level borrows at most", 0, SHARES),
    "queues": ("the number of the level's queues", 1, 1024),
    "hand": ("the number of queues that a flow is dealt", 1, 15),
    "length": ("the number of requests that may wait in a queue", 1, 10000),
    "seats": ("the nominal limit of the level", 0, 1000000),
    "precedence": ("the precedence of the schema", 1, 10000),
    "schema's rate": ("how often a request of the schema comes", 0, 1000),
    "user's rate": ("how often a request of the user comes", 0, 1000),
    "server's seats": ("the number of the server's seats", 1, 1000000),
}


def named(key):
    name, _, setting = key.rpartition(".")
    kind = "server" if key == "server.seats" else name.partition(":")[0] if setting == "rate" else ""
    return NAMED[f"{kind}'s {setting}" if kind else setting]


def outside(text, number, objects=small):
    """The change of this text would make a number that is not between its bounds."""
    what, low, high = named(text.rpartition("=")[0])
    refused(text, f"{what} would be {number}: it must be a whole number from {low} to {high}", objects=objects)


for text, number in (
    ("low.shares=2147483648", SHARES + 1),
    ("low.shares=*4294967295", 30 * 4294967295),
    ("low.lendable=101", 101),
    ("none.borrowing=+2147483643", SHARES + 1),
    ("low.queues=0", 0),
    ("low.queues=*17", 64 * 17),
    ("low.hand=+8", 16),
    ("low.length=*0", 0),
    ("low.seats=1000001", 1000001),
    ("schema:all.precedence=+9001", 10001),
    ("schema:all.rate=1001x", 1001),
    ("user:bob.rate=*1001", 1001),
    ("server.seats=*0", 0),
):
    outside(text, number)
for text, number in (
    ("workload-low.shares=2147483648", 2147483648),
    ("workload-low.shares=*4294967295", 429496729500),
    ("workload-low.lendable=+11", 101),
    ("workload-low.queues=0", 0),
    ("workload-low.queues=*9", 1152),
    ("workload-low.hand=16", 16),
    ("workload-low.hand=4294967295", 4294967295),
    ("workload-low.length=10001", 10001),
    ("node.high.seats=1000001", 1000001),
    ("schema:nodes.precedence=0", 0),
    ("schema:nodes.precedence=+9501", 10001),
    ("schema:nodes.rate=+1000", 1001),
    ("user:ann.rate=1001x", 1001),
    ("server.seats=0", 0),
    ("server.seats=*1667", 1000200),
):
    outside(text, number, known)
for text in ("server.seats=*1666", "exempt.shares=5", "exempt.lendable=5"):
    tally.check(f"not refused: {text}", changed(text, objects=known)[::2], (0, b""))

# ---- which number stands there behind some changes: one more that adds to it, and goes beyond its bound, is told the sum. None stands for what the level has not


def stands(changes, key, number):
    what, low, high = named(key)
    name, _, setting = key.rpartition(".")
    reason = f"{what} would be {(number or 0) + high + 1}: it must be a whole number from {low} to {high}"
    if number is None:
        free = f'the level "{name}" borrows without a limit, so there is no number for * and +: it must be a whole number, or none'
        reason = free if setting == "borrowing" else f'the level "{name}" rejects, so it has no queues: with the response Queue it has some'
    text = f"{key}=+{high + 1}"
    tally.check(f"what stands at {key} behind {changes}", changed(*changes, text, objects=known), (2, b"", f"apf: --set {text}: {reason}\n".encode()))


SETTINGS = ("shares", "lendable", "borrowing", "queues", "hand", "length")
LOW, HIGH = (100, 90, None, 128, 6, 50), (40, 0, 50, None, None, None)
every = ["workload-low.shares=*2", "workload-low.lendable=+10", "workload-low.borrowing=25", "workload-low.borrowing=*4", "workload-low.queues=*8", "workload-low.hand=15"]
every.append("workload-low.length=10000")
queues = ["node.high.response=Queue", "node.high.hand=+1", "node.high.borrowing=none"]
same = [*queues, "workload-low.response=Queue"]
for changes, name, numbers in (
    ([], "workload-low", LOW),
    ([], "node.high", HIGH),
    (every, "workload-low", (200, 100, 100, 1024, 15, 10000)),
    (every, "node.high", HIGH),
    (queues, "node.high", (40, 0, None, 64, 9, 50)),
    (same, "workload-low", LOW),
    ([*same, "workload-low.response=Reject"], "workload-low", (100, 90, None, None, None, None)),
):
    for setting, number in zip(SETTINGS, numbers):
        stands(changes, f"{name}.{setting}", number)
more = ["workload-low.seats=+20"]
twice = [*more, "workload-low.seats=*2"]
often = ["user:ann.rate=3x", "schema:nodes.rate=2x", "user:bob.rate=0"]
oftener = [*often, "user:ann.rate=*5", "schema:nodes.rate=+8"]
for changes, numbers in (
    # 100, 40, 5 and no shares of 600 seats: 413.8, 165.5 and 20.7, rounded up
    ([], {"workload-low.seats": 414, "node.high.seats": 166, "catch-all.seats": 21, "exempt.seats": 0}),
    (more, {"workload-low.seats": 434, "node.high.seats": 166}),
    (twice, {"workload-low.seats": 868}),
    ([*twice, "server.seats=*2"], {"workload-low.seats": 868, "node.high.seats": 332}),
    (["workload-low.seats=0"], {"workload-low.seats": 0}),
    ([], {"schema:nodes.precedence": 500, "schema:service-accounts.precedence": 9000}),
    (["schema:nodes.by=namespace", "schema:nodes.precedence=+20"], {"schema:nodes.precedence": 520, "schema:service-accounts.precedence": 9000}),
    (["schema:lost.level=node.high"], {"schema:lost.precedence": 700}),
    (["schema:nodes.precedence=5"], {"schema:nodes.precedence": 5}),
    ([], {"user:ann.rate": 1, "schema:nodes.rate": 1}),
    (often, {"user:ann.rate": 3, "user:bob.rate": 0, "user:eve.rate": 1, "schema:nodes.rate": 2, "schema:service-accounts.rate": 1}),
    (oftener, {"user:ann.rate": 15, "schema:nodes.rate": 10}),
    ([*oftener, "user:ann.rate=1000x"], {"user:ann.rate": 1000, "schema:nodes.rate": 10}),
    (["user:ann.rate=*3", "user:bob.rate=0x"], {"user:ann.rate": 3, "user:bob.rate": 0}),
    # how a number is written
    (["workload-low.shares=200", "workload-low.queues=*2"], {"workload-low.shares": 200, "workload-low.queues": 256}),
    (["workload-low.length=+20", "workload-low.lendable=007"], {"workload-low.length": 70, "workload-low.lendable": 7}),
    (["node.high.borrowing=*0"], {"node.high.borrowing": 0}),
    (["server.seats=+100"], {"server.seats": 700}),
    # one after the other
    (["server.seats=5", "server.seats=*2"], {"server.seats": 10}),
    (["server.seats=*2", "server.seats=5"], {"server.seats": 5}),
):
    for key, number in numbers.items():
        stands(changes, key, number)
for texts, text, reason in ((("gone.shares=1", ""), "gone.shares=1", f'there is no level "gone": {LISTS}'), (("server.seats=7", ""), "", "there is no =: it must be KEY=VALUE")):
    tally.check(f"the first that is refused of {texts}", changed(*texts, objects=known), (2, b"", f"apf: --set {text}: {reason}\n".encode()))

# ---- characters that a terminal would obey

refused('a"\x1b\u202e.shares=5', 'there is no level "a\\"\\u001b\\u202e": ' + LISTS, told='a\\"\\u001b\\u202e.shares=5')
refused("low.shares=\x07", f'low.shares is "\\u0007": it must be {NUMBER}', told="low.shares=\\u0007")

# ---- the order

bad, lost = files("bad.json", b"{"), "other.shares=5"
tally.check("a patience before all", run(program, ["cluster", bad, empty, "soon", "--set", lost, "--against", gone])[1:], (b"", run(program, ["cluster", small, empty, "soon"])[2]))
for names in (["-", empty, "-"], [small, "-", "-"], ["-", "-", small]):
    got = run(program, ["cluster", *names[:2], "1s", "--against", names[2], "--set", lost])
    tally.check(f"standard input twice: {names}", got, (2, b"", b"apf: standard input is named twice\n"))
first = run(program, ["cluster", bad, empty, "1s"])
tally.check("the first objects", (first[0], first[2].startswith(b"apf: objects fault 1: ")), (1, True))
tally.check("the first objects before the others", changed(lost, objects=bad, words=["--against", gone]), first)
told = b"apf: these are the objects of --against: " + bad.encode() + b"\n"
tally.check("the others before a change", changed(lost, words=["--against", bad]), (1, b"", first[2] + told))
status, out, err = changed(lost, words=["--against", gone])
tally.check("others that are not there", (status, out, err), (1, b"", f"apf: cannot read objects: {gone}: there is no such file\n".encode()))
tally.check("a change before the log", changed(lost, log=gone)[0], 2)
tally.check("the log behind them", changed("low.shares=5", log=gone)[0], 1)
only = cluster_file("only.json", level("other", **QUEUE))
tally.check("a change is of the other cluster", changed(lost, words=["--against", only])[0], 0)
tally.check("and not of the first", changed("low.shares=5", words=["--against", only])[0], 2)

# ---- a level of the second cluster that can't be opened

status, out, err = changed("low.queues=3", "low.hand=5")
tally.check("a hand of more queues than there are", (status, out, err.startswith(b'apf: on the second cluster: the level "low" is not opened: ')), (1, b"", True))

# ---- a trace of a level, and a value that is missing

ONE = b"apf: --trace is of one cluster: it goes with neither --set nor --against\n"
for words in (["--set", "low.shares=5"], ["--against", small], ["--set", "no"], ["--against", gone]):
    got = run(program, ["cluster", gone, gone, "soon", "--level", "low", "--trace", *words])
    tally.check(f"a trace with {words}", got, (2, b"", ONE))
    got = run(program, ["cluster", gone, gone, "soon", "--level", "low", *words])
    tally.check(f"a level alone with {words}", got, (2, b"", b"apf: --level and --trace go together\n"))
for words in (["--set"], ["--against"], ["--against", small, "--against", small]):
    status, out, err = run(program, ["cluster", small, empty, "1s", *words])
    tally.check(f"no words: {words}", (status, out, err.startswith(b"error: ")), (2, b"", True))

# ---- objects from standard input, of which both clusters are made



def piped(words):
    with open(OBJECTS, "rb") as objects:
        done = subprocess.run([program, *words], stdin=objects, stdout=subprocess.PIPE, stderr=subprocess.PIPE)
    return done.returncode, done.stdout, done.stderr


for words in (["--set", "workload-low.shares=5"], ["--against", OBJECTS]):
    got = piped(["cluster", "-", LOG, "15s", *words])
    tally.check(f"objects from standard input: {words}", got, run(program, ["cluster", OBJECTS, LOG, "15s", *words]))
    tally.check(f"which are there: {words}", got[0], 0)
against = piped(["cluster", OBJECTS, LOG, "15s", "--against", "-"])
tally.check("the others from standard input", against, run(program, ["cluster", OBJECTS, LOG, "15s", "--against", OBJECTS]))

tally.end()
