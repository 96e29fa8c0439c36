"""Input that comes in pieces, is interrupted, or fails; and output whose room ends behind some byte, of each command that writes what it made piece by piece."""

import errno
import json
import os
import random
import resource
import subprocess
import sys

sys.path.insert(0, os.path.join(os.path.dirname(os.path.abspath(__file__)), "lib"))
import simulation
from audits import NOON, time_text
from harness import Files, Tally, build, run
from judge import config_of
from picture import Picture
from refusing import shim
from simulation import Run
from trace import TraceFault, trace_of

tally = Tally()
program = build()
files = Files()
# the same draws each time; APF_SEED draws others
seed = int(os.environ.get("APF_SEED", "1040"))
draw = random.Random(seed)
print(f"seed {seed}")
preloaded = shim(files, "pieces")
CONFIG = b'{"limit":2,"queues":4,"handSize":2,"queueLengthLimit":2}'
config = files("config", CONFIG)

# ---- a trace in pieces


def in_pieces(words, content, each, fails_at=None, error=errno.EIO):
    """What is printed of a standard input that gives at most so many bytes at a time, and of which one read may fail."""
    how = {"LD_PRELOAD": preloaded, "APF_EACH": str(each), **({"APF_FAILS_AT": str(fails_at), "APF_ERROR": str(error)} if fails_at else {})}
    return run(program, words, content, env={**os.environ, **how})


def fates(content, *how):
    """The arrivals and the lines of the requests of a trace, in their order."""
    status, out, err = in_pieces(["fates", config, "-", "0"], content, *how)
    fields = [line.split(" ") for line in out.decode().splitlines()[1:]]
    return status, [(int(it[2]), int(it[0]) + 1) for it in fields], err


def trace_at(*times):
    return "".join(f'{{"hash":7,"runsFor":1,"arrivesAt":{it}}}\n' for it in times).encode()


tally.check("no lines", fates(b"", 9), (0, [], b""))
for each in (1, 2, 7, 100_000):
    tally.check(f"late lines come in order, {each} bytes at a time", fates(trace_at(50, 30, 40, 30, 60), each), (0, [(30, 2), (30, 4), (40, 3), (50, 1), (60, 5)], b""))
tally.check("a line later", fates(trace_at(50, 30, 40, 29, 60), 9), (0, [(29, 4), (30, 2), (40, 3), (50, 1), (60, 5)], b""))
for number in range(120):
    times = [draw.randrange(30) for _ in range(number % 40)]
    each = draw.choice([1, 2, 7, 31, 31, 1000])
    tally.check(f"arrivals at {times}, {each} bytes at a time", fates(trace_at(*times), each), (0, sorted(zip(times, range(1, len(times) + 1))), b""))

# ---- the first fault, and its line

GOOD = b'{"hash":1,"arrivesAt":2,"runsFor":3}'


def refused(content, each, number, line):
    """A trace is refused for this fault at this line, and nothing is printed of it."""
    try:
        said = trace_of(content, in_pieces=True)
    except TraceFault as fault:
        said = str(fault)
    name = f"{len(content)} bytes that end with {content[-60:]!r}, {each} at a time"
    tally.check(f"the judge of {name}", said[: len(f"apf: trace fault {number} at line {line}: ")], f"apf: trace fault {number} at line {line}: ")
    tally.check(name, in_pieces(["hands", config, "-"], content, each), (1, b"", f"{said}\n".encode()))


for line, number in (
    (b"\n", 3),
    (GOOD, 11),
    (b'{"hash":1', 3),
    (b"[]\n", 4),
    (b'{"has":1}\n', 5),
    (b'{"hash":1}\n{', 6),
    (b'{"arrivesAt":2}\n', 7),
    (b'{"arrivesAt":2,"runsFor":3}\n', 8),
    (b'{"hash":1,"arrivesAt":2,"runsFor":3,"width":0}\n', 9),
    (b'{"hash":1,"arrivesAt":2,"runsFor":3,"cost":0}\n', 10),
):
    for each in (1, 100):
        refused(2 * (GOOD + b"\n") + line, each, number, 3)
tally.check("a line of 65,536 bytes", fates(GOOD.ljust(65_536) + b"\n", 30_000), (0, [(2, 1)], b""))
for length in (65_537, 65_600, 200_000):
    for end in (b"", b"\n"):
        refused(GOOD.ljust(length) + end, 30_000, 2, 1)

# ---- a read that is interrupted is tried again, and one that fails ends it

THREE = b"".join(json.dumps(it, separators=(",", ":")).encode() + b"\n" for it in (
    {"schema": "a", "distinguisher": "b", "arrivesAt": 2, "runsFor": 3},
    {"hash": 1, "arrivesAt": 1, "runsFor": 3},
    {"schema": "a", "distinguisher": "c", "arrivesAt": 2, "runsFor": 3},
))
ORDER = [(1, 2), (2, 1), (2, 3)]
tally.check("the third read is interrupted", fates(THREE, 20, 3, errno.EINTR), (0, ORDER, b""))
for fails_at in range(1, 70):
    tally.check(f"read {fails_at} is interrupted", fates(THREE, 2, fails_at, errno.EINTR), (0, ORDER, b""))
    got = in_pieces(["hands", config, "-"], THREE, 2, fails_at)
    tally.check(f"read {fails_at} fails", got, (1, b"", b"apf: cannot read trace: standard input: the system can't read it\n"))

# ---- output whose room ends: what has room is written


def with_room(words, count, content=b""):
    """The status, what stands in a file that may have so many bytes, and the errors."""
    limits = resource.getrlimit(resource.RLIMIT_FSIZE)
    given, path = files("input", content), files("output", b"")
    with open(given, "rb") as reading, open(path, "wb") as writing:
        resource.setrlimit(resource.RLIMIT_FSIZE, (count, limits[1]))
        try:
            # Python ignores the signal of a file that is too large, and so does what it starts here
            process = subprocess.Popen([program, *words], stdin=reading, stdout=writing, stderr=subprocess.PIPE, restore_signals=False)
        finally:
            resource.setrlimit(resource.RLIMIT_FSIZE, limits)
        err = process.communicate(timeout=60)[1]
    with open(path, "rb") as file:
        return process.returncode, file.read(), err


def judged(name, words, want, counts=(), content=b""):
    """With room for none, for some, for all but one, and for all of the bytes that are to be written."""
    for count in (0, 1, 3, 20, *counts, len(want) - 1):
        tally.check(f"{name} with room for {count} bytes", with_room(words, count, content), (1, want[:count], b"apf: cannot write\n"))
    tally.check(f"{name} with room for all", with_room(words, len(want), content), (0, want, b""))


NAMED = b'{"schema":"users","distinguisher":"alice","arrivesAt":0,"runsFor":0}\n{"hash":7,"arrivesAt":0,"runsFor":0}\n'
named = files("named", NAMED)
judged("requests", ["requests", named], b'[\n{"schema":"users","distinguisher":"alice"},\n{"hash":7}\n]\n')
level, requests = config_of(CONFIG), trace_of(NAMED)
judged("hands", ["hands", config, named], "".join(f"{it}\n" for it in simulation.hands(level, requests)).encode())
judged("hands of alice", ["hands", config, named, "--flow", "alice"], "".join(f"{it}\n" for it in simulation.hands_of(level, requests, "alice")).encode())
ONE = b'{"hash":1,"arrivesAt":0,"runsFor":10}\n'
text = Picture(Run(level, trace_of(ONE), 90)).text().encode()
judged("a picture", ["picture", config, files("one", ONE), "90"], text, range(61, len(text), 61))

# the line of a request of an audit log: names with each kind of escape, the latest arrival, and seats that only the server's own log knows
NAME, USER = 'a"b\\\n\x01\u00e9', "\t/\x7f"
SHOWN = '{"schema":"a\\"b\\\\\\n\\u0001\u00e9","distinguisher":"\\t/\\u007f","arrivesAt":%d,"runsFor":7%s}\n'


def event_at(time, **more):
    instants = {"requestReceivedTimestamp": time_text(NOON + time), "stageTimestamp": time_text(NOON + time + 7)}
    return json.dumps({"stage": "ResponseComplete", "verb": "get", "user": {"username": USER}, "objectRef": {"resource": "pods", "namespace": "x"}, **instants, **more}) + "\n"


log = files("log", event_at(0) + event_at(10**12, auditID="late"))
judged("trace", ["trace", log, NAME], (SHOWN % (0, "") + SHOWN % (10**12, "")).encode())
rules = [{"subjects": [{"kind": "User", "user": {"name": "*"}}], "resourceRules": [{**dict.fromkeys(("verbs", "apiGroups", "resources", "namespaces"), ["*"]), "clusterScope": True}]}]
spec = {"priorityLevelConfiguration": {"name": "catch-all"}, "distinguisherMethod": {"type": "ByUser"}, "rules": rules}
objects = files("objects", json.dumps({"kind": "FlowSchema", "apiVersion": "flowcontrol.apiserver.k8s.io/v1", "metadata": {"name": NAME}, "spec": spec}))
server = files("server", 'I1125 1 httplog.go:132] "HTTP" audit-ID="late" apf_iseats=10000\n')
words = ["cluster", objects, log, "0", "--http-log", server, "--level", "catch-all", "--trace"]
want = (SHOWN % (0, "") + SHOWN % (10**12, ',"width":10000')).encode()
judged("the trace of a level", words, want, range(2, len(want)))
one_seat = files("one-seat", event_at(0) + event_at(5))
tally.check("of one seat", run(program, ["trace", one_seat, "a"]), (0, b'{"schema":"a","distinguisher":"\\t/\\u007f","arrivesAt":0,"runsFor":7}\n{"schema":"a","distinguisher":"\\t/\\u007f","arrivesAt":5,"runsFor":7}\n', b""))

# a live level: an answer of several lines, and a fault
served = b"serve 1 slots 1 limit 2 queues 4 hand 2 length 2 queue\nend\nfault 2 line too long\n"
served += b"level open seats 0 waiting 0\nexecuted 0 rejected 0 cancelled 0 undecided 0\nqueue-full 0 closed 0 concurrency-limit 0\nentered 0 dispatched 0 struck 0\n"
answered = range(served.index(b"end\n"), served.index(b"level open"))
judged("a live level", ["serve", config, "--slots", "1"], served, answered, b"queues\n" + b"x" * 70_000 + b"\n")
tally.end()
