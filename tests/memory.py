"""Each allocation of a command refused in turn: the answer is the one with ample memory, or out of memory, and no other. Of a longer run the large
allocations are refused. What `match --log` printed of a log's first lines stands where memory ends later. A live level ends without memory only before its
first line; behind that, a line whose object finds none is a fault."""

import json
import os
import subprocess
import sys

HERE = os.path.dirname(os.path.abspath(__file__))
sys.path.insert(0, os.path.join(HERE, "lib"))
from harness import Files, Tally, build, build_serving, run
from judge import config_of
from refusing import Refusing, shim
from serve import Service, session

tally = Tally()
program = build()
serving, is_built = build_serving()
files = Files()
preloaded = shim(files)
config = files("config", '{"limit":2,"queues":1,"handSize":1,"queueLengthLimit":10,"limitResponse":"Queue"}')
requests = files("requests", '[{"hash":0,"width":5},{"schema":"a","distinguisher":"b","work":3,"cancels":0,"closes":true}]')
script = files("script", "arrive 0\narrive 1\nfinish 0\nfinish 0\narrive 1\n")
bad = files("bad", "[{]")
# files of which `explain` has something to say: an unknown key, a hand that is too large, a width
unknown = files("unknown", '{"limit":2,"color":"red"}')
uneven = files("uneven", '{"limit":2,"queues":3}')
wide = files("wide", '[{"hash":0},{"hash":0,"width":20001}]')
WANT = (3, b"", b"apf: out of memory\n")
# each request fits, so that the book comes out so in every schedule
fit = files("fit", '[{"hash":0},{"hash":0,"work":9},{"hash":0}]')
# a trace that executes, waits, gives up and finds a full queue, by names and by hashes
trace = files(
    "trace",
    '{"schema":"a","distinguisher":"b","arrivesAt":0,"runsFor":9}\n'
    '{"hash":0,"arrivesAt":1,"runsFor":9,"width":2}\n'
    '{"hash":0,"arrivesAt":1,"runsFor":9,"width":5,"cost":1}\n',
)
tight = files("tight", '{"limit":1,"queues":1,"handSize":1,"queueLengthLimit":1}')
# events that are taken, with a wait and out of order, and one that is not
log = files(
    "log",
    '{"auditID":"b","stage":"ResponseComplete","verb":"get","user":{"username":"b"},"requestReceivedTimestamp":"2026-11-25T12:00:00.000002Z",'
    '"stageTimestamp":"2026-11-25T12:00:00.000009Z","annotations":{"apiserver.latency.k8s.io/apf-queue-wait":"3µs"}}\n'
    '{"stage":"ResponseComplete","verb":"list","user":{"username":"c"},"requestReceivedTimestamp":"2026-11-25T12:00:00.000001Z",'
    '"stageTimestamp":"2026-11-25T12:00:00.000009Z"}\n'
    '{"stage":"RequestReceived","verb":"get"}\n',
)
# the server's own lines: one of another request, which is held, and one that names another schema
servers = files("servers", "".join(f'I1125 12:00:00.000000 1 httplog.go:1] "HTTP" audit-ID="{it}" apf_fs="{it}" apf_iseats=2 apf_execution_time="3us"\n' for it in "ab"))
# objects with rules of each kind, and with a fault
cluster = os.path.join(HERE, "..", "examples", "cluster", "objects.json")
spoilt = files("spoilt", '{"kind":"FlowSchema","apiVersion":"flowcontrol.apiserver.k8s.io/v1","metadata":{"name":"a"},"spec":5}')
few = files(
    "few",
    '{"kind":"List","items":[{"apiVersion":"flowcontrol.apiserver.k8s.io/v1","kind":"PriorityLevelConfiguration","metadata":{"name":"low"},'
    '"spec":{"type":"Limited","limited":{"limitResponse":{"type":"Queue"}}}},'
    '{"apiVersion":"flowcontrol.apiserver.k8s.io/v1","kind":"FlowSchema","metadata":{"name":"all"},"spec":{"priorityLevelConfiguration":{"name":"low"},'
    '"distinguisherMethod":{"type":"ByUser"},"rules":[{"subjects":[{"kind":"User","user":{"name":"*"}}],"nonResourceRules":[{"verbs":["*"],"nonResourceURLs":["*"]}]}]}}]}',
)
drawn = os.path.join(files.folder.name, "drawn.svg")
changes = ["--set", "low.seats=1", "--set=schema:all.by=none", "--set", "schema:all.precedence=+1", "--set", "user:b.rate=9x", "--set", "schema:all.rate=2x"]
who = ["--user", "alice", "--group", "system:authenticated", "--group=dev", "--verb", "list"]
# an object on lines of its own, and an event, each in the place of a trace; and a trace in the place of objects
printed = files("printed", '{\n  "kind": "FlowSchema",\n  "metadata": {"name": "a"}\n}\n')
events = files("events", '{"kind":"Event","stage":"ResponseComplete","verb":"get"}\n')
cut = files("cut", '{"hash":0,"arrivesAt":0,"runsFor":0}\n{"hash":0')
roomy = files("roomy", '{"limit":3,"queues":1,"handSize":1,"queueLengthLimit":10}')


def refusals(words, ample):
    """What a run may answer that is refused memory: a worker needs some to start, and the first lines of a log may have been answered. A file that is written
    comes behind the lines."""
    workers = int(words[3]) if words[0] == "run" else 0
    lines = ample[1].splitlines(keepends=True) if "--log" in words else []
    before = [(WANT[0], b"".join(lines[:number]), WANT[2]) for number in range(1, len(lines) + 1)]
    before += [(WANT[0], ample[1], WANT[2])] if "--picture" in words else []
    return [WANT] + before + [(3, b"", b"apf: worker %d could not start\n" % number) for number in range(workers)]


for words, status in (
    (["hash", "a", "b"], 0),
    (["run", config, requests, "1"], 0),
    (["deal", "8", "3", "100"], 0),
    (["replay", config, requests, script], 0),
    (["services", config, requests, script], 0),
    (["waits", config, requests, script], 0),
    (["explain", config, requests, script], 0),
    (["run", config, requests, "1", "--rounds", "3"], 0),
    (["simulate", tight, trace, "0"], 0),
    (["simulate", tight, trace, "3"], 0),
    (["timeline", tight, trace, "3"], 0),
    (["fates", tight, trace, "3us"], 0),
    (["fates", tight, trace, "0.003ms"], 0),
    (["compare", tight, roomy, trace, "3us"], 0),
    (["requests", trace], 0),
    (["hands", tight, trace], 0),
    (["picture", tight, trace, "3"], 0),
    (["picture", tight, trace, "3", "--from", "1", "--to", "9"], 0),
    (["trace", log, "a"], 0),
    (["objects", cluster], 0),
    (["objects", spoilt], 1),
    (["match", cluster, *who, "--resource", "pods"], 0),
    (["match", cluster, "--log", log], 0),
    (["cluster", few, log, "5us"], 0),
    (["cluster", few, log, "5us", *changes], 0),
    (["cluster", few, log, "5us", "--http-log", servers], 0),
    (["cluster", few, log, "5us", "--set", "low.seats=2", "--warm-up", "1us", "--picture", drawn], 0),
    (["cluster", few, log, "5us", "--against", few, "--json", "--set", "low.response=Reject"], 0),
    (["cluster", few, log, "5us", "--set", "low.share=5"], 2),
    (["cluster", few, log, "5us", "--set", "high.seats=5"], 2),
    (["cluster", few, log, "5us", "--against", spoilt], 1),
    (["run", roomy, fit, "3"], 0),
    (["run", roomy, fit, "3", "--rounds", "3"], 0),
    (["run", roomy, fit, "64"], 0),
    (["run", roomy, fit, "64", "--rounds", "3"], 0),
    *([(["serve", tight], 0), (["serve", tight, "--slots", "0"], 2), (["serve", uneven], 1), (["serve", "missing"], 1)] if is_built else []),
    (["--version"], 0),
    (["--help"], 0),
    (["deal", "--help"], 0),
    (["deal", "8", "3", "x"], 2),
    (["deal", "8", "9", "0"], 2),
    (["fates", tight, trace, "15 s"], 2),
    (["nonsense"], 2),
    (["replay", config, bad, script], 1),
    (["replay", config, requests, bad], 1),
    (["replay", config, requests, "missing"], 1),
    (["explain", unknown, requests, script], 1),
    (["explain", uneven, requests, script], 1),
    (["explain", config, bad, script], 1),
    (["explain", config, wide, script], 1),
    (["explain", config, requests, bad], 1),
    (["explain", config, "missing", script], 1),
    (["simulate", tight, cut, "0"], 1),
    (["simulate", tight, printed, "0"], 1),
    (["hands", tight, printed], 1),
    (["requests", events], 1),
    (["objects", events], 1),
    (["hands", tight, "missing"], 1),
    (["compare", tight, uneven, trace, "3"], 1),
):
    name = " ".join(os.path.basename(word) for word in words)
    ample = run(program, words)
    tally.check(f"{name} with ample memory", (ample[0], ample != WANT), (status, True))
    number, ends, refused, may_be = 0, 0, [], refusals(words, ample)
    with Refusing(files, preloaded, program, words) as runs:
        while ends == 0 and number < 10_000:
            number += 1
            got, was_refused = runs.without(number)
            ends = not was_refused
            refused += [got] if got in may_be else []
            tally.check(f"{name} without allocation {number}", got, got if got == ample or got in may_be else WANT)
    tally.check(f"{name} was refused memory, and ends with a run that meets no refusal", (WANT in refused, ends, got), (True, True, ample))
    if words[0] == "run":
        tally.check(f"{name}: each worker could not start in one of them", {*refused} == {*may_be}, True)

# a longer run: of a flow that has more than 10,000 waits these are counted from then on, and the list of who waits, the rows and the lines that are held
# back grow. The allocations of at least 16 KiB are those that grow with the run, and these are refused
longer = files("longer", "".join(f'{{"hash":{5 if it % 100 else 6 + it},"arrivesAt":{7 * it // 10 * 1000},"runsFor":{900 + it % 7}}}\n' for it in range(10_150)))
narrow = files("narrow", '{"limit":1,"queues":2,"handSize":1,"queueLengthLimit":5000}')
for words, marks in ((["simulate", narrow, longer, "0"], True), (["fates", narrow, longer, "0"], False), (["compare", narrow, roomy, longer, "0"], True), (["hands", narrow, longer], False)):
    name = f"{words[0]} of 10,150 requests"
    ample = run(program, words)
    tally.check(f"{name} with ample memory, and percentiles of more than 10,000 waits", (ample[0], b"~" in ample[1]), (0, marks))
    number, was_refused = 0, True
    with Refusing(files, preloaded, program, words, least=16_384) as runs:
        while was_refused and number < 1_000:
            number += 1
            got, was_refused = runs.without(number)
            tally.check(f"{name} without large allocation {number}", got, WANT if was_refused else ample)
    tally.check(f"{name}: {number - 1} large allocations were refused, and then none", (number > 5, was_refused), (True, False))

# of a live level, where one allocation is refused and where two are: arrivals that execute, wait and are rejected, faults of each kind, and a line that is nearly too long
LINES = [b'arrive 0 {"schema":"global-default","distinguisher":"alice","width":2}', b'arrive 1 {"hash":0,"width":2,"cost":3}', b'arrive 2 {"schema":"a","distinguisher":"%s"}' % (b"x" * 65_000), b'try 3 {"hash":0}']
LINES += [b'arrive 4 {"hash":[1,2,{"a":"b"}]}', b'arrive 4 {"work":1}', b'arrive 4 {"hash":0', b'arrive 4 {"hash":1e999}', b'arrive 4 {"hash":0,"width":0}', b"finish 9", b"nonsense", b'arrive 9 {"hash":0}', b"cancel 1"]
LINES += [b'arrive 1 {"hash":7}', b"limit 2", b"finish 0", b"queues", b"close", b'arrive 0 {"hash":0}', b"book"]
content = b"".join(line + b"\n" for line in LINES)
served = {"limit": 1, "queues": 1, "handSize": 1, "queueLengthLimit": 2}


SERVE = ["serve", files("served", json.dumps(served)), "--slots", "5"]


def serve(content):
    done = subprocess.run([serving, *SERVE], input=content, capture_output=True, timeout=120)
    return done.returncode, done.stdout, done.stderr


def modelled(*refused):
    return 0, session(Service(config_of(json.dumps(served).encode()), 5, refused=refused), content).encode(), b""


def is_flat(line):
    """Whether the object of a line has texts and whole numbers alone: it is read twice where memory is refused."""
    try:
        return all(type(it) in (str, int) for it in json.loads(line[line.index(b"{") :]).values())
    except ValueError:
        return False


WITH_OBJECTS = [number for number, line in enumerate(LINES, 1) if b"{" in line]
for name, content, together in [("a live level", content, 1), ("a live level", content, 2), ("a live level's metrics", b"metrics\n", 1)] if is_built else []:
    name = f"{name}, {together} at a time"
    ample = serve(content)
    without = {line: modelled(line) for line in WITH_OBJECTS} if content != b"metrics\n" else {}
    tally.check(f"{name} with ample memory", ample, modelled() if without else ample)
    number, ends, met = 0, 0, []
    with Refusing(files, preloaded, serving, SERVE, content, together=together) as runs:
        while ends == 0 and number < 10_000:
            number += 1
            got, was_refused = runs.without(number)
            ends = not was_refused
            met += [line for line, want in without.items() if got == want != ample] + [0] * (got == WANT)
            # at the level's end memory is asked for once more, behind all that is told: that changes nothing
            tally.check(f"{name} without allocation {number}", got, got if got in (ample, WANT, *without.values()) else ample)
    # the line of a bad number and that of a number that is there ask for none
    asked = {0, *(line for line, want in without.items() if want != ample and (together > 1 or not is_flat(LINES[line - 1])))}
    tally.check(f"{name}: before the first line, and at each object, memory was refused", (set(met), ends, got), (asked, True, ample))
tally.end()
