"""The command `cluster` on the built program, against the independent matcher, one independent level for each level of a cluster, and the independent
lending of seats (tests/lib/clusters.py): drawn clusters and logs of many requests in a short time, what is printed for people and for programs, and the
faults. Each level without lending is also what `simulate` says of its requests alone. tests/lending.py draws logs in which seats are lent."""

import json
import os
import random
import sys

HERE = os.path.dirname(os.path.abspath(__file__))
sys.path.insert(0, os.path.join(HERE, "lib"))
from audits import NOON, time_text
from clusters import Clusters, config_of, level_object, level_of, notes_of, objects_in, objects_of, parts_of, read_by, table
from harness import TOP, Files, Tally, build, run
from jsontext import json_text
from lending import MOST, PERIOD
from simulation import flows_of

tally = Tally()
program = build()
files = Files()
# the same draws each time; APF_SEED draws others
seed = int(os.environ.get("APF_SEED", "4711"))
draw = random.Random(seed)
clusters = Clusters(draw)
CLUSTERS = int(os.environ.get("APF_CLUSTERS", "100"))
print(f"seed {seed}")


def said(name, words, parts, flows, notes):
    """What is printed for people and for programs is that of these parts."""
    tally.check(name, run(program, words), (0, table(parts, flows).encode(), notes))
    status, out, err = run(program, [*words, "--json"])
    tally.check(f"{name}, as JSON", (status, objects_in(out), err), (0, objects_of(parts, flows), notes))


met = {"requests": 0, "rejected": 0, "timedOut": 0, "waited": 0, "turned away": 0, "several levels": 0, "short": 0, "long": 0, "left out": 0}
for number in range(CLUSTERS):
    objects, levels, schemas = clusters.cluster()
    content = clusters.log([1, 1000, 500_000])
    seats, patience = draw.choice([1, 5, 20, 600, 1_000_000]), draw.choice([0, 1, 1000, 700_000])
    flows = draw.choice([0, 1, 3, 12, 1_000_000])
    names = [files("objects.json", json.dumps(objects)), files("audit.log", content)]
    words = ["cluster", *names, str(patience), "--seats", str(seats), *([] if flows == 12 else ["--flows", str(flows)])]
    read = read_by(schemas, content)
    if read.fault:
        tally.check(f"{number}: a fault", run(program, words)[0], 1)
        continue
    name = f"{number}: {seats} seats, patience {patience}, {len(read.requests)} requests"
    parts, _ = parts_of(levels, schemas, read, seats, patience, lends=False)
    said(f"{name}, no lending", [*words, "--no-lending"], parts, flows, notes_of(read))
    lent, _ = parts_of(levels, schemas, read, seats, patience, lends=True)
    tally.check(name, run(program, words), (0, table(lent, flows).encode(), notes_of(read)))
    if number % 2:
        # from a time on, up to one behind the last request
        last = max((received for received, *_ in read.requests), default=0) - min((received for received, *_ in read.requests), default=0)
        since = draw.choice([0, 1, last // 2, last, last + 1, draw.randint(0, last)])
        late, _ = parts_of(levels, schemas, read, seats, patience, lends=True, since=since)
        said(f"{name}, from {since} on", [*words, "--warm-up", f"{since}us"], late, flows, notes_of(read))
        before, behind = (sum(len(it.counted) for it in those) for those in (lent, late))
        met["left out"] += 0 < behind < before
    alone = [it.whole() for it in parts]
    for key in ("requests", "rejected", "timedOut", "waited"):
        met[key] += sum(it[key] for it in alone)
    met["turned away"] += sum(it.turned_away for it in parts)
    met["several levels"] += sum(it["requests"] > 0 for it in alone) > 1
    met["short" if max((it.run.end() for it in parts), default=0) < PERIOD else "long"] += 1
if CLUSTERS >= 100:
    tally.check(f"requests were rejected, gave up, waited and were turned away, in short logs and long ones: {met}", all(it > 5 for it in met.values()), True)

# ---- a level alone, on the program itself

KEYS = {"requests": "requests", "executed": "executed", "rejected": "rejected", "cancelled": "timedOut", "seat-time": "seatTime"}


def flow_line(flow, figures, names):
    counted = " ".join(f"{word} {figures[key]}" for word, key in KEYS.items())
    median = ("" if figures["exact"] else "~") + str(figures["median"])
    p99 = ("" if figures["exact"] else "~") + str(figures["p99"])
    return f"flow {flow:016x} {counted} wait median {median} p99 {p99} longest {figures['longest']} of {' '.join(map(json_text, names))}"


def trace_line(request):
    schema, distinguisher = map(json_text, request["names"])
    return f'{{"schema":{schema},"distinguisher":{distinguisher},"arrivesAt":{request["arrivesAt"]},"runsFor":{request["runsFor"]}}}\n'


compared = traced = 0
for number in range(10):
    objects, levels, schemas = clusters.cluster()
    content = clusters.log([1000, 500_000])
    read = read_by(schemas, content)
    if read.fault:
        continue
    names = [files("objects.json", json.dumps(objects)), files("audit.log", content)]
    status, out, _ = run(program, ["cluster", *names, "700ms", "--seats", "9", "--flows", "1000000", "--json", "--no-lending"])
    tally.check(f"{number}: levels to compare", status, 0)
    told = [json.loads(it) for it in out.splitlines()]
    wholes = {it["level"]: it for it in told if "level" in it}
    for part in parts_of(levels, schemas, read, 9, 700_000, lends=False)[0]:
        text = "".join(trace_line(it) for it in part.run.trace)
        got = run(program, ["cluster", *names, "700ms", "--level", part.level["name"], "--trace"])
        tally.check(f"{number}: the trace of a level", got, (0, text.encode(), notes_of(read)))
        traced += len(part.run.trace)
        if part.level["exempt"] or part.level["name"] not in wholes:
            continue
        trace = files("trace.jsonl", text)
        _, out, _ = run(program, ["simulate", files("config.json", json.dumps(config_of(part.level, part.nominal))), trace, "700ms"])
        whole = wholes[part.level["name"]]
        book = [f"executed {whole['executed']} rejected {whole['rejected']} cancelled {whole['timedOut']} undecided 0"]
        tally.check(f"{number}: the book of a level alone", [it for it in out.decode().splitlines() if it.startswith("executed ")], book)
        # a flow that is not told of is one of whose requests none waited or was turned away
        hashes = {part.run.trace[members[0]]["names"]: flow for flow, members in flows_of(part.run.trace).items()}
        of = {(it["schema"], it["distinguisher"]): it for it in told if it.get("flowOf") == part.level["name"]}
        lines = {flow_line(hashes[names], figures, names) for names, figures in of.items()}
        waited = [it for it in out.decode().splitlines() if it.startswith("flow ") and (" rejected 0 cancelled 0 " not in it or " longest 0 of " not in it)]
        tally.check(f"{number}: the flows of a level alone", sorted(lines), sorted(waited))
        compared += len(lines)
tally.check(f"flows were compared: {compared}", compared > 20, True)
tally.check(f"requests were printed: {traced}", traced > 200, True)

# ---- faults

good = files("objects.json", json.dumps(clusters.cluster()[0]))
empty = files("audit.log", b"")
bad = files("bad.json", b"{")
tally.check("a patience that is none", run(program, ["cluster", good, empty, "soon"])[0::2][0], 2)
for words, status in (([bad, empty, "1s"], 1), ([good, "/nowhere", "1s"], 1), ([good, empty, "1s", "--seats", "0"], 2), ([good, empty], 2), (["-", "-", "1s"], 2)):
    tally.check(f"{words}", run(program, ["cluster", *words])[0], status)
for words in (["--trace"], ["--level", "catch-all"]):
    got = run(program, ["cluster", good, empty, "1s", *words])
    tally.check(f"{words} alone", got, (2, b"", b"apf: --level and --trace go together\n"))
got = run(program, ["cluster", good, empty, "1s", "--level", 'no "such"', "--trace"])
tally.check("a level that is not there", got, (1, b"", b'apf: there is no level "no \\"such\\""\n'))
tally.check("a bad patience before that", run(program, ["cluster", good, empty, "soon", "--level", "none", "--trace"])[0], 2)
status, out, err = run(program, ["cluster", good, "/nowhere", "1s", "--level", "none", "--trace"])
tally.check("a level that is not there before a log that is not", (status, b"there is no level" in err), (1, True))
level = level_of("small", 1, (2, 3, 1))
odd = files("odd.json", json.dumps({"kind": "List", "items": [level_object(level)]}))
for words in ([], ["--no-lending"]):
    status, out, err = run(program, ["cluster", odd, empty, "1s", *words])
    tally.check("a hand of more queues than there are", (status, out, b'the level "small" is not opened' in err), (1, b"", True))
late = clusters.logs.line(clusters.logs.event((NOON, 5, "a", None))) + b"\n" + b"[]\n"
status, out, err = run(program, ["cluster", good, files("late.log", late), "1s", "--level", "catch-all", "--trace"])
tally.check("a line that is no event ends a trace", (status, b"at line 2" in err), (1, True))
status, out, err = run(program, ["cluster", good, files("late.log", late), "1s"])
tally.check("a line that is no event prints nothing", (status, out, b"at line 2" in err), (1, b"", True))

# ---- the example

sample = os.path.join(TOP, "examples")
words = ["cluster", os.path.join(sample, "cluster", "objects.json"), os.path.join(sample, "audit", "audit.log"), "15s", "--json"]
status, out, err = run(program, words)
tally.check("the example", (status, sum(json.loads(it).get("requests", 0) for it in out.splitlines() if b'"level"' in it) > 0), (0, True))
tally.check("the example, which ends before seats are lent", run(program, [*words, "--no-lending"]), (status, out, err))

# ---- more requests at once than there are slots

level = level_of("catch-all", 5, (1024, 4, 10_000))
crowd = files("crowd.json", json.dumps({"kind": "List", "items": [level_object(level)]}))
event = {"stage": "ResponseComplete", "verb": "get", "user": {"username": "a"}, "requestReceivedTimestamp": time_text(NOON), "stageTimestamp": time_text(NOON + 5)}
crowded = files("crowd.log", f"{json.dumps(event)}\n" * (MOST + 1))
for words in ([], ["--no-lending"]):
    status, out, err = run(program, ["cluster", crowd, crowded, "1s", *words])
    tally.check(f"a request more than there are slots {words}", (status, out, b"at line 10001, at 0, more than 10000 requests are there at once" in err), (1, b"", True))

tally.end()
