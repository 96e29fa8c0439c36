"""What became of each request (`fates`), two levels side by side (`compare`), and who shares the queues (`hands`). First the
independent computation by examples that were worked by hand, and by rules that need no run. Then what the program prints of 300
drawn traces. Last how long a request waits before it gives up, as a command line says it, for each command that takes it."""

import collections
import json
import os
import random
import subprocess
import sys

sys.path.insert(0, os.path.join(os.path.dirname(os.path.abspath(__file__)), "lib"))
import simulation
import worked
from harness import Files, Memory, Tally, build, processor_seconds, run
from jsontext import json_text
from level import hash_of
from runs import Fates, comparison
from simulation import BAD_PATIENCE, Run, config_of, flows_of, patience_of, words_of
from trace import NOT_JSON, TRUNCATED, UNKNOWN_KEY, request_of, trace_of
from traces import Traces

# each command that takes a patience, and how many configs
PATIENT = {"fates": 1, "simulate": 1, "timeline": 1, "picture": 1, "compare": 2}
CONFIG = b'{"limit":2,"queues":2,"handSize":1}'
OTHER = b'{"limit":1,"limitResponse":"Reject"}'
# the second one waits for 7.5 s where there is one seat
TRACE = b'{"hash":0,"arrivesAt":0,"runsFor":8000000,"width":2}\n{"hash":0,"arrivesAt":500000,"runsFor":9}\n'

tally = Tally()
program = build()
files = Files()
# the same draws each time; APF_SEED draws others
seed = int(os.environ.get("APF_SEED", "1041"))
draw = random.Random(seed)
traces = Traces(draw)
TRACES = int(os.environ.get("APF_TRACES", "300"))
print(f"seed {seed}")


def lines_of(out):
    return out.decode().split("\n")[:-1]


# what was written last in each place, as several commands are tried on one large trace
written = {}


def paths_of(contents):
    """Files of these bytes, each in its place among them."""
    for place, content in enumerate(contents):
        if place not in written or written[place][1] is not content:
            written[place] = files(f"file {place}", content), content
    return [written[place][0] for place in range(len(contents))]


def printed(command, contents, *how):
    """What the program does by a command on files of these bytes, with a patience, and by what requests are charged."""
    return run(program, [command, *paths_of(contents), *words_of(*how)])


def told(lines, note=""):
    """The answer of a command that prints these lines, and this beside them."""
    return 0, "".join(f"{line}\n" for line in lines).encode(), note.encode()


# what happens in a drawn pair of runs, and in how many of 300 at least
SEEN = {
    "a trace that is not in the order of the arrivals": 100,
    "a request that waited": 60,
    "a request that gave up": 50,
    "a request that is rejected": 60,
    "an order of flows that is not that of the trace": 30,
    "flows whose longest waits change by as much, and not by nothing": 8,
    "a flow whose longest wait changes by nothing, behind another one": 20,
    "a flow that is covered by more than ten": 5,
    "a flow that shares some queues of its hand and not all": 20,
}


def happenings(one, other):
    """Those of them that happen in these runs of one trace."""
    trace, decided = one.trace, one.level.decided
    flows = [(flow, figures[0], figures[1]) for flow, figures in changes(one, other).items()]
    apart = [abs(first - second) for _, first, second in flows]
    hands = [{*hand} for hand in simulation.dealt_of(one.config, flows_of(trace)).values()]
    covers = [[other is not hand and other >= hand for other in hands if hand] for hand in hands]
    happens = {
        "a trace that is not in the order of the arrivals": [it["arrivesAt"] for it in trace] != sorted(it["arrivesAt"] for it in trace),
        "a request that waited": any(one.wait(it) for it in one.started),
        "a request that gave up": "cancelled" in decided.values(),
        "a request that is rejected": {"queue-full", "concurrency-limit"} & {*decided.values()},
        "an order of flows that is not that of the trace": apart != sorted(apart, reverse=True),
        "flows whose longest waits change by as much, and not by nothing": len({*apart} - {0}) < len([it for it in apart if it]),
        "a flow whose longest wait changes by nothing, behind another one": 0 in apart and any(apart),
        "a flow that is covered by more than ten": any(sum(it) > 10 for it in covers),
        "a flow that shares some queues of its hand and not all": any(hand & other and hand - other for hand in hands for other in hands),
    }
    return [what for what, is_so in happens.items() if is_so]


def changes(one, other):
    """The longest waits of each flow in the two runs."""
    return {
        flow: [max((made.wait(it) for it in members if it in made.started), default=0) for made in (one, other)]
        for flow, members in flows_of(one.trace).items()
    }


def drawn():
    """Two levels, a trace and a patience."""
    one, other, (objects, patience) = traces.config(), traces.config(), traces.trace()
    if draw.random() < 0.5:
        # the other level differs in one setting
        key = draw.choice(["limit", "queueLengthLimit", "limitResponse"])
        other = {**one, key: other[key]}
    return one, other, traces.content(objects), patience


def check_drawn():
    """The computation by the rules, and the program by the computation."""
    seen = dict.fromkeys(SEEN, 0)
    for number in range(TRACES):
        *configs, content, patience = drawn()
        charge = traces.charge()
        trace = trace_of(content)
        one, other = (Run(config, trace, patience, charge) for config in configs)
        name = f"{number}: {configs}, {content}, patience {patience}, charged by {charge}"
        fates = [simulation.fates(made) for made in (one, other)]
        lines = simulation.compare(one, other)
        for config, each in zip(configs, fates):
            tally.check(f"the rules of {name}", Fates(each).broken(config["limit"], trace, patience), [])
        by_fates = comparison(*map(Fates, fates))
        tally.check(f"the comparison by the fates of {name}", [" ".join(it.split(" ")[:12]) for it in lines[1:]], by_fates)
        texts = [json.dumps(config).encode() for config in configs]
        tally.check(f"fates of {name}", printed("fates", [texts[0], content], patience, charge), told(fates[0]))
        tally.check(f"compare of {name}", printed("compare", [*texts, content], patience, charge), told(lines))
        tally.check(f"hands of {name}", printed("hands", [texts[0], content]), told(simulation.hands(configs[0], trace)))
        flows = [*sorted({it["names"][1] for it in trace if it["names"]}), "nobody"]
        flow = flows[number % len(flows)]
        of_flow = printed("hands", [texts[0], content], f"--flow={flow}")
        shared = simulation.hands_of(configs[0], trace, flow)
        note = f"apf: nothing matched: no flow of the trace has the distinguisher {json_text(flow)}\n"
        tally.check(f"hands of {flow!r} of {name}", of_flow, told(shared, "" if shared else note))
        for what in happenings(one, other):
            seen[what] += 1
    for what, count in seen.items():
        tally.check(f"in many runs there is {what}: {count}", count >= SEEN[what] * TRACES // 300, True)


# false copies of what `fates` prints of the first example with a patience of 90: what a judge says of one, and what stands for what
FALSE_FATES = [
    ("each request has one line of its form", "3 b2cfa8521298df5f", "2 b2cfa8521298df5f"),
    ("each request has one line of its form", "0 1 - 90", "0 1  - 90"),
    ("each request has one line of its form", "execute", "executed"),
    ("each line is of its request", "6 f7c495a40a0feec0 50", "6 f7c495a40a0feec0 51"),
    ("each line is of its request", "6 f7c495a40a0feec0", "6 f7c495a40a0feec1"),
    ("the lines are in the order of the arrivals", '4 b2cfa8521298df5f 0 - - 0 queue-full "batch" "crawler"\n5', '5 b2cfa8521298df5f 0 - - 0 queue-full "batch" "crawler"\n4'),
    ("who executed ends when it ran", "0 - 0 100 execute", "0 - 1 100 execute"),
    ("each request has one line of its form", "0 - 0 100 execute", "0 - - 100 execute"),
    ("each request has one line of its form", "0 1 - 90 cancelled", "0 1 0 90 cancelled"),
    ("who waited had entered a queue", "60 0 120 140", "60 - 120 140"),
    ("nobody starts after the end of its patience", "60 0 120 140", "60 0 151 171"),
    ("who is rejected enters no queue, and ends at its arrival", "0 - - 0 queue-full", "0 1 - 0 queue-full"),
    ("who is rejected enters no queue, and ends at its arrival", "0 - - 0 queue-full", "0 - - 1 queue-full"),
    ("who gives up had entered a queue, and ends with its patience", "0 1 - 90 cancelled", "0 - - 90 cancelled"),
    ("who gives up had entered a queue, and ends with its patience", "0 1 - 90 cancelled", "0 1 - 91 cancelled"),
    ("the seats in use are within the limit", "60 0 120 140", "60 0 99 119"),
]


def check_rules():
    """The judge of what `fates` prints, by false copies of a true one."""
    name, config, content, _ = worked.WORKED[0]
    trace = trace_of(content.encode())
    true = "".join(f"{line}\n" for line in simulation.fates(Run(json.loads(config) | {"limitResponse": "Queue"}, trace, 90, "seats")))
    tally.check(f"true fates are taken: {name}", Fates(lines_of(true.encode())).broken(2, trace, 90), [])
    for sentence, old, new in FALSE_FATES:
        false = true.replace(old, new, 1)
        tally.check(f"false fates: {old} became {new}", false != true, True)
        tally.check(f"false fates are refused: {sentence}", sentence in Fates(lines_of(false.encode())).broken(2, trace, 90), True)


def check_examples():
    worked.self_test(tally.check)
    for name, command, contents, how, text in [*worked.worked(), *worked.charged()]:
        if command.__name__ in ("fates", "compare", "hands"):
            tally.check(name, printed(command.__name__, contents, *how), (0, text.encode(), b""))
    # one flow by its distinguisher, with each other one that shares a queue of its hand
    _, config, content, _ = next(it for it in worked.WORKED if it[0] == "hands that share")
    alice = (
        'flow f7c495a40a0feec0 hand 0 3 of "users" "alice"\n'
        '  shares 3 with b2cfa8521298df5f "batch" "crawler"\n'
        "  shares 3 with 0000000000000007\n"
        "  shares 0 3 with ffffffffffffffff\n"
        "  covered by ffffffffffffffff\n"
    )
    for flow, text in (("alice", alice), ("users", ""), ("", "")):
        note = "" if text else f'apf: nothing matched: no flow of the trace has the distinguisher "{flow}"\n'
        want = (0, text.encode(), note.encode())
        tally.check(f"hands of {flow!r}, by hand", printed("hands", [config.encode(), content.encode()], f"--flow={flow}"), want)
        tally.check(f"hands of {flow!r}, the flow said first", run(program, ["hands", "--flow", flow, *paths_of([config.encode(), content.encode()])]), want)
    # what requests are charged, said first
    _, configs, content, _, text = worked.SIDE_BY_SIDE[0]
    paths = paths_of([it.encode() for it in [*configs, content]])
    tally.check("compare by hand, the charge said first", run(program, ["compare", "--charge", "seats", *paths, "0"]), (0, (worked.COMPARED + text).encode(), b""))


def check_patience(command, levels):
    """A patience with a unit is this many microseconds. One that is none is told before any file is read."""
    contents = [CONFIG, OTHER, CONFIG][: levels] + [TRACE]
    missing = [os.path.join(files.folder.name, "missing")] * len(contents)
    fault = (2, b"", f"{BAD_PATIENCE}\n".encode())
    for text, patience in worked.PATIENCES:
        if patience is None:
            for words in (paths_of(contents), missing, ["-"] * len(contents)):
                got = run(program, [command, *words, text])
                tally.check(f"{command} {words} with the patience {text!r}", got, fault)
        else:
            got, want = printed(command, contents, text), printed(command, contents, patience)
            tally.check(f"{command} with the patience {text!r}", (got, got[0]), (want, 0))
            if command in ("simulate", "timeline", "fates", "compare"):
                foreseen = simulation.answer(getattr(simulation, command), contents, patience)
                tally.check(f"{command} with the patience {patience}", want, foreseen)
    # the command line takes none of these as a text
    for text in ("-1", "-1s", "-s"):
        status, out, err = run(program, [command, *missing, text])
        tally.check(f"{command} with the patience {text!r}", (status, out, err[:7]), (2, b"", b"error: "))
        tally.check(f"{command} with the patience {text!r} behind --", run(program, [command, "--", *missing, text]), fault)
    with open(os.path.join(files.folder.name, "file 0"), "rb") as full:
        done = subprocess.run([program, command, "-", *missing[1:], "15 s"], stdin=full, capture_output=True)
        tally.check(f"{command} with a bad patience reads no byte", (done.returncode, done.stdout, done.stderr, full.tell()), (*fault, 0))


def check_reading(command, levels):
    """Files that can't be read, and the order in which the files are read and judged, and the levels are opened."""
    missing, cut = os.path.join(files.folder.name, "missing"), files("cut", TRACE[:-1])
    narrow, wide = files("narrow", b'{"limit":1,"queues":3}'), files("wide", b'{"limit":1,"queues":1024,"handSize":15}')
    zero, half = files("zero", b'{"limit":0}'), files("half", b'{"limit":1')
    good, trace = files("good", CONFIG), files("trace", TRACE)
    absent = f"cannot read trace: {missing}: there is no such file"
    # what is wrong with each of the configs
    no_config = f"cannot read config: {missing}: there is no such file"
    no_limit = f"config fault 5: bad value of limit\n{zero}: limit is 0: it must be a whole number from 1 to 10000"
    no_json = f"config fault 1: not JSON\n{half}:1:10: this is not JSON: the text ends too early"
    too_narrow = f"dealer fault 2: hand too large\n{narrow}: handSize is 8 and queues is 3: a hand can't have more queues than there are (8 and 64 if absent)"
    too_wide = f"dealer fault 4: too much entropy\n{wide}: handSize is 15 and queues is 1024: queues to the power of handSize must be at most 2 to the power of 60 (8 and 64 if absent)"
    rows = [
        ([missing], missing, 1, no_config),
        ([zero], missing, 1, no_limit),
        ([good], missing, 1, absent),
        ([narrow], missing, 1, absent),
        ([narrow], cut, 1, "trace fault 11 at line 2: the last line has no LF at its end"),
        ([narrow], trace, 1, too_narrow),
        ([wide], trace, 1, too_wide),
    ]
    if levels == 2:
        rows = [
            *((configs + [good], path, status, line) for configs, path, status, line in rows),
            ([good, missing], missing, 1, no_config),
            ([good, half], missing, 1, no_json),
            ([zero, half], missing, 1, no_limit),
            ([half, zero], missing, 1, no_json),
            ([zero, missing], missing, 1, no_limit),
            ([narrow, zero], trace, 1, no_limit),
            ([good, narrow], missing, 1, absent),
            ([good, narrow], trace, 1, too_narrow),
            ([narrow, wide], trace, 1, too_narrow),
            ([wide, narrow], trace, 1, too_wide),
            (["-", "-"], trace, 2, "standard input is named twice"),
            ([good, "-"], "-", 2, "standard input is named twice"),
        ]
    rows.append((["-"] * levels, "-", 2, "standard input is named twice"))
    for configs, path, status, line in rows:
        got = run(program, [command, *configs, path, "0"])
        tally.check(f"{command} {[*configs, path]}", got, (status, b"", f"apf: {line}\n".encode()))


def check_standard_input():
    """`-` stands for each of the files."""
    contents = [CONFIG, OTHER, TRACE]
    for command, places in (("fates", (0, 2)), ("compare", (0, 1, 2))):
        taken = [contents[place] for place in places]
        want = simulation.answer(getattr(simulation, command), taken, 15_000_000)
        for place, content in enumerate(taken):
            words = paths_of(taken)
            words[place] = "-"
            done = subprocess.run([program, command, *words, "15s"], input=content, capture_output=True)
            tally.check(f"{command} with - in place {place}", (done.returncode, done.stdout, done.stderr), want)


def check_words(command, levels):
    """Too few words, too many, and output that can't be written."""
    words = [*(files(f"config {place}", CONFIG) for place in range(levels)), files("trace", TRACE), "1s"]
    for taken in (words[:-1], [*words, "0"], []):
        status, out, err = run(program, [command, *taken])
        tally.check(f"{command} with {len(taken)} words", (status, out, err[:7]), (2, b"", b"error: "))
    # the line of names alone
    status, out, err = printed(command, [*levels * [CONFIG], b""], 1)
    tally.check(f"{command} of no request", (status, out.count(b"\n"), out.startswith((b"request flow arrival ", b"flow requests median ")), err), (0, levels, True, b""))
    with open("/dev/full", "wb") as full:
        done = subprocess.run([program, command, *words], stdin=subprocess.DEVNULL, stdout=full, stderr=subprocess.PIPE)
    tally.check(f"{command} on a full disk", (done.returncode, done.stderr), (1, b"apf: cannot write\n"))


def check_largest():
    """10,000 requests of 10,000 flows, with waits, full queues and requests that give up; `hands` of them is small."""
    one, other = b'{"limit":20,"queues":16,"handSize":4,"queueLengthLimit":1}', b'{"limit":30,"queues":8,"handSize":2,"queueLengthLimit":4}'
    form = b'{"hash":%d,"arrivesAt":%d,"runsFor":%d,"width":%d}\n'
    times = random.Random(seed)
    lines = [form % (times.getrandbits(64), times.randrange(10**6), times.randrange(3000), 1 + number % 3) for number in range(10_000)]
    content = b"".join(lines)
    trace = trace_of(content)
    for command, configs, patience in (("fates", [one], ["2ms"]), ("compare", [one, other], ["2ms"]), ("hands", [one], [])):
        (status, out, err), took = processor_seconds(lambda: printed(command, [*configs, content], *patience))
        tally.check(f"{command} of 10,000 flows", (status, err), (0, b""))
        tally.check(f"{command} of 10,000 flows in well under ten seconds: {took:.2f} s", took < 10, True)
        if command == "fates":
            fates = Fates(lines_of(out))
            tally.check("fates of 10,000 requests by the rules", fates.broken(20, trace, 2000), [])
            decisions = {it["decision"] for it in fates.rows}
            tally.check("10,000 requests execute, find full queues and give up", decisions, {"execute", "queue-full", "cancelled"})
        if command == "compare":
            tally.check("compare of 10,000 flows has a line for each", len(lines_of(out)), 10_002)
        if command == "hands":
            # a line for each flow and each of its queues, and who covers it
            tally.check(f"hands of 10,000 flows is small: {len(out)} bytes", len(out) < 10_000 * 500, True)


def check_long_hands():
    """`hands` of a trace of more lines than the reader holds, of 2,000 flows whose first requests are not in the order of their arrivals; of one
    name that eight schemas share; and its faults. Its memory does not grow with the lines."""
    times = random.Random(seed)
    form = '{"schema":"%s","distinguisher":"%s","arrivesAt":%d,"runsFor":0}\n'
    flows = [(f"schema-{number % 8}", "shared" if number < 8 else f"flow-{number}") for number in range(2_000)]
    draws = zip(times.choices(range(2_000), k=140_000), times.choices(range(400_000), k=140_000))
    drawn = [(*flows[min(number, flow)], max(0, 100_000 + 5 * number - early)) for number, (flow, early) in enumerate(draws)]
    lines = [form % it for it in drawn]
    content = "".join(lines).encode()
    of_flow = {it: request_of({"schema": it[0], "distinguisher": it[1], "arrivesAt": 0, "runsFor": 0}) for it in flows}
    trace = [{**of_flow[schema, name], "arrivesAt": at} for schema, name, at in drawn]
    tally.check("the flows come in another order than they arrive", [it["arrivesAt"] for it in trace] != sorted(it["arrivesAt"] for it in trace), True)
    # the lines are read by the same reader for each level, so the others have the first 30,000, in which each flow comes
    many, few = len(lines), 30_000
    tally.check("each flow comes early", len({it["hash"] for it in trace[:few]}), len(flows))
    traces_of = {many: trace, few: trace[:few]}
    for config, count in [
        (b'{"limit":6,"queues":16,"handSize":3,"queueLengthLimit":10}', many),
        (b'{"limit":6,"queues":128,"handSize":6}', few),
        (b'{"limit":6,"queues":2,"handSize":2}', few),
        (b'{"limit":6,"limitResponse":"Reject"}', few),
    ]:
        level, read = config_of(config), "".join(lines[:count]).encode()
        (status, out, err), took = processor_seconds(lambda: printed("hands", [config, read]))
        tally.check(f"hands of {count} lines on {config}", (status, err, lines_of(out) == simulation.hands(level, traces_of[count])), (0, b"", True))
        tally.check(f"hands of {count} lines on {config} in well under ten seconds: {took:.2f} s", took < 10, True)
        status, out, err = printed("hands", [config, read], "--flow=shared")
        tally.check(f"hands of eight flows of one name on {config}", (status, err, lines_of(out) == simulation.hands_of(level, traces_of[count], "shared")), (0, b"", True))
    config = b'{"limit":6,"queues":16,"handSize":3}'
    note = 'apf: nothing matched: no flow of the trace has the distinguisher "nobody"\n'
    tally.check("no flow of 140,000 lines has the name", printed("hands", [config, content], "--flow=nobody"), (0, b"", note.encode()))
    for number, line, fault in ((1, "x\n", NOT_JSON), (70_000, lines[0].replace("runsFor", "ranFor"), UNKNOWN_KEY), (140_000, lines[0][:-1], TRUNCATED)):
        status, out, err = printed("hands", [config, "".join([*lines[: number - 1], line]).encode()])
        tally.check(f"hands of a fault at line {number}", (status, out, err.split(b":")[1]), (1, b"", b" trace fault %d at line %d" % (fault, number)))
    # from a pipe: the memory is that of the flows and of the lines that are held, and not of all lines
    path, most = files("level", config), []
    block = "".join(form % (*flows[number % 200], 0) for number in range(140_000)).encode()
    for times_over in (1, 8):
        with subprocess.Popen([program, "hands", path, "-"], stdin=subprocess.PIPE, stdout=subprocess.PIPE) as process:
            memory = Memory(process)
            for _ in range(times_over):
                process.stdin.write(block)
            process.stdin.close()
            out = process.stdout.read()
        most.append(memory.most())
        tally.check(f"hands of {times_over} times 140,000 lines from a pipe", (process.returncode, out.count(b"flow ")), (0, 200))
    tally.check(f"hands of eight times as many lines take as much memory: {most} KiB", most[1] < most[0] + 8_192, True)


def check_hands_of_a_shared_name():
    """`hands --flow` of a name that all schemas share takes as long as `hands` does and what it prints: each flow is looked at, and not each pair."""

    def asked(level, many):
        content = "".join('{"schema":"s%d","distinguisher":"one","arrivesAt":%d,"runsFor":0}\n' % (it, it) for it in range(many)).encode()
        config = json.dumps(level).encode()
        _, all_of_them = processor_seconds(lambda: printed("hands", [config, content]))
        (status, out, err), took = processor_seconds(lambda: printed("hands", [config, content], "--flow=one"))
        tally.check(f"hands of a name that {many} flows share: status and errors", (status, err), (0, b""))
        return lines_of(out), took, all_of_them

    # nobody has a queue, so there is a line for each flow and no more
    many = 20_000
    lines, took, all_of_them = asked({"limit": 6, "limitResponse": "Reject"}, many)
    want = [f'flow {hash_of(f"s{it}", "one"):016x} hand of "s{it}" "one"' for it in range(many)]
    tally.check(f"hands of a name that {many} flows share, who have no queues", lines == want, True)
    tally.check(f"it takes {took:.2f} s, and that of all flows {all_of_them:.2f} s", took < 3 * all_of_them + 0.5, True)
    # a hand of one queue is what the number of queues leaves of the hash
    queues, many = 1_024, 2_000
    lines, _, _ = asked({"limit": 6, "queues": queues, "handSize": 1}, many)
    schemas = {hash_of(f"s{it}", "one"): f"s{it}" for it in range(many)}
    want, sharers = [], collections.defaultdict(list)
    for flow in schemas:
        sharers[flow % queues].append(flow)
    for flow, schema in schemas.items():
        want.append(f'flow {flow:016x} hand {flow % queues} of "{schema}" "one"')
        others = [it for it in sharers[flow % queues] if it != flow]
        want += [f'  shares {flow % queues} with {it:016x} "{schemas[it]}" "one"' for it in others]
        want += [" ".join(["  covered by", *(f"{it:016x}" for it in others)])] if others else []
    tally.check(f"hands of a name that {many} flows share: {len(want)} lines", lines == want, True)


def check_long():
    """A trace of more lines than the reader holds and are held back, 131,072 each: `fates` has a line for each request, in the order of the arrivals, and its numbers
    are those of `simulate`. A fault behind as many lines as are held back comes after a beginning of that; one before them
    comes alone. `timeline` and `picture` refuse this many requests."""
    times = random.Random(seed)
    form = '{"hash":%d,"arrivesAt":%d,"runsFor":%d}\n'
    draws = zip(*(times.choices(range(most), k=270_000) for most in (200, 5_000, 150)))
    drawn = [(flow, 10 * number + late, runs) for number, (flow, late, runs) in enumerate(draws)]
    content = "".join(form % it for it in drawn).encode()
    config = b'{"limit":6,"queues":8,"handSize":2,"queueLengthLimit":10}'
    (status, out, err), took = processor_seconds(lambda: printed("fates", [config, content], "1ms"))
    tally.check("fates of 270,000 requests", (status, err), (0, b""))
    tally.check(f"fates of 270,000 requests in well under ten seconds: {took:.2f} s", took < 10, True)
    fates = Fates(lines_of(out))
    tally.check("each of the lines has its form", fates.are_formed, True)
    meant = sorted([(at, number) for number, (_, at, _) in enumerate(drawn)])
    tally.check("the 270,000 are in the order of the arrivals", [(int(it["arrival"]), int(it["request"])) for it in fates.rows] == meant, True)
    of_rows = [(it, drawn[int(it["request"])]) for it in fates.rows]
    tally.check("each is of its request", all(int(it["flow"], 16) == flow and (it["start"] == "-" or int(it["start"]) + runs == int(it["end"])) for it, (flow, _, runs) in of_rows), True)
    decisions = collections.Counter(it["decision"] for it in fates.rows)
    count = {"executed": decisions["execute"], "rejected": decisions["queue-full"], "cancelled": decisions["cancelled"]}
    _, whole, _ = printed("simulate", [config, content], "1ms")
    decided = next(line.split(" ") for line in whole.decode().split("\n") if line.startswith("executed "))
    book = {decided[place]: int(decided[place + 1]) for place in range(0, 6, 2)}
    tally.check("they sum to the book of `simulate`", book, count)
    tally.check("many execute, find full queues and give up", min(count.values()) > 100, True)
    for place, begins in ((131_000, False), (268_000, True)):
        lines = content.split(b"\n")
        lines[place] = b"{}"
        status, part, err = printed("fates", [config, b"\n".join(lines)], "1ms")
        tally.check(f"a fault at line {place + 1} of fates", (status, f" at line {place + 1}: ".encode() in err), (1, True))
        tally.check(f"before the fault at line {place + 1}", (len(part) > 0, out.startswith(part)), (begins, True))
    many = b"".join(line + b"\n" for line in content.split(b"\n")[:10_001])
    for command in ("timeline", "picture"):
        tally.check(f"{command} of 10,001 requests", printed(command, [config, many], "1ms"), (1, b"", b"apf: there are more than 10000 requests: simulate, compare and fates take any number\n"))
        status, out, err = printed(command, [config, many[: many.rindex(b"\n", 0, -1) + 1]], "1ms")
        tally.check(f"{command} of 10,000 requests", (status, bool(out), err), (0, True, b""))


def check_memory_of_fates():
    """What `fates` holds is what the reader does, as many lines that are held back, and who is there: a longer trace takes no more."""
    config, most = files("level", b'{"limit":6,"queues":8,"handSize":2}'), []
    for many in (270_000, 400_000):
        with subprocess.Popen([program, "fates", config, "-", "1s"], stdin=subprocess.PIPE, stdout=open(files("told", b""), "wb")) as process:
            memory = Memory(process)
            for begin in range(0, many, 10_000):
                process.stdin.write(b"".join(b'{"hash":5,"arrivesAt":%d,"runsFor":9}\n' % it for it in range(begin, begin + 10_000)))
            process.stdin.close()
        most.append(memory.most())
        with open(os.path.join(files.folder.name, "told"), "rb") as told:
            tally.check(f"fates of {many} requests from a pipe", (process.returncode, told.read().count(b"\n")), (0, many + 1))
    tally.check(f"fates of half as many again take as much memory: {most} KiB", most[1] < most[0] + 4_096, True)


def check_others():
    """`compare` of more flows than have a line each: those that come later have one together, behind the flows. Of more than 10,000 waits, on one of the levels
    or on both, percentiles are marked. One flow waits, or finds no room, by what `fates` prints. All others come where there is room."""
    most, many, form = 100_000, 10_300, b'{"hash":%d,"arrivesAt":%d,"runsFor":%d}\n'
    lines = [form % (it, it, it % 3) for it in range(most)]
    # three requests of the two flows that come last stand between the others
    lines[70:70] = [form % (most + it // 2, 10**6 + it, 7) for it in range(3)]
    lines += [form % (5, 2 * 10**6 + 10 * it, 900 + it % 7) for it in range(many)]
    content = b"".join(lines)
    configs = [b'{"limit":90,"queues":2,"handSize":1,"queueLengthLimit":5000}', b'{"limit":60,"limitResponse":"Reject"}']
    waits = []
    for config in configs:
        rows = [row.split(" ") for row in lines_of(printed("fates", [config, content], 0)[1])[1 + most + 3 :]]
        tally.check(f"fates of the flow that comes again on {config}", (len(rows), {row[1] for row in rows}), (many, {f"{5:016x}"}))
        waits.append([0, *(int(row[4]) - int(row[2]) for row in rows if row[6] == "execute")])

    def line(name, requests, more):
        """Of a row with these waits, and as many of no time more."""
        each = [[*it, *[0] * more] for it in waits]
        columns = [[simulation.shown_rank(it, 50) for it in each], [simulation.shown_rank(it, 99) for it in each], map(max, each), [requests - len(it) for it in each]]
        return " ".join(map(str, [name, requests, *(it for pair in columns for it in pair), 0, 0]))

    nothing = " 0" * 10
    want = [line(f"{5:016x}", many + 1, 0), *(f"{it:016x} 1{nothing}" for it in range(most) if it != 5), f"others 3{nothing}", line("whole", many + most + 3, most + 2)]
    status, out, err = printed("compare", [*configs, content], 0)
    apart = [it for it in zip(lines_of(out)[1:], want) if it[0] != it[1]]
    tally.check("compare of 100,002 flows", (status, err, len(lines_of(out)), apart[:3]), (0, b"", most + 3, []))
    tally.check("one level has more than 10,000 waits of that flow, and the other has fewer", [len(it) > 10_000 for it in waits], [True, False])


def check_crowd():
    """Where one request more than may be there would be there, its line and its time are told, also where it is so on one of two levels. Nothing is printed
    but what `fates` had printed before: of a trace of no more lines than are held back that is nothing."""
    form = b'{"hash":%d,"arrivesAt":%d,"runsFor":%d}\n'
    quick = [form % (it % 7, it, 0) for it in range(5_000)]
    crowd = [form % (it % 100, 10**6 + it // 100, 10**7) for it in range(10_001)]
    many = b'{"limit":5000,"queues":64,"handSize":8,"queueLengthLimit":500}'
    few = b'{"limit":5000,"limitResponse":"Reject"}'
    lines = [*quick, *crowd]
    # the line of the crowd that comes last stands first
    moved = [lines[-1], *lines[:-1]]
    for name, line, trace in (("behind others", 15_001, lines), ("on the first line", 1, moved)):
        content, said = b"".join(trace), f"apf: at line {line}, at 1000100, more than 10000 requests are there at once\n".encode()
        for command, configs, more in [
            ("simulate", [many], []),
            ("fates", [many], []),
            ("picture", [many], ["--to", "1"]),
            ("compare", [many, few], []),
            ("compare", [few, many], []),
        ]:
            tally.check(f"{command} {more} of a crowd, {name}", run(program, [command, *paths_of([*configs, content]), "0", *more]), (1, b"", said))
        # the level that rejects has room for all
        tally.check(f"compare of a crowd that is turned away, {name}", printed("compare", [few, few, content], 0)[0], 0)
    status, out, err = printed("fates", [many, b"".join([*[form % (it % 7, it, 0) for it in range(150_000)], *crowd])], 0)
    tally.check("fates of a crowd behind more lines than are held back", (status, err), (1, b"apf: at line 160001, at 1000100, more than 10000 requests are there at once\n"))
    want = [f"{it} {it % 7:016x} {it} - {it} {it} execute" for it in range(150_000)]
    told = lines_of(out)[1:]
    tally.check(f"fates of a crowd: {len(told)} lines are printed before", (0 < len(told), told == want[: len(told)]), (True, True))


check_examples()
check_rules()
check_drawn()
for command, levels in PATIENT.items():
    check_patience(command, levels)
for command in ("fates", "compare"):
    check_reading(command, PATIENT[command])
    check_words(command, PATIENT[command])
check_standard_input()
check_largest()
check_long_hands()
check_hands_of_a_shared_name()
check_long()
check_memory_of_fates()
check_others()
check_crowd()
tally.end()
