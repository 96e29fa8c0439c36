"""Requests with times. First 500 drawn traces: an independent computation makes a script and a requests file of each, and foresees
what `replay` prints of them. Then the computation itself, by examples that were worked by hand and by rules that hold of every run,
and the judge of traces, by 500 faulty files. Last the commands, each where the program has it."""

import functools
import json
import os
import random
import subprocess
import sys

sys.path.insert(0, os.path.join(os.path.dirname(os.path.abspath(__file__)), "lib"))
import simulation
import worked
from harness import Files, Tally, build, processor_seconds, run
from judge import config_of, requests_of
from level import hash_of
from runs import Record, sums_broken
from simulation import Run, flows_of, nearest_rank, words_of
from trace import TraceFault, trace_of
from traces import FAULTY_ENDS, Traces, good_ends

# which of simulate, timeline, requests and hands the program has: what stands below of another one is not run
COMMANDS = ("simulate", "timeline", "requests", "hands")
# those that take a patience
PATIENT = ("simulate", "timeline")
CONFIG = b'{"limit":2,"queues":2,"handSize":1}'
LINE = b'{"hash":0,"arrivesAt":0,"runsFor":0}\n'

tally = Tally()
program = build()
files = Files()
# the same draws each time; APF_SEED draws others
seed = int(os.environ.get("APF_SEED", "1040"))
traces = Traces(random.Random(seed))
TRACES = int(os.environ.get("APF_TRACES", "500"))
FAULTY = int(os.environ.get("APF_FAULTY", "500"))
print(f"seed {seed}")


def text_of(lines):
    return "".join(f"{line}\n" for line in lines)


def lines_of(text):
    return text.split("\n")[:-1]


def replayed(config, requests, script):
    """The status, the lines and the errors of `replay` on these texts."""
    texts = {"config.json": json.dumps(config), "requests.json": requests, "script": script}
    status, out, err = run(program, ["replay", *(files(name, text) for name, text in texts.items())])
    return status, lines_of(out.decode()), err


def line_of_whole(config, record):
    """The line of the whole by areas: the seats in use over time, and the number of those that wait."""
    end, seats, waits = record.areas()
    return f"end {end} seat-time {seats} of {config['limit'] * end} waited {waits} patience {record.patience}"


# what happens in a drawn run, and in how many of 300 at least
SEEN = {
    "two calls at one time": 150,
    "a finish, and an arrival at its time": 30,
    "a run of no time, and an arrival after it at its time": 50,
    "a run of no time that had waited": 30,
    "a finish that dispatches two": 20,
    "a strike": 40,
    "a strike that dispatches": 5,
    "a seat at the time of giving up": 10,
    "a wait with patience": 40,
    "a wait that is wider than the limit": 20,
    "a full queue": 50,
    "no room on a level that rejects": 10,
}


def happenings(made):
    """Those of them that happen in this run."""
    level, trace = made.level, made.trace
    words = [line.split()[0] for line in level.lines]
    waited = [it for it in made.started if made.wait(it) > 0]
    pairs = [(one[2], one[1], other[1]) for one, other in zip(made.calls, made.calls[1:]) if one[0] == other[0]]
    ends = [it for it, kind, next_kind in pairs if (kind, next_kind) == (simulation.FINISH, simulation.ARRIVE)]
    happens = {
        "two calls at one time": pairs,
        "a finish, and an arrival at its time": [it for it in ends if trace[it]["runsFor"]],
        "a run of no time, and an arrival after it at its time": [it for it in ends if not trace[it]["runsFor"]],
        "a run of no time that had waited": [it for it in waited if not trace[it]["runsFor"]],
        "a finish that dispatches two": ["finish dispatch dispatch"] if "finish dispatch dispatch" in " ".join(words) else [],
        "a strike": ["strike"] if "strike" in words else [],
        "a strike that dispatches": ["strike dispatch"] if "strike dispatch" in " ".join(words) else [],
        "a seat at the time of giving up": [it for it in waited if made.wait(it) == made.patience],
        "a wait with patience": waited if made.patience else [],
        "a wait that is wider than the limit": [it for it in waited if trace[it]["width"] > level.limit],
        "a full queue": [it for it in level.decided.values() if it == "queue-full"],
        "no room on a level that rejects": [it for it in level.decided.values() if it == "concurrency-limit"],
    }
    return [what for what, cases in happens.items() if cases]


def check_replays():
    """The program's `replay` of the computation's script and requests, by the computation and by the rules."""
    seen = dict.fromkeys(SEEN, 0)
    for number in range(TRACES):
        config, (objects, patience) = traces.config(), traces.trace(has_costs=False)
        content = traces.content(objects)
        made = Run(config, trace_of(content), patience, "seats")
        script, requests = simulation.timeline(made), simulation.requests(made.trace)
        status, lines, err = replayed(config, text_of(requests), text_of(script))
        name = f"run {number} of {config}, {content}, patience {patience}"
        tally.check(f"{name}: status and errors", (status, err), (0, b""))
        tally.check(f"{name}: the book", lines[-4:], simulation.simulate(made)[-4:])
        tally.check(f"{name}: the answers", lines[:-4], made.level.lines)
        record = Record(made.level.limit, made.trace, patience, script, lines[:-4])
        tally.check(f"{name}: the rules", record.faults(), [])
        tally.check(f"{name}: the line of the whole", simulation.simulate(made)[-5], line_of_whole(config, record))
        for what in happenings(made):
            seen[what] += 1
    for what, count in seen.items():
        tally.check(f"in many runs there is {what}: {count}", count >= SEEN[what] * TRACES // 300, True)


# false copies of the first example with a patience of 90: what a judge says of one, a patience, and what stands for what in the
# script and in the answers of `replay`
FALSE_RUNS = [
    ("each call is one of the trace", 90, [("finish 6\n", "finish 9\n")], []),
    ("each call is one of the trace", 90, [("finish 6\n", "\n")], []),
    ("each call has its line", 90, [], [("finish 6\n", "finish 6 not running\n")]),
    ("each line is of a call", 90, [], [("finish 8\n", "finish 8\nfinish 8\n")]),
    ("each request takes its seats once", 90, [], [("finish 0\n", "finish 0\ndispatch 1 queue 0\n")]),
    ("each request takes its seats where there is room", 90, [], [("arrive 4 queue-full 1", "arrive 4 execute")]),
    ("no request waits while no seat is taken", 90, [], [("dispatch 7 queue 0\n", "")]),
    ("what is due is carried out in its order", 90, [("arrive 4\narrive 5\n", "arrive 5\narrive 4\n")], []),
    ("what is due is carried out in its order", 101, [], []),
    ("each request arrives once", 90, [("arrive 5\n", "")], [("arrive 5 queue-full 1\n", "")]),
    ("each request that took its seats finishes once, and no other one finishes", 90, [("finish 8\n", "")], [("finish 8\n", "")]),
    ("each request that is struck gave up once, and no other one gives up", 90, [], [("strike 3 queue 1\n", "")]),
    ("without patience no request gives up", 0, [], []),
    ("no request takes its seats after the time of giving up", 30, [], []),
    ("each request that entered took its seats or gave up, and not both", 90, [], [("dispatch 7 queue 0\n", "")]),
    ("each request that gave up had entered", 90, [], [("arrive 3 queued 1", "arrive 3 queue-full 1")]),
]
# the same of what `simulate` prints
FALSE_SUMS = [
    ("each line has its form", "seat-time 80", "seat-time  80"),
    ("the requests are those of the trace", "requests 6", "requests 7"),
    ("the columns are the book's", "executed 2 rejected 2 cancelled 2", "executed 3 rejected 2 cancelled 1"),
    ("each request is decided", "undecided 0", "undecided 1"),
    ("the rejected requests are of three kinds, and none is closed", "queue-full 2 closed 0", "queue-full 1 closed 1"),
    ("the seat-time is that of the flows", "seat-time 280", "seat-time 281"),
    ("what could be used is the limit times the end", "of 840", "of 841"),
    ("the waits of a flow ascend", "wait median 50 p99 60 longest 60", "wait median 60 p99 50 longest 60"),
    ("the level is empty", "seats 0 waiting 0", "seats 1 waiting 0"),
    ("each request that entered was dispatched or struck", "struck 2", "struck 1"),
]


def replaced(text, pairs):
    for old, new in pairs:
        text = text.replace(old, new, 1)
    return text


def check_rules():
    """The judges of a run by the rules, by false copies of a true one."""
    _, config, trace, _ = worked.WORKED[0]
    made = Run(config_of(config.encode()), trace_of(trace.encode()), 90, "seats")
    script, answers = text_of(simulation.timeline(made)), text_of(made.level.lines)
    for sentence, patience, in_script, in_answers in FALSE_RUNS:
        record = Record(2, made.trace, patience, lines_of(replaced(script, in_script)), lines_of(replaced(answers, in_answers)))
        tally.check(f"a false run is refused: {sentence}", sentence in record.faults(), True)
    text = text_of(simulation.simulate(made))
    for sentence, old, new in FALSE_SUMS:
        broken = sums_broken(made.trace, made.config, lines_of(replaced(text, [(old, new)])))
        tally.check(f"false sums are refused: {sentence}", sentence in broken, True)


def rank_of(waits, percent):
    """The percentile by its definition, by a walk over the waits for each of them."""
    return min((it for it in waits if 100 * sum(other <= it for other in waits) >= percent * len(waits)), default=0)


def check_model():
    """The computation by the examples, and by the rules where there are costs, too."""
    worked.self_test(tally.check)
    for number in range(TRACES):
        config, (objects, patience) = traces.config(), traces.trace()
        made = Run(config, trace_of(traces.content(objects)), patience, traces.charge())
        lines = simulation.simulate(made)
        name = f"the model's run {number} of {config}, {objects}, patience {patience}, {'by time' if made.means else 'by seats'}"
        record = Record(made.level.limit, made.trace, patience, simulation.timeline(made), made.level.lines)
        tally.check(f"{name}: the rules", record.faults(), [])
        tally.check(f"{name}: the line of the whole", lines[-5], line_of_whole(config, record))
        tally.check(f"{name}: the sums", sums_broken(made.trace, config, lines), [])
        for members in flows_of(made.trace).values():
            waits = [made.wait(it) for it in members]
            ranks, want = ([rank(waits, percent) for percent in (50, 99)] for rank in (nearest_rank, rank_of))
            tally.check(f"{name}: the percentiles of {waits}", ranks, want)
        want = [{"flow": it["flow"], "width": it["width"]} for it in made.trace]
        tally.check(f"{name}: the requests say the same", requests_of(text_of(simulation.requests(made.trace)).encode()), want)


def read(content):
    """What the judge says of a trace: its requests, or the number, the line and the text of its first fault."""
    try:
        return [[it[key] for key in ("arrivesAt", "runsFor", "hash", "names", "width", "cost")] for it in trace_of(content)]
    except TraceFault as fault:
        return fault.number, fault.line, str(fault)


def meant(objects):
    """The requests of a trace whose lines are these objects."""
    requests = []
    for it in objects:
        names = (it["schema"], it["distinguisher"]) if "schema" in it else None
        requests.append([it["arrivesAt"], it["runsFor"], hash_of(*names) if names else it["hash"], names, it.get("width", 1), it.get("cost")])
    return requests


@functools.lru_cache(maxsize=None)
def fault_line(content):
    """The line of a faulty trace, whose first fault is known by how it was made."""
    return read(content)[2]


def all_faulty():
    """The faulty files, each with its first fault's number and line."""
    yield from FAULTY_ENDS
    yield from traces.all_faulty(FAULTY)


def check_judge():
    """The judge of traces, by files that were made faulty in a known place, and by good ones."""
    kinds = set()
    for content, number, line in all_faulty():
        got = read(content)
        tally.check(f"the judge of {content[-300:]!r}", (got[:2], got[2].startswith(f"apf: trace fault {number} at line {line}: ")), ((number, line), True))
        kinds.add(number)
    tally.check("the faulty files have each fault", sorted(kinds), [*range(1, 12)])
    for name, content, objects in good_ends():
        tally.check(f"the judge of {name}", read(content), meant(objects))
    for number in range(TRACES):
        objects, _ = traces.trace()
        tally.check(f"the judge of the drawn trace {number}", read(traces.content(objects)), meant(objects))


# the commands


def printed(command, contents, *how):
    """What the program does by a command on files of these bytes, with a patience, and by what requests are charged."""
    names = ("trace",) if command == "requests" else ("config", "trace")
    return run(program, [command, *(files(name, content) for name, content in zip(names, contents)), *words_of(*how)])


def foreseen(command, contents, *how):
    return simulation.answer(getattr(simulation, command), contents, *how)


def inputs(command, config, trace, patience, charge=None):
    """What the command takes of these: its files, its patience, and by what requests are charged."""
    return [trace] if command == "requests" else [config, trace], *([patience, charge] if command in PATIENT else [])


def check_examples():
    for name, command, contents, how, text in [*worked.worked(), *worked.charged()]:
        if command.__name__ in COMMANDS:
            tally.check(name, printed(command.__name__, contents, *how), (0, text.encode(), b""))


def check_drawn():
    """On drawn traces, what the model foresees of each command."""
    for number in range(TRACES):
        config, (objects, patience) = traces.config(), traces.trace()
        texts, charge = (json.dumps(config).encode(), traces.content(objects)), traces.charge()
        for command in COMMANDS:
            taken = inputs(command, *texts, patience, charge)
            got = printed(command, *taken)
            tally.check(f"{command} of {taken}", got, foreseen(command, *taken))
            if command == "simulate":
                tally.check(f"the sums of {taken}", sums_broken(objects, config, lines_of(got[1].decode())), [])


def check_circle():
    """The program's own script and requests by seats, through its `replay`: the rules, the line of the whole and the book."""
    for number in range(TRACES // 3):
        config, (objects, patience) = traces.config(), traces.trace(has_costs=False)
        contents = json.dumps(config).encode(), traces.content(objects)
        script = printed("timeline", contents, patience, "seats")[1].decode()
        lines = lines_of(printed("simulate", contents, patience, "seats")[1].decode())
        _, answers, _ = replayed(config, printed("requests", contents[1:])[1], script)
        record = Record(config["limit"], trace_of(contents[1]), patience, lines_of(script), answers[:-4])
        name = f"replay of the script of {contents}, patience {patience}"
        tally.check(f"{name}: the rules", record.faults(), [])
        tally.check(f"{name}: the whole and the book", lines[-5:], [line_of_whole(config, record), *answers[-4:]])


def check_traces(command):
    """Each faulty trace, and those at the ends of what is allowed."""
    for content, *_ in FAULTY_ENDS if command not in PATIENT else all_faulty():
        taken = inputs(command, CONFIG, content, 0)
        # read in pieces, a trace may have any number of lines
        want = foreseen(command, *taken) if command in (*PATIENT, "hands") else (1, b"", f"{fault_line(content)}\n".encode())
        tally.check(f"{command} of {content[-300:]!r}", printed(command, *taken), want)
    for name, content, _ in good_ends():
        taken = inputs(command, CONFIG, content, 0)
        tally.check(f"{command} of {name}", printed(command, *taken), foreseen(command, *taken))


def check_reading(command):
    """Files that can't be read, and the order in which the files are read and judged, and the level is opened."""
    missing, good = os.path.join(files.folder.name, "missing"), [files("config", CONFIG), files("trace", LINE)]
    patience = ["0"] if command in PATIENT else []
    absent = f"cannot read trace: {missing}: there is no such file"
    folder = f"cannot read trace: {files.folder.name}: it is a folder"
    if command == "requests":
        # what does not print in a name, and what a terminal would obey, is escaped
        odd = (os.path.join(files.folder.name, "\x1b[2J\u202e\x7f"), f"cannot read trace: {files.folder.name}/\\u001b[2J\\u202e\\u007f: there is no such file")
        for path, line in ((missing, absent), (files.folder.name, folder), odd):
            tally.check(f"{command} {path}", run(program, [command, path]), (1, b"", f"apf: {line}\n".encode()))
        done = subprocess.run([program, command, "-"], input=LINE, capture_output=True, timeout=60)
        tally.check(f"{command} of a trace from a pipe", (done.returncode, done.stdout, done.stderr), foreseen(command, [LINE]))
        return
    narrow, zero, cut = files("narrow", b'{"limit":1,"queues":3}'), files("zero", b'{"limit":0}'), files("cut", LINE[:-1])
    no_hand = f"dealer fault 2: hand too large\n{narrow}: handSize is 8 and queues is 3: a hand can't have more queues than there are (8 and 64 if absent)"
    for words, line in [
        ((missing, missing), f"cannot read config: {missing}: there is no such file"),
        ((zero, missing), f"config fault 5: bad value of limit\n{zero}: limit is 0: it must be a whole number from 1 to 10000"),
        ((good[0], missing), absent),
        ((good[0], files.folder.name), folder),
        ((narrow, missing), absent),
        ((narrow, cut), "trace fault 11 at line 1: the last line has no LF at its end"),
        ((narrow, good[1]), no_hand),
    ]:
        tally.check(f"{command} {words}", run(program, [command, *words, *patience]), (1, b"", f"apf: {line}\n".encode()))
    twice = (2, b"", b"apf: standard input is named twice\n")
    tally.check(f"{command} of standard input twice", run(program, [command, "-", "-", *patience]), twice)
    done = subprocess.run([program, command, good[0], "-", *patience], input=LINE + LINE[:-1], capture_output=True, timeout=60)
    want = (1, b"", b"apf: trace fault 11 at line 2: the last line has no LF at its end\n")
    tally.check(f"{command} of a faulty trace from a pipe", (done.returncode, done.stdout, done.stderr), want)
    rejects = b'{"limit":1,"queues":3,"limitResponse":"Reject"}'
    taken = inputs(command, rejects, LINE, 0)
    tally.check(f"{command} on a level that rejects, no hand", printed(command, *taken), foreseen(command, *taken))


def trace_for_requests(size):
    """A trace whose requests file has this many bytes: 10,000 requests, of which the last has the name that is left."""
    count, plain = 10_000, len('{"schema":"","distinguisher":""}')
    left = size - len("[\n\n]\n") - count * plain - 2 * (count - 1)
    each, rest = divmod(left, count)
    lines = [f'{{"schema":"{"x" * (each + (rest if number == 0 else 0))}","distinguisher":"","arrivesAt":0,"runsFor":0}}\n' for number in range(count)]
    return "".join(lines).encode()


def check_size_of_requests():
    """What `requests` prints is a file that `replay` takes, or is refused."""
    most = 16_777_216
    status, out, err = run(program, ["requests", files("trace", trace_for_requests(most))])
    tally.check("requests of the most bytes", (status, len(out), err), (0, most, b""))
    taken = run(program, ["replay", files("config", CONFIG), files("requests", out), files("script", b"")])
    tally.check("replay takes requests of the most bytes", taken[0], 0)
    refused = run(program, ["requests", files("trace", trace_for_requests(most + 1))])
    tally.check("requests of one byte more", refused, (1, b"", f"apf: the requests would be too large: more than {most} bytes\n".encode()))


def check_words(command):
    """Words that the command line does not take, and output that can't be written."""
    paths = [files(name, content) for name, content in zip(("config", "trace"), (CONFIG, LINE))]
    paths = paths[1:] if command == "requests" else paths
    if command in PATIENT:
        # compare.py has all forms of a patience
        for patience in ("-1", "1000000001", "18446744073709551616", "1.0", "1e3", "x", ""):
            status, out, err = run(program, [command, *paths, patience])
            tally.check(f"{command} with the patience {patience!r}", (status, out, len(err) > 0), (2, b"", True))
        for patience in (0, 1_000_000_000):
            taken = [CONFIG, LINE], patience
            tally.check(f"{command} with the patience {patience}", printed(command, *taken), foreseen(command, *taken))
        paths.append("0")
        # what requests are charged is judged behind the patience, and before any file is read
        missing = [os.path.join(files.folder.name, "missing")] * 2
        for charge in ("", "Time", "seat", "time,seats", "width", "x"):
            for words in (paths, [*missing, "0"]):
                for option in ([f"--charge={charge}"], ["--charge", charge]):
                    got = run(program, [command, *words, *option])
                    tally.check(f"{command} charged by {option}", got, (2, b"", b"apf: --charge must be time or seats\n"))
        status, out, err = run(program, [command, *missing, "x", "--charge=x"])
        tally.check(f"{command} with a bad patience and a bad charge", (status, out, err), (2, b"", f"{simulation.BAD_PATIENCE}\n".encode()))
    for words in (paths[:-1], [*paths, "0"]):
        status, out, err = run(program, [command, *words])
        tally.check(f"{command} with {len(words)} words", (status, out, len(err) > 0), (2, b"", True))
    with open("/dev/full", "wb") as full:
        done = subprocess.run([program, command, *paths], stdin=subprocess.DEVNULL, stdout=full, stderr=subprocess.PIPE)
    tally.check(f"{command} on a full disk", (done.returncode, done.stderr), (1, b"apf: cannot write\n"))


@functools.lru_cache(maxsize=None)
def largest():
    """10,000 requests of 200 flows, with waits, full queues and requests that give up: the config, the trace, and the computation's run."""
    draw = random.Random(seed)
    config = b'{"limit":20,"queues":8,"handSize":2,"queueLengthLimit":4}'
    form = b'{"hash":%d,"arrivesAt":%d,"runsFor":%d,"width":%d}\n'
    lines = [form % (draw.randrange(200), draw.randrange(10**6), draw.randrange(3000), 1 + number % 3) for number in range(10_000)]
    content = b"".join(lines)
    return config, content, Run(config_of(config), trace_of(content), 2000)


def check_largest(command):
    """The largest number of requests."""
    config, content, made = largest()
    taken = inputs(command, config, content, 2000)
    got, took = processor_seconds(lambda: printed(command, *taken))
    of = {"requests": [made.trace], "hands": [made.config, made.trace]}.get(command, [made])
    want = 0, text_of(getattr(simulation, command)(*of)).encode(), b""
    tally.check(f"{command} of 10,000 requests", got, want)
    tally.check(f"{command} of 10,000 requests in well under ten seconds: {took:.2f} s", took < 10, True)
    if command == "simulate":
        # these happened
        nothing = [word for word in (b"queue-full 0 ", b"dispatched 0 ", b"struck 0\n") if word in want[1]]
        tally.check("10,000 requests wait, find full queues and give up", nothing, [])


def check_sizes():
    """A trace of the largest size, of lines of the largest size, and one byte more."""
    most, line = 67_108_864, LINE[:-1].ljust(65_536) + b"\n"
    content = line * (most // len(line))
    content += LINE[:-1].ljust(most - len(content) - 1) + b"\n"
    tally.check("the largest trace", len(content), most)
    tally.check("requests of the largest trace", printed("requests", [content]), foreseen("requests", [content]))
    large = (1, b"", b"apf: trace too large: more than 67108864 bytes\n")
    tally.check("a trace of one byte more", printed("requests", [content + b"x"]), large)


missing = [name for name in ("simulate", "timeline", "requests", "hands") if name not in COMMANDS]
if missing:
    print(f"not run, as the program has no such command: {', '.join(missing)}")
check_replays()
check_rules()
check_model()
check_judge()
check_examples()
check_drawn()
for command in COMMANDS:
    check_traces(command)
    check_reading(command)
    check_words(command)
    check_largest(command)
if "requests" in COMMANDS:
    check_sizes()
    check_size_of_requests()
if len(COMMANDS) == 4:
    check_circle()
tally.end()
