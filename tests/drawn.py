"""Drawn traces by a simulation in C, tests/lib/simulate.c. First it is compared with the independent computation in Python by small traces. Then `simulate` with
it, by 3,000 drawn traces of up to 10,000 requests, and by traces whose lines come as late as they may. Where one comes later, each command says so."""

import itertools
import json
import os
import random
import subprocess
import sys

sys.path.insert(0, os.path.join(os.path.dirname(os.path.abspath(__file__)), "lib"))
import simulation
from harness import Files, Tally, build, run
from in_c import compiled, level_of, run_of
from simulation import Run, words_of
from trace import request_of

tally = Tally()
program = build()
files = Files()
# the same draws each time; APF_SEED draws others
seed = int(os.environ.get("APF_SEED", "1056"))
draw = random.Random(seed)
TRACES = int(os.environ.get("APF_TRACES", "3000"))
SMALL = int(os.environ.get("APF_SMALL", "500"))
model = compiled(files, "simulate")
# how many places late a line may come
WINDOW = 131_072
print(f"seed {seed}")


def modelled(runs):
    """What the simulation in C prints of each of these runs."""
    done = subprocess.run([model, files("runs", "".join(run_of(*it) for it in runs))], stdin=subprocess.DEVNULL, stdout=subprocess.PIPE)
    tally.check("the status of the simulation in C", done.returncode, 0)
    return parts_of(done.stdout)


def printed(runs):
    """What the program prints of each."""
    script = ["exec 2>&1\n"]
    for number, (config, patience, charge, trace) in enumerate(runs):
        words = [program, "simulate", files(f"config-{number}", json.dumps(config)), trace, *words_of(patience, charge)]
        script.append(f"{' '.join(words)}\necho status $?\n")
    done = subprocess.run(["sh", files("script", "".join(script))], stdin=subprocess.DEVNULL, stdout=subprocess.PIPE)
    return parts_of(done.stdout)


def parts_of(output):
    """The output of runs, each of which ends with the line of its status."""
    parts, lines = [], []
    for line in output.decode().splitlines():
        lines.append(line)
        if line.startswith("status "):
            parts.append(lines)
            lines = []
    return [*parts, lines] if lines else parts


def drawn_level():
    if draw.random() < 0.05:
        return level_of(245, 128, 6)
    queues = draw.choice([0, 1, 2, 3, 4, 8, 8, 16, 64])
    return level_of(draw.choice([1, 2, 3, 5, 10, 20]), queues, draw.randint(1, min(queues or 1, 8)), draw.choice([1, 2, 5, 10, 50]))


def drawn_trace(config, count):
    """The lines of a trace that gives this level too little to do, or about enough, or too much; in order, nearly, or in none."""
    flows = [draw.choice([draw.randrange(20), draw.getrandbits(64), 512 * draw.randrange(12) + 3]) for _ in range(draw.choice([1, 2, 4, 10, 40, 500]))]
    runs = draw.choice([[0], [0, 10], [10, 20, 30], [0, 1, 5, 100], [50, 300, 20_000], [1000, 10_000_000_000], [*range(1000)]])
    widths = draw.choice([[1], [1, 1, 1, 2, 3], [1, 1, 2, 7, 30], [20_000, 1, 1, 1]])
    costs = draw.choice([[0], [0], [0], [0, 0, 1, 30, 9_999, 4_294_967_295]])
    mean = sum(runs) * sum(min(it, config["limit"]) for it in widths) // (len(runs) * len(widths))
    gap = mean * draw.choice([1, 4, 5, 5, 6, 15]) // (5 * config["limit"])
    gaps = draw.choice([[gap], [0, 0, 0, 4 * gap], [gap, gap // 2], [0, 1, 2 * gap]])
    times = [*itertools.accumulate(draw.choices(gaps, k=count))]
    late = draw.choice([[0], [0], [0, 0, 0, 10 * gap], [0, 0, 300 * gap], [10**12]])
    times = [max(0, min(10**12, time) - by) for time, by in zip(times, draw.choices(late, k=count))]
    if draw.random() < 0.1:
        draw.shuffle(times)
    lines = []
    for flow, width, cost, time, run in zip(*(draw.choices(it, k=count) for it in (flows, widths, costs)), times, draw.choices(runs, k=count)):
        more = f',"width":{width}' if width > 1 else ""
        lines.append(f'{{"hash":{flow}{more}{f",{chr(34)}cost{chr(34)}:{cost}" if cost else ""},"arrivesAt":{time},"runsFor":{run}}}\n')
    return lines


def drawn_run(count):
    """A level, a patience, by what requests are charged, and the lines of a trace."""
    config = drawn_level()
    patience = draw.choice([0, 1, 5, 20, 100, 1000, 1000, 100_000, 1_000_000_000])
    return config, patience, draw.choice([None, "time", "time", "seats"]), drawn_trace(config, count)


def stored(runs):
    """The same runs, each with its trace in a file."""
    return [(*how, files(f"trace-{number}", "".join(lines))) for number, (*how, lines) in enumerate(runs)]


def check_model():
    """The simulation in C, by the independent computation in Python."""
    runs = [drawn_run(draw.choice([0, 1, 5, 10, 20, 30, 30, 60])) for _ in range(SMALL)]
    got = modelled(stored(runs))
    tally.check("the small runs of the simulation in C", len(got), len(runs))
    for (config, patience, charge, lines), told in zip(runs, got):
        want = simulation.simulate(Run(config, [request_of(json.loads(it)) for it in lines], patience, charge))
        tally.check(f"the simulation in C of {config}, {lines}, patience {patience}, charge {charge}", told, [*want, "status 0"])


# what happens in a drawn run, and in how many of 3,000 at least
SEEN = {
    "a request that gave up": 500,
    "a full queue": 500,
    "no room on a level that rejects": 150,
    "more than 1,000 waited": 5,
    "more than 100 of a flow executed, with a wait": 60,
    "10,000 requests": 10,
}


def happenings(lines, count):
    if lines[-1] != "status 0":
        return []
    numbers = " ".join(lines).split()
    of = {name: int(numbers[len(numbers) - 1 - numbers[::-1].index(name) + 1]) for name in ("queue-full", "concurrency-limit", "dispatched", "struck")}
    waits = [line.split() for line in lines if line.startswith("flow ")]
    happens = {
        "a request that gave up": of["struck"],
        "a full queue": of["queue-full"],
        "no room on a level that rejects": of["concurrency-limit"],
        "more than 1,000 waited": of["dispatched"] > 1000,
        "more than 100 of a flow executed, with a wait": any(int(it[5]) > 100 and int(it[18]) > 0 for it in waits),
        "10,000 requests": count == 10_000,
    }
    return [what for what, is_so in happens.items() if is_so]


def drawn_count():
    kind = draw.random()
    if kind < 0.006:
        return 10_000
    return draw.randint(0, 30 if kind < 0.6 else 200 if kind < 0.9 else 1000 if kind < 0.99 else 4000)


def check_drawn():
    """Drawn traces, by the simulation in C. Before them one flow with the most waits of which each is kept, and with one more; and as many requests as may
    be there at once, one more, and fewer, on levels with more room and with as much."""
    seen = dict.fromkeys(SEEN, 0)
    one_flow = [f'{{"hash":5,"arrivesAt":{7 * it // 10 * 1000},"runsFor":{900 + it % 7}}}\n' for it in range(10_001)]
    at_once = [f'{{"hash":{it % 100},"arrivesAt":10,"runsFor":{1000 + it}}}\n' for it in range(10_001)]
    runs = [(level_of(1, 2, 1, 5000), 0, None, one_flow[:count]) for count in (10_000, 10_001)]
    runs += [(level, 0, None, at_once[:count]) for level in (level_of(1000, 64, 8, 1000), level_of(10_000, 0), level_of(9_999, 0)) for count in (10_000, 10_001)]
    # a level has no more slots than a short trace has requests
    few = [1, 2, 3, 4, 5, 16, 63, 64, 65, 1023, 1024, 1025, 9_999]
    runs += [(level, 0, None, at_once[:count]) for level in (level_of(10_000, 0), level_of(1, 1, 1, 10_000)) for count in few]
    runs += [drawn_run(drawn_count()) for _ in range(TRACES)]
    names = stored(runs)
    got, want = printed(names), modelled(names)
    tally.check("the drawn runs", (len(got), len(want)), (len(runs), len(runs)))
    for (config, patience, charge, lines), told, foreseen in zip(runs, got, want):
        name = f"simulate of {config}, {len(lines)} requests as {lines[:40]}, patience {patience}, charge {charge}"
        tally.check(name, told, foreseen)
        for what in happenings(foreseen, len(lines)):
            seen[what] += 1
    tally.check("of 10,000 waits percentiles are exact, and of 10,001 they are not", ["~" in want[it][0] for it in (0, 1)], [False, True])
    tally.check("10,001 requests are more than may be there", [it[-1] for it in want[2:8]], ["status 0", "status 1"] * 2 + ["status 0"] * 2)
    tally.check("of a short trace all may be there at once", {it[-1] for it in got[8 : 8 + 2 * len(few)]}, {"status 0"})
    for what, count in seen.items():
        print(f"in {count} runs there is {what}")
        tally.check(f"in many runs there is {what}: {count}", count >= SEEN[what] * TRACES // 3000, True)


def check_late():
    """Of more lines than the reader holds each may come so many places late: the simulation in C has sorted them all. One more place is too late, and then
    nothing is printed."""
    level, first = level_of(20, 8, 2, 10), '{"hash":99,"arrivesAt":0,"runsFor":500}\n'
    lines = [f'{{"hash":{it % 40},"arrivesAt":{10 * it},"runsFor":{it % 401}}}\n' for it in range(1, WINDOW + 3)]
    late = {
        "the first request on a line so many places late": [*lines[:WINDOW], first, *lines[WINDOW:]],
        "as many lines and one, in the order of the latest": lines[WINDOW::-1],
    }
    runs = stored([(level, 1000, None, it) for it in late.values()])
    for name, told, foreseen in zip(late, printed(runs), modelled(runs)):
        tally.check(f"{name}: it is simulated", foreseen[-1], "status 0")
        tally.check(f"{name}: simulate", told, foreseen)
    config = files("config", json.dumps(level))
    too_late = {
        "one place more": [*lines[: WINDOW + 1], first],
        "one line more, in the order of the latest": lines[::-1],
    }
    each = [["simulate", config], ["compare", config, config], ["fates", config], ["timeline", config], ["picture", config], ["hands", config]]
    for name, lines in too_late.items():
        trace = files("trace", "".join(lines))
        said = f"apf: trace fault 13 at line {WINDOW + 2}: arrives more than {WINDOW} requests late\n"
        for words in each if lines[-1] == first else each[:1]:
            patience = [] if words[0] == "hands" else ["0"]
            tally.check(f"{name}: {words[0]}", run(program, [*words, trace, *patience]), (1, b"", said.encode()))


check_model()
check_drawn()
check_late()
tally.end()
