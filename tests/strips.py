"""The picture that `cluster --picture` draws, on the built program, against an independent computation: each column is the mean of what the independent
levels had in its time. Drawn clusters, one alone or two side by side, clusters worked by hand, and files that can't be written."""

import itertools
import json
import os
import random
import re
import sys
import xml.etree.ElementTree as tree

HERE = os.path.dirname(os.path.abspath(__file__))
sys.path.insert(0, os.path.join(HERE, "lib"))
from changes import Scenario
from clusters import EVERYTHING, Clusters, beside, level_of, log_of, parts_of, read_by, whole_cluster
from harness import Files, Tally, build, run
from lending import PERIOD, limit_of

tally = Tally()
program = build()
files = Files()
# the same draws each time; APF_SEED draws others
seed = int(os.environ.get("APF_SEED", "811"))
draw = random.Random(seed)
clusters = Clusters(draw)
DRAWN = int(os.environ.get("APF_CLUSTERS", "60"))
BINS, FIRST, WIDE, SECOND = 400, 1000, 880, 1_000_000
print(f"seed {seed}")


# ---- the independent columns


class Strip:
    """What is drawn of a level, until the end of the last period."""

    def __init__(self, part, end):
        run = part.run if part else None
        self.seats, self.waiting, self.rejected = [], [], []
        for it, asked in enumerate(run.trace if run else []):
            over = part.over(it)
            if it in run.started:
                self.seats.append((asked["width"], run.started[it], over))
            self.waiting.append((1, asked["arrivesAt"], run.started.get(it, over)))
            if run.level.decided[it] not in ("execute", "cancelled"):
                self.rejected.append((1, over, over + 1))
        limits = [] if part is None else part.limits or [limit_of(part.nominal)]
        times = [place * PERIOD for place in range(len(limits))] + [end]
        self.limit = [(limit, *span) for limit, span in zip(limits, zip(times, times[1:]))]

    def spans(self):
        return [*self.seats, *self.waiting, *self.rejected, *self.limit]

    def is_quiet(self):
        return not any(amount * (to - begin) for amount, begin, to in [*self.seats, *self.waiting, *self.rejected])


def means(spans, width):
    """The mean of each column in thousandths: of the time that it shares with each span, rounded down."""
    # what stands in a part of a column alone; and how much more the column has than the one before it of what stands in all of it
    sums, steps = [0] * (BINS + 1), [0] * (BINS + 1)
    for amount, begin, to in spans:
        first, last = begin // width, min(BINS, to // width)
        if first == last:
            sums[last] += amount * (to - begin)
        elif first < last:
            sums[first] += amount * ((first + 1) * width - begin)
            sums[last] += amount * (to - last * width)
            steps[first + 1] += amount
            steps[last] -= amount
    sums = [own + whole * width for own, whole in zip(sums[:BINS], itertools.accumulate(steps))]
    return [it * 1000 // width for it in sums], sums


def decimal(mean):
    return f"{mean // 1000}.{mean % 1000 // 100}"


def path(columns, heights, foot, first, width, end):
    """The way along the columns, which goes up or down where the height changes."""
    said = first
    for place in columns:
        if place == 0 or heights[place] != heights[place - 1]:
            said += f"H{min(place * width, end) * WIDE // end if end else 0}V{foot - heights[place]}"
    return said


def area(thousandths, high, foot, most, width, end):
    heights = [min(high, it // (most // high + 1)) for it in thousandths]
    return f"{path(range(BINS), heights, foot, f'M0 {foot}', width, end)}H{WIDE}V{foot}z"


def drawn_of(strip, exempt, width, end):
    """The numbers of a strip, and the paths of its seats, its limit, who waits and who was rejected."""
    of_seats, of_limit, of_waiting = (means(it, width)[0] for it in (strip.seats, strip.limit, strip.waiting))
    seats, limit, waiting = map(max, (of_seats, of_limit, of_waiting))
    most = seats if exempt else max(seats, limit)
    facts = f"seats in use at most {decimal(seats)}, {'no limit' if exempt else f'limit at most {decimal(limit)}'}, waiting at most {decimal(waiting)}, {len(strip.rejected)} rejected"
    paths = [("seats", area(of_seats, 60, 86, most, width, end))]
    if not exempt:
        heights = [min(60, it // (most // 60 + 1)) for it in of_limit]
        whole = min(BINS, max(1, end // width))
        paths.append(("limit", f"{path(range(1, whole), heights, 86, f'M0 {86 - heights[0]}', width, end)}H{WIDE}"))
    paths.append(("waiting", area(of_waiting, 24, 114, waiting, width, end)))
    marks = [place for place, it in enumerate(means(strip.rejected, width)[1]) if it]
    paths.append(("rejected", "".join(f"M{min(it * width, end) * WIDE // end if end else 0} 116v8" for it in marks)))
    return facts, paths


def expected(sides):
    """The strips of these parts of one cluster or two, with the ends of their last periods: of each the name, which cluster, the numbers and the paths."""
    strips = [({it.level["name"]: (it.level, Strip(it, end)) for it in parts}, end) for parts, end in sides]
    every = [it for those, _ in strips for _, it in those.values()]
    width = FIRST
    while BINS * width < max((to for it in every for _, _, to in it.spans()), default=0):
        width *= 2
    last = max((part.over(it) for parts, _ in sides for part in parts for it in range(len(part.run.trace))), default=0)
    said = []
    for name in {name: None for those, _ in strips for name in those}:
        level = next(those[name][0] for those, _ in strips if name in those)
        mine = [those[name][1] if name in those else Strip(None, end) for those, end in strips]
        if not all(it.is_quiet() for it in mine):
            words = [""] if len(mine) == 1 else [", first cluster", ", second cluster"]
            said += [(f"{shown_name(name)}{word}", *drawn_of(it, level["exempt"], width, last)) for word, it in zip(words, mine)]
    return said


def shown_name(name):
    """A name as a picture has it: a character that would turn its text round is a mark."""
    return name.replace("\u202e", "\ufffd")


# ---- what a picture shows

SVG = "{http://www.w3.org/2000/svg}"


def shown(svg):
    """The same, of a picture as a program drew it."""
    said = []
    for group in tree.fromstring(svg).iter(f"{SVG}g"):
        heading = group.find(f"{SVG}text[@class='part']")
        if heading is None:
            continue
        facts = heading.find(f"{SVG}tspan").text.split(", in columns of ")[0]
        paths = [(it.get("class"), it.get("d")) for it in group.findall(f"{SVG}path")]
        said.append((heading.text[:-1], facts, paths))
    return said


def drawn(name, words):
    """The lines that are printed beside a picture, and the picture."""
    target = os.path.join(files.folder.name, "picture.svg")
    got = run(program, [*words, "--picture", target])
    tally.check(f"{name}: the lines are those without a picture", got, run(program, words))
    with open(target, "rb") as file:
        return file.read()


def check(name, words, sides):
    svg = drawn(name, words)
    tally.check(name, shown(svg), expected(sides))
    text = svg.decode()
    tally.check(f"{name}: the numbers stand in the description too", [facts in text.split("<desc")[1].split("</desc>")[0] for _, facts, _ in expected(sides)], [True] * len(expected(sides)))
    tally.check(f"{name}: it needs nothing else", re.findall(r"<script|<image|@import|url\(|href", text), [])


def end_of(lender):
    return PERIOD * (len(lender.adjusted) + 1)


met = dict.fromkeys(["strips", "rejected", "waited", "two", "limits moved", "exempt"], 0)
for number in range(DRAWN):
    objects, levels, schemas = clusters.cluster()
    content = clusters.log([1000, 200_000, 500_000])
    seats, patience = draw.choice([1, 5, 20]), draw.choice([0, 1000, 700_000, 5 * SECOND])
    words = ["cluster", files("objects.json", json.dumps(objects)), files("audit.log", content), str(patience), "--seats", str(seats), "--flows", "0"]
    scenario = Scenario(levels, schemas, seats)
    two = draw.random() < 0.4
    if two:
        scenario.change("server.seats=*2")
        words += ["--set", "server.seats=*2"]
    read = read_by(schemas, content, scenario.schemas if two else None)
    if read.fault:
        continue
    start = read.requests[0][0] if read.requests else 0
    parts, lender = parts_of(levels, schemas, read, seats, patience, True, start)
    sides = [(parts, end_of(lender))]
    if two:
        others, other = parts_of(scenario.levels, scenario.schemas, beside(read, scenario), scenario.seats, patience, True, start)
        sides.append((others, end_of(other)))
    check(f"{number}: {seats} seats, {len(read.requests)} requests", words, sides)
    met["two"] += two
    met["strips"] += len(expected(sides))
    met["rejected"] += any(" 0 rejected" not in facts for _, facts, _ in expected(sides))
    met["waited"] += any("waiting at most 0.0" not in facts for _, facts, _ in expected(sides))
    met["limits moved"] += any(len({*it.limits}) > 1 for it in parts)
    met["exempt"] += any("no limit" in facts for _, facts, _ in expected(sides))
if DRAWN >= 60:
    tally.check(f"each was met: {met}", [it for it, often in met.items() if not often], [])

# ---- a cluster worked by hand

# five of ten seats: five run for 4 s, and five wait that long and run then; so 5 seats in use for 8 s, and 5 wait for 4 of them
level = level_of("busy", 50, (1, 1, 50))
rest = level_of("rest", 50)
schemas = [{"name": "busy", "level": "busy", "by": "user", "rules": [([("User", "busy")], *EVERYTHING)]}]
objects, *_ = whole_cluster([level, rest, level_of("catch-all", 0)], schemas)
words = ["cluster", files("objects.json", json.dumps(objects)), files("audit.log", log_of([("busy", 10, 0, 4)])), "60s", "--seats", "10"]
text = drawn("by hand", words).decode()
# the last limit is drawn to 10 s, so a column has 32 ms; the 125th is the first in which nobody waits
paths = dict(shown(text)[0][2])
tally.check("by hand: the numbers", shown(text)[0][:2], ("busy", "seats in use at most 5.0, limit at most 5.0, waiting at most 5.0, 0 rejected"))
tally.check("by hand: who waits", paths["waiting"], "M0 114H0V91H440V114H880V114z")
tally.check("by hand: the seats", paths["seats"], "M0 86H0V27H880V86H880V86z")
tally.check("by hand: the levels left out", "Left out: 3 levels to which nobody came" in text, True)

# ---- files

for name, why in ((os.path.join(files.folder.name, "none", "p.svg"), "there is no such folder"), (files.folder.name, "it is a folder")):
    status, out, err = run(program, [*words, "--picture", name])
    tally.check(f"a picture that can't be written: {why}", (status, out, err), (1, run(program, words)[1], f"apf: cannot write picture: {name}: {why}\n".encode()))
got = run(program, [*words, "--picture", "-"])
tally.check("a picture on standard output", got, (2, b"", b"apf: --picture must name a file, since standard output has the lines\n"))
for option in (["--picture", "p.svg"], ["--warm-up", "1s"]):
    got = run(program, [*words, "--level", "busy", "--trace", *option])
    tally.check(f"a trace with {option[0]}", got, (2, b"", b"apf: --trace simulates nothing: it goes with neither --warm-up nor --picture\n"))
status, out, err = run(program, [*words, "--warm-up", "soon"])
tally.check("a warm-up that is no time", (status, out, b"apf: --warm-up must be a number" in err), (2, b"", True))

tally.end()
