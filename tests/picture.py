"""The picture of a run. First an independent computation of the SVG (lib/picture.py), judged on drawn traces by what an XML reader
finds in it: numbers, names, bars, ticks, rows, queues, seats and colours. Then what the program prints."""

import functools
import itertools
import json
import os
import random
import re
import subprocess
import sys
import xml.etree.ElementTree as ElementTree

sys.path.insert(0, os.path.join(os.path.dirname(os.path.abspath(__file__)), "lib"))
from harness import TOP, Files, Tally, build, run
from judge import Refused, config_of
from colours import EYES, contrast, least_beside, least_distance, least_lightness
from picture import COLUMNS, Picture, Stretch, width
from simulation import Run, answer, flows_of, words_of
from trace import trace_of
from traces import Traces

SVG = "{http://www.w3.org/2000/svg}"
EXAMPLE = os.path.join(TOP, "examples", "noisy-client")
# what the picture of the example is drawn with
PATIENCE = 8_000_000
SMALL = b'{"limit":2,"queues":2,"handSize":1,"queueLengthLimit":2}'
LINE = b'{"hash":0,"arrivesAt":0,"runsFor":0}\n'

tally = Tally()
program = build()
files = Files()
# the same draws each time; APF_SEED draws others
seed = int(os.environ.get("APF_SEED", "1040"))
traces = Traces(random.Random(seed))
TRACES = int(os.environ.get("APF_TRACES", "100"))
print(f"seed {seed}")


def picture(run):
    return Picture(run).text()


def foreseen(config, trace, patience, charge=None):
    """The status, output and errors of the command."""
    return answer(lambda made: Picture(made).lines(), (config, trace), patience, charge)


# what a reader of the SVG finds


def of_class(element, name):
    """The elements of a class, without that of the key to the ticks."""
    return [it for it in element.iter() if name in it.get("class", "").split()]


def steps(path):
    """The heights of an area at each column: of `M0 140H..V..H880V140z` the last V before or at it."""
    changes = [(int(x), int(y)) for x, y in re.findall(r"H(\d+)V(\d+)", path.get("d"))][:-1]
    heights = []
    for (x, y), (end, _) in zip(changes, [*changes[1:], (COLUMNS, 0)]):
        heights += [y] * (end - x)
    return heights


@functools.lru_cache(maxsize=1)
def seats_taken(made):
    """By the calls of the run: when each request started, when it was finished, and its seats."""
    ended = {it: time for time, kind, it in made.calls if kind == 0}
    return [(start, ended[it], made.trace[it]["width"]) for it, start in made.started.items()]


def seats_in_use(made, time):
    """What had been started and not finished when the time came to its end."""
    return sum([width for start, end, width in seats_taken(made) if start <= time < end])


def most_in_use(made):
    """The most seats at any time: more are in use than before only where a request starts."""
    return max((seats_in_use(made, time) for time in set(made.started.values())), default=0)


def most_waiting(made):
    """The most that wait in one queue at any time, by the events of the level and the calls of the run."""
    entered = {request: queue for kind, request, queue in made.level.log if kind == "enter"}
    stays = [(queue, made.trace[it]["arrivesAt"], made.waited_until[it]) for it, queue in entered.items()]
    return max((sum(other == queue and begin <= time < end for other, begin, end in stays) for queue, time, _ in stays), default=0)


def part(root, title):
    """The group whose heading begins so."""
    return next(it for it in root.iter(f"{SVG}g") if (head := it.find(f"{SVG}text[@class='part']")) is not None and head.text.startswith(title))


def numbers_beside(group):
    """The heights and the numbers at the left of a plot."""
    return [(int(it.get("y")), int(it.text)) for it in group.iter(f"{SVG}text") if it.get("x") == "-6"]


def judged(name, text, made):
    """Checks a picture of this run by what an XML reader finds in it."""
    root = ElementTree.fromstring(text)
    decided = made.level.decided
    counts = [sum(decided[it] == "execute" for it in decided), 0, sum(decided[it] == "cancelled" for it in decided)]
    counts[1] = len(made.trace) - counts[0] - counts[2]
    tally.check(f"{name}: a picture for who does not see it", (root.tag, root.get("role"), root.get("aria-labelledby")), (f"{SVG}svg", "img", "title desc"))
    tally.check(f"{name}: a title and a description", [root.find(f"{SVG}{it}").get("id") for it in ("title", "desc")], ["title", "desc"])
    title, words = (root.find(f"{SVG}{it}").text for it in ("title", "desc"))
    flows = flows_of(made.trace)
    found = re.fullmatch(r"(\d+) requests? of (\d+) flows?( of .*)? on (\d+) seats?(?:, names begin with .*)?", title, re.DOTALL)
    tally.check(f"{name}: the title's numbers", [int(it) for it in found.group(1, 2, 4)], [len(made.trace), len(flows), made.config["limit"]])
    schemas = {(made.trace[members[0]]["names"] or [None])[0] for members in flows.values()}
    tally.check(f"{name}: the schema stands in the title if all flows share it", found[3] is not None, len(schemas) == 1 and None not in schemas)
    settings = [it.text for it in root.iter(f"{SVG}text") if it.get("class") == "note"][1]
    tally.check(f"{name}: the settings", [int(it) for it in re.findall(r"\d+", settings.split(", patience ")[0])], settings_of(made))
    tally.check(f"{name}: the patience", patience_in(settings), made.patience)
    tally.check(f"{name}: the settings in the description", f"The level: {settings}. " in words, True)
    tally.check(f"{name}: the description's numbers", [int(it) for it in re.findall(r"(\d+) (?:executed|rejected|gave up)", words)][:3], counts)
    tally.check(f"{name}: who gave up has a number", " gave up after at most " in words.split(". ")[0], counts[2] > 0)
    others = [it for it in root.iter() if it.tag.split("}")[1] in ("script", "image", "use", "a", "foreignObject")]
    tally.check(f"{name}: nothing but its own", (others, re.findall(r"href|url\(|@import|https?://(?!www\.w3\.org/2000/svg\")", text)), ([], []))
    # the rows, those first that waited longest
    labels = [it for it in root.iter(f"{SVG}text") if it.get("x") == "16"]
    tally.check(f"{name}: no label is too wide", [it.text for it in labels if width(it.text) > 42], [])
    titles = [it.find(f"{SVG}title") for it in root.iter(f"{SVG}g") if it.find(f"{SVG}text[@x='16']") is not None]
    tally.check(f"{name}: each row has a title, and the description all of them", [it.text for it in titles if f" {it.text}, " not in words], [])
    called = [(it.text, label.text) for it, label in zip(titles, labels)]
    tally.check(f"{name}: rows of two names are called by two", [1 for one, two in itertools.combinations(called, 2) if one[0] != two[0] and one[1] == two[1]], [])
    waited = sorted((sum(map(made.wait, members)) for members in flows.values()), reverse=True)
    rows = {re.sub(r"[^0-9a-f]", "", it.text): it for it in labels}
    own = [sum(map(made.wait, flows[int(it, 16)])) for it in rows if len(it) == 16 and int(it, 16) in flows]
    tally.check(f"{name}: no row waited longer than the one before", own, sorted(own, reverse=True))
    if len(own) == min(len(flows), 12):
        tally.check(f"{name}: the rows are those that waited longest", own, waited[:12])
    bars = of_class(root, "bars")
    tally.check(f"{name}: the rows", len(bars), min(len(flows), 13))
    tally.check(f"{name}: a bar for each request that was not rejected", sum(it.get("d").count("M") for it in bars), counts[0] + counts[2])
    tally.check(f"{name}: no bar leaves the plot", [it for path in bars for it in re.findall(r"M(\d+) \d+h(\d+)", path.get("d")) if int(it[0]) + int(it[1]) > COLUMNS + 1], [])
    for kind, count in (("rejected", counts[1]), ("gave-up", counts[2])):
        tally.check(f"{name}: ticks of {kind}", sum(it.get("d").count("M") for it in of_class(root, kind)), count + 1)
    # the seats: the last area that is drawn is the first row's, and the first one is of all
    limit, most = made.config["limit"], most_in_use(made)
    heights = [steps(it) for it in root.iter(f"{SVG}path") if re.fullmatch(r"f\d+", it.get("class"))]
    tally.check(f"{name}: the areas", len(heights), len(bars))
    if heights:
        seats = [seats_in_use(made, column * made.end() // COLUMNS) for column in range(COLUMNS)]
        tally.check(f"{name}: the seats in use", heights[0], [140 - it * 130 // max(most, limit) for it in seats])
        tally.check(f"{name}: no area is above that of all", [1 for above, below in zip(heights, heights[1:]) if any(a > b for a, b in zip(above, below))], [])
    group = part(root, "Seats in use")
    tally.check(f"{name}: the most seats over time", group.find(f"{SVG}text/{SVG}tspan").text, f"by flow, at most {most}; the limit is {limit}")
    tally.check(f"{name}: the most seats over time, in the description", f"Seats in use by flow: at most {most}." in words, True)
    beside = numbers_beside(group)
    tally.check(f"{name}: the numbers beside the seats", sorted(it for _, it in beside), sorted([0, limit] + [most] * (most > limit)))
    tally.check(f"{name}: a peak has a tick", len(of_class(group, "peak")), int(most > limit))
    tally.check(f"{name}: numbers have room", [1 for (one, _), (other, _) in itertools.combinations(beside, 2) if abs(one - other) < 11], [])
    # the axis, above and below
    marks = len(re.findall("M", of_class(root, "line")[0].get("d")))
    times = [[(it.get("x"), it.text) for it in group] for group in root.iter(f"{SVG}g") if group.get("text-anchor") == "middle"]
    tally.check(f"{name}: marks of the axis", (2 <= marks <= 11 or made.end() == 0, len(times), times[0] == times[1], len(times[0])), (True, 2, True, marks))
    tally.check(f"{name}: no colour of eight digits", re.findall(r"#[0-9a-f]{8}", text), [])
    # the queues
    queues = {queue for kind, _, queue in made.level.log if kind == "enter"}
    found = re.search(r"Queues used: (\d+), at most (\d+) waiting in one\.", words)
    tally.check(f"{name}: the queues, and the most over time", [int(it) for it in found.groups()], [len(queues), most_waiting(made)])
    shown = [it for it in root.iter(f"{SVG}text") if it.get("class") == "part" and it.text.startswith("Queues")]
    tally.check(f"{name}: a level that rejects has no part of queues", len(shown), int(made.config["limitResponse"] != "Reject"))
    if not shown:
        return
    tally.check(f"{name}: the scale of shades", scale_of(root), [0.12 * shade for shade in range(1, 9)])
    beside = numbers_beside(part(root, "Queues"))
    numbers = [it for _, it in beside]
    tally.check(f"{name}: numbers of queues", (set(numbers) <= queues, numbers), (True, sorted(numbers)))
    tally.check(f"{name}: no more numbers than have room", [1 for (one, _), (other, _) in zip(beside, beside[1:]) if other - one < 11], [])


def patience_in(settings):
    """The patience of the settings, in microseconds."""
    number, unit = re.fullmatch(r".*, patience (\d+)(?: (s|ms|\xb5s)|: nobody gives up)", settings).groups()
    return int(number) * {"s": 1_000_000, "ms": 1000}.get(unit, 1)


def scale_of(root):
    """The shades of the scale, from left to right."""
    shades = [it for it in part(root, "Queues").findall(f"{SVG}path") if it.get("class") == "shade"]
    tally.check("a shade of the scale begins where the one before ends", [int(re.match(r"M(\d+) ", it.get("d"))[1]) for it in shades], [763 + 11 * it for it in range(8)])
    return [float(it.get("stroke-opacity")) for it in shades]


def settings_of(made):
    """The numbers of the level's settings."""
    if made.config["limitResponse"] == "Reject":
        return [made.config["limit"]]
    return [made.config[it] for it in ("limit", "queues", "handSize", "queueLengthLimit")]


def check_colours():
    """The rows are told apart on grey paper, and by each kind of colour blindness, on a light page and on a dark one."""
    style = re.search(r"<style>(.*)</style>", picture(Run(config_of(SMALL), [], 0)), re.DOTALL)[1]
    for page, text in zip(("light", "dark"), style.split("@media(prefers-color-scheme:dark)")):
        colours = re.findall(r"\.f\d+\{fill:(#[0-9a-f]{6})\}", text)
        tally.check(f"the colours of a {page} page", len(colours), 13)
        if page == "light":
            tally.check("each colour has a contrast of 3 to a white page", [it for it in colours if contrast(it, "#ffffff") < 3], [])
        least = least_lightness(colours), least_beside(colours), least_lightness(colours[:4])
        tally.check(f"the lightness on a {page} page: {least}", [it >= bound for it, bound in zip(least, (4, 17, 13))], [True] * 3)
        for eye in EYES:
            distance = least_distance(colours, eye)
            tally.check(f"the distance on a {page} page, {eye}: {distance:.1f}", distance >= 14, True)


def check_model():
    for number in range(TRACES):
        config, (objects, patience) = traces.config(), traces.trace()
        made = Run(config, trace_of(traces.content(objects)), patience, traces.charge())
        judged(f"the picture {number} of {config}, {objects}, patience {patience}", picture(made), made)


def example():
    return [open(os.path.join(EXAMPLE, name), "rb").read() for name in ("config.json", "trace.jsonl", "picture.svg")]


def check_example():
    """The picture of the repository is that of its files, and the trace that of its maker."""
    config, trace, stored = example()
    made = Run(config_of(config), trace_of(trace), PATIENCE)
    text = picture(made)
    tally.check("the picture of the example", text.encode() == stored, True)
    judged("the picture of the example", text, made)
    maker = os.path.join(TOP, "examples", "noisy-trace.py")
    tally.check("the trace of the example", subprocess.run([sys.executable, maker], stdout=subprocess.PIPE).stdout == trace, True)


def check_sizes():
    """A thousand requests are below 300 kB, whatever they are: each has a bar, or a tick, and at most two changes of its queue's shade."""
    draw = random.Random(seed)
    config = config_of(b'{"limit":7,"queues":64,"handSize":3,"queueLengthLimit":3}')
    lines = [b'{"hash":%d,"arrivesAt":%d,"runsFor":%d}\n' % (draw.randrange(40) ** 3, draw.randrange(10**6), draw.randrange(9000)) for _ in range(1000)]
    made = Run(config, trace_of(b"".join(lines)), 2500)
    size = len(picture(made).encode())
    tally.check(f"the picture of 1,000 requests: {size} bytes", size < 300_000, True)


NO_TIME = b"apf: --%s must be a number with m, s, ms or us behind it, as 1.5s, or a whole number of microseconds: at most 200000000 seconds\n"
BEFORE = b"apf: --to is before --from\n"
# a time as a command line has it, and its microseconds, None where it is none
TIMES = [
    ("0", 0),
    ("1000000001", 1_000_000_001),
    ("200000000000000us", 200_000_000_000_000),
    ("200000000000001us", None),
    ("200000000s", 200_000_000_000_000),
    ("200000001s", None),
    ("3333333.2m", 199_999_992_000_000),
    ("3333333.5m", None),
    ("90.5s", 90_500_000),
    ("2s", 2_000_000),
    ("18446744073709551616", None),
    ("18446744073709551615m", None),
    ("-1", None),
    ("1 s", None),
    ("x", None),
    ("", None),
]

# rows by hand, by seats: a level, a trace, a patience, and how many times each of some parts stands in the picture

ROOM = b'{"limit":100,"queues":2,"handSize":1}'


def named(*flows, runs=10):
    """A request of each flow, all at once."""
    return b"".join(json.dumps({"schema": schema, "distinguisher": name, "arrivesAt": 0, "runsFor": runs}).encode() + b"\n" for schema, name in flows)


def hashed(*requests):
    """Requests: the hash, the two times and the width of each."""
    return b"".join(b'{"hash":%d,"arrivesAt":%d,"runsFor":%d,"width":%d}\n' % it for it in requests)


# A crawler sends six requests at once: two execute, two wait in queue 1 and give up after 90, and two are rejected. Three requests of another flow
# execute, after waits of 50, 60 and 0 in queue 0. A column is 420 / 880 of a microsecond. Two seats are in use up to 100, one up to 120, two up to
# 140, and one from 400 on. Two wait in queue 1 up to 90, and in queue 0 one from 50, two from 60 and one from 100 to 120.
CRAWLED = hashed(*[(9, 0, 100, 1)] * 6, (4, 50, 20, 1), (4, 60, 20, 2), (4, 400, 20, 1))
LONG = "system:serviceaccount:kube-system:generic-garbage-collector"
WIDE = "\u4e00\u4e8c\u4e09\u56db\u4e94\u516d\u4e03\u516b\u4e5d\u5341"
BY_HAND = [
    (
        "a crawler",
        SMALL,
        CRAWLED,
        90,
        {
            '<title id="title">9 requests of 2 flows on 2 seats</title>': 1,
            ">5 executed, 2 rejected, 2 gave up after at most 90 &#181;s, longest wait 60 &#181;s, 420 &#181;s in all": 2,
            ">6 requests: 2 executed, 2 rejected, 2 gave up after at most 90 &#181;s, longest wait 0 &#181;s<": 1,
            "limit 2, queues 2, hand size 1, queue length limit 2, patience 90 &#181;s": 2,
            "s. Seats in use by flow: at most 2. Queues used: 2, at most 2 waiting in one. 0000000000000009, ": 1,
            "0000000000000004, 3 requests: 3 executed, 0 rejected, 0 gave up, longest wait 60 &#181;s.</desc>": 1,
            '<path class="f0" d="M0 140H0V10H210V140H880V140z"/>': 1,
            '<path class="f1" d="M0 140H0V10H210V75H252V10H294V140H839V75H880V140z"/>': 1,
            '<path class="limit" d="M0 10h880"/>': 1,
            'stroke-opacity=".48" d="M105 5h21M210 5h42"/>': 1,
            'stroke-opacity=".96" d="M126 5h84M0 15h189"/>': 1,
            'text-anchor="end">1</text>': 1,
            'd="M0 1h1M0 3h1M0 5h188M0 7h188"/>': 1,
            'd="M104 1h105M125 3h126M838 5h1"/>': 1,
            '<path class="rejected" d="M0 0v8M0 0v8"/>': 1,
            '<path class="gave-up" d="M188 0l3 7h-6zM188 0l3 7h-6z"/>': 1,
        },
    ),
    ("nobody", SMALL, b"", 0, {">0 requests of 0 flows on 2 seats</title>": 1, '<path class="line" d="M0 0v230"/>': 1, ">0 queues used": 1}),
    # A request that is wider than the limit, between two columns: its seats are the most, and have a tick of their own. The number of the limit makes
    # room for it.
    (
        "a peak between columns",
        SMALL,
        hashed((0, 5, 1, 3), (1, 5, 1, 1), (1, 99_999, 1, 1)),
        0,
        {
            "by flow, at most 3; the limit is 2<": 1,
            "in use by flow: at most 3. Queues used: 1, at most 1 waiting": 1,
            '<path class="peak" d="M-4 10h4"/>\n<text class="small" x="-6" y="14" text-anchor="end">3</text>': 1,
            'd="M0 54h880"/>\n<text class="small" x="-6" y="58" text-anchor="end">2</text>': 1,
            'd="M0 140H0V140H880V140z"': 2,
        },
    ),
    # each character that XML gives a meaning, and some that it does not allow
    (
        "names that are escaped",
        ROOM,
        named(('a "<&>" b', "\0\x1f\ufffe\uffff\x7f\u00e9'\U0001f600")),
        0,
        {
            ">1 request of 1 flow of a &quot;&lt;&amp;&gt;&quot; b on 100 seats</": 2,
            "y=\"14\">&#65533;&#65533;&#65533;&#65533;&#65533;\u00e9'\U0001f600 <tspan": 1,
        },
    ),
    # of a long name the beginning and the end are shown, in seventeen columns each; the description has the whole
    (
        "names that are cut",
        ROOM,
        named(("s", LONG), ("s", "012345678901234567890123456789012345"), ("s", "")),
        0,
        {
            'y="14">system:serviceac&#8230;garbage-collector <tspan': 1,
            f". {LONG}, 1 request: ": 1,
            'y="14">012345678901234567890123456789012345 <tspan': 1,
            'y="14">&quot;&quot; <tspan': 1,
        },
    ),
    # what all names share is left out up to its last separator: it stands in the title, and in a line of its own
    (
        "names that begin alike",
        ROOM,
        named(("s", LONG), ("s", "system:serviceaccount:kube-system:default"), ("s", "system:serviceaccount:kube-node-lease:default")),
        0,
        {
            " on 100 seats, names begin with system:serviceaccount:kube-</title>": 1,
            ' y="79">names begin with system:serviceaccount:kube-</text>': 1,
            'y="14">system:generic-garbage-collector <tspan': 1,
            'y="14">system:default <tspan': 1,
            'y="14">node-lease:default <tspan': 1,
            f"<title>{LONG}</title>": 1,
        },
    ),
    # nothing is left out if there is room for each name, or if one name shares nothing
    (
        "names that begin alike and are short",
        ROOM,
        named(("s", "system:node:a"), ("s", "system:node:b")),
        0,
        {'y="14">system:node:a <tspan': 1, "names begin": 0},
    ),
    # names are cut where they differ
    (
        "names that differ in their middle",
        ROOM,
        named(("s", 20 * "a" + "1" + 20 * "b"), ("s", 20 * "a" + "2" + 20 * "b")),
        0,
        {f'y="14">{20 * "a"}1&#8230;{13 * "b"} <tspan': 1, f'y="14">{20 * "a"}2&#8230;{13 * "b"} <tspan': 1, "names begin": 0},
    ),
    # if no place shows where two names differ, the rows have numbers
    (
        "names that look alike",
        ROOM,
        named(("s", 50 * "a" + "1" + 50 * "b"), ("s", 50 * "a" + "2" + 50 * "b"), ("s", "c")),
        0,
        {f'y="14">1: {17 * "a"}&#8230;{17 * "b"} <tspan': 1, f'y="14">2: {17 * "a"}&#8230;{17 * "b"} <tspan': 1, 'y="14">3: c <tspan': 1},
    ),
    # two control characters are drawn with one mark
    (
        "names of control characters",
        ROOM,
        named(("s", 18 * "\1"), ("s", 18 * "\2"), ("s", 19 * "\x7f")),
        0,
        {f'y="14">1: {18 * "&#65533;"} <tspan': 1, f'y="14">2: {18 * "&#65533;"} <tspan': 1, f'y="14">3: {8 * "&#65533;"}&#8230;{8 * "&#65533;"} <tspan': 1},
    ),
    # the first character and the last one of each kind is drawn with a mark, in the label, the title of the row and the description; the one before
    # it and the one behind it are drawn as they are
    (
        "names that turn the direction of writing",
        ROOM,
        named(("s", "a\u202eb\u202a\u2029\u202f"), ("s", "\x7f\x9f~\xa0"), ("s", "\u061c\u061b\u061d"), ("s", "\u2066\u2069\u2065\u206a"), ("s", "\u200e\u200f\u200d\u2010")),
        0,
        {
            ">a&#65533;b&#65533;\u2029\u202f<": 1,
            ">a&#65533;b&#65533;\u2029\u202f <tspan": 1,
            ". a&#65533;b&#65533;\u2029\u202f, 1 request: ": 1,
            'y="14">&#65533;&#65533;~\xa0 <tspan': 1,
            'y="14">&#65533;\u061b\u061d <tspan': 1,
            'y="14">&#65533;&#65533;\u2065\u206a <tspan': 1,
            'y="14">&#65533;&#65533;\u200d\u2010 <tspan': 1,
        },
    ),
    # a level without queues has no part of them
    (
        "a level that rejects",
        b'{"limit":1,"limitResponse":"Reject"}',
        hashed(*[(9, 0, 100, 1)] * 2),
        90,
        {
            "limit 1, no queues: what does not fit is rejected, patience 90 &#181;s<": 1,
            "limit 1, no queues: what does not fit is rejected, patience 90 &#181;s. Seats": 1,
            ">Queues <tspan": 0,
            '<g transform="translate(48 298)">': 1,
        },
    ),
    # the times of the axis have the units of the length of the run
    ("an axis in tenths", ROOM, hashed((1, 0, 1_500_000, 1)), 0, {", 1.5 s in all<": 1, ">0.0 s<": 2, ">0.2 s<": 2, ">1.4 s<": 2}),
    ("an axis in minutes and seconds", ROOM, hashed((1, 0, 90_000_000, 1)), 0, {", 1 min 30 s in all<": 1, ">0 min 0 s<": 2, ">1 min 10 s<": 2}),
    # wide letters take two columns
    (
        "names of wide letters",
        ROOM,
        named(("s", WIDE + WIDE[:8]), ("s", WIDE + WIDE[:9]), ("s", 18 * "W" + "M")),
        0,
        {f'y="14">{WIDE + WIDE[:8]} <tspan': 1, f'y="14">{WIDE[:8]}&#8230;{(WIDE + WIDE[:9])[-8:]} <tspan': 1, 'y="14">WWWWWWWW&#8230;WWWWWWWM <tspan': 1},
    ),
    # where not all flows share their schema, it stands in each label and not in the title
    (
        "two schemas",
        ROOM,
        named(("0123456789abcdef", "alice"), ("b", "0123456789abcdefghijklnopq")),
        0,
        {
            ">2 requests of 2 flows on 100 seats</": 2,
            'y="14">012345&#8230;abcdef / alice <tspan': 1,
            'y="14">b / 012345678&#8230;hijklnopq <tspan': 1,
            " b / 0123456789abcdefghijklnopq, 1 request: ": 1,
        },
    ),
    # the flow that waited longest in sum comes first, though another one has more requests and a longer wait
    (
        "the longest waits in sum",
        b'{"limit":1,"queues":2,"handSize":1}',
        hashed((3, 0, 5, 1), (2, 0, 1, 1), (2, 0, 1, 1)) + b'{"hash":1,"arrivesAt":0,"runsFor":1,"cost":20000}\n' + hashed((1, 100, 1, 1), (1, 200, 1, 1)),
        0,
        {
            'class="f0" y="5" width="10" height="10" rx="2"/>\n<text x="16" y="14">0000000000000002 <tspan class="note">2 requests: 2 executed, 0 rejected, 0 gave up, longest wait 6 ': 1,
            '>0000000000000001 <tspan class="note">3 requests: 3 executed, 0 rejected, 0 gave up, longest wait 7 ': 1,
        },
    ),
    # of fourteen flows the last has two requests, and the others one each: so it comes first, and the two before it have no row
    (
        "fourteen flows",
        ROOM,
        hashed(*((it, 0, 10, 1) for it in (*range(14), 13))),
        0,
        {
            'y="14">000000000000000d <tspan class="note">2 requests: 2 executed, 0 rejected, 0 gave up, longest wait 0 &#181;s<': 1,
            'y="14">000000000000000a <tspan class="note">1 request: 1 executed': 1,
            'y="14">2 other flows <tspan class="note">2 requests: 2 executed': 1,
            '<path class="bars ': 13,
        },
    ),
]


def check_by_hand():
    for name, config, trace, patience, parts in BY_HAND:
        status, out, err = printed(config, trace, patience, "seats")
        text = out.decode()
        tally.check(f"{name}: a picture", (status, err), (0, b""))
        for part, count in parts.items():
            tally.check(f"{name}: {part}", text.count(part), count)
        tally.check(f"{name}: as the model has it", (status, out, err), foreseen(config, trace, patience, "seats"))
    # a thousand requests of thirty flows, which wait in 64 queues
    config, trace = b'{"limit":40,"queues":64,"handSize":1}', hashed(*((it % 30, 7 * it, it % 97, 40) for it in range(1_000)))
    out = printed(config, trace, 0)[1]
    tally.check(f"a thousand requests: {len(out)} bytes", (out.count(b">18 other flows <tspan"), len(out) < 300_000), (1, True))
    tally.check("a thousand requests, as the model has them", out, foreseen(config, trace, 0)[1])


# the command


def printed(config, trace, *how):
    return run(program, ["picture", files("config", config), files("trace", trace), *words_of(*how)])


def check_drawn():
    for number in range(TRACES):
        config, (objects, patience) = traces.config(), traces.trace()
        taken = json.dumps(config).encode(), traces.content(objects), patience, traces.charge()
        tally.check(f"the picture of {taken}", printed(*taken), foreseen(*taken))


def check_command():
    config, trace, stored = example()
    tally.check("the picture of the example, by the program", printed(config, trace, PATIENCE), (0, stored, b""))
    for name, content in (("no request", b""), ("one request of no time", LINE), ("a cut file", LINE[:-1])):
        tally.check(f"a picture of {name}", printed(SMALL, content, 0), foreseen(SMALL, content, 0))
    with open("/dev/full", "wb") as full:
        words = [program, "picture", files("config", SMALL), files("trace", LINE), "0"]
        done = subprocess.run(words, stdin=subprocess.DEVNULL, stdout=full, stderr=subprocess.PIPE)
    tally.check("a picture on a full disk", (done.returncode, done.stderr), (1, b"apf: cannot write\n"))


# a stretch of a run


def stretched(config, trace, patience, charge, *words):
    """What the command prints with these words behind the others."""
    return run(program, ["picture", files("config", config), files("trace", trace), *words_of(patience, charge), *words])


def edge(time, draw):
    """A time in one of the forms that a command line takes."""
    forms = [str(time), f"{time}us", f"{time // 1000}.{time % 1000:03}ms", f"{time // 10**6}.{time % 10**6:06}s"]
    return draw.choice(forms)


def check_stretches():
    draw = random.Random(seed + 1)
    for number in range(TRACES):
        config, (objects, patience) = traces.config(), traces.trace()
        taken = json.dumps(config).encode(), traces.content(objects), patience, traces.charge()
        made = Run(config, trace_of(taken[1]), patience, taken[3])
        begin, end = sorted(draw.randrange(made.end() + made.end() // 8 + 2) for _ in range(2))
        begin, end = draw.choice([(begin, end), (begin, end), (begin, begin), (begin, None), (None, end)])
        words = ([] if begin is None else ["--from", edge(begin, draw)]) + ([] if end is None else ["--to", edge(end, draw)])
        drawn = Picture(made, begin, end)
        tally.check(f"the stretch {words} of {taken}", stretched(*taken, *words), (0, drawn.text().encode(), b""))
    # by hand: the crawler's run from 95 to 105. Until 100 its first two execute; those that gave up at 90 and that were rejected at 0 are not there.
    # Three of the other flow are: two wait from before, one until 100, when it executes, and one until 120.
    status, out, err = stretched(SMALL, CRAWLED, 90, "seats", "--from", "95", "--to", "105us")
    text = out.decode()
    tally.check("a stretch by hand", (status, err), (0, b""))
    for words, count in {
        ">4 requests of 2 flows on 2 seats</title>": 1,
        ">4 executed, 0 rejected, 0 gave up, longest wait 60 &#181;s, from 95 &#181;s to 105 &#181;s<": 1,
        "0000000000000009, 2 requests: 2 executed, 0 rejected, 0 gave up, longest wait 0 &#181;s.": 1,
        "0000000000000004, 2 requests: 2 executed, 0 rejected, 0 gave up, longest wait 60 &#181;s.": 1,
        "Queues used: 1, at most 2 waiting in one.": 1,
        'd="M0 1h440M0 3h880"/>': 1,
        ">95 &#181;s<": 2,
        ">105 &#181;s<": 2,
        '<path class="gave-up" d=""/>': 2,
    }.items():
        tally.check(f"a stretch by hand: {words}", text.count(words), count)
    # who gives up behind the end is drawn without a triangle, and who gives up at it with one
    for end, count in (("89", 0), ("90", 2), ("91", 2)):
        text = stretched(SMALL, CRAWLED, 90, "seats", "--from", "10", "--to", end)[1].decode()
        tally.check(f"triangles up to {end}", len(re.findall("M\\d+ 0l3 7h-6z", text)), count)
    whole = stretched(SMALL, CRAWLED, 90, "seats")[1].replace(b", 420 &#181;s in all", b", from 0 &#181;s to 420 &#181;s")
    for words in (["--from", "0"], ["--to", "420"], ["--from", "0s", "--to", "0.42ms"]):
        tally.check(f"the whole run by {words}", stretched(SMALL, CRAWLED, 90, "seats", *words), (0, whole, b""))
    empty = stretched(SMALL, CRAWLED, 90, "seats", "--from", "1m")
    tally.check("a stretch behind the end", (empty[0], empty[2], empty[1].count(b">0 requests of 0 flows on 2 seats</title>")), (0, b"", 1))
    for words, line in (
        (["--from", "x"], NO_TIME % b"from"),
        (["--to", "200000001s"], NO_TIME % b"to"),
        (["--to", "x", "--from", "1s"], NO_TIME % b"to"),
        (["--from", "2s", "--to", "1s"], BEFORE),
    ):
        tally.check(f"a picture with {words}", stretched(SMALL, CRAWLED, 90, None, *words), (2, b"", line))
    check_times()
    check_long()


def check_times():
    """How times are read, by hand: what is none is refused, and the end of a stretch may be its beginning and nothing before it."""
    words = ["picture", files("config", SMALL), files("trace", CRAWLED), "90"]
    for text, time in TIMES:
        if time is None:
            for option in ("from", "to"):
                tally.check(f"--{option} {text!r}", run(program, [*words, f"--{option}={text}"]), (2, b"", NO_TIME % option.encode()))
            continue
        tally.check(f"--from {text!r} --to {time}", run(program, [*words, "--from", text, "--to", str(time)])[0], 0)
        tally.check(f"--to {text!r} --from {time}", run(program, [*words, f"--to={text}", f"--from={time}"])[0], 0)
        if time:
            tally.check(f"--from {text!r} --to {time - 1}", run(program, [*words, "--from", text, "--to", str(time - 1)]), (2, b"", BEFORE))
        if time < 2 * 10**14:
            tally.check(f"--from {time + 1} --to {text!r}", run(program, [*words, "--from", str(time + 1), "--to", text]), (2, b"", BEFORE))


def check_long():
    """Stretches of a run of 25,000 requests, of which one is there all the time."""
    count = 25_000
    trace = b'{"hash":7,"arrivesAt":0,"runsFor":2000000}\n' + b"".join(b'{"hash":%d,"arrivesAt":%d,"runsFor":%d}\n' % (it % 5, 10 * it, it % 23) for it in range(count))
    config = b'{"limit":3,"queues":8,"handSize":2,"queueLengthLimit":5}'
    made = Run(config_of(config), trace_of(trace, in_pieces=True), 40, "seats")
    line = b"apf: there are more than 10000 requests between --from and --to: draw less\n"
    whole = b"apf: there are more than 10000 requests: simulate, compare and fates take any number\n"
    tally.check("a picture of a long run", stretched(config, trace, 40, "seats"), (1, b"", whole))
    for begin, end in ((0, 1000), (123_456, 124_567), (249_000, None), (60_000, 60_000)):
        words = ["--from", str(begin), *([] if end is None else ["--to", str(end)])]
        tally.check(f"the stretch {words} of a long run", stretched(config, trace, 40, "seats", *words), (0, Picture(made, begin, end).text().encode(), b""))
    # as many as may be drawn, and one more
    last = {many: end_of(made, many) for many in (10_000, 10_001)}
    for many, end in last.items():
        status, out, err = stretched(config, trace, 40, "seats", "--from", "100000", "--to", str(end))
        tally.check(f"a stretch of {many} requests", (status, err, f">{many} requests of ".encode() in out), (0, b"", True) if many == 10_000 else (1, line, False))


def end_of(made, many):
    """When the stretch from 100,000 on ends that has so many requests."""
    arrivals = sorted(it["arrivesAt"] for place, it in enumerate(made.trace) if Stretch.over(made, place) >= 100_000)
    return arrivals[many - 1]


check_colours()
check_model()
check_example()
check_sizes()
check_drawn()
check_by_hand()
check_stretches()
check_command()
tally.end()
