"""What `picture` prints: an independent computation of the whole SVG, slow on purpose."""

import bisect
import collections
import functools
import html
import itertools
import os
import unicodedata

from simulation import flows_of

# the width of the plots: this many columns, of one pixel each
COLUMNS = 880
# this many flows have a row of their own
OWN_ROWS = 12
SHADES = 8
# the parts begin at these heights, and the seats' part has this height, of which the limit or the most seats take this much
SEATS, QUEUES, HIGH, FULL = 124, 310, 140, 130
# this many columns of letters are shown of a name: of one alone, of a schema and of a distinguisher beside it, of a schema in the
# title, and of what all names begin with
ALONE, SCHEMA, DISTINGUISHER, TITLE, BEGINNING = 36, 14, 20, 28, 96
LIGHT = "#b55821 #461c75 #0ca3b6 #951d70 #420936 #456539 #00128f #3267b2 #791909 #ab69ee #623d45 #171c08 #7d7d7d".split()
DARK = "#fd8867 #7c4dab #e3ce5d #0492a9 #d6e9fd #a07fe4 #f7a3ff #b0541d #8df097 #b89a2c #fdf2e4 #d14c54 #b5b5b5".split()
STYLE = [
    'text{font:12px system-ui,-apple-system,"Segoe UI",sans-serif;fill:#1f2328}',
    ".head{font-size:17px;font-weight:600}",
    ".part{font-size:13px;font-weight:600}",
    ".note{fill:#59636e;font-weight:400}",
    ".small{font-size:10px;fill:#59636e}",
    ".page{fill:#fff}",
    ".plot{fill:#8a9099;fill-opacity:.12}",
    ".line{stroke:#8a9099;stroke-opacity:.25}",
    ".limit{stroke:#1f2328;stroke-dasharray:6 4}",
    ".peak{stroke:#1f2328}",
    ".shade{stroke:#33497a;stroke-width:9}",
    ".rejected{stroke:#d1242f;stroke-width:1.5}",
    ".gave-up{fill:#b07d00}",
    ".line,.limit,.peak,.shade,.bars,.rejected{fill:none}",
    *(f".f{number}{{fill:{colour}}}.b{number}{{stroke:{colour}}}" for number, colour in enumerate(LIGHT)),
    "@media(prefers-color-scheme:dark){",
    "text{fill:#e6edf3}",
    ".note,.small{fill:#9198a1}",
    ".page{fill:#0d1117}",
    ".limit,.peak{stroke:#e6edf3}",
    ".shade{stroke:#a6c0f5}",
    ".rejected{stroke:#ff6a69}",
    ".gave-up{fill:#e3b341}",
    *(f".f{number}{{fill:{colour}}}.b{number}{{stroke:{colour}}}" for number, colour in enumerate(DARK)),
    "}",
]
UNITS = [("d", 86_400_000_000), ("h", 3_600_000_000), ("min", 60_000_000), ("s", 1_000_000), ("ms", 1000), ("&#181;s", 1)]


# the classes of the characters that embed, override and isolate a direction of writing, and end that
TURNING = {"LRE", "RLE", "LRO", "RLO", "PDF", "LRI", "RLI", "FSI", "PDI"}


# numbers, times and names in words


def counted(number, noun):
    return f"{number} {noun}" if number == 1 else f"{number} {noun}s"


def time_words(time):
    """With one digit after the point, or in two units."""
    seconds = time // 1_000_000
    if seconds >= 86400:
        return f"{seconds // 86400} d {seconds % 86400 // 3600} h"
    if seconds >= 3600:
        return f"{seconds // 3600} h {seconds % 3600 // 60} min"
    if seconds >= 60:
        return f"{seconds // 60} min {seconds % 60} s"
    if seconds:
        return f"{time // 100_000 / 10:.1f} s"
    return f"{time // 100 / 10:.1f} ms" if time >= 1000 else f"{time} &#181;s"


def mark_words(end, step, time):
    """A mark of an axis whose marks are a step apart, in the units of the time of the end: with a second one, or a digit after the point, if the step
    is no whole number of the first."""
    at = next((at for at, (_, length) in enumerate(UNITS) if length <= end), len(UNITS) - 1)
    unit, length = UNITS[at]
    if step % length == 0:
        return f"{time // length} {unit}"
    if length < 60_000_000:
        return f"{time // length}.{time % length * 10 // length} {unit}"
    smaller, part = UNITS[at + 1]
    return f"{time // length} {unit} {time % length // part} {smaller}"


def escaped(text):
    """As XML has it, with a mark for a control character, for one that turns the direction of writing, and where XML does not allow a character."""
    marked = {it for it in text if unicodedata.category(it) == "Cc" or unicodedata.bidirectional(it) in TURNING or it in "\u061c\u200e\u200f\ufffe\uffff"}
    return "".join("&#65533;" if it in marked else html.escape(it, quote=False).replace('"', "&quot;") for it in text)


def columns(letter):
    """How many columns a letter takes: the wide ones two, and control characters, too."""
    return 2 if letter in "%@MWmw" or not " " <= letter <= "~" else 1


def width(name):
    return sum(map(columns, name))


def front(name, room):
    """As much of the beginning as there is room for."""
    return next(name[:size] for size in range(len(name), -1, -1) if width(name[:size]) <= room)


def whole_name(name):
    return escaped(name) if name else "&quot;&quot;"


def name_words(name, most, place=None):
    """A name, of a long one its beginning and its end: this many columns of the one, half of them if no number is given, and as many of the other as
    are left beside an ellipsis."""
    if width(name) <= most:
        return whole_name(name)
    place = most // 2 - 1 if place is None else place
    return f"{escaped(front(name, place))}&#8230;{escaped(front(name[::-1], most - 2 - place)[::-1])}"


def scaled(value, whole, size):
    return min(value, whole) * size // whole if whole else 0


class Row:
    """The requests of one row, the names of its flow if they are known, and what the row is called: in full, and in the picture."""

    def __init__(self, members, whole, names=None):
        self.members, self.whole, self.names, self.label = members, whole, names, whole


def whole_label(flow, names, shared):
    """What a flow is called. The schema that all flows share is left out."""
    if not names:
        return f"{flow:016x}"
    return whole_name(names[1]) if shared is not None else " / ".join(map(whole_name, names))


def shared_beginning(rows, most):
    """What all names have at their beginning: up to a separator, and nothing if there is room for each, if there is one row, or if one has no name."""
    names = [row.names and row.names[1] for row in rows[:OWN_ROWS]]
    if len(names) < 2 or None in names or all(width(name) <= most for name in names):
        return ""
    common = os.path.commonprefix(names)
    return common[: max((at + 1 for at, letter in enumerate(common) if letter in ":/.-_"), default=0)]


def label_rows(rows, shared):
    """Cuts the names of the rows where the fewest pairs of rows look the same: in the middle, or else at the next place behind it, or else at the
    first place. If two still look the same, the number of its row stands before each name. What all names begin with is left out, and returned."""
    most = DISTINGUISHER if shared is None else ALONE
    beginning = shared_beginning(rows, most)
    named = {number: row for number, row in enumerate(rows) if row.names}

    def labels(place):
        own = {it: name_words(row.names[1][len(beginning) :], most, place) for it, row in named.items()}
        return own if shared is not None else {it: f"{name_words(named[it].names[0], SCHEMA)} / {label}" for it, label in own.items()}

    def alike(place):
        return sum(one == other for one, other in itertools.combinations(map(html.unescape, labels(place).values()), 2))

    middle = most // 2 - 1
    place = min([*range(middle, most - 1), *range(middle)], key=alike)
    for number, label in labels(place).items():
        rows[number].label = f"{number + 1}: {label}" if alike(place) else label
    return beginning


def shared_schema(trace):
    """The schema of all flows, by their first requests, if there is one."""
    schemas = {trace[members[0]]["names"] and trace[members[0]]["names"][0] for members in flows_of(trace).values()}
    return schemas.pop() if len(schemas) == 1 else None


def rows_of(run):
    """Those flows that waited longest in sum, of those with equal sums the ones with most requests, and of these the earlier one first; and one row of
    the others. And what all names begin with, if that is left out of each."""
    trace, flows = run.trace, flows_of(run.trace)
    shared = shared_schema(trace)
    ranked = sorted(flows, key=lambda it: (-sum(map(run.wait, flows[it])), -len(flows[it])))
    names = {flow: trace[flows[flow][0]]["names"] for flow in ranked}
    rows = [Row(flows[flow], whole_label(flow, names[flow], shared), names[flow]) for flow in ranked[:OWN_ROWS]]
    others = ranked[OWN_ROWS:]
    if others:
        rows.append(Row(sorted(it for flow in others for it in flows[flow]), counted(len(others), "other flow")))
    return rows, label_rows(rows, shared)


def patience_words(patience):
    """In the longest unit of which it is a whole number."""
    if not patience:
        return "patience 0: nobody gives up"
    unit, length = next(it for it in (("s", 1_000_000), ("ms", 1000), ("&#181;s", 1)) if patience % it[1] == 0)
    return f"patience {patience // length} {unit}"


class Level:
    """What became of some requests at a level, and who of them entered which queue."""

    def __init__(self, level, number):
        self.decided = {number[it]: how for it, how in level.decided.items() if it in number}
        self.log = [("enter", number[it], queue) for kind, it, queue in level.log if kind == "enter" and it in number]


class Stretch:
    """A stretch of a run: the requests that are there at some moment of it, in the order of their lines."""

    def __init__(self, run, begin, end):
        inside = [it for it in range(len(run.trace)) if run.trace[it]["arrivesAt"] <= end and self.over(run, it) >= begin]
        number = {it: place for place, it in enumerate(inside)}
        self.config, self.patience, self.whole, self.inside = run.config, run.patience, run, inside
        self.trace = [run.trace[it] for it in inside]
        self.started = {number[it]: at for it, at in run.started.items() if it in number}
        self.level = Level(run.level, number)

    @staticmethod
    def over(run, it):
        """When a request was over: what was not executed is over at the end of its wait."""
        return run.trace[it]["arrivesAt"] + run.wait(it) + (run.trace[it]["runsFor"] if it in run.started else 0)

    def wait(self, it):
        return self.whole.wait(self.inside[it])


class Heights:
    """How much is there at each time, of what begins, ends and has a weight: the weights of what began by then and did not end."""

    def __init__(self, spans):
        changes = collections.Counter()
        for begin, end, weight in spans:
            changes[begin] += weight
            changes[end] -= weight
        self.times = sorted(changes)
        self.sums = [*itertools.accumulate((changes[time] for time in self.times), initial=0)]

    def over(self, times):
        """How much is there at each of these times."""
        return [self.sums[bisect.bisect_right(self.times, time)] for time in times]


class Picture:
    """The picture of a run (simulation.py), or of a stretch of it: from a time on, or from its beginning, up to another one, or to its end."""

    def __init__(self, run, begin=None, end=None):
        self.is_whole = begin is None and end is None
        self.begin, last = begin or 0, run.end() if end is None else end
        self.end = max(last - self.begin, 0)
        if not self.is_whole:
            run = Stretch(run, self.begin, last if end is not None else max(last, self.begin))
        self.run, self.config, self.patience, self.trace = run, run.config, run.patience, run.trace
        self.limit = run.config["limit"]
        self.rows, self.beginning = rows_of(run)
        self.shared = shared_schema(run.trace)
        self.flows = len(flows_of(run.trace))
        self.entered = {request: queue for kind, request, queue in run.level.log if kind == "enter"}
        # a queue in which nobody waits from the beginning on is not drawn
        self.entered = {it: queue for it, queue in self.entered.items() if self.until(it) >= self.begin}
        self.queues = sorted(set(self.entered.values()))
        self.times = [self.begin + column * self.end // COLUMNS for column in range(COLUMNS)]
        # when requests execute, and how wide they are: of the rows up to each one; and when they wait, of each queue
        self.executing = [Heights(self.executing_in(self.rows[: row + 1])) for row in range(OWN_ROWS + 1)]
        self.waiting = {queue: Heights([(self.begins(it), self.until(it), 1) for it, other in self.entered.items() if other == queue]) for queue in self.queues}
        # the seats in use at each time by the rows up to each one, and how many stand in each queue
        self.areas = [self.executing[row].over(self.times) for row in range(len(self.rows))]
        self.lengths = [self.waiting[queue].over(self.times) for queue in self.queues]
        # over time, and not at the columns alone: more are in use, or wait, only where one begins to
        self.used = max(self.executing[OWN_ROWS].over(self.moments(map(self.until, range(len(self.trace))))))
        entries = self.moments(map(self.begins, self.entered))
        self.longest = max((max(it.over(entries)) for it in self.waiting.values()), default=0)

    def moments(self, times):
        """Those of the times that are drawn, and the beginning."""
        return {self.begin, *(time for time in times if self.begin <= time <= self.begin + self.end)}

    # what became of the requests

    def ending(self, it):
        return {"execute": "executed", "cancelled": "gave up"}.get(self.run.level.decided[it], "rejected")

    def begins(self, it):
        return self.trace[it]["arrivesAt"]

    def until(self, it):
        return self.begins(it) + self.run.wait(it)

    def executing_in(self, rows):
        members = [it for row in rows for it in row.members if it in self.run.started]
        return [(self.until(it), self.until(it) + self.trace[it]["runsFor"], self.trace[it]["width"]) for it in members]

    # in words

    def numbers(self, members):
        """How many ended how; the longest wait of who gave up, if somebody did, and of who executed."""
        ended = {ending: [it for it in members if self.ending(it) == ending] for ending in ("executed", "rejected", "gave up")}
        longest = {ending: time_words(max(map(self.run.wait, those), default=0)) for ending, those in ended.items()}
        after = f" after at most {longest['gave up']}" if ended["gave up"] else ""
        return f"{', '.join(f'{len(those)} {ending}' for ending, those in ended.items())}{after}, longest wait {longest['executed']}"

    def row_numbers(self, row):
        return f"{counted(len(row.members), 'request')}: {self.numbers(row.members)}"

    def title(self):
        schema = "" if self.shared is None else f" of {name_words(self.shared, TITLE)}"
        return f"{counted(len(self.trace), 'request')} of {counted(self.flows, 'flow')}{schema} on {counted(self.limit, 'seat')}"

    def whole(self):
        drawn = f"{time_words(self.end)} in all" if self.is_whole else f"from {time_words(self.begin)} to {time_words(self.begin + self.end)}"
        return f"{self.numbers(range(len(self.trace)))}, {drawn}"

    def settings(self):
        if self.config["limitResponse"] == "Reject":
            return f"limit {self.limit}, no queues: what does not fit is rejected, {patience_words(self.patience)}"
        sizes = self.config["queues"], self.config["handSize"], self.config["queueLengthLimit"]
        return "limit {}, queues {}, hand size {}, queue length limit {}, {}".format(self.limit, *sizes, patience_words(self.patience))

    def description(self):
        schema = "" if self.shared is None else f" The schema of all flows: {whole_name(self.shared)}."
        return (
            f"{self.whole()}. The level: {self.settings()}. Seats in use by flow: at most {self.used}. Queues used: {len(self.queues)},"
            f" at most {self.longest} waiting in one.{schema}" + "".join(f" {row.whole}, {self.row_numbers(row)}." for row in self.rows)
        )

    # the parts

    def axis(self, depth):
        length = next((it for _, it in UNITS if it * 4 <= self.end), 1)
        step = next(it * length for it in (part * 10**power for power in range(20) for part in (1, 2, 5)) if it * length * 10 >= self.end)
        first = -(-self.begin // step) * step
        marks = [(scaled(time - self.begin, self.end, COLUMNS), mark_words(self.end, step, time)) for time in range(first, self.begin + self.end + 1, step)]
        yield f'<g transform="translate(48 {SEATS})">'
        yield f'<path class="line" d="{"".join(f"M{x} 0v{depth}" for x, _ in marks)}"/>'
        yield "</g>"
        for y in (SEATS - 6, SEATS + depth + 14):
            yield f'<g transform="translate(48 {y})" text-anchor="middle">'
            for x, words in marks:
                yield f'<text class="small" x="{x}">{words}</text>'
            yield "</g>"

    def seats_part(self):
        most = max(self.used, self.limit)
        above = self.used > self.limit
        yield f'<g transform="translate(48 {SEATS})">'
        yield (
            '<text class="part" y="-24">Seats in use <tspan class="note">'
            f"by flow, at most {self.used}; the limit is {self.limit}</tspan></text>"
        )
        yield f'<rect class="plot" width="880" height="{HIGH}"/>'
        for row, tops in reversed([*enumerate(self.areas)]):
            changes = [column for column in range(COLUMNS) if column == 0 or tops[column] != tops[column - 1]]
            steps = "".join(f"H{column}V{HIGH - scaled(tops[column], most, FULL)}" for column in changes)
            yield f'<path class="f{row}" d="M0 140{steps}H880V140z"/>'
        y = HIGH - scaled(self.limit, most, FULL)
        yield f'<path class="limit" d="M0 {y}h880"/>'
        # eleven pixels at least from the other two numbers
        yield f'<text class="small" x="-6" y="{min(max(y, 21 if above else 10), 129) + 4}" text-anchor="end">{self.limit}</text>'
        if above:
            yield '<path class="peak" d="M-4 10h4"/>'
            yield f'<text class="small" x="-6" y="14" text-anchor="end">{self.used}</text>'
        yield '<text class="small" x="-6" y="144" text-anchor="end">0</text>'
        yield "</g>"

    def high(self):
        return min(12 * len(self.queues), 240)

    @functools.cached_property
    def shades(self):
        """Of each queue, the shade of each column, and none behind the last."""
        return [[*(max(1, scaled(it, self.longest, SHADES)) if it else 0 for it in lengths), None] for lengths in self.lengths]

    def runs(self, wanted):
        """The runs of columns of one shade: where each begins and how long it is."""
        for place, shades in enumerate(self.shades):
            begin = 0
            for column in range(1, COLUMNS + 1):
                if shades[column] != shades[begin]:
                    if shades[begin] == wanted:
                        yield f"M{begin} {10 * place + 5}h{column - begin}"
                    begin = column

    def queues_part(self):
        count = len(self.queues)
        yield f'<g transform="translate(48 {QUEUES})">'
        yield '<rect class="page" y="-28" width="880" height="28"/>'
        yield (
            f'<text class="part" y="-12">Queues <tspan class="note">{counted(count, "queue")} used, a stronger shade is a longer queue,'
            f" at most {self.longest} waiting in one</tspan></text>"
        )
        yield '<text class="small" x="748" y="-13" text-anchor="end">0</text>'
        yield '<rect class="plot" x="752" y="-22" width="99" height="10"/>'
        for shade in range(1, SHADES + 1):
            yield f'<path class="shade" stroke-opacity=".{12 * shade}" d="M{752 + 11 * shade} -17h11"/>'
        yield f'<text class="small" x="855" y="-13">{self.longest}</text>'
        yield f'<svg width="880" height="{self.high()}" viewBox="0 0 880 {10 * count}" preserveAspectRatio="none">'
        yield f'<rect class="plot" width="880" height="{10 * count}"/>'
        for shade in range(1, SHADES + 1):
            yield f'<path class="shade" stroke-opacity=".{12 * shade}" d="{"".join(self.runs(shade))}"/>'
        yield "</svg>"
        for place in range(0, count, max(1, -(-count // 20))):
            y = scaled(2 * place + 1, 2 * count, self.high()) + 4
            yield f'<text class="small" x="-6" y="{y}" text-anchor="end">{self.queues[place]}</text>'
        yield "</g>"

    def x(self, time):
        return scaled(max(time - self.begin, 0), self.end, COLUMNS)

    def tall(self, row):
        return min(6 * len(row.members), 30 + scaled(len(row.members), len(self.trace), 240))

    def bars(self, row):
        for lane, it in enumerate(row.members):
            if self.ending(it) != "rejected":
                begin, end = self.x(self.begins(it)), self.x(self.until(it))
                yield f"M{begin} {2 * lane + 1}h{max(1, end - begin)}"

    def row_part(self, number, row, y):
        tall, count = self.tall(row), len(row.members)
        rejected = [f"M{self.x(self.begins(it))} 0v8" for it in row.members if self.ending(it) == "rejected"]
        given_up = [f"M{self.x(self.until(it))} 0l3 7h-6z" for it in row.members if self.ending(it) == "gave up" and self.until(it) <= self.begin + self.end]
        yield f'<g transform="translate(48 {y})">'
        yield f"<title>{row.whole}</title>"
        yield '<rect class="page" width="880" height="20"/>'
        yield f'<rect class="f{number}" y="5" width="10" height="10" rx="2"/>'
        yield f'<text x="16" y="14">{row.label} <tspan class="note">{self.row_numbers(row)}</tspan></text>'
        yield f'<rect class="plot" y="20" width="880" height="{tall + 12}"/>'
        yield f'<svg y="20" width="880" height="{tall}" viewBox="0 0 880 {2 * count}" preserveAspectRatio="none">'
        yield f'<path class="bars b{number}" stroke-width="{max(2, 3 * count // tall + 1)}" d="{"".join(self.bars(row))}"/>'
        yield "</svg>"
        yield f'<g transform="translate(0 {tall + 22})">'
        yield f'<path class="rejected" d="{"".join(rejected)}"/>'
        yield f'<path class="gave-up" d="{"".join(given_up)}"/>'
        yield "</g>"
        yield "</g>"

    def below(self):
        """Where the part of the requests begins. A level that rejects has no part of queues."""
        return SEATS + HIGH if self.config["limitResponse"] == "Reject" else QUEUES + self.high()

    def requests_part(self):
        y = self.below() + 34
        yield f'<g transform="translate(48 {y})">'
        yield '<rect class="page" y="-16" width="880" height="28"/>'
        yield (
            '<text class="part">Requests by flow <tspan class="note">a bar is one request\'s wait, until it has its seats or gives up;'
            " a higher row has more requests</tspan></text>"
        )
        yield '<path class="rejected" d="M744 -9v10"/>'
        yield '<text class="note" x="752">rejected</text>'
        yield '<path class="gave-up" d="M822 -8l3 7h-6z"/>'
        yield '<text class="note" x="832">gave up</text>'
        yield "</g>"
        y += 10
        for number, row in enumerate(self.rows):
            yield from self.row_part(number, row, y)
            y += self.tall(row) + 42

    def lines(self):
        bottom = self.below() + 44 + sum(self.tall(row) + 42 for row in self.rows)
        height = bottom + 28
        yield (
            f'<svg xmlns="http://www.w3.org/2000/svg" width="960" height="{height}" viewBox="0 0 960 {height}"'
            ' role="img" aria-labelledby="title desc">'
        )
        begin = f"names begin with {name_words(self.beginning, BEGINNING)}" if self.beginning else ""
        yield f'<title id="title">{self.title()}{begin and ", "}{begin}</title>'
        yield f'<desc id="desc">{self.description()}</desc>'
        yield from ["<style>", *STYLE, "</style>"]
        yield f'<rect class="page" width="960" height="{height}"/>'
        yield f'<text class="head" x="48" y="28">{self.title()}</text>'
        yield f'<text class="note" x="48" y="47">{self.whole()}</text>'
        yield f'<text class="note" x="48" y="63">{self.settings()}</text>'
        if begin:
            yield f'<text class="note" x="48" y="79">{begin}</text>'
        yield from self.axis(bottom - SEATS)
        yield from self.seats_part()
        if self.config["limitResponse"] != "Reject":
            yield from self.queues_part()
        yield from self.requests_part()
        yield "</svg>"

    def text(self):
        return "".join(f"{line}\n" for line in self.lines())
