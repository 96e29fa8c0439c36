"""The line of how far a command is, which a person sees at a terminal: what it says by the trace and by `fates`, how often it comes, and that nothing else
is touched by it."""

import bisect
import functools
import json
import os
import pty
import re
import signal
import subprocess
import sys
import threading
import time

sys.path.insert(0, os.path.join(os.path.dirname(os.path.abspath(__file__)), "lib"))
from harness import TOP, Files, Tally, build, run
from in_c import compiled, level_of

tally = Tally()
program = build()
files = Files()
# nearly twice as many as are read before the first request is handed out: the hundredths are told while lines are read, and behind that
MANY = int(os.environ.get("APF_REQUESTS", "250000"))
# of runs whose hundredths are not looked at
FEW = MANY // 5
# how long a line stands, in seconds
PAUSE = 0.25
# for how long a program runs before it is held for the first time, which is a part of what the shortest takes
RUNS = 0.02
LINE = re.compile(rb"(\d+) (?:requests|lines)(?:, (\d+) s of the trace)?, (\d+) a second(?:, (\d+) wait)?(?:, (\d+) %)?")


def hold(process, is_over):
    """Holds a program again and again, each time after twice as long: its clock goes on, so a line is due each time, and no processor is busy meanwhile."""
    runs = RUNS / 2
    while not is_over.wait(runs := 2 * runs):
        process.send_signal(signal.SIGSTOP)
        time.sleep(PAUSE)
        process.send_signal(signal.SIGCONT)


class Seen:
    """A program whose standard error is a terminal, and standard output a file, or that terminal too. The program is held now and then."""

    def __init__(self, words, shares=False, hangs_up=False, stdin=subprocess.DEVNULL):
        ours, theirs = pty.openpty()
        begin = time.monotonic()
        self.path = files("printed", "")
        with open(self.path, "wb") as file:
            process = subprocess.Popen([program, *words], stdin=stdin, stdout=theirs if shares else file, stderr=theirs)
        os.close(theirs)
        is_over = threading.Event()
        holding = threading.Thread(target=hold, args=(process, is_over))
        holding.start()
        pieces = []
        # a terminal that hangs up does so at the first line
        while not (hangs_up and pieces):
            try:
                got = os.read(ours, 65_536)
            except OSError:
                got = b""
            if not got:
                break
            pieces.append(got)
        os.close(ours)
        self.shown = b"".join(pieces)
        is_over.set()
        holding.join()
        self.status = process.wait()
        self.seconds = time.monotonic() - begin

    def printed(self):
        with open(self.path, "rb") as file:
            return file.read()

    def lines(self):
        """What stood on the line, one after the other, but for blanks."""
        return [it.rstrip(b" ") for it in re.split(rb"\r(?!\n)", self.shown) if it.strip(b" ")]

    def screen(self):
        """The rows of the terminal at the end."""
        rows, at = [b""], 0
        for byte in self.shown:
            if byte == 13:
                at = 0
            elif byte == 10:
                rows.append(b"")
                at = 0
            else:
                rows[-1] = rows[-1][:at].ljust(at) + bytes([byte]) + rows[-1][at + 1 :]
                at += 1
        return [it.rstrip(b" ") for it in rows]


def numbers_of(line):
    """The requests, the seconds of the trace, how many come a second, who waits, and the hundredths."""
    found = LINE.fullmatch(line)
    return found and [it if it is None else int(it) for it in found.groups()]


def judge_pace(name, seen):
    """The lines are whole, come no more than four times a second, and what comes a second is what came since the line before."""
    told = [numbers_of(it) for it in seen.lines()]
    tally.check(f"{name}: the status", seen.status, 0)
    tally.check(f"{name}: lines come, each is whole", told != [] and None not in told, True)
    told = [it for it in told if it]
    tally.check(f"{name}: at most four a second: {len(told)} in {seen.seconds:.2f} s", len(told) <= seen.seconds / PAUSE, True)
    came = [0, *(it[0] for it in told)]
    tally.check(f"{name}: they go on", came, sorted(came))
    # by the rate and who came, how long it was since the line before, at least and at most
    least = [(after - before) / (it[2] + 1) for before, after, it in zip(came, came[1:], told)]
    most = [(after - before) / it[2] for before, after, it in zip(came, came[1:], told) if it[2]]
    tally.check(f"{name}: the rates are of a quarter of a second or more", [it for it in most if it < PAUSE], [])
    tally.check(f"{name}: the rates are of no more time than there was", sum(least) <= seen.seconds, True)
    tally.check(f"{name}: the line is cleared", seen.screen(), [b""])
    return told


@functools.cache
def drawn(many):
    """A trace, with its requests' arrivals in their order."""
    text = subprocess.run([compiled(files, "long"), "trace", "7", str(many), "200", "100", "0"], stdout=subprocess.PIPE, check=True).stdout
    return files(f"trace{many}", text), sorted(map(int, re.findall(rb'"arrivesAt":(\d+)', text)))


def trace_of(many):
    path, arrivals = drawn(many)
    tally.check("each request has an arrival", len(arrivals), many)
    return path, arrivals


def judge_waits(name, told, arrivals, fates):
    """Who waits once so many came, by what became of each: at its moment a request may go on before or after that."""
    # of those that entered a queue: the arrival, the start and the end
    rows = re.findall(rb"^\d+ \w+ (\d+) \d+ (\d+|-) (\d+) ", fates, re.M)
    queued = [(int(arrival), int(end if start == b"-" else start)) for arrival, start, end in rows]
    waited = [it for it in queued if it[0] < it[1]]
    tally.check(f"{name}: some wait, and nobody to a time before its arrival", (waited != [], all(arrival <= until for arrival, until in queued)), (True, True))
    # the times at which they came, and those until which they wait
    (came_then, until_then), (came_at, until_at) = ([sorted(it) for it in zip(*those)] for those in (waited, queued))
    for came, _, _, waits, _ in told:
        now = arrivals[came - 1]
        # who came before and waits still; and those too who come or go on at this time
        fewest = bisect.bisect_left(came_then, now) - bisect.bisect_right(until_then, now)
        most = bisect.bisect_right(came_at, now) - bisect.bisect_left(until_at, now)
        tally.check(f"{name}: who waits once {came} came: {fewest} to {most}", fewest <= waits <= most, True)


def check_simulation():
    config = files("config", json.dumps(level_of(100, 64, 8, 50)))
    path, arrivals = trace_of(MANY)
    words = ["simulate", config, path, "500ms"]
    status, plain, errors = run(program, words)
    tally.check("without a terminal: nothing on standard error", (status, errors), (0, b""))
    seen = Seen(words)
    told = judge_pace("simulate", seen)
    tally.check("simulate prints the same", seen.printed() == plain, True)
    tally.check("simulate: the seconds of the trace", [it[1] for it in told], [arrivals[it[0] - 1] // 1_000_000 for it in told])
    tally.check("simulate: the hundredths are of who came", [it for it in told if abs(it[4] - 100 * it[0] / MANY) > 3], [])
    judge_waits("simulate", told, arrivals, run(program, ["fates", *words[1:]])[1])
    # a trace whose size is not known
    with open(path, "rb") as file:
        cat = subprocess.Popen(["cat"], stdin=file, stdout=subprocess.PIPE)
        seen = Seen(["simulate", config, "-", "500ms"], stdin=cat.stdout)
        cat.stdout.close()
        cat.wait()
    told = judge_pace("by a pipe", seen)
    tally.check("by a pipe: no hundredths", [it for it in told if it[4] is not None], [])


def check_other_commands():
    config = files("config", json.dumps(level_of(100, 64, 8, 50)))
    path, _ = trace_of(FEW)
    words = ["simulate", config, path, "500ms"]
    plain, fates = (run(program, [command, *words[1:]])[1] for command in ("simulate", "fates"))
    for command, more, want in [
        ("fates", [], fates),
        ("compare", [], run(program, ["compare", config, *words[1:]])[1]),
        ("picture", ["--from", "0", "--to", "1ms"], run(program, ["picture", *words[1:], "--from", "0", "--to", "1ms"])[1]),
    ]:
        seen = Seen([command, *([config] if command == "compare" else []), *words[1:], *more])
        judge_pace(command, seen)
        tally.check(f"{command} prints the same", seen.printed() == want, True)
    # one terminal for both: the line goes before anything is printed, and fates, which prints as it goes on, has none
    shared = Seen(words, shares=True)
    tally.check("one terminal: lines come", shared.lines() != [] and LINE.match(shared.lines()[0]) is not None, True)
    tally.check("one terminal: what is printed stands there alone", shared.screen() == [*plain.splitlines(), b""], True)
    seen = Seen(["fates", *words[1:]], shares=True)
    tally.check("one terminal: fates prints its lines alone", seen.shown.replace(b"\r\n", b"\n") == fates, True)
    # a terminal that is gone
    gone = Seen(words, hangs_up=True)
    tally.check("a line came, and the next can't be written: nothing changes", (gone.shown != b"", gone.status, gone.printed() == plain), (True, 0, True))


def check_rounds():
    config = files("config", json.dumps(level_of(2, 2, 1, 50)))
    requests = files("requests", json.dumps([{"hash": it, "work": 100} for it in range(50)]))
    rounds, seconds = 100, 0
    while seconds < 5 * RUNS and rounds < 1_000_000:
        rounds *= 2
        begin = time.monotonic()
        status, plain, errors = run(program, ["run", config, requests, "3", "--rounds", str(rounds)])
        seconds = time.monotonic() - begin
        tally.check("run without a terminal: nothing on standard error", (status, errors), (0, b""))
    seen = Seen(["run", config, requests, "3", "--rounds", str(2 * rounds)])
    told = judge_pace("run --rounds", seen)
    all_of_them = 100 * rounds
    tally.check("run --rounds: no seconds of a trace", [it for it in told if it[1] is not None], [])
    tally.check("run --rounds: no more than there are", [it for it in told if it[0] > all_of_them], [])
    tally.check("run --rounds: the hundredths", [it[4] for it in told], [100 * it[0] // all_of_them for it in told])
    tally.check("run --rounds: each worker waits for one at most", [it for it in told if it[3] > 3], [])
    tally.check("run --rounds: the book is of all", re.search(rb"^executed (\d+) rejected 0 ", seen.printed(), re.M)[1], str(all_of_them).encode())


def judge_lines(name, words, many):
    """A command that has no level, or many: the lines that were read, and nobody who waits."""
    status, plain, notes = run(program, words)
    tally.check(f"{name} without a terminal: the status", status, 0)
    seen = Seen(words)
    # what it notes of the log comes behind the line
    behind = notes.replace(b"\n", b"\r\n")
    tally.check(f"{name}: the notes come last", seen.shown.endswith(behind), True)
    seen.shown = seen.shown.removesuffix(behind)
    told = judge_pace(name, seen)
    tally.check(f"{name}: lines are told, and no time of a trace, and nobody who waits", [it for it in seen.lines() if b" lines, " not in it or it.count(b",") > 2], [])
    tally.check(f"{name}: no more lines than there are", [it for it in told if it[0] > many], [])
    tally.check(f"{name}: the hundredths are of what was read", [it for it in told if abs(it[4] - 100 * it[0] / many) > 3], [])
    tally.check(f"{name} prints the same", seen.printed() == plain, True)
    return plain + notes


def check_lines():
    config = files("config", json.dumps(level_of(100, 64, 8, 50)))
    path, _ = trace_of(MANY)
    judge_lines("hands", ["hands", config, path], MANY)
    log = files("log", subprocess.run([compiled(files, "long"), "log", "7", str(MANY // 4), files("sums", "")], stdout=subprocess.PIPE, check=True).stdout)
    with open(log, "rb") as file:
        many = file.read().count(b"\n")
    objects = os.path.join(TOP, "examples", "cluster", "objects.json")
    plain = judge_lines("trace", ["trace", log, "service-accounts"], many)
    judge_lines("cluster", ["cluster", objects, log, "15s"], many)
    # what prints as it goes on shows none where both are one terminal
    shown = Seen(["trace", log, "service-accounts"], shares=True).shown.replace(b"\r\n", b"\n")
    tally.check("one terminal: trace prints its lines and its notes alone", (LINE.search(shown), len(shown)), (None, len(plain)))


check_simulation()
check_other_commands()
check_lines()
check_rounds()
tally.end()
