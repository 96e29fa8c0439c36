"""Output that finds no room. First a file that may have only so many bytes, at each place of a text that was worked by hand: the program says that it cannot write, and
what it wrote is a beginning. Then texts that are written in pieces, of which one is refused: what comes behind it would find room, and a writer that went
on would lose that one. The edge between two pieces falls on each place of the last lines, or on one of a few."""

import json
import os
import resource
import signal
import subprocess
import sys

HERE = os.path.dirname(os.path.abspath(__file__))
sys.path.insert(0, os.path.join(HERE, "lib"))
import worked
from harness import Files, Tally, build, run
from judge import config_of
from picture import Picture
from simulation import Run
from trace import trace_of

tally = Tally()
program = build()
files = Files()
CANNOT = b"apf: cannot write\n"
MOST, HARD = resource.getrlimit(resource.RLIMIT_FSIZE)
NOTHING = os.open(os.devnull, os.O_RDONLY)
WRITTEN = os.open(os.path.join(files.folder.name, "written"), os.O_RDWR | os.O_CREAT)


def printed(words, room=None, **environment):
    """The program's status, what it wrote to a file, which may have so many bytes, and its errors."""
    os.ftruncate(WRITTEN, 0)
    os.lseek(WRITTEN, 0, os.SEEK_SET)
    # no file is larger, and a pipe is none
    reading, errors = os.pipe()
    given = [(os.POSIX_SPAWN_DUP2, file, place) for place, file in enumerate([NOTHING, WRITTEN, errors])]
    if room is not None:
        resource.setrlimit(resource.RLIMIT_FSIZE, (room, HARD))
    # Python ignores the signal of a file that grows too large, and so does what it starts
    process = os.posix_spawn(program, [program, *words], {**os.environ, **environment}, file_actions=given, setsigdef=[signal.SIGPIPE])
    if room is not None:
        resource.setrlimit(resource.RLIMIT_FSIZE, (MOST, HARD))
    os.close(errors)
    with open(reading, "rb") as pipe:
        err = pipe.read()
    status = os.waitstatus_to_exitcode(os.waitpid(process, 0)[1])
    return status, os.pread(WRITTEN, os.fstat(WRITTEN).st_size, 0), err


# ---- so many bytes

CONFIG = '{"limit":2,"queues":1,"handSize":1,"queueLengthLimit":10}'
three = files("three", '[{"hash":0,"width":5},{"hash":0},{"hash":0,"cancels":0}]')
level = [files("level", CONFIG), three, files("script", "arrive 0\narrive 1\narrive 2\ncancel 2\nfinish 0\nlimit 3\nclose\n")]
TRANSCRIPT = (
    "arrive 0 execute\narrive 1 queued 0\narrive 2 queued 0\ncancel 2 cancelled\nstrike 2 queue 0\nfinish 0\ndispatch 1 queue 0\nlimit 3 was 2\nclose first\n"
    "level closed seats 1 waiting 0\nexecuted 2 rejected 0 cancelled 1 undecided 0\nqueue-full 0 closed 0 concurrency-limit 0\nentered 2 dispatched 1 struck 1\n"
)
WAITS = "request 1 queue 0 ahead 0 most 0 all 0 dispatched\nrequest 2 queue 0 ahead 1 most 0 all 0 struck\n"
BOOK = "level open seats 0 waiting 0\nexecuted %d rejected 0 cancelled 0 undecided 0\nqueue-full 0 closed 0 concurrency-limit 0\nentered 0 dispatched 0 struck 0\n"
roomy, two = files("roomy", CONFIG.replace("2", "5", 1)), files("two", '[{"hash":0},{"hash":0}]')
# two events of an audit log, of which the second one came first
log = files(
    "log",
    "".join(
        '{"stage":"ResponseComplete","verb":"%s","user":{"username":"%s"},"requestReceivedTimestamp":"2026-11-25T12:00:00.00000%dZ","stageTimestamp":"2026-11-25T12:00:00.000009Z"}\n' % it
        for it in (("get", "b", 2), ("list", "c", 1))
    ),
)
TRACE = '{"schema":"a","distinguisher":"c","arrivesAt":0,"runsFor":8}\n{"schema":"a","distinguisher":"b","arrivesAt":1,"runsFor":7}\n'
# six requests of a crawler at once, and three of alice, who is dealt the other queue
_, small, crawled, crawler = worked.WORKED[0]
by_hand = {(command.__name__, patience): text for command, patience, text in crawler}
_, (one, other), _, patience, apart = worked.SIDE_BY_SIDE[2]
small, crawled, one, other = (files(name, content) for name, content in (("small", small), ("crawled", crawled), ("one", one), ("other", other)))
array = files("array", "[]")
# a picture of one request
LINE = b'{"hash":0,"arrivesAt":0,"runsFor":9}\n'
drawn = Picture(Run(config_of(open(small, "rb").read()), trace_of(LINE), 90)).text()
# the words, what is printed, and how many bytes lie between two places
ROWS = [
    (["hash", "", "system:node"], "7d5a8f2d7d48b7bf\n", 1),
    (["deal", "8", "3", "335"], "7 6 5\n", 1),
    (["replay", *level], TRANSCRIPT, 1),
    (["services", *level], "queue 0 entered 2 service 1\n", 1),
    (["waits", *level], WAITS, 1),
    (["run", roomy, three, "1"], BOOK % 3, 1),
    (["run", roomy, two, "1", "--rounds", "3"], BOOK % 6, 1),
    (["simulate", small, crawled, "90", "--charge=seats"], by_hand["simulate", 90], 1),
    (["timeline", small, crawled, "90", "--charge=seats"], by_hand["timeline", 90], 1),
    (["fates", small, crawled, "90", "--charge=seats"], by_hand["fates", 90], 16),
    (["compare", one, other, crawled, str(patience), "--charge=seats"], worked.COMPARED + apart, 16),
    (["requests", crawled], by_hand["requests", None], 1),
    (["hands", small, crawled], by_hand["hands", None], 1),
    (["trace", log, "a"], TRACE, 1),
    (["picture", small, files("line", LINE), "90"], drawn, 16),
    (["explain", array, three, three], f"{array}: a config is a JSON object, but this is an array\n", 1),
]
for words, text, every in ROWS:
    whole = text.encode()
    ample = (1, whole, b"apf: config fault 2: not an object\n") if words[0] == "explain" else (0, whole, b"")
    for room in (None, len(whole)):
        tally.check(f"{words[0]} with room for all", printed(words, room), ample)
    for room in range(0, len(whole), every):
        tally.check(f"{words[0]} with room for {room} bytes", printed(words, room), (1, whole[:room], CANNOT))

# ---- pieces

# a program has this much memory for its output, and writes it when the next part of a line finds no room there
PIECE = 8192
FULL = files("full.so", b"")
subprocess.run(["cc", "-O1", "-shared", "-fPIC", "-o", FULL, os.path.join(HERE, "lib", "full.c")], check=True)


def refused(words, piece):
    """What is answered without one piece."""
    return printed(words, LD_PRELOAD=FULL, APF_FULL=str(piece))


def in_pieces(name, words, least):
    """Each piece of a text is refused: what is written is a beginning."""
    status, ample, err = printed(words)
    tally.check(f"{name}, of {len(ample)} bytes", (status, len(ample) > least * PIECE, err), (0, True, b""))
    for piece in range(1, -(-len(ample) // PIECE) + 1):
        status, out, err = refused(words, piece)
        tally.check(f"{name}, of {len(ample)} bytes, without piece {piece}", (status, ample.startswith(out), err), (1, True, CANNOT))


def at_edges(name, words_of, last, every=1):
    """The edge between two pieces falls on each place of the last bytes of a text, or on one of a few, as the text of these words is so many bytes longer. The first
    piece is refused."""
    least = len(printed(words_of(0))[1])
    longest = PIECE - least + last
    tally.check(f"{name}: {least} bytes are less than a piece", PIECE // 2 < least <= PIECE, True)
    tally.check(f"{name}, {longest} bytes longer", len(printed(words_of(longest))[1]), least + longest)
    for longer in range(PIECE - least + 1, longest + 1, every):
        status, _, err = refused(words_of(longer), 1)
        tally.check(f"{name}, {longer} bytes longer, without its first piece", (status, err), (1, CANNOT))


def named(count, longer):
    """A trace of so many flows, each of one request, of which the first one's name has so many letters."""
    form = '{"schema":"s","distinguisher":"%s","arrivesAt":%d,"runsFor":9}\n'
    return files("named", "".join(form % ("x" * longer if number == 0 else f"{number:04}", number) for number in range(count)))


def script(longer):
    """The transcript of one line is 15 bytes long, and of another one 17."""
    others = 8 * longer % 15
    more = ["arrive 0"] * ((longer - 17 * others) // 15) + ["cancel 0"] * others
    return files("longer", "".join(f"{it}\n" for it in ["arrive 0", *["finish 1"] * 350, *more, "arrive 1", "arrive 2", "cancel 2", "finish 0", "limit 3", "close"]))


single, rejects = files("single", '{"limit":2,"queues":1,"handSize":1}'), files("rejects", '{"limit":1,"limitResponse":"Reject"}')
for command, configs, count, last, every in (
    ("simulate", [small], 60, 330, 1),
    ("fates", [small], 150, 60, 3),
    ("compare", [small, rejects], 150, 150, 3),
    ("hands", [single], 28, 250, 3),
    ("requests", [], 200, 60, 3),
):
    more = [] if command in ("requests", "hands") else ["0"]
    at_edges(command, lambda longer: [command, *configs, named(count, longer), *more], last, every)
at_edges("replay", lambda longer: ["replay", level[0], three, script(longer)], 300)

# of lines that are all alike, the pieces of a longer text
queues = files("queues", '{"limit":1,"queues":1024,"handSize":1}')
many = files("many", json.dumps([{"hash": it} for it in range(1_024)]))
arrivals = files("arrivals", "".join(f"arrive {it}\n" for it in range(1_024)))
crowd = files("crowd", "".join('{"hash":%d,"arrivesAt":%d,"runsFor":9}\n' % (it % 7, it) for it in range(1_000)))
events = files(
    "events",
    "".join(
        f'{{"stage":"ResponseComplete","verb":"get","user":{{"username":"{it}"}},"requestReceivedTimestamp":"2026-11-25T12:00:00Z","stageTimestamp":"2026-11-25T12:00:09Z"}}\n'
        for it in range(400)
    ),
)
for words, least in (
    (["services", queues, many, arrivals], 3),
    (["waits", queues, many, arrivals], 5),
    (["timeline", small, crowd, "0"], 1),
    (["picture", small, crowd, "0"], 2),
    (["trace", events, "a"], 3),
):
    in_pieces(words[0], words, least)
tally.end()
