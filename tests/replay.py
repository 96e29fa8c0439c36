"""The commands on files: what is printed, the statuses, and faults of reading and writing."""

import os
import shutil
import subprocess
import sys
import tempfile

sys.path.insert(0, os.path.join(os.path.dirname(os.path.abspath(__file__)), "lib"))
from harness import LAUNCHER, TOP, Files, Tally, build, drop_rights, run

tally = Tally()
program = build()
files = Files()
config = files("config", '{"limit":1}')
one = files("one", '[{"hash":0}]')
two = files("two", '[{"hash":0},{"hash":0}]')
first = os.path.join(TOP, "examples", "first")
FIRST = (
    b"arrive 0 execute\nfinish 0\n"
    b"level open seats 0 waiting 0\nexecuted 1 rejected 0 cancelled 0 undecided 0\n"
    b"queue-full 0 closed 0 concurrency-limit 0\nentered 0 dispatched 0 struck 0\n"
)


def replay(config, requests, script):
    return run(program, ["replay", config, requests, script])


# from the top, and from another folder
names = [os.path.join("examples", "first", name) for name in ("config.json", "requests.json", "script.txt")]
tally.check("first run", run("./apf", ["replay", *names], cwd=TOP), (0, FIRST, b""))
with tempfile.TemporaryDirectory() as elsewhere:
    paths = [os.path.join(TOP, name) for name in names]
    tally.check("first run from elsewhere", run(LAUNCHER, ["replay", *paths], cwd=elsewhere), (0, FIRST, b""))
    relative = [os.path.relpath(path, elsewhere) for path in paths]
    tally.check("first run by relative names", run(LAUNCHER, ["replay", *relative], cwd=elsewhere), (0, FIRST, b""))

QUEUED = (
    b"arrive 0 execute\narrive 1 queued 0\n"
    b"level open seats 1 waiting 1\nexecuted 1 rejected 0 cancelled 0 undecided 1\n"
    b"queue-full 0 closed 0 concurrency-limit 0\nentered 1 dispatched 0 struck 0\n"
)
tally.check("queued", replay(config, two, files("s", "arrive 0\narrive 1\n")), (0, QUEUED, b""))
EMPTY = (
    b"level open seats 0 waiting 0\nexecuted 0 rejected 0 cancelled 0 undecided 0\n"
    b"queue-full 0 closed 0 concurrency-limit 0\nentered 0 dispatched 0 struck 0\n"
)
tally.check("empty", replay(config, files("none", "[]"), files("s", "")), (0, EMPTY, b""))
status, out, err = replay(config, two, files("s", "arrive 0\narrive 0\nfinish 0\nfinish 0\narrive 1\n"))
tally.check("again", (status, out.split(b"level")[0], err), (
    0, b"arrive 0 execute\narrive 0 again\nfinish 0\nfinish 0 not running\narrive 1 execute\n", b""))

# each request has its own width, and the level its limit
WIDTHS = (
    b"arrive 0 execute\narrive 1 queued 0\nfinish 0\ndispatch 1 queue 0\n"
    b"level open seats 1 waiting 0\nexecuted 2 rejected 0 cancelled 0 undecided 0\n"
    b"queue-full 0 closed 0 concurrency-limit 0\nentered 1 dispatched 1 struck 0\n"
)
wide = files("wide", '[{"hash":0,"width":2},{"hash":0,"width":1}]')
tally.check("widths 2 and 1 of 2 seats", replay(files("seats", '{"limit":2}'), wide, files("s", "arrive 0\narrive 1\nfinish 0\n")), (0, WIDTHS, b""))
for limit, widths, seats in [(2, (1, 1), 2), (2, (2, 1), 2), (3, (1, 2), 3), (3, (2, 1), 3), (10_000, (9_999, 1), 10_000), (1, (20_000, 1), 20_000)]:
    level = files("level", '{"limit":%d}' % limit)
    both = files("both", '[{"hash":0,"width":%d},{"hash":0,"width":%d}]' % widths)
    status, out, err = replay(level, both, files("s", "arrive 0\narrive 1\n"))
    is_fit = seats == sum(widths)
    book = b"level open seats %d waiting %d\nexecuted %d " % (seats, 0 if is_fit else 1, 2 if is_fit else 1)
    tally.check(f"limit {limit}, widths {widths}", (status, book in out, err), (0, True, b""))

# each file is judged before the next one is read, and the dealer after all of them
missing = os.path.join(files.folder.name, "missing")
zero, no_array, dealt = files("zero", '{"limit":0}'), files("no-array", "{}"), files("dealt", '{"limit":1,"queues":3}')
for name, paths, line in [
    ("the config before the requests", (zero, missing, missing), b"apf: config fault 5: bad value of limit\n"),
    ("the requests before the script", (config, no_array, missing), b"apf: requests fault 2: not an array\n"),
    ("the requests before the dealer", (dealt, no_array, missing), b"apf: requests fault 2: not an array\n"),
    ("the script before the dealer", (dealt, one, missing), b"apf: cannot read script\n"),
    ("a script's fault before the dealer", (dealt, one, files("s", "arrive 1\n")), b"apf: script fault 4 at line 1: unknown request\n"),
]:
    tally.check(name, replay(*paths), (1, b"", line))

# a level that rejects has no queues, so a hand that can't be dealt from them does not matter
REJECTED = (
    b"arrive 0 execute\narrive 1 concurrency-limit\n"
    b"level open seats 1 waiting 0\nexecuted 1 rejected 1 cancelled 0 undecided 0\n"
    b"queue-full 0 closed 0 concurrency-limit 1\nentered 0 dispatched 0 struck 0\n"
)
for name, text in [("Reject", '{"limit":1,"limitResponse":"Reject"}'), ("Reject, no hand", '{"limit":1,"queues":3,"limitResponse":"Reject"}')]:
    tally.check(name, replay(files("rejects", text), two, files("s", "arrive 0\narrive 1\n")), (0, REJECTED, b""))

# what each queue was given, as it stands after the last command
served = files("served", "arrive 0\narrive 1\n")
tally.check("services", run(program, ["services", config, two, served]), (0, b"queue 0 entered 1 service 0\n", b""))
served = files("served", "arrive 0\narrive 1\nfinish 0\n")
tally.check("services after a dispatch", run(program, ["services", config, two, served]), (0, b"queue 0 entered 1 service 1\n", b""))
tally.check("services of an empty log", run(program, ["services", config, two, files("s", "arrive 0\n")]), (0, b"", b""))
tally.check("a fault in services", run(program, ["services", files("zero", '{"limit":0}'), two, served]), (1, b"", b"apf: config fault 5: bad value of limit\n"))

# what was granted while each request waited
tally.check("waits", run(program, ["waits", config, two, served]), (0, b"request 1 queue 0 ahead 0 most 0 all 0 dispatched\n", b""))
three = files("three", '[{"hash":0},{"hash":0},{"hash":0}]')
left = files("left", "arrive 0\narrive 1\narrive 2\ncancel 1\n")
STRUCK = b"request 1 queue 0 ahead 0 most 0 all 0 struck\nrequest 2 queue 0 ahead 1 most 0 all 0 waiting\n"
narrow = files("narrow", '{"limit":1,"queues":1,"handSize":1}')
tally.check("waits of the struck and the waiting", run(program, ["waits", narrow, three, left]), (0, STRUCK, b""))
tally.check("waits of an empty log", run(program, ["waits", config, two, files("s", "arrive 0\n")]), (0, b"", b""))
tally.check("waits on a level that rejects", run(program, ["waits", files("rejects", '{"limit":1,"limitResponse":"Reject"}'), two, served]), (0, b"", b""))
tally.check("a fault in waits", run(program, ["waits", files("zero", '{"limit":0}'), two, served]), (1, b"", b"apf: config fault 5: bad value of limit\n"))

# a level of the largest sizes is opened
largest = files("largest", '{"limit":1,"queues":1024,"handSize":1,"queueLengthLimit":10000}')
many = files("many", "[" + ",".join(['{"hash":0}'] * 10_000) + "]")
status, out, err = replay(largest, many, files("s", "arrive 0\narrive 9999\n"))
tally.check("wide level", (status, out.split(b"level")[0], err), (0, b"arrive 0 execute\narrive 9999 queued 0\n", b""))

# a fault of a file, each with its line and status
for name, texts, want in [
    ("config fault", ('{"limit":0}', "[]", ""), b"apf: config fault 5: bad value of limit\n"),
    ("config first", ("", "x", "x"), b"apf: config fault 1: not JSON\n"),
    ("requests fault", ('{"limit":1}', "{}", ""), b"apf: requests fault 2: not an array\n"),
    ("requests fault at", ('{"limit":1}', '[{"hash":0},1]', ""), b"apf: requests fault 4 at 1: not an object\n"),
    ("script fault", ('{"limit":1}', '[{"hash":0}]', "close\narrive 1\n"), b"apf: script fault 4 at line 2: unknown request\n"),
    ("limit fault", ('{"limit":1}', "[]", "limit 0\n"), b"apf: script fault 6 at line 1: bad limit\n"),
    ("dealer fault", ('{"limit":1,"queues":3}', "[]", ""), b"apf: dealer fault 2: hand too large\n"),
]:
    paths = [files(f"part{i}", text) for i, text in enumerate(texts)]
    tally.check(name, replay(*paths), (1, b"", want))

# a file that can't be read
good = [config, one, files("s", "arrive 0\n")]
for place, name in enumerate(("config", "requests", "script")):
    for bad in (os.path.join(files.folder.name, "missing"), files.folder.name, "", "a/b"):
        paths = [*good]
        paths[place] = bad
        tally.check(f"{name} {bad}", replay(*paths), (1, b"", b"apf: cannot read %s\n" % name.encode()))
closed = files("closed", "[]")
os.chmod(closed, 0)
# root reads any file: the same as another user, by a copy of the program that this one reaches
os.chmod(files.folder.name, 0o755)
copy = os.path.join(files.folder.name, "program")
shutil.copy(program, copy)
rights, note = drop_rights(copy)
if rights is None:
    print(note)
else:
    tally.check("no right to read", run(copy, ["replay", config, closed, config], **rights), (1, b"", b"apf: cannot read requests\n"))

# output that can't be written
for words in (["hash", "", ""], ["deal", "8", "3", "0"], ["replay", *good], ["services", config, two, served], ["waits", config, two, served], ["--help"]):
    with open("/dev/full", "wb") as full:
        done = subprocess.run([program, *words], stdout=full, stderr=subprocess.PIPE)
    tally.check(f"full disk {words[0]}", (done.returncode, done.stderr), (1, b"apf: cannot write\n"))
    reading, writing = os.pipe()
    os.close(reading)
    done = subprocess.run([program, *words], stdout=writing, stderr=subprocess.PIPE)
    os.close(writing)
    tally.check(f"closed pipe {words[0]}", (done.returncode, done.stderr), (1, b"apf: cannot write\n"))
tally.end()
