"""Files at their largest size and one byte above, files without end, and standard input in the place of a file."""

import os
import subprocess
import sys
import time

sys.path.insert(0, os.path.join(os.path.dirname(os.path.abspath(__file__)), "lib"))
from harness import LAUNCHER, Files, Tally, build, run

tally = Tally()
program = build()
files = Files()
CONFIG = b'{"limit":1,"queues":1,"handSize":1}'
REQUESTS = b'[{"hash":0},{"hash":0}]'
SCRIPT = b"arrive 0\narrive 1\n"
WHOLE = [CONFIG, REQUESTS, SCRIPT]
NAMES = ["config", "requests", "script"]
PATHS = [files(name, content) for name, content in zip(NAMES, WHOLE)]
MOST = [65_536, 16_777_216, 2_097_152]
# what the files print, by hand
BOOK = b"level open seats 1 waiting 1\nexecuted 1 rejected 0 cancelled 0 undecided 1\nqueue-full 0 closed 0 concurrency-limit 0\nentered 1 dispatched 0 struck 0\n"
TRANSCRIPT = b"arrive 0 execute\narrive 1 queued 0\n" + BOOK
RAN = b"level open seats 0 waiting 0\nexecuted 2 rejected 0 cancelled 0 undecided 0\nqueue-full 0 closed 0 concurrency-limit 0\nentered 0 dispatched 0 struck 0\n"
WANT = {
    "replay": TRANSCRIPT,
    "services": b"queue 0 entered 1 service 0\n",
    "waits": b"request 1 queue 0 ahead 0 most 0 all 0 waiting\n",
}


def instead(place, path):
    paths = [*PATHS]
    paths[place] = path
    return paths


def refused(line, status=1):
    return status, b"", b"apf: " + line + b"\n"


def too_large(place):
    return refused(b"%s too large: more than %d bytes" % (NAMES[place].encode(), MOST[place]))


def padded(content, size):
    """The JSON text, with blanks before its last byte."""
    return content[:-1] + b" " * (size - len(content)) + content[-1:]


# at the largest size, and one byte above
for place in (0, 1):
    name = NAMES[place]
    tally.check(f"{name} of the largest size", run(program, ["replay", *instead(place, files("large", padded(WHOLE[place], MOST[place])))]), (0, TRANSCRIPT, b""))
    tally.check(f"{name} one byte above", run(program, ["replay", *instead(place, files("large", padded(WHOLE[place], MOST[place] + 1)))]), too_large(place))
# no good script is as large as a script may be
line = b"arrive 0\n" + b"x" * (MOST[2] - 10) + b"\n"
tally.check("script of the largest size", run(program, ["replay", *instead(2, files("large", line))]), refused(b"script fault 3 at line 2: bad line"))
tally.check("script one byte above", run(program, ["replay", *instead(2, files("large", line + b"\n"))]), too_large(2))
largest = b"".join(b"arrive %d\n" % (10_000 + number % 90_000) for number in range(100_000))
tally.check("100,000 of the longest lines fit", len(largest) < MOST[2], True)
many = files("many", b"[" + b",".join([b'{"hash":0}'] * 10_000) + b"]")
got = run(program, ["replay", PATHS[0], many, files("large", largest)])
tally.check("100,000 of the longest lines are judged", got, refused(b"script fault 4 at line 1: unknown request"))

# the size is judged in the order of the files, before the other faults of its file, and by each command
big = [files(f"big-{name}", b" " * (most + 1)) for name, most in zip(NAMES, MOST)]
bad = files("bad", b"x")
tally.check("a config is judged before requests are read", run(program, ["replay", bad, big[1], big[2]]), refused(b"config fault 1: not JSON"))
tally.check("a config that is too large is refused before requests are read", run(program, ["replay", big[0], bad, bad]), too_large(0))
tally.check("requests are judged before a script is read", run(program, ["replay", PATHS[0], bad, big[2]]), refused(b"requests fault 1: not JSON"))
for command in ("replay", "services", "waits"):
    for place in range(3):
        tally.check(f"{command}: {NAMES[place]}", run(program, [command, *instead(place, big[place])]), too_large(place))
for place in range(2):
    tally.check(f"run: {NAMES[place]}", run(program, ["run", *instead(place, big[place])[:2], "1"]), too_large(place))

# a file without end is read no further
for place in range(3):
    tally.check(f"{NAMES[place]} without end", run(program, ["replay", *instead(place, "/dev/zero")]), too_large(place))

# 2,000,000 requests: time and memory of the refusal
path = files("millions", b"[" + b",".join([b'{"hash":0}'] * 2_000_000) + b"]")
tally.check("a requests file of 22 MB", os.path.getsize(path), 22_000_001)
# a small process measures it, since a child's peak counts what its parent had when it was forked. The time is that of the processor
MEASURE = """import os, subprocess, sys
child = subprocess.Popen(sys.argv[2:], stdin=subprocess.DEVNULL)
_, status, usage = os.wait4(child.pid, 0)
with open(sys.argv[1], "w") as file:
    file.write(f"{usage.ru_utime + usage.ru_stime} {usage.ru_maxrss // 1024}")
sys.exit(os.waitstatus_to_exitcode(status))
"""
peak = files("peak", b"")


def measured(words):
    """The answer of a run, how long it took, and the most memory that it had, in MiB."""
    done = subprocess.run([sys.executable, "-c", MEASURE, peak, program, *words], stdin=subprocess.DEVNULL, capture_output=True, timeout=120)
    with open(peak, encoding="ascii") as file:
        took, mebibytes = file.read().split()
    return (done.returncode, done.stdout, done.stderr), float(took), int(mebibytes)


got, took, mebibytes = measured(["replay", *instead(1, path)])
tally.check("22 MB are refused", got, too_large(1))
tally.check(f"22 MB are refused in well under a second: {took:.2f} s", took < 1, True)
tally.check(f"22 MB are refused with little memory: {mebibytes} MiB", mebibytes < 128, True)
print(f"a requests file of 22 MB is refused in {took:.2f} s, with {mebibytes} MiB")

# audit logs of 64 MiB: of one line, which is too long, and of 63 lines that are not, each with hundreds of thousands of empty arrays
EVENT = (
    b'{"stage":"ResponseComplete","verb":"get","user":{"username":"a"},"requestReceivedTimestamp":"2026-11-25T12:00:00Z",'
    b'"stageTimestamp":"2026-11-25T12:00:01Z","requestObject":[%s0]}'
)


def event_of(size):
    return EVENT % (b"[]," * ((size - len(EVENT) + 2) // 3))


one, longest = event_of((64 << 20) - 1), event_of(1 << 20)
said = b"apf: audit fault 1 at line 1: the line has more than 1048576 bytes\n"
for name, content, status, err in (("one line", one + b"\n", 1, said), ("63 lines", 63 * (longest + b"\n"), 0, b"")):
    tally.check(f"a log of {name} is not too large", len(content) <= 64 << 20, True)
    got, _, mebibytes = measured(["trace", files("log", content), "s"])
    tally.check(f"a log of {name}", (got[0], got[2]), (status, err))
    tally.check(f"a log of {name} takes at most 300 MB: {mebibytes} MiB", mebibytes < 286, True)


def piped(words, content, by=program, **how):
    """A run whose standard input is a pipe with this content."""
    done = subprocess.run([by, *words], input=content, stdout=subprocess.PIPE, stderr=subprocess.PIPE, timeout=120, **how)
    return done.returncode, done.stdout, done.stderr


# standard input stands for each file, of each command
for command, want in WANT.items():
    for place in range(3):
        tally.check(f"{command}: {NAMES[place]} from a pipe", piped([command, *instead(place, "-")], WHOLE[place]), (0, want, b""))
for place in range(2):
    tally.check(f"run: {NAMES[place]} from a pipe", piped(["run", *instead(place, "-")[:2], "1"], WHOLE[place]), (0, RAN, b""))
with open(PATHS[2], "rb") as script:
    done = subprocess.run([program, "replay", *instead(2, "-")], stdin=script, stdout=subprocess.PIPE, stderr=subprocess.PIPE)
tally.check("a script from a file as standard input", (done.returncode, done.stdout, done.stderr), (0, TRANSCRIPT, b""))
tally.check("the launcher passes standard input on", piped(["replay", *instead(2, "-")], SCRIPT, LAUNCHER), (0, TRANSCRIPT, b""))
tally.check("empty standard input", piped(["replay", *instead(0, "-")], b""), refused(b"config fault 1: not JSON"))
tally.check("the empty script", run(program, ["services", *instead(2, "-")]), (0, b"", b""))

# a pipe that comes in parts is read to its end
parts = subprocess.Popen([program, "replay", *instead(1, "-")], stdin=subprocess.PIPE, stdout=subprocess.PIPE, stderr=subprocess.PIPE)
for begin in range(0, len(REQUESTS), 5):
    parts.stdin.write(REQUESTS[begin : begin + 5])
    parts.stdin.flush()
    time.sleep(0.02)
out, err = parts.communicate(timeout=120)
tally.check("requests in parts", (parts.returncode, out, err), (0, TRANSCRIPT, b""))

# the same sizes
for place in range(3):
    tally.check(f"{NAMES[place]} from a pipe, too large", piped(["replay", *instead(place, "-")], b" " * (MOST[place] + 1)), too_large(place))
tally.check("config from a pipe, of the largest size", piped(["replay", *instead(0, "-")], padded(CONFIG, MOST[0])), (0, TRANSCRIPT, b""))


def told_at_once(place):
    """What is said of one byte more than a file may have, by a pipe that is not closed: whoever reads on waits for more."""
    reading, writing = os.pipe()
    one = subprocess.Popen([program, "replay", *instead(place, "-")], stdin=reading, stdout=subprocess.PIPE, stderr=subprocess.PIPE)
    os.close(reading)
    with open(writing, "wb", buffering=0) as pipe:
        left = b" " * (MOST[place] + 1)
        while left:
            left = left[pipe.write(left) :]
        try:
            out, err = one.communicate(timeout=20)
        except subprocess.TimeoutExpired:
            one.kill()
            out, err = one.communicate()
    return one.returncode, out, err


for place in range(3):
    tally.check(f"one byte more of the {NAMES[place]} is read, and no more", told_at_once(place), too_large(place))

# it stands for one file only: then nothing is read, not even a pipe that nobody closes
for command in WANT:
    for places in ((0, 1), (0, 2), (1, 2), (0, 1, 2)):
        paths = ["-" if place in places else "missing" for place in range(3)]
        ends = os.pipe()
        tally.check(f"{command} {' '.join(paths)}", (lambda done: (done.returncode, done.stdout, done.stderr))(
            subprocess.run([program, command, *paths], stdin=ends[0], stdout=subprocess.PIPE, stderr=subprocess.PIPE, timeout=20)
        ), refused(b"standard input is named twice", 2))
        os.close(ends[0])
        os.close(ends[1])
tally.check("run - -", piped(["run", "-", "-", "1"], CONFIG), refused(b"standard input is named twice", 2))

# a file of this name has another path
files("-", SCRIPT)
here = files.folder.name
tally.check("./-", piped(["replay", *instead(2, "./-")], b"x", cwd=here), (0, TRANSCRIPT, b""))
tally.check("./- and -", piped(["replay", *instead(0, "-")[:2], "./-"], CONFIG, cwd=here), (0, TRANSCRIPT, b""))
tally.end()
