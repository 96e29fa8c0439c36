"""A log of a million events of a whole cluster goes through a pipe into the built `apf cluster`, which lends seats: each request is on a level, each one that
the log's server turned away is told, and the time and the memory of the program are bounded. The log is that of examples/cluster/log.py, and is made while
it is read.

APF_EVENTS says how many events there are.
"""

import json
import os
import re
import subprocess
import sys

sys.path.insert(0, os.path.join(os.path.dirname(os.path.dirname(os.path.abspath(__file__))), "lib"))
from harness import TOP, Tally, build

tally = Tally()
program = build()
FOLDER = os.path.join(TOP, "examples", "cluster")
OBJECTS = os.path.join(FOLDER, "objects.json")
MANY = int(os.environ.get("APF_EVENTS", "1000000"))
# of the program, in seconds of a processor and in KiB
MOST_SECONDS, MOST_MEMORY = 90, 131_072

making = subprocess.Popen([sys.executable, os.path.join(FOLDER, "log.py"), str(MANY)], stdin=subprocess.DEVNULL, stdout=subprocess.PIPE)
running = subprocess.Popen([program, "cluster", OBJECTS, "-", "15s"], stdin=subprocess.PIPE, stdout=subprocess.PIPE, stderr=subprocess.PIPE)
# each event of this log is a request
came = away = size = 0
try:
    for line in making.stdout:
        came, away, size = came + 1, away + (b'"responseStatus":{"code":429}' in line), size + len(line)
        running.stdin.write(line)
    running.stdin.close()
except BrokenPipeError:
    # it ended before the log did, and says why
    making.kill()
out, err = running.stdout.read().decode(), running.stderr.read().decode()
# of the program alone, and not of what makes the log
_, status, used = os.wait4(running.pid, 0)
running.returncode = os.waitstatus_to_exitcode(status)
tally.check("the log is made", (making.wait(), came), (0, MANY))
tally.check("the program's status and its errors", (running.returncode, err), (0, ""))

# ---- what is printed

names, *rows = [line.split(" ") for line in out.partition("\n\n")[0].splitlines()] or [[]]
levels = [dict(zip(names, row)) for row in rows]
with open(OBJECTS) as file:
    objects = [it["metadata"]["name"] for it in json.load(file)["items"] if it["kind"] == "PriorityLevelConfiguration"]
tally.check("the levels", [it["level"] for it in levels], objects)


def total(name):
    return sum(int(it[name]) for it in levels)


tally.check("each request is on a level", total("requests"), came)
tally.check("each request executed, was rejected or gave up", total("executed") + total("rejected") + total("timed-out"), came)
tally.check("each that the log's server turned away is counted", total("log-429s"), away)
tally.check("some were turned away", away > 0, True)
told = re.findall(r"^not in the log: how long (\d+) requests that were turned away would run ", out, re.M)
tally.check("and told as one whose run is guessed", told, [str(away)])
moved = [it["level"] for it in levels if ".." in it["limits"]]
tally.check(f"seats were lent: {moved}", len(moved) > 1, True)

# ---- what it takes. What `wait4` says of the memory is at least what this process had when it made the other, which is less

seconds = used.ru_utime + used.ru_stime
print(f"{came} events, {size // 1_000_000} MB, {away} turned away: {used.ru_maxrss} KiB, {seconds:.2f} s of a processor, {1e6 * seconds / max(came, 1):.2f} us an event")
tally.check(f"at most {MOST_SECONDS} s of a processor: {seconds:.2f}", seconds <= MOST_SECONDS, True)
tally.check(f"at most {MOST_MEMORY} KiB: {used.ru_maxrss}", used.ru_maxrss <= MOST_MEMORY, True)
tally.end()
