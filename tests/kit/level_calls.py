"""A level that nobody sleeps on makes no futex call: not where a request is dispatched, and not where a cancel writes.

The counter is tried on two small programs first, one of which makes such a call.
"""

import os
import subprocess
import sys

HERE = os.path.dirname(os.path.dirname(os.path.abspath(__file__)))
sys.path.insert(0, os.path.join(HERE, "lib"))
from harness import Files, Tally, build_crate

tally = Tally()
program = build_crate("apf_trials")
files = Files()
counter = os.path.join(files.folder.name, "futexes")
subprocess.run(["cc", "-O1", "-o", counter, os.path.join(HERE, "lib", "futexes.c")], check=True)


def futexes(words):
    """The status of the program, and how many futex calls it made."""
    count = os.path.join(files.folder.name, "count")
    done = subprocess.run([counter, count, *words], stdin=subprocess.DEVNULL, stdout=subprocess.DEVNULL, stderr=subprocess.DEVNULL)
    with open(count, encoding="ascii") as file:
        return done.returncode, int(file.read())


for calls in (0, 3):
    source, tried = os.path.join(files.folder.name, f"calls{calls}.c"), os.path.join(files.folder.name, f"calls{calls}")
    with open(source, "w", encoding="ascii") as file:
        file.write("#include <linux/futex.h>\n#include <sys/syscall.h>\n#include <unistd.h>\nstatic int word;\nint main(void) {\n")
        file.write("    syscall(SYS_futex, &word, FUTEX_WAKE, 1, 0, 0, 0);\n" * calls + "    return 7;\n}\n")
    subprocess.run(["cc", "-static", "-o", tried, source], check=True)
    tally.check(f"a program with {calls} calls", futexes([tried]), (7, calls))
# it dispatches a request, and cancels one that waits
tally.check("a level of one thread", futexes([program, "levels", "memory"]), (0, 0))
tally.end()
