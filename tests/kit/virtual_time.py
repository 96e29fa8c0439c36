"""Virtual time that passes 64 bits: queues whose numbers begin just below 2^64 choose as those that begin at 0.

No course of calls gets there, so the tests of the queues run on a copy in which the numbers begin there. It is run without a proof, as its contracts
say that they begin at 0. Numbers that stop at 64 bits fail the same tests.
"""

import os
import shutil
import subprocess
import sys
import tempfile

sys.path.insert(0, os.path.join(os.path.dirname(os.path.dirname(os.path.abspath(__file__))), "lib"))
from harness import TOP, Tally, lines_of_crates

CRATES = lines_of_crates("apf_queue_tests")
TIME = "crates/apf_queue/src/virtual_time.rt"
TESTS = "crates/apf_queue_tests/src/lib.rt"
# the tests begin with costs of some seats, and go on with some thousands
BEGINS = "(1 << 64) - 30_000"
# these take minutes where nothing is compiled for speed
SLOW = ("again", "agreement", "levels")
LATER = (
    (TIME, "next: vec![in alloc; 0; queues as usize]?", f"next: vec![in alloc; {BEGINS}; queues as usize]?"),
    (TIME, "level: 0,", f"level: {BEGINS},"),
    *((TESTS, f"#[cfg(test)]\nmod {it};\n", "") for it in SLOW),
)
STOPS = (
    (TIME, "self.next[queue as usize] + u128::from(cost)", "(self.next[queue as usize] + u128::from(cost)).min(u128::from(u64::MAX))"),
    (TIME, "self.next[queue as usize] = next + u128::from(cost)", "self.next[queue as usize] = (next + u128::from(cost)).min(u128::from(u64::MAX))"),
)
tally = Tally()


def tested(edits):
    """What the tests print on a copy with these edits, the last line first."""
    with tempfile.TemporaryDirectory(prefix="apf-time-") as folder:
        shutil.copy(os.path.join(TOP, "HANDLES"), folder)
        with open(os.path.join(folder, "crates.txt"), "w") as kept:
            kept.writelines(f"{line}\n" for line in CRATES.values())
        for crate in CRATES:
            shutil.copytree(os.path.join(TOP, "crates", crate), os.path.join(folder, "crates", crate), ignore=shutil.ignore_patterns("out", "must-fail"))
        for it in SLOW:
            os.remove(os.path.join(folder, "crates", "apf_queue_tests", "src", f"{it}.rt"))
        for name, old, new in edits:
            path = os.path.join(folder, name)
            with open(path) as file:
                text = file.read()
            tally.check(f"{old} stands once in {name}", text.count(old), 1)
            with open(path, "w") as file:
                file.write(text.replace(old, new))
        done = subprocess.run(
            ["rt", "try", "--test"], cwd=os.path.join(folder, "crates", "apf_queue_tests"), stdin=subprocess.DEVNULL, stdout=subprocess.PIPE, stderr=subprocess.STDOUT
        )
        return done.stdout.decode(errors="replace").splitlines()


def results(lines):
    """Which tests passed, and which failed."""
    words = [line.split() for line in lines if line.startswith("test ") and " ... " in line]
    return {it[1] for it in words if it[-1] == "ok"}, {it[1] for it in words if it[-1] != "ok"}


lines = tested(LATER)
passed, failed = results(lines)
tally.check("no test fails where virtual time begins just below 2^64", failed, set())
tally.check("tests were run", {"random::answers_are_those_of_plain_lists", "numbers::numbers_of_virtual_time"} <= passed, True)
if failed or not passed:
    print("\n".join(lines[-60:]))
_, failed = results(tested(LATER + STOPS))
tally.check("numbers that stop at 64 bits are seen", "random::answers_are_those_of_plain_lists" in failed, True)
tally.end()
