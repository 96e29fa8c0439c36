"""The stored program is the one that is built here of these sources, byte for byte, and its hash is theirs.

Another release of the kit, of the same logic, may compile to other bytes. Under one the two programs are compared by what they print.
"""

import hashlib
import os
import re
import subprocess
import sys

sys.path.insert(0, os.path.join(os.path.dirname(os.path.dirname(os.path.abspath(__file__))), "lib"))
from harness import LAUNCHER, TOP, Tally

STORED = os.path.join(TOP, "program", "x86_64-linux")
ANEW = "program/store stores it anew"
KIT = re.search(r'^kit="(.*)"$', open(LAUNCHER).read(), re.M)[1]
tally = Tally()


def content(*path):
    try:
        with open(os.path.join(*path), "rb") as file:
            return file.read()
    except OSError:
        return None


def lines_of_crates():
    """The lines of crates.txt that the program is made of, each after those that it names."""
    lines = {}
    for line in content(TOP, "crates.txt").decode().split("\n"):
        line = line.split("#")[0]
        if line.strip():
            lines[re.split(r"[ :]", line)[0]] = line
    order = []

    def visit(name):
        if name in lines and lines[name] not in order:
            for below in lines[name].partition(":")[2].split():
                visit(below)
            order.append(lines[name])

    visit("apf")
    return order


def hash_of_sources():
    """What the launcher calls `made_of`, computed anew: kit, lines, and the hash and name of each file, in order."""
    order, files = lines_of_crates(), []
    for line in order:
        name = re.split(r"[ :]", line)[0]
        for part, ending in (("src", ".rt"), ("specs", ".antt"), ("proofs", ".antt")):
            for at, _, names in os.walk(os.path.join(TOP, "crates", name, part)):
                files += [os.path.relpath(os.path.join(at, it), os.path.join(TOP, "crates")) for it in names if it.endswith(ending)]
    rows = [f"{hashlib.sha256(content(TOP, 'crates', it)).hexdigest()}  {it}" for it in sorted(files, key=os.fsencode)]
    return hashlib.sha256("".join(f"{it}\n" for it in [KIT, *order, *rows]).encode()).hexdigest()


def is_same(one, other):
    return one is not None and one == other


def printed(program):
    """What the program prints for each example that has a script."""
    examples = sorted(it for it in os.listdir(os.path.join(TOP, "examples")) if os.path.exists(os.path.join(TOP, "examples", it, "script.txt")))
    files = [[os.path.join(TOP, "examples", it, name) for name in ("config.json", "requests.json", "script.txt")] for it in examples]
    calls = [[program, command, *names] for names in files for command in ("replay", "services", "waits", "explain")]
    return [(it.returncode, it.stdout, it.stderr) for it in (subprocess.run(call, capture_output=True) for call in calls)]


if subprocess.run([LAUNCHER, "--version"], stdout=subprocess.DEVNULL, env=dict(os.environ, APF_BUILD="1")).returncode != 0:
    # the launcher has said why
    print("0 passed, 1 failed")
    sys.exit(1)
here = subprocess.run(["rt", "version"], capture_output=True, check=True).stdout.decode().strip()
tally.check("the logic of the kit", here.partition(" logic ")[2], KIT.partition(" logic ")[2])
wanted = hash_of_sources()
stored_of = (content(STORED, "made-of") or b"").decode().strip()
tally.check("the launcher's hash of the sources", subprocess.run(["bash", "-c", '. "$1"; made_of', "", LAUNCHER], capture_output=True).stdout.decode().strip(), wanted)
tally.check(f"the stored program is of these sources; if not, {ANEW}", stored_of, wanted)
paths = [os.path.join(STORED, "apf"), os.path.join(TOP, "crates", "apf", "out", "apf")]
if here == KIT:
    tally.check(f"the stored program is the one that was built here; if not, {ANEW}", is_same(*map(content, paths)), True)
else:
    print(f"the stored program was built with {KIT}, and the kit here is {here}: what the two programs print is compared, and not their bytes")
    stored, built = map(printed, paths)
    tally.check("the stored program prints what the one that was built here prints", (len(stored) >= 12, stored), (True, built))
tally.check("the stored program may be run", os.access(os.path.join(STORED, "apf"), os.X_OK), True)
tally.end()
