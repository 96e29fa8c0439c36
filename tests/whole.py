"""The script `test`, its two tiers, with a stand-in for the toolchain's `rt`, for `./plant` and for the scripts that it runs."""

import os
import re
import shutil
import signal as signals
import subprocess
import sys
import tempfile
import time

sys.path.insert(0, os.path.join(os.path.dirname(os.path.abspath(__file__)), "lib"))
from harness import LAUNCHER, TOP, Tally, folder_in_memory, write

# a shell can't trap what was ignored before it, and what runs in the background of another shell ignores an interrupt
signals.signal(signals.SIGINT, signals.default_int_handler)
tally = Tally()
room = tempfile.TemporaryDirectory(prefix="apf-test-", dir=folder_in_memory())

# what `rt` does in a run of `test`: it notes the call, and `ci` may build the program, change a source, or fail
RT_OF_TEST = r"""#!/usr/bin/env bash
[ "$1" != version ] || { echo "$KIT"; exit; }
echo "$1" >>"$NOTES"
make() { mkdir -p "$1" && printf '#!/bin/sh\n' >"$1/apf" && chmod +x "$1/apf"; }
case $1 in
  ci)
    echo "$SAYS"
    rm -rf crates/apf/out
    [[ $DOES != *builds* ]] || make crates/apf/out
    [[ $DOES != *changes* ]] || echo changed >crates/apf/src/main.rt
    exit "$STATUS" ;;
  run) [[ $DOES != *refuses* ]] && make out ;;
esac
"""


# what `./plant` does there: it notes the call where its words are those of a landing, and says what it is told to
PLANT_OF_TEST = r"""#!/usr/bin/env bash
[ "$*" = "--must-fail --after-ci --lanes $(nproc)" ] && echo plant >>"$NOTES"
echo "${PLANTED:-0 passed, 0 failed}"
[[ ${PLANTED:-0 failed} == *"0 failed" ]]
"""


# what `python3` is there: the program of this name that it is asked for is itself, so that each script begins as quickly as it can
PYTHON = f"""#!/bin/sh
[ "$1" != -c ] || {{ echo "$0"; exit; }}
exec {sys.executable} -I "$@"
"""


def is_running(process):
    """Whether the process of this number runs: one that ended may still be listed until its parent asks for it."""
    try:
        return open(f"/proc/{process}/stat").read().rpartition(")")[2].split()[0] != "Z"
    except OSError:
        return False


def test_of(name, *scripts, processors=2):
    """A copy of `test` and the launcher, with a stand-in for rt and scripts, each a text, a status, and lines that it runs first."""
    top = os.path.join(room.name, "test-" + name.replace(" ", "-"))
    write(os.path.join(top, "bin", "rt"), RT_OF_TEST, 0o755)
    write(os.path.join(top, "plant"), PLANT_OF_TEST, 0o755)
    write(os.path.join(top, "bin", "nproc"), f"#!/bin/sh\necho {processors}\n", 0o755)
    write(os.path.join(top, "bin", "python3"), PYTHON, 0o755)
    write(os.path.join(top, "crates.txt"), "apf:\n")
    write(os.path.join(top, "crates", "apf", "src", "main.rt"), "first")
    for file in ("test", "apf"):
        shutil.copy(os.path.join(TOP, file), os.path.join(top, file))
    for place, (text, status, *first) in enumerate(scripts):
        lines = ["import os, sys, time", *first, f"print({text!r})", f"sys.exit({status})"]
        write(os.path.join(top, "tests", f"{place}.py"), "\n".join(lines) + "\n")
    return top


KIT = re.search(r'^kit="(.*)"$', open(LAUNCHER).read(), re.M)[1]


def begun(top, ci, does="builds", kit=KIT, words=("all",), tools=None):
    path = tools or os.path.join(top, "bin") + os.pathsep + os.environ["PATH"]
    environment = {key: value for key, value in os.environ.items() if key != "APF_BUILD"}
    environment.update(PATH=path, NOTES=os.path.join(top, "notes"), SAYS=ci[0], STATUS=str(ci[1]), DOES=does, KIT=kit)
    return subprocess.Popen(
        [os.path.join(top, "test"), *words], stdin=subprocess.DEVNULL, stdout=subprocess.PIPE, stderr=subprocess.PIPE, env=environment, text=True
    )


def tested(name, ci, *scripts, does="builds", processors=2):
    """Runs `test` so; answers its status, its lines, and the calls of rt."""
    top = test_of(name, *scripts, processors=processors)
    running = begun(top, ci, does)
    lines = running.communicate(timeout=60)[0].split("\n")[:-1]
    return running.returncode, lines, open(os.path.join(top, "notes")).read().split()


WELL = ("3 passed, 0 failed", 0)
for name, parts, want in [
    ("well", [WELL, ("2 passed, 0 failed", 0), ("4 passed, 0 failed", 0)], (0, "9 passed, 0 failed")),
    ("a failed count with status 0", [WELL, ("2 passed, 1 failed", 0), WELL], (1, "8 passed, 1 failed")),
    ("a failed count with status 0 of rt", [("3 passed, 2 failed", 0), WELL], (1, "3 passed, 2 failed")),
    ("a failed status of rt", [("3 passed, 0 failed", 2), WELL], (1, "3 passed, 1 failed")),
    ("nothing counted by rt", [("well", 0), WELL], (1, "0 passed, 1 failed")),
    ("a failed count", [WELL, ("2 passed, 4 failed", 1), WELL], (1, "8 passed, 4 failed")),
    ("two failed counts", [WELL, ("2 passed, 4 failed", 1), WELL, ("1 passed, 2 failed", 1)], (1, "9 passed, 6 failed")),
    ("a status without a failed count", [WELL, ("2 passed, 0 failed", 1), WELL], (1, "8 passed, 1 failed")),
    ("a status without a count", [WELL, ("Traceback", 1), WELL], (1, "6 passed, 1 failed")),
    ("nothing counted", [WELL, ("well", 0), WELL], (1, "6 passed, 1 failed")),
    ("the last count", [WELL, ("9 passed, 9 failed\n1 passed, 0 failed", 0)], (0, "4 passed, 0 failed")),
]:
    status, lines, calls = tested(name, *parts)
    is_proved = parts[0] == WELL
    tally.check(f"test: {name}", (status, lines[-1], calls), (*want, ["ci", "plant"] if is_proved else ["ci"]))
    tally.check(f"test: {name}: says how long it takes", "minutes" in lines[0], True)
    told = [it.partition(" took ")[0] for it in lines if re.fullmatch(r"test: .* took \d+\.\d processor minutes", it)]
    tally.check(f"test: {name}: says what each part took", told, ["test: rt ci", "test: ./plant --must-fail", "test: all scripts together"][: 3 if is_proved else 1])

# the program is built once: by rt ci, or by the launcher where that made none or where a source has changed since
for name, does, want in [
    ("built by rt ci", "builds", (0, "6 passed, 0 failed", ["ci", "plant"])),
    ("not built by rt ci", "", (0, "6 passed, 0 failed", ["ci", "plant", "run"])),
    ("a source that is edited meanwhile", "builds and changes", (0, "6 passed, 0 failed", ["ci", "plant", "run"])),
    ("a program that can't be built", "refuses", (1, "3 passed, 1 failed", ["ci", "plant", "run"])),
]:
    status, lines, calls = tested(name, WELL, WELL, does=does)
    tally.check(f"test: {name}", (status, lines[-1], calls), want)

# the planted bugs count
for planted, want in [("5 passed, 0 failed", (0, "11 passed, 0 failed")), ("4 passed, 1 failed", (1, "10 passed, 1 failed")), ("it is not proved", (1, "6 passed, 1 failed"))]:
    os.environ["PLANTED"] = planted
    status, lines, calls = tested(f"planted bugs {planted}", WELL, WELL)
    tally.check(f"test: planted bugs: {planted}", (status, lines[-1], calls), (*want, ["ci", "plant"]))
del os.environ["PLANTED"]

# a stored program of these sources does not stand for the one that is built, and that there is none is said before anything takes long
top = test_of("a stored program", WELL)
write(os.path.join(top, "program", "x86_64-linux", "apf"), "#!/bin/sh\n", 0o755)
of = subprocess.run(["bash", "-c", '. "$1"; made_of', "", os.path.join(top, "apf")], capture_output=True, text=True).stdout
write(os.path.join(top, "program", "x86_64-linux", "made-of"), of)
running = begun(top, WELL, does="")
lines = running.communicate(timeout=60)[0].split("\n")[:-1]
tally.check("test: a stored program is not taken", open(os.path.join(top, "notes")).read().split(), ["ci", "plant", "run"])
tally.check("test: and its hash is that of the sources", [it for it in lines if "program/store" in it], [])
status, lines, calls = tested("no stored program", WELL, WELL)
tally.check("test: says how to store it", [it for it in lines[:3] if "program/store stores it anew" in it], lines[1:2])
top = test_of("another kit", WELL)
lines = begun(top, WELL, kit="rattle-kit-0").communicate(timeout=60)[0].split("\n")[:-1]
tally.check("test: another kit", (lines[-1], os.path.exists(os.path.join(top, "notes"))), ("0 passed, 1 failed", False))
top = test_of("another logic", WELL)
lines = begun(top, WELL, kit=KIT + "0").communicate(timeout=60)[0].split("\n")[:-1]
tally.check("test: another logic", (lines[-1], os.path.exists(os.path.join(top, "notes"))), ("0 passed, 1 failed", False))
top = test_of("another release", WELL)
lines = begun(top, WELL, kit=KIT.replace(KIT.split()[0], "rattle-kit-0")).communicate(timeout=60)[0].split("\n")[:-1]
told = [it for it in lines if "another release" in it]
tally.check("test: another release of the same logic", (lines[-1], len(told), open(os.path.join(top, "notes")).read().split()), ("6 passed, 0 failed", 1, ["ci", "plant"]))

# the scripts of the folder `kit` run in the whole test alone
top = test_of("scripts that need the kit", WELL)
write(os.path.join(top, "tests", "kit", "0.py"), "print('7 passed, 0 failed')\n")
lines = begun(top, WELL).communicate(timeout=60)[0].split("\n")[:-1]
tally.check("test all: scripts that need the kit", (lines[-1], "== python3 tests/kit/0.py" in lines), ("13 passed, 0 failed", True))


def without_kit(name, *scripts, stores=True):
    """Runs `test` alone, where there is no rt; answers its status, its lines, and whether anybody called one."""
    top = test_of(name, *scripts)
    write(os.path.join(top, "tests", "kit", "0.py"), "print('7 passed, 0 failed')\n")
    if stores:
        write(os.path.join(top, "program", "x86_64-linux", "apf"), "#!/bin/sh\n", 0o755)
        of = subprocess.run(["bash", "-c", '. "$1"; made_of', "", os.path.join(top, "apf")], capture_output=True, text=True).stdout
        write(os.path.join(top, "program", "x86_64-linux", "made-of"), of)
    running = begun(top, WELL, words=(), tools=TOOLS)
    lines = running.communicate(timeout=60)[0].split("\n")[:-1]
    return running.returncode, lines, os.path.exists(os.path.join(top, "notes"))


# the tools that the first tier asks for; the kit is none of them
TOOLS = os.path.join(room.name, "tools")
os.mkdir(TOOLS)
for tool in ("bash", "sh", "env", "awk", "cat", "cc", "cmp", "dirname", "find", "git", "mkdir", "mktemp", "mv", "nproc", "python3", "readlink", "rm", "sed", "sha256sum", "sort", "tail", "tee", "tr", "uname", "xargs"):
    os.symlink(sys.executable if tool == "python3" else shutil.which(tool), os.path.join(TOOLS, tool))
for name, scripts, want in [
    ("alone", [("2 passed, 0 failed", 0), ("4 passed, 0 failed", 0)], (0, "6 passed, 0 failed", False)),
    ("alone, a failed count", [("2 passed, 3 failed", 1), ("4 passed, 0 failed", 0)], (1, "6 passed, 3 failed", False)),
    ("alone, a status without a count", [("Traceback", 1), ("4 passed, 0 failed", 0)], (1, "4 passed, 1 failed", False)),
]:
    status, lines, is_called = without_kit(name, *scripts)
    tally.check(f"test: {name}", (status, lines[-1], is_called), want)
    tally.check(f"test: {name}: says that it proves nothing", "proves nothing" in lines[0], True)
status, lines, is_called = without_kit("alone, of other sources", ("2 passed, 0 failed", 0), stores=False)
tally.check("test: no program of these sources, and no kit", (status, lines[-1], is_called), (1, "0 passed, 1 failed", False))
for words in (("most",), ("all", "all"), ("",)):
    running = begun(test_of("words" + "-".join(words), WELL), WELL, words=words)
    out, err = running.communicate(timeout=60)
    tally.check(f"test: the words {words}", (running.returncode, out, err), (2, "", "usage: ./test [all]\n"))

# the scripts are told which program the launcher chose
told = ("1 passed, 0 failed", "0 if os.environ.get('APF_CHOSEN', '').endswith('/program/x86_64-linux/apf') else 1")
status, lines, is_called = without_kit("told the program", told)
tally.check("test: scripts are told the program", (status, lines[-1], is_called), (0, "1 passed, 0 failed", False))

# side by side: each of two scripts waits for the other one, and what each says stands whole, in the order of their names
MEETS = "open('met-%d', 'w').close()\nfor _ in range(400): os.path.exists('met-%d') or time.sleep(0.05)\nmet = os.path.exists('met-%d')"
both = [("1 passed, 0 failed", "0 if met else 1", MEETS % (one, other, other)) for one, other in ((0, 1), (1, 0))]
status, lines, calls = tested("side by side", WELL, *both)
tally.check("test: scripts run side by side", (status, lines[-1]), (0, "5 passed, 0 failed"))
late = ("late\n1 passed, 0 failed", 0, "print('begins', flush=True)\ntime.sleep(1)")
status, lines, calls = tested("in order", WELL, late, ("soon\n1 passed, 0 failed", 0))
want = ["== python3 tests/0.py", "begins", "late", "1 passed, 0 failed", "== python3 tests/1.py", "soon", "1 passed, 0 failed", "5 passed, 0 failed"]
said = [it for it in lines[lines.index(want[0]):] if "processor minutes" not in it]
tally.check("test: what each script says stands whole, in order", (status, said), (0, want))

# a script counts by its own status, also where the system has given its process's number to another since: here, where
# that may be chosen, to the process that the shell starts next
FIRST = "open('group.new', 'w').write(str(os.getpgrp()))\nos.rename('group.new', 'group')"
LAST = """while not os.path.exists('group'): time.sleep(0.02)
group = int(open('group').read())
while os.path.exists(f'/proc/{group}'): time.sleep(0.02)
try: open('/proc/sys/kernel/ns_last_pid', 'w').write(str(group - 1))
except OSError: pass"""
plain = ("1 passed, 0 failed", 0)
status, lines, calls = tested("a number given again", WELL, (*plain, LAST), (*plain, FIRST))
tally.check("test: a process's number given again", (status, lines[-1]), (0, "5 passed, 0 failed"))

# no more at once than there are processors
alone = ("1 passed, 0 failed", 0, "os.mkdir('busy')\ntime.sleep(0.3)\nos.rmdir('busy')")
status, lines, calls = tested("one processor", WELL, alone, alone, alone, processors=1)
tally.check("test: one processor, one script at once", (status, lines[-1]), (0, "6 passed, 0 failed"))

# those that take longest begin first, whatever their names are, and what they say stands in the order of the names
longest, waiting = (re.search(rf'^{name}="(.*)"$', open(os.path.join(TOP, "test")).read(), re.M)[1].split() for name in ("longest", "waiting"))
tally.check("test: those that take longest are scripts", [it for it in longest if not os.path.isfile(os.path.join(TOP, "tests", f"{it}.py"))], [])
tally.check("test: those that wait are the first of them", longest[: len(waiting)], waiting)
longest = longest[len(waiting) :]
top = test_of("longest first", plain, processors=1)
for name in (longest[1], longest[0]):
    write(os.path.join(top, "tests", f"{name}.py"), f"open('begun', 'a').write('{name} ')\nprint('1 passed, 0 failed')\n")
write(os.path.join(top, "tests", "0.py"), "open('begun', 'a').write('0 ')\nprint('1 passed, 0 failed')\n")
lines = begun(top, WELL).communicate(timeout=60)[0].split("\n")[:-1]
tally.check("test: the longest begins first", open(os.path.join(top, "begun")).read().split(), [*longest[:2], "0"])
named = [it for it in lines if it.startswith("== python3")]
tally.check("test: and what it says stands in the order of the names", (named, lines[-1]), ([f"== python3 tests/{it}.py" for it in sorted(["0", *longest[:2]])], "6 passed, 0 failed"))

# one that waits counts for no processor: another one runs beside it on one
top = test_of("one that waits", both[0], processors=1)
write(os.path.join(top, "tests", f"{waiting[0]}.py"), f"import os, sys, time\n{MEETS % (1, 0, 0)}\nprint('1 passed, 0 failed')\nsys.exit(0 if met else 1)\n")
lines = begun(top, WELL).communicate(timeout=60)[0].split("\n")[:-1]
tally.check("test: beside one that waits another one runs on one processor", lines[-1], "5 passed, 0 failed")

# an interrupt of the one process ends the scripts and what they run, and counts as a failure
for signal in ("INT", "TERM"):
    waits = "import subprocess\nchild = subprocess.Popen(['sleep', '300'])\nopen('pid.new', 'w').write(f'{os.getpid()} {child.pid}')\nos.rename('pid.new', 'pid')\ntime.sleep(300)"
    top = test_of("interrupt " + signal, ("1 passed, 0 failed", 0, waits))
    running = begun(top, WELL)
    for _ in range(400):
        os.path.exists(os.path.join(top, "pid")) or time.sleep(0.05)
    running.send_signal(getattr(signals, "SIG" + signal))
    lines = running.communicate(timeout=60)[0].split("\n")[:-1]
    left = [it for it in open(os.path.join(top, "pid")).read().split() if is_running(it)]
    tally.check(f"test: interrupted by {signal}", (running.returncode, lines[-1], left), (1, "3 passed, 1 failed", []))
tally.end()
