"""The launcher `apf`, with a stand-in for the toolchain's `rt`, and `program/store`; and what git ignores."""

import os
import shutil
import signal
import subprocess
import sys
import tempfile
import time

sys.path.insert(0, os.path.join(os.path.dirname(os.path.abspath(__file__)), "lib"))
from harness import LAUNCHER, TOP, Tally, drop_rights, folder_in_memory, write

# what runs in the background of a shell ignores an interrupt, and so would the builds that are interrupted here
signal.signal(signal.SIGINT, signal.default_int_handler)
tally = Tally()
room = tempfile.TemporaryDirectory(prefix="apf-test-", dir=folder_in_memory())
os.chmod(room.name, 0o755)

# what `rt run` does here, in the words of the kit's: it notes its call, begins each crate that it does not keep, does what the file
# `meanwhile` says, makes a program that prints the source, and runs it
RT = r"""#!/usr/bin/env bash
exec 3>&1 >&2
echo "$(basename "$PWD"): $*" >>"$NOTES"
echo "only=0 proved=0"
for crate in low middle apf_cli apf; do
  [[ " $KEEPS " != *" $crate "* ]] || continue
  echo "rt: chose --jobs 2 for $crate"
  echo "fn $crate::it: proved"
  source=$(cat src/main.rt 2>/dev/null)
  [ ! -f "$NOTES.meanwhile" ] || . "$NOTES.meanwhile"
  [ "$crate" != "$REFUSES" ] || { echo "error: the goal of $crate is open"; exit 1; }
done
mkdir -p out
printf '#!/bin/sh\n[ "$1" != --version ] && [ "$1" != hash ] || { echo said; exit 0; }\necho "%s" "$@"\nexit 7\n' "$source" >out/apf
chmod +x out/apf
shift 2
exec out/apf "$@" >&3
"""
CRATES = """# the crates
low: std_of_kit
middle may_wait=1: low
apart: low
apf_cli: middle low
apf: apf_cli
"""


class Checkout:
    """A repository of small crates under the launcher, with the stand-in on the path."""

    def __init__(self, name):
        self.top = os.path.join(room.name, name)
        self.notes = os.path.join(self.top, "notes")
        write(os.path.join(self.top, "crates.txt"), CRATES)
        for crate in ("low", "middle", "apart", "apf_cli"):
            write(self.path(crate, "src", "lib.rt"), crate)
        write(self.path("apf", "src", "main.rt"), "first")
        write(self.path("apf", "src", "other.rt"), "other")
        shutil.copy(LAUNCHER, os.path.join(self.top, "apf"))
        os.mkdir(os.path.join(self.top, "program"))
        shutil.copy(os.path.join(TOP, "program", "store"), os.path.join(self.top, "program"))
        write(os.path.join(self.top, "bin", "rt"), RT, 0o755)

    def path(self, *parts):
        return os.path.join(self.top, "crates", *parts)

    def how(self, refuses="", keeps="", has_no_rt=False, builds=False, kept=None, **how):
        """How to run the launcher: with these tools, and where `builds` is set with no use of the stored program."""
        path = os.pathsep.join([TOOLS] if has_no_rt else [os.path.join(self.top, "bin"), TOOLS])
        environment = {key: value for key, value in os.environ.items() if key != "APF_BUILD"}
        environment.update(PATH=path, NOTES=self.notes, REFUSES=refuses, KEEPS=keeps, TMPDIR=kept or "/tmp")
        if builds:
            environment["APF_BUILD"] = "1"
        return dict(how, stdin=subprocess.DEVNULL, env=environment)

    def store(self):
        """Stores the program of these sources, and takes what was built away."""
        done = subprocess.run([os.path.join(self.top, "program", "store")], capture_output=True, timeout=60, **self.how())
        self.clean()
        return done.returncode, done.stderr.decode()

    def clean(self):
        for at in os.listdir(self.path()):
            shutil.rmtree(self.path(at, "out"), ignore_errors=True)
        if os.path.exists(self.notes):
            os.remove(self.notes)

    def run(self, *words, **given):
        """Runs the launcher; answers its status, its output, the lines on standard error, and the calls of rt."""
        done = subprocess.run([os.path.join(self.top, "apf"), *words], capture_output=True, timeout=60, **self.how(**given))
        calls = open(self.notes).read().split("\n")[:-1] if os.path.exists(self.notes) else []
        if os.path.exists(self.notes):
            os.remove(self.notes)
        return done.returncode, done.stdout.decode(), done.stderr.decode().split("\n")[:-1], calls


# the tools that the launcher uses, and no other
TOOLS = os.path.join(room.name, "tools")
os.mkdir(TOOLS)
for tool in ("bash", "sh", "env", "awk", "basename", "cat", "chmod", "cmp", "cp", "dirname", "find", "mkdir", "mv", "readlink", "rm", "sha256sum", "sleep", "sort", "tr", "uname", "xargs"):
    os.symlink(shutil.which(tool), os.path.join(TOOLS, tool))

ONCE = ["apf: run -- hash  "]
BEGIN = "apf: building the program, and proving what is new in its 4 crates: from nothing, half an hour or more on four free cores"
PROGRESS = ["apf: proving low, 1 of 4", "apf: proving middle, 2 of 4", "apf: proving apf_cli, 3 of 4", "apf: proving apf, 4 of 4"]

# the first build: one call of the kit, and one line for each crate that it begins
first = Checkout("first")
status, out, err, calls = first.run("a b", "$c", "")
tally.check("the words and the status go through", (status, out), (7, "first a b $c \n"))
tally.check("one call of the kit", calls, ONCE)
tally.check("how long it takes, and then one line a crate, with its place", err, [BEGIN, *PROGRESS])
tally.check("a program that is built runs", first.run("x"), (7, "first x\n", [], []))
write(first.path("apf", "src", "main.rt"), "second")
tally.check("no line for a crate that the kit keeps", first.run("x", keeps="low apf_cli"), (7, "second x\n", [BEGIN, PROGRESS[1], PROGRESS[3]], ONCE))

# where nothing has changed no content is looked at: without this tool there is no hash
write(os.path.join(first.top, "bin", "sha256sum"), "#!/bin/sh\nexit 1\n", 0o755)
tally.check("the quick way", first.run("x"), (7, "second x\n", [], []))

# a source that is edited, made, deleted, or put back with an old time
for name, change in [
    ("edited", lambda it: write(it.path("apf", "src", "main.rt"), "second")),
    ("of the same size", lambda it: write(it.path("apf", "src", "main.rt"), "fi**t")),
    ("of a lower crate", lambda it: write(it.path("low", "src", "lib.rt"), "second")),
    ("new", lambda it: write(it.path("apf", "src", "new.rt"), "new")),
    ("deleted", lambda it: os.remove(it.path("apf", "src", "other.rt"))),
    ("with an old time", lambda it: (write(it.path("apf", "src", "main.rt"), "older"), os.utime(it.path("apf", "src", "main.rt"), (1, 1)))),
    ("the list of crates", lambda it: write(os.path.join(it.top, "crates.txt"), CRATES.replace("middle low", "middle low std_of_kit"))),
]:
    checkout = Checkout("change-" + name.replace(" ", "-"))
    checkout.run()
    tally.check(f"{name}: built before", checkout.run()[3], [])
    change(checkout)
    wanted = open(checkout.path("apf", "src", "main.rt")).read()
    status, out, err, calls = checkout.run()
    tally.check(f"{name}: built again", (status, out, calls), (7, f"{wanted}\n", ONCE))
    tally.check(f"{name}: and then no more", checkout.run()[3], [])

# what the program is not made of, and what changes no content
for name, change in [
    ("an edit that must fail", lambda it: write(it.path("low", "must-fail", "wrong.edit"), "file: src/lib.rt")),
    ("a crate that the program does not stand on", lambda it: write(it.path("apart", "src", "lib.rt"), "other")),
    ("its line in crates.txt", lambda it: write(os.path.join(it.top, "crates.txt"), CRATES.replace("apart:", "# alone\napart:"))),
    ("a source that is touched", lambda it: os.utime(it.path("low", "src", "lib.rt"), (1, 1))),
    ("a source that is written anew as it was", lambda it: write(it.path("apf", "src", "main.rt"), "first")),
    ("an editor's swap file", lambda it: write(it.path("low", "src", ".lib.rt.swp"), "swap")),
    ("an editor's lock", lambda it: os.symlink("nobody@nowhere", it.path("low", "src", ".#lib.rt"))),
    ("an editor's backup", lambda it: write(it.path("low", "src", "lib.rt~"), "older")),
]:
    for is_stored in (False, True):
        checkout = Checkout(f"same-{'stored' if is_stored else 'built'}-" + name.replace(" ", "-"))
        if is_stored:
            tally.check(f"{name}: stored", checkout.store(), (0, "\n".join([BEGIN, *PROGRESS, ""])))
        checkout.run()
        change(checkout)
        for when in ("at once", "and then"):
            tally.check(f"{name}: builds nothing, {when}", checkout.run("x"), (7, "first x\n", [], []))

# a source that is edited while it builds
for crate in ("low", "apf"):
    busy = Checkout(f"busy-{crate}")
    write(busy.notes + ".meanwhile", f'[ $crate != {crate} ] || printf later >"{busy.path("apf", "src", "main.rt")}"\n')
    busy.run()
    os.remove(busy.notes + ".meanwhile")
    tally.check(f"edited while {crate} builds: built again", busy.run()[1:], ("later\n", [BEGIN, *PROGRESS], ONCE))
    tally.check(f"edited while {crate} builds: and then no more", busy.run()[3], [])

# and put back before its end: what was built is of other sources than those that stand there before and after
busy = Checkout("busy-back")
write(busy.notes + ".meanwhile", 'case $crate in low) printf later >src/main.rt ;; apf) printf first >src/main.rt ;; esac\n')
tally.check("edited and put back while it builds", busy.run()[1], "later\n")
os.remove(busy.notes + ".meanwhile")
tally.check("edited and put back while it builds: built again", busy.run(), (7, "first\n", [BEGIN, *PROGRESS], ONCE))

# an edit of another crate while it builds
beside = Checkout("beside")
write(beside.notes + ".meanwhile", f'[ $crate != low ] || printf later >"{beside.path("apart", "src", "lib.rt")}"\n')
beside.run()
os.remove(beside.notes + ".meanwhile")
tally.check("another crate edited while it builds: builds nothing", beside.run(), (7, "first\n", [], []))

# a build that fails says why, runs no older program, and is tried again
FAILED = "apf: the program could not be built, as rt says above"
failing = Checkout("failing")
failing.run()
write(failing.path("middle", "src", "lib.rt"), "wrong")
for _ in range(2):
    status, out, err, calls = failing.run(refuses="middle")
    tally.check("a refused crate", (status, out, calls), (1, "", ONCE))
    tally.check("what rt said of it, and of no other", err, [BEGIN, *PROGRESS[:2], "fn middle::it: proved", "error: the goal of middle is open", FAILED])
tally.check("built once it is well", failing.run()[:2], (7, "first\n"))
write(failing.path("middle", "src", "lib.rt"), "wrong again")
write(failing.notes + ".meanwhile", 'echo "rt: mend these first"; exit 0\n')
os.remove(failing.path("apf", "out", "apf"))
tally.check("no program is made", failing.run()[:3], (1, "", [BEGIN, PROGRESS[0], "fn low::it: proved", "rt: mend these first", FAILED]))

# no toolchain: one line, unless the program is built
bare = Checkout("bare")
status, out, err, calls = bare.run(has_no_rt=True)
tally.check("no rt", (status, out, len(err), "rt" in err[0].split()), (1, "", 1, True))
bare.run()
tally.check("built, and no rt", bare.run(has_no_rt=True)[:3], (7, "first\n", []))

# a checkout that can't be written: one line, unless the program is built
rights, note = drop_rights()
if rights is None:
    print(note)
else:
    closed = Checkout("closed")
    for at, folders, names in os.walk(closed.top):
        for it in folders:
            os.chmod(os.path.join(at, it), 0o555)
    os.chmod(closed.top, 0o555)
    status, out, err, calls = closed.run(**rights)
    tally.check("read-only", (status, out, err, calls), (1, "", [f"apf: the program has yet to be built from these sources, and {closed.top} cannot be written"], []))
    for at, folders, names in os.walk(closed.top):
        for it in folders:
            os.chmod(os.path.join(at, it), 0o755)
    os.chmod(closed.top, 0o755)
    closed.run()
    os.chmod(closed.path("apf", "out"), 0o555)
    os.chmod(closed.path("apf"), 0o555)
    tally.check("read-only and built", closed.run(**rights)[:3], (7, "first\n", []))
    os.chmod(closed.path("apf"), 0o755)
    os.chmod(closed.path("apf", "out"), 0o755)

# the stored program: of a clone that was just made, with no toolchain, and where nothing can be written
kept = Checkout("kept")
write(kept.path("apf", "src", "main.rt"), "kept")
kept.store()
tally.check("stored: runs at once", kept.run("x", has_no_rt=True), (7, "kept x\n", [], []))
clone = shutil.copytree(kept.top, os.path.join(room.name, "clone"))
for at, _, names in os.walk(clone):
    for it in names:
        os.utime(os.path.join(at, it), (2, 2))
shutil.rmtree(os.path.join(clone, "crates", "apf", "out"))
kept.top, kept.notes = clone, os.path.join(clone, "notes")
tally.check("stored, in a clone with other times", kept.run("x"), (7, "kept x\n", [], []))
tally.check("stored, and built on request", kept.run("x", builds=True), (7, "kept x\n", [BEGIN, *PROGRESS], ONCE))
os.remove(os.path.join(kept.top, "program", "x86_64-linux", "apf"))
tally.check("built, and runs with no stored one", kept.run("x"), (7, "kept x\n", [], []))
tally.check("built on request, once", kept.run("x", builds=True), (7, "kept x\n", [], []))
if rights is not None:
    still = Checkout("still")
    still.store()
    for at, folders, names in os.walk(still.top):
        os.chmod(at, 0o555)
    for _ in range(2):
        tally.check("stored, read-only", still.run("x", **rights), (7, "first x\n", [], []))
    for at, folders, names in os.walk(still.top):
        os.chmod(at, 0o755)

# a stored program that is not of these sources, or does not run here, is not run; what `program/store` made of one checkout is that of each
stored = Checkout("stored")
stored.store()
for name, change in [
    ("a source that changed", lambda it: write(it.path("low", "src", "lib.rt"), "changed")),
    ("a proof that changed", lambda it: write(it.path("low", "proofs", "Lib.antt"), "changed")),
    ("a definition that is new", lambda it: write(it.path("middle", "specs", "More.antt"), "more")),
    ("a source by another name", lambda it: os.rename(it.path("apf", "src", "other.rt"), it.path("apf", "src", "another.rt"))),
    ("a line in crates.txt", lambda it: write(os.path.join(it.top, "crates.txt"), CRATES.replace("low: std_of_kit", "low:"))),
    ("another kit", lambda it: write(os.path.join(it.top, "apf"), open(LAUNCHER).read().replace('kit="', 'kit="other '), 0o755)),
    ("a hash of others", lambda it: write(os.path.join(it.top, "program", "x86_64-linux", "made-of"), "0" * 64 + "\n")),
    ("no hash", lambda it: os.remove(os.path.join(it.top, "program", "x86_64-linux", "made-of"))),
    ("no program", lambda it: os.remove(os.path.join(it.top, "program", "x86_64-linux", "apf"))),
    ("a program that does not run", lambda it: write(os.path.join(it.top, "program", "x86_64-linux", "apf"), "#!/nowhere\n", 0o755)),
    ("another machine", lambda it: write(os.path.join(it.top, "bin", "uname"), "#!/bin/sh\necho Linux aarch64\n", 0o755)),
]:
    for was_run in (False, True):
        checkout = Checkout(f"other-{was_run}-" + name.replace(" ", "-").replace(".", "-"))
        shutil.copytree(os.path.join(stored.top, "program"), os.path.join(checkout.top, "program"), dirs_exist_ok=True)
        if was_run and name != "another machine":
            tally.check(f"{name}: stored before", checkout.run("x"), (7, "first x\n", [], []))
        change(checkout)
        tally.check(f"{name}: built", checkout.run("x"), (7, "first x\n", [BEGIN, *PROGRESS], ONCE))
        tally.check(f"{name}: and then no more", checkout.run("x"), (7, "first x\n", [], []))

# a program that was built of other sources meanwhile, as by rt, is not taken for the one of these
meanwhile = Checkout("meanwhile")
meanwhile.run()
write(meanwhile.path("apf", "out", "apf"), "#!/bin/sh\necho others\n", 0o755)
tally.check("a program that rt built of others", meanwhile.run("x"), (7, "first x\n", [BEGIN, *PROGRESS], ONCE))

# a stored program and a source that changes and changes back: the stored one again
back = Checkout("back")
back.store()
write(back.path("apf", "src", "main.rt"), "second")
tally.check("changed: built", back.run()[1], "second\n")
write(back.path("apf", "src", "main.rt"), "first")
tally.check("changed back: the stored one", back.run(), (7, "first\n", [], []))


def files_of(top):
    return sorted(os.path.join(at, it) for at, folders, names in os.walk(top) for it in names if "/out" not in at)


# a build that is interrupted or killed leaves no file behind, and is no program of these sources
for name, number, is_alone in (
    ("interrupted", signal.SIGINT, False),
    ("ended", signal.SIGTERM, False),
    ("killed", signal.SIGKILL, False),
    ("the launcher alone interrupted", signal.SIGINT, True),
    ("the launcher alone ended", signal.SIGTERM, True),
):
    broken = Checkout(name.replace(" ", "-"))
    temporary = os.path.join(broken.top, "temporary")
    os.mkdir(temporary)
    broken.run()
    write(broken.path("low", "src", "lib.rt"), "changed")
    write(broken.path("apf", "src", "main.rt"), "second")
    begun = broken.notes + ".begun"
    write(broken.notes + ".meanwhile", '[ $crate != middle ] || { echo $$ >"$NOTES.new"; mv "$NOTES.new" "$NOTES.begun"; exec sleep 60; }\n')
    before = files_of(broken.top)
    process = subprocess.Popen([os.path.join(broken.top, "apf")], stdout=subprocess.PIPE, stderr=subprocess.PIPE, start_new_session=True, **broken.how(kept=temporary))
    while process.poll() is None and not os.path.exists(begun):
        time.sleep(0.02)
    if not os.path.exists(begun):
        tally.check(f"{name}: builds", process.communicate(), None)
        continue
    (os.kill if is_alone else os.killpg)(process.pid, number)
    out = process.communicate(timeout=60)[0]
    tally.check(f"{name}: has not run", (out, process.returncode), (b"", -number if number == signal.SIGKILL else 130))
    if number != signal.SIGKILL:
        tally.check(f"{name}: the kit is ended", os.path.exists(f"/proc/{open(begun).read().strip()}"), False)
    os.remove(begun)
    os.remove(broken.notes)
    tally.check(f"{name}: leaves no file", files_of(broken.top), before)
    os.remove(broken.notes + ".meanwhile")
    tally.check(f"{name}: built at the next call", broken.run(), (7, "second\n", [BEGIN, *PROGRESS], ONCE))

# a test script where the program can't be built says so in the launcher's line, and counts
unbuilt = Checkout("unbuilt")
shutil.copytree(os.path.join(TOP, "tests", "lib"), os.path.join(unbuilt.top, "tests", "lib"), ignore=shutil.ignore_patterns("__pycache__"))
shutil.copy(os.path.join(TOP, "tests", "deals.py"), os.path.join(unbuilt.top, "tests"))
environment = {key: value for key, value in os.environ.items() if key not in ("APF_PROGRAM", "APF_CHOSEN")}
done = subprocess.run(
    [sys.executable, os.path.join(unbuilt.top, "tests", "deals.py")], capture_output=True, env=dict(environment, PATH=TOOLS), timeout=60
)
tally.check("a test of an unbuilt program", (done.returncode, done.stdout, done.stderr.count(b"\n")), (1, b"0 passed, 1 failed\n", 1))


# git sees nothing that a build or a test makes
seen = os.path.join(room.name, "seen")
for path in ("crates/apf/out/apf", "tests/__pycache__/a.pyc", "tests/lib/__pycache__/a.pyc", "README.md"):
    write(os.path.join(seen, path), "")
shutil.copy(os.path.join(TOP, ".gitignore"), seen)
subprocess.run(["git", "init", "-q", seen], check=True)
status = subprocess.run(["git", "status", "--porcelain", "-uall"], cwd=seen, capture_output=True, check=True).stdout
tally.check("what git sees", status, b"?? .gitignore\n?? README.md\n")
tally.end()
