"""Runs the built program, and counts what holds."""

import contextlib
import os
import re
import resource
import select
import signal
import subprocess
import sys
import tempfile
import threading
import time

TOP = os.path.dirname(os.path.dirname(os.path.dirname(os.path.abspath(__file__))))
LAUNCHER = os.path.join(TOP, "apf")


def lines_of_crates(*names):
    """The lines of these crates in crates.txt, by name, or of all, and of those that they stand on, each after those. The launcher reads them."""
    read = subprocess.run(["bash", "-c", '. "$1" && crates "${@:2}"', "", LAUNCHER, *names], stdout=subprocess.PIPE, check=True, text=True)
    return {re.split("[ :]", line)[0]: line for line in read.stdout.splitlines()}


def build():
    """The path of the program that the launcher runs, which is built where that is needed. APF_PROGRAM names another one to test. Where APF_CHOSEN has that
    path, the launcher was asked before."""
    if os.environ.get("APF_PROGRAM"):
        return os.path.abspath(os.environ["APF_PROGRAM"])
    if os.environ.get("APF_CHOSEN"):
        return os.environ["APF_CHOSEN"]
    if subprocess.run([LAUNCHER, "hash", "", ""], stdout=subprocess.DEVNULL).returncode != 0:
        # the launcher has said why
        print("0 passed, 1 failed")
        sys.exit(1)
    try:
        # its note of what it chose
        with open(os.path.join(TOP, "crates", "apf", "out", "apf.seen")) as note:
            return note.readline().rstrip("\n") or LAUNCHER
    except OSError:
        # a checkout that can't be written
        return LAUNCHER


def build_serving():
    """The program that has the command `serve`, and whether it is the built one: while that has no such command, the independent computation of it,
    which speaks the same protocol."""
    program = build()
    if re.search(rb"^  serve ", run(program, ["--help"])[1], re.M):
        return program, True
    print("not tried on the built program, which has no command serve: what runs is the independent computation of it, tests/lib/serve.py")
    return os.path.join(TOP, "tests", "lib", "serve.py"), False


def is_stale(program):
    """Whether a program is missing, or a source of a crate changed since it was built."""
    if not os.path.exists(program):
        return True
    files = [os.path.join(TOP, "crates.txt")]
    for folder, inside, names in os.walk(os.path.join(TOP, "crates")):
        inside[:] = [it for it in inside if it not in ("out", "must-fail")]
        files += [os.path.join(folder, it) for it in names]
    return any(os.path.getmtime(it) > os.path.getmtime(program) for it in files)


def build_crate(name):
    """The path of the program that a crate is, which `rt run` builds where a source is newer than it."""
    folder = os.path.join(TOP, "crates", name)
    program = os.path.join(folder, "out", name)
    if is_stale(program):
        built = subprocess.run(["rt", "run"], cwd=folder, stdin=subprocess.DEVNULL, stdout=subprocess.PIPE, stderr=subprocess.STDOUT)
        if built.returncode != 0:
            print(built.stdout.decode(errors="replace"))
            print("0 passed, 1 failed")
            sys.exit(1)
    return program


# no program of a test takes longer, in seconds
LONGEST = 120


class Written(threading.local):
    """Two files in memory, which hold what a program prints and its errors. Each thread has its own, and takes them for one program after another."""

    def __init__(self):
        self.files = [os.memfd_create(name) for name in ("output", "errors")]


def can_wait_for_a_number():
    """Whether the system tells by a file when a process ends, and takes files in memory: where not, a program gets pipes, which take longer."""
    try:
        os.close(os.pidfd_open(os.getpid()))
        os.close(os.memfd_create("output"))
        return True
    except (AttributeError, OSError):
        return False


HAS_PIPES_ALONE = not can_wait_for_a_number()
written = None if HAS_PIPES_ALONE else Written()
NOTHING = os.open(os.devnull, os.O_RDONLY)
# what each program is given, which is not looked up anew for each of thousands. The C library takes memory in large pages where the system has them, and gives none
# of it back: `cluster` touches 24 MB, for each page of which the system would have to be asked, and some thousand runs of it are that short
ENVIRONMENT = {"GLIBC_TUNABLES": ":".join(f"glibc.malloc.{it}" for it in ("hugetlb=1", "top_pad=33554432", "mmap_threshold=33554432", "trim_threshold=67108864")), **os.environ}


def pipe_of(content):
    """A pipe that holds these bytes and then ends, or None where they do not fit into one."""
    reading, writing = os.pipe()
    os.set_blocking(writing, False)
    try:
        is_whole = os.write(writing, content) == len(content)
    except BlockingIOError:
        is_whole = False
    os.close(writing)
    if not is_whole:
        os.close(reading)
    return reading if is_whole else None


def run(program, words, content=b"", **how):
    """Runs the program with these bytes on its standard input, and answers its status, its output and its errors, as bytes."""
    reading = None if how or HAS_PIPES_ALONE else pipe_of(content) if content else NOTHING
    if reading is None:
        stdin = {"input": content} if content else {"stdin": subprocess.DEVNULL}
        done = subprocess.run([program, *words], stdout=subprocess.PIPE, stderr=subprocess.PIPE, timeout=LONGEST, **stdin, **how)
        return done.returncode, done.stdout, done.stderr
    for file in written.files:
        os.ftruncate(file, 0)
        os.lseek(file, 0, os.SEEK_SET)
    given = [(os.POSIX_SPAWN_DUP2, file, place) for place, file in enumerate([reading, *written.files])]
    # Python ignores these signals, and what it starts does not
    process = os.posix_spawnp(program, [program, *words], ENVIRONMENT, file_actions=given, setsigdef=[signal.SIGPIPE, signal.SIGXFSZ])
    if content:
        os.close(reading)
    ending = os.pidfd_open(process)
    is_over = select.select([ending], [], [], LONGEST)[0]
    os.close(ending)
    if not is_over:
        os.kill(process, signal.SIGKILL)
    status = os.waitstatus_to_exitcode(os.waitpid(process, 0)[1])
    if not is_over:
        raise subprocess.TimeoutExpired([program, *words], LONGEST)
    return status, *(os.pread(file, os.fstat(file).st_size, 0) for file in written.files)


def processor_seconds(call):
    """What a call answers, and how many seconds processors were busy with the programs that it ran. On a quiet machine a program of one thread takes that
    long, and on a busy one longer."""
    before = resource.getrusage(resource.RUSAGE_CHILDREN)
    answer = call()
    after = resource.getrusage(resource.RUSAGE_CHILDREN)
    return answer, after.ru_utime - before.ru_utime + after.ru_stime - before.ru_stime


class Memory(threading.Thread):
    """The most memory that a process had so far, in KiB, looked at every few milliseconds until it ends. What `wait4` says of it counts what this
    process had when it made the other."""

    def __init__(self, process):
        super().__init__(daemon=True)
        self.folder, self.seen = f"/proc/{process.pid}", []
        self.start()

    def run(self):
        try:
            while True:
                with open(f"{self.folder}/stat") as stat, open(f"{self.folder}/status") as status:
                    ticks = sum(map(int, stat.read().rpartition(")")[2].split()[11:13]))
                    most = re.search(r"VmHWM:\s*(\d+) kB", status.read())
                if not most:
                    # it has ended
                    return
                self.seen.append((ticks, int(most[1])))
                time.sleep(0.005)
        except OSError:
            pass

    def most(self):
        """Once the process has ended."""
        self.join()
        return self.seen[-1][1]

    def growth(self):
        """By how much it grew once a quarter of the time was over in which processors were busy with it."""
        self.join()
        return self.most() - next(most for ticks, most in self.seen if ticks * 4 >= self.seen[-1][0])


def drop_rights(program="/bin/true"):
    """How to run this program with no right to root's files, and what to say where that can't be had."""
    if os.geteuid() != 0:
        return {}, ""
    other = {"user": 65534, "group": 65534, "extra_groups": []}
    try:
        subprocess.run([program], stdin=subprocess.DEVNULL, stdout=subprocess.DEVNULL, stderr=subprocess.DEVNULL, **other)
    except (OSError, subprocess.SubprocessError):
        return None, "not tried: rights of files, as root cannot run the program as another user here"
    return other, ""


def write(path, text, mode=0o644):
    """Writes a file, and makes the folders that it stands in."""
    os.makedirs(os.path.dirname(path), exist_ok=True)
    with open(path, "w") as file:
        file.write(text)
    os.chmod(path, mode)


def folder_in_memory():
    """The folder that the system keeps in memory, where it has room and programs may run there; else None. Thousands of small files take a disk longer than
    what reads them."""
    shared = "/dev/shm"
    try:
        about = os.statvfs(shared)
    except OSError:
        return None
    has_room = about.f_bavail * about.f_frsize >= 1 << 32 and not about.f_flag & (os.ST_NOEXEC | os.ST_RDONLY)
    return shared if has_room and os.access(shared, os.W_OK) else None


class Files:
    """Files of a run in a folder that goes away."""

    def __init__(self):
        self.folder = tempfile.TemporaryDirectory(prefix="apf-test-", dir=folder_in_memory())

    def __call__(self, name, content):
        path = os.path.join(self.folder.name, name)
        # a file that is written over goes to the disk at once on some systems, which takes a hundred times as long as a new one
        with contextlib.suppress(FileNotFoundError):
            os.unlink(path)
        with open(path, "xb", buffering=0) as file:
            left = memoryview(content if isinstance(content, bytes) else content.encode())
            while left:
                left = left[file.write(left) :]
        return path


class Tally:
    """Counts checks, and names those that fail. Where APF_STOPS_AT is set, the first failure that begins so is the last check."""

    STOPS_AT = os.environ.get("APF_STOPS_AT")

    def __init__(self):
        self.passed = 0
        self.failed = 0

    def check(self, name, got, want):
        if got == want:
            self.passed += 1
        else:
            self.failed += 1
            print(f"FAILED {name}\n  got  {got!r}\n  want {want!r}")
            if self.STOPS_AT and f"FAILED {name}".startswith(self.STOPS_AT):
                self.end()

    def end(self):
        print(f"{self.passed} passed, {self.failed} failed")
        sys.exit(1 if self.failed or not self.passed else 0)
