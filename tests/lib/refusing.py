"""A program without one of its allocations, or some in a row, for each of them in turn: it is loaded once, by tests/lib/refuse.c, and runs in a child for
each. A run of one thread goes on from one to the next, and a child of it goes on without each."""

import os
import select
import struct
import subprocess

HERE = os.path.dirname(os.path.abspath(__file__))
# no run is longer, in seconds
MOST = 120


def shim(files, name="refuse"):
    """The path of what is loaded before the C library, compiled."""
    path = files(f"{name}.so", b"")
    subprocess.run(["cc", "-O1", "-shared", "-fPIC", "-o", path, os.path.join(HERE, f"{name}.c")], check=True)
    return path


class Refusing:
    """A program with these words and this standard input in this folder, for the length of a block. `together` allocations are refused in a row. Those of
    fewer than `least` bytes are neither counted nor refused."""

    def __init__(self, files, shim, program, words, content=b"", cwd=None, together=1, least=0):
        self.words, self.shim, self.cwd, self.together, self.least = [program, *words], shim, cwd, together, least
        # what stands in front of a program begins it itself, and of that it sees this file alone
        self.marker = os.path.join(files.folder.name, "refused") if os.environ.get("APF_PROGRAM") else None
        self.told = b""
        self.content = files("content", content)

    def __enter__(self):
        asks, self.asks = os.pipe()
        self.answers, answers = os.pipe()
        environment = {**os.environ, "LD_PRELOAD": self.shim, "APF_RUNS": f"{asks} {answers}", "APF_TOGETHER": str(self.together)}
        environment["APF_LEAST"] = str(self.least)
        if self.marker:
            environment["APF_REFUSED"] = self.marker
        # the commands of workers have many threads
        if self.words[1] != "run" and not self.marker:
            environment["APF_FORKS"] = "1"
        with open(self.content, "rb") as content:
            self.process = subprocess.Popen(self.words, stdin=content, pass_fds=(asks, answers), env=environment, cwd=self.cwd, start_new_session=True)
        os.close(asks)
        os.close(answers)
        return self

    def __exit__(self, *_):
        os.close(self.asks)
        os.close(self.answers)
        # where a run does not end, it ends now
        try:
            self.process.wait(1)
        except subprocess.TimeoutExpired:
            os.killpg(self.process.pid, 9)
            self.process.wait()

    def read(self, length):
        while len(self.told) < length:
            if not select.select([self.answers], [], [], MOST)[0]:
                raise subprocess.TimeoutExpired(self.words, MOST)
            part = os.read(self.answers, 65_536)
            if not part:
                raise EOFError(f"{self.words} ended")
            self.told += part
        read, self.told = self.told[:length], self.told[length:]
        return read

    def without(self, number):
        """The status, output and errors of the run without the allocation of this number, and whether it was refused: else there are fewer."""
        if self.marker and os.path.exists(self.marker):
            os.remove(self.marker)
        os.write(self.asks, struct.pack("q", number))
        status, is_refused, out, err = struct.unpack("qqqq", self.read(32))
        out, err = self.read(out), self.read(err)
        return (status, out, err), os.path.exists(self.marker) if self.marker else is_refused != 0
