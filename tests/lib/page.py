"""The page as a process, and what it should show: what the program prints, read here anew."""

import contextlib
import http.client
import json
import os
import re
import subprocess
import xml.etree.ElementTree as ElementTree

from harness import TOP, Files, run

SVG = "{http://www.w3.org/2000/svg}"
TRACE = os.path.join(TOP, "examples", "noisy-client", "trace.jsonl")
LEVEL = {"limit": 10, "queues": 64, "handSize": 8, "queueLengthLimit": 50, "limitResponse": "Queue"}
DECISIONS = {"execute": "executed", "queue-full": "rejected: queue full", "concurrency-limit": "rejected: no seat", "cancelled": "gave up"}


class Served:
    """The page, which is served until the end of a block. Its temporary files would stand in a folder that is looked at."""

    def __init__(self, tally, **environment):
        self.tally = tally
        self.room, self.aside = Files(), Files()
        self.said = open(self.aside("said", ""), "w+")
        self.process = subprocess.Popen(
            [os.path.join(TOP, "page")], stdin=subprocess.DEVNULL, stdout=subprocess.PIPE, stderr=self.said, text=True, env={**os.environ, "TMPDIR": self.room.folder.name, **environment}
        )
        self.address = self.process.stdout.readline().split()[0]
        self.port = int(self.address.rstrip("/").rsplit(":", 1)[1])

    def __enter__(self):
        return self

    def __exit__(self, *_):
        self.process.terminate()
        try:
            self.process.wait(60)
        except subprocess.TimeoutExpired:
            self.process.kill()
            self.process.wait()
        self.process.stdout.close()
        self.said.seek(0)
        with self.said:
            self.tally.check("the server ends in order, and says nothing", (self.process.returncode, self.said.read()), (0, ""))

    def ask(self, method, path, body=None, **fields):
        """The status and the text of an answer. The fields are the head's, without what else a client would say."""
        connection = http.client.HTTPConnection("127.0.0.1", self.port, timeout=60)
        connection.putrequest(method, path, skip_host=True, skip_accept_encoding=True)
        for name, value in fields.items():
            for each in value if isinstance(value, list) else [value]:
                connection.putheader(name.replace("_", "-"), each)
        connection.endheaders()
        with contextlib.suppress(ConnectionError):
            connection.send(body or b"")
        try:
            answer = connection.getresponse()
            return answer.status, answer.read().decode(), dict(answer.headers)
        except (OSError, http.client.HTTPException) as why:
            return 0, repr(why), {}
        finally:
            connection.close()


def names_of(line):
    """The numbers and words of a line, and the name of its flow as the page shows it."""
    found = re.fullmatch(r'(.*?)(?: of)?(?: ("(?:[^"\\]|\\.)*") ("(?:[^"\\]|\\.)*"))?', line)
    words, name = found[1].split(" "), found[3]
    if name is not None and not re.search(r'\\|^"(\s|"$)|\s"$', name):
        name = name[1:-1]
    return words, name


def rounded(number, size, digits):
    """A number in units of this size, with this many digits behind the point."""
    units = (number * 10**digits * 2 + size) // (2 * size)
    return f"{units // 10**digits:,}" + (f".{units % 10**digits:0{digits}d}" if digits else "")


def scale(longest):
    """The size and the digits of times, by the longest one of the table."""
    return (1, 0) if longest < 10_000 else (1000, 1) if longest < 1_000_000 else (1000, 0) if longest < 1_000_000_000 else (1_000_000, 0)


class Told:
    """What the program says."""

    def __init__(self, program, files):
        self.program, self.files = program, files

    def said(self, command, *words, config=LEVEL, other=None, trace=TRACE, patience="8s"):
        """The output of a command on a level, or on a kept one and another, and its error, which calls each as the page does."""
        levels = [self.files(f"level-{number}.json", it if isinstance(it, str) else json.dumps(it)) for number, it in enumerate((config, other)) if it is not None]
        _, out, err = run(self.program, [command, *levels, trace, *([] if command == "hands" else [patience]), *words])
        err = err.decode().strip()
        for path, name in zip(levels, ("kept", "config")[2 - len(levels):]):
            err = err.replace(f"\n{path}:", f"\n{name}:")
        return out.decode().split("\n")[:-1], err

    def table_of_one(self, **level):
        """The rows that `simulate` makes."""
        lines, _ = self.said("simulate", **level)
        flows = [names_of(it) for it in lines if it.startswith("flow ")]
        rows = sorted(([name or words[1], *(int(words[it]) for it in (3, 5, 7, 9, 14, 16, 18, 11))] for words, name in flows), key=lambda it: -it[7])
        size, digits = scale(max((it[7] for it in rows), default=0))
        shown = [[it[0], *(f"{count:,}" for count in it[1:5]), *(rounded(wait, size, digits) for wait in it[5:8]), rounded(it[8], 1_000_000, 1)] for it in rows]
        sums = [sum(it[place] for it in rows) for place in range(1, 5)]
        last = [*(f"{it:,}" for it in sums), "", "", rounded(max((it[7] for it in rows), default=0), size, digits), rounded(sum(it[8] for it in rows), 1_000_000, 1)]
        return [*shown, ["All", *last]]

    def table_of_two(self, **levels):
        """The rows that `compare` makes, in its order."""
        lines, _ = self.said("compare", **levels)
        rows = [(name or words[0], [int(it) for it in words[1:]]) for words, name in map(names_of, lines[1:])]
        size, digits = scale(max(max(it[5:7]) for _, it in rows[:-1]))
        waits = [(name, [f"{it[0]:,}", *(rounded(wait, size, digits) for wait in it[1:7]), *(f"{count:,}" for count in it[7:11])]) for name, it in rows]
        return [["All" if name == "whole" else name, *it] for name, it in waits]

    def requests_of(self, flow, **level):
        """The rows that `fates` makes of a flow."""
        rows = []
        for words, name in map(names_of, self.said("fates", **level)[0][1:]):
            number, _, arrival, queue, start, end, decision = words
            wait = int(start if decision == "execute" else end) - int(arrival)
            times = [rounded(int(it), 1000, 3) if it != "-" else "" for it in (arrival, wait, start, end)]
            if name == flow:
                rows.append([number, times[0], "" if queue == "-" else queue, *times[1:], DECISIONS[decision]])
        return rows

    def hands_of(self, **level):
        """The hand of each flow."""
        return {name or words[1]: words[3:] for words, name in map(names_of, (it for it in self.said("hands", **level)[0] if it.startswith("flow ")))}

    def sharers_of(self, queue, **level):
        """Each flow whose hand has a queue, how many of its requests entered it, and its hand."""
        entered = [name for words, name in map(names_of, self.said("fates", **level)[0][1:]) if words[3] == queue]
        return [[name, str(entered.count(name)), " ".join(hand)] for name, hand in self.hands_of(**level).items() if queue in hand]

    def picture_of(self, **level):
        """The picture's title and description, and the row's number of each flow."""
        root = ElementTree.fromstring("\n".join(self.said("picture", **level)[0]))
        rows = {}
        for group in root.iter(f"{SVG}g"):
            for mark in group.findall(f"{SVG}rect"):
                if re.fullmatch(r"f\d+", mark.get("class")):
                    rows[group.findtext(f"{SVG}title")] = int(mark.get("class")[1:])
        return root, f"{root[0].text}. {root[1].text}", rows
