#!/usr/bin/env python3
"""A live level, as `apf serve` answers: an independent computation, written from the rules and slow on purpose.

usage: python3 tests/lib/serve.py serve CONFIG [--slots S] [--name NAME] [--charge time|seats]

By itself it is a co-process with that protocol, for the tests of what talks to one.
"""

import argparse
import errno
import os
import re
import sys

sys.path.insert(0, os.path.dirname(os.path.abspath(__file__)))
from charges import MOST_RAN, Means, taken
from explain import ABSENT, FOLDER, flow_line, line_not_json, unknown
from explain import answer as explain
from judge import NotJson, Refused, config_of, dealer_fault, flow_of, whole_in
from level import Level, hash_of
from trace import SEATS, needed, value_of

MOST = 65_536
# a number may have as many digits as a line has room for, where Python has a bound
getattr(sys, "set_int_max_str_digits", int)(0)
KEYS = ("schema", "distinguisher", "hash", "width", "cost")
# the forms of a line: of an arrival, of a limit, and those that are no more than words, some with a request's number
NUMBER = "(0|[1-9][0-9]*)"
ARRIVAL = re.compile(rf"(arrive|try) {NUMBER} (\{{.*)", re.DOTALL)
LIMIT = re.compile(f"limit {NUMBER}")
NUMBERED = re.compile(f"(finish|cancel) {NUMBER}")
TIMED = re.compile(f"(finish|spent) {NUMBER} {NUMBER}")
WORDS = ("close", "book", "queues", "metrics")


class Service:
    """One level, and who is there under which number."""

    def __init__(self, config, slots=10_000, name="level", charge="time", refused=()):
        fault = config["limitResponse"] == "Queue" and dealer_fault(config["queues"], config["handSize"])
        if fault:
            raise Refused(fault)
        self.config, self.slots, self.name = config, slots, name
        # the model's requests are all that ever arrived; each has a number of the protocol while it is there
        self.requests, self.there, self.number = [], {}, {}
        self.level = Level(config, self.requests)
        # where requests are charged by time
        self.means = Means() if charge == "time" else None
        # the lines, from 1, that find no memory for their object
        self.line, self.refused = 0, refused

    def first(self):
        it = self.config
        how = f"queues {it['queues']} hand {it['handSize']} length {it['queueLengthLimit']} queue" if it["limitResponse"] == "Queue" else "reject"
        return f"serve 1 slots {self.slots} limit {it['limit']} {how}"

    def answer(self, line):
        """What is written for one line, which is its bytes without the LF."""
        self.line += 1
        try:
            return self.carried_out(line)
        except Refused as why:
            return [f"fault {self.line} {why}"]

    def carried_out(self, line):
        if len(line) > MOST:
            raise Refused("line too long")
        try:
            text = line.decode()
        except UnicodeDecodeError:
            raise Refused("bad line") from None
        if arrival := ARRIVAL.fullmatch(text):
            return self.arrival(arrival[1], int(arrival[2]), arrival[3])
        if change := LIMIT.fullmatch(text):
            return self.change(int(change[1]))
        if ended := TIMED.fullmatch(text):
            return {"finish": self.ended, "spent": self.spent}[ended[1]](*self.ran(int(ended[2]), int(ended[3])))
        if found := NUMBERED.fullmatch(text):
            return getattr(self, found[1])(self.known(int(found[2])))
        if text in WORDS:
            return getattr(self, text)()
        raise Refused("bad line")

    def judged(self, number):
        if number >= self.slots:
            raise Refused("bad number")

    def known(self, number):
        self.judged(number)
        if number not in self.there:
            raise Refused(f"{number} is not there")
        return self.there[number]

    def said(self, before):
        """The level's lines since then, with the numbers of the protocol for its own; whose end they say is there no more."""
        lines = []
        for line in self.level.lines[before:]:
            words = line.split()
            if words[0] in ("arrive", "finish", "cancel", "dispatch", "strike"):
                words[1] = str(self.number[int(words[1])])
            lines.append(" ".join(words))
        for request in [it for it in self.there.values() if self.is_over(it)]:
            del self.there[self.number[request]]
        return lines

    def is_over(self, request):
        decided = self.level.decided.get(request)
        return decided is not None and (decided != "execute" or request not in self.level.running)

    def arrival(self, word, number, text):
        self.judged(number)
        if number in self.there:
            raise Refused(f"{number} is there")
        if self.line in self.refused:
            raise Refused("out of memory")
        asked = asked_of(text)
        asked["cost"] = asked["cost"] or self.cost_of(asked)
        request, before = len(self.requests), len(self.level.lines)
        self.requests.append(asked)
        self.there[number], self.number[request] = request, number
        if word == "try" and self.config["limitResponse"] == "Queue" and not self.level.closed:
            if self.level.waiting() or not self.level.fits(request):
                del self.requests[request], self.there[number]
                return [f"try {number} busy"]
        self.level.arrive(request)
        first, *rest = self.said(before)
        return [first.replace("arrive", word), *rest]

    def cost_of(self, asked):
        """What the dispatch of a request is charged to which no cost was given."""
        return self.means.cost(flow_hash(asked["flow"]), asked["width"]) if self.means else asked["width"]

    def ran(self, number, ran):
        """The request of this number, and how long it is said to have run."""
        self.judged(number)
        if ran > MOST_RAN:
            raise Refused("bad time")
        return self.known(number), ran

    def ended(self, request, ran):
        """The request ends, and is said to have run this long: its queue is set right, and then it gives its seats back."""
        ran_at_all = request in self.level.running
        if ran_at_all and self.means:
            self.level.settle(request, taken(self.requests[request]["width"], ran))
        lines = self.finish(request)
        if ran_at_all and self.means:
            self.means.learn(flow_hash(self.requests[request]["flow"]), ran)
        return lines

    def spent(self, request, ran):
        """The request is said to have run this long so far."""
        number = self.number[request]
        if request not in self.level.running:
            return [f"spent {number} not running"]
        if self.means:
            self.level.spend(request, taken(self.requests[request]["width"], ran))
        return [f"spent {number}"]

    def change(self, limit):
        if not 1 <= limit <= 10_000:
            raise Refused("bad limit")
        before = len(self.level.lines)
        self.level.set_limit(limit)
        return self.said(before)

    def made(self, call, request):
        before = len(self.level.lines)
        call(request)
        return self.said(before)

    def finish(self, request):
        return self.made(self.level.finish, request)

    def cancel(self, request):
        return self.made(self.level.cancel, request)

    def close(self):
        return self.made(self.level.close, None)

    def book(self):
        return self.level.transcript().splitlines()[-4:]

    def queues(self):
        lines = []
        for queue, waiting in enumerate(self.level.queues):
            entered = [request for kind, request, at in self.level.log if (kind, at) == ("enter", queue)]
            served = sum(self.charged(request) for kind, request, at in self.level.log if (kind, at) == ("dispatch", queue))
            if entered:
                lines.append(f"queue {queue} waiting {len(waiting)} entered {len(entered)} service {served}")
        return [*lines, "end"]

    def charged(self, request):
        """What the queue of a dispatched request is said to have been charged."""
        if not self.means:
            return self.level.width(request)
        return self.level.settled[request] if request in self.level.settled else self.level.charged[request][1]

    def numbers(self):
        """The samples of `metrics`: each by its name and its labels."""
        level = f'priority_level="{self.name}"'
        decided = list(self.level.decided.values())
        samples = {
            ("current_inqueue_requests", level): self.level.waiting(),
            ("current_executing_requests", level): len(self.level.running),
            ("current_executing_seats", level): self.level.seats(),
            ("current_limit_seats", level): self.level.limit,
            ("dispatched_requests_total", level): decided.count("execute"),
        }
        for reason in ("queue-full", "concurrency-limit", "closed", "cancelled"):
            samples["rejected_requests_total", f'{level},reason="{reason}"'] = decided.count(reason)
        return samples

    def metrics(self):
        lines, before = [], None
        for (name, labels), value in self.numbers().items():
            full = f"apiserver_flowcontrol_{name}"
            if full != before:
                lines += [f"# HELP {full} As kube-apiserver names it", f"# TYPE {full} {'counter' if name.endswith('_total') else 'gauge'}"]
            lines.append(f"{full}{{{labels}}} {value}")
            before = full
        return [*lines, "# EOF"]


def flow_hash(flow):
    """The hash of a flow, which is given itself or as the flow's two names."""
    return flow if isinstance(flow, int) else hash_of(*flow)


def asked_of(text):
    """What an arrival's object asks: a line of a trace without its times. What is wrong with it is said as a trace's fault says it."""
    line = text.encode()
    try:
        value = value_of(line)
    except NotJson:
        raise Refused(line_not_json(line)) from None
    if any(key not in KEYS for key in value):
        raise Refused(f"{unknown(value, KEYS)}: an arrival has {', '.join(KEYS[:-1])} and {KEYS[-1]}")
    if flow_of(value) is None:
        raise Refused(flow_line(value))
    for key, (low, high, _) in SEATS.items():
        if key in value and not whole_in(value[key], low, high):
            raise Refused(needed(value, key, f"a whole number from {low} to {high}"))
    return {"flow": flow_of(value), "width": value.get("width", 1), "cost": value.get("cost")}


def session(service, content):
    """What `apf serve` prints for this input, from the first line to the book at its end."""
    lines = [service.first()]
    *whole, rest = content.split(b"\n")
    for line in whole:
        lines += service.answer(line)
    if rest:
        service.line += 1
        lines.append(f"fault {service.line} truncated")
    return "".join(f"{line}\n" for line in [*lines, *service.book()])


def slots_of(text):
    if not re.fullmatch("[1-9][0-9]{0,4}", text) or int(text) > 10_000:
        raise ValueError(text)
    return int(text)


def name_of(text):
    if not re.fullmatch("[a-z0-9.-]{1,253}", text):
        raise ValueError(text)
    return text


def main():
    ask = argparse.ArgumentParser(usage=__doc__)
    ask.add_argument("command", choices=["serve"])
    ask.add_argument("config")
    ask.add_argument("--slots", type=slots_of, default=10_000)
    ask.add_argument("--name", type=name_of, default="level")
    ask.add_argument("--charge", choices=["time", "seats"], default="time")
    asked = ask.parse_args()
    try:
        with open(asked.config, "rb") as file:
            content = file.read()
        service = Service(config_of(content), asked.slots, asked.name, asked.charge)
    except OSError as why:
        sys.exit(f"apf: cannot read config: {asked.config}: {FOLDER if why.errno == errno.EISDIR else ABSENT}")
    except Refused as line:
        explained = explain([asked.config, "requests", "script"], [content, b"[]", b""])[1]
        sys.exit(f"{line}\n{explained.decode().strip()}")
    try:
        print(service.first(), flush=True)
        for line in sys.stdin.buffer:
            answers = service.answer(line[:-1]) if line.endswith(b"\n") else [f"fault {service.line + 1} truncated"]
            print("".join(f"{it}\n" for it in answers), end="", flush=True)
        print("\n".join(service.book()), flush=True)
    except OSError:
        # what is left in the buffer goes nowhere
        os.dup2(os.open(os.devnull, os.O_WRONLY), 1)
        sys.exit("apf: cannot write")


if __name__ == "__main__":
    main()
