"""Audit logs that are read in pieces: drawn logs against the independent computation, by `trace`, and with the schema of each request, by `cluster --trace`. Then
logs of which most lines are held until the end, so that few places of the window are left: lines come too late there, and requests that were turned away get
their runs by what was read until then. Then a long log: its requests, the time and the memory that it takes."""

import json
import os
import random
import subprocess
import sys
import tempfile

HERE = os.path.dirname(os.path.dirname(os.path.abspath(__file__)))
sys.path.insert(0, os.path.join(HERE, "lib"))
from audit import TOO_LATE, WINDOW, Choice, median, notes, read_of, text_of
from audits import NOON, Logs, time_text
from clusters import level_object, level_of, notes_of, read_by, schema_object
from harness import Files, Tally, build, run

tally = Tally()
program = build()
files = Files()
# the same draws each time; APF_SEED draws others
seed = int(os.environ.get("APF_SEED", "2044"))
draw = random.Random(seed)
logs = Logs(draw)
LOGS = int(os.environ.get("APF_LOGS", "1000"))
# the first of two long logs is longer than the window, too
MANY = int(os.environ.get("APF_EVENTS", "200000"))
# of how many requests the window has room left
SIZES = (0, 1, 2, 3, 7, 20)
print(f"seed {seed}")


def printed(content, by):
    """What `trace` does with a log of these bytes."""
    status, out, err = run(program, ["trace", files("audit.log", content), "s", "--by", by])
    return status, out.decode(), err.decode()


def drawn_event(received):
    """An event of one of few users, which may be turned away, have no user's name, or not be taken."""
    run = draw.choice([0, 1, 5, 100, 999_999, draw.randrange(10**7)])
    event = logs.event((NOON + received, run, draw.choice(["a", "b", "c", "d"]), None))
    kind = draw.random()
    if kind < 0.3:
        event["responseStatus"] = {"code": 429}
    elif kind < 0.4:
        event.pop("impersonatedUser", None)
        event["user"] = {} if kind < 0.35 else {"groups": []}
    elif kind < 0.5:
        event["stage"] = "RequestReceived"
    event["objectRef"] = {"namespace": draw.choice(["x", "y"])} if draw.random() < 0.7 else {}
    return event


def drawn_log(size):
    """A log whose lines come up to about the window's size late, and now and then more; with a last line that is cut, or a fault."""
    time, lines = 0, []
    reach = draw.choice([0, 1, size, size + 2, 3 * size])
    for _ in range(draw.choice([1, 5, 20, 60])):
        time += draw.choice([0, 1, 1, 50])
        lines.append((time + draw.choice([0, draw.randint(0, reach)]), logs.line(drawn_event(time)) + b"\n"))
    lines = [line for _, line in sorted(lines, key=lambda it: it[0])]
    end = draw.random()
    if end < 0.2:
        lines.append(b'{"stage":"ResponseComp')
    elif end < 0.3:
        lines[-1] = lines[-1].rstrip(b"\n")
    elif end < 0.4:
        lines.insert(draw.randint(0, len(lines)), draw.choice([b"\n", b"{}\n", b'{"stage":"ResponseComplete","verb":"get","user":{"username":7}}\n']))
    elif end < 0.45:
        # more than 11.5 days after the others
        lines.append(logs.line(logs.event((NOON + 2 * 10**12, 5, "a", None))) + b"\n")
    return b"".join(lines)


def foreseen(content, by):
    read = read_of(content, Choice(by=by))
    text = text_of(read.requests, "s")
    if read.fault:
        return 1, text, f"{read.fault}\n"
    away = sum(is_away for *_, is_away in read.requests)
    return 0, text, notes(read.unnamed, read.is_cut, away, len(read.requests))


def check_drawn():
    met = dict.fromkeys(("good", "unnamed", "cut", "turned away", "fault 2", "fault 3", "fault 4", "fault 10"), 0)
    for number in range(LOGS):
        size = draw.choice([*SIZES, WINDOW])
        by = draw.choice(["user", "namespace"])
        content = drawn_log(min(size, 20))
        want = foreseen(content, by)
        tally.check(f"log {number}: {content[-300:]!r}", printed(content, by), want)
        read = read_of(content, Choice(by=by))
        kinds = {f"fault {read.fault.number}"} if read.fault else {"good", *["unnamed"] * (read.unnamed > 0), *["cut"] * read.is_cut}
        kinds |= {"turned away"} if any(is_away for *_, is_away in read.requests) else set()
        for kind in kinds:
            met[kind] = met.get(kind, 0) + 1
    for kind, count in met.items():
        tally.check(f"{kind} is met", count > 0, True)


# ---- each request has the schema of a cluster that it is of, and a flow within it


def drawn_schemas():
    """Schemas in their order, of users, groups, resources and paths of few names; the last one takes what no other does."""
    schemas = []
    for number in range(draw.randint(0, 6)):
        subjects = [draw.choice([("User", draw.choice("abcd*")), ("Group", draw.choice(["g", "h", "*"]))]) for _ in range(draw.randint(1, 2))]
        verbs = draw.choice([["*"], ["get"], ["list", "create"]])
        resources = [(verbs, [draw.choice(["", "apps", "*"])], [draw.choice(["pods", "pods/status", "nodes", "*"])], draw.random() < 0.5,
                      draw.choice([[], ["x"], ["*"]])) for _ in range(draw.randint(0, 2))]
        paths = [(verbs, [draw.choice(["/healthz", "/api*", "*"])]) for _ in range(draw.randint(0, 2))]
        schemas.append({"name": f"s{number}", "level": "l", "by": draw.choice(["user", "namespace", "nothing"]), "rules": [(subjects, resources, paths)]})
    everything = [(["*"], ["*"], ["*"], True, ["*"])], [(["*"], ["*"])]
    return [*schemas, {"name": "catch-all", "level": "l", "by": "user", "rules": [([("User", "*")], *everything)]}]


def routed_event(received):
    """An event whose request may be any schema's."""
    event = drawn_event(received)
    event["verb"] = draw.choice(["get", "list", "create", "delete"])
    groups = draw.choice([[], ["g"], ["h", "g"], ["k"], ["g", 7, None], "g", None])
    for who in ("user", "impersonatedUser"):
        if isinstance(event.get(who), dict):
            event[who]["groups"] = groups if draw.random() < 0.8 else []
    if draw.random() < 0.3:
        del event["objectRef"]
        event["requestURI"] = draw.choice(["/healthz", "/healthz?verbose=1", "/api", "/api/v1?x=?", "/apis", "", 7])
    else:
        event["objectRef"].update(draw.choice([{}, {"resource": "pods"}, {"resource": "pods", "subresource": "status"}, {"resource": "nodes", "apiGroup": "apps"}]))
        if draw.random() < 0.2:
            event["objectRef"]["namespace"] = draw.choice(["", 7, "n" * 5000])
    return event


def check_schemas():
    """All schemas are of one level, so its trace has all requests. The server's own schema `exempt` comes first, and takes requests of a group that nobody is in
    here."""
    routed = {}
    for number in range(LOGS // 2):
        schemas = drawn_schemas()
        items = [level_object(level_of("l", 30)), *(schema_object({**it, "precedence": 1 + place}) for place, it in enumerate(schemas))]
        draw.shuffle(items)
        objects = files("objects.json", json.dumps({"kind": "List", "items": items}))
        content = b"".join(logs.line(routed_event(place)) + b"\n" for place in range(draw.choice([1, 10, 40])))
        read = read_by(schemas, content)
        for _, _, flow, _ in read.requests:
            routed[flow.schema] = routed.get(flow.schema, 0) + 1
        said = (1, f"{read.fault}\n".encode()) if read.fault else (0, notes_of(read))
        status, out, err = run(program, ["cluster", objects, files("audit.log", content), "0", "--level", "l", "--trace"])
        tally.check(f"schemas {number}: {content[-300:]!r}", (status, err, out.decode()), (*said, text_of(read.requests, "s")))
    tally.check("each schema has requests", all(routed.get(it, 0) > 20 for it in ("s0", "s1", "s2", "s3", "catch-all")), True)


# ---- with few places of the window

# when a request is received that comes after all others of its log
LATER = NOON + 500_000_000_000
HELD = {"stage": "ResponseComplete", "verb": "get", "user": {"username": "z"}, "objectRef": {"namespace": "z"}, "responseStatus": {"code": 429}}
HELD_LINE = json.dumps({**HELD, "requestReceivedTimestamp": time_text(LATER)}).encode() + b"\n"


def late_log(size, kind):
    """A log whose lines come up to this many requests late; from some place on later, or with a line there that is no event."""
    time, lines, content = 0, [], []
    for _ in range(800):
        time += draw.choice([0, 1, 1, 50])
        lines.append(logs.line(drawn_event(time)) + b"\n")
    place, reach = draw.randrange(400, 750), size + 1
    while lines:
        if kind == "too late" and len(content) > place:
            reach = 3 * size + 4
        block, lines = lines[:reach], lines[reach:]
        draw.shuffle(block)
        content += block
    if kind == "no event":
        content.insert(place, b"{}\n")
    return b"".join(content)


def foreseen_behind(content, by, size):
    """What is printed of a log behind as many lines as leave this many places, by the computation with a window of that size: those that are held come last."""
    read, held = read_of(content, Choice(by=by), size), WINDOW - size
    text = text_of(read.requests, "s")
    if read.fault:
        return 1, text, f"{read.fault}\n".replace(f" at line {read.fault.line}: ", f" at line {held + read.fault.line}: ")
    # of a flow of which none ran
    run_for = median(sorted(ran for _, ran, _, is_away in read.requests if not is_away))
    line = f'{{"schema":"s","distinguisher":"z","arrivesAt":{LATER - read.requests[0][0]},"runsFor":{run_for}}}\n'
    away = sum(is_away for *_, is_away in read.requests)
    return 0, text + held * line, notes(read.unnamed, read.is_cut, held + away, held + len(read.requests))


def check_late():
    for size in SIZES:
        for kind in ("good", "too late", "no event"):
            content, by = late_log(size, kind), draw.choice(["user", "namespace"])
            want = foreseen_behind(content, by, size)
            name = f"a log with {size} places, {kind}"
            got = printed((WINDOW - size) * HELD_LINE + content, by)
            tally.check(f"{name}: the status and what is said", got[0::2], want[0::2])
            tally.check(f"{name}: the trace", got[1] == want[1], True)
            fault, requests = read_of(content, Choice(by=by), size).fault, want[1].count("\n")
            tally.check(f"{name}: the fault", fault and fault.number, {"good": None, "too late": TOO_LATE, "no event": 3}[kind])
            tally.check(f"{name}: {requests} requests come before that", requests > 200, True)
    # the computation has the same of the whole log, with the whole window
    content = late_log(7, "good")
    whole = foreseen((WINDOW - 7) * HELD_LINE + content, "user")
    tally.check("a window that is held but for seven places is one of seven", whole == foreseen_behind(content, "user", 7), True)


# ---- a long log


# an event as a server writes it, of about 800 bytes
WHOLE = {
    "kind": "Event",
    "apiVersion": "audit.k8s.io/v1",
    "level": "Metadata",
    "auditID": "%032x",
    "stage": "ResponseComplete",
    "requestURI": "/api/v1/namespaces/team-1/pods?limit=500",
    "verb": "list",
    "user": {"username": "%s", "uid": "%032x", "groups": ["system:serviceaccounts", "system:serviceaccounts:team-1", "system:authenticated"]},
    "sourceIPs": ["10.0.7.19"],
    "userAgent": "kubectl/v1.34.1 (linux/amd64) kubernetes/93248f9",
    "objectRef": {"resource": "pods", "namespace": "team-1", "apiVersion": "v1"},
    "responseStatus": {"metadata": {}, "code": "%d"},
    "requestReceivedTimestamp": "%s",
    "stageTimestamp": "%s",
    "annotations": {"authorization.k8s.io/decision": "allow", "authorization.k8s.io/reason": "RBAC: allowed by RoleBinding"},
}
FORM = json.dumps(WHOLE, separators=(",", ":")).replace('"%d"', "%d") + "\n"


def instant(micros):
    """A time of one day."""
    seconds, part = divmod(micros, 10**6)
    return f"2026-07-01T{seconds // 3600:02d}:{seconds // 60 % 60:02d}:{seconds % 60:02d}.{part:06d}Z"


def long_events(events, users=200):
    """Requests, each with its end and when it was received, its number, its user and whether it was turned away, in the order of their ends."""
    stream, ends = random.Random(7), []
    for number in range(events):
        received = 700 * number
        end, user = received + stream.randrange(1, 900_000), stream.randrange(users)
        ends.append((end, received, number, f"system:serviceaccount:team-{user % 20}:worker-{user}", stream.random() < 0.05))
    return sorted(ends)


def long_log(made):
    """Pieces of a log of these, each line at the end of its request."""
    for first in range(0, len(made), 10_000):
        lines = [
            FORM % (number, user, number, 429 if is_refused else 200, instant(received), instant(end))
            for end, received, number, user, is_refused in made[first : first + 10_000]
        ]
        yield "".join(lines).encode()


def ran(pieces):
    """What `trace` prints of a log that it reads from a pipe, with its status and what it says, the most memory that it had up to the log's end, in KiB, and its
    seconds of a processor. It prints while it is given more, so what it prints goes to a file."""
    most = 0
    words = [program, "trace", "-", "s"]
    with tempfile.TemporaryFile() as out, tempfile.TemporaryFile() as err, subprocess.Popen(words, stdin=subprocess.PIPE, stdout=out, stderr=err) as process:
        try:
            for piece in pieces:
                process.stdin.write(piece)
            process.stdin.flush()
            # not what `wait4` says: that counts what this process had when it made the other
            with open(f"/proc/{process.pid}/status") as lines:
                most = next((int(line.split()[1]) for line in lines if line.startswith("VmHWM:")), 0)
            process.stdin.close()
        except BrokenPipeError:
            # it ended before the log did, and says why
            pass
        _, status, used = os.wait4(process.pid, 0)
        process.returncode = os.waitstatus_to_exitcode(status)
        said = []
        for file in (out, err):
            file.seek(0)
            said.append(file.read().decode())
    return (process.returncode, *said), most, used.ru_utime + used.ru_stime


def check_long():
    sizes = {}
    for events in (7 * MANY // 10, MANY):
        made = long_events(events)
        (status, out, err), memory, seconds = ran(long_log(made))
        told = [json.loads(line) for line in out.splitlines()]
        away = sum(is_refused for *_, is_refused in made)
        tally.check(f"{events} events", (status, len(told), err), (0, events, notes(0, False, away, events)))
        came = sorted((received, user) for _, received, _, user, _ in made)
        tally.check(f"{events} events, in the order of their arrivals", [(it["arrivesAt"], it["distinguisher"]) for it in told] == came, True)
        ran_for = {received: end - received for end, received, _, _, is_refused in made if not is_refused}
        tally.check(f"{events} events, each with its own run", all(it["runsFor"] == ran_for.get(it["arrivesAt"], it["runsFor"]) for it in told), True)
        sizes[events] = memory
        print(f"{events} events: {memory} KiB, {seconds:.2f} s of a processor, {1e6 * seconds / events:.2f} us an event")
    tally.check(f"memory does not grow with the log once the window is full: {sizes}", sizes[MANY] <= sizes[7 * MANY // 10] + 4_096, True)


check_drawn()
check_schemas()
check_late()
check_long()
tally.end()
