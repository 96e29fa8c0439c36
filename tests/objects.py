"""The commands `objects` and `match` on the built program, against an independent reader and matcher: 200,000 random events, objects drawn at random,
good and faulty, and the faults of the command line and of the log."""

import functools
import itertools
import json
import os
import random
import subprocess
import sys
import threading

HERE = os.path.dirname(os.path.abspath(__file__))
sys.path.insert(0, os.path.join(HERE, "lib"))
from harness import TOP, Files, Memory, Tally, build, run
from explain import NO_OBJECTS, TRACE_AS_OBJECTS, not_json
from level import hand_of, hash_of
from matching import distinguisher_of, miss_of, schema_of

tally = Tally()
program = build()
files = Files()
draw = random.Random(60)
GROUP = "flowcontrol.apiserver.k8s.io/"
VERSIONS = [GROUP + it for it in ("v1", "v1beta3", "v1beta2")]
EVERYTHING = {
    "resourceRules": [{"verbs": ["*"], "apiGroups": ["*"], "resources": ["*"], "clusterScope": True, "namespaces": ["*"]}],
    "nonResourceRules": [{"verbs": ["*"], "nonResourceURLs": ["*"]}],
}


# ---- the independent reader


class Fault(Exception):
    """A fault: its number, the number of its object, and what the line says of the key."""


def whole(value, low, high):
    return type(value) is int and low <= value <= high


class Reader:
    """One object, and its number."""

    def __init__(self, number, item):
        self.number, self.item = number, item

    def bad(self, path, wanted):
        raise Fault(7, self.number, path, wanted)

    def absent(self, path, wanted):
        raise Fault(6, self.number, path, wanted)

    def part(self, whole_value, path):
        """The object at the last word of a path, and an empty one where it is absent."""
        word = path.split(".")[-1]
        if word not in whole_value:
            return {}
        if type(whole_value[word]) is not dict:
            self.bad(path, "an object")
        return whole_value[word]

    def text(self, part, path, wanted="a text"):
        word = path.split(".")[-1]
        if word not in part:
            self.absent(path, wanted)
        if type(part[word]) is not str:
            self.bad(path, wanted)
        return part[word]

    def one_of(self, part, path, names, told):
        got = self.text(part, path, told) if path.split(".")[-1] in part and type(part[path.split(".")[-1]]) is str else None
        if got is None:
            return self.text(part, path, told)
        if got not in names:
            self.bad(path, told)
        return got

    def number_at(self, part, path, low, high, default):
        word = path.split(".")[-1]
        if word not in part:
            return default
        if not whole(part[word], low, high):
            self.bad(path, f"a whole number from {low} to {high}")
        return part[word]

    def items(self, part, path):
        word = path.split(".")[-1]
        if word not in part:
            return []
        if type(part[word]) is not list:
            self.bad(path, "an array")
        return part[word]

    def texts(self, part, path):
        word = path.split(".")[-1]
        if word not in part:
            return []
        if type(part[word]) is not list or any(type(it) is not str for it in part[word]):
            self.bad(path, "an array of texts")
        return part[word]

    def whole_object(self, value, path):
        if type(value) is not dict:
            self.bad(path, "an object")

    def level(self, version):
        name = self.text(self.part(self.item, "metadata"), "metadata.name")
        spec = self.part(self.item, "spec")
        kind = self.one_of(spec, "spec.type", ("Limited", "Exempt"), "Limited or Exempt")
        if kind == "Exempt":
            exempt = self.part(spec, "spec.exempt")
            shares = self.number_at(exempt, "spec.exempt.nominalConcurrencyShares", 0, 2147483647, 0)
            lendable = self.number_at(exempt, "spec.exempt.lendablePercent", 0, 100, 0)
            return {"name": name, "exempt": True, "shares": shares, "lendable": lendable, "borrowing": None, "queuing": None}
        limited = self.part(spec, "spec.limited")
        word = "assuredConcurrencyShares" if version.endswith("v1beta2") else "nominalConcurrencyShares"
        shares = self.number_at(limited, "spec.limited." + word, 0, 2147483647, 30)
        lendable = self.number_at(limited, "spec.limited.lendablePercent", 0, 100, 0)
        borrowing = self.number_at(limited, "spec.limited.borrowingLimitPercent", 0, 2147483647, None)
        at = "spec.limited.limitResponse"
        response = self.part(limited, at)
        queuing = None
        if self.one_of(response, at + ".type", ("Queue", "Reject"), "Queue or Reject") == "Queue":
            at += ".queuing"
            part = self.part(response, at)
            queuing = (
                self.number_at(part, at + ".queues", 1, 1024, 64),
                self.number_at(part, at + ".handSize", 1, 15, 8),
                self.number_at(part, at + ".queueLengthLimit", 1, 10000, 50),
            )
        return {"name": name, "exempt": False, "shares": shares, "lendable": lendable, "borrowing": borrowing, "queuing": queuing}

    def subject(self, value, path):
        self.whole_object(value, path)
        kind = self.one_of(value, path + ".kind", ("User", "Group", "ServiceAccount"), "User, Group or ServiceAccount")
        if kind == "ServiceAccount":
            part = self.part(value, path + ".serviceAccount")
            return kind, self.text(part, path + ".serviceAccount.namespace"), self.text(part, path + ".serviceAccount.name")
        word = kind.lower()
        return kind, self.text(self.part(value, f"{path}.{word}"), f"{path}.{word}.name")

    def resources(self, value, path):
        self.whole_object(value, path)
        verbs, groups, resources = (self.texts(value, f"{path}.{word}") for word in ("verbs", "apiGroups", "resources"))
        scope = value.get("clusterScope", False)
        if type(scope) is not bool:
            self.bad(path + ".clusterScope", "true or false")
        return verbs, groups, resources, scope, self.texts(value, path + ".namespaces")

    def paths(self, value, path):
        self.whole_object(value, path)
        return self.texts(value, path + ".verbs"), self.texts(value, path + ".nonResourceURLs")

    def rule(self, value, path):
        self.whole_object(value, path)
        read = []
        for word, one in (("subjects", self.subject), ("resourceRules", self.resources), ("nonResourceRules", self.paths)):
            read.append([one(it, f"{path}.{word}[{i}]") for i, it in enumerate(self.items(value, f"{path}.{word}"))])
        return read

    def schema(self):
        name = self.text(self.part(self.item, "metadata"), "metadata.name")
        spec = self.part(self.item, "spec")
        at = "spec.priorityLevelConfiguration"
        level = self.text(self.part(spec, at), at + ".name")
        precedence = self.number_at(spec, "spec.matchingPrecedence", 1, 10000, 1000)
        by = "nothing"
        if "distinguisherMethod" in spec:
            part = self.part(spec, "spec.distinguisherMethod")
            by = self.one_of(part, "spec.distinguisherMethod.type", ("ByUser", "ByNamespace"), "ByUser or ByNamespace")
            by = {"ByUser": "user", "ByNamespace": "namespace"}[by]
        rules = [self.rule(it, f"spec.rules[{i}]") for i, it in enumerate(self.items(spec, "spec.rules"))]
        return {"name": name, "level": level, "precedence": precedence, "by": by, "rules": rules}


def everything(name, level, precedence, by, groups):
    rule = [[("Group", it) for it in groups], [(["*"], ["*"], ["*"], True, ["*"])], [(["*"], ["*"])]]
    return {"name": name, "level": level, "precedence": precedence, "by": by, "rules": [rule]}


def cluster_of(value):
    """The levels, the schemas in their order, and those that dangle."""
    kind = value.get("kind") if type(value) is dict else None
    usual = {"List": (None, None), "FlowSchemaList": ("FlowSchema", value), "PriorityLevelConfigurationList": ("PriorityLevelConfiguration", value)}
    if type(kind) is not str or kind not in [*usual, "FlowSchema", "PriorityLevelConfiguration"]:
        raise Fault(2, None, "kind", "List, FlowSchemaList, PriorityLevelConfigurationList, FlowSchema or PriorityLevelConfiguration")
    own_kind, own_version, items = None, None, [value]
    if kind in usual:
        own_kind = usual[kind][0]
        own_version = value.get("apiVersion") if usual[kind][1] and value.get("apiVersion") in VERSIONS else None
        items = value.get("items")
        if type(items) is not list:
            raise Fault(3, None, "items", "an array")
    if len(items) > 1000:
        raise Fault(4, None, "", "")
    levels, schemas = [], []
    for number, item in enumerate(items):
        if type(item) is not dict:
            raise Fault(5, number, "it", "an object")
        reader = Reader(number, item)
        kinds = ("FlowSchema", "PriorityLevelConfiguration")
        kind = own_kind if own_kind and "kind" not in item else reader.one_of(item, "kind", kinds, " or ".join(kinds))
        version = own_version
        if not own_version or "apiVersion" in item:
            version = reader.one_of(item, "apiVersion", VERSIONS, f"{VERSIONS[0]}, {VERSIONS[1]} or {VERSIONS[2]}")
        one, among = (reader.schema(), schemas) if kind == "FlowSchema" else (reader.level(version), levels)
        if any(it["name"] == one["name"] for it in among):
            raise Fault(8, number, "metadata.name", "that of an earlier object of this kind")
        if among is levels and len(levels) == 64:
            raise Fault(9, number, "", "")
        among.append(one)
    for name, exempt, shares in (("exempt", True, 0), ("catch-all", False, 5)):
        if all(it["name"] != name for it in levels):
            levels.append({"name": name, "exempt": exempt, "shares": shares, "lendable": 0, "borrowing": None, "queuing": None})
    there = {it["name"] for it in levels}
    live = [it for it in schemas if it["level"] in there]
    for own in (
        everything("exempt", "exempt", 1, "nothing", ["system:masters"]),
        everything("catch-all", "catch-all", 10000, "user", ["system:unauthenticated", "system:authenticated"]),
    ):
        if all(it["name"] != own["name"] for it in live):
            live.append(own)
    live.sort(key=lambda it: (it["precedence"], it["name"].encode()))
    return levels, live, [it for it in schemas if it["level"] not in there]


def listing(cluster, seats):
    levels, live, dangling = cluster
    total = sum(it["shares"] for it in levels)
    said = []
    for it in levels:
        nominal = -(-seats * it["shares"] // total) if total else 0
        lendable = (2 * nominal * it["lendable"] + 100) // 200
        borrowing = seats if it["borrowing"] is None else (2 * nominal * it["borrowing"] + 100) // 200
        line = f"level {it['name']} nominal {nominal}"
        if it["exempt"]:
            said.append(line + " exempt")
            continue
        line += f" limits {nominal - lendable}..{nominal + borrowing}"
        said.append(line + (" queues %d hand %d length %d" % it["queuing"] if it["queuing"] else " rejects"))
    for them, end in ((live, ""), (dangling, " dangling")):
        said += [f"schema {it['name']} precedence {it['precedence']} level {it['level']} by {it['by']}{end}" for it in them]
    return "".join(it + "\n" for it in said)


# ---- the independent matcher, with what it says of a request


def explained(cluster, asked):
    levels, live, _ = cluster
    place = schema_of(live, asked)
    # one that only takes what no other does can stand before others
    said = [f"not {it['name']}: {miss_of(it, asked)}" for it in live[:place] if miss_of(it, asked) is not None]
    schema = live[place]
    who = distinguisher_of(schema, asked)
    number = hash_of(schema["name"], who)
    line = f"schema {schema['name']} level {schema['level']} hash {number:016x} of {json.dumps(who)}"
    queuing = next(it["queuing"] for it in levels if it["name"] == schema["level"])
    # a hand that can't be dealt is not printed
    if queuing and queuing[1] <= queuing[0] and queuing[0] ** queuing[1] <= 1 << 60:
        line += " hand " + " ".join(map(str, hand_of(queuing[0], queuing[1], number)))
    return "".join(it + "\n" for it in [*said, line])


# ---- what is drawn

NAMES = ["a", "b", "shop", "kube-system", "*", "system:kube-scheduler"]
USERS = ["alice", "bob", "system:kube-scheduler", "system:serviceaccount:shop:a", "system:serviceaccount:kube-system:b", "system:serviceaccount:shop:", "system:serviceaccount:sho:p:a", "*"]
# the name of one has a comma, which parts no two groups
GROUPS = ["system:masters", "system:authenticated", "system:serviceaccounts", "system:nodes", "dev", "dev,system:nodes"]
VERBS = ["get", "list", "create", "watch"]
APIS = ["", "apps", "batch"]
RESOURCES = ["pods", "pods/log", "nodes", "leases"]
SPACES = ["", "shop", "kube-system", "x"]
PATHS = ["/healthz", "/healthz/ping", "/healthzz", "/", "/apis/apps", "/version", "*"]
URLS = ["*", "/healthz", "/healthz/*", "/healthz*", "/apis/*", "/", "/*", "version"]


def some(them, star=0.15):
    return ["*"] if draw.random() < star else draw.sample(them, draw.randint(0, len(them)))


def subject():
    kind = draw.choice(["User", "Group", "ServiceAccount"])
    if kind == "User":
        return {"kind": kind, "user": {"name": draw.choice(USERS)}}
    if kind == "Group":
        return {"kind": kind, "group": {"name": draw.choice([*GROUPS, "*"])}}
    return {"kind": kind, "serviceAccount": {"namespace": draw.choice(["shop", "kube-system", "sho"]), "name": draw.choice(["a", "b", "*", "p:a"])}}


def rule():
    made = {"subjects": [subject() for _ in range(draw.randint(0, 3))]}
    if draw.random() < 0.8:
        made["resourceRules"] = []
        for _ in range(draw.randint(0, 3)):
            one = {"verbs": some(VERBS, 0.4), "apiGroups": some(APIS, 0.4), "resources": some(RESOURCES, 0.4), "namespaces": some(SPACES[1:], 0.4)}
            if draw.random() < 0.5:
                one["clusterScope"] = draw.random() < 0.7
            if draw.random() < 0.1:
                del one[draw.choice([*one])]
            made["resourceRules"].append(one)
    if draw.random() < 0.6:
        made["nonResourceRules"] = [{"verbs": some(VERBS, 0.4), "nonResourceURLs": some(URLS, 0.2)} for _ in range(draw.randint(0, 2))]
    return made


def drawn_schema(name, levels):
    spec = {"priorityLevelConfiguration": {"name": draw.choice(levels)}, "rules": [rule() for _ in range(draw.randint(0, 3))]}
    if draw.random() < 0.8:
        spec["matchingPrecedence"] = draw.choice([1, 2, 100, 1000, 9000, 10000])
    if draw.random() < 0.7:
        spec["distinguisherMethod"] = {"type": draw.choice(["ByUser", "ByNamespace"])}
    return {"apiVersion": draw.choice(VERSIONS), "kind": "FlowSchema", "metadata": {"name": name}, "spec": spec}


def drawn_level(name):
    version = draw.choice(VERSIONS)
    made = {"apiVersion": version, "kind": "PriorityLevelConfiguration", "metadata": {"name": name, "uid": "7"}}
    if draw.random() < 0.15:
        made["spec"] = {"type": "Exempt"}
        if draw.random() < 0.5:
            made["spec"]["exempt"] = {"nominalConcurrencyShares": draw.choice([0, 7]), "lendablePercent": draw.choice([0, 50, 100])}
        return made
    limited = {}
    if draw.random() < 0.8:
        word = "assuredConcurrencyShares" if version.endswith("v1beta2") else "nominalConcurrencyShares"
        limited[word] = draw.choice([0, 1, 5, 30, 100, 2147483647])
    if draw.random() < 0.6:
        limited["lendablePercent"] = draw.randint(0, 100)
    if draw.random() < 0.5:
        limited["borrowingLimitPercent"] = draw.choice([0, 1, 50, 99, 400, 2147483647])
    limited["limitResponse"] = {"type": "Reject"}
    if draw.random() < 0.7:
        limited["limitResponse"] = {"type": "Queue"}
        if draw.random() < 0.8:
            queuing = {"queues": draw.choice([1, 16, 64, 1024]), "handSize": draw.choice([1, 4, 6, 15]), "queueLengthLimit": draw.choice([1, 50, 10000])}
            for word in draw.sample([*queuing], draw.randint(0, 2)):
                del queuing[word]
            limited["limitResponse"]["queuing"] = queuing
    made["spec"] = {"type": "Limited", "limited": limited}
    return made


def drawn_objects():
    names = ["system", "catch-all", "exempt", "low", "high"]
    there = draw.sample(names, draw.randint(1, 5))
    items = [drawn_level(it) for it in there]
    schemas = ["catch-all", "exempt", "zz", "aa", "probes", "x1", "x2", "x3"]
    items += [drawn_schema(it, [*there, "gone"]) for it in draw.sample(schemas, draw.randint(0, 8))]
    draw.shuffle(items)
    kind = draw.random()
    if kind < 0.7:
        return {"kind": "List", "apiVersion": "v1", "items": items}
    if kind < 0.95:
        one = draw.choice(["FlowSchema", "PriorityLevelConfiguration"])
        items = [it for it in items if it["kind"] == one]
        version = draw.choice(VERSIONS)
        if draw.random() < 0.5:
            for it in items:
                if it["apiVersion"] == version:
                    del it["kind"], it["apiVersion"]
        return {"kind": one + "List", "apiVersion": version, "items": items}
    return items[0]


def places(value, path=()):
    """Each place in a value, the value itself first."""
    yield path
    for key in value if type(value) is dict else range(len(value)) if type(value) is list else ():
        yield from places(value[key], (*path, key))


def spoilt(value):
    """The value with another one at a place, or without what stands there."""
    path = draw.choice([*places(value)][1:])
    holder = value
    for key in path[:-1]:
        holder = holder[key]
    if draw.random() < 0.3:
        del holder[path[-1]]
    else:
        holder[path[-1]] = draw.choice([None, True, False, 0, -1, 1.5, 101, 10001, 2147483648, "", "Queue", "x" * 65, "User", [], [1], ["a", 2], {}, {"name": "a"}])
    return value


def judged(name, value):
    path = files("objects.json", json.dumps(value))
    seats = draw.choice([1, 7, 600, 1000000])
    got = run(program, ["objects", path, "--seats", str(seats)])
    try:
        tally.check(name, got, (0, listing(cluster_of(value), seats).encode(), b""))
    except Fault as fault:
        number, at, key, wanted = fault.args
        status, out, err = got
        line = err.decode()
        tally.check(f"{name}: the fault {number} at {at}: {key}", (status, out, line.startswith(f"apf: objects fault {number}")), (1, b"", True))
        tally.check(f"{name}: the line {line!r} names {at}, {key}, {wanted}", ([f" at object {at}" in line] * (at is not None), key in line, line.rstrip("\n").endswith(wanted)), ([True] * (at is not None), True, True))


# the lists of up to three groups, by their lengths
GROUP_LISTS = [[*map(list, itertools.permutations(GROUPS, count))] for count in range(4)]


def one_of(them):
    """One of a few, which is drawn hundreds of thousands of times."""
    return them[int(draw.random() * len(them))]


def drawn_request():
    asked = {"user": one_of(USERS[:-1]), "groups": one_of(one_of(GROUP_LISTS)), "verb": one_of(VERBS), "path": None}
    if draw.random() < 0.35:
        asked["path"] = one_of(PATHS[:-1])
    else:
        asked.update(group=one_of(APIS), resource=one_of(RESOURCES), namespace=one_of(SPACES))
    return asked


# a text as JSON
quoted = functools.cache(json.dumps)


def event_of(asked):
    who = {"username": asked["user"], "groups": asked["groups"]}
    event = {"kind": "Event", "stage": "ResponseComplete", "verb": asked["verb"], "user": who}
    if draw.random() < 0.1:
        event["user"], event["impersonatedUser"] = {"username": "admin", "groups": ["system:masters"]}, who
    if asked["path"] is not None:
        event["requestURI"] = asked["path"] + draw.choice(["", "?timeout=10s", "?"])
        return event
    resource, _, sub = asked["resource"].partition("/")
    event["objectRef"] = {"resource": resource}
    for key, text in (("subresource", sub), ("apiGroup", asked["group"]), ("namespace", asked["namespace"])):
        if text or draw.random() < 0.2:
            event["objectRef"][key] = text
    event["requestURI"] = "/api/v1/" + resource
    return event


def drawn_list():
    """The file of a drawn list of more than eight objects, and the cluster that they are."""
    while True:
        value = drawn_objects()
        if value["kind"] == "List" and len(value["items"]) > 8:
            return files("objects.json", json.dumps(value)), cluster_of(value)


def matched_line(cluster, number, asked):
    """What is printed of the request of this line of a log."""
    schema = cluster[1][schema_of(cluster[1], asked)]
    return f"{number} {schema['name']} {schema['level']} {quoted(distinguisher_of(schema, asked))}\n"


def same(got, want):
    """An answer, with whether its output is this, which is long, in place of it."""
    status, out, err = got
    return status, out == want, err


# ---- events in bulk

for _ in range(20):
    objects, cluster = drawn_list()
    lines, want = [], []
    for number in range(1, 10001):
        asked = drawn_request()
        event = event_of(asked)
        if draw.random() < 0.02:
            event["stage"] = "RequestReceived"
        else:
            want.append(matched_line(cluster, number, asked))
        lines.append(json.dumps(event) + "\n")
    log = files("log.jsonl", "".join(lines))
    status, out, err = run(program, ["match", objects, "--log", log])
    got = out.decode().splitlines(keepends=True)
    differ = [(a, b, lines[int(b.split()[0]) - 1]) for a, b in zip(got, want) if a != b]
    tally.check("10,000 events", (status, err, len(got), differ[:2]), (0, b"", len(want), []))

# ---- a log that is longer than any file that is read whole, with lines of the largest size, from a file and from a pipe

MOST_LINE = 1_048_576
objects, cluster = drawn_list()
lines, want = [], []
for number in range(1, 25_001):
    asked = drawn_request()
    event = event_of(asked)
    want.append(matched_line(cluster, number, asked))
    line = json.dumps(event)
    lines.append((line.ljust(MOST_LINE) if number % 300 == 0 else line) + "\n")
log = files("log.jsonl", "".join(lines))
tally.check("a log of more than 64 MiB", os.path.getsize(log) > 67_108_864, True)
matched = "".join(want).encode()
tally.check("25,000 events, some of them of 1 MiB", same(run(program, ["match", objects, "--log", log]), matched), (0, True, b""))
with subprocess.Popen([program, "match", objects, "--log", "-"], stdin=subprocess.PIPE, stdout=subprocess.PIPE, stderr=subprocess.PIPE) as process:
    memory = Memory(process)
    threading.Thread(target=lambda: (process.stdin.write("".join(lines).encode()), process.stdin.close()), daemon=True).start()
    told = process.stdout.read(), process.stderr.read()
tally.check("the same from a pipe", same((process.returncode, *told), matched), (0, True, b""))
tally.check(f"it is read in pieces: {memory.most()} KiB", memory.most() < 32_768, True)
last, whole_log = lines[0][:-1], os.path.getsize(log)


def behind(more):
    """The log with this behind its lines, in their file."""
    os.truncate(log, whole_log)
    with open(log, "a") as file:
        file.write(more)
    return log


for name, more, fault in (
    ("a line that is too long", last.ljust(MOST_LINE + 1) + "\n", b"1 at line 25001: the line has more than 1048576 bytes"),
    ("a last line that is too long", last.ljust(MOST_LINE + 1), b"1 at line 25001: the line has more than 1048576 bytes"),
    ("a last line that is much too long", last.ljust(3 * MOST_LINE), b"1 at line 25001: the line has more than 1048576 bytes"),
    ("a line that is no JSON", "x\n" + lines[1], b"2 at line 25001: "),
    ("a line that is no event", '{"verb":"get"}\n' + lines[1], b"3 at line 25001: "),
    ("an event without a user", '{"stage":"ResponseComplete","verb":"get"}\n' + lines[1], b"4 at line 25001: "),
):
    status, out, err = run(program, ["match", objects, "--log", behind(more)])
    tally.check(f"{name}, behind the others", (status, out == matched, err.startswith(b"apf: audit fault " + fault)), (1, True, True))
schema, level, distinguisher = want[0].rstrip("\n").split(" ", 3)[1:]
for name, more, line in (
    ("a last line without LF", last, f"25001 {schema} {level} {distinguisher}\n"),
    ("a last line of the largest size without LF", last.ljust(MOST_LINE), f"25001 {schema} {level} {distinguisher}\n"),
    ("a last line that is still written", last[:40], ""),
):
    got = run(program, ["match", objects, "--log", behind(more)])
    tally.check(name, same(got, matched + line.encode()), (0, True, b""))

# ---- what is found in usual lines, and in others: numbers that are not whole, below 0, and larger than 64 bits hold

WHEN = '"stage":"ResponseComplete","requestURI":"/","requestReceivedTimestamp":"2026-11-25T12:00:00Z","stageTimestamp":"2026-11-25T12:00:00Z"'
FOUND = [
    '{"verb":"get","user":{"username":"u","groups":["a",7,"b"]},"responseStatus":{"code":429},%s}',
    ' {"verb":"watch","user":{"username":"u","groups":["a","b"]},"responseStatus":{"code":1,"code":429},%s,"\\u0076erb":"get"} ',
    '{"verb":"get","user":{"username":"u","groups":["a","b"]},"responseStatus":{"code":429},%s,"more":1.5}',
    '{"verb":"get","user":{"username":"u","groups":["a",-1,"b"]},"responseStatus":{"code":429},%s}',
    '{"verb":"get","user":{"username":"u","groups":["a","b"]},"responseStatus":{"code":429},%s,"more":18446744073709551616}',
]
log = files("log.jsonl", "".join(f"{it % WHEN}\n" for it in FOUND))
for group, schema in (("a", "of-group"), ("b", "of-group"), ("7", "catch-all"), ("-1", "catch-all")):
    rules = [{"subjects": [{"kind": "Group", "group": {"name": group}}], "nonResourceRules": [{"verbs": ["get"], "nonResourceURLs": ["/"]}]}]
    spec = {"priorityLevelConfiguration": {"name": "catch-all"}, "distinguisherMethod": {"type": "ByUser"}, "rules": rules}
    objects = files("objects.json", json.dumps({"apiVersion": VERSIONS[0], "kind": "FlowSchema", "metadata": {"name": "of-group"}, "spec": spec}))
    want = "".join(f'{number} {schema} catch-all "u"\n' for number in range(1, len(FOUND) + 1))
    tally.check(f"lines with the group {group}", run(program, ["match", objects, "--log", log]), (0, want.encode(), b""))
status, out, err = run(program, ["trace", log, "s"])
tally.check("lines with the code 429", (status, out.count(b"\n"), err.startswith(b"apf: 5 of 5 requests were turned away with status 429: ")), (0, len(FOUND), True))

# ---- single requests, with what did not match

for turn in range(300):
    value = drawn_objects()
    objects = files("objects.json", json.dumps(value))
    asked = drawn_request()
    words = ["match", objects, "--user=" + asked["user"], "--verb", asked["verb"]]
    words += ["--group=" + it for it in asked["groups"]]
    if asked["path"] is not None:
        words += ["--path", asked["path"]]
    else:
        words += ["--resource", asked["resource"]]
        words += ["--api-group=" + asked["group"]] * (asked["group"] != "" or turn % 2)
        words += ["--namespace=" + asked["namespace"]] * (asked["namespace"] != "" or turn % 2)
    tally.check(f"{value} {words}", run(program, words), (0, explained(cluster_of(value), asked).encode(), b""))

# ---- objects, good and faulty

for _ in range(200):
    judged("drawn objects", drawn_objects())
for _ in range(1000):
    judged("spoilt objects", spoilt(drawn_objects()))
many = [drawn_level(f"l{i}") for i in range(66)]
judged("64 levels", {"kind": "List", "items": many[:64]})
judged("65 levels", {"kind": "List", "items": many[:65]})
judged("a name twice", {"kind": "List", "items": [many[0], many[1], many[0]]})
lots = [drawn_schema(f"s{i}", ["catch-all", "gone"]) for i in range(1001)]
judged("1,000 objects", {"kind": "List", "items": lots[:1000]})
judged("1,001 objects", {"kind": "List", "items": lots})
judged("no items", {"kind": "List", "items": []})
for value in (5, "x", None, [], {}, {"kind": "Pod"}, {"kind": 5}, {"kind": "List"}, {"kind": "List", "items": {}}):
    judged(f"{value}", value)
for text in ("", "{", '{"kind":"List","items":[]', "\xff"):
    content = text.encode("latin-1")
    path = files("objects.json", content)
    stop = not_json(path, content, NO_OBJECTS, TRACE_AS_OBJECTS)
    tally.check(f"{text!r}", run(program, ["objects", path]), (1, b"", f"apf: objects fault 1: this is not JSON\n{stop}\n".encode()))
big = files("objects.json", b" " * 8388609)
tally.check("more than 8 MiB", run(program, ["objects", big]), (1, b"", b"apf: objects too large: more than 8388608 bytes\n"))

# ---- faults of the command line and of the log

objects = os.path.join(TOP, "examples", "cluster", "objects.json")
NO_REQUEST = b"apf: a request needs --user, --verb and one of --resource and --path, and --api-group and --namespace go with --resource\n"
for words in ([], ["--user", "a"], ["--user", "a", "--verb", "get"], ["--verb", "get", "--path", "/"], ["--user", "a", "--verb", "get", "--path", "/", "--resource", "pods"],
              ["--user", "a", "--verb", "get", "--path", "/", "--namespace", "x"], ["--user", "a", "--verb", "get", "--path", "/", "--api-group", "x"]):
    tally.check(f"match {words}", run(program, ["match", objects, *words]), (2, b"", NO_REQUEST))
for option in ("user", "group", "verb", "resource", "api-group", "namespace", "path"):
    tally.check(f"a log and --{option}", run(program, ["match", objects, "--log", "x", f"--{option}", "a"]), (2, b"", b"apf: --log goes with no other option\n"))
for seats in ("0", "1000001", "x"):
    status, out, err = run(program, ["objects", objects, "--seats", seats])
    tally.check(f"--seats {seats}", (status, out, b"--seats" in err), (2, b"", True))
for text, number in (("x\n", 2), ("x", 2), ("\0{", 2), ("5\n", 3), ('{"stage":"ResponseComplete","verb":"get"}\n', 4), ('{"stage":"ResponseComplete","verb":"get","user":{}}\n', 4)):
    status, out, err = run(program, ["match", objects, "--log", files("log.jsonl", text)])
    tally.check(f"{text!r}", (status, out, err.startswith(b"apf: audit fault %d at line 1" % number)), (1, b"", True))

tally.end()
