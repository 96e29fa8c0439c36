"""Clusters and their logs for tests: drawn ones, and what `apf cluster` says of them by the independent matcher, one independent level for each level of a
cluster, and the independent lending of seats. A second cluster stands beside the first where requests are read by the schemas of both."""

import json

from audit import Choice, Flow, Handed, namespace_of, notes, read_of, text_at
from audits import NOON, Logs, time_text
from jsontext import json_text
from lending import MOST, PERIOD, Lender, bounds_of, limit_of
from level import hash_of
from matching import distinguisher_of, schema_of
from simulation import Run, nearest_rank, shown_rank

API = "flowcontrol.apiserver.k8s.io/v1"
SECOND, HALF = 1_000_000, PERIOD // 2
# who comes in drawn logs where nobody else is named
USERS = "abcd"


# ---- what is drawn


def level_of(name, shares, queuing=None, exempt=False, lendable=0, borrowing=None):
    """A level as the reader of objects has it: its name, whether it is exempt, its shares, what it lends and borrows in per cent, without a limit where
    the second is None, and queues, hand and length where requests wait."""
    return {"name": name, "exempt": exempt, "shares": shares, "queuing": queuing, "lendable": lendable, "borrowing": borrowing}


def level_object(level):
    part = {"nominalConcurrencyShares": level["shares"], "lendablePercent": level["lendable"]}
    if level["exempt"]:
        spec = {"type": "Exempt", "exempt": part}
    else:
        part["limitResponse"] = {"type": "Reject"}
        if level["queuing"]:
            part["limitResponse"] = {"type": "Queue", "queuing": dict(zip(("queues", "handSize", "queueLengthLimit"), level["queuing"]))}
        if level["borrowing"] is not None:
            part["borrowingLimitPercent"] = level["borrowing"]
        spec = {"type": "Limited", "limited": part}
    return {"apiVersion": API, "kind": "PriorityLevelConfiguration", "metadata": {"name": level["name"]}, "spec": spec}


def schema_object(schema):
    kinds = {"User": lambda name: {"kind": "User", "user": {"name": name}}, "Group": lambda name: {"kind": "Group", "group": {"name": name}}}
    rules = [
        {
            "subjects": [kinds[kind](name) for kind, name in subjects],
            "resourceRules": [
                {"verbs": verbs, "apiGroups": groups, "resources": names, "clusterScope": scope, "namespaces": spaces}
                for verbs, groups, names, scope, spaces in resources
            ],
            "nonResourceRules": [{"verbs": verbs, "nonResourceURLs": urls} for verbs, urls in paths],
        }
        for subjects, resources, paths in schema["rules"]
    ]
    spec = {"priorityLevelConfiguration": {"name": schema["level"]}, "matchingPrecedence": schema["precedence"], "rules": rules}
    if schema["by"] != "nothing":
        spec["distinguisherMethod"] = {"type": {"user": "ByUser", "namespace": "ByNamespace"}[schema["by"]]}
    return {"apiVersion": API, "kind": "FlowSchema", "metadata": {"name": schema["name"]}, "spec": spec}


# what takes each request
EVERYTHING = [(["*"], ["*"], ["*"], True, ["*"])], [(["*"], ["*"])]


def whole_cluster(levels, schemas, order=lambda schemas: None):
    """The objects, the levels with the server's own, and the schemas between the server's own, with their precedences."""
    schemas = [{"precedence": 2 + place, **it} for place, it in enumerate(schemas)]
    given = [*map(schema_object, schemas)]
    order(given)
    objects = {"kind": "List", "items": [*map(level_object, levels), *given]}
    names = [it["name"] for it in levels]
    own = [level_of("exempt", 0, exempt=True), level_of("catch-all", 5)]
    # nobody is in the group that the server's own schema `exempt` takes; `catch-all` takes what no other does
    first = {"name": "exempt", "level": "exempt", "precedence": 1, "by": "nothing", "rules": [([("Group", "system:masters")], *EVERYTHING)]}
    groups = [("Group", "system:authenticated"), ("Group", "system:unauthenticated")]
    last = {"name": "catch-all", "level": "catch-all", "precedence": 10_000, "by": "user", "rules": [(groups, *EVERYTHING)]}
    return objects, [*levels, *(it for it in own if it["name"] not in names)], [first, *schemas, last]


def log_of(coming):
    """A log in which so many requests of a user come at a time, and run so long, both in seconds."""
    said = []
    for user, count, second, run_for in coming:
        begin, end = (time_text(NOON + round(it * 1_000_000)) for it in (second, second + run_for))
        who = {"username": user, "groups": ["system:authenticated"]}
        event = {"stage": "ResponseComplete", "verb": "list", "user": who, "requestReceivedTimestamp": begin, "stageTimestamp": end}
        said.append(f"{json.dumps(event)}\n" * count)
    return "".join(said)


class Clusters:
    """Draws of one seed."""

    def __init__(self, draw):
        self.draw, self.logs = draw, Logs(draw)

    def lending(self):
        """What a level lends and borrows."""
        return {"lendable": self.draw.choice([0, 0, 33, 50, 90, 100]), "borrowing": self.draw.choice([None, None, 0, 25, 150, 2_147_483_647])}

    def levels(self):
        levels = []
        for name in self.draw.sample(["low", "high", "node", "system", 'o"\u202e'], self.draw.randint(1, 4)):
            queuing = self.draw.choice([None, (1, 1, 1), (8, 2, 3), (64, 6, 2), (16, 4, 50), (1024, 6, 10_000)])
            exempt = self.draw.random() < 0.1
            shares = self.draw.choice([0, 1, 5, 30, 100])
            levels.append(level_of(name, shares, None if exempt else queuing, exempt, **self.lending()))
        return levels

    def schemas(self, levels):
        """Schemas in their order, of users, groups, resources and paths of few names."""
        draw, schemas = self.draw, []
        for number in range(draw.randint(0, 6)):
            subjects = [draw.choice([("User", draw.choice("abcd*")), ("Group", draw.choice(["g", "h", "*"]))]) for _ in range(draw.randint(1, 2))]
            verbs = draw.choice([["*"], ["get"], ["list", "create"]])
            places = draw.choice([[], ["x"], ["*"]])
            resources = [(verbs, ["*"], [draw.choice(["pods", "nodes", "*"])], draw.random() < 0.5, places) for _ in range(draw.randint(0, 2))]
            paths = [(verbs, [draw.choice(["/healthz", "/api*", "*"])]) for _ in range(draw.randint(0, 2))]
            by = draw.choice(["user", "namespace", "nothing"])
            schemas.append({"name": f"s{number}", "level": draw.choice(levels)["name"], "by": by, "rules": [(subjects, resources, paths)]})
        return schemas

    def cluster(self):
        levels = self.levels()
        return whole_cluster(levels, self.schemas(levels), self.draw.shuffle)

    def event(self, received, run_for, user):
        """An event, which may be turned away, have no user's name, or not be taken."""
        draw = self.draw
        event = self.logs.event((NOON + received, run_for, user, None))
        event["verb"] = draw.choice(["get", "list", "create", "delete"])
        groups = draw.choice([[], ["g"], ["h", "g"], ["system:authenticated"]])
        for who in ("user", "impersonatedUser"):
            if isinstance(event.get(who), dict):
                event[who]["groups"] = groups
        kind = draw.random()
        if kind < 0.2:
            event["responseStatus"] = {"code": 429}
        elif kind < 0.23:
            event.pop("impersonatedUser", None)
            event["user"] = {}
        elif kind < 0.26:
            event["stage"] = "RequestReceived"
        event["objectRef"] = {"resource": draw.choice(["pods", "nodes"]), **draw.choice([{}, {"namespace": "x"}, {"namespace": "y"}])}
        if draw.random() < 0.2:
            del event["objectRef"]
            event["requestURI"] = draw.choice(["/healthz", "/api/v1?x=?", "/version"])
        return event

    def lines(self, events):
        """A log with these events, each of which may come late, and which may still be written."""
        lines = [self.logs.line(it) + b"\n" for it in events]
        for place in range(len(lines) - 1):
            if self.draw.random() < 0.1:
                lines[place], lines[place + 1] = lines[place + 1], lines[place]
        if lines and self.draw.random() < 0.1:
            lines.append(b'{"stage":"ResponseComp')
        return b"".join(lines)

    def log(self, paces, users=USERS):
        """A log of these users, with one of these paces."""
        draw, pace = self.draw, self.draw.choice(paces)
        time, events = 0, []
        for _ in range(draw.choice([0, 1, 20, 150, 400])):
            time += draw.choice([0, 0, 1, pace // 2, pace])
            run_for = draw.choice([0, 1, pace, 10 * pace, draw.randrange(20 * pace)])
            events.append(self.event(time, run_for, draw.choice(users)))
        return self.lines(events)

    def lending_cluster(self):
        """A cluster with a level for each user, where two may share one, and whose names are some of a server's own."""
        draw = self.draw
        names, levels = draw.sample(["low", "high", "node", "exempt", "catch-all"], draw.randint(2, 4)), []
        if draw.random() < 0.03:
            # as many as there may be
            names += [f"level-{number}" for number in range(64 - len(names))]
        for name in names:
            exempt = name == "exempt" or (name != "catch-all" and draw.random() < 0.1)
            queuing = draw.choice([None, (8, 2, 3), (4, 2, 50), (64, 6, 2), (16, 4, 50), (1, 1, 1000)])
            shares = draw.choice([1, 5, 30, 30, 30, 100])
            levels.append(level_of(name, shares, None if exempt else queuing, exempt, **self.lending()))
        if draw.random() < 0.5 and "catch-all" not in names and len(names) < 64:
            levels.append(level_of("catch-all", 0))
        schemas = []
        for user in USERS:
            by = draw.choice(["user", "namespace", "nothing"])
            schemas.append({"name": f"of-{user}", "level": draw.choice(levels)["name"], "by": by, "rules": [([("User", user)], *EVERYTHING)]})
        return whole_cluster(levels, schemas, draw.shuffle)

    def moving_log(self):
        """A log of up to a minute, and now and then of more: each user comes in a few stretches. Of some all begins and ends with a period, or halfway."""
        draw = self.draw
        length, is_even = draw.choice([0, 3, 12, 30, 60]) * SECOND, draw.random() < 0.4
        coming = [(0, draw.choice([0, SECOND, 12 * SECOND]), draw.choice(USERS))]
        for user in USERS:
            for _ in range(draw.choice([0, 1, 1, 2, 3])):
                # in front of some stretches nobody comes for some periods
                time = draw.randrange(length + 1) + draw.choice([0, 0, 0, 0, 40 * SECOND])
                gap = draw.choice([0, 1, 1000, 100_000, SECOND])
                run_for = draw.choice([0, 50_000, SECOND, 5 * SECOND, 10 * SECOND, 15 * SECOND])
                if is_even:
                    time, gap, run_for = HALF * round(time / HALF), draw.choice([0, HALF]), HALF * draw.randrange(4)
                for _ in range(draw.choice([1, 5, 20, 40])):
                    coming.append((time, draw.choice([run_for, run_for, 0 if is_even else draw.randrange(run_for + 1)]), user))
                    time += draw.choice([0, gap, 2 * gap])
        return self.lines(self.event(*it) for it in sorted(coming))


# ---- the independent cluster


def asked_of(event, user):
    """What an event of this user says of its request."""
    who = event["impersonatedUser"] if "impersonatedUser" in event else event["user"]
    groups = [it for it in who["groups"] if isinstance(it, str)] if isinstance(who.get("groups"), list) else []
    asked = {"user": user, "groups": groups, "verb": event["verb"], "path": None}
    if "objectRef" not in event:
        asked["path"] = (text_at(event, "requestURI") or "").split("?")[0]
        return asked
    parts = [text_at(event, "objectRef", key) or "" for key in ("resource", "subresource", "apiGroup", "namespace")]
    asked.update(resource="/".join(parts[:2]) if parts[1] else parts[0], group=parts[2], namespace=parts[3])
    return asked


def config_of(level, nominal):
    limit = MOST if level["exempt"] else limit_of(nominal)
    if level["exempt"] or not level["queuing"]:
        return {"limit": limit, "queues": 1, "handSize": 1, "queueLengthLimit": 1, "limitResponse": "Reject"}
    queues, hand, length = level["queuing"]
    return {"limit": limit, "queues": queues, "handSize": hand, "queueLengthLimit": length, "limitResponse": "Queue"}


def request_of(received, run_for, flow, width=1):
    """A request as a line of a trace has it."""
    names = flow.schema, str(flow)
    return {"arrivesAt": received, "runsFor": run_for, "flow": names, "hash": hash_of(*names), "names": names, "width": width, "cost": None}


class Part:
    """What the requests of a level came to: its run, and the limits that it had, none if it is exempt. Those are counted that come from a time on, with how
    many of them the log's server turned away. A run is one of the independent level, or of another one that is used as that is."""

    def __init__(self, level, nominal, requests, start, patience, until, since=0, runs=Run):
        self.level, self.nominal, self.since = level, nominal, since
        self.turned_away = sum(away for received, *_, away in requests if received - start >= since)
        trace = [request_of(it[0] - start, it[1], it[2], it.width) for it in requests]
        self.run = runs(config_of(level, nominal), trace, patience, "time", until)
        self.limits = [] if level["exempt"] else [limit_of(nominal)]
        self.counted = [it for it, request in enumerate(trace) if request["arrivesAt"] >= since]
        self.lines = [it.line for it in requests]

    def flows(self):
        """The counted requests of each flow, in the order of their first lines."""
        of = {}
        for it in sorted(self.counted, key=lambda it: self.lines[it]):
            of.setdefault(self.run.trace[it]["hash"], []).append(it)
        return [*of.values()]

    def over(self, it):
        """When a request was over: when it had run, or given up, or was rejected."""
        run, asked = self.run, self.run.trace[it]
        return run.started[it] + asked["runsFor"] if it in run.started else run.waited_until.get(it, asked["arrivesAt"])

    def limits_since(self):
        """The limits that it had from that time on. They are set at the end of each period."""
        return self.limits[min(self.since // PERIOD, len(self.limits) - 1) :] if self.limits else []

    def figures(self, members):
        run = self.run
        decisions = [run.level.decided[it] for it in members]
        executed, cancelled = decisions.count("execute"), decisions.count("cancelled")
        waits = [run.wait(it) for it in members if it in run.started]
        return {
            "requests": len(members),
            "executed": executed,
            "rejected": len(members) - executed - cancelled,
            "timedOut": cancelled,
            "seatTime": sum(map(run.seat_time, members)),
            "waits": waits,
            "waited": sum(map(run.wait, members)),
            "longest": max(waits, default=0),
        }

    def whole(self):
        return self.figures(self.counted)


def flow_by(schemas, event, asked):
    """The schema of a request and its distinguisher, or None where its namespace is asked for and is no name."""
    schema = schemas[schema_of(schemas, asked)]
    if schema["by"] == "namespace" and namespace_of(event) is None:
        return None
    return Flow(schema["name"], distinguisher_of(schema, asked))


def read_by(schemas, content, others=None):
    """What is read of a log, each request with its schema and its distinguisher; and with its user and the same by these others, if there are some."""

    def by(event, user):
        asked = asked_of(event, user)
        flow = flow_by(schemas, event, asked)
        if flow is not None and others is not None:
            flow.user, flow.beside = user, flow_by(others, event, asked)
        return None if flow is None or (others is not None and flow.beside is None) else flow

    return read_of(content, Choice(by=by))


def beside(read, scenario):
    """What was read of a log as it comes to a second cluster: each request as often as is said of its user and its schema."""
    requests = []
    for handed in read.requests:
        received, run_for, flow, away = handed
        requests += [Handed(handed.line, (received, run_for, flow.beside, away), handed.width)] * scenario.rate_of(flow.user, flow.beside.schema)
    return read._replace(requests=requests)


def parts_of(levels, schemas, read, seats, patience, lends, start=None, since=0, runs=Run):
    """What the levels come to by what was read of a log, each with its nominal limit all along, or with seats that are lent; and who lends them. The times
    are those since the first request of the log."""
    if start is None:
        start = read.requests[0][0] if read.requests else 0
    of = {it["name"]: it["level"] for it in schemas}
    parts = []
    for level in levels:
        mine = [it for it in read.requests if of[it[2].schema] == level["name"]]
        parts.append(Part(level, bounds_of(level, levels, seats).nominal, mine, start, patience, (0,) if lends else None, since, runs))
    if not lends:
        return parts, None
    lender = Lender(levels, [it.run for it in parts], seats)
    for part, limits in zip(parts, lender.limits):
        part.limits = limits
    return parts, lender


# ---- what is printed


def unit(time):
    if time < 1000:
        return f"{time}us"
    return f"{time // 1000}ms" if time < 10_000_000 else f"{time // 1_000_000}s"


def shown(waits, percent):
    rank = shown_rank(waits, percent)
    return "~" * rank.startswith("~") + unit(int(rank.lstrip("~")))


def counts(figures):
    return [figures[key] for key in ("requests", "executed", "rejected", "timedOut")]


def times(figures):
    return [shown(figures["waits"], 50), shown(figures["waits"], 99), unit(figures["longest"])]


def name_text(name):
    return json_text(name)[1:-1]


def told_flows(parts):
    """The flows that waited or were turned away, those first that waited longest, each with its part and its names."""
    found = []
    for place, part in enumerate(parts):
        for number, members in enumerate(part.flows()):
            figures = part.figures(members)
            lost = figures["rejected"] + figures["timedOut"]
            if figures["waited"] or lost:
                found.append(((-figures["longest"], -lost, place, number), part, figures, part.run.trace[members[0]]["names"]))
    return [it[1:] for it in sorted(found, key=lambda it: it[0])]


def limits_text(limits):
    """The least and the greatest limit that a level had."""
    if not limits:
        return "-"
    return f"{limits[0]}" if len({*limits}) == 1 else f"{min(limits)}..{max(limits)}"


LEVEL_NAMES = "level nominal limits requests executed rejected timed-out log-429s used median p99 longest"
FLOW_NAMES = "flow-of requests executed rejected timed-out median p99 longest schema distinguisher"


def end_of(parts):
    """When all that is counted was over."""
    return max((part.over(it) for part in parts for it in part.counted), default=0)


def level_columns(part, end):
    """What stands behind the name of a level, where all was over at this time."""
    figures = part.whole()
    possible = 0 if part.level["exempt"] else limit_of(part.nominal) * max(end - part.since, 0)
    used = f"{100 * figures['seatTime'] // possible}%" if possible else "-"
    return [*map(str, [part.nominal, limits_text(part.limits_since()), *counts(figures), part.turned_away]), used, *times(figures)]


def flow_columns(figures):
    """What stands between the name of a flow's level and its own names."""
    return [*map(str, counts(figures)), *times(figures)]


def unsaid(parts, server=()):
    """The lines of what the server's own log says, if there are some, and of what an audit log does not say, where the log's server turned so many requests
    away."""
    away = sum(it.turned_away for it in parts)
    said = [] if server else ["how many seats a request takes (here one)"]
    said.append("how long a request runs where the server does other work (here as long as in the log)")
    if away:
        said.append(f"how long {away} requests that were turned away would run (here the median of those of their distinguisher)")
    said.append("which clients would try again (here those whose second requests are in the log)")
    said.append("requests that the audit policy leaves out")
    return ["", *server, *(f"not in the log: {it}" for it in said)]


def table(parts, flows, server=()):
    end = end_of(parts)
    said = [LEVEL_NAMES, *(" ".join([name_text(it.level["name"]), *level_columns(it, end)]) for it in parts)]
    told = told_flows(parts)[:flows]
    if told:
        said += ["", FLOW_NAMES]
    for part, figures, names in told:
        said.append(" ".join([name_text(part.level["name"]), *flow_columns(figures), *map(json_text, names)]))
    return "".join(f"{it}\n" for it in [*said, *unsaid(parts, server)])


def as_json(figures):
    waits = figures["waits"]
    kept = {key: figures[key] for key in ("requests", "executed", "rejected", "timedOut", "seatTime")}
    return {**kept, "exact": len(waits) <= 10_000, "median": nearest_rank(waits, 50), "p99": nearest_rank(waits, 99), "longest": figures["longest"]}


def level_members(part):
    had = part.limits_since()
    limits = {"leastLimit": min(had), "greatestLimit": max(had)} if had else {}
    return {"level": part.level["name"], "nominal": part.nominal, **limits, "log429s": part.turned_away, **as_json(part.whole())}


def flow_members(part, figures, names):
    return {"flowOf": part.level["name"], "schema": names[0], "distinguisher": names[1], **as_json(figures)}


def objects_of(parts, flows):
    """Each object as its keys and values, in their order."""
    said = [*map(level_members, parts), *(flow_members(*it) for it in told_flows(parts)[:flows])]
    return [[*it.items()] for it in said]


def objects_in(out):
    """The same, as a program printed them."""
    return [[*json.loads(line).items()] for line in out.splitlines()]


# ---- what is printed of two clusters


def of_both(one, other, columns):
    """The columns of both clusters, where one of them may lack what they tell of."""
    lacking = ["-"] * columns
    return [it if it == too else f"{it}>{too}" for it, too in zip(one or lacking, other or lacking)]


class Told:
    """A flow of a cluster: its place, its part, its figures and its names."""

    def __init__(self, place, part, figures, names):
        self.place, self.part, self.figures, self.names = place, part, figures, names
        self.longest, self.lost = figures["longest"], figures["rejected"] + figures["timedOut"]
        self.is_told = bool(figures["waited"] or self.lost)


def flows_in(parts):
    """All flows of a cluster, by their names."""
    found = {}
    for place, part in enumerate(parts):
        for number, members in enumerate(part.flows()):
            names = part.run.trace[members[0]]["names"]
            found[names] = Told((place, number), part, part.figures(members), names)
    return found


def change_of(one, other, key):
    return abs((getattr(one, key) if one else 0) - (getattr(other, key) if other else 0))


def told_pairs(first, second):
    """The flows of both clusters that waited or were turned away on one of them, those first that change most. None is in the place of one that is not
    there."""
    ones, others = flows_in(first), flows_in(second)
    found = []
    for names in {**ones, **others}:
        one, other = ones.get(names), others.get(names)
        if any(it and it.is_told for it in (one, other)):
            places = [(it is None, it.place if it else ()) for it in (one, other)]
            found.append(((-change_of(one, other, "longest"), -change_of(one, other, "lost"), *places), one, other))
    return [it[1:] for it in sorted(found, key=lambda it: it[0])]


def level_pairs(first, second):
    """The parts of the levels of both clusters, in the order in which they are told."""
    ones, others = ({it.level["name"]: it for it in parts} for parts in (first, second))
    return [(ones.get(name), others.get(name)) for name in {**ones, **others}]


def both_tables(first, second, flows, server=()):
    said, ends = [LEVEL_NAMES], (end_of(first), end_of(second))
    for pair in level_pairs(first, second):
        name = name_text(next(it for it in pair if it).level["name"])
        said.append(" ".join([name, *of_both(*(it and level_columns(it, end) for it, end in zip(pair, ends)), 11)]))
    told = told_pairs(first, second)[:flows]
    if told:
        said += ["", FLOW_NAMES]
    for pair in told:
        levels = dict.fromkeys(name_text(it.part.level["name"]) for it in pair if it)
        columns = of_both(*(it and flow_columns(it.figures) for it in pair), 7)
        said.append(" ".join([">".join(levels), *columns, *map(json_text, next(it for it in pair if it).names)]))
    return "".join(f"{it}\n" for it in [*said, *unsaid(first, server)])


def both_objects(first, second, flows):
    """Each object, with its keys in their order."""
    said = [{"cluster": number, **level_members(it)} for number, parts in enumerate((first, second), 1) for it in parts]
    for pair in told_pairs(first, second)[:flows]:
        said += [{"cluster": number, **flow_members(it.part, it.figures, it.names)} for number, it in enumerate(pair, 1) if it]
    return said


def notes_of(read):
    return notes(read.unnamed, read.is_cut).encode()
