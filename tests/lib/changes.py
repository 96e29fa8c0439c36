"""What `--set KEY=VALUE` changes of a cluster: an independent reading of these texts, and of what comes of them.

The levels are those of clusters.py, of which one may have a fixed nominal limit. Beside what matching.py asks of a schema each has a `precedence`.
"""

import re

from jsontext import json_text
from lending import bounds_of

# the faults, by their numbers
NO_VALUE, UNKNOWN_KEY, BAD_VALUE, NO_LEVEL, NO_SCHEMA, DANGLING, EXEMPT, NO_QUEUES, NO_NUMBER, OUT_OF_BOUNDS = range(1, 11)
# the most that is taken of each
SEATS, RATE, SHARES, PRECEDENCE = 1_000_000, 1_000, 2_147_483_647, 10_000
# the numbers of a level: its key here, or its place among the numbers of the queues; and between which numbers it is
NUMBERS = {"shares": ("shares", 0, SHARES), "lendable": ("lendable", 0, 100), "borrowing": ("borrowing", 0, SHARES)}
QUEUES = {"queues": (0, 1, 1024), "hand": (1, 1, 15), "length": (2, 1, 10_000)}
USUAL_QUEUES = 64, 8, 50
# how a number is meant, and the number; a rate has an `x` behind one that is meant as it stands
NUMBER, RATE_TEXT = re.compile("([*+]?)([0-9]+)"), re.compile("([*+]?)([0-9]+)(x?)")


class BadChange(Exception):
    """Why a change is refused: the number of the fault; what may stand there, or which number is not between which."""

    def __init__(self, number, *what):
        self.number, self.what = number, what
        super().__init__(number, *what)


def amount_of(text, wanted="number"):
    """How a number is meant, and the number."""
    found = (RATE_TEXT if wanted == "rate" else NUMBER).fullmatch(text)
    if not found or int(found[2]) >= 1 << 32:
        raise BadChange(BAD_VALUE, wanted)
    # a rate is `0`, or has either a sign in front of it or an `x` behind it
    if wanted == "rate" and text != "0" and bool(found[1]) == bool(found[3]):
        raise BadChange(BAD_VALUE, wanted)
    return found[1], int(found[2])


def meant(amount, stands, low, high):
    """The number that is meant where this one stands."""
    how, number = amount
    if how and stands is None:
        raise BadChange(NO_NUMBER)
    number = {"": number, "*": number * (stands or 0), "+": number + (stands or 0)}[how]
    if not low <= number <= high:
        raise BadChange(OUT_OF_BOUNDS, number, low, high)
    return number


def one_of(value, wanted, **those):
    if value not in those:
        raise BadChange(BAD_VALUE, wanted)
    return those[value]


class Scenario:
    """A cluster of a server with this many seats: its levels, its schemas in their order, and those that dangle. Changes are made to a copy."""

    def __init__(self, levels, schemas, seats):
        names = {it["name"] for it in levels}
        self.levels = [{**it} for it in levels]
        self.schemas = [{**it} for it in schemas if it["level"] in names]
        self.dangling = [{**it} for it in schemas if it["level"] not in names]
        self.seats, self.rates = seats, {"user": {}, "schema": {}}
        self.put_in_order()

    def put_in_order(self):
        self.schemas.sort(key=lambda it: (it["precedence"], it["name"].encode()))

    def rate_of(self, user, schema):
        """How often a request comes."""
        return self.rates["user"].get(user, 1) * self.rates["schema"].get(schema, 1)

    # what is named

    def level(self, name):
        for it in self.levels:
            if it["name"] == name:
                return it
        raise BadChange(NO_LEVEL)

    def schema(self, name, may_dangle=False):
        """A schema, and whether it dangles."""
        for those in (self.schemas, self.dangling):
            for it in those:
                if it["name"] == name:
                    if those is self.dangling and not may_dangle:
                        raise BadChange(DANGLING)
                    return it
        raise BadChange(NO_SCHEMA)

    # the changes

    def change(self, text):
        """Makes the change of a text."""
        self.asked(text)()

    def asked(self, text):
        """What makes the change of a text, which is judged as a text only."""
        key, equals, value = text.rpartition("=")
        if not equals:
            raise BadChange(NO_VALUE)
        name, dot, setting = key.rpartition(".")
        if not dot:
            raise BadChange(UNKNOWN_KEY)
        if key == "server.seats":
            amount = amount_of(value)
            return lambda: self.set_seats(amount)
        if name.startswith("schema:"):
            return self.asked_of_schema(name.removeprefix("schema:"), setting, value)
        if name.startswith("user:"):
            if setting != "rate":
                raise BadChange(UNKNOWN_KEY)
            amount = amount_of(value, "rate")
            return lambda: self.set_rate("user", name.removeprefix("user:"), amount)
        return self.asked_of_level(name, setting, value)

    def asked_of_schema(self, name, setting, value):
        if setting == "level":
            return lambda: self.set_level(name, value)
        if setting == "by":
            by = one_of(value, "by", user="user", namespace="namespace", none="nothing")
            return lambda: self.schema(name).update(by=by)
        if setting not in ("precedence", "rate"):
            raise BadChange(UNKNOWN_KEY)
        if setting == "precedence":
            amount = amount_of(value)
            return lambda: self.set_precedence(name, amount)
        amount = amount_of(value, "rate")
        return lambda: self.schema(name) and self.set_rate("schema", name, amount)

    def asked_of_level(self, name, setting, value):
        if setting == "response":
            response = one_of(value, "response", Queue="Queue", Reject="Reject")
            return lambda: self.set_response(name, response)
        if (setting, value) == ("borrowing", "none"):
            return lambda: self.limited(name).update(borrowing=None)
        if setting not in ("seats", *NUMBERS, *QUEUES):
            raise BadChange(UNKNOWN_KEY)
        amount = amount_of(value, "number or none" if setting == "borrowing" else "number")
        return lambda: self.set_number(name, setting, amount)

    def set_seats(self, amount):
        self.seats = meant(amount, self.seats, 1, SEATS)

    def set_rate(self, kind, name, amount):
        rates = self.rates[kind]
        rates[name] = meant(amount, rates.get(name, 1), 0, RATE)

    def set_precedence(self, name, amount):
        schema = self.schema(name)
        schema["precedence"] = meant(amount, schema["precedence"], 1, PRECEDENCE)
        self.put_in_order()

    def set_level(self, name, level):
        schema = self.schema(name, may_dangle=True)
        schema["level"] = self.level(level)["name"]
        if schema in self.dangling:
            self.dangling.remove(schema)
            self.schemas.append(schema)
            self.put_in_order()

    def limited(self, name):
        level = self.level(name)
        if level["exempt"]:
            raise BadChange(EXEMPT)
        return level

    def set_response(self, name, response):
        level = self.limited(name)
        level["queuing"] = (level["queuing"] or USUAL_QUEUES) if response == "Queue" else None

    def set_number(self, name, setting, amount):
        level = self.level(name)
        if setting == "seats":
            level["fixed"] = meant(amount, bounds_of(level, self.levels, self.seats).nominal, 0, SEATS)
        elif setting in QUEUES:
            place, low, high = QUEUES[setting]
            queuing = self.limited(name)["queuing"]
            if not queuing:
                raise BadChange(NO_QUEUES)
            number = meant(amount, queuing[place], low, high)
            level["queuing"] = (*queuing[:place], number, *queuing[place + 1 :])
        else:
            key, low, high = NUMBERS[setting]
            if setting == "borrowing":
                self.limited(name)
            level[key] = meant(amount, level[key], low, high)


# ---- what is said of a change that is refused

KEYS = (
    "LEVEL.shares, .lendable, .borrowing, .queues, .hand, .length, .response or .seats, schema:NAME.precedence, .level, .by or .rate, user:NAME.rate, or"
    " server.seats"
)
SIGNED = "a whole number below 4294967296{}, or one behind * or +, as *2 or +{}"
VALUES = {
    "number": SIGNED.format(", as 20", 20),
    "number or none": SIGNED.format(", as 20", 20) + ", or none",
    "rate": "0, or " + SIGNED.format(" with x behind it, as 2x", 1),
    "response": "Queue or Reject",
    "by": "user, namespace or none",
}
MEANT = {
    "shares": "the number of the level's shares",
    "lendable": "how many per cent of its nominal limit the level lends at most",
    "borrowing": "how many per cent of its nominal limit the level borrows at most",
    "queues": "the number of the level's queues",
    "hand": "the number of queues that a flow is dealt",
    "length": "the number of requests that may wait in a queue",
    "precedence": "the precedence of the schema",
}


def reason_of(text, bad):
    """Why the change of a text is refused, in words."""
    key, _, value = text.rpartition("=")
    name, _, setting = key.rpartition(".")
    kind, _, its = name.partition(":")
    named = json_text(its if kind in ("schema", "user") and its else name)
    if bad.number == NO_VALUE:
        return "there is no =: it must be KEY=VALUE"
    if bad.number == UNKNOWN_KEY:
        return f"there is no key {json_text(key)}: it must be {KEYS}"
    if bad.number == BAD_VALUE:
        return f"{json_text(key)[1:-1]} is {json_text(value)}: it must be {VALUES[bad.what[0]]}"
    if bad.number == NO_LEVEL:
        return f"there is no level {json_text(value) if setting == 'level' else named}: apf objects lists those of a cluster"
    if bad.number == NO_SCHEMA:
        return f"there is no schema {named}: apf objects lists those of a cluster"
    if bad.number == DANGLING:
        return f"the level of the schema {named} is not there: only its level can be changed"
    if bad.number == EXEMPT:
        return f"the level {named} is exempt: only its shares, lendable and seats can be changed"
    if bad.number == NO_QUEUES:
        return f"the level {named} rejects, so it has no queues: with the response Queue it has some"
    if bad.number == NO_NUMBER:
        return f"the level {named} borrows without a limit, so there is no number for * and +: it must be a whole number, or none"
    number, low, high = bad.what
    of = {"rate": f"how often a request of the {kind} comes", "seats": "the number of the server's seats" if key == "server.seats" else "the nominal limit of the level"}
    return f"{of.get(setting) or MEANT[setting]} would be {number}: it must be a whole number from {low} to {high}"


def refusal_of(text, bad):
    return f"apf: --set {json_text(text)[1:-1]}: {reason_of(text, bad)}\n".encode()
