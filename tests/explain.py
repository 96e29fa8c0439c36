"""What `apf explain` says of the first fault of a level's files: each line by hand, 500 faulty triples of files against an independent
model, names, standard input, files that can't be read or are too large, output that can't be written, and each allocation refused in turn."""

import os
import random
import re
import subprocess
import sys

HERE = os.path.dirname(os.path.abspath(__file__))
sys.path.insert(0, os.path.join(HERE, "lib"))
from explain import ABSENT, FOLDER, FORMS, answer, cant_read, found, float_text, quoted, too_large
from harness import Files, Tally, build, run
from judge import MOST
from maker import CONFIG, REQUESTS, SCRIPT, WHOLE, with_spoiled
from refusing import Refusing, shim

tally = Tally()
program = build()
files = Files()
# the same draws each time; APF_SEED draws others
draw = random.Random(int(os.environ.get("APF_SEED", "1040")))
FAULTY = int(os.environ.get("APF_FAULTY", "500"))
NAMES = ["config.json", "requests.json", "script.txt"]


def explain(contents, names=NAMES, **how):
    """The answer on files of these bytes, named as they stand in the folder that it is run in; the one named `-` comes from standard input."""
    given = b""
    for name, content in zip(names, contents):
        if name == "-":
            given = content
        else:
            files(name, content)
    done = subprocess.run([program, "explain", *names], input=given, stdout=subprocess.PIPE, stderr=subprocess.PIPE, cwd=files.folder.name, timeout=120, **how)
    return done.returncode, done.stdout, done.stderr


def with_file(place, content):
    contents = [*WHOLE]
    contents[place] = content
    return contents


# ---- each line by hand: the file in the place of a good one, the line on standard output, and the one on standard error

UNKNOWN = "a config has limit, queues, handSize, queueLengthLimit and limitResponse"
STRANGE = "a request has schema, distinguisher, hash, width, work, cancels and closes"
FLOW = "a flow is either hash alone, or both schema and distinguisher"
ROWS = [
    (0, b"", "config.json:1:0: this is not JSON: the text ends too early", "config fault 1: not JSON"),
    (0, b'{"limit":1', "config.json:1:10: this is not JSON: the text ends too early", "config fault 1: not JSON"),
    (0, b'{\n  "limit": 01\n}', "config.json:2:12: this is not JSON", "config fault 1: not JSON"),
    (0, b'{"limit":1}x', "config.json:1:12: this is not JSON", "config fault 1: not JSON"),
    (0, b'{"limit":1,}', "config.json:1:12: this is not JSON", "config fault 1: not JSON"),
    (0, b'{"limit":1}\n// seats', "config.json:2:1: this is not JSON", "config fault 1: not JSON"),
    (0, b'{"limit" 1}', "config.json:1:10: this is not JSON", "config fault 1: not JSON"),
    (0, b"{'limit':1}", "config.json:1:2: this is not JSON", "config fault 1: not JSON"),
    (
        0,
        b'\xef\xbb\xbf{"limit":1}',
        "config.json:1:1: this is not JSON: the bytes begin with a mark of byte order (BOM): take it away",
        "config fault 1: not JSON",
    ),
    (0, "{}".encode("utf-16"), "config.json:1:1: this is not JSON: the bytes begin as UTF-16 does: they must be UTF-8", "config fault 1: not JSON"),
    (0, b"\x1f\x8b\x08\x00", "config.json:1:2: this is not JSON: the bytes begin as gzip does: unpack them first", "config fault 1: not JSON"),
    (0, b'[{"limit":1},]', "config.json:1:14: this is not JSON: an array begins here: a config is one object", "config fault 1: not JSON"),
    (0, b'[{"limit":1}', "config.json:1:12: this is not JSON: the text ends too early", "config fault 1: not JSON"),
    (0, b'{"\xff":1}', "config.json:1:3: this is not JSON: the bytes here are not UTF-8", "config fault 1: not JSON"),
    (0, b'{"\xe2\x82', "config.json:1:3: this is not JSON: the text ends too early", "config fault 1: not JSON"),
    (0, b"[1,\xe2\x82", "config.json:1:4: this is not JSON: the bytes here are not UTF-8", "config fault 1: not JSON"),
    (0, b'{"limit":1e999}', "config.json:1:15: this is not JSON: the number here is too large", "config fault 1: not JSON"),
    (0, 128 * b"[" + 128 * b"]", "config.json:1:129: this is not JSON: more than 127 arrays and objects stand in one another", "config fault 1: not JSON"),
    (0, b"[]", "config.json: a config is a JSON object, but this is an array", "config fault 2: not an object"),
    (0, b'"limit"', 'config.json: a config is a JSON object, but this is "limit"', "config fault 2: not an object"),
    (0, b'{"limits":1}', f'config.json: the key "limits" is unknown: {UNKNOWN}', "config fault 3: unknown key"),
    (0, b'{"limit":1,"b":1,"a":1}', f'config.json: the key "a" is unknown: {UNKNOWN}', "config fault 3: unknown key"),
    (0, b'{"a\\u001b[2J":1}', f'config.json: the key "a\\u{{1b}}[2J" is unknown: {UNKNOWN}', "config fault 3: unknown key"),
    (0, b'{"' + 65 * b"a" + b'":1}', f"config.json: a key of 65 bytes is unknown: {UNKNOWN}", "config fault 3: unknown key"),
    (0, b"{}", "config.json: the key limit is missing: it must be a whole number from 1 to 10000", "config fault 4: limit missing"),
    (0, b'{"limit":0}', "config.json: limit is 0: it must be a whole number from 1 to 10000", "config fault 5: bad value of limit"),
    (0, b'{"limit":10001}', "config.json: limit is 10001: it must be a whole number from 1 to 10000", "config fault 5: bad value of limit"),
    (0, b'{"limit":1.0}', "config.json: limit is 1.0: it must be a whole number from 1 to 10000", "config fault 5: bad value of limit"),
    (0, b'{"limit":1e1}', "config.json: limit is 10.0: it must be a whole number from 1 to 10000", "config fault 5: bad value of limit"),
    (0, b'{"limit":-1}', "config.json: limit is -1: it must be a whole number from 1 to 10000", "config fault 5: bad value of limit"),
    (0, b'{"limit":"1"}', 'config.json: limit is "1": it must be a whole number from 1 to 10000', "config fault 5: bad value of limit"),
    (0, b'{"limit":null}', "config.json: limit is null: it must be a whole number from 1 to 10000", "config fault 5: bad value of limit"),
    (0, b'{"limit":true}', "config.json: limit is true: it must be a whole number from 1 to 10000", "config fault 5: bad value of limit"),
    (0, b'{"limit":1,"queues":1025}', "config.json: queues is 1025: it must be a whole number from 1 to 1024", "config fault 5: bad value of queues"),
    (0, b'{"limit":1,"handSize":16}', "config.json: handSize is 16: it must be a whole number from 1 to 15", "config fault 5: bad value of handSize"),
    (
        0,
        b'{"limit":1,"queueLengthLimit":{}}',
        "config.json: queueLengthLimit is an object: it must be a whole number from 1 to 10000",
        "config fault 5: bad value of queueLengthLimit",
    ),
    (0, b'{"limit":1,"limitResponse":"reject"}', 'config.json: limitResponse is "reject": it must be "Queue" or "Reject"', "config fault 5: bad value of limitResponse"),
    (
        0,
        b'{"limit":1,"limitResponse":"' + 65 * b"a" + b'"}',
        'config.json: limitResponse is a text of 65 bytes: it must be "Queue" or "Reject"',
        "config fault 5: bad value of limitResponse",
    ),
    (
        0,
        b'{"limit":1,"queues":3}',
        "config.json: handSize is 8 and queues is 3: a hand can't have more queues than there are (8 and 64 if absent)",
        "dealer fault 2: hand too large",
    ),
    (
        0,
        b'{"limit":1,"handSize":11}',
        "config.json: handSize is 11 and queues is 64: queues to the power of handSize must be at most 2 to the power of 60 (8 and 64 if absent)",
        "dealer fault 4: too much entropy",
    ),
    (1, b"[", "requests.json:1:1: this is not JSON: the text ends too early", "requests fault 1: not JSON"),
    (1, b'[{"hash":0}\n{"hash":0}]', "requests.json:2:1: this is not JSON", "requests fault 1: not JSON"),
    (
        1,
        b'{"hash":0}\n{"hash":0}\n',
        "requests.json:2:1: this is not JSON: an object begins here: requests are one array of them",
        "requests fault 1: not JSON",
    ),
    (1, b"\x1f\x8b\x08\x00", "requests.json:1:2: this is not JSON: the bytes begin as gzip does: unpack them first", "requests fault 1: not JSON"),
    (1, b'[{"schema":"\\ud800","distinguisher":""}]', "requests.json:1:12: this is not JSON", "requests fault 1: not JSON"),
    (1, b"{}", "requests.json: requests are a JSON array, but this is an object", "requests fault 2: not an array"),
    (1, b"[" + 10_000 * b"0," + b"0]", "requests.json: there are 10001 requests: at most 10000 may be there", "requests fault 3: too many requests"),
    (1, b'[{"hash":0},[]]', "requests.json: request 1: a request is a JSON object, but this is an array", "requests fault 4 at 1: not an object"),
    (1, b'[{"hash":0,"color":1}]', f'requests.json: request 0: the key "color" is unknown: {STRANGE}', "requests fault 5 at 0: unknown key"),
    (
        1,
        b"[{}]",
        "requests.json: request 0: the flow is missing: it is either hash alone, or both schema and distinguisher",
        "requests fault 6 at 0: bad flow",
    ),
    (1, b'[{"hash":0,"schema":"a"}]', f"requests.json: request 0: hash stands beside schema: {FLOW}", "requests fault 6 at 0: bad flow"),
    (1, b'[{"hash":0,"distinguisher":"a"}]', f"requests.json: request 0: hash stands beside distinguisher: {FLOW}", "requests fault 6 at 0: bad flow"),
    (
        1,
        b'[{"hash":0,"schema":"a","distinguisher":"b"}]',
        f"requests.json: request 0: hash stands beside schema and distinguisher: {FLOW}",
        "requests fault 6 at 0: bad flow",
    ),
    (1, b'[{"schema":"a"}]', f"requests.json: request 0: schema stands without distinguisher: {FLOW}", "requests fault 6 at 0: bad flow"),
    (1, b'[{"distinguisher":"a"}]', f"requests.json: request 0: distinguisher stands without schema: {FLOW}", "requests fault 6 at 0: bad flow"),
    (
        1,
        b'[{"hash":18446744073709551616}]',
        "requests.json: request 0: hash is 1.8446744073709552e+19: it must be a whole number from 0 to 18446744073709551615",
        "requests fault 6 at 0: bad flow",
    ),
    (1, b'[{"schema":"a","distinguisher":1}]', "requests.json: request 0: distinguisher is 1: it must be a text", "requests fault 6 at 0: bad flow"),
    (1, b'[{"schema":null,"distinguisher":1}]', "requests.json: request 0: schema is null: it must be a text", "requests fault 6 at 0: bad flow"),
    (1, b'[{"hash":0,"width":0}]', "requests.json: request 0: width is 0: it must be a whole number from 1 to 20000", "requests fault 7 at 0: bad width"),
    (1, b'[{"hash":0,"work":1000001}]', "requests.json: request 0: work is 1000001: it must be a whole number from 0 to 1000000", "requests fault 8 at 0: bad work"),
    (
        1,
        b'[{"hash":0},{"hash":0,"cancels":2}]',
        "requests.json: request 1: cancels is 2: it must be the number of a request, 0 to 1",
        "requests fault 9 at 1: bad cancels",
    ),
    (1, b'[{"hash":0,"closes":1}]', "requests.json: request 0: closes is 1: it must be true or false", "requests fault 10 at 0: bad closes"),
    (2, b"close", "script.txt:1: the last line has no LF at its end", "script fault 2 at line 1: truncated"),
    (2, b"close\n\n", f"script.txt:2: the line is empty: {FORMS}", "script fault 3 at line 2: bad line"),
    (2, b"arrive 0\r\n", "script.txt:1: the line ends with CR: a line ends with LF alone", "script fault 3 at line 1: bad line"),
    (2, b"arrive  0\n", f'script.txt:1: "arrive  0" is no command: {FORMS}', "script fault 3 at line 1: bad line"),
    (2, b'say "\x1b"\n', f'script.txt:1: "say \\"\\u{{1b}}\\"" is no command: {FORMS}', "script fault 3 at line 1: bad line"),
    (2, b"\xff\n", f"script.txt:1: the line is no command: {FORMS}", "script fault 3 at line 1: bad line"),
    (2, 65 * b"a" + b"\n", f"script.txt:1: the line is no command: {FORMS}", "script fault 3 at line 1: bad line"),
    (2, b"close\nfinish 2\n", "script.txt:2: there is no request 2: the requests are 0 to 1", "script fault 4 at line 2: unknown request"),
    (2, b"limit 0\n", "script.txt:1: the limit is 0: it must be from 1 to 10000", "script fault 6 at line 1: bad limit"),
    (2, b"close\n" * 100_001, "script.txt:100001: there are more than 100000 lines", "script fault 1 at line 100001: too many lines"),
]

# a limit of each kind, as it is shown
LIMITS = [("false", "false"), ("18446744073709551616", "1.8446744073709552e+19"), ('""', '""'), ('"a \\"b\\" \\\\ \\u0000 \u00e9"', '"a \\"b\\" \\\\ \\0 \u00e9"')]
LIMITS += [('"\\u202e\\u007f"', '"\\u{202e}\\u{7f}"'), ("[]", "an array"), ("{}", "an object"), ("0.5", "0.5")]
for value, shown in LIMITS:
    ROWS.append((0, f'{{"limit":{value}}}'.encode(), f"config.json: limit is {shown}: it must be a whole number from 1 to 10000", "config fault 5: bad value of limit"))
# of several unknown keys the first one by their bytes; one of 64 bytes
for text, key in (('{"limit":1,"z":1,"Queues":1,"a":1}', "Queues"), ('{"a\\nb\\u001b":1}', "a\\nb\\u{1b}"), (f'{{"{64 * "k"}":1}}', 64 * "k")):
    ROWS.append((0, text.encode(), f'config.json: the key "{key}" is unknown: {UNKNOWN}', "config fault 3: unknown key"))
# the first one in the order of the keys, and the last value of a repeated key
for text, key, said in (
    ('{"limit":1,"queues":1025,"handSize":0}', "queues", "1025: it must be a whole number from 1 to 1024"),
    ('{"limit":1,"queueLengthLimit":10001}', "queueLengthLimit", "10001: it must be a whole number from 1 to 10000"),
    ('{"limit":0,"limit":11000}', "limit", "11000: it must be a whole number from 1 to 10000"),
    ('{"limit":1,"limitResponse":"queue"}', "limitResponse", '"queue": it must be "Queue" or "Reject"'),
):
    ROWS.append((0, text.encode(), f"config.json: {key} is {said}", f"config fault 5: bad value of {key}"))
# where a text stops to be JSON: columns count bytes, and at the end the column is the length of the last line
for place, text, line, column, why in (
    (0, "x", 1, 1, ""),
    (0, '{\n  "limit": 1.\n}', 2, 12, ""),
    (0, '{"limit":1} // seats', 1, 13, ""),
    (0, '"\u00e9\u00e9" 1', 1, 8, ""),
    (0, '{"limit":1e400000000000000000000}', 1, 33, ": the number here is too large"),
    (1, "", 1, 0, ": the text ends too early"),
    (1, '[{"hash":0},', 1, 12, ": the text ends too early"),
    (1, "[\n", 2, 0, ": the text ends too early"),
    (1, '[{"ha', 1, 3, ": the text ends too early"),
):
    ROWS.append((place, text.encode(), f"{NAMES[place]}:{line}:{column}: this is not JSON{why}", f"{NAMES[place][:-5]} fault 1: not JSON"))
ROWS += [
    (0, b'{\n"\xff":1}', "config.json:2:2: this is not JSON: the bytes here are not UTF-8", "config fault 1: not JSON"),
    (0, b"\xfe\xff\0{\0}", "config.json:1:1: this is not JSON: the bytes begin as UTF-16 does: they must be UTF-8", "config fault 1: not JSON"),
    (0, b"7", "config.json: a config is a JSON object, but this is 7", "config fault 2: not an object"),
    (0, b'{"queues":0}', "config.json: the key limit is missing: it must be a whole number from 1 to 10000", "config fault 4: limit missing"),
]
# the second request of three has the fault that is named
for text, said, fault in (
    ("null", "a request is a JSON object, but this is null", "4 at 1: not an object"),
    ('{"hash":0,"Width":1}', f'the key "Width" is unknown: {STRANGE}', "5 at 1: unknown key"),
    ('{"hash":0,"width":0,"work":-1}', "width is 0: it must be a whole number from 1 to 20000", "7 at 1: bad width"),
    ('{"hash":0,"width":20001}', "width is 20001: it must be a whole number from 1 to 20000", "7 at 1: bad width"),
    ('{"hash":0,"cancels":3}', "cancels is 3: it must be the number of a request, 0 to 2", "9 at 1: bad cancels"),
    ('{"hash":0,"cancels":null}', "cancels is null: it must be the number of a request, 0 to 2", "9 at 1: bad cancels"),
    ('{"hash":0,"closes":"yes"}', 'closes is "yes": it must be true or false', "10 at 1: bad closes"),
    ('{"hash":0,"schema":0}', f"hash stands beside schema: {FLOW}", "6 at 1: bad flow"),
    ('{"hash":"0"}', 'hash is "0": it must be a whole number from 0 to 18446744073709551615', "6 at 1: bad flow"),
    ('{"distinguisher":0}', f"distinguisher stands without schema: {FLOW}", "6 at 1: bad flow"),
    ('{"schema":1,"distinguisher":2}', "schema is 1: it must be a text", "6 at 1: bad flow"),
):
    ROWS.append((1, f'[{{"hash":0}},{text},{{"width":0}}]'.encode(), f"requests.json: request 1: {said}", f"requests fault {fault}"))
# the third line of a script has the fault; one of 64 bytes is shown
for line, shown in (
    (b"arrive 00", '"arrive 00" is no command'),
    (b"finish 100000", '"finish 100000" is no command'),
    (b"shut\tdown", '"shut\\tdown" is no command'),
    (b"\x1b[2J", '"\\u{1b}[2J" is no command'),
    (64 * b"x", f'"{64 * "x"}" is no command'),
    (65 * b"x", "the line is no command"),
    (b"\xff", "the line is no command"),
):
    ROWS.append((2, b"arrive 0\nfinish 0\n" + line + b"\nx\n", f"script.txt:3: {shown}: {FORMS}", "script fault 3 at line 3: bad line"))
for text, line, said, fault in (
    (b"close\r\n", 1, "the line ends with CR: a line ends with LF alone", "3 at line 1: bad line"),
    (b"close\nclose", 2, "the last line has no LF at its end", "2 at line 2: truncated"),
    (b"close\n\nclose", 2, f"the line is empty: {FORMS}", "3 at line 2: bad line"),
    (b"arrive 1\narrive 7\n", 2, "there is no request 7: the requests are 0 to 1", "4 at line 2: unknown request"),
    (b"cancel 99999\n", 1, "there is no request 99999: the requests are 0 to 1", "4 at line 1: unknown request"),
    (b"limit 10000\nlimit 10001\n", 2, "the limit is 10001: it must be from 1 to 10000", "6 at line 2: bad limit"),
    (100_000 * b"close\n" + b"x", 100_001, "there are more than 100000 lines", "1 at line 100001: too many lines"),
):
    ROWS.append((2, text, f"script.txt:{line}: {said}", f"script fault {fault}"))

for place, content, line, fault in ROWS:
    contents = with_file(place, content)
    want = (1, f"{line}\n".encode(), f"apf: {fault}\n".encode())
    tally.check(f"explain of {content[:60]!r}", explain(contents), want)
    tally.check(f"the model of {content[:60]!r}", answer(NAMES, contents), want)

for count, known in ((0, "there are no requests"), (1, "the only request is 0")):
    contents = [CONFIG, b"[" + b",".join(count * [b'{"hash":0}']) + b"]", b"cancel 1\n"]
    want = (1, f"script.txt:1: there is no request 1: {known}\n".encode(), b"apf: script fault 4 at line 1: unknown request\n")
    tally.check(f"{count} requests", explain(contents), want)
    tally.check(f"the model of {count} requests", answer(NAMES, contents), want)

# what stands in the line of a fault, behind lines that are good, of three requests
for content, line, fault in (
    (b"close\nfinish 00\nclose\n", f'2: "finish 00" is no command: {FORMS}', "3 at line 2: bad line"),
    (b"\n", f"1: the line is empty: {FORMS}", "3 at line 1: bad line"),
    (b"arrive 2\narrive 3\n", "2: there is no request 3: the requests are 0 to 2", "4 at line 2: unknown request"),
    (b"close\nclose\nlimit 10001\n", "3: the limit is 10001: it must be from 1 to 10000", "6 at line 3: bad limit"),
    (b"close\nclose", "2: the last line has no LF at its end", "2 at line 2: truncated"),
):
    contents = [CONFIG, b'[{"hash":0},{"hash":0},{"hash":0}]', content]
    want = (1, f"script.txt:{line}\n".encode(), f"apf: script fault {fault}\n".encode())
    tally.check(f"{content!r} of three requests", explain(contents), want)
    tally.check(f"the model of {content!r} of three requests", answer(NAMES, contents), want)
    tally.check(f"replay of {content!r} of three requests", run(program, ["replay", *NAMES], cwd=files.folder.name), (1, b"", want[2]))

# good files, and the first of two faults by the order of the files
for name, contents in (
    ("good files", WHOLE),
    ("the least files", [b'{"limit":1}', b"[]", b""]),
    ("the most lines", [CONFIG, REQUESTS, 100_000 * b"close\n"]),
    ("a level that rejects has no dealer", [b'{"limit":1,"queues":3,"limitResponse":"Reject"}', b"[]", b""]),
    ("a bad config before bad requests", [b'{"limit":0}', b"{}", b"x"]),
    ("bad requests before a bad script", [CONFIG, b"{}", b"x"]),
    ("a bad script before a bad dealer", [b'{"limit":1,"queues":3}', b"[]", b"x"]),
):
    tally.check(name, explain(contents), answer(NAMES, contents))
tally.check("nothing is said of good files", explain(WHOLE), (0, b"", b""))


# ---- drawn files

NUMBERS = ["0", "-1", "1.0", "0.5", "1e3", "1e-7", "-0", "1e16", "123456789012345678901234567890", "1e-5", "10001", "1025", "16", "20001", "1000001", "18446744073709551616"]
TEXTS = ["", "Queue", "queue", "1", 'a "b" \\', "\t\n\r\0\x1b\x7f", "\u00e4\u20ac\U0001f600", "\u202e\u200b\u0301", "a" * 64, "a" * 65, "\u20ac" * 21, "\u20ac" * 22]
WORDS = ["null", "true", "false", "[]", "[1]", "{}", '{"limit":1}']


def json_text(draw, text):
    """The text as JSON, with some characters escaped that need not be."""
    return '"' + "".join(f"\\u{ord(it):04x}" if it < " " or it in '"\\' or (ord(it) < 65536 and draw.random() < 0.1) else it for it in text) + '"'


def value_of(draw):
    kind = draw.randrange(3)
    return draw.choice(NUMBERS) if kind == 0 else draw.choice(WORDS) if kind == 1 else json_text(draw, draw.choice(TEXTS))


def joined(draw, parts, begin, end):
    blank = draw.choice(["", " ", "\n", "\r\n  ", "\t"])
    return begin + blank + f",{blank}".join(parts) + blank + end


def object_of(draw, members):
    members = [*members.items()]
    draw.shuffle(members)
    return joined(draw, [f"{json_text(draw, key)}:{draw.choice(['', ' '])}{value}" for key, value in members], "{", "}")


def changed(draw, members):
    """The members with one changed, added or left out, or more."""
    members = dict(members)
    for _ in range(draw.choice([1, 1, 2, 3])):
        kind = draw.randrange(5)
        if kind < 3 and members:
            members[draw.choice([*members])] = value_of(draw)
        elif kind == 3:
            members[draw.choice([*TEXTS, "Limit", "schema", "hash", "limits"])] = value_of(draw)
        elif members:
            del members[draw.choice([*members])]
    return members


def config_text(draw, is_good):
    members = {"limit": str(draw.randint(1, 10_000)), "queues": str(draw.randint(8, 30)), "handSize": str(draw.randint(1, 8)), "queueLengthLimit": "10"}
    members["limitResponse"] = draw.choice(['"Queue"', '"Reject"'])
    return object_of(draw, members if is_good else changed(draw, members))


def request_text(draw, is_good):
    members = {"width": str(draw.randint(1, 20_000)), "work": "7", "cancels": "0", "closes": "true"}
    members.update({"hash": str(draw.getrandbits(64))} if draw.random() < 0.5 else {"schema": '"a"', "distinguisher": '"\u00e4"'})
    if not is_good and draw.random() < 0.1:
        return value_of(draw)
    return object_of(draw, members if is_good else changed(draw, members))


def requests_text(draw, is_good):
    count = draw.randint(1, 5)
    bad = [] if is_good else [draw.randrange(count) for _ in range(2)]
    return joined(draw, [request_text(draw, number not in bad) for number in range(count)], "[", "]")


def line_text(draw, is_good):
    if is_good:
        return draw.choice(["arrive 0", "finish 0", "cancel 0", "close", "limit 7"])
    bad = ["", "\r", "close\r", "arrive", "arrive 00", "arrive 5", "finish 99999", "cancel 100000", "limit 0", "limit 10001", "limit 99999", "close 1", *TEXTS]
    return draw.choice(bad).replace("\n", "")


def script_text(draw, is_good):
    lines = [line_text(draw, True) for _ in range(draw.randint(0, 6))]
    if not is_good:
        lines.insert(draw.randint(0, len(lines)), line_text(draw, False))
    return "".join(f"{it}\n" for it in lines)[: None if is_good or draw.random() < 0.8 else -1]


def drawn(draw, number):
    """Three files, most of which have a fault: one that was drawn bad, or one that was spoiled byte by byte."""
    if number % 3 == 2:
        return with_spoiled(draw, number // 3)
    place = draw.randrange(3)
    texts = [make(draw, at != place) for at, make in enumerate((config_text, requests_text, script_text))]
    return [it.encode() for it in texts]


shapes, faulty, number = set(), 0, 0
while faulty < FAULTY:
    contents = drawn(draw, number)
    number += 1
    want = answer(NAMES, contents)
    tally.check(f"explain of {contents!r}", explain(contents), want)
    if want[0]:
        faulty += 1
        shapes.add(re.sub(r'"(?:[^"\\]|\\.)*"|-?\d[\d.e+-]*', "#", want[1].decode()))
tally.check(f"the drawn lines are of many kinds: {len(shapes)}", len(shapes) >= min(70, FAULTY // 8), True)
print(f"{faulty} faulty triples of {number}, whose lines are of {len(shapes)} kinds")

# ---- names

for place, content in ((0, b'{"limit":0}'), (1, b"[7]"), (2, b"shut\n"), (0, b"{"), (0, b'{"limit":1,"queues":3}')):
    names = [*NAMES]
    names[place] = "-"
    contents = with_file(place, content)
    got = explain(contents, names)
    tally.check(f"standard input in place {place}", got, answer(names, contents))
    tally.check(f"standard input is named in place {place}", got[1].startswith(b"standard input"), True)
# what does not print in a name, and what a terminal would obey, is escaped
names = ["\x1b[31mred\u202e", *NAMES[1:]]
want = "\\u001b[31mred\\u202e: limit is 0: it must be a whole number from 1 to 10000\n"
tally.check("a name that turns a terminal red", explain(with_file(0, b'{"limit":0}'), names)[1], want.encode())
ODD = ["a\tb", "\x1b[31mred", "\x7f\u0085", "\u202eback\u2069", 'say "\\"']
for name in (*ODD, "./config.json", "a: b", "\u00e4.json", "../" + os.path.basename(files.folder.name) + "/config.json"):
    contents = with_file(0, b'{"limit":0}')
    tally.check(f"a file named {name}", explain(contents, [name, *NAMES[1:]]), answer([name, *NAMES[1:]], contents))

# ---- files that can't be read, or are too large

KINDS = ["config", "requests", "script"]
os.mkdir(os.path.join(files.folder.name, "folder"))
for place, kind in enumerate(KINDS):
    for name, cause in (("missing", ABSENT), ("folder", FOLDER)):
        names = [*NAMES]
        names[place] = name
        for other, content in zip(NAMES, WHOLE):
            files(other, content)
        got = run(program, ["explain", *names], cwd=files.folder.name)
        tally.check(f"{kind}: {name}", got, (1, f"{cant_read(name, cause)}\n".encode(), f"apf: cannot read {kind}\n".encode()))
    for size in (MOST[kind], MOST[kind] + 1):
        contents = with_file(place, b" " * size)
        got = explain(contents)
        tally.check(f"{kind} of {size} bytes", got, answer(NAMES, contents))
        tally.check(f"{kind} of {size} bytes is too large", got[1] == f"{too_large(NAMES[place], kind)}\n".encode(), size > MOST[kind])

# ---- output that can't be written: the fault is told, or that the output could not be written; and good files need no output

with open("/dev/full", "wb") as full:
    for content, status in ((CONFIG, 0), (b'{"limit":0}', 1)):
        for name, text in zip(NAMES, [content, REQUESTS, SCRIPT]):
            files(name, text)
        done = subprocess.run([program, "explain", *NAMES], stdin=subprocess.DEVNULL, stdout=full, stderr=subprocess.PIPE, cwd=files.folder.name, timeout=120)
        tally.check(f"a full disk: {content!r}", (done.returncode, done.stderr.count(b"\n")), (status, status))

# ---- each allocation refused in turn

preloaded = shim(files)
for place, content in (
    (0, CONFIG),
    (0, b'{"limit":1,"a":[{}]}'),
    (0, b'{"limit":"a"}'),
    (0, b"{]"),
    (0, b"{}"),
    (0, b'{"limit":1,"queues":3}'),
    (1, b'[{"hash":0},{"hash":0,"width":"a"}]'),
    (1, b'[{"hash":0,"schema":"a"}]'),
    (2, b"arrive 0\nx\n"),
    (2, b"arrive 9\n"),
):
    contents = with_file(place, content)
    want = answer(NAMES, contents)
    refused = 0
    for name, text in zip(NAMES, contents):
        files(name, text)
    with Refusing(files, preloaded, program, ["explain", *NAMES], cwd=files.folder.name) as runs:
        for which in range(1, 1000):
            got, was_refused = runs.without(which)
            if not was_refused:
                tally.check(f"{content!r} with ample memory", got, want)
                break
            refused += 1
            tally.check(f"{content!r} without allocation {which}: {got}", got in (want, (3, b"", b"apf: out of memory\n")), True)
    tally.check(f"{content!r}: some were refused, and not all: {refused}", 0 < refused < 999, True)

# ---- what the model writes of numbers and texts, by hand

for text, want in (
    ("1.0", "1.0"),
    ("-0.0", "-0.0"),
    ("1e15", "1000000000000000.0"),
    ("1e16", "1e+16"),
    ("123456789012345680000", "1.2345678901234568e+20"),
    ("0.5", "0.5"),
    ("0.000001", "0.000001"),
    ("0.0000001", "1e-7"),
    ("12.25", "12.25"),
    ("5e-324", "5e-324"),
):
    tally.check(f"the model of {text}", float_text(float(text)), want)
for text, want in (("a", '"a"'), ('"\\', '"\\"\\\\"'), ("\0\t\n\r\x1b", '"\\0\\t\\n\\r\\u{1b}"'), ("\u00e4\u202e\u0301", '"\u00e4\\u{202e}\\u{301}"')):
    tally.check(f"the model of {text!r}", quoted(text), want)
tally.check("the model of a long text", found("a" * 65), "a text of 65 bytes")
tally.end()
