"""What standard error says to a person, by docs/FORMATS.md: a config's fault with its file, its key and what stands there, and of which of two configs it is;
a file in the place of another one; what matched nothing; and at a terminal what a patience was taken for, and the explanation behind an old line."""

import gzip
import json
import os
import pty
import subprocess
import sys
import termios

sys.path.insert(0, os.path.join(os.path.dirname(os.path.abspath(__file__)), "lib"))
from harness import TOP, Files, Tally, build, run

tally = Tally()
program = build()
files = Files()

CONFIG = '{"limit":2,"queues":2,"handSize":1}'
LINE = '{"schema":"users","distinguisher":"alice","arrivesAt":0,"runsFor":9}\n'
good, trace = files("good.json", CONFIG), files("trace.jsonl", 2 * LINE)
requests, script = files("requests.json", '[{"hash":0}]'), files("script.txt", "arrive 0\n")
SIMULATED = ("simulate", "timeline", "fates", "picture")
# each command that reads a config, where it is this one; the old ones, and the others
OLD = {
    "replay": lambda config: ["replay", config, requests, script],
    "services": lambda config: ["services", config, requests, script],
    "waits": lambda config: ["waits", config, requests, script],
    "run": lambda config: ["run", config, requests, "1"],
    "run in rounds": lambda config: ["run", config, requests, "1", "--rounds", "2"],
}
NEW = {command: lambda config, command=command: [command, config, trace, "0"] for command in SIMULATED}
NEW["hands"] = lambda config: ["hands", config, trace]
NEW["hands of one"] = lambda config: ["hands", config, trace, "--flow", "alice"]
NEW["compare, the first"] = lambda config: ["compare", config, good, trace, "0"]
NEW["compare, the second"] = lambda config: ["compare", good, config, trace, "0"]
NEW["serve"] = lambda config: ["serve", config]


def at_terminal(words):
    """The status, the output and what a terminal shows where standard error is one."""
    ours, its = pty.openpty()
    how = termios.tcgetattr(its)
    # LF stays LF
    how[1] &= ~termios.OPOST
    termios.tcsetattr(its, termios.TCSANOW, how)
    process = subprocess.Popen([program, *words], stdin=subprocess.DEVNULL, stdout=subprocess.PIPE, stderr=its)
    os.close(its)
    out, shown = process.stdout.read(), b""
    process.stdout.close()
    try:
        while part := os.read(ours, 65_536):
            shown += part
    except OSError:
        # nobody has the other end any more
        pass
    os.close(ours)
    return process.wait(timeout=60), out, shown


def refused(*lines, status=1):
    return status, b"", "".join(f"{line}\n" for line in lines).encode()


# ---- the fault of a config: its line to the letter, and the one that explains it

HAS = "a config has limit, queues, handSize, queueLengthLimit and limitResponse"
HAND = "a hand can't have more queues than there are (8 and 64 if absent)"
WHOLE = "it must be a whole number from"
FAULTS = [
    ('{"limit":1', "config fault 1: not JSON", ":1:10: this is not JSON: the text ends too early"),
    ("[1]", "config fault 2: not an object", ": a config is a JSON object, but this is an array"),
    ('{"limit":1,"handsize":1}', "config fault 3: unknown key", f': the key "handsize" is unknown: {HAS}'),
    ("{}", "config fault 4: limit missing", f": the key limit is missing: {WHOLE} 1 to 10000"),
    ('{"limit":0}', "config fault 5: bad value of limit", f": limit is 0: {WHOLE} 1 to 10000"),
    ('{"limit":1,"queues":"7"}', "config fault 5: bad value of queues", f': queues is "7": {WHOLE} 1 to 1024'),
    ('{"limit":1,"queues":3}', "dealer fault 2: hand too large", f": handSize is 8 and queues is 3: {HAND}"),
]
bad = os.path.join(files.folder.name, "bad.json")
for content, line, explained in FAULTS:
    files("bad.json", content)
    for command, words in NEW.items():
        tally.check(f"{command} of {content}", run(program, words(bad)), refused(f"apf: {line}", bad + explained))
    for command, words in OLD.items():
        tally.check(f"{command} of {content}, as ever", run(program, words(bad)), refused(f"apf: {line}"))
        tally.check(f"{command} of {content} at a terminal", at_terminal(words(bad)), refused(f"apf: {line}", bad + explained))
    told = (1, f"{bad}{explained}\n".encode(), f"apf: {line}\n".encode())
    for name, by in (("", run), (" at a terminal", lambda program, words: at_terminal(words))):
        tally.check(f"explain of {content}{name}", by(program, ["explain", bad, requests, script]), told)
    # the commands that say so anyway do at a terminal, too
    words = NEW["simulate"](bad)
    tally.check(f"simulate of {content} at a terminal", at_terminal(words), refused(f"apf: {line}", bad + explained))
other = files("other.json", '{"limit":10001}')
files("bad.json", '{"limit":0}')
lines = [f"apf: config fault 5: bad value of limit", f"{bad}: limit is 0: {WHOLE} 1 to 10000", f"{other}: limit is 10001: {WHOLE} 1 to 10000"]
tally.check("of two bad configs the first", run(program, ["compare", bad, other, trace, "0"]), refused(*lines[:2]))
tally.check("and the other way", run(program, ["compare", other, bad, trace, "0"]), refused(lines[0], lines[2]))
done = subprocess.run([program, "compare", good, "-", trace, "0"], input=b'{"limit":0}', capture_output=True, timeout=60)
tally.check("a config from a pipe", (done.returncode, done.stdout, done.stderr), refused(lines[0], f"standard input: limit is 0: {WHOLE} 1 to 10000"))

# requests and scripts, of the old commands alone
for place, content, line, explained in (
    (1, '[{"hash":0,"width":0}]', "requests fault 7 at 0: bad width", f": request 0: width is 0: {WHOLE} 1 to 20000"),
    (2, "arrive 9\n", "script fault 4 at line 1: unknown request", ":1: "),
):
    path = files("wrong", content)
    names = [good, requests, script]
    names[place] = path
    for command in ("replay", "services", "waits", *(["run"] if place == 1 else [])):
        words = [command, *names[:2], "1"] if command == "run" else [command, *names]
        tally.check(f"{command}: {line}", run(program, words), refused(f"apf: {line}"))
        status, out, shown = at_terminal(words)
        lines = shown.decode().split("\n")
        tally.check(f"{command} at a terminal: {line}", (status, out, lines[0], lines[1][: len(path + explained)], lines[2:]), (1, b"", f"apf: {line}", path + explained, [""]))

# ---- a config that can't be read, or is too large

missing = os.path.join(files.folder.name, "missing")
odd = os.path.join(files.folder.name, "\x1b[31mred")
for path, name, why in ((missing, missing, "there is no such file"), (files.folder.name, files.folder.name, "it is a folder"), (odd, odd.replace("\x1b", "\\u001b"), "there is no such file")):
    for command, words in NEW.items():
        tally.check(f"{command} of {path}", run(program, words(path)), refused(f"apf: cannot read config: {name}: {why}"))
    for command, words in OLD.items():
        tally.check(f"{command} of {path}, as ever", run(program, words(path)), refused("apf: cannot read config"))
        tally.check(f"{command} of {path} at a terminal", at_terminal(words(path)), refused("apf: cannot read config", f"{name}: can't be read: {why}"))
MORE = "more than 65536 bytes: a config has at most this many"
for path, behind in ((files("blank", " " * 65_537), ""), (files("long.jsonl", LINE + 1000 * LINE), ", and the first line is a request of a trace")):
    for command, words in NEW.items():
        tally.check(f"{command} of a large config", run(program, words(path)), refused("apf: config too large: more than 65536 bytes", f"{path}: {MORE}{behind}"))
    for command, words in OLD.items():
        tally.check(f"{command} of a large config, as ever", run(program, words(path)), refused("apf: config too large: more than 65536 bytes"))
        tally.check(f"{command} of a large config at a terminal", at_terminal(words(path)), refused("apf: config too large: more than 65536 bytes", f"{path}: {MORE}{behind}"))

# ---- a file in the place of another one, and files that are no JSON

with open(os.path.join(TOP, "examples", "cluster", "objects.json"), "rb") as file:
    objects = file.read()
LEVEL = '{"kind":"PriorityLevelConfiguration","metadata":{"name":"a"},"spec":{"type":"Exempt"}}'
KUBECTL = "this is an object as kubectl prints it"
for name, content, line, explained in (
    ("a trace of two lines", 2 * LINE, "1: not JSON", ":2:1: this is not JSON: the first line is a request of a trace: a config is one object"),
    ("a trace of one line", LINE, "3: unknown key", f': the key "arrivesAt" is unknown: this is a request of a trace: {HAS}'),
    ("a list of kubectl", objects, "3: unknown key", f': the key "apiVersion" is unknown: {KUBECTL}: {HAS}'),
    ("an object", LEVEL, "3: unknown key", f': the key "kind" is unknown: {KUBECTL}: {HAS}'),
    ("an event of an audit log", '{"kind":"Event","stage":"Panic","verb":"get"}\n', "3: unknown key", f': the key "kind" is unknown: this is an event of an audit log: {HAS}'),
    ("YAML", "limit: 2\nqueues: 8\n", "1: not JSON", ":1:1: this is not JSON: the bytes begin as YAML does: write them as JSON"),
    ("YAML behind a comment", "# seats\n\nlimit: 2\n", "1: not JSON", ":1:1: this is not JSON: the bytes begin as YAML does: write them as JSON"),
    ("YAML of kubectl", "apiVersion: flowcontrol.apiserver.k8s.io/v1\n", "1: not JSON", ":1:1: this is not JSON: the bytes begin as YAML does: write them as JSON"),
    ("YAML with its mark", "---\nlimit: 2\n", "1: not JSON", ":1:1: this is not JSON: the bytes begin as YAML does: write them as JSON"),
    ("gzip", gzip.compress(CONFIG.encode(), mtime=0), "1: not JSON", ":1:2: this is not JSON: the bytes begin as gzip does: unpack them first"),
    ("UTF-16", CONFIG.encode("utf-16"), "1: not JSON", ":1:1: this is not JSON: the bytes begin as UTF-16 does: they must be UTF-8"),
    ("UTF-16 without its mark", CONFIG.encode("utf-16-le"), "1: not JSON", ":1:2: this is not JSON: the bytes begin as UTF-16 does: they must be UTF-8"),
    ("UTF-16 the other way", CONFIG.encode("utf-16-be"), "1: not JSON", ":1:1: this is not JSON: the bytes begin as UTF-16 does: they must be UTF-8"),
):
    path = files("strange", content)
    if len(content) <= 65_536:
        tally.check(f"{name} as a config", run(program, ["simulate", path, trace, "0"]), refused(f"apf: config fault {line}", path + explained))
KEYS = "a request of a trace has arrivesAt, runsFor, schema, distinguisher, hash, width and cost"
EVENT = "this is an event of an audit log"
with open(os.path.join(TOP, "examples", "audit", "audit.log")) as file:
    event = json.loads(file.readline())
on_lines = json.dumps(json.loads(objects), indent=4)
# more than 64 KiB, as a list of a real cluster has
large = json.dumps({**json.loads(objects), "items": 4 * json.loads(objects)["items"]}, indent=4)
for name, content, said in (
    ("a config", CONFIG, f'5 at line 1: the key "handSize" is unknown: this is a config: {KEYS}'),
    ("a config with an LF", CONFIG + "\n", f'5 at line 1: the key "handSize" is unknown: this is a config: {KEYS}'),
    ("a config of two lines", CONFIG.replace(",", ",\n"), "3 at line 1: this is not JSON at column 11: this is a config: a trace has one object on each line"),
    ("a list of kubectl", on_lines, f"3 at line 1: this is not JSON at column 1: {KUBECTL}: a trace has one object on each line"),
    ("a list of kubectl as it is stored", objects, f"3 at line 1: this is not JSON at column 1: {KUBECTL}: a trace has one object on each line"),
    ("a large list of kubectl", large, f"3 at line 1: this is not JSON at column 1: {KUBECTL}: a trace has one object on each line"),
    ("an object that is cut", on_lines[:-1], "3 at line 1: this is not JSON at column 1: the text ends too early"),
    ("an object of kubectl on one line", json.dumps(json.loads(objects)) + "\n", f'5 at line 1: the key "apiVersion" is unknown: {KUBECTL}: {KEYS}'),
    ("an object without apiVersion", LEVEL + "\n", f'5 at line 1: the key "kind" is unknown: {KUBECTL}: {KEYS}'),
    ("an audit log", json.dumps(event) + "\n", f'5 at line 1: the key "apiVersion" is unknown: {EVENT}: {KEYS}'),
    ("an audit log with annotations", json.dumps({**event, "annotations": {}}) + "\n", f'5 at line 1: the key "annotations" is unknown: {EVENT}: {KEYS}'),
    ("an event on lines of its own", json.dumps(event, indent=2), f"3 at line 1: this is not JSON at column 1: {EVENT}: a trace has one object on each line"),
    ("a stage without a verb", '{"kind":"Event","stage":"Panic"}\n', f'5 at line 1: the key "kind" is unknown: {KUBECTL}: {KEYS}'),
    ("another key", '{"stage":"Panic"}\n', f'5 at line 1: the key "stage" is unknown: {KEYS}'),
    ("YAML", "limit: 2\n", "3 at line 1: this is not JSON at column 1: the bytes begin as YAML does: write them as JSON"),
    ("gzip without an LF", b"\x1f\x8b\x08\0\0\0\0\0\2\xff\xab\6\0", "3 at line 1: this is not JSON at column 2: the bytes begin as gzip does: unpack them first"),
    ("UTF-16 without an LF", LINE[:-1].encode("utf-16"), "3 at line 1: this is not JSON at column 1: the bytes begin as UTF-16 does: they must be UTF-8"),
    ("UTF-16 without its mark", LINE[:-1].encode("utf-16-le"), "3 at line 1: this is not JSON at column 2: the bytes begin as UTF-16 does: they must be UTF-8"),
):
    path = files("strange", content)
    for words in (["simulate", good, path, "0"], ["hands", good, path], ["requests", path]):
        tally.check(f"{words[0]} of {name} as a trace", run(program, words), refused(f"apf: trace fault {said}"))
    if b"\n" not in (content if isinstance(content, bytes) else content.encode()) and not name.startswith("a config") and said.startswith("3"):
        said = said.replace("3 at line 1", "2 at line 1")
        tally.check(f"trace of {name} as a log", run(program, ["trace", path, "users"]), refused(f"apf: audit fault {said}"))
        cluster = os.path.join(TOP, "examples", "cluster", "objects.json")
        tally.check(f"match of {name} as a log", run(program, ["match", cluster, "--log", path]), refused(f"apf: audit fault {said}"))
tally.check("a log that is no event", run(program, ["trace", files("strange", "hello"), "users"]), refused("apf: audit fault 2 at line 1: this is not JSON at column 1"))

# objects of a cluster that are no JSON: where they stop to be, and why
cluster, log = os.path.join(TOP, "examples", "cluster", "objects.json"), os.path.join(TOP, "examples", "audit", "audit.log")
AS_LIST = "objects are one JSON object, as kubectl prints a list"
for name, content, explained in (
    ("YAML of kubectl", "apiVersion: v1\nitems: []\nkind: List\n", ":1:1: this is not JSON: the bytes begin as YAML does: write them as JSON"),
    ("gzip", gzip.compress(objects, mtime=0), ":1:2: this is not JSON: the bytes begin as gzip does: unpack them first"),
    ("UTF-16", objects.decode().encode("utf-16"), ":1:1: this is not JSON: the bytes begin as UTF-16 does: they must be UTF-8"),
    ("UTF-16 without its mark", LEVEL.encode("utf-16-le"), ":1:2: this is not JSON: the bytes begin as UTF-16 does: they must be UTF-8"),
    ("a mark of byte order", b"\xef\xbb\xbf" + objects, ":1:1: this is not JSON: the bytes begin with a mark of byte order (BOM): take it away"),
    ("a list that is cut", LEVEL[:-1], f":1:{len(LEVEL) - 1}: this is not JSON: the text ends too early"),
    ("a trace of two lines", 2 * LINE, f":2:1: this is not JSON: the first line is a request of a trace: {AS_LIST}"),
    ("an array with a comma too many", f"[{LEVEL},]", f":1:{len(LEVEL) + 3}: this is not JSON: an array begins here: {AS_LIST}"),
    ("two objects", f"{LEVEL}{LEVEL}", f":1:{len(LEVEL) + 1}: this is not JSON"),
):
    path = files("strange", content)
    for words in (["objects", path], ["match", path, "--user", "a", "--verb", "get", "--path", "/"], ["match", path, "--log", log]):
        tally.check(f"{' '.join(words[:1] + words[2:3])} of {name} as objects", run(program, words), refused("apf: objects fault 1: this is not JSON", path + explained))
# and other files, which are JSON: what each is stands behind the fault
OF_LIST = "it must be List, FlowSchemaList, PriorityLevelConfigurationList, FlowSchema or PriorityLevelConfiguration"
for name, content, kind, what in (
    ("a trace of one line", LINE, "nothing", "a request of a trace"),
    ("a trace of one line without an LF", LINE[:-1], "nothing", "a request of a trace"),
    ("a config", CONFIG, "nothing", "a config"),
    ("an event of an audit log", json.dumps(event), '"Event"', "an event of an audit log"),
    ("another object", '{"kind":"Pod"}', '"Pod"', None),
    ("an array", "[]", "nothing", None),
):
    path = files("strange", content)
    behind = [f"{path}: this is {what}: {AS_LIST}"] if what else []
    for words in (["objects", path], ["match", path, "--user", "a", "--verb", "get", "--path", "/"], ["match", path, "--log", log]):
        tally.check(f"{' '.join(words[:1] + words[2:3])} of {name} as objects", run(program, words), refused(f"apf: objects fault 2: kind is {kind}: {OF_LIST}", *behind))
done = subprocess.run([program, "objects", "-"], input=LINE.encode(), stdout=subprocess.PIPE, stderr=subprocess.PIPE, timeout=60)
told = f"standard input: this is a request of a trace: {AS_LIST}"
tally.check("a trace as objects, from a pipe", (done.returncode, done.stdout, done.stderr), refused(f"apf: objects fault 2: kind is nothing: {OF_LIST}", told))
done = subprocess.run([program, "objects", "-"], input=b"kind: List\n", stdout=subprocess.PIPE, stderr=subprocess.PIPE, timeout=60)
told = "standard input:1:1: this is not JSON: the bytes begin as YAML does: write them as JSON"
tally.check("objects from a pipe", (done.returncode, done.stdout, done.stderr), refused("apf: objects fault 1: this is not JSON", told))

# a script that is packed, or in another code
for name, content, said in (
    ("gzip", gzip.compress(b"arrive 0\n", mtime=0), "the bytes begin as gzip does: unpack them first"),
    ("UTF-16", "arrive 0\nclose\n".encode("utf-16"), "the bytes begin as UTF-16 does: they must be UTF-8"),
    ("UTF-16 without a line", "close".encode("utf-16"), "the bytes begin as UTF-16 does: they must be UTF-8"),
    ("a mark of byte order", b"\xef\xbb\xbfarrive 0\n", "the bytes begin with a mark of byte order (BOM): take it away"),
):
    path = files("strange", content)
    fault = f"apf: script fault {'3' if b'%c' % 10 in content else '2'} at line 1: {'bad line' if b'%c' % 10 in content else 'truncated'}"
    tally.check(f"{name} as a script", run(program, ["replay", good, requests, path]), refused(fault))
    tally.check(f"{name} as a script at a terminal", at_terminal(["replay", good, requests, path]), refused(fault, f"{path}:1: this is no script: {said}"))
    tally.check(f"{name} as a script explained", run(program, ["explain", good, requests, path]), (1, f"{path}:1: this is no script: {said}\n".encode(), f"{fault}\n".encode()))

# a text whose escape is wrong at its end is no front of one that is right
FORM = ": an object begins here: requests are one array of them"
for content, why in (('{"schema":"\\u0"}', FORM), ('{"schema":"\\u00g', FORM), ('{"schema":"\\u0', ": the text ends too early"), ('{"schema":"\\\\u0"', ": the text ends too early"), ('{"schema":"\\u00e9\\u0"', FORM)):
    path = files("strange", content)
    status, out, err = run(program, ["explain", good, path, script])
    tally.check(f"requests {content}", (status, err, out.decode().partition(": this is not JSON")[2]), (1, b"apf: requests fault 1: not JSON\n", why + "\n"))
    path = files("strange", content + "\n")
    status, out, err = run(program, ["requests", path])
    tally.check(f"a trace {content}", (status, out, err.decode().endswith(f"{why if why != FORM else ''}\n"), b"too early" in err), (1, b"", True, why != FORM))

# ---- what matched nothing, and what a patience was taken for

log = os.path.join(TOP, "examples", "audit", "audit.log")
NOTHING = b"apf: nothing matched: the options choose no request of the log\n"
for words in (["--user", "nobody"], ["--since", "2030-01-01T00:00:00Z"], ["--until", "2000-01-01T00:00:00Z"], ["--user", "nobody*", "--by", "namespace"]):
    tally.check(f"trace {words}", run(program, ["trace", log, "users", *words]), (0, b"", NOTHING))
tally.check("an empty log", run(program, ["trace", "/dev/null", "users"]), (0, b"", b""))
tally.check("a user of the log", run(program, ["trace", log, "users", "--user", "system:*"])[2], b"")
FLOW = "apf: nothing matched: no flow of the trace has the distinguisher "
for name, told in (("Alice", '"Alice"'), ("", '""'), ("\x1b[31m\u202e", '"\\u001b[31m\\u202e"')):
    tally.check(f"hands of {told}", run(program, ["hands", good, trace, "--flow", name]), (0, b"", f"{FLOW}{told}\n".encode()))
    tally.check(f"hands of {told} of no flow", run(program, ["hands", good, "/dev/null", "--flow", name]), (0, b"", f"{FLOW}{told}\n".encode()))
status, out, err = run(program, ["hands", good, trace, "--flow", "alice"])
tally.check("hands of alice", (status, out[:5], err), (0, b"flow ", b""))

PATIENT = {command: lambda patience, command=command: [command, good, trace, patience] for command in SIMULATED}
PATIENT["compare"] = lambda patience: ["compare", good, good, trace, patience]
for command, words in PATIENT.items():
    for patience in ("1", "15", "999"):
        quiet = run(program, words(patience))
        note = f"apf: PATIENCE was taken for {patience} microseconds: {patience}s is {patience} seconds\n".encode()
        tally.check(f"{command} with {patience}", (quiet[0], quiet[2]), (0, b""))
        tally.check(f"{command} with {patience} at a terminal", at_terminal(words(patience)), (0, quiet[1], note))
    for patience in ("0", "1000", "1000000000", "15s", "15us", "15ms", "1m", "1.5s"):
        tally.check(f"{command} with {patience} at a terminal", at_terminal(words(patience)), run(program, words(patience)))
tally.check("a fault has no note", at_terminal(["simulate", good, missing, "15"]), refused(f"apf: cannot read trace: {missing}: there is no such file"))

# ---- what comes from standard input, and where output goes

tally.check("serve -", run(program, ["serve", "-"]), refused("apf: CONFIG must be a file: the commands come from standard input", status=2))
OUTPUT = b"apf: the output goes to standard output: >FILE behind the command writes it to a file\n"
for words in (["picture", good, trace, "0", "-o", "x.svg"], ["picture", good, trace, "0", "-ox.svg"], ["trace", log, "users", "--output", "x"], ["hands", good, trace, "--out=x"]):
    status, out, err = run(program, words)
    tally.check(f"{' '.join(words[-2:])}", (status, out, err.startswith(b"error: unexpected argument '-"), err.endswith(b"\n" + OUTPUT)), (2, b"", True, True))
for words in (["picture", good, trace, "0", "-x", "x.svg"], ["picture", good, trace, "0", "x.svg"]):
    tally.check(f"{' '.join(words[-2:])} has no such line", OUTPUT in run(program, words)[2], False)
tally.end()
