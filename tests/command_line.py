"""Command lines, as their users would expect."""

import os
import re
import shutil
import subprocess
import sys
import tempfile

sys.path.insert(0, os.path.join(os.path.dirname(os.path.abspath(__file__)), "lib"))
from harness import TOP, Files, Tally, build, run

tally = Tally()
program = build()
files = Files()

# what is printed, to the letter
for words, out in [
    (["hash", "", ""], b"987ab3ff9c0b346e\n"),
    # the first 8 bytes of the SHA-256 digest of the schema, a zero byte and the distinguisher, read little-endian
    (["hash", "", "system:node"], b"7d5a8f2d7d48b7bf\n"),
    (["hash", "--", "-a", "--b"], b"eeaaaa636d0200f0\n"),
    (["deal", "8", "3", "0"], b"0 1 2\n"),
    (["deal", "8", "3", "100"], b"4 6 1\n"),
    (["deal", "8", "3", "335"], b"7 6 5\n"),
    (["deal", "8", "3", "336"], b"0 1 2\n"),
    (["deal", "1", "1", "18446744073709551615"], b"0\n"),
    (["deal", "64", "1", "10987292151339758702"], b"46\n"),
    (["deal", "64", "8", "0"], b"0 1 2 3 4 5 6 7\n"),
    (["deal", "5", "5", "119"], b"4 3 2 1 0\n"),
    (["deal", "5", "5", "7"], b"2 1 0 3 4\n"),
]:
    tally.check(" ".join(words), run(program, words), (0, out, b""))
status, out, err = run(program, ["deal", "16", "15", "0"])
tally.check("deal 16 15 0", (status, out, err), (0, b"0 1 2 3 4 5 6 7 8 9 10 11 12 13 14\n", b""))

# dealer faults of a command line
for words, line in [
    (["deal", "0", "1", "0"], b"apf: dealer fault 1: not positive\n"),
    (["deal", "0", "0", "0"], b"apf: dealer fault 1: not positive\n"),
    (["deal", "3", "4", "0"], b"apf: dealer fault 2: hand too large\n"),
    (["deal", "67108865", "1", "0"], b"apf: dealer fault 3: deck too large\n"),
    # the largest numbers that a command line takes, each as it is: a hand of one more than the deck is too large
    (["deal", "4294967295", "4294967295", "18446744073709551615"], b"apf: dealer fault 3: deck too large\n"),
    (["deal", "4294967294", "4294967295", "18446744073709551615"], b"apf: dealer fault 2: hand too large\n"),
    (["deal", "16", "16", "0"], b"apf: dealer fault 4: too much entropy\n"),
    (["deal", "64", "11", "0"], b"apf: dealer fault 4: too much entropy\n"),
]:
    tally.check(" ".join(words), run(program, words), (2, b"", line))

# help that is asked for goes to standard output, and has a line for each command, argument and file
COMMANDS = ["  hash ", "  deal ", "  replay ", "  run ", "  services ", "  waits ", "  explain ", "  serve ", "  simulate ", "  timeline ", "  compare ", "  fates ", "  requests ", "  picture ", "  hands ", "  trace ", "  objects ", "  match ", "  cluster "]
COMMANDS += ["apf hash workload-low alice", "  2 "]
DEAL = ["<DECK>", "<HAND>", "<HASH>", "printf %u 0x", "not positive", "hand too large", "deck too large", "too much entropy"]
SCRIPT = ["<CONFIG>", "<REQUESTS>", "<SCRIPT>"]
CONFIG = ["limit", "10000", "queues", "1024", "64", "handSize", "15", "queueLengthLimit", "50", "limitResponse", '"Queue"', '"Reject"']
REQUESTS = ["hash", "schema", "distinguisher", "width", "20000", "work", "1000000", "cancels", "closes"]
LINES = ["arrive N", "finish N", "cancel N", "close", "limit N"]
# each command on a trace says the form of its file and the unit of its times, and that no server is simulated
TIMES = ["<TRACE>", "JSON Lines", "microseconds", "not kube-apiserver"]
LEVEL = ["<CONFIG>", *TIMES]
PATIENCE = [*LEVEL, "<PATIENCE>", "0 to 1000000000", "15s", "500ms", "--charge <BY>", "time", "seats"]
TRACE = ["arrivesAt", "1000000000000", "runsFor", "10000000000", "hash", "schema", "distinguisher", "width", "cost", "20000", "4294967295", "10000 lines", "65536"]
FLOW = ["flow H requests N executed E rejected J cancelled X seat-time T wait median A p99 B longest C of", "SCHEMA DISTINGUISHER", "end T seat-time U of V waited W patience P"]
for words, says in [
    (["--help"], COMMANDS),
    (["-h"], COMMANDS),
    (["help"], COMMANDS),
    (["hash", "--help"], ["<SCHEMA>", "<DISTINGUISHER>", "16"]),
    (["deal", "--help"], DEAL),
    (["help", "deal"], DEAL),
    (["replay", "--help"], SCRIPT + CONFIG + REQUESTS + LINES),
    (["run", "--help"], ["<CONFIG>", "<REQUESTS>", "<WORKERS>", "1 to 64", "--rounds <N>", "1 (the default) to 1000000"] + CONFIG + REQUESTS),
    (["serve", "--help"], ["<CONFIG>", "--slots <S>", "--name <NAME>", "--charge <BY>", "10000", "253", "time", "seats", "standard input", "docs/SERVE.md"]),
    (["help", "serve"], ["--slots <S>"]),
    (["help", "run"], ["<WORKERS>"]),
    (["help", "requests"], TIMES),
    (["help", "hands"], LEVEL + ["covered by"]),
    (["services", "--help"], SCRIPT + ["queue Q entered N service S", "apf replay --help"]),
    (["simulate", "--help"], PATIENCE + TRACE + FLOW + ["--bound", "bound A B D cost M misjudged E limit L", "bound none"]),
    (["timeline", "--help"], PATIENCE + ["apf replay", "script"]),
    (["compare", "--help"], PATIENCE + ["<OTHER>", "median", "p99", "longest", "rejected", "cancelled", "whole", "column -t"]),
    (["help", "compare"], PATIENCE + ["<OTHER>"]),
    (["fates", "--help"], PATIENCE + ["arrival", "queue", "start", "end", "decision", "concurrency-limit", "column -t"]),
    (["help", "fates"], PATIENCE),
    (["requests", "--help"], TIMES + ["apf replay", "width"]),
    (["picture", "--help"], PATIENCE + ["SVG", "apf simulate --help", "those whose requests waited longest in sum, of flows with equal sums", "The others share the last row", "With --from T or --to T it draws that stretch"]),
    (["trace", "--help"], ["<AUDITLOG>", "<SCHEMA>", "user.username", "requestReceivedTimestamp", "microseconds", "4096 bytes"]),
    (["objects", "--help"], ["<OBJECTS>", "--seats <N>", "1000000", "600", "kubectl", "v1beta2", "dangling"]),
    (["match", "--help"], ["<OBJECTS>", "--user <NAME>", "--group <NAME>", "--path <PATH>", "--log <LOG>", "system:authenticated", "impersonatedUser"]),
    (["cluster", "--help"], ["<OBJECTS> <AUDITLOG> <PATIENCE>", "--set <KEY=VALUE>", "--against <OBJECTS>", "--warm-up <TIME>", "--picture <FILE>", "LEVEL.shares=60", "schema:NAME.rate=2x", "user:NAME.rate=2x", "server.seats=800", "a>b", "~"]),
    (["help", "cluster"], ["--flows <N>", "--no-lending", "--level <NAME>", "--trace", "--json"]),
    (["hands", "--help"], LEVEL + ["flow H hand Q1 Q2 .. of SCHEMA DISTINGUISHER", "shares Q with N flows", "covered by H", "covered by N more"]),
    (["explain", "--help"], SCRIPT + ["prints one line", "prints nothing", "apf: config fault 5: bad value of limit"]),
    (["waits", "--help"], SCRIPT + ["request R queue Q ahead A most M all T", "twice the widest"]),
]:
    status, out, err = run(program, words)
    tally.check(" ".join(words), (status, [it for it in says if it not in out.decode()], err), (0, [], b""))
    # but for what an example prints
    wide = [line for line in out.decode().split("\n") if len(line) > 100 and not line.startswith("  flow 0")]
    tally.check(" ".join(words) + " is narrow", wide, [])

# each command's help has an example, which runs on the repository's files and prints what it says, and the exit statuses
for command in [it.strip() for it in COMMANDS if it.startswith("  ") and it.strip() != "2"]:
    help_text = run(program, [command, "--help"])[1].decode()
    tally.check(f"help of {command} has the statuses", re.findall(r"^Status: 0 (?:done|no fault), 1 .*2 a command line's fault.*3(?: |\n)no memory", help_text, re.M | re.S) != [], True)
    shown = re.findall(r"^  \$ ((?:.*\\\n +)*.*\n(?:  >.*\n)*)((?:  [^$].*\n)*)", help_text, re.M)
    tally.check(f"help of {command} has an example of it", any(re.search(rf"\bapf {command}\b", it) for it, _ in shown), True)
    tally.check(f"help of {command} has no example that is not run", re.findall(r"^  apf .*$", help_text, re.M), [])
    script = "".join(re.sub("^  > ", "", it, flags=re.M) + "printf '\\0'\n" for it, _ in shown)
    with tempfile.TemporaryDirectory() as folder:
        shutil.copytree(os.path.join(TOP, "examples"), os.path.join(folder, "examples"))
        script = 'program=$1\napf() { "$program" "$@" 2>&1; }\n' + script
        got = subprocess.run(["bash", "-c", script, "", program], cwd=folder, stdin=subprocess.DEVNULL, stdout=subprocess.PIPE, stderr=subprocess.STDOUT, timeout=120).stdout
    for (example, printed), said in zip(shown, got.decode().split("\0")):
        tally.check(f"example of {command}: {example}", said, re.sub("^  ", "", printed, flags=re.M))

# the examples of the program's own help run on them too
help_text = run(program, ["--help"])[1].decode()
shown = [line.split() for line in re.findall(r"^  apf ((?:hash|replay) .*)$", help_text.partition("Examples:\n")[2], re.M)]
tally.check("help has two examples", [it[0] for it in shown], ["hash", "replay"])
for words in shown:
    status, out, err = run(program, words, cwd=TOP)
    tally.check(f"the example {words} runs", (status, out != b"", err), (0, True, b""))

# the version, which is the crate's own
for words in (["--version"], ["-V"]):
    tally.check(" ".join(words), run(program, words), (0, b"apf 0.1.0\n", b""))

# a command line that is refused says so on standard error alone, in clap's words
for words in [
    [],
    ["nonsense"],
    ["--nonsense"],
    ["hash"],
    ["hash", "a"],
    ["hash", "a", "b", "c"],
    ["deal"],
    ["deal", "1", "2"],
    ["deal", "a", "1", "1"],
    ["deal", "1", "-1", "1"],
    ["deal", "1", "1.5", "1"],
    ["deal", "", "1", "1"],
    ["deal", "4294967296", "1", "0"],
    ["deal", "1", "4294967296", "0"],
    ["deal", "1", "1", "18446744073709551616"],
    ["replay", "a", "b"],
    ["services", "a", "b"],
    ["waits", "a", "b"],
    ["explain", "a", "b"],
    ["explain", "a", "b", "c", "d"],
    ["run", "a", "b"],
    ["run", "a", "b", "0"],
    ["run", "a", "b", "65"],
    ["run", "a", "b", "c"],
    ["run", "a", "b", "1", "--rounds", "0"],
    ["run", "a", "b", "1", "--rounds", "1000001"],
    ["serve"],
    ["serve", "a", "b"],
    ["serve", "a", "--slots", "0"],
    ["serve", "a", "--slots", "10001"],
    ["serve", "a", "--slots", "-1"],
    ["serve", "a", "--slots", "many"],
    ["serve", "a", "--name", ""],
    ["serve", "a", "--name", "A"],
    ["serve", "a", "--name", "a_b"],
    ["serve", "a", "--name", "a b"],
    ["serve", "a", "--name", "ä"],
    ["serve", "a", "--name", "a" * 254],
    ["simulate", "a", "b"],
    ["simulate", "a", "b", "0", "0"],
    ["simulate", "a", "b", "1000000001"],
    ["simulate", "a", "b", "-1"],
    ["timeline", "a", "b"],
    ["timeline", "a", "b", "0", "0"],
    ["timeline", "a", "b", "1000000001"],
    ["timeline", "a", "b", "1.5"],
    ["timeline", "a", "b", "1.5h"],
    ["compare"],
    ["compare", "a", "b", "0"],
    ["compare", "a", "b", "c"],
    ["compare", "a", "b", "c", "0", "0"],
    ["compare", "a", "b", "c", "1001s"],
    ["compare", "a", "b", "c", "-1"],
    ["fates"],
    ["fates", "a", "b"],
    ["fates", "a", "b", "0", "0"],
    ["fates", "a", "b", "15 s"],
    ["requests"],
    ["requests", "a", "b"],
    ["hands", "a"],
    ["hands", "a", "b", "0"],
    ["picture", "a", "b"],
    ["picture", "a", "b", "0", "0"],
    ["picture", "a", "b", "1000000001"],
    ["trace", "a"],
    ["trace", "a", "b", "c"],
    ["trace", "a", "b" * 4097],
]:
    status, out, err = run(program, words)
    tally.check(" ".join(["apf", *words]), (status, out, len(err) > 0), (2, b"", True))

# and which word it is, or which one is missing
MISSING, UNKNOWN, NO_VALUE = "the following required arguments were not provided:\n  ", "unexpected argument ", "a value is required for "
for words, line in [
    ([], "'apf' requires a subcommand but one was not provided\n"),
    (["nonsense"], "unrecognized subcommand 'nonsense'\n"),
    (["simulation", "c", "t", "0"], "unrecognized subcommand 'simulation'\n"),
    (["hash", "a"], MISSING + "<DISTINGUISHER>\n"),
    (["hash", "a", "b", "c"], UNKNOWN + "'c' found\n"),
    (["hash", "-a", "b"], UNKNOWN + "'-a' found\n"),
    (["deal", "1", "2"], MISSING + "<HASH>\n"),
    (["deal", "a", "1", "1"], "invalid value 'a' for '<DECK>'"),
    (["deal", "4294967296", "1", "0"], "invalid value '4294967296' for '<DECK>'"),
    (["deal", "1", "4294967296", "0"], "invalid value '4294967296' for '<HAND>'"),
    (["deal", "1", "1", "18446744073709551616"], "invalid value '18446744073709551616' for '<HASH>'"),
    (["deal", "1", "1", "1.0"], "invalid value '1.0' for '<HASH>'"),
    *[([command, "a"], MISSING + "<REQUESTS>\n  <SCRIPT>\n") for command in ("replay", "services", "waits", "explain")],
    *[([command, "a", "b"], MISSING + "<SCRIPT>\n") for command in ("replay", "services", "waits", "explain")],
    (["run", "a"], MISSING + "<REQUESTS>\n  <WORKERS>\n"),
    (["run", "a", "b", "0"], "invalid value '0' for '<WORKERS>': 0 is not in 1..=64\n"),
    (["run", "a", "b", "65"], "invalid value '65' for '<WORKERS>': 65 is not in 1..=64\n"),
    (["run", "c", "r", "8", "--rounds", "0"], "invalid value '0' for '--rounds <N>': 0 is not in 1..=1000000\n"),
    (["run", "c", "r", "8", "--rounds", "1000001"], "invalid value '1000001' for '--rounds <N>': 1000001 is not in 1..=1000000\n"),
    (["run", "c", "r", "8", "--rounds"], NO_VALUE + "'--rounds <N>' but none was supplied\n"),
    (["serve", "c", "--rounds", "2"], UNKNOWN + "'--rounds' found\n"),
    (["serve"], MISSING + "<CONFIG>\n"),
    (["serve", "c", "r"], UNKNOWN + "'r' found\n"),
    (["serve", "c", "--slots", "0"], "invalid value '0' for '--slots <S>': 0 is not in 1..=10000\n"),
    (["serve", "c", "--slots", "10001"], "invalid value '10001' for '--slots <S>': 10001 is not in 1..=10000\n"),
    (["serve", "c", "--slots", "x"], "invalid value 'x' for '--slots <S>'"),
    (["serve", "c", "--slots"], NO_VALUE + "'--slots <S>' but none was supplied\n"),
    (["serve", "c", "--charge"], NO_VALUE + "'--charge <BY>' but none was supplied\n"),
    (["serve", "c", "--name"], NO_VALUE + "'--name <NAME>' but none was supplied\n"),
    (["serve", "c", "--slots=1", "--slots=2"], "the argument '--slots <S>' cannot be used multiple times\n"),
    (["simulate", "c", "t", "-1"], UNKNOWN + "'-1' found\n"),
    *[([command, "c"], MISSING + "<TRACE>\n  <PATIENCE>\n") for command in ("simulate", "timeline", "fates", "picture")],
    *[([command, "c", "t"], MISSING + "<PATIENCE>\n") for command in ("simulate", "timeline", "fates", "picture")],
    *[([command, "c", "t", "0", "1"], UNKNOWN + "'1' found\n") for command in ("simulate", "timeline", "fates", "picture")],
    (["simulate", "c", "t", "0", "--flow", "a"], UNKNOWN + "'--flow' found\n"),
    (["compare", "c"], MISSING + "<OTHER>\n  <TRACE>\n  <PATIENCE>\n"),
    (["compare", "c", "o", "t"], MISSING + "<PATIENCE>\n"),
    (["compare", "c", "o", "t", "0", "1"], UNKNOWN + "'1' found\n"),
    (["requests"], MISSING + "<TRACE>\n"),
    (["requests", "c", "t"], UNKNOWN + "'t' found\n"),
    (["hands"], MISSING + "<CONFIG>\n  <TRACE>\n"),
    (["hands", "c"], MISSING + "<TRACE>\n"),
    (["hands", "c", "t", "0"], UNKNOWN + "'0' found\n"),
    (["hands", "c", "t", "--flow"], NO_VALUE + "'--flow <NAME>' but none was supplied\n"),
    (["hands", "c", "t", "--user", "a"], UNKNOWN + "'--user' found\n"),
    (["trace", "l", "s", "--since"], NO_VALUE + "'--since <INSTANT>' but none was supplied\n"),
    (["trace", "l", "s", "--user", "a", "--user", "a"], "the argument '--user <NAME>' cannot be used multiple times\n"),
    (["trace", "l", "s", "--flow", "a"], UNKNOWN + "'--flow' found\n"),
    (["trace", "l", "--by", "user"], MISSING + "<SCHEMA>\n"),
]:
    status, out, err = run(program, words)
    begin = f"error: {line}"
    tally.check(" ".join(["apf", *words, "is told"]), (status, out, err.decode()[: len(begin)]), (2, b"", begin))

# the name of a level is 1 to 253 bytes of a-z, 0-9, . and -
for name in ("A", "", "a b", "a_b", "a/b", "`", "{", "ä", "a\n", "a" * 254):
    status, out, err = run(program, ["serve", "c", "--name", name])
    tally.check(f"a level named {name!r}", (status, out, b"for '--name <NAME>': not 1 to 253 of a-z, 0-9, . and -\n" in err), (2, b"", True))
level = files("level.json", '{"limit":1}')
for name in ("a", "z", "0", "9", ".", "workload-low", "a.b-9", "a" * 253):
    done = subprocess.run([program, "serve", "--name", name, "--slots=3", level], input=b"metrics\n", capture_output=True, timeout=60)
    tally.check(f"a level named {name!r}", (done.returncode, f'"{name}"'.encode() in done.stdout, done.stderr), (0, True, b""))

# the slots of a level, at their ends and where they are left out, by its first line
for words, slots in ((["--slots", "1"], 1), (["--slots", "10000"], 10_000), (["--slots", "007"], 7), ([], 10_000)):
    status, out, err = run(program, ["serve", level, *words])
    tally.check(f"a level with {words}", (status, out.split(b"\n")[0], err), (0, b"serve 1 slots %d limit 1 queues 64 hand 8 length 50 queue" % slots, b""))

# a level's options before its config, each with its text as the next word or behind `=`. Charged by seats, the wide request that came first is dispatched first
two = files("two.json", '{"limit":1,"queues":2,"handSize":1}')
lines = ['arrive 0 {"hash":0}', 'arrive 1 {"hash":0,"width":3}', 'arrive 2 {"hash":1,"cost":7}', 'arrive 3 {"hash":0}', "finish 0 300000", "metrics"]
answers = ["serve 1 slots 3 limit 1 queues 2 hand 1 length 50 queue", "arrive 0 execute", "arrive 1 queued 0", "arrive 2 queued 1", "fault 4 bad number", "finish 0", "dispatch 1 queue 0"]
status, out, err = run(program, ["serve", "--name", "a.b-9", "--slots=3", "--charge=seats", two], "".join(f"{it}\n" for it in lines).encode())
told = out.decode().split("\n")
tally.check("a level's options before its config", (status, told[: len(answers)], any('priority_level="a.b-9"' in it for it in told), err), (0, answers, True, b""))

# what a terminal would obey is escaped where a word is told
for word, told in [("h\x1b[31m", b"'h\\u001b[31m'"), ("\x7f\u0085", b"'\\u007f\\u0085'"), ("\u202eh", b"'\\u202eh'"), ("\u2066", b"'\\u2066'")]:
    for words in ([word], ["deal", word, "1", "1"], ["hash", "a", "b", word]):
        status, out, err = run(program, words)
        tally.check(f"{words!r} is told escaped", (status, out, told in err, word.encode() in err), (2, b"", True, False))

# words that are not UTF-8, in any place: one line, and a command line's fault
LINE = b"apf: the command line is not UTF-8\n"
for words in ([b"hash", b"\xff", b"a"], [b"\xc3"], [b"replay", b"a", b"b", b"\xed\xa0\x80"], [b"hash", b"a", b"b\xff", b"c"]):
    tally.check(repr(words), run(program, words), (2, b"", LINE))
tally.check("UTF-8", run(program, ["hash", "ä€😀".encode(), b""])[0], 0)

# what `hash` prints is dealt by the line of the help, which turns it into decimal digits
for schema, distinguisher in [("", ""), ("workload-low", "alice"), ("ä", "😀"), ("a", "1"), ("b", "22")]:
    status, out, err = run(program, ["hash", schema, distinguisher])
    plain = run(program, ["deal", "64", "8", str(int(out, 16))])
    line = '"$1" deal 64 8 $(printf %u 0x$("$1" hash "$2" "$3"))'
    for shell in ("bash", "sh"):
        tally.check(f"{shell}: {schema} {distinguisher}", run(shell, ["-c", line, shell, program, schema, distinguisher]), plain)
    tally.check(f"deal {out}", (plain[0], plain[1].count(b" ")), (0, 7))
    status, out, err = run(program, ["deal", "64", "8", "0x" + out.decode().strip()])
    tally.check("0x is no decimal number", (status, out, err.startswith(b"error: invalid value '0x")), (2, b"", True))

# texts of any kind
status, out, err = run(program, ["hash", "--", "-a", "--help"])
tally.check("hash -- -a --help", (status, len(out), err), (0, 17, b""))
tally.end()
