"""The tests themselves: programs that are wrong in one thing, each of which a script here must fail, at the row that is named.

Each wrong program stands in front of the built one. APF_PROGRAM names it to the script; APF_SPOILED leaves out random files, APF_ROUNDS runs of many
requests and those whose requests work long, APF_TRACES most of the drawn traces, APF_SESSIONS most of the drawn sessions of a live level, and
APF_REQUESTS most of the requests that pass through it. APF_STOPS_AT ends a script at the row, which has failed then.
"""

import os
import subprocess
import sys
from concurrent.futures import ThreadPoolExecutor

HERE = os.path.dirname(os.path.abspath(__file__))
sys.path.insert(0, os.path.join(HERE, "lib"))
from harness import Files, Tally, build, build_serving

tally = Tally()
program = build()
_, serves = build_serving()
files = Files()

# in front of the built program; `replay` has the words, and `instead` ends with another answer
BEGIN = f"""#!{sys.executable} -ISs
import os, sys
words = sys.argv[1:]
replay = words[1:] if words[:1] == ["replay"] and len(words) == 4 else None
def answer(words):
    # most calls are passed on, and need none of it
    import subprocess
    done = subprocess.run([{program!r}, *words], capture_output=True)
    return done.returncode, done.stdout, done.stderr
def instead(status, out, err):
    sys.stdout.buffer.write(out)
    sys.stderr.buffer.write(err)
    sys.stdout.flush()
    sys.exit(status)
"""
END = """
os.execv({program!r}, [{program!r}, *words])
""".format(program=program)


def python(body):
    return BEGIN + body + END


def shell(body):
    return f'#!/bin/sh\n{body}\nexec {program} "$@"\n'


# runs other requests than those of the file
def other_requests(change):
    return shell(f"""[ "$1" = run ] && {{ config=$2; other=$(mktemp); sed -E '{change}' "$3" >"$other"; shift 3; {program} run "$config" "$other" "$@"; status=$?; rm "$other"; exit $status; }}""")


# replays another file in the place of the config or of the requests, where that one can be read
def other_file(place, change):
    words = " ".join('"$other"' if at == place else f'"${at}"' for at in (2, 3, 4))
    return shell(f"""[ "$1" = replay ] && [ $# = 4 ] && [ -f "${place}" ] && {{ other=$(mktemp); sed -E '{change}' "${place}" >"$other"; {program} replay {words}; status=$?; rm "$other"; exit $status; }}""")


# says instead that a file can't be read, where that is so and the program finds fault with another one
def early(place, name, other):
    return shell(f"""[ "$1" = replay ] && [ $# = 4 ] && ! cat "${place}" >"/dev/null" 2>&1 && {{ said=$({program} "$@" 2>&1 >/dev/null); case $said in *" {other}"*) echo "apf: cannot read {name}" >&2; exit 1 ;; esac; }}""")


# answers a run that is refused memory by a usage error; it takes no memory of its own
USAGE = r"""
#include <stdlib.h>
#include <sys/wait.h>
#include <unistd.h>
#include <fcntl.h>
int main(int count, char **words) {
    if (!getenv("APF_REFUSE"))
        execv(PROGRAM, words);
    int out[2], err[2];
    if (pipe(out) || pipe(err))
        return 9;
    if (!fork()) {
        dup2(out[1], 1);
        dup2(err[1], 2);
        close(out[0]), close(err[0]), close(out[1]), close(err[1]);
        execv(PROGRAM, words);
        _exit(9);
    }
    close(out[1]), close(err[1]);
    static char first[65536], second[65536];
    long one = 0, two = 0, more;
    while ((more = read(out[0], first + one, sizeof first - one)) > 0)
        one += more;
    while ((more = read(err[0], second + two, sizeof second - two)) > 0)
        two += more;
    int status;
    wait(&status);
    if (WEXITSTATUS(status) == 3)
        return write(2, "error: usage\n", 13) < 0 ? 9 : 2;
    if (write(1, first, one) < 0 || write(2, second, two) < 0)
        return 9;
    return WEXITSTATUS(status);
}
"""

# numbers the workers from one
NUMBERED = USAGE.replace("#include <unistd.h>\n", "#include <string.h>\n#include <unistd.h>\n").replace(
    '''    if (WEXITSTATUS(status) == 3)
        return write(2, "error: usage\\n", 13) < 0 ? 9 : 2;
''',
    '''    if (!strncmp(second, "apf: worker ", 12))
        second[12]++;
''',
)


# tells words that are not UTF-8 as no memory
NOT_UTF_8 = r"""
#include <locale.h>
#include <stdlib.h>
#include <unistd.h>
int main(int count, char **words) {
    if (!setlocale(LC_CTYPE, "C.UTF-8"))
        return 9;
    for (int word = 1; word < count; word++)
        if (mbstowcs(NULL, words[word], 0) == (size_t)-1)
            return write(2, "apf: out of memory\n", 19) < 0 ? 9 : 3;
    execv(PROGRAM, words);
    return 9;
}
"""


def compiled(path, text):
    source = files(os.path.basename(path) + ".c", text)
    subprocess.run(["cc", "-O1", f'-DPROGRAM="{program}"', "-o", path, source], check=True)


# passes the lines of `serve` on, and its answers; `sent` and `told` say what becomes of each, `flushes` what is done behind each answer
def serve(sent="line", told="line", flushes="sys.stdout.flush()", status="child.wait()"):
    return python(f"""
if words[:1] == ["serve"]:
    import queue, re, subprocess, threading
    kept = []
    child = subprocess.Popen([{program!r}, *words], stdin=subprocess.PIPE, stdout=subprocess.PIPE, bufsize=0)
    def send():
        for line in sys.stdin.buffer:
            child.stdin.write({sent})
        child.stdin.close()
    threading.Thread(target=send, daemon=True).start()
    try:
        for line in child.stdout:
            sys.stdout.buffer.write({told})
            {flushes}
        sys.stdout.flush()
    except OSError:
        sys.stdout = open(os.devnull, "w")
        child.kill()
        os.write(2, b"apf: cannot write\\n")
        sys.exit({status} and 1)
    sys.exit(child.wait())
""")


# a level that is wrong, and the row of serve.py at which it is seen; tried where APF_WRONG_LEVELS is set, since each takes a minute and more
WRONG_LEVELS = [
    ("a try that may wait", serve(sent='re.sub(rb"^try ", b"arrive ", line)'), "FAILED session"),
    ("a level that charges nothing but widths", serve(sent="""re.sub(rb'"cost": ?[1-9][0-9]*', b'"width":1', line) if b"width" not in line else line"""), "FAILED session"),
    ("a level that says nothing of strikes", serve(told='b"" if line.startswith(b"strike") else line'), "FAILED session"),
    ("faults that are counted from 0", serve(told='re.sub(rb"^fault ([0-9]+)", lambda it: b"fault %d" % (int(it[1]) - 1), line)'), "FAILED session"),
    ("lines of 65,536 bytes that are too long", serve(sent='b"x" * 70_000 + b"\\n" if len(line) == 65_537 else line'), "FAILED a line of 65536 bytes"),
    ("a last line that needs no LF", serve(sent='line if line.endswith(b"\\n") else line + b"\\n"'), "FAILED bytes behind the last LF"),
    ("a closed output that is taken for an end", serve(status="0"), "FAILED a closed output"),
    ("a level that keeps what it read", serve(sent="kept.append(line * 3) or line"), "FAILED many requests: the memory in use"),
    ("counters that are gauges", serve(told='line.replace(b" counter", b" gauge")'), "FAILED the metrics of level"),
    ("a sample that stands twice", serve(told='line * 2 if b"reason=" in line else line'), "FAILED the metrics of level"),
    ("a level that forgets its name", serve(told='re.sub(rb"priority_level=.[^,}]*", b\'priority_level="level"\', line)'), "FAILED the metrics of global-default"),
]

# name, the wrong program, the script that must fail, and the row at which it does
WRONG = [
    ("nonsense", shell('echo "apf: nonsense" >&2; exit 1'), "files.py", "FAILED b'{\"limit\":0}'"),
    ("another number of a fault", shell('[ "$1" = replay ] && grep -q 20001 "$3" && { echo "apf: requests fault 8 at 0: bad width" >&2; exit 1; }'), "files.py", 'FAILED b\'[{"hash":0,"width":20001}]\''),
    ("no memory for a config of over 64 KiB", shell('[ "$1" = replay ] && [ "$(wc -c <"$2")" -gt 65536 ] && { echo "apf: out of memory" >&2; exit 3; }'), "files.py", "FAILED a config of over 64 KiB"),
    ("no memory for 9,999 requests", shell('[ "$1" = replay ] && [ "$(wc -c <"$3")" -eq 109990 ] && { echo "apf: out of memory" >&2; exit 3; }'), "files.py", "FAILED 9999 requests"),
    ("no memory told as a usage error", USAGE, "memory.py", "FAILED hash a b without allocation 1"),
    ("workers that are numbered from one", NUMBERED, "memory.py", "FAILED run config requests 1 without allocation"),
    ("each width is 1", other_file(3, 's/"width" *: *[1-9][0-9]*/"width":1/g'), "replay.py", "FAILED widths 2 and 1 of 2 seats"),
    ("the limit is 1", other_file(2, 's/"limit" *: *[1-9][0-9]*/"limit":1/g'), "replay.py", "FAILED limit 2, widths (1, 1)"),
    ("Reject is replayed as Queue", other_file(2, "s/Reject/Queue/g"), "replay.py", "FAILED Reject"),
    ("the script is read before the requests", early(4, "script", "requests"), "replay.py", "FAILED the requests before the script"),
    ("the requests are read before the config is judged", early(3, "requests", "config"), "replay.py", "FAILED the config before the requests"),
    ("the dealer is judged before the requests are read", shell('[ "$1" = replay ] && [ $# = 4 ] && { said=$(echo "[]" | %s replay "$2" - /dev/null 2>&1 >/dev/null); case $said in *dealer*) echo "$said" >&2; exit 1 ;; esac; }' % program), "replay.py", "FAILED the requests before the dealer"),
    ("help that has no line for run", shell('[ "$*" = --help ] && { %s --help | grep -v "^  run "; exit 0; }' % program), "command_line.py", "FAILED --help"),
    ("words that are not UTF-8 told as no memory", NOT_UTF_8, "command_line.py", "FAILED [b'hash', b'\\xff', b'a']"),
    ("a run that finds no memory", shell('[ "$1" = run ] && { echo "apf: out of memory" >&2; exit 3; }'), "workers.py", "FAILED thousand workers"),
    ("a run that closes nothing", other_requests('s/, "closes": true//g'), "workers.py", "FAILED cancels and closes"),
    ("a run that cancels nobody", other_requests('s/, "cancels": [0-9]+//g'), "workers.py", "FAILED all cancel one"),
    ("rounds of which one is run", shell('[ "$1" = run ] && [ "$5" = --rounds ] && exec %s run "$2" "$3" "$4"' % program), "rounds.py", "FAILED all fit"),
    ("rounds that close nothing", other_requests('s/, "closes": true//g'), "rounds.py", "FAILED closes"),
    ("rounds that cancel nobody", other_requests('s/, "cancels": [0-9]+//g'), "rounds.py", "FAILED a crowd at one seat: some were cancelled"),
    ("fates in which each request starts a microsecond late", python('''
if words[:1] == ["fates"]:
    status, out, err = answer(words)
    rows = [row.split(b" ") for row in out.split(b"\\n")]
    for row in rows[1:]:
        if row[4:5] not in ([], [b"-"]):
            row[4] = b"%d" % (int(row[4]) + 1)
    instead(status, b"\\n".join(map(b" ".join, rows)), err)
'''), "compare.py", "FAILED a crawler and alice fates 90"),
    ("compare with its levels exchanged", shell('[ "$1" = compare ] && [ $# -ge 5 ] && exec %s compare "$3" "$2" "$4" "$5" ${6+"$6"}' % program), "compare.py", "FAILED the one whose longest wait changes most comes first"),
    ("requests charged by seats though time was asked", python("""
if words[-1:] == ["--charge=time"]:
    instead(*answer([*words[:-1], "--charge=seats"]))
"""), "charged.py", "FAILED fates by time of"),
    ("requests charged by seats where nothing is said", python("""
if words[:1] == ["fates"] and len(words) == 4:
    instead(*answer([*words, "--charge=seats"]))
"""), "charged.py", "FAILED fates as usual of"),
    ("milliseconds that are taken for microseconds", shell('case "$1:$4" in fates:*ms) exec %s fates "$2" "$3" "${4%%ms}" ;; esac' % program), "compare.py", "FAILED fates with the patience '500ms'"),
    ("a patience that is judged after the config", shell("""if [ "$1" = fates ] && [ $# = 4 ]; then
  case $(PROGRAM fates /dev/null /dev/null "$4" 2>&1) in "apf: PATIENCE"*)
    early=$(PROGRAM fates "$2" "$3" 0 2>&1 >/dev/null)
    case $early in "apf: cannot read config"* | "apf: config fault"*) echo "$early" >&2; exit 1 ;; esac ;;
  esac
fi""".replace("PROGRAM", program)), "compare.py", "FAILED fates ["),
    *((name, text, "serve.py", row) for name, text, row in (WRONG_LEVELS if serves and os.environ.get("APF_WRONG_LEVELS") else [])),
    ("a config's fault without what explains it", python('''
if words[:1] == ["simulate"]:
    status, out, err = answer(words)
    instead(status, out, err.split(b"\\n")[0] + b"\\n" if status else err)
'''), "messages.py", 'FAILED simulate of {"limit":1'),
    ("an explanation behind an old line", python('''
if replay:
    status, out, err = answer(words)
    instead(status, out, err + (answer(["explain", *replay])[1] if status else b""))
'''), "messages.py", 'FAILED replay of {"limit":1, as ever'),
    ("a full disk that is told as done", shell('[ "$1" = hash ] && { %s "$@" 2>/dev/null; exit 0; }' % program), "rooms.py", "FAILED hash with room for 0 bytes"),
    ("requests that do not work", other_requests('s/"work": [0-9]+/"work": 0/g'), "turns.py", "FAILED five requests"),
    ("one worker that has all requests", shell('[ "$1" = run ] && exec %s run "$2" "$3" 1 "$5" "$6"' % program), "turns.py", "FAILED the shares of 6 requests by 2 workers"),
    ("hands that are not spread", shell("""[ "$1" = hands ] && { %s "$@" | sed -E 's/ hand [0-9 ]* of / hand 0 1 2 3 4 5 6 7 8 9 10 11 of /'; exit 0; }""" % program), "dealing_table.py", "FAILED (12, 32, 4)"),
]


def tried(wrong):
    name, text, script, row = wrong
    path = os.path.join(files.folder.name, name.replace(" ", "-").replace(",", ""))
    if text in (USAGE, NUMBERED, NOT_UTF_8):
        compiled(path, text)
    else:
        with open(path, "w") as file:
            file.write(text)
        os.chmod(path, 0o755)
    done = subprocess.run([sys.executable, "-S", os.path.join(HERE, script)], env=dict(os.environ, APF_PROGRAM=path, APF_SPOILED="0", APF_ROUNDS="1", APF_TRACES="20", APF_SESSIONS="60", APF_REQUESTS="30000", APF_STOPS_AT=row), capture_output=True, timeout=600)
    lines = done.stdout.decode(errors="replace").split("\n")
    return name, (done.returncode, any(line.startswith(row) for line in lines), done.stderr), lines


with ThreadPoolExecutor(4) as pool:
    for name, got, lines in pool.map(tried, WRONG):
        tally.check(f"a program is caught: {name}: {[it for it in lines if it.startswith('FAILED')][:3]}", got, (1, True, b""))
tally.end()
