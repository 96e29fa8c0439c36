"""The pages for users, README.md and those of PAGES: each file that they show is written, each command is run, and its output compared. The other
pages, where they name what the sources have. docs/proof/AUDIT.md and DEFINITIONS.md are made again. The links of all pages.

A block whose first line is ```LANGUAGE NAME is a file of that name. A block ```console has commands after `$ `, each
followed by what it prints. A block ```session CONFIG WORDS has what `apf serve` is sent, after `> `, and what it answers to each line; `>` alone is the
end of its input. A page is run in a folder of its own that has the examples and the program as ./apf.
"""

import functools
import os
import re
import select
import shutil
import subprocess
import sys
import tempfile

sys.path.insert(0, os.path.join(os.path.dirname(os.path.abspath(__file__)), "lib"))
from contracts import Contracts
from definitions import page as definitions_page, rows_of_proved
from harness import TOP, Tally, build, build_serving, lines_of_crates
from statements import page as audit_page

tally = Tally()
program = build()
# the python3 of the commands is the one that runs this
tools = tempfile.TemporaryDirectory(prefix="apf-test-")
os.symlink(sys.executable, os.path.join(tools.name, "python3"))
os.environ["PATH"] = os.pathsep.join([tools.name, os.environ["PATH"]])
# what is shown and not run: the tests, which run this one
SHOWN = {"./test", "./test all"}
COMMANDS = "hash|deal|replay|services|waits|run|explain|simulate|timeline|compare|fates|requests|hands|picture|trace|objects|match|serve"


def blocks(page):
    """Each block, as its first line without the backquotes, and its lines."""
    return [(head, body) for head, body in re.findall(r"^```([^\n]*)\n(.*?)^```$", page, re.M | re.S)]


def commands(body):
    """Each command of a console block, with the text that follows it."""
    parts = re.split(r"^\$ (.*)\n", body, flags=re.M)
    return [*zip(parts[1::2], parts[2::2])], parts[0]


def talk(folder, words, body):
    """What a session shows when it is held with the program: each line is sent once the answers that stand before it are there."""
    process = subprocess.Popen(["./apf", "serve", *words], cwd=folder, stdin=subprocess.PIPE, stdout=subprocess.PIPE, bufsize=0)
    said = told = ""
    for part in re.split("^(?=>)", body, flags=re.M):
        sent, answers = part.split("\n", 1) if part.startswith(">") else ("", part)
        if sent == ">":
            process.stdin.close()
        elif sent:
            process.stdin.write(sent[2:].encode() + b"\n")
        # what is more than the page shows is read before the next answer
        while told.count("\n") < answers.count("\n") and select.select([process.stdout], [], [], 20)[0] and (more := process.stdout.read(65_536)):
            told += more.decode()
        said, told = said + (f"{sent}\n" if sent else "") + told, ""
    said += process.stdout.read().decode()
    return said + ("" if process.wait(20) == 0 else "its status is not 0")


def checked(name, folder):
    page = open(os.path.join(TOP, name), encoding="utf-8").read()
    ran = 0
    for head, body in blocks(page):
        language, *names = head.split() or [""]
        if language == "session":
            tally.check(f"{name}: the session of {names}", talk(folder, names, body), body)
            ran += 1
        elif names:
            with open(os.path.join(folder, names[0]), "w", encoding="utf-8") as file:
                file.write(body)
        elif language == "console":
            found, before = commands(body)
            tally.check(f"{name}: a console block begins with a command", (before, len(found) > 0), ("", True))
            for command, want in found:
                if command in SHOWN or (command.startswith("jq ") and not shutil.which("jq")):
                    continue
                done = subprocess.run(
                    ["bash", "-c", command], cwd=folder, stdin=subprocess.DEVNULL, stdout=subprocess.PIPE, stderr=subprocess.STDOUT, timeout=120
                )
                tally.check(f"{name}: {command}", done.stdout.decode(), want)
                ran += 1
        else:
            tally.check(f"{name}: a block of a known kind: {head}", language in ("rust", "toml", "sh", "go"), True)
    return ran, page


# the pages with commands, and those of the library and of speed, each with the fewest commands that it may have, and the program that they call
serving, _ = build_serving()
PAGES = {
    "README.md": (3, program),
    os.path.join("docs", "GUIDE.md"): (18, program),
    os.path.join("docs", "CLUSTER.md"): (24, program),
    os.path.join("docs", "LIBRARY.md"): (0, program),
    os.path.join("docs", "SPEED.md"): (0, program),
    os.path.join("docs", "FORMATS.md"): (59, program),
    os.path.join("docs", "SERVE.md"): (6, serving),
}
written = {}
for name, (least, runs) in PAGES.items():
    with tempfile.TemporaryDirectory(prefix="apf-test-") as folder:
        os.symlink(runs, os.path.join(folder, "apf"))
        shutil.copytree(os.path.join(TOP, "examples"), os.path.join(folder, "examples"))
        ran, page = checked(name, folder)
        written[name] = set(os.listdir(folder)) - {"apf", "examples", "__pycache__"}
    tally.check(f"{name}: at least {least} commands, {ran} were run", ran >= least, True)
    # no command of the program stands outside of what was run
    outside = re.sub(r"^```.*?^```$", "", page, flags=re.M | re.S)
    tally.check(f"{name}: each command line is in a block that is run", re.findall(rf"^\s*\$ .*|\./apf (?:{COMMANDS}) \S.*", outside, re.M), [])
# who reads two pages in one folder has the files of both
for name in PAGES:
    others = set().union(*(files for other, files in written.items() if other != name))
    tally.check(f"{name}: no file that it writes is one of another page", sorted(written[name] & others), [])

# each link leads to a file that is there, and to a heading of it where it names one
@functools.cache
def prose(path):
    with open(path, encoding="utf-8") as page:
        return re.sub(r"^```.*?^```$", "", page.read(), flags=re.M | re.S)


@functools.cache
def headings(path):
    """The names by which links call a page's headings."""
    return {re.sub(r"[^\w\- ]", "", it.lower()).replace(" ", "-") for it in re.findall(r"^#+ (.*)$", prose(path), re.M)}


everywhere = ["README.md", *sorted(os.path.relpath(os.path.join(folder, it), TOP) for folder, _, names in os.walk(os.path.join(TOP, "docs")) for it in names if it.endswith(".md"))]
links = 0
for name in everywhere:
    for link in re.findall(r"\]\(([^)\s]+)\)", prose(os.path.join(TOP, name))):
        if not link.startswith("https://"):
            links += 1
            to, _, heading = link.partition("#")
            path = os.path.normpath(os.path.join(TOP, os.path.dirname(name), to)) if to else os.path.join(TOP, name)
            at_line = re.fullmatch(r"L\d+", heading) is not None
            tally.check(f"{name}: the link to {link}", os.path.isfile(path) and (not heading or at_line or heading in headings(path)), True)
tally.check("links are found", links > 40, True)
tally.check("README.md: it links each page", [it for it in everywhere[1:] if f"]({it})" not in prose(os.path.join(TOP, "README.md"))], [])
lines = sum(1 for _ in open(os.path.join(TOP, "README.md"), encoding="utf-8"))
tally.check(f"README.md: at most 150 lines, of {lines}", lines <= 150, True)
lines = sum(1 for _ in open(os.path.join(TOP, "docs", "proof", "AUDIT.md"), encoding="utf-8"))
tally.check(f"docs/proof/AUDIT.md: at most 900 lines, of {lines}", lines <= 900, True)

# the promises of README are the fields of the record that one law proves, each linked to its definition
promises = os.path.join("crates", "apf_line", "specs", "Promises.antt")
with open(os.path.join(TOP, promises), encoding="utf-8") as file:
    defined = file.read().split("\n")
bullets = re.findall(rf"^- \*\*\[(.*?)\]\({re.escape(promises)}#L(\d+)\)\.\*\*", prose(os.path.join(TOP, "README.md")), re.M)
begin = next(at for at, line in enumerate(defined) if line.startswith("pub record Promises "))
fields = re.findall(r"^  pub (\w+) : (.*)", "\n".join(defined[begin : defined.index("", begin)]), re.M)
tally.check("README.md: its promises are the fields of Promises", [bullet.lower().replace(" ", "_") for bullet, _ in bullets], [name for name, _ in fields])
for (bullet, at), (_, said) in zip(bullets, fields):
    named = re.match(r"(?:abbrev )?pub (?:record )?(\w+)", defined[int(at) - 1])
    tally.check(f"README.md: the definition of: {bullet}", named is not None and re.search(rf"\b{named[1]}\b", said) is not None, True)

# the unit and the container of docs/SERVE.md call the gateway by options that it has, and copy files that are there or that go build makes
with open(os.path.join(TOP, "docs", "SERVE.md"), encoding="utf-8") as page, open(os.path.join(TOP, "go", "cmd", "apf-gateway", "main.go"), encoding="utf-8") as gateway:
    text = page.read()
    shown = {head.split()[0]: body for head, body in blocks(text) if head.split()[:1] in (["ini"], ["dockerfile"])}
    options = {f"--{it}" for it in re.findall(r'flags\.\w*Var\(&[\w.]+, "([a-z-]+)"', gateway.read())} | {"--from"}
tally.check("docs/SERVE.md: options of the gateway", set(re.findall(r"(?<!\S)--[a-z-]+", "".join(shown.values()))) - options, set())
copied = [it for line in re.findall(r"^COPY (?!--from)(.*) \S+$", shown["dockerfile"], re.M) for it in line.split()]
tally.check("docs/SERVE.md: files of the container", (len(copied), [it for it in copied if not os.path.exists(os.path.join(TOP, it))]), (3, []))
tally.check("docs/SERVE.md: each option of the gateway has a row", options - {"--from"} - set(re.findall(r"`(--[a-z-]+)", "".join(re.findall(r"^\|.*$", text, re.M)))), set())

# each fault that a table lists is one that its sources have, and the other way round, with a place or without
page = open(os.path.join(TOP, "docs", "FORMATS.md"), encoding="utf-8").read()
listed = {}
for name, rows in re.findall(r"^For .*\(`apf: (\w+) fault \.\.`\).*\n\n((?:\|.*\n)+)", page, re.M):
    listed[name] = [(number, place != "", line) for number, place, line in re.findall(r"^\| `(\d+)( at I| at line L|): ([^`]*)`", rows, re.M)]
wanted = {}
for name, path in (
    ("config", ("apf_files", "src", "config.rt")),
    ("requests", ("apf_files", "src", "requests.rt")),
    ("script", ("apf_files", "src", "script.rt")),
):
    text = open(os.path.join(TOP, "crates", *path), encoding="utf-8").read()
    found = re.findall(r"/// (\d+): .*\n\s*#\[error\(\"(.*)\"\)\]\n\s*\w+(\((?:u32|usize)\)|)", text)
    # what the text itself says is no place
    wanted[name] = [(number, place != "" and "{0}" not in line, line.replace("{0}", "KEY")) for number, line, place in found if line != "out of memory"]
text = open(os.path.join(TOP, "crates", "apf_flow", "src", "fault.rt"), encoding="utf-8").read()
numbers = dict(re.findall(r"^    (\w+) = (\d+),", text, re.M))
wanted["dealer"] = [(numbers[name], False, line) for name, line in re.findall(r"DealerFault::(\w+) => \"(.*)\"", text)]
tally.check("the files whose faults are listed", sorted(listed), sorted(wanted))
# the lines of a trace's and an audit log's faults say more than their texts, so their tables have the numbers, in order; that of memory stands apart
for name in ("trace", "audit"):
    rows = re.search(rf"^For .*\(`apf: {name} fault N at line L: \.\.`\).*\n\n((?:\|.*\n)+)", page, re.M)[1]
    text = open(os.path.join(TOP, "crates", {"trace": "apf_traces", "audit": "apf_audit"}[name], "src", "fault.rt"), encoding="utf-8").read()
    numbered = [number for fault, number in re.findall(r"Fault::(\w+)(?:\([_, ]*\))? => (\d+),", text) if fault != "NoMemory"]
    tally.check(f"the faults of the {name} that are listed", re.findall(r"^\| (\d+) \|", rows, re.M), numbered)
for name in wanted:
    tally.check(f"the faults of the {name} that are listed", sorted(listed.get(name, [])), sorted(wanted[name]))

# each example is shown, and has its three files; the one of an audit log has the log and its trace, and that of the gateway is a backend to try it with
for example in sorted(os.listdir(os.path.join(TOP, "examples"))):
    if os.path.isdir(os.path.join(TOP, "examples", example)):
        names = sorted(it for it in os.listdir(os.path.join(TOP, "examples", example)) if it != "__pycache__")
        level = ["config.json", "requests.json", "script.txt"]
        wanted = {"audit": ["audit.log", "trace.jsonl"], "cluster": ["log.py", "objects.json"], "gateway": ["backend.py"], "noisy-client": ["config.json", "picture.svg", *level[1:], "trace.jsonl"]}.get(example, level)
        tally.check(f"examples/{example}", names, wanted)
        shown = [it for it in PAGES if f"examples/{example}/{wanted[0]}" in open(os.path.join(TOP, it)).read()]
        tally.check(f"examples/{example} is shown", len(shown) > 0, True)

# and of each promise it names a planted bug
named = re.findall(r"`(apf_\w+/\w+)`", prose(os.path.join(TOP, "docs", "proof", "PROVED.md")).partition("For each promise one planted bug")[2].partition("\n")[0])
tally.check("docs/proof/PROVED.md: a planted bug of each promise", (len(named), [it for it in named if not os.path.isfile(os.path.join(TOP, "planted", f"{it}.edit"))]), (len(fields), []))

# each row of docs/proof/PROVED.md names a contract and its files: the files are there, and they or their crates' definitions have each name
rows = rows_of_proved()
tally.check("docs/proof/PROVED.md: at least 200 rows", len(rows) >= 200, True)


@functools.cache
def code_of(path):
    """A source's text without its comments, which are no contracts."""
    text = open(path, encoding="utf-8").read()
    return re.sub({".rt": r"//.*", ".antt": r"--.*", ".py": r"#.*"}[os.path.splitext(path)[1]], "", text)


for row in rows:
    promise = row[0][:70]
    tally.check(f"docs/proof/PROVED.md: a row has three cells: {promise}", (len(row), len(row[0]) > 0), (3, True))
    if len(row) != 3:
        continue
    names, named = re.findall(r"`([^`]+)`", row[1]), re.findall(r"`([^`]+)`", row[2])
    tally.check(f"docs/proof/PROVED.md: a contract and a file of: {promise}", (len(names) > 0, len(named) > 0), (True, True))
    paths = [os.path.join(TOP, it) if it.startswith("tests/") else os.path.join(TOP, "crates", it) for it in named]
    tally.check(f"docs/proof/PROVED.md: the files of: {promise}", [it for it in paths if not os.path.isfile(it)], [])
    specs = {re.sub(r"(crates/\w+)/.*", r"\1/specs", it) for it in paths if not it.startswith(os.path.join(TOP, "tests"))}
    files = [*paths, *(os.path.join(it, name) for it in specs if os.path.isdir(it) for name in sorted(os.listdir(it)))]
    text = "\n".join(code_of(it) for it in files if os.path.isfile(it))
    parts = [part for it in names for part in it.split("::")]
    tally.check(f"docs/proof/PROVED.md: the names of: {promise}", [it for it in parts if not re.search(rf"(?<![\w]){re.escape(it)}(?![\w])", text)], [])

# each function that such a row names has a contract, and it, or a definition that it cites, has each name that stands behind the function
contracts = Contracts()
asked = 0
for row in rows:
    files = [os.path.join(TOP, "crates", it) for it in re.findall(r"`([^`]+\.rt)`", row[-1]) if "_tests/" not in it]
    for part in row[1].split(";") if len(row) == 3 else []:
        front, _, behind = part.partition(": ")
        named = [it.split("::")[-1] for it in re.findall(r"`(\w+::\w+)`", front)] if files else []
        tally.check(f"docs/proof/PROVED.md: the files of {front}: {row[0][:70]}", [it for it in named if not any(it in contracts.of(path) for path in files)], [])
        functions = {it.split("::")[-1] for it in re.findall(r"`([^`]+)`", front)}
        found = [(name, it) for path in files if os.path.isfile(path) for name in contracts.of(path) if name in functions for it in contracts.of_function(path, name)]
        said = set().union(*(words for _, (_, words) in found))
        for name in sorted({name for name, _ in found}):
            asked += 1
            tally.check(f"docs/proof/PROVED.md: {name} has a contract: {row[0][:70]}", any("ensures" in clauses for it, (clauses, _) in found if it == name), True)
        lacking = [it for it in re.findall(r"`([^`]+)`", behind) if it.split("::")[-1] not in said] if found else []
        tally.check(f"docs/proof/PROVED.md: what {', '.join(sorted(functions))} says: {row[0][:70]}", lacking, [])
tally.check("docs/proof/PROVED.md: contracts are found", asked > 300, True)

# the library's examples stand in a program, which is proved and run
source = open(os.path.join(TOP, "crates", "apf_example", "src", "main.rt"), encoding="utf-8").read()
for name, count_of in (("README.md", 1), (os.path.join("docs", "LIBRARY.md"), 2)):
    page = open(os.path.join(TOP, name), encoding="utf-8").read()
    shown = [body for head, body in blocks(page) if head == "rust"]
    tally.check(f"{name}: the examples of the library", [len(shown), *(body in source for body in shown)], [count_of, *[True] * count_of])

# the planted bugs are as many as the README says
page = open(os.path.join(TOP, "README.md"), encoding="utf-8").read()
edits = sum(name.endswith(".edit") for folder in ("crates", "planted") for _, _, names in os.walk(os.path.join(TOP, folder)) for name in names)
tally.check("README.md: the number of planted bugs", re.findall(r"(\d+) planted bugs", page), [str(edits)])

# and stand by crate as docs/proof/PROOFS.md says
def count(*path):
    folder = os.path.join(TOP, *path)
    return sum(name.endswith(".edit") for name in os.listdir(folder)) if os.path.isdir(folder) else 0


page = open(os.path.join(TOP, "docs", "proof", "PROOFS.md"), encoding="utf-8").read()
counts = [(f"`{it}`", count("planted", it), count("crates", it, "must-fail")) for it in sorted(os.listdir(os.path.join(TOP, "planted"))) if it != "must-fail.txt"]
counts.append(("all", *(sum(it[at] for it in counts) for at in (1, 2))))
rows = [(name, int(planted), int(kept)) for name, planted, kept in re.findall(r"^\| (`apf\w*`|all) \| (\d+) \| (\d+) \|$", page, re.M)]
tally.check("docs/proof/PROOFS.md: the planted bugs of each crate", rows, counts)

# the crates of docs/ARCHITECTURE.md are those of crates.txt, each with a job, and those of the product come in its order
page = open(os.path.join(TOP, "docs", "ARCHITECTURE.md"), encoding="utf-8").read()
shown = re.findall(r"^\| `(apf\w*)` \| [^|]+ \|$", page, re.M)
tally.check("docs/ARCHITECTURE.md: the crates", sorted(shown), sorted(lines_of_crates()))
tally.check("docs/ARCHITECTURE.md: the product's crates, each behind those that it stands on", [(name, it) for at, name in enumerate(shown) for it in lines_of_crates(name) if it in shown[at + 1 :]], [])

# docs/proof/AUDIT.md and DEFINITIONS.md are what their scripts make of the sources
for name, script, made in (("AUDIT.md", "statements.py", audit_page()), ("DEFINITIONS.md", "definitions.py", definitions_page())):
    with open(os.path.join(TOP, "docs", "proof", name), encoding="utf-8") as page:
        tally.check(f"docs/proof/{name}: as python3 tests/lib/{script} makes it", page.read() == made, True)
tally.end()
