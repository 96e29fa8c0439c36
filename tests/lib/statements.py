"""The page docs/proof/AUDIT.md: every definition that the statements of PARTS rest on, each once, in reading order.

usage: python3 tests/lib/statements.py >docs/proof/AUDIT.md

A statement is a contract in a crate's sources. What it cites is looked up in the `specs/` of the crates, and what these definitions cite in turn, to
the end. So the page has nothing that was listed by hand, but for the names of the statements.
"""

import functools
import os
import re
import sys

TOP = os.path.dirname(os.path.dirname(os.path.dirname(os.path.abspath(__file__))))
CRATES = os.path.join(TOP, "crates")

# the parts of the page: a heading, a sentence, and the statements. A statement is a file, the line that its contract begins with, and the name of what
# it concludes. Without a name all that the contract cites is told
PARTS = [
    (
        "What is promised",
        "`Promises` has a field for each bullet of the front page, in its order. The first law is of every level for a server's whole life, and the second of every batch. Their premises, `EndedAs` and `Ended`, are what the calls that end a level answer, by their contracts. They need not be read: the laws say what follows.",
        [
            ("apf_line/src/laws.rt", "pub fn every_report_keeps_the_promises()", "KeepsPromises"),
            ("apf_level/src/laws.rt", "pub fn every_report_keeps_the_promises()", "KeepsPromises"),
        ],
    ),
    (
        "A level that goes on",
        "What holds at every moment, between any two atomic steps of any number of threads. The premise, `IsRuled`, is the rule of the words, which each step keeps. It need not be read: the laws say what follows, of the words and of every schedule.",
        [
            ("apf_gate/src/laws.rt", "pub fn every_state_is_explained()", "IsExplained"),
            ("apf_model/src/laws.rt", "pub fn every_schedule_is_safe()"),
        ],
    ),
]

# the definitions that are hardest to read, each in other words
HARDEST = [
    ("World", "all that counts of a level at one moment: for each request whether it has not come, waits, stands or is gone, and what was decided of it; whether the level is open; its limits."),
    ("Allowed", "the rules. It says in which world a step may be made, and `after` says what it changes. All that is said of seats and decisions follows from these two."),
    ("IsSchedule", "the newest step stands first. So `m ∷ ms` is the step m, made after all of ms, and `later ++ earlier` cuts the steps in two at one moment."),
    ("asked_in", "what a request asks for is what the first of its own steps says that says anything. No later step changes it."),
    ("IsLongest", "who stepped last saw all steps. What any other token saw is how those steps began, and what came since are steps of others."),
    ("sayings", "the steps of the Desk that are events of the queues, in their order: it lets a request enter, refuses it as full, executes it, or lets it go. No step of a Pass or a Station is one."),
    ("NoQueueStarves", "`later ++ (stretch ++ Enter r q ∷ earlier)` cuts a history at the entry of r and at a later moment. Between the two is the stretch. At its end r still waits, and the bound is of what was dispatched in it."),
    ("runs", "those that execute from a queue, each with what that queue is charged for it now. A dispatch adds one with its cost, a charge while it runs puts another number in its place, and a settlement takes it out."),
    ("IsJudged", "at one moment, how far what executing requests are charged is from what they will have taken: too little for one queue, too much for one, and both at once for two."),
    ("IsExplained", "what stands in memory, by one list of steps: the first word packs the level, each other word has the mark and the decision of who holds its slot, and what a token believes is so."),
]

USE = re.compile(r"^(?:pub )?(?:ghost )?use (Rattle\.[\w.]+?)(?:\.\{(.*)\}| as (\w+))?;?$")
HEAD = re.compile(r"^(?:opaque |unfoldable )?(?:abbrev )?pub (?:unfoldable |record |data )*([\w'-]+|◌\S*◌)")
WORD = re.compile(r"[A-Za-z_][\w']*")


def text_of(path):
    with open(path, encoding="utf-8") as file:
        return file.read()


def imported(line, names, modules):
    """Notes what a line brings in: names, each with its module and its name there, and modules by another name."""
    # most lines bring in nothing, and need not be matched
    found = "use Rattle." in line and USE.match(line.strip())
    if not found:
        return False
    module, inside, other = found.groups()
    if other:
        modules[other] = module
    elif inside is not None:
        for it in inside.split(","):
            there, _, here = it.strip().partition(" as ")
            names[here or there] = (module, there)
    return True


class Definition:
    """One definition: where it stands, its comment and its text."""

    def __init__(self, module, name, path, line, text):
        self.module, self.name, self.path, self.line, self.text = module, name, path, line, text

    def words(self):
        return WORD.findall(re.sub(r"--.*", "", self.text))

    def lines(self):
        return sum(1 for it in self.text.split("\n") if it.strip() and not it.strip().startswith("--"))


class Specs:
    """All definitions of the crates' specs, with what each file brings in."""

    def __init__(self):
        self.definitions, self.names, self.modules, self.passed_on, self.order = {}, {}, {}, {}, []
        for crate in sorted(os.listdir(CRATES)):
            folder = os.path.join(CRATES, crate, "specs")
            for file in sorted(os.listdir(folder)) if os.path.isdir(folder) else []:
                if file.endswith(".antt"):
                    self.read(f"Rattle.{crate}.specs.{file[:-5]}", os.path.join(folder, file))

    def read(self, module, path):
        names, modules = self.names.setdefault(module, {}), self.modules.setdefault(module, {})
        self.order.append(module)
        block = []
        for number, line in enumerate([*text_of(path).split("\n"), ""], 1):
            found = USE.match(line)
            if found and line.startswith("pub use ") and found[2] is None:
                # a whole module that is passed on under the crate's own name
                self.passed_on[f"{module.rpartition('.')[0]}.{found[1].rpartition('.')[2]}"] = found[1]
            elif imported(line, names, modules):
                pass
            elif line.strip():
                block.append((number, line))
            else:
                self.take(module, path, block)
                block = []

    def take(self, module, path, block):
        """A block of lines is a comment, a definition, or both; an equation or a field further down is no definition."""
        heads = [at for at, (_, line) in enumerate(block) if HEAD.match(line)]
        for place, at in enumerate(heads):
            begin = at
            while begin and block[begin - 1][1].startswith("--"):
                begin -= 1
            end = len(block) if place + 1 == len(heads) else heads[place + 1]
            while end > at + 1 and place + 1 < len(heads) and block[end - 1][1].startswith("--"):
                end -= 1
            name = HEAD.match(block[at][1])[1]
            text = "\n".join(line for _, line in block[begin:end])
            self.definitions[module, name] = Definition(module, name, path, block[begin][0], text)

    def found(self, module, name):
        """The definition that a name means in a module, or None."""
        module = self.passed_on.get(module, module)
        if (module, name) in self.definitions:
            return self.definitions[module, name]
        there = self.names.get(module, {}).get(name)
        return self.found(*there) if there else None

    def cited(self, module, words, names=None):
        """The definitions that these words mean, and the types of the sources."""
        names = self.names.get(module, {}) if names is None else names
        definitions, types = [], set()
        for word in dict.fromkeys(words):
            it = self.found(module, word) or (self.found(*names[word]) if word in names else None)
            if it:
                definitions.append(it)
            elif word in names and ".declared." in names[word][0]:
                types.add(names[word][0].partition(".TheVariants")[0])
            elif word in names and names[word][0].startswith("Rattle.apf_"):
                raise LookupError(f"{word} of {names[word][0]}, which {module or 'a statement'} cites, is not found")
        return definitions, types

    def closure(self, roots):
        seen, types, rest = {}, set(), list(roots)
        while rest:
            it = rest.pop()
            if (it.module, it.name) in seen:
                continue
            seen[it.module, it.name] = it
            more, those = self.cited(it.module, it.words())
            types |= those
            rest += more
        return seen, types


@functools.cache
def all_specs():
    """The definitions, read once."""
    return Specs()


def statement_of(file, head):
    """A statement: the function's contract, or one line of a rule, and what its file brings in."""
    lines = text_of(os.path.join(CRATES, file)).split("\n")
    at = next(number for number, line in enumerate(lines) if line.startswith(head))
    names = {}
    for line in lines:
        imported(line, names, {})
    end = at + 1
    while "fn " in head and lines[end - 1].strip() not in ("{}", "{"):
        end += 1
    text = lines[at : end - 1 if "fn " in head else end]
    indent = len(text[0]) - len(text[0].lstrip())
    return at + 1, "\n".join(it[indent:] for it in text), names


def in_reading_order(specs, definitions, first):
    """The files of these definitions: the first ones, and then each after those that it cites where that can be. In each the order of its text."""
    files = {}
    for it in definitions:
        files.setdefault(it.module, []).append(it)
    order = [module for module in dict.fromkeys(first) if module in files]

    def visit(module, above):
        if module in order or module in above:
            return
        for it in files[module]:
            for other in specs.cited(module, it.words())[0]:
                if other.module in files and other.module != module:
                    visit(other.module, above | {module})
        order.append(module)

    for module in specs.order:
        if module in files:
            visit(module, frozenset())
    return [(module, sorted(files[module], key=lambda it: it.line)) for module in order]


def joined(texts):
    """The definitions of a file, a blank line between two unless both are short and a comment begins the second."""
    text = texts[0]
    for before, it in zip(texts, texts[1:]):
        short = max(before.count("\n"), it.count("\n")) < 7 and it.startswith("--")
        text += ("\n" if short else "\n\n") + it
    return text


def type_name(path):
    """`Decision` of apf_words, from Rattle.apf_words.specs.declared.decision.Decision."""
    crate = path.split(".")[1]
    return crate, path.rpartition(".")[2]


def page():
    specs = all_specs()
    told, types, body, files = {}, set(), [], set()
    for heading, sentence, statements in PARTS:
        roots, shown, concluded_of = [], [], []
        for file, head, *concluded in statements:
            line, text, names = statement_of(file, head)
            cited, those = specs.cited("", concluded or WORD.findall(text), names)
            types |= those
            roots += cited
            concluded_of += cited if concluded else []
            shown.append(f"`crates/{file}`, line {line}:\n\n```rust\n{text}\n```\n")
        seen, those = specs.closure(roots)
        types |= those
        fresh = [it for key, it in seen.items() if key not in told]
        told.update(seen)
        body.append(f"## {heading}\n\n{sentence}\n\nThe statement{'s' if len(shown) > 1 else ''}:\n\n" + "\n".join(shown))
        count = sum(it.lines() for it in fresh)
        body.append(f"{len(fresh)} definitions that were not told above, {count} lines:\n")
        fence = []
        for module, definitions in in_reading_order(specs, fresh, [it.module for it in concluded_of]):
            path = os.path.relpath(definitions[0].path, TOP)
            files.add(path)
            fence.append(f"-- in {path}:\n" + joined([it.text for it in definitions]))
        body.append("```text\n" + "\n\n".join(fence) + "\n```\n")
    lines = sum(it.lines() for it in told.values())
    kinds = {}
    for it in sorted(types):
        crate, name = type_name(it)
        kinds.setdefault(crate, []).append(f"`{name}`")
    lacking = {name for name, _ in HARDEST} - {name for _, name in told}
    if lacking:
        raise LookupError(f"{', '.join(sorted(lacking))} is not told on the page")
    of_crates = "; ".join(f"{', '.join(dict.fromkeys(names))} of `{crate}`" for crate, names in sorted(kinds.items()))
    hardest = "\n".join(f"- `{name}`: {words}" for name, words in HARDEST)
    head = f"""# What a reader must trust

The prover checks that the code keeps its contracts. It can't check that the contracts say what you want. For that a person reads the definitions that the statements cite. This page has them all, each once, with its comment: **{len(told)} definitions, {lines} lines without comments and blank lines, in {len(files)} files**. No proof stands here, and none need be read.

`python3 tests/lib/statements.py >docs/proof/AUDIT.md` makes this page from the sources. The tests make it again and compare. [DEFINITIONS.md](DEFINITIONS.md) has the definitions that PROVED names, in words.

How to read a definition: `→` is "implies" or "a function from .. to ..", `×` is "and", `⊎` is "or", `λ x. ..` is the function of x, `Σ` is "there is". A `record` is a list of named facts that all hold. `abbrev` gives a name to what stands behind it. A list is written `x ∷ xs`, its first element and the rest. `ℕ` are the whole numbers from 0. Words that are not defined here are those of the kit's library (`Rattle.std.specs.Prelude`).

The definitions speak of these types of the sources: {of_crates}.

Ten of them are harder than the others. In other words:

{hardest}
"""
    return head + "\n" + "\n".join(body)


if __name__ == "__main__":
    sys.stdout.write(page())
