"""Planted bugs: files NAME.edit, with lines 'file: PATH' and then pairs of lines 'old: TEXT' and 'new: TEXT'. A first line 'compiler: CODE' says that
the compiler refuses the bug, by errors of that code alone, before anything is proved."""

import os
import re

TOP = os.path.dirname(os.path.dirname(os.path.dirname(os.path.abspath(__file__))))
CRATES = os.path.join(TOP, "crates")
# those that ./plant tries, a folder for each crate, and those that `rt ci` tries, in the crate's own folder
PLANTED = os.path.join(TOP, "planted")
MUST_FAIL = "must-fail"
# those of planted/ that ./test all tries, a line 'CRATE NAME' for each
LISTED = os.path.join(PLANTED, "must-fail.txt")
FUNCTION = re.compile(r"^\s*(?:pub(?:\([^)]*\))? )?(?:const |unsafe )*fn (\w+)")
BLOCK = re.compile(r"^(?:impl\b(?:<.*?>)? ?(?:(\w+)(?:<.*?>)? for )?&?(\w+)|(?:pub )?trait (\w+))")
# of the written answers of a function: its path
ANSWERS = re.compile(r"proofs/([\w/]+)/(?:Answers|Invariants)\.antt")
CONSTANT = re.compile(r"^(?:pub(?:\([^)]*\))? )?(?:const|static) (\w+)")


class BadEdit(Exception):
    """Why an edit cannot be applied."""


class Edit:
    """A planted bug of one crate."""

    def __init__(self, path, crate):
        self.name = os.path.basename(path)[: -len(".edit")]
        self.crate = crate
        self.pairs = []
        # of the compiler's error that refuses it, or empty where the prover does
        self.code = ""
        file = old = None
        with open(path, encoding="utf-8") as it:
            for line in it.read().split("\n"):
                if line.startswith("compiler: ") and not file:
                    self.code = line[len("compiler: ") :].strip()
                elif line.startswith("file: "):
                    file = line[len("file: ") :].strip()
                elif line.startswith("old: "):
                    old = line[len("old: ") :]
                elif line.startswith("new:"):
                    self.pairs.append((file, old, line[len("new:") :].removeprefix(" ")))

    def applied(self, texts, read):
        """The texts of the files that it changes, by their path in the crate; `texts` has those that were changed before."""
        changed = {}
        if not self.pairs:
            raise BadEdit("it has no pair of lines 'old:' and 'new:'")
        for file, old, new in self.pairs:
            if not file or not old:
                raise BadEdit("a line 'new:' stands before any 'file:' or 'old:'")
            text = changed.get(file) or texts.get(file) or read(file)
            if text.count(old) != 1:
                raise BadEdit(f"the text {old!r} is in {file} {text.count(old)} times, and not once")
            changed[file] = text.replace(old, new)
        return changed

    def placed(self, read):
        """Each pair, with where it changes the code: the module's path, the type or the trait, and the function; a constant stands for the functions
        that name it."""
        found, texts = [], {}
        for file, old, new in self.pairs:
            text = texts.get(file) or read(file)
            found.append(((file, old, new), places_at(file, text, text.index(old) + len(old) - len(old.lstrip()))))
            texts[file] = text.replace(old, new)
        return found

    def places(self, read):
        """Where it changes the code."""
        return {place for _, places in self.placed(read) for place in places}

    def additions(self, read):
        """The pairs that add to a file of the code, outside all functions, and take nothing away: they change nothing that stands there."""
        return [pair for pair, places in self.placed(read) if pair[0].startswith("src/") and pair[1] in pair[2] and not any(name for _, _, name in places)]

    def changes(self, read):
        """Where it changes the code, but for what it adds."""
        added = self.additions(read)
        return {place for pair, places in self.placed(read) if pair not in added for place in places}


def module_of(file):
    """The path of the module whose text is in a file of src/."""
    parts = file[len("src/") : -len(".rt")].split("/")
    return () if parts in (["lib"], ["main"]) else tuple(parts)


def places_at(file, text, at):
    """The function that has this place of the text, or that its answers are of; of a constant, each function of the file that names it."""
    lines, row = text.split("\n"), text.count("\n", 0, at)
    if answers := ANSWERS.fullmatch(file):
        *modules, name = answers[1].split("/")
        kind = modules.pop() if modules and modules[-1][0].isupper() else ""
        return [(f"src/{'/'.join(modules) or 'lib'}.rt", kind, name)]
    if not file.startswith("src/"):
        return [(file, "", "")]
    constant = CONSTANT.match(lines[row])
    if constant:
        rows = [number for number, line in enumerate(lines) if re.search(rf"\b{constant[1]}\b", line) and number != row]
        return sorted({it for number in rows for it in places_at(file, text, sum(len(line) + 1 for line in lines[:number]))})
    name = kind = ""
    for line in reversed(lines[: row + 1]):
        function, block = FUNCTION.match(line), BLOCK.match(line)
        if function and not name:
            name = function[1]
            if not line.startswith(" "):
                break
        elif block:
            kind = block[2] or block[3]
            break
        elif line.startswith("}") and not name:
            break
    return [(file, kind, name)]


def edits_of(folder, crate):
    """The edits of one folder, by name."""
    if not os.path.isdir(folder):
        return []
    return [Edit(os.path.join(folder, it), crate) for it in sorted(os.listdir(folder)) if it.endswith(".edit")]


def planted_of(crate):
    return edits_of(os.path.join(PLANTED, crate), crate)


def must_fail_of(crate):
    return edits_of(os.path.join(CRATES, crate, MUST_FAIL), crate)


def listed():
    """The crates and names of the bugs in planted/ that ./test all tries."""
    with open(LISTED, encoding="utf-8") as it:
        return [tuple(line.split(" ")) for line in it.read().splitlines()]


def goals_file(crate):
    return os.path.join(PLANTED, crate, "goals.txt")


def goals_of(crate):
    """What refused each bug of a crate when it was recorded: by the bug's name, the goals of each function, or of each file where no function is named.
    A line of the file is 'BUG: FUNCTION GOAL..; FUNCTION GOAL..'."""
    if not os.path.isfile(goals_file(crate)):
        return {}
    with open(goals_file(crate), encoding="utf-8") as it:
        lines = [line.split(": ", 1) for line in it.read().splitlines()]
    return {name: {words[0]: set(words[1:]) for words in map(str.split, told.split("; "))} for name, told in lines}


def record_goals(crate, goals):
    """Writes these goals of the crate's bugs."""
    names = {it.name for it in [*planted_of(crate), *must_fail_of(crate)]}
    with open(goals_file(crate), "w", encoding="utf-8") as it:
        for name in sorted(names & set(goals)):
            told = "; ".join(" ".join([of, *sorted(goals[name][of])]) for of in sorted(goals[name]))
            it.write(f"{name}: {told}\n")


def reader_of(folder):
    """Reads a file of the crate in this folder."""

    def read(file):
        if not re.fullmatch(r"(src|specs|proofs)/[\w+./-]+", file) or ".." in file:
            raise BadEdit(f"{file} is no file below src/, specs/ or proofs/")
        try:
            with open(os.path.join(folder, file), encoding="utf-8") as it:
                return it.read()
        except OSError:
            raise BadEdit(f"there is no file {file}") from None

    return read
