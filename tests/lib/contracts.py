"""What the contract of a function says: its clauses, and every definition that they cite, to the end."""

import re

from statements import WORD, all_specs, imported

FUNCTION = re.compile(r"^\s*(?:pub(?:\([^)]*\))? )?(?:const |unsafe )*fn (\w+)")


def contracts_in(text):
    """The clauses of each function of a source, by its name. Several functions may have one name."""
    lines, found = [re.sub(r"//.*", "", it) for it in text.split("\n")], {}
    for at, line in enumerate(lines):
        head = FUNCTION.match(line)
        if head:
            rest, clauses = lines[at:], []
            # without clauses the body begins in the line in which the head ends, and else in a line of its own
            for it in rest:
                if it.strip() in ("{", "{}"):
                    break
                clauses.append(it)
                if it.endswith((" {", "{}", ";")) and not re.match(r"\s*(?:requires|ensures)\b", it):
                    break
            found.setdefault(head[1], []).append("\n".join(clauses))
    return found


class Contracts:
    """The contracts of all sources that are asked for."""

    def __init__(self):
        self.specs, self.read, self.of_definitions = all_specs(), {}, {}

    def of(self, path):
        """The clauses of a file's functions, by name."""
        return self.file(path)[0]

    def of_function(self, path, name):
        """The contracts of a function of a file, each with all words of its clauses and of the definitions that they cite."""
        clauses, names = self.file(path)
        return [(it, self.words(it, names)) for it in clauses.get(name, [])]

    def file(self, path):
        """The clauses of a file's functions, and what the file brings in."""
        if path not in self.read:
            with open(path, encoding="utf-8") as file:
                text = file.read()
            names = {}
            for line in text.split("\n"):
                imported(line, names, {})
            self.read[path] = contracts_in(text), names
        return self.read[path]

    def words(self, clauses, names):
        words, definitions = self.cited(clauses, "", names)
        words, seen, rest = {*words}, set(), [*definitions]
        while rest:
            it = rest.pop()
            if (it.module, it.name) not in seen:
                seen.add((it.module, it.name))
                more, definitions = self.cited_by(it)
                words |= more
                rest += definitions
        return words

    def cited(self, text, module, brought):
        """The words of a text in a module, and the definitions that they mean there, by these names too."""
        words = {*WORD.findall(re.sub(r"--.*", "", text))}
        found = [self.specs.found(module, it) or (self.specs.found(*brought[it]) if brought.get(it) else None) for it in words]
        return words, [it for it in found if it]

    def cited_by(self, it):
        """The same of a definition, which is asked for once."""
        key = it.module, it.name
        if key not in self.of_definitions:
            self.of_definitions[key] = self.cited(it.text, it.module, self.specs.names.get(it.module, {}))
        return self.of_definitions[key]
