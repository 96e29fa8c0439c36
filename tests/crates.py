"""The crates stand on each other's contracts alone: no crate cites a proof of another one. What it needs is a clause or a law of the lower one."""

import os
import re
import sys

sys.path.insert(0, os.path.join(os.path.dirname(os.path.abspath(__file__)), "lib"))
from harness import TOP, Tally


def cited_of_others(crate):
    """The lemmas of other crates' proofs that a crate's sources, definitions and proofs name, and how many times it names its own."""
    cited, own = set(), 0
    for folder, inside, names in os.walk(os.path.join(TOP, "crates", crate)):
        inside[:] = [it for it in inside if it not in ("out", "must-fail")]
        for name in names:
            if name.endswith((".rt", ".antt")):
                with open(os.path.join(folder, name), encoding="utf-8") as file:
                    text = file.read()
                for other, module, lemmas in re.findall(r"Rattle\.(apf\w*)\.proofs((?:\.\w+)*)(?:\.\{([^}]*)\})?", text):
                    if other == crate:
                        own += 1
                    else:
                        cited |= {".".join(filter(None, (other, module[1:], it.split(" as ")[0].strip()))) for it in lemmas.split(",")}
    return cited, own


tally = Tally()
found = 0
for crate in sorted(os.listdir(os.path.join(TOP, "crates"))):
    cited, own = cited_of_others(crate)
    found += own
    tally.check(f"{crate} cites no proof of another crate", sorted(cited), [])
tally.check("the crates' own citations are found", found > 500, True)
tally.end()
