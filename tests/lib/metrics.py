"""A reader of the text format of Prometheus, as strict as its page is: https://prometheus.io/docs/instrumenting/exposition_formats/.

`metrics_of` answers the types and the samples of lines that end with `# EOF`, or raises BadMetrics.
"""

import re

NAME = re.compile("[a-zA-Z_:][a-zA-Z0-9_:]*")
LABEL = re.compile('([a-zA-Z_][a-zA-Z0-9_]*)="((?:[^"\\\\\\n]|\\\\["\\\\n])*)"(?:,|$)')
SAMPLE = re.compile(r"([^{ ]+)\{([^}]*)\} (0|[1-9][0-9]*)")
TYPES = ("counter", "gauge", "histogram", "summary", "untyped")


class BadMetrics(Exception):
    """The lines are not in the format."""


def labels_of(text):
    found, at = [], 0
    while at < len(text):
        one = LABEL.match(text, at)
        if not one:
            raise BadMetrics(f"labels {text!r}")
        found.append((one[1], one[2]))
        at = one.end()
    if len({name for name, _ in found}) != len(found):
        raise BadMetrics(f"a label twice in {text!r}")
    return tuple(sorted(found))


def metrics_of(lines):
    """The type of each name, and the value of each sample by its name and labels. Each name has one HELP and one TYPE line, right before its samples,
    which are whole numbers without a time."""
    types, helped, samples, current = {}, [None], {}, None
    *lines, last = lines
    if last != "# EOF":
        raise BadMetrics(f"the last line is {last!r}")
    for line in lines:
        kind, _, rest = line.partition(" ")[2].partition(" ") if line.startswith("# ") else ("", "", "")
        name, _, said = rest.partition(" ")
        if kind == "HELP" and NAME.fullmatch(name) and name not in helped and said and "\\" not in said:
            helped.append(name)
            current = None
        elif kind == "TYPE" and name == helped[-1] and current is None and said in TYPES:
            types[name] = said
            current = name
        elif line.startswith("#"):
            raise BadMetrics(f"out of place, or twice: {line!r}")
        else:
            sample = SAMPLE.fullmatch(line)
            if not sample or sample[1] != current:
                raise BadMetrics(f"no sample, or not below its TYPE: {line!r}")
            key = sample[1], labels_of(sample[2])
            if key in samples:
                raise BadMetrics(f"twice: {line!r}")
            samples[key] = int(sample[3])
    if helped[1:] != list(types) or set(types) != {name for name, _ in samples}:
        raise BadMetrics("a HELP without TYPE, or a TYPE without samples")
    return types, samples
