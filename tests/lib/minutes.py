"""Says how much processor time the prover took for each crate while this ran: a line 'CRATE MINUTES' for each, the most first. It looks at the
system's processes twice a second, and ends when its standard input does."""

import os
import select
import sys

TICKS = os.sysconf("SC_CLK_TCK")
EVERY = 0.5


def crate_of(process):
    """The crate that a process of the prover works on. None of any other process."""
    with open(f"/proc/{process}/cmdline", "rb") as file:
        words = file.read().decode(errors="replace").split("\0")
    if os.path.basename(words[0]) != "rattle" or "--crate-name" not in words:
        return None
    return words[words.index("--crate-name") + 1]


def prover_of(process):
    """The crate of a process of the prover, and the ticks that it took and its copies, which it waits for. None of a copy, and of any other process."""
    try:
        crate = crate_of(process)
        if not crate:
            return None
        with open(f"/proc/{process}/stat", encoding="ascii", errors="replace") as file:
            # behind the name: the state, the parent, and from the 12th on the four times
            fields = file.read().rpartition(")")[2].split()
        return None if crate_of(fields[1]) else (crate, sum(map(int, fields[11:15])))
    except OSError:
        return None


def main():
    # of each process of the prover its crate, and the most ticks that were seen
    seen = {}
    while not select.select([sys.stdin], [], [], EVERY)[0]:
        for process in os.listdir("/proc"):
            found = prover_of(process) if process.isdigit() else None
            if found:
                crate, ticks = found
                seen[process, crate] = max(ticks, seen.get((process, crate), 0))
    minutes = {}
    for (_, crate), ticks in seen.items():
        minutes[crate] = minutes.get(crate, 0) + ticks / TICKS / 60
    for crate in sorted(minutes, key=lambda it: -minutes[it]):
        print(f"{crate} {minutes[crate]:.1f}")


main()
