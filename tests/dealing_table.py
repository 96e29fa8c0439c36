"""The published table of covered hands, whose rows the program's hands come near."""

import os
import re
import sys

sys.path.insert(0, os.path.join(os.path.dirname(os.path.abspath(__file__)), "lib"))
from harness import TOP, Tally, build, run

tally = Tally()
program = build()
# (hand, deck, noisy flows): the chance that a quiet flow's whole hand is covered, by the flow control documentation
PUBLISHED = {
    (12, 32, 4): 0.11431,
    (10, 32, 4): 0.06265,
    (10, 32, 16): 0.97531,
    (10, 64, 16): 0.50000,
    (9, 64, 16): 0.42823,
    (8, 64, 16): 0.35935,
    (8, 128, 16): 0.02746,
    (7, 128, 16): 0.02406,
}
SAMPLES = 20_000
status, out, err = run(sys.executable, [os.path.join(TOP, "examples", "noisy-flows.py"), program])
tally.check("the table", (status, err), (0, b""))
found = {}
for line in out.decode().split("\n")[1:-1]:
    hand, deck, noisy, published, dealt = line.split()
    found[int(hand), int(deck), int(noisy)] = float(published), float(dealt)
tally.check("its rows", {row: both[0] for row, both in found.items()}, PUBLISHED)
for row, chance in PUBLISHED.items():
    # five times the deviation of this many samples
    noise = 5 * (chance * (1 - chance) / SAMPLES) ** 0.5
    dealt = found.get(row, (0, 9))[1]
    tally.check(f"{row}: {dealt} is {chance} within {noise:.5f}", abs(dealt - chance) <= noise, True)
tally.end()
