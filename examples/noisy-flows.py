#!/usr/bin/env python3
"""How likely is it that noisy flows cover one quiet flow?

Each flow is dealt a hand of queues. If each queue of a quiet flow's hand is in the hand of some noisy
flow too, the quiet flow is squeezed out with them. The Kubernetes documentation of API Priority and
Fairness has a table of that chance ("Example Shuffle Sharding Configurations"); this script deals hands
with the program and prints its own column beside the published one, for the rows that sampling can see.

usage: noisy-flows.py [PROGRAM]    (./apf of this repository, unless another is named)
"""

import functools
import json
import operator
import os
import random
import subprocess
import sys
import tempfile

# hand, deck, noisy flows, published chance
ROWS = [
    (12, 32, 4, 0.11431),
    (10, 32, 4, 0.06265),
    (10, 32, 16, 0.97531),
    (10, 64, 16, 0.50000),
    (9, 64, 16, 0.42823),
    (8, 64, 16, 0.35935),
    (8, 128, 16, 0.02746),
    (7, 128, 16, 0.02406),
]
FLOWS = 500
SAMPLES = 20_000


def hands_of(program, hand, deck):
    """The hands of all flows, by one call of the program: a trace has a request of each. Of a hand each queue is a bit."""
    config = json.dumps({"limit": 1, "queues": deck, "handSize": hand})
    with tempfile.NamedTemporaryFile("w", suffix=".jsonl") as trace:
        for flow in range(FLOWS):
            print(json.dumps({"schema": "service-accounts", "distinguisher": f"user-{flow}", "arrivesAt": 0, "runsFor": 0}), file=trace)
        trace.flush()
        lines = subprocess.run([program, "hands", "-", trace.name], input=config, stdout=subprocess.PIPE, check=True, text=True).stdout.splitlines()
    # flow HASH hand QUEUE .. of SCHEMA DISTINGUISHER
    return [sum(1 << int(queue) for queue in line.split()[3 : 3 + hand]) for line in lines if line.startswith("flow ")]


def main(program):
    draw = random.Random(1040)
    hands = {}
    print("hand  deck  noisy flows  published  dealt here")
    for hand, deck, noisy, published in ROWS:
        if (hand, deck) not in hands:
            hands[hand, deck] = hands_of(program, hand, deck)
        covered = 0
        for _ in range(SAMPLES):
            quiet, *others = draw.sample(hands[hand, deck], noisy + 1)
            others = functools.reduce(operator.or_, others)
            covered += quiet | others == others
        print(f"{hand:4}  {deck:4}  {noisy:11}  {published:9.5f}  {covered / SAMPLES:10.5f}")


if __name__ == "__main__":
    top = os.path.dirname(os.path.dirname(os.path.abspath(__file__)))
    main(sys.argv[1] if len(sys.argv) > 1 else os.path.join(top, "apf"))
