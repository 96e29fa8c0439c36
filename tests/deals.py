"""2,000 random deals and 500 random hashes, against independent computations."""

import hashlib
import os
import random
import sys

sys.path.insert(0, os.path.join(os.path.dirname(os.path.abspath(__file__)), "lib"))
from harness import Tally, build, run

tally = Tally()
program = build()
# the same draws each time; APF_SEED draws others
draw = random.Random(int(os.environ.get("APF_SEED", "1040")))


def hand_by_list(deck, hand, number):
    """Takes cards out of a list."""
    cards, dealt = list(range(deck)), []
    for _ in range(hand):
        number, place = divmod(number, len(cards))
        dealt.append(cards.pop(place))
    return dealt


def hand_of(deck, hand, number):
    """The same without a list, which is long for a large deck: a place is among the cards that are left, so each card that was taken before it moves it on."""
    dealt = []
    for left in range(deck, deck - hand, -1):
        number, card = divmod(number, left)
        for taken in sorted(dealt):
            card += taken <= card
        dealt.append(card)
    return dealt


def hash_of(schema, distinguisher):
    digest = hashlib.sha256(schema.encode() + b"\0" + distinguisher.encode()).digest()
    return int.from_bytes(digest[:8], "little")


def sizes():
    """A deck and a hand within the limits."""
    while True:
        deck = draw.choice([draw.randint(1, 16), draw.randint(1, 128), draw.randint(1, 1024), draw.randint(1, 1 << 18)])
        hand = draw.randint(1, min(deck, 15))
        if deck**hand <= 1 << 60:
            return deck, hand


def text():
    letters = "abcABC012 -_/.äß€😀\n\t\"'\\"
    return "".join(draw.choice(letters) for _ in range(draw.choice([0, 1, 5, 20, 60, 200])))


for _ in range(2000):
    deck, hand = sizes()
    number = draw.choice([draw.getrandbits(64), draw.randint(0, 4 * deck), (1 << 64) - 1 - draw.randint(0, 9)])
    if deck <= 1024:
        tally.check(f"both computations of {deck} {hand} {number}", hand_of(deck, hand, number), hand_by_list(deck, hand, number))
    want = " ".join(map(str, hand_of(deck, hand, number))) + "\n"
    tally.check(f"deal {deck} {hand} {number}", run(program, ["deal", str(deck), str(hand), str(number)]), (0, want.encode(), b""))
for _ in range(500):
    schema, distinguisher = text(), text()
    want = f"{hash_of(schema, distinguisher):016x}\n"
    tally.check(f"hash {schema!r} {distinguisher!r}", run(program, ["hash", "--", schema, distinguisher]), (0, want.encode(), b""))
tally.end()
