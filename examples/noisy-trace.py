#!/usr/bin/env python3
"""Prints noisy-client/trace.jsonl: one noisy client and three quiet ones, on the level of noisy-client.

The level has 10 seats, and a client's hand holds 8 queues of 50 places. In its second second the crawler sends
420 requests, more than its queues and the seats hold, and for three seconds more it sends 50 a second, though only
about 25 a second are served. So some of these are rejected. alice, bob and carol send two to four requests a second all the time.

usage: noisy-trace.py >noisy-client/trace.jsonl
"""

import json
import random

SECOND = 1_000_000


def requests():
    """When each request arrives, how long it runs, and whose it is."""
    draw = random.Random(1040)
    for number in range(420):
        yield SECOND + 3_000 * number, draw.randrange(300_000, 500_000), "crawler"
    for number in range(160):
        yield 2_260_000 + 20_000 * number, draw.randrange(300_000, 500_000), "crawler"
    for client, every, runs in (("alice", 250_000, 60_000), ("bob", 500_000, 100_000), ("carol", 350_000, 40_000)):
        time = draw.randrange(every)
        while time < 14 * SECOND:
            yield time, draw.randrange(runs, runs * 3 // 2), client
            time += draw.randrange(every // 2, every * 3 // 2)


for time, runs, client in sorted(requests()):
    print(json.dumps({"schema": "global-default", "distinguisher": client, "arrivesAt": time, "runsFor": runs}))
