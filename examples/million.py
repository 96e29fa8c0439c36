#!/usr/bin/env python3
"""Prints a trace of two hours of a busy API server: a million requests on the level of workload-low, of 40 controllers, 120 people and a crawler.

Ten minutes in each hour the crawler lists more than the level can serve. A server writes a request down when it has ended, so a long one stands late.

usage: million.py [REQUESTS]
"""

import random
import sys
from bisect import bisect_right
from operator import itemgetter


def pieces(count):
    """The lines of so many requests, in the order in which they end: some thousands of them together, since many short pieces take long to print."""
    draw = random.Random(1040).random
    users = [f"system:serviceaccount:kube-system:controller-{number}" for number in range(40)] + [f"user-{number}" for number in range(120)]
    # how the lines of each user begin, up to their times
    *begins, crawls = [f'{{"schema":"workload-low","distinguisher":"{user}","arrivesAt":' for user in [*users, "crawler"]]
    now, ending, end_of = 0, [], itemgetter(0)
    put = ending.append
    for number in range(1, count + 1):
        now += int(14_400 * draw())
        if 600_000_000 <= now % 3_600_000_000 < 1_200_000_000 and draw() < 0.6:
            begin, runs, width = crawls, int(10_000_000 * draw()), 10
        else:
            begin, runs, width = begins[int(160 * draw())], int(2_000_000 * draw() ** 8), 1 + int(1.25 * draw())
        put((now + runs, f'{begin}{now},"runsFor":{runs},"width":{width}}}\n'))
        if number % 5000 == 0 or number == count:
            ending.sort(key=end_of)
            over = bisect_right([end for end, _ in ending], now) if number < count else len(ending)
            yield "".join([line for _, line in ending[:over]])
            del ending[:over]


sys.stdout.writelines(pieces(int(sys.argv[1]) if len(sys.argv) > 1 else 1_000_000))
