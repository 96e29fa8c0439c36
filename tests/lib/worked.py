"""Runs of requests with times that were worked by hand from the rules, and the independent computation (simulation.py) against them."""

from simulation import answer, compare, fates, hands, nearest_rank, patience_of, requests, simulate, timeline

CRAWLER = '{"schema":"batch","distinguisher":"crawler","arrivesAt":0,"runsFor":100}\n'
ALICE = '{"schema":"users","distinguisher":"alice","arrivesAt":%d,"runsFor":20%s}\n'
ONE_QUEUE = '{"limit":%d,"queues":1,"handSize":1,"queueLengthLimit":%d}'
COSTLY = (
    '{"hash":1,"arrivesAt":0,"runsFor":10,"cost":20000}\n'
    '{"hash":0,"arrivesAt":1,"runsFor":10,"cost":3}\n'
    '{"hash":0,"arrivesAt":1,"runsFor":10}\n'
    '{"hash":1,"arrivesAt":1,"runsFor":10}\n'
    '{"hash":1,"arrivesAt":1,"runsFor":10}\n'
)
FATES = "request flow arrival queue start end decision schema distinguisher\n"
# a name, the config, the trace, and what each command prints of them, with its patience if it takes one
WORKED = [
    (
        "a crawler and alice",
        '{"limit":2,"queues":2,"handSize":1,"queueLengthLimit":2}',
        CRAWLER * 6 + ALICE % (50, "") + ALICE % (60, ',"width":2') + ALICE % (400, ""),
        [
            (
                simulate,
                0,
                'flow b2cfa8521298df5f requests 6 executed 4 rejected 2 cancelled 0 seat-time 400 wait median 0 p99 120 longest 120 of "batch" "crawler"\n'
                'flow f7c495a40a0feec0 requests 3 executed 3 rejected 0 cancelled 0 seat-time 80 wait median 50 p99 160 longest 160 of "users" "alice"\n'
                "end 420 seat-time 480 of 840 waited 430 patience 0\n"
                "level open seats 0 waiting 0\n"
                "executed 7 rejected 2 cancelled 0 undecided 0\n"
                "queue-full 2 closed 0 concurrency-limit 0\n"
                "entered 4 dispatched 4 struck 0\n",
            ),
            (
                simulate,
                90,
                'flow b2cfa8521298df5f requests 6 executed 2 rejected 2 cancelled 2 seat-time 200 wait median 0 p99 0 longest 0 of "batch" "crawler"\n'
                'flow f7c495a40a0feec0 requests 3 executed 3 rejected 0 cancelled 0 seat-time 80 wait median 50 p99 60 longest 60 of "users" "alice"\n'
                "end 420 seat-time 280 of 840 waited 290 patience 90\n"
                "level open seats 0 waiting 0\n"
                "executed 5 rejected 2 cancelled 2 undecided 0\n"
                "queue-full 2 closed 0 concurrency-limit 0\n"
                "entered 4 dispatched 2 struck 2\n",
            ),
            (
                timeline,
                0,
                "arrive 0\narrive 1\narrive 2\narrive 3\narrive 4\narrive 5\narrive 6\narrive 7\n"
                "finish 0\nfinish 1\nfinish 6\nfinish 2\nfinish 3\nfinish 7\narrive 8\nfinish 8\n",
            ),
            (
                timeline,
                90,
                "arrive 0\narrive 1\narrive 2\narrive 3\narrive 4\narrive 5\narrive 6\narrive 7\n"
                "cancel 2\ncancel 3\nfinish 0\nfinish 1\nfinish 6\nfinish 7\narrive 8\nfinish 8\n",
            ),
            (
                fates,
                90,
                FATES
                + '0 b2cfa8521298df5f 0 - 0 100 execute "batch" "crawler"\n1 b2cfa8521298df5f 0 - 0 100 execute "batch" "crawler"\n'
                '2 b2cfa8521298df5f 0 1 - 90 cancelled "batch" "crawler"\n3 b2cfa8521298df5f 0 1 - 90 cancelled "batch" "crawler"\n'
                '4 b2cfa8521298df5f 0 - - 0 queue-full "batch" "crawler"\n5 b2cfa8521298df5f 0 - - 0 queue-full "batch" "crawler"\n'
                '6 f7c495a40a0feec0 50 0 100 120 execute "users" "alice"\n7 f7c495a40a0feec0 60 0 120 140 execute "users" "alice"\n'
                '8 f7c495a40a0feec0 400 - 400 420 execute "users" "alice"\n',
            ),
            (
                hands,
                None,
                'flow b2cfa8521298df5f hand 1 of "batch" "crawler"\nflow f7c495a40a0feec0 hand 0 of "users" "alice"\n',
            ),
            (
                requests,
                None,
                "[\n"
                + '{"schema":"batch","distinguisher":"crawler"},\n' * 6
                + '{"schema":"users","distinguisher":"alice"},\n'
                + '{"schema":"users","distinguisher":"alice","width":2},\n'
                + '{"schema":"users","distinguisher":"alice"}\n'
                + "]\n",
            ),
        ],
    ),
    (
        "one seat is given back at the time at which two would give up",
        ONE_QUEUE % (1, 50),
        '{"hash":0,"arrivesAt":0,"runsFor":10}\n' + '{"hash":0,"arrivesAt":0,"runsFor":5}\n' * 2,
        [
            (timeline, 10, "arrive 0\narrive 1\narrive 2\nfinish 0\ncancel 2\nfinish 1\n"),
            (
                simulate,
                10,
                "flow 0000000000000000 requests 3 executed 2 rejected 0 cancelled 1 seat-time 15 wait median 0 p99 10 longest 10\n"
                "end 15 seat-time 15 of 15 waited 20 patience 10\n"
                "level open seats 0 waiting 0\n"
                "executed 2 rejected 0 cancelled 1 undecided 0\n"
                "queue-full 0 closed 0 concurrency-limit 0\n"
                "entered 2 dispatched 1 struck 1\n",
            ),
        ],
    ),
    (
        "one gives up, and another takes its place in the queue at the same time",
        ONE_QUEUE % (1, 1),
        '{"hash":0,"arrivesAt":0,"runsFor":100}\n{"hash":0,"arrivesAt":0,"runsFor":1}\n{"hash":0,"arrivesAt":10,"runsFor":1}\n',
        [
            (timeline, 10, "arrive 0\narrive 1\ncancel 1\narrive 2\ncancel 2\nfinish 0\n"),
            (
                fates,
                10,
                FATES
                + "0 0000000000000000 0 - 0 100 execute\n1 0000000000000000 0 0 - 10 cancelled\n2 0000000000000000 10 0 - 20 cancelled\n",
            ),
            (
                simulate,
                10,
                "flow 0000000000000000 requests 3 executed 1 rejected 0 cancelled 2 seat-time 100 wait median 0 p99 0 longest 0\n"
                "end 100 seat-time 100 of 100 waited 20 patience 10\n"
                "level open seats 0 waiting 0\n"
                "executed 1 rejected 0 cancelled 2 undecided 0\n"
                "queue-full 0 closed 0 concurrency-limit 0\n"
                "entered 2 dispatched 0 struck 2\n",
            ),
        ],
    ),
    (
        "runs of no time end before the next arrival of that time",
        ONE_QUEUE % (1, 50),
        '{"hash":0,"arrivesAt":5,"runsFor":0}\n' * 2 + '{"hash":0,"arrivesAt":3,"runsFor":2}\n',
        [
            (timeline, 0, "arrive 2\nfinish 2\narrive 0\nfinish 0\narrive 1\nfinish 1\n"),
            (timeline, 1, "arrive 2\nfinish 2\narrive 0\nfinish 0\narrive 1\nfinish 1\n"),
            (
                fates,
                1,
                FATES + "2 0000000000000000 3 - 3 5 execute\n0 0000000000000000 5 - 5 5 execute\n1 0000000000000000 5 - 5 5 execute\n",
            ),
            (
                simulate,
                0,
                "flow 0000000000000000 requests 3 executed 3 rejected 0 cancelled 0 seat-time 2 wait median 0 p99 0 longest 0\n"
                "end 5 seat-time 2 of 5 waited 0 patience 0\n"
                "level open seats 0 waiting 0\n"
                "executed 3 rejected 0 cancelled 0 undecided 0\n"
                "queue-full 0 closed 0 concurrency-limit 0\n"
                "entered 0 dispatched 0 struck 0\n",
            ),
        ],
    ),
    (
        "a wide request gives up, and the one behind it takes a seat",
        ONE_QUEUE % (2, 50),
        '{"hash":0,"arrivesAt":0,"runsFor":100}\n{"hash":0,"arrivesAt":10,"runsFor":5,"width":2}\n{"hash":0,"arrivesAt":20,"runsFor":0}\n',
        [
            (timeline, 50, "arrive 0\narrive 1\narrive 2\ncancel 1\nfinish 2\nfinish 0\n"),
            (
                simulate,
                50,
                "flow 0000000000000000 requests 3 executed 2 rejected 0 cancelled 1 seat-time 100 wait median 0 p99 40 longest 40\n"
                "end 100 seat-time 100 of 200 waited 90 patience 50\n"
                "level open seats 0 waiting 0\n"
                "executed 2 rejected 0 cancelled 1 undecided 0\n"
                "queue-full 0 closed 0 concurrency-limit 0\n"
                "entered 2 dispatched 1 struck 1\n",
            ),
        ],
    ),
    (
        "a request that is wider than the limit runs alone",
        ONE_QUEUE % (2, 50),
        '{"hash":0,"arrivesAt":0,"runsFor":10}\n{"hash":0,"arrivesAt":1,"runsFor":10,"width":5}\n{"hash":0,"arrivesAt":2,"runsFor":10}\n',
        [
            (timeline, 0, "arrive 0\narrive 1\narrive 2\nfinish 0\nfinish 1\nfinish 2\n"),
            (
                simulate,
                0,
                "flow 0000000000000000 requests 3 executed 3 rejected 0 cancelled 0 seat-time 70 wait median 9 p99 18 longest 18\n"
                "end 30 seat-time 70 of 60 waited 27 patience 0\n"
                "level open seats 0 waiting 0\n"
                "executed 3 rejected 0 cancelled 0 undecided 0\n"
                "queue-full 0 closed 0 concurrency-limit 0\n"
                "entered 2 dispatched 2 struck 0\n",
            ),
            (requests, None, '[\n{"hash":0},\n{"hash":0,"width":5},\n{"hash":0}\n]\n'),
        ],
    ),
    (
        "a level that rejects",
        '{"limit":1,"limitResponse":"Reject"}',
        '{"hash":0,"arrivesAt":0,"runsFor":10}\n{"hash":1,"arrivesAt":5,"runsFor":10}\n{"hash":0,"arrivesAt":10,"runsFor":10}\n',
        [
            (timeline, 3, "arrive 0\narrive 1\nfinish 0\narrive 2\nfinish 2\n"),
            (
                fates,
                3,
                FATES
                + "0 0000000000000000 0 - 0 10 execute\n1 0000000000000001 5 - - 5 concurrency-limit\n2 0000000000000000 10 - 10 20 execute\n",
            ),
            (
                simulate,
                3,
                "flow 0000000000000000 requests 2 executed 2 rejected 0 cancelled 0 seat-time 20 wait median 0 p99 0 longest 0\n"
                "flow 0000000000000001 requests 1 executed 0 rejected 1 cancelled 0 seat-time 0 wait median 0 p99 0 longest 0\n"
                "end 20 seat-time 20 of 20 waited 0 patience 3\n"
                "level open seats 0 waiting 0\n"
                "executed 2 rejected 1 cancelled 0 undecided 0\n"
                "queue-full 0 closed 0 concurrency-limit 1\n"
                "entered 0 dispatched 0 struck 0\n",
            ),
        ],
    ),
    # the flow of the hash 1 has queue 1, the other one queue 0: of the first heads, that of queue 1 ends at 1, the other one at 3
    (
        "dispatches are charged their costs",
        '{"limit":1,"queues":2,"handSize":1}',
        COSTLY,
        [
            (timeline, 0, "arrive 0\narrive 1\narrive 2\narrive 3\narrive 4\nfinish 0\nfinish 3\nfinish 4\nfinish 1\nfinish 2\n"),
            (
                simulate,
                0,
                "flow 0000000000000001 requests 3 executed 3 rejected 0 cancelled 0 seat-time 30 wait median 9 p99 19 longest 19\n"
                "flow 0000000000000000 requests 2 executed 2 rejected 0 cancelled 0 seat-time 20 wait median 29 p99 39 longest 39\n"
                "end 50 seat-time 50 of 50 waited 96 patience 0\n"
                "level open seats 0 waiting 0\n"
                "executed 5 rejected 0 cancelled 0 undecided 0\n"
                "queue-full 0 closed 0 concurrency-limit 0\n"
                "entered 4 dispatched 4 struck 0\n",
            ),
            (requests, None, '[\n{"hash":1},\n{"hash":0},\n{"hash":0},\n{"hash":1},\n{"hash":1}\n]\n'),
        ],
    ),
    (
        "the same requests without the cost of 3",
        '{"limit":1,"queues":2,"handSize":1}',
        COSTLY.replace(',"cost":3', ""),
        [
            (timeline, 0, "arrive 0\narrive 1\narrive 2\narrive 3\narrive 4\nfinish 0\nfinish 1\nfinish 3\nfinish 2\nfinish 4\n"),
            (
                simulate,
                0,
                "flow 0000000000000001 requests 3 executed 3 rejected 0 cancelled 0 seat-time 30 wait median 19 p99 39 longest 39\n"
                "flow 0000000000000000 requests 2 executed 2 rejected 0 cancelled 0 seat-time 20 wait median 9 p99 29 longest 29\n"
                "end 50 seat-time 50 of 50 waited 96 patience 0\n"
                "level open seats 0 waiting 0\n"
                "executed 5 rejected 0 cancelled 0 undecided 0\n"
                "queue-full 0 closed 0 concurrency-limit 0\n"
                "entered 4 dispatched 4 struck 0\n",
            ),
        ],
    ),
    # at 10 the head of queue 1 would end at 1, the other one at 5; at 20 two of a seat each take the two seats
    (
        "seats go by widths, and charges by costs",
        '{"limit":2,"queues":2,"handSize":1}',
        '{"hash":0,"arrivesAt":0,"runsFor":10,"width":2}\n'
        + '{"hash":0,"arrivesAt":1,"runsFor":10,"cost":5}\n' * 2
        + '{"hash":1,"arrivesAt":1,"runsFor":10,"width":2,"cost":1}\n',
        [
            (timeline, 0, "arrive 0\narrive 1\narrive 2\narrive 3\nfinish 0\nfinish 3\nfinish 1\nfinish 2\n"),
            (
                simulate,
                0,
                "flow 0000000000000000 requests 3 executed 3 rejected 0 cancelled 0 seat-time 40 wait median 19 p99 19 longest 19\n"
                "flow 0000000000000001 requests 1 executed 1 rejected 0 cancelled 0 seat-time 20 wait median 9 p99 9 longest 9\n"
                "end 30 seat-time 60 of 60 waited 47 patience 0\n"
                "level open seats 0 waiting 0\n"
                "executed 4 rejected 0 cancelled 0 undecided 0\n"
                "queue-full 0 closed 0 concurrency-limit 0\n"
                "entered 3 dispatched 3 struck 0\n",
            ),
        ],
    ),
    # the hash of the names in the second line is the number in the first
    (
        "a flow is named by the first of its requests, and comes by that one's line",
        '{"limit":5,"queues":1,"handSize":1}',
        '{"hash":12884702129383071583,"arrivesAt":9,"runsFor":1}\n'
        '{"schema":"batch","distinguisher":"crawler","arrivesAt":0,"runsFor":1}\n'
        '{"schema":"a\\"\\\\\\n\\u0001\\u007f\\/\\u00e4\\ud83d\\ude00","distinguisher":"","arrivesAt":0,"runsFor":1}\n',
        [
            (timeline, 0, "arrive 1\narrive 2\nfinish 1\nfinish 2\narrive 0\nfinish 0\n"),
            (
                fates,
                0,
                FATES
                + '1 b2cfa8521298df5f 0 - 0 1 execute "batch" "crawler"\n'
                '2 318d292d6ad4546e 0 - 0 1 execute "a\\"\\\\\\n\\u0001\\u007f/ä😀" ""\n'
                "0 b2cfa8521298df5f 9 - 9 10 execute\n",
            ),
            (
                simulate,
                0,
                "flow b2cfa8521298df5f requests 2 executed 2 rejected 0 cancelled 0 seat-time 2 wait median 0 p99 0 longest 0\n"
                'flow 318d292d6ad4546e requests 1 executed 1 rejected 0 cancelled 0 seat-time 1 wait median 0 p99 0 longest 0 of "a\\"\\\\\\n\\u0001\\u007f/ä😀" ""\n'
                "end 10 seat-time 3 of 50 waited 0 patience 0\n"
                "level open seats 0 waiting 0\n"
                "executed 3 rejected 0 cancelled 0 undecided 0\n"
                "queue-full 0 closed 0 concurrency-limit 0\n"
                "entered 0 dispatched 0 struck 0\n",
            ),
            (
                hands,
                None,
                "flow b2cfa8521298df5f hand 0\n"
                "  shares 0 with 1 flows\n"
                "  covered by 318d292d6ad4546e\n"
                'flow 318d292d6ad4546e hand 0 of "a\\"\\\\\\n\\u0001\\u007f/ä😀" ""\n'
                "  shares 0 with 1 flows\n"
                "  covered by b2cfa8521298df5f\n",
            ),
            (
                requests,
                None,
                '[\n{"hash":12884702129383071583},\n{"schema":"batch","distinguisher":"crawler"},\n'
                '{"schema":"a\\"\\\\\\n\\u0001\\u007f/ä😀","distinguisher":""}\n]\n',
            ),
        ],
    ),
    # of four queues, 0 is dealt 0 and the first of the others; 5 is dealt 1 and the second of 0, 2, 3; 1 is dealt 1 and 0
    (
        "three hands of two",
        '{"limit":1,"queues":4,"handSize":2}',
        "".join('{"hash":%d,"arrivesAt":0,"runsFor":0}\n' % number for number in (0, 5, 0, 1)),
        [
            (
                hands,
                None,
                "flow 0000000000000000 hand 0 1\n"
                "  shares 0 with 1 flows\n"
                "  shares 1 with 2 flows\n"
                "  covered by 0000000000000001\n"
                "flow 0000000000000005 hand 1 2\n"
                "  shares 1 with 2 flows\n"
                "flow 0000000000000001 hand 1 0\n"
                "  shares 1 with 2 flows\n"
                "  shares 0 with 1 flows\n"
                "  covered by 0000000000000000\n",
            ),
        ],
    ),
    # two flows by their names and two by their hashes, whose hands cover one another in pairs
    (
        "hands that share",
        '{"limit":2,"queues":4,"handSize":2}',
        ALICE % (0, "") + CRAWLER + "".join('{"hash":%d,"arrivesAt":0,"runsFor":0}\n' % number for number in (7, 7, (1 << 64) - 1)),
        [
            (
                hands,
                None,
                'flow f7c495a40a0feec0 hand 0 3 of "users" "alice"\n'
                "  shares 0 with 1 flows\n"
                "  shares 3 with 3 flows\n"
                "  covered by ffffffffffffffff\n"
                'flow b2cfa8521298df5f hand 3 1 of "batch" "crawler"\n'
                "  shares 3 with 3 flows\n"
                "  shares 1 with 1 flows\n"
                "  covered by 0000000000000007\n"
                "flow 0000000000000007 hand 3 1\n"
                "  shares 3 with 3 flows\n"
                "  shares 1 with 1 flows\n"
                "  covered by b2cfa8521298df5f\n"
                "flow ffffffffffffffff hand 3 0\n"
                "  shares 3 with 3 flows\n"
                "  shares 0 with 1 flows\n"
                "  covered by f7c495a40a0feec0\n",
            ),
        ],
    ),
    (
        "a level that rejects deals no hands, and needs no sizes that make a dealer",
        '{"limit":2,"queues":1,"handSize":2,"limitResponse":"Reject"}',
        ALICE % (0, "") + '{"hash":7,"arrivesAt":0,"runsFor":0}\n',
        [(hands, None, 'flow f7c495a40a0feec0 hand of "users" "alice"\nflow 0000000000000007 hand\n')],
    ),
    # On one queue each flow covers the others: of more than ten the first ten are named.
    *(
        (
            f"{count} flows on one queue",
            '{"limit":2,"queues":1,"handSize":1}',
            "".join('{"hash":%d,"arrivesAt":0,"runsFor":0}\n' % number for number in range(count)),
            [
                (
                    hands,
                    None,
                    "".join(
                        f"flow {number:016x} hand 0\n  shares 0 with {count - 1} flows\n  covered by "
                        + " ".join([f"{other:016x}" for other in range(count) if other != number][:10])
                        + ("\n  covered by 2 more\n" if count == 13 else "\n")
                        for number in range(count)
                    ),
                ),
            ],
        )
        for count in (11, 13)
    ),
    # characters that JSON escapes, and those that a terminal obeys, each with its neighbours
    (
        "names that are escaped",
        '{"limit":2,"queues":2,"handSize":1,"limitResponse":"Reject"}',
        '{"schema":"","distinguisher":"a\\"b\\\\c\\n\\r\\t\\b\\f\\u0000\\u001f\\u007f\u00e9/","arrivesAt":0,"runsFor":0,"width":3}\n'
        '{"schema":"~\x7f\x80\x9f\xa0\u061b\u061c\u061d\u200d\u200e\u200f\u2010\u2029\u202a\u202e\u202f\u2065\u2066\u2069\u206a\U0001f600","distinguisher":"","arrivesAt":0,"runsFor":0}\n',
        [
            (
                requests,
                None,
                '[\n{"schema":"","distinguisher":"a\\"b\\\\c\\n\\r\\t\\b\\f\\u0000\\u001f\\u007f\u00e9/","width":3},\n'
                '{"schema":"~\\u007f\\u0080\\u009f\xa0\u061b\\u061c\u061d\u200d\\u200e\\u200f\u2010\u2029\\u202a\\u202e\u202f\u2065\\u2066\\u2069\u206a\U0001f600","distinguisher":""}\n]\n',
            ),
        ],
    ),
    (
        "the latest, the longest and the widest",
        '{"limit":10000}',
        '{"hash":18446744073709551615,"arrivesAt":1000000000000,"runsFor":10000000000,"width":20000,"cost":20000}\n',
        [
            (timeline, 1_000_000_000, "arrive 0\nfinish 0\n"),
            (
                simulate,
                1_000_000_000,
                "flow ffffffffffffffff requests 1 executed 1 rejected 0 cancelled 0 seat-time 200000000000000 wait median 0 p99 0 longest 0\n"
                "end 1010000000000 seat-time 200000000000000 of 10100000000000000 waited 0 patience 1000000000\n"
                "level open seats 0 waiting 0\n"
                "executed 1 rejected 0 cancelled 0 undecided 0\n"
                "queue-full 0 closed 0 concurrency-limit 0\n"
                "entered 0 dispatched 0 struck 0\n",
            ),
            (requests, None, '[\n{"hash":18446744073709551615,"width":20000}\n]\n'),
        ],
    ),
    (
        "nobody",
        '{"limit":1}',
        "",
        [
            (timeline, 0, ""),
            (fates, 0, FATES),
            (
                simulate,
                1,
                "end 0 seat-time 0 of 0 waited 0 patience 1\n"
                "level open seats 0 waiting 0\n"
                "executed 0 rejected 0 cancelled 0 undecided 0\n"
                "queue-full 0 closed 0 concurrency-limit 0\n"
                "entered 0 dispatched 0 struck 0\n",
            ),
            (hands, None, ""),
            (requests, None, "[\n]\n"),
        ],
    ),
]
# on one seat and two queues, of which the flow 0 has the first and the flow 1 the second
TWO_FLOWS = '{"limit":1,"queues":2,"handSize":1}'
# how long a flow's requests run is learned by the first two, one of each flow; then a third flow takes the seat, and the others wait for it
LEARNED = (
    '{"hash":0,"arrivesAt":0,"runsFor":100}\n{"hash":1,"arrivesAt":200,"runsFor":10}\n{"hash":2,"arrivesAt":300,"runsFor":1000}\n'
    + '{"hash":0,"arrivesAt":301,"runsFor":5}\n' * 2
    + '{"hash":1,"arrivesAt":301,"runsFor":1000}\n'
    + '{"hash":1,"arrivesAt":301,"runsFor":10}\n' * 3
)
# a name, the config, the trace, and what each command prints of them, with its patience, by what requests are charged, as usual where that is None
CHARGED = [
    # At 301 a request of flow 0 costs 100, and one of flow 1 costs 10. So the first of flow 1 comes first. It runs for 1000, and the second queue's next one
    # ends at 1010 then. Both of flow 0 come before it: each runs for 5, so after the first of them the first queue's next one ends at 105.
    (
        "a flow whose requests run long comes behind",
        TWO_FLOWS,
        LEARNED,
        [
            (
                fates,
                0,
                None,
                FATES
                + "0 0000000000000000 0 - 0 100 execute\n1 0000000000000001 200 - 200 210 execute\n2 0000000000000002 300 - 300 1300 execute\n"
                "3 0000000000000000 301 0 2300 2305 execute\n4 0000000000000000 301 0 2305 2310 execute\n5 0000000000000001 301 1 1300 2300 execute\n"
                "6 0000000000000001 301 1 2310 2320 execute\n7 0000000000000001 301 1 2320 2330 execute\n8 0000000000000001 301 1 2330 2340 execute\n",
            ),
            (
                simulate,
                0,
                "time",
                "flow 0000000000000000 requests 3 executed 3 rejected 0 cancelled 0 seat-time 110 wait median 1999 p99 2004 longest 2004\n"
                "flow 0000000000000001 requests 5 executed 5 rejected 0 cancelled 0 seat-time 1040 wait median 2009 p99 2029 longest 2029\n"
                "flow 0000000000000002 requests 1 executed 1 rejected 0 cancelled 0 seat-time 1000 wait median 0 p99 0 longest 0\n"
                "end 2340 seat-time 2150 of 2340 waited 11059 patience 0\n"
                "level open seats 0 waiting 0\n"
                "executed 9 rejected 0 cancelled 0 undecided 0\n"
                "queue-full 0 closed 0 concurrency-limit 0\n"
                "entered 6 dispatched 6 struck 0\n",
            ),
            # by turns
            (
                timeline,
                0,
                "seats",
                "arrive 0\nfinish 0\narrive 1\nfinish 1\narrive 2\narrive 3\narrive 4\narrive 5\narrive 6\narrive 7\narrive 8\n"
                "finish 2\nfinish 3\nfinish 5\nfinish 4\nfinish 6\nfinish 7\nfinish 8\n",
            ),
        ],
    ),
    # The request that gives up at 151 would run for 5000, and nobody learns that. At 200 a request of flow 0 costs 40 a seat, and one of flow 5, of which
    # none ran, as much as the first requests of flows: 40.
    (
        "a flow that is not known costs what the first requests of flows did, and who gives up teaches nothing",
        TWO_FLOWS,
        '{"hash":0,"arrivesAt":0,"runsFor":40}\n{"hash":1,"arrivesAt":50,"runsFor":200}\n{"hash":3,"arrivesAt":51,"runsFor":5000}\n'
        '{"hash":0,"arrivesAt":200,"runsFor":10,"width":2}\n{"hash":5,"arrivesAt":200,"runsFor":10}\n',
        [
            (timeline, 100, "time", "arrive 0\nfinish 0\narrive 1\narrive 2\ncancel 2\narrive 3\narrive 4\nfinish 1\nfinish 4\nfinish 3\n"),
        ],
    ),
    # Nothing finished before 5, so that each costs 10,000 a seat: the wide one comes last.
    (
        "where nothing ran, ten milliseconds are expected",
        TWO_FLOWS,
        '{"hash":1,"arrivesAt":0,"runsFor":5}\n{"hash":0,"arrivesAt":1,"runsFor":1,"width":2}\n{"hash":1,"arrivesAt":1,"runsFor":1}\n'
        '{"hash":1,"arrivesAt":2,"runsFor":1,"cost":9999}\n{"hash":0,"arrivesAt":2,"runsFor":1}\n',
        [
            (timeline, 0, "time", "arrive 0\narrive 1\narrive 2\narrive 3\narrive 4\nfinish 0\nfinish 2\nfinish 3\nfinish 1\nfinish 4\n"),
        ],
    ),
    # By time the first of flow 0 costs its 150, and the others 100. So the first of flow 1 comes first, and runs for 100: the second queue's next one ends at
    # 200 then, behind both of flow 0, the first of which runs for 10 alone. Where it is not said, others cost a seat.
    (
        "a cost that a line says goes before",
        TWO_FLOWS,
        '{"hash":0,"arrivesAt":0,"runsFor":100}\n{"hash":1,"arrivesAt":200,"runsFor":100}\n{"hash":0,"arrivesAt":201,"runsFor":10,"cost":150}\n'
        + '{"hash":1,"arrivesAt":201,"runsFor":100}\n' * 2
        + '{"hash":0,"arrivesAt":201,"runsFor":10}\n',
        [
            (timeline, 0, "time", "arrive 0\nfinish 0\narrive 1\narrive 2\narrive 3\narrive 4\narrive 5\nfinish 1\nfinish 3\nfinish 2\nfinish 5\nfinish 4\n"),
            (timeline, 0, None, "arrive 0\nfinish 0\narrive 1\narrive 2\narrive 3\narrive 4\narrive 5\nfinish 1\nfinish 3\nfinish 4\nfinish 2\nfinish 5\n"),
            (timeline, 0, "seats", "arrive 0\nfinish 0\narrive 1\narrive 2\narrive 3\narrive 4\narrive 5\nfinish 1\nfinish 3\nfinish 4\nfinish 2\nfinish 5\n"),
        ],
    ),
]
COMPARED = "flow requests median median-2 p99 p99-2 longest longest-2 rejected rejected-2 cancelled cancelled-2 schema distinguisher\n"
SMALL = '{"limit":%d,"queues":2,"handSize":1,"queueLengthLimit":2}'
# a name, two configs, the trace, and what `compare` prints of them, with its patience
SIDE_BY_SIDE = [
    # on the second level the crawler takes all four seats at 0. At 100 alice's first request begins, and the crawler's last two;
    # at 120 alice's second one
    (
        "the one whose longest wait changes most comes first",
        [SMALL % 2, SMALL % 4],
        WORKED[0][2],
        0,
        'f7c495a40a0feec0 3 50 50 160 60 160 60 0 0 0 0 "users" "alice"\n'
        'b2cfa8521298df5f 6 0 0 120 100 120 100 2 0 0 0 "batch" "crawler"\n'
        "whole 9 50 0 160 100 160 100 2 0 0 0\n",
    ),
    # the same when the longest waits get longer
    (
        "the other way round",
        [SMALL % 4, SMALL % 2],
        WORKED[0][2],
        0,
        'f7c495a40a0feec0 3 50 50 60 160 60 160 0 0 0 0 "users" "alice"\n'
        'b2cfa8521298df5f 6 0 0 100 120 100 120 0 2 0 0 "batch" "crawler"\n'
        "whole 9 0 50 100 160 100 160 0 2 0 0\n",
    ),
    (
        "a level beside itself: the flows in the order of their first requests",
        [SMALL % 2, SMALL % 2],
        WORKED[0][2],
        90,
        'b2cfa8521298df5f 6 0 0 0 0 0 0 2 2 2 2 "batch" "crawler"\n'
        'f7c495a40a0feec0 3 50 50 60 60 60 60 0 0 0 0 "users" "alice"\n'
        "whole 9 0 0 60 60 60 60 2 2 2 2\n",
    ),
    # two flows wait 6 less, one by its seats and one as it is rejected
    (
        "changes by as much",
        [SMALL % 1, '{"limit":1,"limitResponse":"Reject"}'],
        '{"hash":2,"arrivesAt":0,"runsFor":10}\n{"hash":1,"arrivesAt":4,"runsFor":10}\n{"hash":0,"arrivesAt":14,"runsFor":10}\n',
        0,
        "0000000000000001 1 6 0 6 0 6 0 0 1 0 0\n"
        "0000000000000000 1 6 0 6 0 6 0 0 0 0 0\n"
        "0000000000000002 1 0 0 0 0 0 0 0 0 0 0\n"
        "whole 3 6 0 6 0 6 0 0 1 0 0\n",
    ),
    ("nobody", ['{"limit":1}', '{"limit":2}'], "", 0, "whole 0 0 0 0 0 0 0 0 0 0 0\n"),
]
# a patience as a command line has it, and its microseconds, None where it is none
PATIENCES = [
    ("0", 0),
    ("7", 7),
    ("90", 90),
    ("+1", 1),
    ("007", 7),
    ("1000000000", 1_000_000_000),
    ("1000000000us", 1_000_000_000),
    ("1000000ms", 1_000_000_000),
    ("1000s", 1_000_000_000),
    ("250us", 250),
    ("500ms", 500_000),
    ("15s", 15_000_000),
    ("7s", 7_000_000),
    ("0s", 0),
    ("0ms", 0),
    ("0us", 0),
    ("+15s", 15_000_000),
    ("00015s", 15_000_000),
    ("000000000000000000007", 7),
    ("1m", 60_000_000),
    ("16m", 960_000_000),
    ("1.5s", 1_500_000),
    ("1.5m", 90_000_000),
    ("0.000001s", 1),
    ("+1.500000s", 1_500_000),
    ("0.25ms", 250),
    ("7.0us", 7),
    ("999.999999s", 999_999_999),
    ("16.666666m", 999_999_960),
    ("1000000001", None),
    ("1000000001us", None),
    ("1000001ms", None),
    ("1001s", None),
    ("4294967296", None),
    ("4295s", None),
    ("4294967296s", None),
    ("4294967297s", None),
    ("18446744073709551616", None),
    ("1" + "0" * 40 + "ms", None),
    ("", None),
    ("s", None),
    ("ms", None),
    ("us", None),
    ("+", None),
    ("+s", None),
    ("++1", None),
    ("1.0", None),
    ("1.5", None),
    ("1.5us", None),
    ("0.0001ms", None),
    ("1.5000000s", None),
    (".5s", None),
    ("1.s", None),
    (".s", None),
    ("1.+5s", None),
    ("1.5.5s", None),
    ("1000.000001s", None),
    ("17m", None),
    ("16.666667m", None),
    ("4294967296.5s", None),
    ("1,5s", None),
    ("15 s", None),
    ("1 s", None),
    (" 15s", None),
    ("15s ", None),
    ("15s\n", None),
    ("15S", None),
    ("1S", None),
    ("15MS", None),
    ("1h", None),
    ("15ns", None),
    ("15µs", None),
    ("15sec", None),
    ("15ss", None),
    ("15sms", None),
    ("15usus", None),
    ("1usus", None),
    ("s15", None),
    ("1s500ms", None),
    ("1e3", None),
    ("0x10", None),
    ("1_000", None),
    ("1'000", None),
    ("\uff11\uff15s", None),
    ("\u0661s", None),
    ("x", None),
    ("inf", None),
    ("-", None),
]
# waits, the median of them, and the 99th percentile
RANKS = [
    ([], 0, 0),
    ([7], 7, 7),
    ([3, 1], 1, 3),
    ([3, 1, 2, 2], 2, 3),
    (range(1, 101), 50, 99),
    (range(1, 102), 51, 100),
    (range(1, 201), 100, 198),
]


def worked():
    """Each example by seats: its name, the command, the contents of its files, a list of its patience and of what requests are charged if it takes them, and what is
    printed."""
    for name, config, trace, rows in WORKED:
        for command, patience, text in rows:
            contents = [trace.encode()] if command is requests else [config.encode(), trace.encode()]
            more = [] if patience is None else [patience, "seats"]
            yield " ".join([name, command.__name__, *map(str, more[:1])]), command, contents, more, text
    for name, configs, trace, patience, text in SIDE_BY_SIDE:
        yield f"{name} compare {patience}", compare, [it.encode() for it in [*configs, trace]], [patience, "seats"], COMPARED + text


def charged():
    """Each example of what requests are charged, in the same form."""
    for name, config, trace, rows in CHARGED:
        for command, patience, charge, text in rows:
            yield f"{name}: {command.__name__} by {charge}", command, [config.encode(), trace.encode()], [patience, charge], text


def self_test(check):
    """The computation against each example."""
    for name, command, contents, how, text in [*worked(), *charged()]:
        check(f"the model: {name}", answer(command, contents, *how), (0, text.encode(), b""))
    for text, patience in PATIENCES:
        check(f"the patience {text!r}", patience_of(text), patience)
    for waits, median, high in RANKS:
        check(f"the ranks of {waits}", (nearest_rank(waits, 50), nearest_rank(waits, 99)), (median, high))
