"""Files against an independent judge: 3,000 files cut, flipped, spliced and reworded, each fault by hand, and files of the largest sizes."""

import os
import random
import sys

sys.path.insert(0, os.path.join(os.path.dirname(os.path.abspath(__file__)), "lib"))
from harness import Files, Tally, build, processor_seconds, run
from level import answer
from maker import CONFIG, REQUESTS, WHOLE, with_spoiled

tally = Tally()
program = build()
files = Files()
# the same draws each time; APF_SEED draws others
draw = random.Random(int(os.environ.get("APF_SEED", "1040")))
NAMES = ["config", "requests", "script"]


def replay(contents):
    return run(program, ["replay", *[files(name, content) for name, content in zip(NAMES, contents)]])


def judged(name, contents):
    """The status, output and errors are those of the judge, to the letter."""
    tally.check(name, replay(contents), answer(*contents))


def with_file(place, content):
    contents = [*WHOLE]
    contents[place] = content
    return contents


# each fault by hand: the file in the place of a good one, and the number and text
for place, content, line in [
    (0, b"", "config fault 1: not JSON"),
    (0, b'{"limit":1', "config fault 1: not JSON"),
    (0, b'{"limit":01}', "config fault 1: not JSON"),
    (0, b'{"limit":1}x', "config fault 1: not JSON"),
    (0, b'{"limit":1,}', "config fault 1: not JSON"),
    (0, b'{"limit":1} // seats', "config fault 1: not JSON"),
    (0, b'\xef\xbb\xbf{"limit":1}', "config fault 1: not JSON"),
    (0, b'{"\xff":1}', "config fault 1: not JSON"),
    (0, b"[]", "config fault 2: not an object"),
    (0, b'"limit"', "config fault 2: not an object"),
    (0, b'{"limits":1}', "config fault 3: unknown key"),
    (0, b'{"limit":1,"Queues":1}', "config fault 3: unknown key"),
    (0, b"{}", "config fault 4: limit missing"),
    (0, b'{"queues":0}', "config fault 4: limit missing"),
    (0, b'{"limit":0}', "config fault 5: bad value of limit"),
    (0, b'{"limit":10001}', "config fault 5: bad value of limit"),
    (0, b'{"limit":1.0}', "config fault 5: bad value of limit"),
    (0, b'{"limit":1e1}', "config fault 5: bad value of limit"),
    (0, b'{"limit":-1}', "config fault 5: bad value of limit"),
    (0, b'{"limit":"1"}', "config fault 5: bad value of limit"),
    (0, b'{"limit":null}', "config fault 5: bad value of limit"),
    (0, b'{"limit":true}', "config fault 5: bad value of limit"),
    (0, b'{"limit":18446744073709551617}', "config fault 5: bad value of limit"),
    (0, b'{"queues":0,"limit":0}', "config fault 5: bad value of limit"),
    (0, b'{"limit":1,"queues":0}', "config fault 5: bad value of queues"),
    (0, b'{"limit":1,"queues":1025,"handSize":0}', "config fault 5: bad value of queues"),
    (0, b'{"limit":1,"handSize":0}', "config fault 5: bad value of handSize"),
    (0, b'{"limit":1,"handSize":16}', "config fault 5: bad value of handSize"),
    (0, b'{"limit":1,"queueLengthLimit":0}', "config fault 5: bad value of queueLengthLimit"),
    (0, b'{"limit":1,"queueLengthLimit":10001}', "config fault 5: bad value of queueLengthLimit"),
    (0, b'{"limit":1,"queueLengthLimit":1.0}', "config fault 5: bad value of queueLengthLimit"),
    (0, b'{"limit":1,"limitResponse":"reject"}', "config fault 5: bad value of limitResponse"),
    (0, b'{"limit":1,"limitResponse":1}', "config fault 5: bad value of limitResponse"),
    (0, b'{"limit":1,"queues":3}', "dealer fault 2: hand too large"),
    (0, b'{"limit":1,"queues":1024,"handSize":7}', "dealer fault 4: too much entropy"),
    (1, b"[", "requests fault 1: not JSON"),
    (1, b'[{"schema":"\\ud800","distinguisher":""}]', "requests fault 1: not JSON"),
    (1, b"{}", "requests fault 2: not an array"),
    (1, b"[1]", "requests fault 4 at 0: not an object"),
    (1, b'[{"hash":0},[]]', "requests fault 4 at 1: not an object"),
    (1, b'[{"hash":0,"color":1,"width":0}]', "requests fault 5 at 0: unknown key"),
    (1, b"[{}]", "requests fault 6 at 0: bad flow"),
    (1, b'[{"width":0}]', "requests fault 6 at 0: bad flow"),
    (1, b'[{"hash":-1}]', "requests fault 6 at 0: bad flow"),
    (1, b'[{"hash":18446744073709551616}]', "requests fault 6 at 0: bad flow"),
    (1, b'[{"hash":"987ab3ff9c0b346e"}]', "requests fault 6 at 0: bad flow"),
    (1, b'[{"schema":"a"}]', "requests fault 6 at 0: bad flow"),
    (1, b'[{"distinguisher":"a"}]', "requests fault 6 at 0: bad flow"),
    (1, b'[{"schema":"a","distinguisher":1}]', "requests fault 6 at 0: bad flow"),
    (1, b'[{"hash":0},{"hash":0,"schema":"a","distinguisher":"b"}]', "requests fault 6 at 1: bad flow"),
    (1, b'[{"hash":0,"width":0,"work":-1}]', "requests fault 7 at 0: bad width"),
    (1, b'[{"hash":0,"width":20001}]', "requests fault 7 at 0: bad width"),
    (1, b'[{"hash":0,"work":1000001,"cancels":1}]', "requests fault 8 at 0: bad work"),
    (1, b'[{"hash":0,"cancels":1,"closes":1}]', "requests fault 9 at 0: bad cancels"),
    (1, b'[{"hash":0,"cancels":null}]', "requests fault 9 at 0: bad cancels"),
    (1, b'[{"hash":0,"closes":1}]', "requests fault 10 at 0: bad closes"),
    (1, b'[{"hash":0,"closes":1},2]', "requests fault 10 at 0: bad closes"),
    (1, b'[{"hash":0,"work":1000001}]', "requests fault 8 at 0: bad work"),
    (1, b'[{"hash":0,"cancels":1}]', "requests fault 9 at 0: bad cancels"),
    (2, b"close", "script fault 2 at line 1: truncated"),
    (2, b"arrive 0\nfinish", "script fault 2 at line 2: truncated"),
    (2, b"\n", "script fault 3 at line 1: bad line"),
    (2, b"arrive 0\r\n", "script fault 3 at line 1: bad line"),
    (2, b"arrive  0\n", "script fault 3 at line 1: bad line"),
    (2, b"arrive 0 \n", "script fault 3 at line 1: bad line"),
    (2, b" arrive 0\n", "script fault 3 at line 1: bad line"),
    (2, b"arrive 00\n", "script fault 3 at line 1: bad line"),
    (2, b"arrive 100000\n", "script fault 3 at line 1: bad line"),
    (2, b"limit 100000\n", "script fault 3 at line 1: bad line"),
    (2, b"arrive +1\n", "script fault 3 at line 1: bad line"),
    (2, b"arrive\n", "script fault 3 at line 1: bad line"),
    (2, b"close 1\n", "script fault 3 at line 1: bad line"),
    (2, b"# begin\n", "script fault 3 at line 1: bad line"),
    (2, b"\xff\n", "script fault 3 at line 1: bad line"),
    (2, b"arrive 0\nshut\narrive 9\n", "script fault 3 at line 2: bad line"),
    (2, b"arrive 2\n", "script fault 4 at line 1: unknown request"),
    (2, b"finish 2\n", "script fault 4 at line 1: unknown request"),
    (2, b"arrive 99999\nlimit 0\n", "script fault 4 at line 1: unknown request"),
    (2, b"close\ncancel 2\n", "script fault 4 at line 2: unknown request"),
    (2, b"limit 0\narrive 9\n", "script fault 6 at line 1: bad limit"),
    (2, b"limit 10001\n", "script fault 6 at line 1: bad limit"),
    # a config that is cut
    *((0, b'{"limit":1}'[:count], "config fault 1: not JSON") for count in range(1, 11)),
]:
    contents = with_file(place, content)
    tally.check(repr(content), replay(contents), (1, b"", f"apf: {line}\n".encode()))
    judged(f"the judge of {content!r}", contents)

# the first of two faults, by the order of the files
judged("a bad config before bad requests", [b'{"limit":0}', b"{}", b"x"])
judged("bad requests before a bad script", [b'{"limit":1}', b"{}", b"x"])
judged("a bad script before a bad dealer", [b'{"limit":1,"queues":3}', b"[]", b"x"])

# what is allowed at its ends
for contents in [
    [b' \t\r\n{ "limit" : 10000 , "limitResponse" : "Queue" }\n', b" [ ] ", b""],
    [b'{"limit":1,"queues":1024,"handSize":6,"queueLengthLimit":10000}', b"[]", b""],
    [b'{"limit":1,"handSize":1,"queues":1,"queueLengthLimit":1}', b"[]", b""],
    [b'{"limit":1,"queues":16,"handSize":15}', b"[]", b""],
    [b'{"\\u006cimit":1}', b'[{"hash":0,"width":20000,"work":1000000,"cancels":0,"closes":true}]', b"arrive 0\n"],
    [b'{"limit":1}', b'[{"schema":"","distinguisher":"\\ud83d\\ude00"}]', b"arrive 0\nfinish 0\n"],
]:
    tally.check(f"{contents} is good", answer(*contents)[0], 0)
    judged(f"{contents}", contents)


kinds = {}
SPOILED = int(os.environ.get("APF_SPOILED", "3000"))
for number in range(SPOILED):
    contents = with_spoiled(draw, number)
    want = answer(*contents)
    kinds[want[2].split(b" at ")[0].split(b":")[1] if want[0] else b""] = True
    judged(f"{contents[number % 3]!r}", contents)
tally.check(f"the files are of many kinds: {sorted(kinds)}", len(kinds) >= min(14, SPOILED // 100), True)

# sizes: an out of memory that is none would show here
blanks = b" " * 70_000
judged("a config of 64 KiB", [b'{"limit":1' + blanks[:65_525] + b"}", b"[]", b""])
judged("a config of over 64 KiB", [b'{"limit":1' + blanks + b"}", b"[]", b""])
judged("a config of over 1 MiB", [b'{"limit":1' + 16 * blanks + b"}", b"[]", b""])
judged("requests of over 64 KiB that are not JSON", [CONFIG, b"[" + blanks, b""])
judged("a name of over 64 KiB", [CONFIG, b'[{"schema":"' + blanks + b'","distinguisher":""}]', b"arrive 0\n"])
for count in (1_000, 9_999, 10_000, 10_001):
    judged(f"{count} requests", [CONFIG, b"[" + b",".join([b'{"hash":0}'] * count) + b"]", b"arrive 0\nfinish 0\n"])
for count in (9_999, 65_536, 99_999, 100_000, 100_001):
    judged(f"{count} lines", [CONFIG, REQUESTS, b"arrive 1\n" * count])
judged("100,001 lines, the last one cut", [CONFIG, REQUESTS, b"arrive 1\n" * 100_000 + b"arrive 1"])

# the largest files are read at once
ten_thousand = b"[" + b",".join([b'{"hash":1,"width":1,"work":0,"cancels":9999,"closes":false}'] * 10_000) + b"]"
lines = b"".join(b"arrive %d\n" % (number % 10_000) for number in range(100_000))
contents = [CONFIG, ten_thousand, lines]
want = answer(*contents)
got, took = processor_seconds(lambda: replay(contents))
tally.check("largest files", got, want)
tally.check(f"read in well under two seconds: {took:.2f} s", took < 2, True)
print(f"10,000 requests and 100,000 lines took {took:.2f} s")
tally.end()
