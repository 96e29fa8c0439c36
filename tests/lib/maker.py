"""Makes files that are nearly good: good ones cut, flipped, spliced and reworded."""

CONFIG = b'{"limit":2,"queues":4,"handSize":2,"queueLengthLimit":10,"limitResponse":"Queue"}'
REQUESTS = b'[{"hash":18446744073709551615,"width":2,"work":7,"cancels":1,"closes":false},{"schema":"\\u00e4","distinguisher":"b"}]'
SCRIPT = b"arrive 0\narrive 1\nfinish 0\narrive 1\nfinish 1\n"
WHOLE = [CONFIG, REQUESTS, SCRIPT]
OLD = [b"2", b"4", b"10", b"7", b"1", b"0", b'"Queue"', b"false", b"limit", b"width", b"hash", b"arrive 0", b"finish 0", b"arrive 1"]
NEW = [b"0", b"1", b"3", b"-1", b"1.0", b"1e3", b"10001", b"20001", b"null", b"true", b"[]", b"{}", b'""', b'"Reject"', b"close"]
NEW += [b"limit 1", b"limit 0", b"cancel 1", b"queues", b"closes", b"18446744073709551616", b"0.5", b"00", b"99999"]


def spoiled(draw, content):
    """Cut, flipped, spliced, or one word put in the place of another."""
    content = bytearray(content)
    for _ in range(draw.choice([1, 1, 1, 2, 5])):
        at = draw.randint(0, len(content))
        kind = draw.randrange(6)
        if kind == 0:
            del content[at:]
        elif kind == 1 and content:
            content[at % len(content)] ^= 1 << draw.randrange(8)
        elif kind == 2:
            content[at:at] = draw.choice(WHOLE)[: draw.randint(0, 40)]
        elif kind == 3:
            content[at:at] = bytes(draw.randrange(256) for _ in range(draw.randint(1, 8)))
        elif kind == 4:
            del content[at : at + draw.randint(1, 6)]
        else:
            old, new = draw.choice(OLD), draw.choice(NEW)
            content = bytearray(bytes(content).replace(old, new, 1))
    return bytes(content)


def with_spoiled(draw, number):
    """Three files, of which one is spoiled, in turns."""
    contents = [*WHOLE]
    contents[number % 3] = spoiled(draw, contents[number % 3])
    return contents
