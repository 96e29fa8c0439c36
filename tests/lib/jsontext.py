"""A text as the program writes it between quotes: as JSON has it, escaped where JSON must, and where a terminal would obey a character."""

import functools
import json
import re

# U+007F to U+009F, and the characters that turn the direction of writing
OBEYED = re.compile("[\x7f-\x9f\u061c\u200e\u200f\u202a-\u202e\u2066-\u2069]")


@functools.cache
def encoder(is_ascii=False, blank=""):
    """What writes a value as JSON: what is beyond ASCII as escapes or as it is, and these blanks around commas and colons."""
    return json.JSONEncoder(ensure_ascii=is_ascii, separators=(f"{blank},{blank}", f"{blank}:{blank}")).encode


def json_text(value):
    """A text, or an object of texts and numbers, as JSON. The last texts are kept, as names stand on many lines."""
    return of_text(value) if isinstance(value, str) else written(value)


@functools.lru_cache(maxsize=1024)
def of_text(value):
    return written(value)


def written(value):
    text = encoder()(value)
    return OBEYED.sub(lambda it: f"\\u{ord(it[0]):04x}", text)
