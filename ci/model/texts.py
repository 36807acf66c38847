"""Which bytes are JSON and what they say, and how lines of steps are read, as docs/FORMATS.md describes it."""

import json
import re

from model.machine import Ask, Delivery
from model.recordings import STEPS, fits

MOST_LEVELS, LONGEST_LINE = 127, 200
LEAST_INTEGER, MOST_INTEGER = -(2**63), 2**64 - 1
SURROGATE = re.compile("[\ud800-\udfff]")
CACHE_NUMBER, WORD_NUMBER = 2**32, 2**64


class NotJson(Exception):
    """The bytes aren't JSON."""


def number(text):
    """A number with a fraction or an exponent, or one that is no integer of 64 bits."""
    value = float(text)
    if value in (float("inf"), float("-inf")):
        raise NotJson
    return value


def integer(text):
    if text == "-0" or len(text) > 20:
        return number(text)
    value = int(text)
    return value if LEAST_INTEGER <= value <= MOST_INTEGER else number(text)


def constant(text):
    raise NotJson


def members(pairs):
    for key, _ in pairs:
        if SURROGATE.search(key):
            raise NotJson
    return dict(pairs)


def levels(value):
    """How deep arrays and objects stand in one another. A string with half a character isn't JSON."""
    if isinstance(value, str) and SURROGATE.search(value):
        raise NotJson
    if isinstance(value, (list, dict)):
        inner = value.values() if isinstance(value, dict) else value
        return 1 + max(map(levels, inner), default=0)
    return 0


def value_of(text):
    """The value that these bytes say."""
    try:
        hooks = {"parse_int": integer, "parse_float": number, "parse_constant": constant, "object_pairs_hook": members}
        value = json.loads(text.decode("utf-8"), **hooks)
        if levels(value) > MOST_LEVELS:
            raise NotJson
    except (ValueError, RecursionError) as error:
        raise NotJson from error
    return value


def is_whole(value, limit):
    """Whether a value of JSON is a whole number below a limit."""
    return type(value) is int and 0 <= value < limit


def step_of(line):
    """The step that a line says, or `None`."""
    words = line.decode("latin-1").split(" ")
    if len(line) > LONGEST_LINE or not fits(words, STEPS):
        return None
    if words[0] != "ask":
        return Delivery(words[0], int(words[1]), int(words[2]))
    value = int(words[4]) if words[3] == "store" else None
    return Ask(int(words[1]), int(words[2]), words[3], value)


def lines_of(text):
    """The lines of a text that aren't empty, each with its number. The last one needs no LF."""
    lines = text.split(b"\n")
    return [(number, line) for number, line in enumerate(lines, 1) if line]
