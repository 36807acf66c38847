"""Which bytes are a recording's text, and where the first fault in others is, as docs/FORMATS.md describes it."""

import re
import sys
from dataclasses import dataclass

from model.tables import MOST_ACTIONS, SIDES, STALL, Act, baseline, sides_of

# Numbers are of any size.
sys.set_int_max_str_digits(0)

KINDS = "BadHeader BadLine Truncated CountDiffers BadOutcome OverLimit NoMemory Device UnknownProtocol".split()
HEADER_BYTES, MOST_ENTRIES, MOST_SEATS = 90_000, 1_000_000, 64
MOST_CELLS = {"msi": 160, "msi+e": 184}
CACHE_NUMBER, WORD_NUMBER = 2**32, 2**64
NUMBER = re.compile("0|[1-9][0-9]*", re.ASCII)
BARE_OUTCOMES = "sent moved held absent idle blank broken".split()

STEPS = {
    ("ask", 4): [CACHE_NUMBER, CACHE_NUMBER, ("load", "replace")],
    ("ask", 5): [CACHE_NUMBER, CACHE_NUMBER, ("store",), WORD_NUMBER],
    ("request", 3): [CACHE_NUMBER, WORD_NUMBER],
    ("forward", 3): [CACHE_NUMBER, CACHE_NUMBER],
    ("response", 3): [CACHE_NUMBER, WORD_NUMBER],
}
OUTCOMES = {
    ("load", 3): [CACHE_NUMBER, WORD_NUMBER],
    ("store", 3): [CACHE_NUMBER, WORD_NUMBER],
    **{(word, 1): [] for word in BARE_OUTCOMES},
}


@dataclass(frozen=True)
class Version:
    header: str
    most_bytes: int
    """The most bytes of a line behind the first."""
    most_caches: int
    most_blocks: int


FIRST = Version("msi-recording 1", 90_000, 1024, 4096)
SECOND = Version("msi-recording 2", 1_400_000, 4096, 65_536)
VERSIONS = {version.header: version for version in (FIRST, SECOND)}


class Refusal(Exception):
    def __init__(self, kind):
        super().__init__(kind)
        self.kind = kind


def is_number(word):
    return NUMBER.fullmatch(word) is not None


def fits(words, forms):
    """Whether the words are of one of these forms: their first word and count, and what stands behind it."""
    form = forms.get((words[0], len(words)))
    return form is not None and all(
        word in wanted if isinstance(wanted, tuple) else is_number(word) and int(word) < wanted
        for word, wanted in zip(words[1:], form)
    )


class Lines:
    def __init__(self, text):
        self.rest, self.number, self.most_bytes = text, 0, HEADER_BYTES

    def next(self):
        self.number += 1
        line, end, rest = self.rest.partition(b"\n")
        if len(line) > self.most_bytes:
            raise Refusal("OverLimit")
        if not end:
            raise Refusal("Truncated")
        self.rest = rest
        return line.decode("latin-1")


def numbers(line, name, count):
    """The numbers behind a name, of any size."""
    first, *others = line.split(" ")
    if first != name or len(others) != count or not all(map(is_number, others)):
        raise Refusal("BadLine")
    return [int(word) for word in others]


def read_protocol(line):
    first, *names = line.split(" ")
    if first != "protocol" or len(names) != 1 or not names[0]:
        raise Refusal("BadLine")
    if names[0] not in SIDES:
        raise Refusal("UnknownProtocol")
    return names[0]


def read_shape(line, version):
    caches, blocks = numbers(line, "shape", 2)
    if not (1 <= caches <= version.most_caches and 1 <= blocks <= version.most_blocks):
        raise Refusal("OverLimit")
    return blocks


def read_count(line, name, most):
    (count,) = numbers(line, name, 1)
    if count > most:
        raise Refusal("OverLimit")
    return count


def read_cell(line, last, protocol):
    """The place of a cell's line, which has to be behind the last one's."""
    first, *words = line.split(" ")
    name = "cache" if words[:1] == ["cache"] else "directory"
    side = SIDES[protocol][name]
    if first != "cell" or len(words) < 4 or words[0] != name:
        raise Refusal("BadLine")
    state, event, *entry = words[1:]
    if state not in side.states or event not in side.events or not is_entry(entry, side):
        raise Refusal("BadLine")
    place = (name, side.states.index(state), side.events.index(event))
    own = getattr(baseline(protocol), name).get((state, event))
    if place <= last or entry == spelled(own):
        raise Refusal("BadLine")
    return place


def is_entry(words, side):
    if words[0] != "act":
        return words in (["blank"], [STALL])
    actions = words[2:]
    known = words[1:2] and words[1] in side.states and all(word in side.actions for word in actions)
    return bool(known) and len(actions) <= MOST_ACTIONS


def spelled(cell):
    if isinstance(cell, Act):
        return ["act", cell.next, *cell.actions]
    return ["blank" if cell is None else STALL]


def cell_lines(tables):
    """The lines of all cells, in order."""
    for name, side in sides_of(tables.protocol):
        for state in side.states:
            for event in side.events:
                entry = spelled(getattr(tables, name).get((state, event)))
                yield " ".join(["cell", name, state, event, *entry])


def text_of(shape, tables, opening, entries, seats=0, owners=()):
    """The text of a recording in version 2."""
    told = [f"by {owner} {entry}" for owner, entry in zip(owners, entries)] if seats else entries
    head = [SECOND.header, f"protocol {tables.protocol}", "shape {} {}".format(*shape), f"seats {seats}"]
    return text_behind(head, tables, opening, told)


def first_text_of(shape, tables, opening, entries):
    """The text of a recording of MSI without seats in version 1."""
    return text_behind([FIRST.header, "shape {} {}".format(*shape)], tables, opening, entries)


def text_behind(head, tables, opening, told):
    """The lines of the head, and those that both versions have behind it."""
    cells = [line for line, own in zip(cell_lines(tables), cell_lines(baseline(tables.protocol))) if line != own]
    values = "".join(f" {value}" for value in opening)
    lines = [*head, f"opening{values}", f"cells {len(cells)}", *cells, f"entries {len(told)}", *told, "end"]
    return "".join(f"{line}\n" for line in lines)


def moved(text):
    """The text in version 2 of the recording that this one, of either version, tells."""
    header, shape, rest = text.split(b"\n", 2)
    if header.decode() == SECOND.header:
        return text
    return b"\n".join([SECOND.header.encode(), b"protocol msi", shape, b"seats 0", rest])


def behind_seat(line, seats):
    """What follows the seat in an entry's line, or `None` where a seat is due and none of these stands there."""
    if seats == 0:
        return line
    by, _, rest = line.partition(" ")
    seat, blank, entry = rest.partition(" ")
    return entry if by == "by" and blank and is_number(seat) and int(seat) < seats else None


def entry_fault(line, seats):
    """What is wrong with the line as an entry's, if anything is."""
    entry = behind_seat(line, seats)
    if entry is None:
        return "BadLine"
    step, equals, outcome = entry.partition(" = ")
    if not equals or not fits(step.split(" "), STEPS):
        return "BadLine"
    return None if fits(outcome.split(" "), OUTCOMES) else "BadOutcome"


def read_entry(line, seats):
    fault = "CountDiffers" if line == "end" else entry_fault(line, seats)
    if fault:
        raise Refusal(fault)


def read_end(line, seats):
    if line != "end":
        raise Refusal("BadLine" if entry_fault(line, seats) else "CountDiffers")


def read_head(lines):
    """The protocol, and how many blocks and seats, that the lines in front of the opening values tell of."""
    version = VERSIONS.get(lines.next())
    if version is None:
        raise Refusal("BadHeader")
    lines.most_bytes = version.most_bytes
    if version is FIRST:
        return "msi", read_shape(lines.next(), version), 0
    protocol = read_protocol(lines.next())
    return protocol, read_shape(lines.next(), version), read_count(lines.next(), "seats", MOST_SEATS)


def read_all(lines):
    protocol, blocks, seats = read_head(lines)
    if any(value >= WORD_NUMBER for value in numbers(lines.next(), "opening", blocks)):
        raise Refusal("BadLine")
    last = ("", 0, 0)
    for _ in range(read_count(lines.next(), "cells", MOST_CELLS[protocol])):
        last = read_cell(lines.next(), last, protocol)
    for _ in range(read_count(lines.next(), "entries", MOST_ENTRIES)):
        read_entry(lines.next(), seats)
    read_end(lines.next(), seats)
    if lines.rest:
        lines.number += 1
        raise Refusal("BadLine")


def refusal(text):
    """How msi refuses these bytes, or `None` where they are a recording's text."""
    lines = Lines(text)
    try:
        read_all(lines)
    except Refusal as refused:
        number = KINDS.index(refused.kind) + 1
        return f"msi: recording line {lines.number} refused {number} {refused.kind}"
    return None
