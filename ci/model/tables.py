"""The protocol's own tables, as docs/PROTOCOL.md has them, and overrides of their cells."""

from dataclasses import dataclass

STALL = "stall"
MOST_ACTIONS = 8


@dataclass(frozen=True)
class Act:
    """What a cell does: actions in order, and then the next state. A blank cell isn't in the table."""

    actions: tuple
    next: str


@dataclass(frozen=True)
class Side:
    """The names of one controller, in the order of docs/PROTOCOL.md."""

    states: list
    events: list
    actions: list


CACHE = Side(
    "I IS^D IM^AD IM^A S SM^AD SM^A M MI^A SI^A II^A".split(),
    "Load Store Replacement Fwd-GetS Fwd-GetM Inv Put-Ack "
    "Data-Dir-Zero Data-Dir-More Data-Owner Inv-Ack Last-Inv-Ack".split(),
    "gets getm puts putm inv-ack data-req data-dir".split(),
)

DIRECTORY = Side(
    "I S M S^D".split(),
    "GetS GetM PutS-NotLast PutS-Last PutM-Owner PutM-NonOwner Data".split(),
    "data-req data-acks inv-sharers fwd-gets fwd-getm put-ack add-req add-owner "
    "remove-req clear-sharers clear-owner set-owner copy-data".split(),
)

# The names of each protocol. What MSI+E adds stands last.
SIDES = {
    "msi": {"cache": CACHE, "directory": DIRECTORY},
    "msi+e": {
        "cache": Side([*CACHE.states, "E"], [*CACHE.events, "Data-Dir-Excl"], CACHE.actions),
        "directory": Side(DIRECTORY.states, DIRECTORY.events, [*DIRECTORY.actions, "data-excl"]),
    },
}
PROTOCOLS = list(SIDES)

# Per line: states | events | actions / next, or stall. `=` is the state itself.
CACHE_ROWS = """
I | Load | gets / IS^D
I | Store | getm / IM^AD
IS^D | Load Store Replacement Inv | stall
IS^D | Data-Dir-Zero Data-Owner | / S
IM^AD IM^A | Load Store Replacement Fwd-GetS Fwd-GetM | stall
IM^AD | Data-Dir-Zero Data-Owner | / M
IM^AD | Data-Dir-More | / IM^A
IM^AD IM^A SM^AD SM^A | Inv-Ack | / =
IM^A SM^A | Last-Inv-Ack | / M
S SM^AD SM^A M | Load | / =
S | Store | getm / SM^AD
S | Replacement | puts / SI^A
S | Inv | inv-ack / I
SM^AD SM^A | Store Replacement Fwd-GetS Fwd-GetM | stall
SM^AD | Inv | inv-ack / IM^AD
SM^AD | Data-Dir-Zero | / M
SM^AD | Data-Dir-More | / SM^A
M | Store | / M
M | Replacement | putm / MI^A
M | Fwd-GetS | data-req data-dir / S
M | Fwd-GetM | data-req / I
MI^A SI^A II^A | Load Store Replacement | stall
MI^A SI^A II^A | Put-Ack | / I
MI^A | Fwd-GetS | data-req data-dir / SI^A
MI^A | Fwd-GetM | data-req / II^A
SI^A | Inv | inv-ack / II^A
"""

DIRECTORY_ROWS = """
I | GetS | data-req add-req / S
I | GetM | data-req set-owner / M
I M | PutS-NotLast PutS-Last PutM-NonOwner | put-ack / =
S | GetS | data-req add-req / S
S | GetM | data-acks inv-sharers clear-sharers set-owner / M
S | PutS-NotLast PutM-NonOwner | remove-req put-ack / S
S | PutS-Last | remove-req put-ack / I
M | GetS | fwd-gets add-req add-owner clear-owner / S^D
M | GetM | fwd-getm set-owner / M
M | PutM-Owner | copy-data clear-owner put-ack / I
S^D | GetS GetM | stall
S^D | PutS-NotLast PutS-Last PutM-NonOwner | remove-req put-ack / S^D
S^D | Data | copy-data / S
"""

# The cells of MSI+E that aren't those of MSI.
CACHE_ROWS_WITH_E = """
IS^D | Fwd-GetS Fwd-GetM | stall
IS^D | Data-Dir-Excl | / E
E | Load | / E
E | Store | / M
E | Replacement | putm / MI^A
E | Fwd-GetS | data-req data-dir / S
E | Fwd-GetM | data-req / I
"""

DIRECTORY_ROWS_WITH_E = """
I | GetS | data-excl set-owner / M
"""


def table(rows):
    """The cells of these rows, by state and event."""
    cells = {}
    for row in rows.strip().splitlines():
        states, events, entry = (part.strip() for part in row.split("|"))
        for state in states.split():
            for event in events.split():
                assert (state, event) not in cells
                cells[state, event] = cell(entry, state)
    return cells


def cell(entry, state):
    if entry == STALL:
        return STALL
    actions, following = entry.split("/")
    following = following.strip()
    return Act(tuple(actions.split()), state if following == "=" else following)


@dataclass
class Tables:
    cache: dict
    directory: dict
    protocol: str


def baseline(protocol):
    cache, directory = table(CACHE_ROWS), table(DIRECTORY_ROWS)
    assert (len(cache), len(directory)) == (64, 22)
    if protocol == "msi+e":
        cache.update(table(CACHE_ROWS_WITH_E))
        directory.update(table(DIRECTORY_ROWS_WITH_E))
        assert (len(cache), len(directory)) == (72, 22)
    return Tables(cache, directory, protocol)


def sides_of(protocol):
    """The name of each side of a protocol, with its names."""
    return SIDES[protocol].items()


def overridden(overrides, protocol):
    """A protocol's baseline with the cells of overrides in JSON laid over it."""
    tables = baseline(protocol)
    for name, cells in (("cache", tables.cache), ("directory", tables.directory)):
        for change in overrides.get(name, []):
            place, entry = (change["state"], change["event"]), change["entry"]
            cells.pop(place, None)
            if entry != "blank":
                cells[place] = entry if entry == STALL else Act(tuple(entry["do"]), entry["next"])
    return tables
