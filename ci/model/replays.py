"""What a replay of a recording's text prints, as docs/FORMATS.md describes it."""

from dataclasses import dataclass

from model.machine import Watched
from model.recordings import behind_seat, moved
from model.tables import STALL, Act, Tables, baseline
from model.texts import step_of


def tables_of(lines, protocol):
    """A protocol's own tables with these cells in their places."""
    tables = baseline(protocol)
    for line in lines:
        _, name, state, event, kind, *rest = line.split(" ")
        cells = getattr(tables, name)
        cells.pop((state, event), None)
        if kind != "blank":
            cells[state, event] = STALL if kind == STALL else Act(tuple(rest[1:]), rest[0])
    return tables


@dataclass(frozen=True)
class Recording:
    shape: tuple
    seats: int
    opening: list
    tables: Tables
    told: list
    """The entries, each behind the seat that owns it, where there are seats."""

    def entries(self):
        return [behind_seat(line, self.seats) for line in self.told]


def recording_of(text):
    """The recording that a text of either version tells."""
    lines = moved(text).decode().split("\n")
    numbers = [list(map(int, line.split(" ")[1:])) for line in lines[2:6]]
    shape, (seats,), opening, (cells,) = numbers
    first, protocol = 6 + cells, lines[1].split(" ")[1]
    return Recording(tuple(shape), seats, opening, tables_of(lines[6:first], protocol), lines[first + 1 : -2])


def replayed(text):
    """The lines that a replay of a recording's text prints."""
    recording = recording_of(text)
    watched = Watched(*recording.shape, recording.tables, recording.opening)
    entries, violation = recording.entries(), []
    for number, entry in enumerate(entries):
        step, _, told = entry.partition(" = ")
        outcome, found = watched.step(step_of(step.encode()))
        if outcome != told:
            return [f"differs {number} told {told} found {outcome}"]
        if found and not violation:
            violation = [f"violation {number} {found}"]
    return [f"same {len(entries)}", *violation]
