"""What is proved of tables, as docs/CERTIFY.md has it."""

import re
from pathlib import Path

from model.machine import World
from model.recordings import cell_lines
from model.tables import STALL, baseline, sides_of
from model.texts import step_of
from model.trials import deliveries

ASKS = "Load Store Replacement".split()
SETTLED = "I S M E".split()
HOME_WAITS = {"S^D": "PutS-NotLast PutS-Last PutM-NonOwner", "I": "PutS-Last", "M": "PutS-Last"}
OPEN = "not proved"
CACHES = 3
# Files of cells of each protocol, in order, each with the steps after which messages are on their way and all are held.
SCHEDULES = {"msi": "schedules.txt", "msi+e": "schedules-with-e.txt"}
CLOSED = r"closed under \d+ pairs of caches"
MET = r"(a blank cell may be met|a load may return an old value|not followed): cell [^\n]+"
PAIR = r"cache A: [^\n]+\ncache B: [^\n]+\nhome: [^\n]+"
OBSTACLE = rf"({MET}|a writer may stand beside a reader|too many messages)\n{PAIR}|more pairs of caches than are followed"
ADVICE = "That doesn't say unsafe: make trials, with msi batch, or go through all schedules, with examples/exhaust/run."


def schedules_of(protocol):
    return [line.split(": ") for line in (Path(__file__).parent / SCHEDULES[protocol]).read_text().splitlines()]


def reason_of(own, entry):
    """Why a cell may hold an entry, or that it may not; `None` where it is the protocol's own."""
    if entry == own:
        return None
    if entry == STALL:
        return "stall"
    return "never met" if own is None else OPEN


def reasons(tables):
    """The reason and the line of each cell that isn't the protocol's own, in order."""
    own, spelled = baseline(tables.protocol), cell_lines(tables)
    for name, side in sides_of(tables.protocol):
        for state in side.states:
            for event in side.events:
                place = state, event
                reason = reason_of(getattr(own, name).get(place), getattr(tables, name).get(place))
                line = next(spelled)
                if reason:
                    yield reason, line


def may_wait(tables, name, state, event):
    """Whether messages flow though this cell holds a stall where the protocol's own one acts."""
    if name == "directory":
        return event in HOME_WAITS.get(state, "").split()
    if event in ASKS:
        return True
    data_waits = tables.cache.get((state.rstrip("D") + "D", "Data-Dir-More")) == STALL
    if state in ("IM^AD", "SM^AD"):
        return event == "Data-Dir-More" or event == "Inv-Ack" and not data_waits
    return state in ("IM^A", "SM^A") and event in ("Inv-Ack", "Last-Inv-Ack") and data_waits


def stalls(tables):
    """Each cell that holds a stall where the protocol's own one acts, in order, and its line."""
    own, spelled = baseline(tables.protocol), cell_lines(tables)
    for name, side in sides_of(tables.protocol):
        for state in side.states:
            for event in side.events:
                entry, line = getattr(own, name).get((state, event)), next(spelled)
                if entry not in (None, STALL) and getattr(tables, name).get((state, event)) == STALL:
                    yield name, state, event, line


def jams(tables, steps):
    """Whether all these steps are made, and then messages are on their way and all are held."""
    world = World(CACHES, [0], tables)
    refused = ("held", "absent", "blank")
    return all(world.step(step_of(step.encode())) not in refused for step in steps) and is_jammed(world)


def is_jammed(world):
    return not world.blocks[0].is_quiet() and not any(deliveries(world))


def jam_from(tables, place=None):
    """The first schedule, from that of a place on or of all, that gets stuck under these tables, if one does."""
    schedules = schedules_of(tables.protocol)
    places = [it for it, _ in schedules]
    for _, steps in schedules[places.index(place) if place else 0 :]:
        if jams(tables, steps.split(", ")):
            return steps.split(", ")
    return None


def going(tables):
    """Whether restrained tables can get stuck, and steps after which they are, if such are known."""
    found = list(stalls(tables))
    for name, state, event, line in found:
        if not may_wait(tables, name, state, event):
            steps = jam_from(tables, f"{name} {state} {event}")
            return f"messages {'get' if steps else 'may get'} stuck: {line}", steps
    for name, state, _, line in found:
        if name == "cache" and state in SETTLED:
            return f"asks may be held: {line}", None
    return "never stuck", None


def certificate(tables):
    """The status and the lines of `msi certify`, where each cell is admitted; else `None`, as they hang on pairs of caches."""
    found = list(reasons(tables))
    if any(reason == OPEN for reason, _ in found):
        return None
    said, steps = going(tables)
    return 0, ["safe", said, *(f"{reason}: {line}" for reason, line in found), *shown(steps)]


def fault_by_pairs(tables, status, lines):
    """What is wrong with an answer about tables with a cell that isn't admitted, if anything is, besides the pairs themselves."""
    found, steps = list(reasons(tables)), jam_from(tables)
    if status == 0:
        flows = lines[1:2] in (["never stuck"], ["asks may be held"])
        said = lines[1:2] if flows else [f"messages {'get' if steps else 'may get'} stuck"]
        wanted = ["safe", *said, *lines[2:3], *(f"closed: {line}" for _, line in found), *shown(None if flows else steps)]
        is_right = lines == wanted and re.fullmatch(CLOSED, lines[2])
    else:
        front = ["unknown", next(f"{OPEN}: {line}" for reason, line in found if reason == OPEN)]
        back = [ADVICE, *shown(steps)]
        between = "\n".join(lines[2 : len(lines) - len(back)])
        is_right = lines[:2] == front and lines[-len(back) :] == back and re.fullmatch(OBSTACLE, between)
    return None if is_right else f"status {status} and {lines}, in another form or with another cell"


def shown(steps):
    return [f"stuck with {CACHES} caches after:", *steps] if steps else []
