"""A walk over every state of one block that tells apart which values are the latest store's."""

from dataclasses import dataclass
from itertools import count, permutations
from typing import Optional

from model.certificates import is_jammed
from model.machine import Ask, Watched, violation
from model.trials import deliveries
from model.walks import copied


ASKS = ("load", "store", "replace")


@dataclass
class Walked:
    """What a walk came to. Two states are of one kind where they differ by the names of the caches alone."""

    states: int = 0
    kinds: int = 0
    violation: Optional[str] = None
    stuck: tuple = ()
    """In which ways some state is stuck."""
    is_whole: bool = True


def state_of(world, names):
    """What tells states apart where the caches have these names: requests and responses are served in any order."""
    (block,) = world.blocks

    def name(place):
        return str(names[place] if isinstance(place, int) else place)

    def is_latest(value):
        return value is not None and value == block.latest

    def told(message):
        ends = tuple(map(name, (message.receiver, message.sender, message.requestor)))
        return message.kind, *ends, message.acks, is_latest(message.value)

    def line_of(line):
        return line.state, line.acks, is_latest(line.value), str(line.pending and line.pending.kind)

    home = block.home.state, name(block.home.owner), tuple(sorted(map(name, block.home.sharers))), is_latest(block.home.memory)
    at = sorted(range(world.caches), key=lambda cache: names[cache])
    lines = tuple(line_of(block.lines[cache]) for cache in at)
    links = tuple(tuple(map(told, block.links[cache])) for cache in at)
    return home, lines, tuple(sorted(map(told, block.requests))), links, tuple(sorted(map(told, block.responses)))


def steps_of(world, values):
    """Every step that can be made, each store with a value of its own."""
    for cache in range(world.caches):
        yield Ask(cache, 0, "load")
        yield Ask(cache, 0, "store", next(values))
        yield Ask(cache, 0, "replace")
    yield from deliveries(world)


def stuck_ways(world):
    """In which ways a state is stuck, by the names of the model's invariants."""
    block = world.blocks[0]
    if not block.is_quiet():
        return {"stuck"} if is_jammed(world) else set()
    caches = range(world.caches)
    ways = {"unanswered": any(block.lines[it].pending for it in caches)}
    ways["held"] = any(world.decide(Ask(it, 0, ask, 1)).outcome == "held" for it in caches for ask in ASKS)
    return {name for name, is_so in ways.items() if is_so}


def made(world, step):
    """The world behind a step, and the step's violation. `None` for the world where the step changes nothing."""
    decision, due = world.decide(step), [world.blocks[0].latest]
    if decision.outcome not in ("act", "blank"):
        return None, None
    other = copied(world)
    outcome = other.step(step)
    return other, violation(other, step, outcome, decision.cache, due)


def walk(tables, caches, most):
    """Walks over every state with so many caches, up to the first violation, or until it has met more kinds than `most`."""
    orders, values = list(permutations(range(caches))), count(1)
    walked, seen, ahead = Walked(), set(), []

    def meet(world):
        alike = {state_of(world, names) for names in orders}
        least = min(alike)
        if least not in seen:
            seen.add(least)
            ahead.append(world)
            walked.kinds += 1
            walked.states += len(alike)

    meet(Watched(caches, 1, tables).world)
    for world in ahead:
        walked.stuck = tuple(sorted({*walked.stuck, *stuck_ways(world)}))
        for step in steps_of(world, values):
            other, walked.violation = made(world, step)
            if walked.violation:
                return walked
            if other:
                meet(other)
        if walked.kinds > most:
            walked.is_whole = False
            return walked
    return walked
