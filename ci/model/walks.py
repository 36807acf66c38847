"""A walk over all states of one block, in search of one that is stuck."""

from copy import copy

from model.certificates import is_jammed
from model.machine import Ask, World
from model.trials import deliveries

KINDS = {"load": None, "store": 5, "replace": None}


def copied(world):
    other = copy(world)
    (block,) = world.blocks
    mine = copy(block)
    mine.lines, mine.home = [copy(line) for line in block.lines], copy(block.home)
    mine.home.sharers = set(block.home.sharers)
    mine.requests, mine.responses = list(block.requests), list(block.responses)
    mine.links = [list(link) for link in block.links]
    other.blocks = [mine]
    return other


def told(message):
    return message.kind, str(message.receiver), str(message.sender), str(message.requestor), message.acks


def key(world):
    """What tells states apart: no cell reads a value, and requests and responses are served in any order."""
    (block,) = world.blocks
    lines = tuple((line.state, line.acks, line.pending and line.pending.kind) for line in block.lines)
    home = block.home.state, block.home.owner, frozenset(block.home.sharers)
    links = tuple(tuple(map(told, link)) for link in block.links)
    return lines, home, tuple(sorted(map(told, block.requests))), links, tuple(sorted(map(told, block.responses)))


def asks_of(world):
    return [Ask(cache, 0, kind, value) for cache in range(world.caches) for kind, value in KINDS.items()]


def is_stuck(world):
    """Whether messages are on their way and all are held, or none is and an ask is held."""
    if not world.blocks[0].is_quiet():
        return is_jammed(world)
    return any(world.decide(ask).outcome == "held" for ask in asks_of(world))


def followers(world):
    """The worlds that a step that acts leads to."""
    for step in [*asks_of(world), *deliveries(world)]:
        if world.decide(step).outcome == "act":
            other = copied(world)
            other.step(step)
            yield other


def gets_stuck(tables, caches):
    """Whether a run with so many caches comes to a state that is stuck, under restrained tables."""
    ahead = [World(caches, [0], tables)]
    seen = {key(ahead[0])}
    for world in ahead:
        if is_stuck(world):
            return True
        for other in followers(world):
            if key(other) not in seen:
                seen.add(key(other))
                ahead.append(other)
    return False
