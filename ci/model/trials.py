"""Scenarios, dice and trials, as docs/FORMATS.md describes them."""

from dataclasses import dataclass

from model.machine import Ask, Delivery, Watched

WORD, STATE = 2**32, 2**64
# What msi tells on standard error behind the verdict of a trial that got stuck.
WAITS = "msi: msi show and msi chart of the recording tell what waits"


class Dice:
    """PCG XSH RR 64/32."""

    def __init__(self, seed, stream):
        self.increment = (2 * stream + 1) % STATE
        self.state = (seed + self.increment) % STATE
        self.advance()

    def advance(self):
        self.state = (self.state * 6364136223846793005 + self.increment) % STATE

    def word(self):
        state = self.state
        self.advance()
        turn = state >> 59
        bits = ((state >> 18 ^ state) >> 27) % WORD
        return (bits >> turn | bits << (32 - turn)) % WORD


@dataclass(frozen=True)
class One:
    ask: Ask


@dataclass(frozen=True)
class Many:
    kind: str
    children: tuple


@dataclass(frozen=True)
class Times:
    turns: int
    child: object


def tree_of(scenario):
    """The tree of a scenario in JSON."""
    if "op" in scenario:
        value = scenario.get("value")
        return One(Ask(scenario["core"], scenario["block"], scenario["op"], value))
    if "times" in scenario:
        return Times(scenario["times"], tree_of(scenario["of"]))
    ((kind, children),) = scenario.items()
    return Many(kind, tuple(map(tree_of, children)))


def may_end(tree):
    if isinstance(tree, One):
        return False
    if isinstance(tree, Times):
        return tree.turns == 0 or may_end(tree.child)
    ends = map(may_end, tree.children)
    return any(ends) if tree.kind == "any" else all(ends)


def offers(tree):
    """The asks that a tree offers, each with what is left once it is taken."""
    if isinstance(tree, One):
        return [(tree.ask, Many("seq", ()))]
    if isinstance(tree, Times):
        again = Times(tree.turns - 1, tree.child)
        taken = offers(tree.child) if tree.turns else []
        return [(ask, Many("seq", (left, again))) for ask, left in taken]
    found = []
    for number, child in enumerate(tree.children):
        before, behind = tree.children[:number], tree.children[number + 1 :]
        for ask, left in offers(child):
            kept = {"any": None, "seq": (left, *behind), "both": (*before, left, *behind)}[tree.kind]
            found.append((ask, left if kept is None else Many(tree.kind, kept)))
        if tree.kind == "seq" and not may_end(child):
            break
    return found


def deliveries(world):
    """The steps that would serve a message, in order, without those that would be held."""
    for network in ("request", "forward", "response"):
        for number, block in enumerate(world.blocks):
            wires = {"request": block.requests, "forward": block.links, "response": block.responses}
            for index in range(len(wires[network])):
                step = Delivery(network, number, index)
                if world.decide(step).outcome not in ("held", "absent"):
                    yield step


def choices(world, waiting, tree):
    """What can happen next: steps, each with what is then left of the tree."""
    if world.broken:
        return []
    free = [(ask, left) for ask, left in offers(tree) if ask.cache not in waiting]
    asks = [(ask, left) for ask, left in free if world.decide(ask).outcome != "held"]
    return asks + [(step, tree) for step in deliveries(world)]


def noted(waiting, step, outcome):
    """The cores that wait behind a step."""
    if isinstance(step, Ask):
        return waiting | {step.cache} if outcome == "sent" and step.kind != "replace" else waiting
    word, *rest = outcome.split()
    return waiting - {int(rest[0])} if word in ("load", "store") else waiting


def trial(shape, tables, tree, seed, number, limit):
    """The entries of a trial, and its verdict."""
    watched, dice, waiting, entries = Watched(*shape, tables), Dice(seed, number), frozenset(), []
    while True:
        possible = choices(watched.world, waiting, tree)
        if not possible:
            done = not offers(tree) and not waiting and all(b.is_quiet() for b in watched.world.blocks)
            return entries, f"{'quiet' if done else 'stuck'} {len(entries)}"
        if len(entries) == limit:
            return entries, f"cut {limit}"
        step, tree = possible[dice.word() % len(possible)]
        outcome, found = watched.step(step)
        waiting = noted(waiting, step, outcome)
        entries.append(f"{step} = {outcome}")
        if found:
            return entries, f"broke {len(entries)} {found}"
