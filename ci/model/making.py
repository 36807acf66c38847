"""Random overrides, scenarios and steps."""

from model.machine import Ask, Delivery, Watched
from model.tables import PROTOCOLS, STALL, baseline, sides_of
from model.trials import deliveries


def random_ask(dice, caches, blocks):
    kind = dice.choice(["load", "store", "replace"])
    value = dice.randrange(9) if kind == "store" else None
    return Ask(dice.randrange(caches), dice.randrange(blocks), kind, value)


def random_scenario(dice, shape, levels):
    if levels == 1 or dice.random() < 0.4:
        ask = random_ask(dice, *shape)
        value = {"value": ask.value} if ask.kind == "store" else {}
        return {"op": ask.kind, "core": ask.cache, "block": ask.block, **value}
    if dice.random() < 0.25:
        return {"times": dice.randrange(4), "of": random_scenario(dice, shape, levels - 1)}
    kind = dice.choice(["seq", "any", "both"])
    count = dice.randrange(1 if kind == "any" else 0, 4)
    return {kind: [random_scenario(dice, shape, levels - 1) for _ in range(count)]}


def random_entry(dice, side, own):
    chance = dice.random()
    if chance < 0.35:
        return "blank" if chance < 0.15 else STALL
    if own in (None, STALL) or dice.random() < 0.4:
        actions = [dice.choice(side.actions) for _ in range(dice.randrange(4))]
        return {"next": dice.choice(side.states), "do": actions}
    actions = list(own.actions)
    if actions and dice.random() < 0.5:
        actions.pop(dice.randrange(len(actions)))
    if dice.random() < 0.5:
        actions.insert(dice.randrange(len(actions) + 1), dice.choice(side.actions))
    return {"next": own.next if dice.random() < 0.5 else dice.choice(side.states), "do": actions}


def random_overrides(dice, protocol):
    tables, overrides, places = baseline(protocol), {"cache": [], "directory": []}, set()
    (_, lines), (_, homes) = sides_of(protocol)
    for _ in range(dice.choice([0, 1, 1, 1, 2, 3, 6, 12])):
        name, side, own = dice.choice(
            [("cache", lines, tables.cache)] * 2 + [("directory", homes, tables.directory)]
        )
        place = dice.choice(list(own))
        if dice.random() < 0.4:
            place = dice.choice(side.states), dice.choice(side.events)
        if (name, place) not in places:
            places.add((name, place))
            entry = random_entry(dice, side, own.get(place))
            overrides[name].append({"state": place[0], "event": place[1], "entry": entry})
    return overrides


def random_step(dice, caches, blocks):
    network = dice.choice(["ask"] * 6 + ["request", "forward", "response"])
    if network == "ask":
        return random_ask(dice, caches, blocks)
    index = dice.randrange(caches) if network == "forward" else dice.randrange(3)
    return Delivery(network, dice.randrange(blocks), index)


def random_steps(dice, shape, tables):
    """Steps, of which a few name what isn't there, and half serve a message that isn't held."""
    watched = Watched(*shape, tables)
    caches, blocks = (number + (dice.random() < 0.1) for number in shape)
    for _ in range(dice.randrange(80)):
        served = list(deliveries(watched.world))
        use = served and dice.random() < 0.5
        step = dice.choice(served) if use else random_step(dice, caches, blocks)
        watched.step(step)
        yield step


def random_cell(dice):
    """A protocol, and overrides of one cell."""
    protocol = dice.choice(PROTOCOLS)
    name, side = dice.choice(list(sides_of(protocol)))
    own = getattr(baseline(protocol), name)
    place = dice.choice(list(own)) if dice.random() < 0.9 else (dice.choice(side.states), dice.choice(side.events))
    entry = random_entry(dice, side, own.get(place))
    return protocol, {name: [{"state": place[0], "event": place[1], "entry": entry}]}
