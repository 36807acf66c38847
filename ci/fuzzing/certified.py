"""Tables that are certified, and trials and walks under them: none may break, or get stuck where none is said to."""

import json
import re

from model.certificates import certificate, fault_by_pairs
from model.making import random_overrides, random_scenario
from model.tables import PROTOCOLS, STALL, Act, baseline, overridden, sides_of
from model.walks import gets_stuck

SHAPE, TRIALS = (3, 1), 50
TABLES = "certified.json"
# Cells in which an ask may leave its line as it is, and others that act in another way: each is safe by itself.
UNCHANGED = {"Load": "IS^D", "Store": "IM^AD IM^A SM^AD SM^A", "Replacement": "IS^D IM^AD IM^A S SM^AD SM^A M SI^A II^A"}
SAFE = [("cache", event, state, Act((), state)) for event, states in UNCHANGED.items() for state in states.split()]
SAFE += [
    ("cache", "Replacement", "S", Act(("putm",), "SI^A")),
    ("directory", "PutS-Last", "S", Act(("remove-req", "put-ack"), "S")),
]


def written(entry):
    return entry if entry == STALL else {"next": entry.next, "do": list(entry.actions)}


def mild_overrides(dice, protocol):
    """Changes of which each is safe by itself: stalls, cells that are never met, and some that act in another way."""
    overrides, own = {"cache": {}, "directory": {}}, baseline(protocol)
    lines, homes = sides_of(protocol)
    for _ in range(dice.choice([1, 2, 3, 6, 12])):
        name, side = dice.choice([lines] * 2 + [homes])
        place = dice.choice(side.states), dice.choice(side.events)
        if dice.random() < 0.4:
            name, event, state, entry = dice.choice(SAFE)
            overrides[name][state, event] = written(entry)
        elif place in getattr(own, name):
            overrides[name][place] = STALL
        else:
            actions = [dice.choice(side.actions) for _ in range(dice.randrange(4))]
            overrides[name][place] = {"next": dice.choice(side.states), "do": actions}
    return {
        name: [{"state": state, "event": event, "entry": entry} for (state, event), entry in cells.items()]
        for name, cells in overrides.items()
    }


def fault_of_certified(runner, dice):
    """What is wrong with what is said of random tables: with trials under those that are said to be safe, or never to get
    stuck, or with a walk under others, if it finds nothing stuck."""
    protocol = dice.choice(PROTOCOLS)
    overrides = mild_overrides(dice, protocol) if dice.random() < 0.9 else random_overrides(dice, protocol)
    runner.put(TABLES, json.dumps(overrides).encode())
    certified = runner.run([b"certify", b"--protocol", protocol.encode(), b"--tables", TABLES.encode()], b"")
    tables = overridden(overrides, protocol)
    known, said = certificate(tables), certified.out.decode().splitlines()
    if known and (certified.status, said) != known:
        return f"{protocol}: {json.dumps(overrides)} is answered by {said}, and has to be by {known[1]}"
    fault = None if known else fault_by_pairs(tables, certified.status, said)
    if fault:
        return f"{protocol}: {json.dumps(overrides)} is answered by {fault}"
    if certified.status:
        return None
    return fault_of_trials(runner, dice, protocol, overrides, said[1]) or fault_of_walk(tables, overrides, said)


def fault_of_trials(runner, dice, protocol, overrides, said):
    scenario = {"both": [random_scenario(dice, SHAPE, 4) for _ in range(3)]}
    setup = f"batch --caches {SHAPE[0]} --blocks {SHAPE[1]} --protocol {protocol} --tables {TABLES} --limit 200 --trials {TRIALS}"
    setup += f" --seed {dice.randrange(2**64)}"
    ended = runner.run([word.encode() for word in setup.split()], json.dumps(scenario).encode())
    if ended.status:
        return f"{json.dumps(overrides)} is said to be safe; {json.dumps(scenario)} broke: {ended.out!r}"
    if said == "never stuck" and re.search(rb"(?m)^\d+ stuck ", ended.out):
        return f"{json.dumps(overrides)} is said never to get stuck; {json.dumps(scenario)} did: {ended.out!r}"
    return None


def fault_of_walk(tables, overrides, said):
    """Where only stalls stand over acting cells, runs get stuck wherever it isn't proved that they don't."""
    if said[1] == "never stuck" or any(line.startswith("closed: ") for line in said):
        return None
    return None if gets_stuck(tables, SHAPE[0]) else f"{json.dumps(overrides)}: {said[1]}; a walk finds none stuck"
