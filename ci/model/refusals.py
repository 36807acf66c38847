"""Which fault in overrides or in a scenario is the first, as docs/FORMATS.md describes it."""

from model.tables import MOST_ACTIONS, STALL, sides_of
from model.texts import CACHE_NUMBER, WORD_NUMBER, NotJson, is_whole, value_of

OVERRIDES = "NotJson BadShape UnknownState UnknownEvent UnknownAction SameCellTwice".split()
SCENARIOS = "NotJson BadShape EmptyAny TooDeep TooLong OutOfShape".split()
MOST_LEVELS, MOST_ASKS = 48, 1_000_000
ASKS = {"load": {"op", "core", "block"}, "replace": {"op", "core", "block"}, "store": {"op", "core", "block", "value"}}


def fault_of_overrides(text, protocol):
    """The name of the first fault in overrides for a protocol's tables, or `None`."""
    try:
        value = value_of(text)
    except NotJson:
        return "NotJson"
    if not isinstance(value, dict) or not value.keys() <= {"cache", "directory"}:
        return "BadShape"
    if not all(isinstance(cells, list) for cells in value.values()):
        return "BadShape"
    for name, side in sides_of(protocol):
        places = set()
        for cell in value.get(name, []):
            fault = fault_of_cell(cell, side, places)
            if fault:
                return fault
    return None


def is_cell(cell):
    if not isinstance(cell, dict) or cell.keys() != {"state", "event", "entry"}:
        return False
    entry = cell["entry"]
    named = isinstance(cell["state"], str) and isinstance(cell["event"], str)
    return named and (entry in ("blank", STALL) if isinstance(entry, str) else is_act(entry))


def is_act(entry):
    if not isinstance(entry, dict) or entry.keys() != {"next", "do"}:
        return False
    actions = entry["do"]
    fits = isinstance(actions, list) and len(actions) <= MOST_ACTIONS
    return isinstance(entry["next"], str) and fits and all(isinstance(action, str) for action in actions)


def fault_of_cell(cell, side, places):
    if not is_cell(cell):
        return "BadShape"
    entry = cell["entry"]
    acts = not isinstance(entry, str)
    if cell["state"] not in side.states or (acts and entry["next"] not in side.states):
        return "UnknownState"
    if cell["event"] not in side.events:
        return "UnknownEvent"
    if acts and not all(action in side.actions for action in entry["do"]):
        return "UnknownAction"
    place = (cell["state"], cell["event"])
    if place in places:
        return "SameCellTwice"
    places.add(place)
    return None


def fault_of_scenario(text, shape):
    """The name of the first fault in a scenario for a shape, or `None`."""
    try:
        value = value_of(text)
    except NotJson:
        return "NotJson"
    fault = fault_of_node(value, shape, 1)
    return fault or ("TooLong" if longest(value) > MOST_ASKS else None)


def fault_of_node(node, shape, level):
    """The first fault at a node or below it: each node comes before its children."""
    if level > MOST_LEVELS:
        return "TooDeep"
    if not isinstance(node, dict):
        return "BadShape"
    if "op" in node:
        return fault_of_ask(node, shape)
    children = children_of(node)
    if children is None:
        return "BadShape"
    if "any" in node and not children:
        return "EmptyAny"
    for child in children:
        fault = fault_of_node(child, shape, level + 1)
        if fault:
            return fault
    return None


def children_of(node):
    """The children of a node that is no ask, or `None` where it is of no form."""
    if node.keys() == {"times", "of"}:
        return [node["of"]] if is_whole(node["times"], CACHE_NUMBER) else None
    kinds = [kind for kind in ("seq", "any", "both") if node.keys() == {kind}]
    return node[kinds[0]] if kinds and isinstance(node[kinds[0]], list) else None


def fault_of_ask(node, shape):
    kind, limits = node["op"], {"core": CACHE_NUMBER, "block": CACHE_NUMBER, "value": WORD_NUMBER}
    if not isinstance(kind, str) or node.keys() != ASKS.get(kind):
        return "BadShape"
    if not all(is_whole(value, limits[key]) for key, value in node.items() if key != "op"):
        return "BadShape"
    there = node["core"] < shape[0] and node["block"] < shape[1]
    return None if there else "OutOfShape"


def longest(node):
    """The length of the longest word."""
    if "op" in node:
        return 1
    if "times" in node:
        return node["times"] * longest(node["of"])
    lengths = [longest(child) for child in children_of(node)]
    return max(lengths) if "any" in node else sum(lengths)
