"""What is wrong in how a chart is drawn: things that an arrow crosses or covers, and texts that lines strike through."""

import re
from dataclasses import dataclass

RULE = re.compile(r"([^{}]+)\{([^{}]*)\}")
DARK = "@media (prefers-color-scheme:dark)"
# What an arrow may not cross, and how far from it an arrow that belongs to it begins or ends.
BOXES, DOTS, NAMES = {"box"}, {"dot", "tried"}, {"plate"}
NEAR = 9


@dataclass
class Shape:
    """An element of a picture, with the classes of those that it stands in, the nearest first, and its edges or its corners."""

    element: object
    tag: str
    classes: list
    edges: tuple = None
    corners: tuple = None

    def is_a(self, words):
        return bool(self.classes[0] & words)


def number(element, *names):
    return [int(element.get(name)) for name in names]


def shapes_of(element, around=()):
    """All elements below one, from behind."""
    for child in element:
        tag, classes = child.tag.rpartition("}")[2], [set(child.get("class", "").split()), *around]
        shape = Shape(child, tag, classes)
        if tag == "rect":
            x, y, width, height = number(child, "x", "y", "width", "height")
            shape.edges = (x, y, x + width, y + height)
        elif tag == "circle":
            x, y, radius = number(child, "cx", "cy", "r")
            shape.edges = (x - radius, y - radius, x + radius, y + radius)
        elif tag in ("polyline", "polygon"):
            shape.corners = tuple(tuple(map(int, corner.split(","))) for corner in child.get("points").split())
        yield shape
        yield from shapes_of(child, classes)


def meets(start, end, box):
    """Whether a line between two points comes into a box, which has a left, an upper, a right and a lower edge."""
    left, upper, right, lower = box
    first, last = 0.0, 1.0
    for origin, change, least, most in (
        (start[0], end[0] - start[0], left, right),
        (start[1], end[1] - start[1], upper, lower),
    ):
        if change == 0:
            if not least < origin < most:
                return False
            continue
        at = sorted(((least - origin) / change, (most - origin) / change))
        first, last = max(first, at[0]), min(last, at[1])
    return first < last


def crosses(corners, box):
    return any(meets(start, end, box) for start, end in zip(corners, corners[1:]))


def wider(box, by):
    left, upper, right, lower = box
    return (left - by, upper - by, right + by, lower + by)


def holds(box, point):
    return box[0] <= point[0] <= box[2] and box[1] <= point[1] <= box[3]


def belongs(wire, box):
    """Whether an arrow begins or ends at a box."""
    left, upper, right, lower = box
    beside = (left - NEAR, upper, right + NEAR, lower)
    return holds(beside, wire[0]) or holds(beside, wire[-1])


def crossed(shapes):
    """The boxes, dots and names that the wire of an arrow crosses which neither begins nor ends there."""
    things = [shape for shape in shapes if shape.is_a(BOXES | DOTS | NAMES)]
    found = []
    for wire in wires_of(shapes):
        upper, lower = wire[0][1], wire[-1][1]
        for thing in things:
            box = wider(thing.edges, -1)
            if box[1] <= lower and box[3] >= upper and crosses(wire, box) and not belongs(wire, thing.edges):
                found.append(thing)
    return found


def wires_of(shapes):
    return [shape.corners for shape in shapes if shape.is_a({"wire"}) and {"arrow"} <= set().union(*shape.classes)]


def covered(shapes):
    """The wires under a box, the heads under a later rim, and the names under a later arrow."""
    found, wires, heads, names = [], [], [], []
    for shape in shapes:
        if shape.is_a({"wire"}):
            wires.append(shape)
        elif shape.is_a({"head"}):
            heads.append((shape, (*map(min, zip(*shape.corners)), *map(max, zip(*shape.corners)))))
        elif shape.is_a({"plate"}):
            names.append((shape, shape.edges))
        elif shape.is_a({"box"}):
            found += [wire for wire in wires if crosses(wire.corners, shape.edges)]
        if shape.is_a({"rim", "wire"}):
            found += [upon for upon, box in [*heads, *names] if crosses(shape.corners, wider(box, 3))]
    return found


def rules_of(style, is_dark):
    """The rules of a style, in the order in which they hold, each as its selector's words and what it says."""
    light, _, dark = style.partition(DARK)
    found = []
    for selectors, says in RULE.findall(light + (dark if is_dark else "")):
        said = dict(it.split(":", 1) for it in says.split(";") if it)
        found += [(selector.split(), said) for selector in selectors.strip("{} \n").split(",")]
    return sorted(found, key=lambda rule: (sum(word.count(".") for word in rule[0]), len(rule[0])))


def fits(word, tag, classes):
    named, *wanted = word.split(".")
    return named in ("", tag) and set(wanted) <= classes


def looks(shape, rules):
    """What a style says of an element."""
    said = {}
    for (*around, own), says in rules:
        if fits(own, shape.tag, shape.classes[0]) and all(any(fits(it, "g", up) for up in shape.classes[1:]) for it in around):
            said.update(says)
    return said


def rimless(shapes, style):
    """The texts that have no rim of the colour that lies behind them, in light or in dark surroundings."""
    found = []
    for is_dark in (False, True):
        rules = rules_of(style, is_dark)
        grounds = []
        for shape in shapes:
            if shape.tag == "rect" and not shape.is_a({"named"}):
                grounds.append((shape.edges, looks(shape, rules).get("fill")))
            if shape.tag == "text":
                x, y = number(shape.element, "x", "y")
                ground = next(fill for edges, fill in reversed(grounds) if holds(edges, (x, y - 4)))
                rim = looks(shape, rules)
                if rim.get("paint-order") != "stroke" or rim.get("stroke") != ground or "stroke-width" not in rim:
                    found.append(shape)
    return found


def fault_of_drawing(picture):
    """What is wrong in how a picture is drawn, if anything is."""
    shapes = list(shapes_of(picture))
    style = next(shape.element.text for shape in shapes if shape.tag == "style")
    for what, found in (
        ("crossed by an arrow from elsewhere to elsewhere", crossed(shapes)),
        ("covered", covered(shapes)),
        ("a text without a rim", rimless(shapes, style)),
    ):
        if found:
            told = ", ".join(f"{name} {value}" for name, value in found[0].element.items())
            return f"{len(found)} {what}: first {told}"
    return None
