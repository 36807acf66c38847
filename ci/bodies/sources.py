"""What stands in the sources of crates, as their text shows it: crates, functions, who may call these, and what crates above see."""

import re
from dataclasses import dataclass
from enum import Enum
from functools import cache
from pathlib import Path

TOP = Path(__file__).resolve().parent.parent.parent
FUNCTION = re.compile(r"^( *)(pub(?:\([^)]*\))? )?(?:const )?(?:unsafe )?fn (\w+)")
BLOCK = re.compile(r"^(?:pub(?:\([^)]*\))? )?(?:unsafe )?(impl|trait)\b(.*)")
HANDED_ON = re.compile(r"^pub use ([^;]*);", re.M)
PUBLIC_MODULE = re.compile(r"^pub mod (\w+);", re.M)
# Lines of which a crate above reads nothing, and where those of an import begin.
UNREAD = re.compile(r"^\s*(?://|#)")
USES = re.compile(r"^\s*(?:ghost )?use ")
# Where it begins to say what holds of the fields of a type that crates above see by its view alone.
HOLDS = re.compile(r"^\s*ghost invariant = \{")


def crates():
    """The crates of the repository, each with those of them that it names, in the order of crates.txt."""
    lines = [it.partition("#")[0].partition(":") for it in (TOP / "crates.txt").read_text(encoding="utf-8").splitlines()]
    named = {head.split()[0]: tail.split() for head, colon, tail in lines if colon}
    return {name: [it for it in below if it in named] for name, below in named.items()}


def below(name, named):
    """All that a crate stands on, where each of these crates names some."""
    found, left = set(), [*named[name]]
    while left:
        it = left.pop()
        if it not in found:
            found.add(it)
            left += named[it]
    return sorted(found)


class Seen(Enum):
    """Who may call a function."""

    ABOVE = "public"
    """A crate above."""
    CRATE = "inner"
    """Other modules of its crate: it is pub(crate) or pub(super), or pub in what its crate doesn't hand on."""
    MODULE = "private"
    """Its own module."""


@dataclass(frozen=True)
class Place:
    """A function: its file, its name, and its lines in that file, from its attributes to the last."""

    file: str
    name: str
    first: int
    last: int

    @property
    def proofs(self):
        """How the paths of its proof files begin and end."""
        modules = [it for it in Path(self.file).with_suffix("").parts[1:] if it not in ("lib", "main", "mod")]
        return "/".join(["proofs", *modules]), self.name


def opening_of(lines, at, indent):
    """The line behind which the body of a function begins; or ends, where all of it stands in one line, or it has none."""
    for number in range(at, len(lines)):
        line = lines[number].rstrip()
        is_outermost = line.startswith(indent) and not line[len(indent):].startswith(" ")
        if line.endswith(";") or is_outermost and line.endswith(("{", "}")):
            return number
    return at


def functions_in(file, text):
    """The functions of a file, each from its attributes to the brace that closes it."""
    lines, found = text.split("\n"), []
    for at, line in enumerate(lines):
        head = FUNCTION.match(line)
        if head:
            indent, opening = head[1], opening_of(lines, at, head[1])
            closing = (number for number in range(opening, len(lines)) if lines[number] in (f"{indent}}}", f"{indent}}},"))
            last = next(closing, opening) if lines[opening].rstrip().endswith("{") else opening
            # (a goal of the whole function is told where its attributes begin)
            first = at
            while first > 0 and lines[first - 1].startswith(f"{indent}#["):
                first -= 1
            found.append(Place(file, head[3], first + 1, last + 1))
    return found


def head_of(lines, place):
    """The number of the line in which a function begins, and what FUNCTION finds there."""
    return next((at, FUNCTION.match(lines[at])) for at in range(place.first - 1, place.last) if FUNCTION.match(lines[at]))


def block_around(lines, at):
    """The head of the `impl` or `trait` in which this line stands, on one line; nothing where it stands in none."""
    if not lines[at].startswith(" "):
        return None
    start = next((it for it in range(at, -1, -1) if BLOCK.match(lines[it]) or lines[it] == "}"), 0)
    end = next((it for it in range(start, at) if lines[it].endswith("{")), start)
    return BLOCK.match(" ".join(lines[start : end + 1]))


def is_of_trait(block):
    """Whether what stands in this block needs no `pub` to be called from elsewhere."""
    return bool(block) and (block[1] == "trait" or re.search(r"\sfor\s", block[2].partition("where")[0]) is not None)


@cache
def outline(text):
    """What crates above see of a file, and a little more: no bodies, no private functions, invariants, comments, attributes or imports.

    Of the functions the public ones stay, and those of traits and their impls, each with its clauses; all other items stay whole."""
    lines, dropped = text.split("\n"), set()
    for place in functions_in("", text):
        at, head = head_of(lines, place)
        is_public = head[2] == "pub " or is_of_trait(block_around(lines, at))
        dropped.update(range(opening_of(lines, at, head[1]) + 1 if is_public else at, place.last))
    told = (line.rstrip() for number, line in enumerate(lines) if number not in dropped)
    return [line for line in without(HOLDS, "};", without(USES, ";", told)) if line and not UNREAD.match(line)]


def without(opens, closes, lines):
    """Some lines, without those from each that opens something to the one that ends as that closes."""
    kept, is_inside = [], False
    for line in lines:
        is_inside = is_inside or opens.match(line) is not None
        if not is_inside:
            kept.append(line)
        is_inside = is_inside and not line.endswith(closes)
    return kept


@cache
def handed_on(folder):
    """The names that the `pub use` lines of a crate have, and its modules that are public."""
    texts = [it.read_text(encoding="utf-8") for it in Path(folder, "src").rglob("*.rt")]
    names = {name for text in texts for it in HANDED_ON.findall(text) for name in re.findall(r"\w+", it)}
    return names, {name for text in texts for name in PUBLIC_MODULE.findall(text)}


def is_handed_on(name, file, folder):
    """Whether a public item of this file has a name in crates above."""
    names, modules = handed_on(folder)
    stem = Path(file).stem
    return name in names or stem in ("lib", "main") or stem in modules


def names_of(block):
    """The bare names of what an `impl` or a `trait` is of: a type, a trait, or both."""
    text = block[2].replace("->", "")
    while text != (shorter := re.sub(r"<[^<>]*>", "", text)):
        text = shorter
    parts = re.sub(r"\b(mut|dyn) ", "", text.partition(" where ")[0]).split(" for ")
    return [found[1] for found in (re.search(r"(?:\w+::)*(\w+)", it) for it in parts) if found]


@cache
def is_type_above(name, folder):
    """Whether crates above see a type or a trait: one that the crate declares and hands on, or one that it doesn't declare."""
    declared = re.compile(rf"^(pub(?:\([^)]*\))? )?(?:struct|enum|union|trait|type) {name}\b", re.M)
    for it in Path(folder, "src").rglob("*.rt"):
        found = declared.search(it.read_text(encoding="utf-8"))
        if found:
            return found[1] == "pub " and is_handed_on(name, it, folder)
    return True


def seen_by(place, folder):
    """Who may call a function."""
    lines = Path(folder, place.file).read_text(encoding="utf-8").split("\n")
    at, head = head_of(lines, place)
    block = block_around(lines, at)
    if head[2] and head[2] != "pub ":
        return Seen.CRATE
    if block is None:
        is_above = head[2] and is_handed_on(place.name, place.file, folder)
        return Seen.ABOVE if is_above else Seen.CRATE if head[2] else Seen.MODULE
    if not head[2] and not is_of_trait(block):
        return Seen.MODULE
    return Seen.ABOVE if all(is_type_above(it, folder) for it in names_of(block)) else Seen.CRATE
