"""The contracts of the functions that crates above can call: the names of their clauses."""

import re
from dataclasses import dataclass

from bodies.sources import Seen, block_around, functions_in, head_of, names_of, opening_of, seen_by

CLAUSE = re.compile(r"^\s+(requires|ensures)\*? (?:(\w+) )?\{")


@dataclass
class Contract:
    """A function with the names of its clauses; that of a lone clause, which needs none, is empty."""

    name: str
    ensures: list
    requires: list

    @property
    def count(self):
        return len(self.ensures) + len(self.requires)


def contracts_of(folder):
    """The contracts of a crate's public functions, by file, in the order in which they stand there."""
    found = {}
    for path in sorted((folder / "src").rglob("*.rt")):
        file = str(path.relative_to(folder))
        text = path.read_text(encoding="utf-8")
        lines = text.split("\n")
        for place in functions_in(file, text):
            at, head = head_of(lines, place)
            clauses = [it for it in map(CLAUSE.match, lines[at : opening_of(lines, at, head[1]) + 1]) if it]
            if clauses and seen_by(place, folder) is Seen.ABOVE:
                named = {kind: [it[2] or "" for it in clauses if it[1] == kind] for kind in ("ensures", "requires")}
                found.setdefault(file, []).append(Contract(full_name(lines, at, place.name), **named))
    return found


def full_name(lines, at, name):
    """A function's name behind that of the type or the trait in whose block it stands."""
    block = block_around(lines, at)
    return f"{names_of(block)[-1]}::{name}" if block else name


def statement_of(path, name):
    """A function of this file with its clauses, without its body, its attributes and what is said of it."""
    text = path.read_text(encoding="utf-8")
    lines = text.split("\n")
    place = next(it for it in functions_in("", text) if it.name == name)
    at, head = head_of(lines, place)
    return lines[at : opening_of(lines, at, head[1])]
