"""What crates declare that crates above see, item by item, and which of these items a text reaches by names.

Proofs of a crate hang on its own files, and of the crates below on the contracts, definitions and types that it names, and that these
name in turn. Names are compared wherever they are from, so rather too much is reached than too little. What its crate doesn't hand on
is named by a path alone, as `asking.HeldAsks`, so there the module has to stand before the name."""

import re
from dataclasses import dataclass
from functools import cache

from bodies.sources import BLOCK, FUNCTION, TOP, is_handed_on, is_type_above, names_of, outline

WORD = re.compile(r"\w+")
# A name with the one before it in its path.
PATH = re.compile(r"\b(?=(\w+\.\w+)\b)")
# Where an item of code begins, and what it declares.
OPENS_CODE = re.compile(r"\w")
DECLARES = re.compile(r"\b(fn|struct|enum|union|trait|type|const|static) (\w+)")
TYPES = ("struct", "enum", "union", "trait", "type")
# The same of a file of definitions.
OPENS_SPECS = re.compile(r"(?:abbrev|pub|record|data|mutual)\b")
DECLARES_SPECS = re.compile(r"^ *(?:abbrev )?(?:pub )?(?:record |data )?([^\s(){}:]+) *[:({]", re.M)
UNREAD_SPECS = re.compile(r"\s*--|use |pub mod ")


@dataclass(frozen=True)
class Item:
    """Something that is declared: the words by which it is named, and its text."""

    words: frozenset
    text: str


def item(names, lines):
    return Item(frozenset(word for name in names for word in WORD.findall(name)), "\n".join(lines))


def chunks(lines, opens):
    """Some lines, in rows that begin with a line that opens something; but for the first row, if there is one before these."""
    rows = []
    for line in lines:
        if opens.match(line) or not rows:
            rows.append([])
        rows[-1].append(line)
    return rows


def head_of_block(lines):
    """The lines of an `impl` or a `trait` up to the brace that opens it, and what BLOCK finds there."""
    head = lines[: next((at for at, line in enumerate(lines) if line.endswith("{")), 0) + 1]
    return head, BLOCK.match(" ".join(head))


def items_of_block(lines):
    """The functions of an `impl`, each by itself, and what else stands in it. One of a trait is one item, as a trait is."""
    head, block = head_of_block(lines)
    names = names_of(block)
    if block[1] == "trait" or len(names) > 1:
        return [item(names[-1:], lines)]
    found = []
    for rest in chunks(lines[len(head) :], FUNCTION):
        function = FUNCTION.match(rest[0])
        found.append(item([function[3]] if function else names, head + rest))
    return found


def is_above(lines, file, folder):
    """Whether crates above see by its name what some lines of a file of code declare."""
    if BLOCK.match(lines[0]):
        return all(is_type_above(name, folder) for name in names_of(head_of_block(lines)[1]))
    declared = DECLARES.search(lines[0])
    if declared is None:
        return True
    kind, name = declared.groups()
    return is_type_above(name, folder) if kind in TYPES else is_handed_on(name, file, folder)


def by_path(it, file):
    """An item that is named by its path alone."""
    return Item(frozenset(f"{file.stem}.{word}" for word in it.words), it.text)


def items_of_code(file, folder):
    """The items of a file of code. Modules are none, nor is what is handed on under its own name."""
    found = []
    for lines in chunks(outline(file.read_text(encoding="utf-8")), OPENS_CODE):
        if BLOCK.match(lines[0]):
            made = items_of_block(lines)
        elif not re.match(r"(pub(\([^)]*\))? )?mod ", lines[0]):
            declared = DECLARES.search(lines[0])
            made = [item([declared[2]] if declared else WORD.findall(lines[0]), lines)]
        else:
            continue
        found += made if is_above(lines, file, folder) else [by_path(it, file) for it in made]
    return found


@cache
def items_of_specs(text):
    """The items of a file of definitions. Those that name each other are one."""
    lines = [it.rstrip() for it in text.split("\n") if it.strip() and not UNREAD_SPECS.match(it)]
    found = []
    for rows in chunks(lines, OPENS_SPECS):
        names = DECLARES_SPECS.findall("\n".join(rows))
        found.append(item(names if rows[0].endswith("mutual") else names[:1], rows))
    return found


@cache
def items_above(crate):
    """What crates above see of a crate."""
    folder = TOP / "crates" / crate
    code = (it for file in (folder / "src").rglob("*.rt") for it in items_of_code(file, folder))
    specs = (it for file in (folder / "specs").rglob("*.antt") for it in items_of_specs(file.read_text(encoding="utf-8")))
    return frozenset((*code, *specs))


def words_of(text):
    """The names in a text, and those with the name before them in a path."""
    return {*WORD.findall(text), *PATH.findall(text)}


def reached(text, lower):
    """Those of the items of some crates that a text names, or that these name in turn. One without a name is always reached."""
    waiting, found, words = {it for crate in lower for it in items_above(crate)}, set(), words_of(text)
    while named := {it for it in waiting if not it.words or it.words & words}:
        found |= named
        waiting -= named
        words.update(word for it in named for word in words_of(it.text))
    return found
