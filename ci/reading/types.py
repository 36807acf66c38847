"""The types of the code, as their text shows it."""

import re
from dataclasses import dataclass

from bodies.sources import below, crates

from reading.definitions import Type

NAME = re.compile(r"^pub(?:\([^)]*\))? (?:struct|enum|union|type|trait) (\w+)")
PART = re.compile(r"^    (?:pub(?:\([^)]*\))? )?(\w+)(?= ?[:({,])")


@dataclass
class Declared:
    """Where a type stands, the first paragraph of what is said of it, the names of its variants or fields, and the words of its text."""

    path: object
    comment: str
    parts: list
    words: list


class Types:
    """The types that the sources of all crates declare."""

    def __init__(self, top):
        self.top, self.found, self.named_by = top, {}, crates()
        for crate in self.named_by:
            folder = top / "crates" / crate / "src"
            for path in sorted(folder.rglob("*.rt")):
                modules = path.relative_to(folder).with_suffix("").parts
                self.read(crate, () if modules in (("lib",), ("main",)) else modules, path)

    def read(self, crate, modules, path):
        lines = path.read_text(encoding="utf-8").split("\n")
        for at, line in enumerate(lines):
            found = NAME.match(line)
            if found:
                said = at
                while said > 0 and lines[said - 1].startswith(("///", "#[", "// ")):
                    said -= 1
                end = next((it for it in range(at, len(lines)) if lines[it].startswith("}") or lines[at].endswith(";")), at)
                comment = "\n".join(it[3:].strip() for it in lines[said:at] if it.startswith("///")).partition("\n\n")[0].replace("\n", " ")
                parts = [it[1] for it in map(PART.match, lines[at + 1 : end]) if it]
                words = re.findall(r"\b[A-Z]\w+", "\n".join(it for it in lines[at:end + 1] if not it.lstrip().startswith("//")))
                self.found[Type(crate, modules, found[1])] = Declared(path.relative_to(self.top), comment, parts, words)

    def with_their_parts(self, types):
        """These types and those that their text names."""
        left, seen = [*types], []
        while left:
            it = left.pop(0)
            if it in seen or it not in self.found:
                continue
            seen.append(it)
            left += [self.named(it, word) for word in self.found[it].words if self.named(it, word)]
        return seen

    def named(self, of, word):
        """The type that a word in the text of another means: of its file, its crate, or else the only one of that name below it."""
        seen = [of.crate, *below(of.crate, self.named_by)]
        same = [it for it in self.found if it.name == word and it.crate in seen]
        near = [it for it in same if it.crate == of.crate]
        nearest = [it for it in near if it.modules == of.modules]
        return next((it[0] for it in (nearest, near, same) if len(it) == 1), None)
