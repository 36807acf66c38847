"""Wrong bodies: the edits of a crate, and the functions that they change."""

from dataclasses import dataclass
from pathlib import Path

from bodies.sources import functions_in

TIERS = ("must-fail", "wrong")


@dataclass(frozen=True)
class Edit:
    """A wrong body: its file, and its pairs of old and new texts with the file that each changes."""

    path: Path
    pairs: tuple

    @property
    def name(self):
        return self.path.stem

    def made_in(self, texts, folder):
        """The texts of the files with this edit made in them, or nothing where an old text doesn't stand there once."""
        made = dict(texts)
        for file, old, new in self.pairs:
            text = made[file] if file in made else Path(folder, file).read_text(encoding="utf-8")
            if text.count(old) != 1:
                return None
            made[file] = text.replace(old, new)
        return made


def read(path):
    """The edit of a file, in the form that rt has for must-fail edits."""
    file, old, pairs = "", "", []
    for line in path.read_text(encoding="utf-8").split("\n"):
        if line.startswith("file: "):
            file = line[len("file: "):].strip()
        elif line.startswith("old: "):
            old = line[len("old: "):]
        elif line.startswith("new:"):
            pairs.append((file, old, line[len("new:"):].removeprefix(" ")))
    return Edit(path, tuple(pairs))


def edits_of(folder):
    """The edits of both tiers of the crate in this folder."""
    return [read(it) for tier in TIERS for it in sorted(Path(folder, tier).glob("*.edit"))]


def places_of(edit, folder):
    """The functions that the edit changes; nothing where it changes another item too. An edit leaves the lines of a file where they are."""
    texts, places = {}, set()
    for file, old, new in edit.pairs:
        text = texts[file] if file in texts else Path(folder, file).read_text(encoding="utf-8")
        line = text[: text.find(old)].count("\n") + 1
        around = [it for it in functions_in(file, text) if it.first <= line <= it.last]
        if not around or not file.startswith("src/"):
            return frozenset()
        places.add(around[-1])
        texts[file] = text.replace(old, new)
    return frozenset(places)
