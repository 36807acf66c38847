"""What pages name, paths and names of the code, and what of that isn't there."""

import re

from bodies.sources import crates

SPAN = re.compile(r"`([^`\n]+)`")
LINK = re.compile(r"\]\(([^)#:\s]+)(?:#[^)]*)?\)")
FENCED = re.compile(r"^ *```.*?^ *```", re.M | re.S)
FOLDERS = ("crates/", "docs/", "ci/", "run/", "bench/", "examples/", ".ci/")
SOURCE = re.compile(r"^[\w/*+-]+\.(?:rt|antt)$")
# What stands for a name in a path, and what a build leaves.
PLACEHOLDER = re.compile(r"(?:^|/)(?:[A-Z]{2,}|out)(?:/|\.|$)|\.\.|…")
NAME = re.compile(r"^[A-Za-z]\w*(?:::\w+)*$")
# Names that no word of a sentence, of a command or of a format has the form of.
SURE = re.compile(r"_|::|[a-z][A-Z]")


class Named:
    """What is there to be named."""

    def __init__(self, top):
        self.top, self.crates = top, crates()
        folders = [top / "crates" / crate / part for crate in self.crates for part in ("src", "specs", "proofs")]
        files = [it for folder in folders for it in folder.rglob("*.*t")]
        self.sources = ["/" + str(it.relative_to(top)) for it in files]
        texts = [it for it in files if "/proofs/" not in str(it)]
        texts += [it for folder in ("ci", "run", "bench", "examples") for it in (top / folder).rglob("*") if it.is_file() and it.suffix in ("", ".py")]
        self.words = {*self.crates, *(it.stem for it in files)}
        self.words.update(*(re.findall(r"\w+", it.read_text(encoding="utf-8", errors="replace")) for it in [*texts, top / "crates.txt"]))

    def is_there(self, path, page):
        """Whether a path that a page names is there: from the top, from a crate's folder, or as the end of that of a source."""
        if path.startswith(FOLDERS):
            return any(self.top.glob(path.rstrip("/"))) if "*" in path else (self.top / path).exists()
        at_crate = path.split("/")[0] in self.crates and (self.top / "crates" / path).exists()
        return at_crate or any(it.endswith("/" + path) for it in self.sources) or (page.parent / path).exists()

    def missing(self, page):
        """The paths and the names of a page that aren't there."""
        text = page.read_text(encoding="utf-8")
        spans = dict.fromkeys(SPAN.findall(FENCED.sub("", text)))
        words = [word for span in spans for word in span.split() if not PLACEHOLDER.search(word)]
        paths = [it for it in words if it.startswith(FOLDERS) or SOURCE.match(it) or "/" in it and it.split("/")[0] in self.crates]
        names = [it for it in spans if NAME.match(it) and SURE.search(it)]
        absent = [it for it in paths if not self.is_there(it, page)]
        absent += [it for it in names if not self.words.issuperset(it.split("::"))]
        return list(dict.fromkeys(absent + [it for it in LINK.findall(text) if not (page.parent / it).exists()]))
