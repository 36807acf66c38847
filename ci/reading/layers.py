"""The crates by layers, as crates.txt has them, what each stands on, what its head says, its tests, and whose lemmas its proofs cite."""

import re

from bodies.sources import below, crates

TEST = re.compile(r"^#\[test\]\nfn (\w+)", re.M)
CITED = re.compile(r"^use Rattle\.(\w+)\.proofs\.(\w+)", re.M)


def layers(top):
    """The layers, each with its heading and its crates. A heading is a comment on a line of its own, above the layer's crates."""
    found, heading = [("", [])], None
    for line in (top / "crates.txt").read_text(encoding="utf-8").splitlines():
        words, _, comment = line.partition("#")
        if words.strip():
            if heading is not None:
                found.append((heading, []))
            found[-1][1].append(words.split(":")[0].split()[0])
            heading = None
        elif comment:
            heading = comment.strip()
    return [(heading, names) for heading, names in found if names]


def stands_on():
    """What each crate stands on, without what follows from the rest."""
    named = crates()
    return {it: [on for on in ons if not any(on in below(other, named) for other in ons)] for it, ons in named.items()}


def head_of_crate(folder):
    """The first paragraph of what a crate's first file says of it."""
    return head_of_file(next(it for it in (folder / "src" / "lib.rt", folder / "src" / "main.rt") if it.exists()))


def tests_of(folder):
    """The tests of a crate, by the files that have some."""
    found = {it: TEST.findall(it.read_text(encoding="utf-8")) for it in sorted((folder / "src").rglob("*.rt"))}
    return {it: tests for it, tests in found.items() if tests}


def head_of_file(path):
    """The first paragraph of what a file says of itself."""
    said = []
    for line in path.read_text(encoding="utf-8").split("\n"):
        if not line.startswith("//!") or line == "//!":
            break
        said.append(line[3:].strip())
    return " ".join(said)


def citations(top):
    """Which files of lemmas of crates below the proofs of each crate cite."""
    found = {}
    for name, ons in crates().items():
        cited = set()
        for path in (top / "crates" / name / "proofs").rglob("*.antt"):
            cited.update(it for it in CITED.findall(path.read_text(encoding="utf-8")) if it[0] != name)
        found[name] = {on: sorted(lemmas for it, lemmas in cited if it == on) for on in ons if any(it == on for it, _ in cited)}
    return found
