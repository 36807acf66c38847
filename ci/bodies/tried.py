"""What is noted of a crate whose wrong bodies were all refused: at which commit, and the sum of what that was tried on."""

import hashlib
import subprocess
from pathlib import Path

from bodies.edits import TIERS
from bodies.items import reached
from bodies.sources import TOP, below, crates

SOURCES = ("src", "specs", "proofs")


def sum_of(name):
    """The sum of a crate's own sources, of its edits whatever their tier, and of what these reach of the crates below it."""
    folder = TOP / "crates" / name
    files = [it for part in SOURCES for it in (folder / part).rglob("*") if it.suffix in (".rt", ".antt")]
    own = {str(it.relative_to(folder)): it.read_text(encoding="utf-8") for it in files}
    own |= {it.name: it.read_text(encoding="utf-8") for tier in TIERS for it in (folder / tier).glob("*.edit")}
    lower = reached("\n".join(own.values()), below(name, crates()))
    made = hashlib.sha256()
    for content in (*(f"{key}\0{text}" for key, text in sorted(own.items())), *sorted(it.text for it in lower)):
        made.update(f"{hashlib.sha256(content.encode()).hexdigest()}\n".encode())
    return made.hexdigest()


def git(*words):
    """What git says of this checkout; nothing where it is none."""
    ran = subprocess.run(["git", "-C", TOP, *words], capture_output=True, text=True, check=False)
    return ran.stdout.strip() if ran.returncode == 0 else None


def commit_of(name):
    """The commit of this checkout, with a mark where the crate, or one below it, has other files than that."""
    at = git("rev-parse", "HEAD")
    folders = [f"crates/{it}" for it in (name, *below(name, crates()))]
    changed = git("status", "--porcelain", "--", "crates.txt", *folders, ":(exclude,glob)crates/*/wrong/TRIED")
    return f"{at or 'unknown'}{' with changes' if changed else ''}"


def note_of(name):
    return TOP / "crates" / name / "wrong" / "TRIED"


def note(name, total):
    """Notes that all of a crate's wrong bodies were refused under this sum."""
    note_of(name).parent.mkdir(exist_ok=True)
    note_of(name).write_text(f"commit {commit_of(name)}\nsum {total}\n", encoding="utf-8")


def is_tried(name):
    there = note_of(name)
    return there.is_file() and there.read_text(encoding="utf-8").splitlines()[1:] == [f"sum {sum_of(name)}"]
