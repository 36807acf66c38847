"""Copies of what rt reads of this checkout, which stay from one run to the next, and in which rt keeps what it keeps.

They stand in a cache folder of the user's, some for each checkout. Only their sources are written here: a file that differs is
written anew, one that is gone is removed, and `out/` is left to rt. One run at a time has a copy, by a lock beside it.
"""

import fcntl
import hashlib
import os
import shutil
from contextlib import contextmanager
from pathlib import Path

TOP = Path(__file__).resolve().parent.parent.parent
FILES = ("crates.txt", "HANDLES")
# What no check reads of a crate, or rt makes.
ELSEWHERE = {"out", "must-fail", "wrong"}


def room():
    """The folder of this checkout's copies."""
    cache = Path(os.environ.get("XDG_CACHE_HOME") or Path.home() / ".cache")
    return cache / "msi-wrong-bodies" / f"{TOP.name}-{hashlib.sha256(bytes(TOP)).hexdigest()[:12]}"


def files_of(top):
    """The names of the files that a check may read in a checkout or a copy, out/ apart."""
    found = [it for it in FILES if (top / it).is_file()]
    for folder, folders, files in os.walk(top / "crates"):
        is_crate = Path(folder).parent == top / "crates"
        folders[:] = [it for it in folders if not (is_crate and it in ELSEWHERE)]
        found += [os.path.relpath(Path(folder, it), top) for it in files]
    return found


class Copy:
    """A copy of the checkout."""

    def __init__(self, top):
        self.top = top

    def folder(self, crate):
        return self.top / "crates" / crate

    def bring_up_to_date(self):
        """Has its sources be those of the checkout."""
        wanted, there = files_of(TOP), files_of(self.top)
        for name in wanted:
            content, place = (TOP / name).read_bytes(), self.top / name
            if not place.is_file() or place.read_bytes() != content:
                place.parent.mkdir(parents=True, exist_ok=True)
                place.write_bytes(content)
        for name in {*there} - {*wanted}:
            self.remove(self.top / name)
        crates = {it.name for it in (TOP / "crates").iterdir()}
        for folder in (self.top / "crates").iterdir():
            # (of a crate that is gone nothing is kept)
            if folder.name not in crates:
                shutil.rmtree(folder)
            else:
                shutil.rmtree(folder / "must-fail", ignore_errors=True)

    def remove(self, file):
        """Removes a file, and the folders that have nothing in them then."""
        file.unlink()
        folder = file.parent
        while folder != self.top and not any(folder.iterdir()):
            folder.rmdir()
            folder = folder.parent

    @contextmanager
    def changed(self, crate, texts):
        """Has files of a crate have these texts, and puts them back then."""
        before = {file: (self.folder(crate) / file).read_bytes() for file in texts}
        try:
            for file, text in texts.items():
                (self.folder(crate) / file).write_text(text, encoding="utf-8")
            yield
        finally:
            for file, content in before.items():
                (self.folder(crate) / file).write_bytes(content)

    @contextmanager
    def must_fail(self, crate, edits):
        """Has these edits, and no others, stand in must-fail/ of a crate."""
        place = self.folder(crate) / "must-fail"
        try:
            place.mkdir()
            for it in edits:
                shutil.copyfile(it.path, place / it.path.name)
            yield
        finally:
            shutil.rmtree(place, ignore_errors=True)


def taken(lock):
    """The lock as an open file, or nothing where another run has it."""
    held = open(lock, "w", encoding="ascii")
    try:
        fcntl.flock(held, fcntl.LOCK_EX | fcntl.LOCK_NB)
        return held
    except BlockingIOError:
        held.close()
        return None


@contextmanager
def copies(count):
    """So many copies, up to date, which no other run has meanwhile."""
    room().mkdir(parents=True, exist_ok=True)
    held, number = {}, 0
    try:
        while len(held) < count:
            lock = taken(room() / f"{number}.lock")
            if lock:
                held[Copy(room() / str(number))] = lock
            number += 1
        for it in held:
            it.top.mkdir(exist_ok=True)
            (it.top / "crates").mkdir(exist_ok=True)
            it.bring_up_to_date()
        yield [*held]
    finally:
        for lock in held.values():
            lock.close()


def remove_copies():
    """Removes the copies of this checkout that no run has, with what rt kept in them."""
    for folder in sorted(it for it in room().glob("*") if it.is_dir()):
        lock = taken(room() / f"{folder.name}.lock")
        if lock:
            shutil.rmtree(folder)
            lock.close()
