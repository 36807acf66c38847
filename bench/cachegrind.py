"""Counts what a run costs, as valgrind's cachegrind simulates a processor: the same each time, whatever else runs."""

import re
import subprocess
import sys
import tempfile
from dataclasses import astuple, dataclass
from pathlib import Path

# Caches of one size everywhere, in place of those of the machine: bytes, ways, bytes a line.
CACHES = ("--I1=32768,8,64", "--D1=32768,8,64", "--LL=8388608,16,64")


@dataclass
class Counts:
    """What a run cost, or a part of one: misses are those of first-level caches."""

    instructions: float
    mispredictions: float
    data_misses: float
    code_misses: float

    def __sub__(self, other):
        return Counts(*(mine - its for mine, its in zip(astuple(self), astuple(other))))

    def __truediv__(self, steps):
        return Counts(*(it / steps for it in astuple(self)))


def count(program, words, source, folder=None):
    """What a run of a program costs, with an open file as its standard input, in a folder; and how it ended."""
    with tempfile.TemporaryDirectory(prefix="msi-count-") as room:
        told, link = Path(room) / "told", Path(room) / "program"
        # its name and its environment lie on its stack, and would move what is there: so they are as long for each program
        link.symlink_to(program.resolve())
        valgrind = ["valgrind", "--tool=cachegrind", "--cache-sim=yes", "--branch-sim=yes", *CACHES]
        command = [*valgrind, f"--cachegrind-out-file={told}", link, *words]
        ended = subprocess.run(command, stdin=source, capture_output=True, cwd=folder, env={})
        if not told.is_file():
            sys.exit(f"bench: nothing is counted of {program} {' '.join(words)}: {ended.stderr.decode(errors='replace')}")
        return counts_in(told.read_text()), ended


def counts_in(told):
    """The counts of a file that cachegrind made, of the whole run."""
    names, sums = (re.search(rf"^{it}: (.*)$", told, re.M)[1].split() for it in ("events", "summary"))
    events = dict(zip(names, map(int, sums)))
    return Counts(events["Ir"], events["Bcm"] + events["Bim"], events["D1mr"] + events["D1mw"], events["I1mr"])
