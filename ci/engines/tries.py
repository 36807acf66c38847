"""What is tried of the engines of campaigns, and of their commands without one."""

import os
import shlex
import subprocess
from pathlib import Path

from engines.daemons import wait_until
from engines.document import SEEDS, TOP, Unheld, expect
from engines.engine import SECONDS
from engines.results import REPLAYED, totals

# A program that stops midway in the batch of a seed while there is a file that holds it, and for half an hour at most.
HELD_SEED = 3
HELD = """#!/bin/sh
if [ "$1 ${{3-}}" != "batch {seed}" ] || [ ! -e {hold} ]; then
    exec {program} "$@"
fi
status=0
printed=$({program} "$@") || status=$?
printf '%s\\n' "$printed" | head -n 50
left=18000
while [ -e {hold} ] && [ "$left" -gt 0 ]; do
    sleep 0.1
    left=$((left - 1))
done
printf '%s\\n' "$printed" | tail -n +51
exit "$status"
"""
MIXED = "examples/scenarios/mixed-traffic.json"
ABSENT, REFUSES = "/dev/null/msi", "refusing-msi"
# Wrong words: the script and its words, what it ends with, and what it says. FOLDER isn't there at first. The program isn't there
# either, or is one that refuses all.
WRONG_WORDS = [
    ("one-seed", ["1", "FOLDER", MIXED], 2, "Usage: "),
    ("one-seed", ["one", "FOLDER", MIXED, "--caches", "4"], 2, "one isn't one"),
    ("one-seed", ["007", "FOLDER", MIXED, "--caches", "4"], 2, "007 isn't one"),
    ("one-seed", [f"{2**64}", "FOLDER", MIXED, "--caches", "4"], 2, f"{2**64} isn't one"),
    ("one-seed", ["1", "FOLDER", "absent.json", "--caches", "4"], 2, "there is no scenario absent.json"),
    ("one-seed", ["1", "/dev/null/folder", MIXED, "--caches", "4"], 3, "can't be written", REFUSES),
    ("one-seed", ["1", "FOLDER", MIXED, "--caches", "4"], 3, f"there is no program {ABSENT}"),
    ("one-seed", [f"{2**64 - 1}", "FOLDER", MIXED, "--caches", "4"], 2, "", REFUSES),
    ("run", ["1", "2", "FOLDER", MIXED], 2, "Usage: "),
    ("run", ["1", "two", "FOLDER", MIXED, "--caches", "4"], 2, "two isn't one"),
    ("run", ["1", "02", "FOLDER", MIXED, "--caches", "4"], 2, "02 isn't one"),
    ("run", ["2", "1", "FOLDER", MIXED, "--caches", "4"], 2, "there is no seed from 2 to 1"),
    ("run", [f"{2**64 - 1}", f"{2**64 - 2}", "FOLDER", MIXED, "--caches", "4"], 2, "there is no seed from"),
    ("run", ["1", "2", "FOLDER", "absent.json", "--caches", "4"], 2, "there is no scenario absent.json"),
    ("run", ["1", "2", "FOLDER", MIXED, "--caches", "4"], 3, f"there is no program {ABSENT}"),
    ("run", ["1", "2", "FOLDER", MIXED, "--caches", "5"], 2, "it can be removed, as FOLDER has no batch", REFUSES),
    ("run", ["1", "2", "/dev/null/folder", MIXED, "--caches", "4"], 3, "can't be written", REFUSES),
]
# What a folder without hard links says, and what a killed script may leave: its file of words as another name of the folder's.
NO_LINKS = "has no hard links"
LEFT_OVER = 'ln "$2/words" "$2/words.$(uname -n)-$$" && exec {shell} "$@"'


def call(shell, words, **variables):
    """What a script of the campaign ends with where `sh` is this shell, its output and its errors."""
    words = ["sh", f"examples/campaign/{words[0]}", *words[1:]]
    how = {"cwd": TOP, "env": {**os.environ, **variables}, "capture_output": True, "text": True}
    done = subprocess.run(words, executable=shell, **how)
    return done.returncode, done.stdout, done.stderr


def script(file, text):
    file.write_text(f"#!/bin/sh\n{text}\n")
    file.chmod(0o755)
    return str(file)


def refused_words(shell, room):
    """Whether wrong words are refused where `sh` is this shell."""
    folder, refuses = str(room / f"words-{Path(shell).name}"), script(room / REFUSES, "exit 2")
    for name, words, status, told, *program in WRONG_WORDS:
        words = [name, *(folder if it == "FOLDER" else it for it in words)]
        found = call(shell, words, MSI=refuses if program else ABSENT)
        if found[:2] != (status, "") or told.replace("FOLDER", folder) not in found[2]:
            raise Unheld(f"{shlex.join(words)} ends with {found[0]} and tells {found[1]}{found[2]}")
    return f"{len(WRONG_WORDS)} refused"


def odd_folders(shell, room):
    """Whether a folder without hard links is refused, and what a killed script left changes nothing."""
    folder, refuses, links = room / f"odd-{Path(shell).name}", script(room / REFUSES, "exit 2"), room / "no-links"
    links.mkdir(exist_ok=True)
    script(links / "ln", "exit 1")
    words = ["same-words", str(folder), refuses, MIXED, "--caches"]
    status, _, told = call(shell, [*words, "4"], PATH=f"{links}{os.pathsep}{os.environ['PATH']}")
    expect("a folder without hard links is refused", (status, NO_LINKS in told), (3, True))
    expect("a first list of words", call(shell, [*words, "4"]), (0, "", ""))
    before = (folder / "words").read_text()
    left = [shell, "-c", LEFT_OVER.format(shell=shlex.quote(shell)), "sh", "examples/campaign/same-words", *words[1:], "5"]
    expect("other words, behind a script that was killed", subprocess.run(left, cwd=TOP, capture_output=True).returncode, 2)
    expect("the words", (folder / "words").read_text(), before)
    expect("what is left", [it.name for it in folder.iterdir()], ["words"])
    return "one without hard links is refused, and what a killed script left changes nothing"


def states(folder, *kinds):
    """The files of these kinds, each with what changes where it is made anew."""
    kept = [it for it in folder.iterdir() if it.name.endswith(kinds)]
    return {it.name: (it.stat().st_ino, it.stat().st_mtime_ns) for it in kept}


class Tries:
    """What is tried of an engine, with the results that it has to come to."""

    def __init__(self, engine, results):
        self.engine, self.results = engine, results
        self.folder, self.hold, self.held = (engine.room / name for name in ("campaign", "hold", "held"))
        words = {"program": shlex.quote(results.program), "hold": shlex.quote(str(self.hold)), "seed": HELD_SEED}
        self.held.write_text(HELD.format(**words))
        self.held.chmod(0o755)

    def all(self):
        """What there is to try, by what it is called. The engine is started, and no campaign under way."""
        yield "seeds that break", self.seeds_that_break
        yield "other words or another program for its folder", self.other_words
        for how, number in self.engine.cuts.items():
            yield f"{how} midway", lambda: self.cut_off(number)
        if self.engine.sums_up:
            yield "other seeds in its folder", self.other_seeds
            yield "the greatest seeds", self.greatest_seeds

    def let_go(self):
        """Lets what is held go on, and end."""
        self.hold.unlink(missing_ok=True)

    def run(self, folder, seeds=SEEDS, trials=100, **variables):
        """What the document's command and its jobs end with, and what is told."""
        before = len(self.engine.logged(folder))
        self.engine.begin(self.engine.command(folder, seeds, trials), variables)
        status, told = self.engine.end(folder)
        return (status, self.engine.logged(folder)[before:]), told

    def make(self, folder, **variables):
        found, told = self.run(folder, **variables)
        if found != (self.engine.broke, [0] * len(SEEDS)):
            raise Unheld(f"the command and its jobs end with {found}: {told[-2000:]}")
        self.results.check(folder)

    def seeds_that_break(self):
        self.make(self.folder)
        count = len(states(self.folder, ".rec"))
        return f"{count} trials broke, each has its recording, and {REPLAYED * len(SEEDS)} of these were replayed"

    def other_words(self):
        """Other options, and another program."""
        before = states(self.folder, ".txt", ".rec", "words")
        for other, why in (({"trials": 99}, "here '99'"), ({"MSI": str(self.held)}, "another program")):
            found, told = self.run(self.folder, **other)
            expect("what the command and its jobs end with", found, self.engine.refused)
            expect("a refusal is told", "has batches of other words" in told and why in told, True)
            expect("the files", states(self.folder, ".txt", ".rec", "words"), before)
        return f"refused; the command ended with {found[0]}" + (", and each job with 2" if found[1] else "")

    def cut_off(self, number):
        """A campaign that is cut off while a batch is under way, and goes on at once by the same command."""
        folder, part = self.engine.room / f"cut-{number:d}", f"{HELD_SEED}.*part"
        program = {"MSI": str(self.held)}
        self.hold.touch()
        self.engine.begin(self.engine.command(folder, SEEDS, 100), program)
        wait_until(lambda: any(it.stat().st_size for it in folder.glob(part)), "a batch is under way", SECONDS)
        wait_until(lambda: all((folder / f"{it}.txt").exists() for it in range(1, HELD_SEED)), "seeds are done", SECONDS)
        self.engine.cut(number)
        done = states(folder, ".txt")
        expect("the batch is made", f"{HELD_SEED}.txt" in done, False)
        # (as of a machine that lost its power: of those that ended here, some could remove their parts)
        (folder / f"{HELD_SEED}.elsewhere-1.part").write_text("0 qui")
        self.hold.unlink()
        self.make(folder, **program)
        # (a job that outlived its engine removes the parts of its seed, its own last)
        wait_until(lambda: not [*folder.glob("*part")], "no part is left", SECONDS)
        self.results.check(folder)
        expect("the seeds that were done", {it: states(folder, ".txt")[it] for it in done}, done)
        return f"went on to the same results, and left the {len(done)} seeds alone that were done"

    def other_seeds(self):
        """Some of the seeds that are done, and more behind them."""
        seeds, before = range(SEEDS[-2], SEEDS[-1] + 3), states(self.folder, ".txt")
        (status, jobs), told = self.run(self.folder, seeds)
        expect("what the command and its jobs end with", (status, jobs), (self.engine.broke, [0] * len(seeds)))
        sums = totals((self.folder / f"{it}.txt").read_text() for it in seeds)
        expect("totals", (self.folder / "totals").read_text(), "".join(f"total {kind} {sums[kind]}\n" for kind in sorted(sums)))
        expect("the seeds that were done", {it: states(self.folder, ".txt")[it] for it in before}, before)
        return f"those of {seeds[0]} to {seeds[-1]} were summed up, and those that were done left alone"

    def greatest_seeds(self):
        folder, seeds = self.engine.room / "greatest", range(2**64 - 2, 2**64)
        (status, jobs), told = self.run(folder, seeds)
        expect("what the command and its jobs end with", (status, jobs), (self.engine.broke, [0] * len(seeds)))
        for seed in seeds:
            expect(f"{seed}.txt", (folder / f"{seed}.txt").read_text(), self.results.batch(seed))
        return f"{seeds[0]} and {seeds[-1]} were made"
