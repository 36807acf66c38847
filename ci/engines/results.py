"""What a campaign has to come to: what the program makes without an engine."""

import re
import shlex
import subprocess

from engines.document import SEEDS, TOP, TOTALS, command, expect, words_of_batch

BROKE = re.compile(r"^(\d+) broke (\d+) (.*)$", re.M)
TOTAL = re.compile(r"^total (\w+) (\d+)$", re.M)
# How many recordings of each seed are replayed.
REPLAYED = 3


def totals(batches):
    """The sums over what batches printed."""
    of = {}
    for text in batches:
        for kind, count in TOTAL.findall(text):
            of[kind] = of.get(kind, 0) + int(count)
    return of


class Results:
    """The batches of the document's campaign."""

    def __init__(self, program):
        self.program = program
        self.batches = {seed: self.batch(seed) for seed in SEEDS}
        expect("the totals of the document's batches", totals(self.batches.values()), TOTALS)

    def batch(self, seed):
        """What the program prints of the document's batch of this seed."""
        scenario, options = words_of_batch()
        return self.printed(["batch", "--seed", str(seed), *options], scenario)

    def printed(self, words, file):
        with open(file, "rb") as given:
            return subprocess.run([self.program, *words], cwd=TOP, stdin=given, stdout=subprocess.PIPE, text=True).stdout

    def check(self, folder):
        """Whether the folder has the batch of each seed and a recording of each trial that broke, and no others."""
        due = set()
        for seed, text in self.batches.items():
            expect(f"{seed}.txt", (folder / f"{seed}.txt").read_text(), text)
            due |= {f"{seed}.txt", *(f"{seed}-{number}.rec" for number, _, _ in BROKE.findall(text))}
            self.check_recordings(folder, seed)
        made = {it.name for it in folder.iterdir() if it.suffix in (".txt", ".rec")}
        expect("the files that are made and not due, or due and not made", made ^ due, set())
        self.check_totals(folder)

    def check_totals(self, folder):
        """Whether the document's command for totals finds those of the document."""
        words = ["sh", "-c", command("find /shared/campaign", {"/shared/campaign": shlex.quote(str(folder))})]
        found = subprocess.run(words, stdout=subprocess.PIPE, text=True, check=True).stdout.splitlines()
        expect("the totals of the folder", sorted(found), sorted(f"{kind} {count}" for kind, count in TOTALS.items()))

    def check_recordings(self, folder, seed):
        """Whether the first recordings of a seed have the violation that its batch tells."""
        for number, step, violation in BROKE.findall(self.batches[seed])[:REPLAYED]:
            wanted = f"same {step}\nviolation {int(step) - 1} {violation}\n"
            expect(f"{seed}-{number}.rec, replayed", self.printed(["replay"], folder / f"{seed}-{number}.rec"), wanted)
