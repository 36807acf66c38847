"""What a check says of a crate that it refuses: which goals it found open, and where."""

import re
from dataclasses import dataclass
from enum import Enum

# (of a struct's ghost field only that no proof was found is said)
OPEN = re.compile(r"^note: (src/\S+?):(\d+):\d+: (?:it is not proved that .*?|`search` found no proof) \(`([^`]*)`\)", re.M)
# (what is said goes on in lines that begin with blanks)
ANSWER = re.compile(r"^(?:\./)?(proofs/\S+?):(\d+):\d+: error: (?:`([^`]*)`: )?(.*(?:\n  .*)*)$", re.M)
CALLS = re.compile(r"^fn (\S+): no proof: it calls ", re.M)
# What is said of an answer where a tactic was left with a goal that doesn't hold, or that it couldn't close.
TACTIC = re.compile(r"^`(omega|grind|search|simp|decide)\b")
# What `rt must-fail` says of an edit: of one that is refused, and where that shows something of the contract, by which goal.
ALONE = re.compile(r"^rt: must-fail (\w+)/(\w+)\.edit: (.*)$", re.M)
REFUSED = "refused, as it must be: "
WHERE = re.compile(r"^(?:note: )?(?:\./)?((?:src|proofs)/\S+?):(\d+)")
# What is said of answers that lean on one of which something else is said.
LEANS = re.compile(r"^\d+ declarations? that depends? on .* which was rejected")


class Kind(Enum):
    """What a goal that isn't proved says of a changed body, and what the refusal is said to be by."""

    OPEN = "an open goal"
    """No tactic closes the goal, which has no answer."""
    TACTIC = "a tactic of its answer"
    """The tactic that the goal's answer calls doesn't close it."""
    ANSWER = "an answer that no longer fits"
    """The goal isn't the one that its answer proves. The body may be at fault, or only look otherwise: `rt must-fail` decides."""


class Subject(Enum):
    """What a goal is about."""

    CLAUSE = "what the function ensures"
    INVARIANT = "an invariant"
    REQUIREMENT = "a requirement"
    OTHER = "another goal"


@dataclass(frozen=True)
class Refusal:
    """A goal that isn't proved, and where that is said."""

    kind: Kind
    file: str
    line: int
    goal: str

    @property
    def subject(self):
        """What the goal is about, by its name."""
        if re.search(r"(^|-)returns", self.goal):
            return Subject.CLAUSE
        if re.search(r"invariant_of|-(preserved|init|starts?)(-|$)", self.goal):
            return Subject.INVARIANT
        is_requirement = re.search(r"requires|bounds|overflow|unreachable", self.goal)
        return Subject.REQUIREMENT if is_requirement else Subject.OTHER

    def is_of(self, place):
        """Whether it is a goal of this function."""
        if self.file.startswith("src/"):
            return self.file == place.file and place.first <= self.line <= place.last
        start, name = place.proofs
        folder = self.file.split("/")[-2]
        # (functions that call each other in turn are proved in one folder, and their goals begin with their names)
        is_of_cycle = folder.startswith("+") and (name in folder.split("-") or self.goal.startswith(f"{name}-"))
        return self.file.startswith(f"{start}/") and (folder == name or is_of_cycle)

    def __str__(self):
        goal = f"`{self.goal}`, " if self.goal else ""
        return f"{self.subject.value} ({goal}{self.file}:{self.line})"


def refusals_in(said):
    """All that the check's output says of goals that aren't proved."""
    found = [Refusal(Kind.OPEN, file, int(line), goal) for file, line, goal in OPEN.findall(said)]
    for file, line, goal, why in ANSWER.findall(said):
        if not LEANS.match(why):
            found.append(Refusal(Kind.TACTIC if goal and TACTIC.match(why) else Kind.ANSWER, file, int(line), goal))
    return found


def goal_that_refuses(refusals):
    """Of what is said of a changed function, the goal that refuses it: one that no tactic closes, and a clause before another goal.

    None where there are only answers that no longer fit: a right body of that form may be refused so too."""
    for kind in (Kind.OPEN, Kind.TACTIC):
        found = [it for it in refusals if it.kind is kind]
        if found:
            return min(found, key=lambda it: [*Subject].index(it.subject))
    return None


def calls_of_refused(said):
    """The names of the functions that are refused because of another that they call, of which nothing else is known."""
    return {it.split("::")[-1] for it in CALLS.findall(said)}


def is_verdict(status, said):
    """Whether the check came to the verdict that the crate isn't proved."""
    # (a word of advice may come behind it)
    return status == 1 and re.search(r"^logic=not-proved$", said, re.M) is not None


def told_alone(said):
    """What `rt must-fail` said of each edit of a crate, by its name."""
    return {name: what for _, name, what in ALONE.findall(said)}


def refusal_alone(what):
    """The goal that `rt must-fail` tells of a refused edit. None where it tells none."""
    what = what.removeprefix(REFUSED)
    found, where = refusals_in(what), WHERE.match(what)
    if found or not where:
        return found[0] if found else None
    kind = Kind.OPEN if where[1].startswith("src/") else Kind.ANSWER
    return Refusal(kind, where[1], int(where[2]), "")
