"""What docs/MANY-MACHINES.md says: its commands, and the totals of its campaign."""

import re
import shlex
from pathlib import Path

TOP = Path(__file__).resolve().parent.parent.parent
TEXT = (TOP / "docs" / "MANY-MACHINES.md").read_text()
BLOCKS = re.findall(r"^```\n(.*?)^```$", TEXT, re.M | re.S)
TOTALS = {kind: int(count) for kind, count in re.findall(r"`total (\w+) (\d+)`", TEXT)}
RUN = "examples/campaign/run "
SEEDS = range(1, 7)


class Unheld(Exception):
    """Something isn't as the document says."""


def expect(what, found, wanted):
    if found != wanted:
        raise Unheld(f"{what}: {found!r:.2000}, and it has to be {wanted!r:.2000}")


def command(part, changes):
    """The one command of the document that has this part, with changes."""
    found = [block for block in BLOCKS if part in block]
    expect(f"how many commands of the document have {part!r}", len(found), 1)
    changed = found[0]
    for old, new in changes.items():
        expect(f"{old!r} is in the document's command {found[0]!r}", old in changed, True)
        changed = changed.replace(old, new)
    return changed


def words_of_batch():
    """The scenario of the document's campaign, and its options."""
    words = shlex.split(command(RUN, {}))
    return TOP / words[4], words[5:]
