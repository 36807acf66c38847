"""What the engines of campaigns have in common: a command of a shell, and what `parallel` notes of its jobs."""

import os
import signal
import subprocess
from contextlib import suppress

from engines.daemons import Unready, user, where
from engines.document import SEEDS, TOP
from engines.ending import stand_apart

SECONDS = 600


class Engine:
    """Makes campaigns by a command of the document, in a room for its files, with an environment."""

    name, wants, wants_name, sums_up = "", (), False, False
    """What it is called, the programs that it wants, whether it wants a name of the user, and whether it sums up."""
    broke, refused = 0, (0, [2] * len(SEEDS))
    """What its command ends with where trials broke; and it and its jobs where the folder has other words."""
    cuts = {"ended": signal.SIGTERM, "killed": signal.SIGKILL}
    """How it is cut off, by which signal. Killed, an engine can't end its jobs."""

    @classmethod
    def lacks(cls):
        """What it wants and isn't there."""
        absent = [it for it in cls.wants if not where(it)]
        return absent + [f"a name for user {os.getuid()}"] * (cls.wants_name and user() is None)

    def __init__(self, room, environment):
        self.room, self.environment, self.begun = room, environment, None

    def start(self, stack):
        """Starts what the engine needs; the stack stops it, and first what is under way."""
        stack.callback(self.leave)
        return "nothing to start"

    def leave(self):
        with suppress(OSError, subprocess.SubprocessError, Unready):
            self.cut(signal.SIGTERM)

    def begin(self, command, environment):
        streams = {"stdin": subprocess.DEVNULL, "stdout": subprocess.PIPE, "stderr": subprocess.PIPE, "text": True}
        environment = {**self.environment, **environment}
        # (in a group of its own, as a shell that has a terminal starts it)
        self.begun = subprocess.Popen(["sh", "-c", command], cwd=TOP, env=environment, preexec_fn=stand_apart, **streams)

    def end(self, folder):
        """What the command ends with, and what it told, once all has ended that holds its streams."""
        _, told = self.begun.communicate(timeout=SECONDS)
        return self.begun.returncode, told

    def cut(self, number):
        """Sends the signal to the command and all that is in the group that was made for it, as a terminal does."""
        if self.begun and self.begun.returncode is None:
            os.killpg(self.begun.pid, number)
            self.begun.communicate(timeout=SECONDS)

    def logged(self, folder):
        """What the jobs of the folder ended with, by the log of the engine."""
        log = folder / "log"
        lines = log.read_text().splitlines() if log.exists() else []
        return [int(line.split("\t")[6]) for line in lines if line[0].isdigit()]
