"""Runs a program within bounds of time and memory."""

import os
import resource
import signal
import subprocess
import sys
from dataclasses import dataclass

SECONDS, MOST_BYTES, ADDRESSES = 20, 300 << 20, 2 << 30
TOLD_AT = 9


@dataclass
class Ended:
    status: int
    out: bytes
    errors: bytes
    told: int
    """How many bytes it wrote to the file descriptor at which ci/refusing.c tells of refused memory."""


class Unbounded(Exception):
    """The program took too long or too much memory, or was stopped by a signal."""


def too_long(number, frame):
    raise TimeoutError


class Runner:
    """Runs a program over the files of a folder."""

    def __init__(self, program, folder):
        self.program, self.folder = str(program), folder
        signal.signal(signal.SIGALRM, too_long)
        resource.setrlimit(resource.RLIMIT_AS, (ADDRESSES, ADDRESSES))

    def file(self, name):
        return f"{self.folder}/{name}"

    def put(self, name, content):
        with open(self.file(name), "wb") as it:
            it.write(content)

    def content(self, name):
        with open(self.file(name), "rb") as it:
            return it.read()

    def run(self, words, text, environment=None, may_abort=None):
        """What the program does with these words and this standard input. A stop by the signal `may_abort` is an end too."""
        self.put("input", text)
        opens = [(os.POSIX_SPAWN_OPEN, 0, self.file("input"), os.O_RDONLY, 0)]
        for number, name in ((1, "out"), (2, "errors"), (TOLD_AT, "told")):
            opens.append((os.POSIX_SPAWN_OPEN, number, self.file(name), os.O_WRONLY | os.O_CREAT | os.O_TRUNC, 0o600))
        child = os.posix_spawn(self.program, [os.path.basename(self.program), *words], environment or {}, file_actions=opens)
        signal.alarm(SECONDS)
        try:
            _, ended, used = os.wait4(child, 0)
        except TimeoutError as error:
            os.kill(child, signal.SIGKILL)
            os.wait4(child, 0)
            raise Unbounded(f"it ran for more than {SECONDS} s") from error
        finally:
            signal.alarm(0)
        if os.WIFSIGNALED(ended) and os.WTERMSIG(ended) != may_abort:
            raise Unbounded(f"it was stopped by signal {os.WTERMSIG(ended)}")
        if used.ru_maxrss << 10 > MOST_BYTES and (peak := self.peak_alone(words)) << 10 > MOST_BYTES:
            raise Unbounded(f"it took {peak} KiB")
        told = os.stat(self.file("told")).st_size
        return Ended(os.waitstatus_to_exitcode(ended), self.content("out"), self.content("errors"), told)

    def peak_alone(self, words):
        """The peak of memory of the run, in KiB, as a small process counts it: what is counted of a child begins with what its parent has."""
        count = (
            "import resource, subprocess, sys; nobody = subprocess.DEVNULL\n"
            "subprocess.run(sys.argv[1:], stdin=open('input', 'rb'), stdout=nobody, stderr=nobody)\n"
            "print(resource.getrusage(resource.RUSAGE_CHILDREN).ru_maxrss)"
        )
        ran = subprocess.run([sys.executable, "-c", count, self.program, *words], cwd=self.folder, capture_output=True, check=True)
        return int(ran.stdout)
