"""Calls of the kit's command rt, side by side: how many go on at a time, and how they end with the script."""

import os
import signal
import subprocess
import threading


def lanes(bytes_each):
    """How many checks may go on at a time: as many as there are processors, and memory for; or RT_JOBS says."""
    fixed = os.environ.get("RT_JOBS", "")
    if fixed.isdigit() and int(fixed):
        return int(fixed)
    with open("/proc/meminfo", encoding="ascii") as it:
        free = next(int(line.split()[1]) << 10 for line in it if line.startswith("MemAvailable:"))
    return max(1, min(len(os.sched_getaffinity(0)), free // bytes_each))


class Ended(Exception):
    """No call begins any more."""


class Calls:
    """Calls of rt. Once they are ended, those under way are told to end, and no other begins."""

    def __init__(self):
        self.running, self.are_ended, self.lock = set(), False, threading.Lock()

    def rt(self, folder, *words):
        """What rt ends with in this folder, and what it said."""
        streams = {"stdin": subprocess.DEVNULL, "stdout": subprocess.PIPE, "stderr": subprocess.STDOUT}
        with self.lock:
            if self.are_ended:
                raise Ended
            ran = subprocess.Popen(["rt", *words], cwd=folder, text=True, errors="replace", **streams)
            self.running.add(ran)
        try:
            said, _ = ran.communicate()
        except BaseException:
            ran.terminate()
            ran.wait()
            raise
        finally:
            self.running.discard(ran)
        if self.are_ended:
            raise Ended
        return ran.returncode, said

    def end(self):
        with self.lock:
            self.are_ended = True
        for it in [*self.running]:
            it.terminate()


def end_by_signals():
    """Has a signal that ends the script raise, so that what it started is ended too, and what it changed put back."""

    def leave(number, frame):
        raise KeyboardInterrupt

    for number in (signal.SIGTERM, signal.SIGHUP):
        signal.signal(number, leave)
