"""How what the script started ends with it: each is ended by its own id, or by that of the group that was made for it."""

import ctypes
import os
import signal

ENDING = (signal.SIGHUP, signal.SIGINT, signal.SIGTERM)
END_WITH_PARENT = 1


def stand_apart():
    """Has a process that is started apart from the terminal, in a group of its own, and ended where the script is killed."""
    os.setsid()
    if ctypes.CDLL(None, use_errno=True).prctl(END_WITH_PARENT, signal.SIGTERM, 0, 0, 0):
        raise OSError(ctypes.get_errno(), "prctl")


def end_by(number, frame):
    """Ends the script by an exception, so that it cleans up; what comes while it does so changes nothing."""
    for it in ENDING:
        signal.signal(it, lambda number, frame: None)
    raise SystemExit(128 + number)


def clean_up_at_signals():
    for it in ENDING:
        if signal.getsignal(it) != signal.SIG_IGN:
            signal.signal(it, end_by)
