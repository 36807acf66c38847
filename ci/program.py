"""The program that `rt ci` leaves, for the scripts that try it."""

import subprocess
import sys
from pathlib import Path

TOP = Path(__file__).resolve().parent.parent
PROGRAM = TOP / "crates" / "msi" / "out" / "msi"


def fresh_program():
    """Where it is. Where it isn't built as the sources stand, ./msi says so, and this ends the script with its status."""
    nobody = subprocess.DEVNULL
    status = subprocess.run([TOP / "msi", "tables"], stdin=nobody, stdout=nobody, check=False).returncode
    if status:
        sys.exit(status)
    return PROGRAM
