"""Runs a program of this repository straight from its sources, by the kit's command `rt try`."""

import re
import signal
import subprocess
import sys
from pathlib import Path

TOP = Path(__file__).resolve().parent.parent
REFUSED, DEVICE, STOPPED, INTERRUPTED = 2, 3, 70, 130
WEEK = 7 * 24 * 60 * 60
HELP = TOP / "run" / "help"
# The option that names a file.
OPTION = "--tables"
# The last line of rt, and those that it may write before it, behind all that the program wrote on standard error.
OF_RUN = re.compile(rb"(?:^(?:interpreter|checked|races): .*\n)*^run=(?:ended status=(\d+)|.*) .*\n\Z", re.M)


def tell(text):
    print(f"msi: {text}", file=sys.stderr, flush=True)


def stop(why, status=STOPPED):
    tell(why)
    sys.exit(status)


def commands():
    """The commands of msi, each of which has a text of help."""
    return {it.name for it in HELP.iterdir() if it.name.islower()}


def reads_input(words):
    """Whether these words have msi read standard input, as the command's help says of it."""
    if not words or words[0] not in commands() or {"-h", "--help"} & {*words}:
        return False
    return "\nStandard input: " in (HELP / words[0]).read_text(encoding="utf-8")


def file_words(words):
    """The places of the words that name a file of tables, each with how the word begins before the name."""
    before = ""
    for place, word in enumerate(words):
        option, equals, file = word.partition("=")
        if before == OPTION and word and not word.startswith("-"):
            yield place, ""
        elif option == OPTION and file:
            yield place, option + equals
        before = word


def look_at(words, where=""):
    """Ends as the program does, and says why, where the words name no command or no file that can be read: that needs no program."""
    if words and not words[0].startswith("-") and words[0] not in commands() | {"help"}:
        stop(f"{where}'{words[0]}' is no command; ./msi --help lists them", REFUSED)
    for place, front in file_words(words):
        try:
            with open(words[place].removeprefix(front), "rb"):
                pass
        except OSError as fault:
            stop(f"device\nmsi: {where}{fault.filename}: {fault.strerror}", DEVICE)


def try_program(crate, words, data, given=subprocess.DEVNULL):
    """What a crate's program writes at a run with these words: its output, its errors, and its status if it ended by itself."""
    files = [it for name, path in data.items() for it in ("--data", f"{name}={path}")]
    call = ["rt", "try", "--seconds", str(WEEK), *files, "--", *words]
    with subprocess.Popen(call, cwd=TOP / "crates" / crate, stdin=given, stdout=subprocess.PIPE, stderr=subprocess.PIPE) as ran:
        try:
            out, errors = ran.communicate()
        except KeyboardInterrupt:
            ran.terminate()
            ran.wait()
            raise
    said = OF_RUN.search(errors)
    if said and said[1]:
        return out, errors[: said.start()], int(said[1])
    return out, errors, None


def leave(number, frame):
    """Has a signal that ends the script raise, so that what it started is ended too, and its files removed."""
    raise KeyboardInterrupt


def carry_out(main):
    """Does the work of a script, and ends with its status, or with what is told of a fault."""
    for it in (signal.SIGTERM, signal.SIGHUP):
        signal.signal(it, leave)
    try:
        sys.exit(main())
    except FileNotFoundError as fault:
        stop("the kit's command rt isn't on the path" if fault.filename == "rt" else str(fault))
    except KeyboardInterrupt:
        sys.exit(INTERRUPTED)
