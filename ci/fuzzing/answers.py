"""What msi has to answer: as the second model has it where it has an answer, and in the forms of docs/FORMATS.md always."""

import json
import re
from dataclasses import dataclass
from xml.etree import ElementTree

from model.certificates import ADVICE, CLOSED, MET, certificate
from model.machine import Watched
from model.recordings import cell_lines, moved, refusal, text_of
from model.refusals import OVERRIDES, SCENARIOS, fault_of_overrides, fault_of_scenario
from model.replays import recording_of, replayed
from model.tables import baseline, overridden
from model.texts import lines_of, step_of, value_of
from model.trials import WAITS, tree_of, trial

OUTCOME = rb"(sent|moved|held|absent|idle|blank|broken|(load|store) \d+ \d+)"
PLACE = rb"(cache \d+|directory)"
VIOLATION = (
    rb"(blank " + PLACE + rb"|second writer \d+ \d+|writer \d+ beside reader \d+|stale load got \d+ due \d+) block \d+"
)
RESULT = rb"((quiet|cut|stuck) \d+|broke \d+ " + VIOLATION + rb")"
CELL = rb"cell (cache|directory) \S+ \S+ (blank|stall|act( \S+){1,9})"
RECORDING = (
    rb"msi-recording 2|protocol msi(\+e)?|shape \d+ \d+|seats \d+|opening( \d+)+|cells \d+|"
    + CELL
    + rb"|entries \d+|(by \d+ )?(ask|request|forward|response) [^=]+ = "
    + OUTCOME
    + rb"|end"
)
RECORDED, PLAYED = "floor --recording", "play --recording"
RACED = rb"safe|violation \d+ " + VIOLATION
FORMS = {
    "play": OUTCOME + rb"|violation " + VIOLATION,
    "replay": rb"same \d+|violation \d+ " + VIOLATION + rb"|differs \d+ told " + OUTCOME + rb" found " + OUTCOME,
    "tables": CELL,
    "certify": rb"safe|unknown|never stuck|asks may be held|messages (may )?get stuck|a writer may stand beside a reader|too many messages|"
    + rb"more pairs of caches than are followed|(cache [AB]|home): [^\n]+|"
    + CLOSED.encode()
    + rb"|"
    + MET.encode()
    + rb"|(messages (may )?get stuck|asks may be held|stall|never met|not proved|closed): "
    + CELL
    + rb"|stuck with 3 caches after:|ask \d 0 (load|store 5|replace)|(request|forward|response) 0 \d|"
    + ADVICE.encode(),
    "model": rb"[ -~]*",
    "trial": RECORDING,
    "batch": rb"\d+ " + RESULT + rb"|total (quiet|cut|stuck|broke) \d+",
    "move": RECORDING,
    "floor": RACED,
    RECORDED: RECORDING,
    PLAYED: RECORDING,
    "show": rb"[ -~\t]*",
    "chart": rb"[ -~]*",
}
TOLD = {
    "trial": rb"verdict " + RESULT + rb"\n(?:" + WAITS.encode() + rb"\n)?",
    "batch": rb"(msi: \d+ of \d+ trials, \d+ steps, \d+ broke, \d+ stuck\n)*(\S+ trial( --\w+ \S+)+\n)?",
    RECORDED: rb"(" + RACED + rb")\n",
    PLAYED: rb"(" + RACED + rb")\n",
}
REFUSED = (
    rb"msi: (line \d+: not a step|line \d+: not an ask of this shape|too many turns|a word isn't UTF-8"
    rb"|(tables|scenario|recording line \d+) refused [1-69] [A-Z][A-Za-z]+)\n"
)
BAD_WORDS = rb"error: [^\n]+\n(.*\n)*"


@dataclass
class Answer:
    """What has to be answered. Where a part isn't known it is `None`."""

    status: int
    out: bytes = None
    errors: bytes = None


def lines(these):
    return "".join(f"{line}\n" for line in these).encode()


def refused(message):
    return Answer(2, b"", f"msi: {message}\n".encode())


def has_form(form, text):
    return re.fullmatch(rb"((" + form + rb")\n)*", text) is not None


def fault_of_form(command, ended):
    """What isn't of any form that msi may answer in, if anything isn't."""
    if ended.status == 2:
        may_stand = re.fullmatch(REFUSED, ended.errors) or re.fullmatch(BAD_WORDS, ended.errors)
        return None if may_stand else "an unknown message"
    if ended.status not in (0, 1):
        return "an unexpected status"
    if command.endswith("--json"):
        told = TOLD.get(command.split()[0], b"")
        return None if is_json(ended.out) and re.fullmatch(told, ended.errors) else "an object that isn't one"
    if command not in FORMS:
        return "more than help" if ended.status or ended.errors else None
    if not has_form(FORMS[command], ended.out):
        return "output of another form"
    if command == "chart" and not is_picture(ended.out):
        return "a picture that isn't one"
    if command == RECORDED and not is_race(ended):
        return "a recording that isn't the race's"
    return None if re.fullmatch(TOLD.get(command, b""), ended.errors) else "text on standard error"


def form_of(words):
    """What tells of which form the answer to these words is: the command, and the option that changes that."""
    command = words[0].decode(errors="replace") if words else "help"
    for option in (b"--json", b"--recording"):
        if option in words:
            return f"{command} {option.decode()}"
    return command


def is_json(text):
    try:
        return all(isinstance(json.loads(line), dict) for line in text.splitlines())
    except ValueError:
        return False


def is_picture(text):
    try:
        return ElementTree.fromstring(text).tag.endswith("}svg")
    except ElementTree.ParseError:
        return False


def is_race(ended):
    """Whether a recording tells what was found, and each ask in it is of the seat that has its cache."""
    if refusal(ended.out):
        return False
    recording, (replay, *found) = recording_of(ended.out), replayed(ended.out)
    words = [line.split(" ") for line in recording.told]
    are_own = all(step != "ask" or int(cache) % recording.seats == int(seat) for _, seat, step, cache, *_ in words)
    return are_own and replay.startswith("same ") and ended.errors == lines(found or ["safe"])


def tables_of(overrides, protocol):
    """The tables, or how they are refused."""
    if overrides is None:
        return baseline(protocol), None
    fault = fault_of_overrides(overrides, protocol)
    if fault:
        return None, refused(f"tables refused {OVERRIDES.index(fault) + 1} {fault}")
    return overridden(value_of(overrides), protocol), None


def of_tables(tables):
    return Answer(0, lines(cell_lines(tables)), b"")


def of_certify(tables):
    known = certificate(tables)
    return known and Answer(known[0], lines(known[1]), b"")


def of_play(shape, tables, text):
    watched, printed = Watched(*shape, tables), []
    for number, line in lines_of(text):
        step = step_of(line)
        if step is None:
            return Answer(2, lines(printed), f"msi: line {number}: not a step\n".encode())
        outcome, found = watched.step(step)
        printed.append(outcome)
        if found:
            return Answer(1, lines([*printed, f"violation {found}"]), b"")
    return Answer(0, lines(printed), b"")


def of_recorded_play(shape, tables, text):
    """The recording of the steps up to a line that is refused or a violation, and what is told beside it."""
    watched, entries, status, told = Watched(*shape, tables), [], 0, "safe"
    for number, line in lines_of(text):
        step = step_of(line)
        if step is None:
            status, told = 2, f"msi: line {number}: not a step"
            break
        outcome, found = watched.step(step)
        entries.append(f"{line.decode()} = {outcome}")
        if found:
            status, told = 1, f"violation {len(entries) - 1} {found}"
            break
    return Answer(status, text_of(shape, tables, [0] * shape[1], entries).encode(), f"{told}\n".encode())


def of_replay(text):
    refusal_of_text = refusal(text)
    if refusal_of_text:
        return Answer(2, b"", f"{refusal_of_text}\n".encode())
    printed = replayed(text)
    return Answer(int(len(printed) > 1 or printed[0].startswith("differs")), lines(printed), b"")


def of_move(text):
    refusal_of_text = refusal(text)
    if refusal_of_text:
        return Answer(2, b"", f"{refusal_of_text}\n".encode())
    return Answer(0, moved(text), b"")


def of_show(text, whole):
    """What a table or a chart ends with: of all of a recording, 1 where a replay finds something."""
    refusal_of_text = refusal(text)
    if refusal_of_text:
        return Answer(2, b"", f"{refusal_of_text}\n".encode())
    return Answer(of_replay(text).status if whole else None, None, b"")


def of_trial(shape, tables, text, setup):
    fault = fault_of_scenario(text, shape)
    if fault:
        return refused(f"scenario refused {SCENARIOS.index(fault) + 1} {fault}")
    seed, number, limit = setup
    entries, verdict = trial(shape, tables, tree_of(value_of(text)), seed, number, limit)
    recording = text_of(shape, tables, [0] * shape[1], entries)
    told = lines([f"verdict {verdict}", *[WAITS] * verdict.startswith("stuck")])
    return Answer(int(verdict.startswith("broke")), recording.encode(), told)


def of_batch(shape, tables, text, setup):
    fault = fault_of_scenario(text, shape)
    if fault:
        return refused(f"scenario refused {SCENARIOS.index(fault) + 1} {fault}")
    seed, trials, limit = setup
    tree = tree_of(value_of(text))
    results = [trial(shape, tables, tree, seed, number, limit)[1] for number in range(trials)]
    totals = {}
    for result in results:
        kind = result.split()[0]
        totals[kind] = totals.get(kind, 0) + 1
    told = [f"{number} {result}" for number, result in enumerate(results)]
    return Answer(int("broke" in totals), lines(told + [f"total {kind} {count}" for kind, count in totals.items()]), b"")


def refused_asks(shape, text):
    """How asks are refused of which one isn't of this shape, if one isn't."""
    for number, line in lines_of(text):
        step = step_of(line)
        is_ask = hasattr(step, "kind") and step.cache < shape[0] and step.block < shape[1]
        if not is_ask:
            return Answer(2, b"", f"msi: line {number}: not an ask of this shape\n".encode())
    return None


def of_floor(shape, text, overrides):
    return refused_asks(shape, text) or (Answer(0, b"safe\n", b"") if overrides is None else None)


def of_recorded_floor(shape, text, overrides):
    return refused_asks(shape, text) or (Answer(0, None, b"safe\n") if overrides is None else None)
