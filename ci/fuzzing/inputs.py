"""Random inputs for every command of msi, with what has to be answered."""

import json
from dataclasses import dataclass
from typing import Callable, Optional

from fuzzing import answers
from fuzzing.certified import mild_overrides
from fuzzing.damage import damaged
from model.making import random_ask, random_overrides, random_scenario, random_steps
from model.recordings import first_text_of, text_of
from model.tables import PROTOCOLS, baseline, overridden
from model.trials import tree_of, trial

TABLES = b"overrides.json"
WORDS = (
    b"play trial batch replay move floor tables certify show chart --protocol msi msi+e mesi --block --from --steps --caches --blocks --tables --seed --number --limit --trials --workers --seats --turns "
    b"--progress --recording --json --tsv --until broke stuck --explain --changes check model --help --version -h -V help -- - --caches=2 --blocks=1 --colour 0 1 2 3 64 65 4096 4097 65536 65537 1000000 1000001 "
    b"4294967295 4294967296 18446744073709551615 18446744073709551616 -1 +1 01 1.0 two overrides.json absent.json \xff \xe2\x80\x8b"
).split(b" ") + [b"", b" "]


@dataclass
class Input:
    """Words, standard input and the file of overrides, and what answers them, if the model has an answer."""

    command: str
    words: list
    text: bytes
    overrides: Optional[bytes]
    answer: Callable


def perhaps(dice, chance, text):
    return damaged(dice, text) if dice.random() < chance else text


def overrides_for(dice, protocol, tables_wanted, chance):
    """Overrides and the tables that they make; valid ones but for damage."""
    if dice.random() > tables_wanted:
        return None
    text = json.dumps(random_overrides(dice, protocol), indent=dice.choice([None, None, 1])).encode()
    return perhaps(dice, chance, text)


def shape_of(dice):
    return dice.randrange(1, 4), dice.choice([1, 1, 1, 2])


def protocol_words(protocol):
    return [] if protocol == "msi" else [b"--protocol", protocol.encode()]


def world_words(shape, protocol, overrides):
    words = [b"--caches", b"%d" % shape[0], b"--blocks", b"%d" % shape[1], *protocol_words(protocol)]
    return words + ([b"--tables", TABLES] if overrides is not None else [])


def with_tables(overrides, protocol, answer):
    """Answers by these tables, or as they are refused."""

    def answered():
        tables, refused = answers.tables_of(overrides, protocol)
        return refused or answer(tables)

    return answered


def play(dice):
    shape, protocol = shape_of(dice), dice.choice(PROTOCOLS)
    overrides = overrides_for(dice, protocol, 0.3, 0.1)
    steps = random_steps(dice, shape, baseline(protocol))
    text = perhaps(dice, 0.6, "".join(f"{step}\n" for step in steps).encode())
    words = [b"play", *world_words(shape, protocol, overrides)]
    if dice.random() < 0.2:
        answer = with_tables(overrides, protocol, lambda tables: answers.of_recorded_play(shape, tables, text))
        return Input(answers.PLAYED, [*words, b"--recording"], text, overrides, answer)
    answer = with_tables(overrides, protocol, lambda tables: answers.of_play(shape, tables, text))
    return Input("play", words, text, overrides, answer)


def tables(dice):
    protocol = dice.choice(PROTOCOLS)
    overrides = overrides_for(dice, protocol, 1.0, 0.8)
    answer = with_tables(overrides, protocol, answers.of_tables)
    return Input("tables", [b"tables", *protocol_words(protocol), b"--tables", TABLES], b"", overrides, answer)


def certify(dice):
    protocol = dice.choice(PROTOCOLS)
    overrides = overrides_for(dice, protocol, 1.0, 0.2)
    if dice.random() < 0.5:
        overrides = perhaps(dice, 0.1, json.dumps(mild_overrides(dice, protocol)).encode())
    answer = with_tables(overrides, protocol, answers.of_certify)
    return Input("certify", [b"certify", *protocol_words(protocol), b"--tables", TABLES], b"", overrides, answer)


def modelled(dice):
    protocol = dice.choice(PROTOCOLS)
    overrides = overrides_for(dice, protocol, 1.0, 0.2)
    words = [*protocol_words(protocol), b"--caches", b"%d" % dice.randrange(1, 9), b"--tables", TABLES]
    return Input("model", [b"model", *words], b"", overrides, with_tables(overrides, protocol, lambda tables: None))


def setup_of(dice, least):
    return dice.choice([0, 1, 42, 2**64 - 1, dice.randrange(2**64)]), dice.randrange(least), dice.choice([0, 1, 5, 12, 25])


def scenario_of(dice, shape, chance):
    tree = {"both": [random_scenario(dice, shape, 3) for _ in range(dice.randrange(1, 3))]}
    return perhaps(dice, chance, json.dumps(tree).encode())


def recording(dice):
    shape, protocol = shape_of(dice), dice.choice(PROTOCOLS)
    changed = overridden(random_overrides(dice, protocol) if dice.random() < 0.5 else {}, protocol)
    tree = tree_of({"both": [random_scenario(dice, shape, 3) for _ in range(2)]})
    entries, _ = trial(shape, changed, tree, dice.randrange(2**64), 0, dice.choice([0, 3, 12]))
    recorded = shape, changed, [0] * shape[1], entries
    if protocol == "msi" and dice.random() < 0.4:
        return first_text_of(*recorded).encode()
    seats = dice.choice([0, 0, 1, 3, 64])
    return text_of(*recorded, seats, [dice.randrange(seats) for _ in entries if seats]).encode()


def replay(dice):
    text = perhaps(dice, 0.85, recording(dice))
    return Input("replay", [b"replay"], text, None, lambda: answers.of_replay(text))


def moved(dice):
    text = perhaps(dice, 0.7, recording(dice))
    return Input("move", [b"move"], text, None, lambda: answers.of_move(text))


def shown(dice):
    command, text = dice.choice(["show", "chart"]), perhaps(dice, 0.5, recording(dice))
    part = dice.choice([[], [], [b"--block", b"%d" % dice.randrange(3)], [b"--from", b"%d" % dice.randrange(9), b"--steps", b"%d" % dice.randrange(9)]])
    return Input(command, [command.encode(), *part], text, None, lambda: answers.of_show(text, not part))


def of_trials(dice, command, own, least, answer_of):
    shape, protocol = shape_of(dice), dice.choice(PROTOCOLS)
    overrides = overrides_for(dice, protocol, 0.3, 0.1)
    text, setup = scenario_of(dice, shape, 0.6), setup_of(dice, least)
    words = [b"--seed", b"%d" % setup[0], own, b"%d" % setup[1], b"--limit", b"%d" % setup[2]]
    answer = with_tables(overrides, protocol, lambda tables: answer_of(shape, tables, text, setup))
    return Input(command, [command.encode(), *world_words(shape, protocol, overrides), *words], text, overrides, answer)


def one_trial(dice):
    return of_trials(dice, "trial", b"--number", 2**32, answers.of_trial)


def batch(dice):
    made = of_trials(dice, "batch", b"--trials", 3, answers.of_batch)
    made.words += dice.choice([[], [], [b"--workers", b"1"], [b"--workers", b"3"]])
    return made


def floor(dice):
    shape, protocol = shape_of(dice), dice.choice(PROTOCOLS)
    overrides = overrides_for(dice, protocol, 0.2, 0.1)
    asks = "".join(f"{random_ask(dice, *shape)}\n" for _ in range(dice.randrange(9)))
    text = perhaps(dice, 0.5, asks.encode())
    own = [b"--seats", b"%d" % dice.randrange(1, 4), b"--turns", b"%d" % dice.randrange(12), b"--seed", b"%d" % dice.randrange(2**64)]
    if dice.random() < 0.5:
        answer = with_tables(overrides, protocol, lambda tables: answers.of_floor(shape, text, overrides))
        return Input("floor", [b"floor", *world_words(shape, protocol, overrides), *own], text, overrides, answer)
    answer = with_tables(overrides, protocol, lambda tables: answers.of_recorded_floor(shape, text, overrides))
    return Input(answers.RECORDED, [b"floor", b"--recording", *world_words(shape, protocol, overrides), *own], text, overrides, answer)


def other_words(dice):
    """Words of a command that are good but for some of them, or any words."""
    made = dice.choice([play, tables, certify, modelled, replay, moved, shown, one_trial, batch, floor])(dice)
    words = list(made.words) if dice.random() < 0.8 else [dice.choice(WORDS) for _ in range(dice.randrange(8))]
    for _ in range(dice.randrange(1, 4)):
        at = dice.randrange(len(words) + 1)
        words[at : at + dice.randrange(2)] = [dice.choice(WORDS)] * dice.choice([0, 1, 1, 1, 2])
    return Input("words", [word for word in words if b"\0" not in word], made.text, made.overrides, lambda: None)


KINDS = [play] * 6 + [replay] * 5 + [moved] * 2 + [shown] * 2 + [tables] * 3 + [certify] * 2 + [modelled] + [one_trial] * 3 + [batch] * 2 + [floor, other_words]


def random_input(dice):
    return dice.choice(KINDS)(dice)
