"""Damage of every kind to the bytes of an input."""

from model.damage import edited

LONG = [199, 200, 201, 4096, 65_536, 89_999, 90_000, 90_001, 1_399_999, 1_400_000, 1_400_001]
NUMBERS = b"0 1 63 64 65 1023 1024 1025 4095 4096 4097 65535 65536 65537 999999 1000000 1000001 4294967295 4294967296".split()
HUGE = [b"18446744073709551615", b"18446744073709551616", b"9" * 19, b"1" * 40, b"1e999", b"-0", b"1.0", b"0x10", b"+1"]
ODD = [b"\0", b"\r", b"\t", b"\v", b"\xff", b"\xc3", b"\xed\xa0\x80", b"\xf0\x9f\x98\x80", b"\xef\xbb\xbf", b"\xe2\x80\x8b", b" ", b"\n"]
DEEP = [1, 2, 40, 47, 48, 49, 60, 100, 126, 127, 128, 129, 1000, 20_000]


def with_crlf(dice, text):
    return text.replace(b"\n", b"\r\n")


def with_odd_bytes(dice, text):
    for _ in range(dice.randrange(1, 4)):
        at = dice.randrange(len(text) + 1)
        text = text[:at] + dice.choice(ODD) + text[at:]
    return text


def with_other_bytes(dice, text):
    made = bytearray(text)
    for _ in range(dice.randrange(1, 5) if made else 0):
        made[dice.randrange(len(made))] = dice.randrange(256)
    return bytes(made)


def without_a_part(dice, text):
    first, last = sorted(dice.randrange(len(text) + 1) for _ in range(2))
    return text[:first] + text[last:]


def with_a_part_again(dice, text):
    first, last = sorted(dice.randrange(len(text) + 1) for _ in range(2))
    at = dice.randrange(len(text) + 1)
    return text[:at] + text[first:last] * dice.choice([1, 1, 2, 9]) + text[at:]


def cut(dice, text):
    return text[: dice.randrange(len(text) + 1)]


def with_a_long_line(dice, text):
    at = dice.randrange(len(text) + 1)
    return text[:at] + dice.choice([b"7", b" ", b"a", b" 7"]) * dice.choice(LONG) + text[at:]


def with_another_number(dice, text):
    runs = [at for at in range(len(text)) if text[at : at + 1].isdigit() and not text[at - 1 : at].isdigit()]
    if not runs:
        return text
    first = last = dice.choice(runs)
    while text[last : last + 1].isdigit():
        last += 1
    return text[:first] + dice.choice(NUMBERS + HUGE) + text[last:]


def within_brackets(dice, text):
    depth = dice.choice(DEEP)
    opens, closes = dice.choice([(b"[", b"]"), (b'{"seq":[', b"]}"), (b'{"times":2,"of":', b"}"), (b'{"a":', b"}")])
    return opens * depth + text + closes * (depth if dice.random() < 0.9 else depth // 2)


def at_random(dice, text):
    return dice.randbytes(dice.choice([0, 1, 2, 10, 100, 1000]))


def with_lines_in_another_order(dice, text):
    lines = text.split(b"\n")
    dice.shuffle(lines)
    return b"\n".join(lines)


OF_ALL = [edited] * 4 + [with_another_number] * 3 + [with_odd_bytes, with_other_bytes, without_a_part, with_a_part_again, cut]
RARE = [with_crlf, with_a_long_line, within_brackets, at_random, with_lines_in_another_order]


def damaged(dice, text):
    """The text with damage of up to three kinds."""
    for _ in range(dice.choice([1, 1, 1, 2, 3])):
        text = dice.choice(RARE if dice.random() < 0.15 else OF_ALL)(dice, text)
    return text
