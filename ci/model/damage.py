"""Random damage to texts."""

WORDS = (
    b"0 1 2 00 01 -1 +1 7 63 64 65 160 161 184 185 1024 1025 4096 4097 65536 65537 1000000 1000001 4294967295 4294967296 18446744073709551615 "
    b"18446744073709551616 = end ask request forward response load store replace sent moved held cell cache "
    b"directory I S M E IS^D Load Inv Data-Dir-Excl GetS blank stall act gets inv-ack data-excl entries cells opening shape x \xff "
    b"by seats protocol msi mesi msi+e msi-recording "
).split(b" ")


def edited(dice, text):
    """A text with up to three edits."""
    for _ in range(dice.randrange(4)):
        lines = text.split(b"\n")
        number = dice.randrange(len(lines))
        words = lines[number].split(b" ")
        at = dice.randrange(len(words))
        change = dice.choice(["word", "word", "word", "more", "less", "line", "twice", "cut", "byte", "long"])
        if change in ("word", "more"):
            words[at : at + (change == "word")] = [dice.choice(WORDS)]
        elif change == "less":
            del words[at]
        elif change == "long":
            words += [b"7"] * dice.choice([1, 10, 44_990, 45_001, 699_990, 700_001])
        lines[number] = b" ".join(words)
        if change == "line":
            del lines[number]
        elif change == "twice":
            lines.insert(dice.randrange(len(lines) + 1), lines[number])
        text = b"\n".join(lines)
        place = dice.randrange(len(text) + 1)
        if change == "cut":
            text = text[:place]
        elif change == "byte":
            text = text[:place] + bytes([dice.choice([10, 32, 48, 61, dice.randrange(256)])]) + text[place + 1 :]
    return text
