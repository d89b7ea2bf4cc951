"""A model of the sections [Fonts] of scripts, and the rows of test_vectors that it answers.

usage: python3 tests/script_fonts.py [--count N]

It writes crates/test_vectors/data/script_fonts: rows by hand, whose answers stand here, and scripts drawn by a seed,
whose answers are the model's. --count N compares nothing: it prints N more rows, for a run by hand.

The model is of the ASS specification: it reads the whole text at once, by numbers of any length in base 64, and shares
no step with the crate.
"""

import argparse
import os
import random
import re

TOP = os.path.dirname(os.path.dirname(os.path.realpath(__file__)))
FILE = f"{TOP}/crates/test_vectors/data/script_fonts"
KNOWN = {"[events]", "[fonts]", "[graphics]"}


def coded(data):
    """Bytes as the specification writes them: one character for each six bits begun."""
    bits = "".join(f"{byte:08b}" for byte in data)
    bits += "0" * (-len(bits) % 6)
    return "".join(chr(33 + int(bits[k : k + 6], 2)) for k in range(0, len(bits), 6))


def decoded(text):
    """All whole bytes of the bits."""
    if not text:
        return b""
    number = 0
    for character in text:
        number = number * 64 + ord(character) - 33
    spare = 6 * len(text) % 8
    return (number >> spare).to_bytes(6 * len(text) // 8, "big")


def is_data(line):
    return re.fullmatch("[!-`]*", line) is not None


def is_heading(line):
    return re.fullmatch(r"\[.*\]|\[\]", line) is not None and (not is_data(line) or line.lower() in KNOWN)


def attached(lines):
    """Of each font the name, the number of its line, and its lines with their numbers."""
    fonts, here = [], False
    for number, line in enumerate(lines, 1):
        if is_heading(line):
            here = line.lower() == "[fonts]"
            fonts.append(None)
        elif here and line.startswith("fontname:"):
            fonts.append((line[9:].lstrip(" \t"), number, []))
        elif here and fonts and fonts[-1]:
            fonts[-1][2].append((number, line))
    return [font for font in fonts if font]


def answer(text):
    """What a script holds, as `shown` prints it."""
    lines = [line.strip(" \t") for line in text.removeprefix("\ufeff").replace("\r\n", "\n").split("\n")]
    fonts = []
    for name, number, data in attached(lines):
        for place, line in data:
            if not is_data(line):
                return f"BadCharacter({place})"
        characters = "".join(line for _, line in data)
        if len(characters) % 4 == 1:
            return f"BadLength({number})"
        fonts.append((name, list(decoded(characters))))
    return "[" + ", ".join(f'("{name}", {held})' for name, held in fonts) + "]"


HAND = [
    ("", "[]"),
    ("[Fonts]", "[]"),
    ("[Fonts]|fontname: a.ttf", '[("a.ttf", [])]'),
    ("[Fonts]|fontname: a.ttf|!!!!", '[("a.ttf", [0, 0, 0])]'),
    ("[Fonts]|fontname: a.ttf|````", '[("a.ttf", [255, 255, 255])]'),
    # one, two and three bytes of 97, 98, 99, worked by hand: 24, 22, 9, 35
    ("[Fonts]|fontname: a|91", '[("a", [97])]'),
    ("[Fonts]|fontname: a|97)", '[("a", [97, 98])]'),
    ("[Fonts]|fontname: a|97*D", '[("a", [97, 98, 99])]'),
    ("[Fonts]|fontname: a|97*D9", "BadLength(2)"),
    ("[Fonts]|fontname: a|9|7*|D", '[("a", [97, 98, 99])]'),
    ("[Fonts]|fontname: a|97*D||91", '[("a", [97, 98, 99, 97])]'),
    ("[Fonts]|; made by hand|97*D|fontname: a|91", '[("a", [97])]'),
    ("[Fonts]|fontname: a|91|fontname:b\t|97)", '[("a", [97]), ("b", [97, 98])]'),
    ("[Fonts]|fontname: a|9a", "BadCharacter(3)"),
    ("[Fonts]|fontname: a|91|Fontname: b", "BadCharacter(4)"),
    ("[Fonts]|fontname: a|9|fontname: b|~", "BadLength(2)"),
    ("[Fonts]|fontname: a|91|[Events]|Dialogue: a|fontname: b|91", '[("a", [97])]'),
    ("[Fonts]|fontname: a|91|[EVENTS]|9", '[("a", [97])]'),
    ("[Fonts]|fontname: a|[91]", '[("a", [233, 132, 60])]'),
    ("[Fonts]|fontname: a|91|[A b]|~", '[("a", [97])]'),
    ("[fonts] |fontname: a|91 |[FONTS]|91|fontname: b|91", '[("a", [97]), ("b", [97])]'),
    ("\ufeff[Fonts]|fontname: a|91", '[("a", [97])]'),
    ("fontname: a|91", "[]"),
]


def drawn(seed):
    """A script of a seed: lines that are mostly those of fonts, some of them cut, mixed or with a character too many."""
    pick = random.Random(seed)
    lines = [pick.choice(["[Script Info]", "[Fonts]", "[Fonts]", "\t[FONTS] ", ""])]
    for _ in range(pick.randrange(1, 5)):
        lines.append(pick.choice(["fontname: a.ttf", "fontname:b", "[Fonts]", "[Graphics]", "[V4+ Styles]", "fontname: c d", "fontname: e"]))
        data = coded(bytes(pick.randrange(256) for _ in range(pick.randrange(12))))
        if pick.random() < 0.25:
            data += pick.choice(["!", "`", "[", "]", "a", "\x7f", "\u00e4", " ", ";"])
        width = pick.choice([1, 3, 5, 80])
        lines += [pick.choice(["", "", "", " "]) + data[k : k + width] for k in range(0, len(data), width)]
        if pick.random() < 0.2:
            lines.append(pick.choice(["", " ", "[Fonts", "[]", "[Q]", "[q]", "[EVENTS]"]))
    return "|".join(lines)


def rows(count):
    for text, said in HAND:
        found = answer(text.replace("|", "\n"))
        assert found == said, (text, found, said)
        yield text, said
    for seed in range(count):
        text = drawn(seed)
        yield text, answer(text.replace("|", "\n"))


def main():
    parser = argparse.ArgumentParser(description=__doc__, formatter_class=argparse.RawDescriptionHelpFormatter)
    parser.add_argument("--count", type=int)
    given = parser.parse_args()
    text = "".join(f"{question} => {said}\n" for question, said in rows(given.count or 40))
    if given.count:
        print(text, end="")
        return
    with open(FILE, "w", encoding="utf-8") as file:
        file.write(text)


if __name__ == "__main__":
    main()
