#!/usr/bin/env python3
"""Writes scripts of 1,920 by 1,080 as films have them, which others of this folder measure.

usage: bench/film_scripts.py FOLDER SECONDS

dialogue.ass has a line of two rows each second; karaoke.ass one of syllables; signs.ass a sign that moves and one that
fades, both blurred.
"""

import sys

HEAD = """[Script Info]
ScriptType: v4.00+
PlayResX: 1920
PlayResY: 1080
ScaledBorderAndShadow: yes

[V4+ Styles]
Format: Name, Fontname, Fontsize, PrimaryColour, SecondaryColour, OutlineColour, BackColour, Bold, Italic, Underline, \
StrikeOut, ScaleX, ScaleY, Spacing, Angle, BorderStyle, Outline, Shadow, Alignment, MarginL, MarginR, MarginV, Encoding
Style: Default,Smooth Letter,72,&H00FFFFFF,&H000000FF,&H00101010,&H80000000,0,0,0,0,100,100,0,0,1,3,2,2,200,200,60,1

[Events]
Format: Layer, Start, End, Style, Name, MarginL, MarginR, MarginV, Effect, Text
"""
WORDS = "the last ferry leaves at nine and nobody has packed the lanterns for the island yet".split()


def line(layer, start, end, text):
    return f"Dialogue: {layer},0:{start // 60:02}:{start % 60:02}.00,0:{end // 60:02}:{end % 60:02}.00,Default,,0,0,0,,{text}\n"


def turned(i):
    return WORDS[i % 16 :] + WORDS[: i % 16]


def signs(i):
    texts = (rf"{{\blur4\bord4\move(100,{200 + i % 5 * 40},1500,{300 + i % 5 * 40})}}{' '.join(turned(i)[:4])}",
             rf"{{\blur2\an7\pos(300,600)\fad(300,300)\fs110\frz{i % 7}}}{turned(i)[0]} {turned(i)[1]}")
    return "".join(line(n, i, i + 1, text) for n, text in enumerate(texts))


KINDS = {
    "dialogue": lambda i: line(0, i, i + 1, " ".join(turned(i))),
    "karaoke": lambda i: line(0, i, i + 1, "".join(rf"{{\kf10}}{word} " for word in turned(i)[:10])),
    "signs": signs,
}


def main(folder, seconds):
    for name, lines in KINDS.items():
        with open(f"{folder}/{name}.ass", "w", encoding="utf-8") as it:
            it.write(HEAD + "".join(map(lines, range(seconds))))


if __name__ == "__main__":
    main(sys.argv[1], int(sys.argv[2]))
