#!/usr/bin/env python3
"""Compares pictures of single letters with a model of TrueType (tests/truetype_model.py), and glyphs with FreeType.

usage: python3 tests/truetype_fonts.py [--program FILE] [FONT..]

Where no font is named it takes examples/letters.ttf, and of Debian's packages fonts-dejavu-core and fonts-liberation
DejaVu Sans and Liberation Serif, where they are installed. No gate runs it. Pictures of ASCII and Latin-1 in several
sizes, plain and bold, slanted and with bars, must have the model's bytes; all glyphs' contours and advances must be
those of FreeType, where python3-freetype is at hand, but for a unit where a part is scaled. Frames of
examples/dialogue.ass must have the sums that are stored for these two fonts; for others they are printed. The last line is 'N passed, M failed'.
"""

import argparse
import hashlib
import os
import subprocess
import sys
import tempfile

sys.dont_write_bytecode = True
TOP = os.path.dirname(os.path.dirname(os.path.realpath(__file__)))
sys.path.insert(0, f"{TOP}/tests")
import truetype_model as model  # noqa: E402

try:
    import freetype
except ImportError:
    freetype = None

FONTS = [
    f"{TOP}/examples/letters.ttf",
    "/usr/share/fonts/truetype/dejavu/DejaVuSans.ttf",
    "/usr/share/fonts/truetype/liberation/LiberationSerif-Regular.ttf",
]
# Of a font file with this sum, the sums of frames of examples/dialogue.ass, 640 by 360, at instants in milliseconds.
FRAMES = {
    # DejaVuSans.ttf of Debian 12
    "abdc775b21b1bc470d50c97e790d276f2054b7504e56e5bd3e64f48d68582322": {
        2500: "512478e200b9a011265a66a90a99eae2102880b6fcdc0c8fd094588e15c80e35",
        6000: "631477d1756baa7fc26e560f955326737188651788d59fd549e0a8158c36e9fe",
    },
    # LiberationSerif-Regular.ttf of Debian 12
    "1c9c77c2cd0f3c2d2aeef53ea50a4d5d3d684ac73a431d7c70d7864887d194a3": {
        2500: "f046c5b2d004814ba52ec9f3171aa0e47e4a8833d366b3b7dadf871f6245df78",
        6000: "9a569828dcedddd293128bc3825baa6ef98f969001d0b3abe58d23a4f5eab7b4",
    },
}
LETTERS = [chr(code) for code in [*range(33, 127), *range(161, 256)] if chr(code) not in "{}\\"]
W, H, X, Y = 320, 240, 70, 20
HEAD = f"""[Script Info]
ScriptType: v4.00+
PlayResX: {W}
PlayResY: {H}
WrapStyle: 2
[V4+ Styles]
Format: Name, Fontname, Fontsize, PrimaryColour, BorderStyle, Outline, Shadow, Alignment
Style: Default,x,20,&H00FFFFFF,1,0,0,7
[Events]
Format: Start, End, Text
"""
# Size, and how letters look: their tags, and what the model is told
LOOKS = [
    (18, "", {}),
    (40, "", {}),
    (75, "", {}),
    (160, "", {}),
    (40, r"\b1", {"bold": True}),
    (40, r"\i1", {"italic": True}),
    (33, r"\b1\i1\u1\s1", {"bold": True, "italic": True, "underline": True, "strikeout": True}),
]


def time_of(second):
    return f"{second // 3600}:{second // 60 % 60:02}:{second % 60:02}.00"


def pictures(program, script, fonts, count):
    """The pictures of a script, a second each, as their red bytes."""
    words = ["play", "--from", "0", "--to", str(1000 * count), "--step", "1000", "--size", f"{W}x{H}", script, *fonts]
    text = subprocess.run([program, *words], capture_output=True, check=True).stdout
    for _ in range(count):
        end = text.index(b"\n255\n") + 5
        yield text[end : end + 3 * W * H : 3]
        text = text[end + 3 * W * H :]


def wanted(font, letter, size, look):
    """The bytes that the model has of a picture."""
    unit = size * 1000 * 100000 * 64 * 65536 // (100000000 * (font.ascent + font.descent))
    x, y = 64 * X // 4, (64 * Y + font.ascent * unit // 65536) // 4
    found = bytearray(W * H)
    for (i, j), byte in model.coverage(model.rings(font, font.glyph(ord(letter)), unit, unit, **look), x % 16, y % 16).items():
        if 0 <= x // 16 + i < W and 0 <= y // 16 + j < H:
            found[(y // 16 + j) * W + x // 16 + i] = byte
    return bytes(found)


def put_script(room, texts):
    """A script of texts at one place, a second each."""
    with open(f"{room}/letters.ass", "w", encoding="utf-8") as it:
        it.write(HEAD)
        for k, text in enumerate(texts):
            it.write(f"Dialogue: {time_of(k)},{time_of(k + 1)},{{\\pos({X},{Y})}}{text}\n")
    return it.name


def compare_pictures(program, path, font, room, letters=LETTERS, looks=LOOKS):
    """How many pictures are the model's, and how many aren't."""
    passed = failed = 0
    for size, tags, look in looks:
        script = put_script(room, [f"{{\\fs{size}{tags}}}{letter}" for letter in letters])
        for letter, shown in zip(letters, pictures(program, script, [path], len(letters))):
            if shown == wanted(font, letter, size, look):
                passed += 1
            else:
                failed += 1
                print(f"FAILED: {path}: {letter} of size {size}, {tags or 'plain'}, isn't the model's")
    return passed, failed


def outline_of(face, g):
    """The contours and the advance that FreeType has of a glyph."""
    face.load_glyph(g, freetype.FT_LOAD_NO_SCALE | freetype.FT_LOAD_NO_HINTING)
    it, begin, found = face.glyph.outline, 0, []
    for end in it.contours:
        found.append([(*it.points[k], bool(it.tags[k] & 1)) for k in range(begin, end + 1)])
        begin = end + 1
    return found, face.glyph.advance.x


def is_near(one, other):
    """Whether contours are the same, but for a unit."""
    if [len(it) for it in one] != [len(it) for it in other]:
        return False
    pairs = [pair for a, b in zip(one, other) for pair in zip(a, b)]
    return all(p[2] == q[2] and abs(p[0] - q[0]) < 2 and abs(p[1] - q[1]) < 2 for p, q in pairs)


def compare_glyphs(path, font):
    face, passed, failed, moved = freetype.Face(path), 0, 0, 0
    for g in range(font.count):
        contours, advance = outline_of(face, g)
        same = font.contours(g) == contours
        moved += not same
        if (same or is_near(font.contours(g), contours)) and font.metric(g)[0] == advance:
            passed += 1
        else:
            failed += 1
            print(f"FAILED: {path}: glyph {g} isn't FreeType's")
    print(f"{path}: {font.count} glyphs beside FreeType's, {moved} of them off by a unit")
    return passed, failed


def compare_frames(program, path):
    """Frames of a dialogue beside those that are stored for this font's file; prints their sums."""
    with open(path, "rb") as it:
        stored = FRAMES.get(hashlib.sha256(it.read()).hexdigest(), {})
    passed = failed = 0
    for at in (2500, 6000):
        words = ["frame", "--at", str(at), "--size", "640x360", f"{TOP}/examples/dialogue.ass", path]
        image = subprocess.run([program, *words], capture_output=True, check=True).stdout
        got = hashlib.sha256(image).hexdigest()
        print(f"{path}: dialogue.ass at {at}: {got}")
        passed += stored.get(at) == got
        failed += stored.get(at, got) != got
    return passed, failed


def main():
    parser = argparse.ArgumentParser()
    parser.add_argument("--program", default=f"{TOP}/release/vimalorua")
    parser.add_argument("fonts", nargs="*", metavar="FONT")
    given = parser.parse_args()
    passed = failed = 0
    for path in given.fonts or [it for it in FONTS if os.path.exists(it)]:
        with open(path, "rb") as it:
            font = model.Font(it.read())
        with tempfile.TemporaryDirectory(prefix="vimalorua-") as room:
            counts = [compare_pictures(given.program, path, font, room)]
        print(f"{path}: {sum(counts[0])} pictures beside the model's")
        counts += [compare_glyphs(path, font)] if freetype else []
        passed, failed = passed + sum(it[0] for it in counts), failed + sum(it[1] for it in counts)
        result = compare_frames(given.program, path)
        passed, failed = passed + result[0], failed + result[1]
    print(f"{passed} passed, {failed} failed")
    return 1 if failed else 0


if __name__ == "__main__":
    sys.exit(main())
