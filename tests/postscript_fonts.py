#!/usr/bin/env python3
"""Compares fonts with PostScript outlines with a model (tests/cff_model.py), with FreeType, and with a program's answers.

usage: python3 tests/postscript_fonts.py [--program FILE] [--answers FILE] [--every N] [--mutants N] [FONT..]

No gate runs it; quick.py takes the fonts of tests/hand_cff.py alone. Where no font is named it takes
NotoSansCJK-Regular.ttc of Debian's package fonts-noto-cjk. Of the first face of each it compares

- pictures of some letters, which must have the model's bytes;
- the contours of each Nth glyph (--every, 1), which must be those that FreeType has without scaling (FT_LOAD_NO_SCALE),
  but for lines of no length; where python3-freetype is at hand;
- with --answers, the program of crates/cff_vectors, what it answers of the same glyphs with what the model does;
- with --mutants too, the same of so many tables with some bytes changed: those of the fonts that have less than 1 MB, and
  those of tests/hand_cff.py.

The last line is 'N passed, M failed'.
"""

import argparse
import itertools
import os
import random
import subprocess
import sys
import tempfile

sys.dont_write_bytecode = True
TOP = os.path.dirname(os.path.dirname(os.path.realpath(__file__)))
sys.path.insert(0, f"{TOP}/tests")
import cff_model  # noqa: E402
import hand_cff  # noqa: E402
import truetype_fonts  # noqa: E402
import truetype_model as model  # noqa: E402

try:
    import freetype
except ImportError:
    freetype = None

FONTS = ["/usr/share/fonts/opentype/noto/NotoSansCJK-Regular.ttc"]
LETTERS = [*"Hamburg 8&@", *"吾輩は猫である。名前はまだ無い", *"한국어 자막", *"简体中文字幕"]
# Of the fonts of hand_cff.py, how letters look that are compared
PLAIN = truetype_fonts.LOOKS[1:2]
HAND = {"cff.otf": PLAIN + truetype_fonts.LOOKS[-1:], "cff_ranges.otf": PLAIN, "cff_list.otf": PLAIN}
# The most bytes of a table that mutants are made of
MOST_CHANGED = 1_000_000


def hand_letter(name):
    """The letter of a glyph of these fonts."""
    return chr(hand_cff.FIRST_CODE + [it for it, _, _ in hand_cff.glyphs()].index(name))


def postscript(score, given):
    """The part of quick.py on the fonts that are written by hand: pictures of each glyph, of which in the model all draw but
    two and the broken ones; the letters beside a broken one; and names."""
    letters = [hand_letter(name) for name, _, _ in hand_cff.glyphs()]
    wanted = len(letters) - len([*hand_cff.broken_glyphs()]) - 2
    for name, looks in HAND.items():
        path = f"{given.room}/{name}"
        font = font_of(path)
        score.add(*truetype_fonts.compare_pictures(given.program, path, font, given.room, letters, looks))
        drawn = sum(bool(font.strokes(k)) for k in range(len(letters)))
        score.check(drawn == wanted, f"{name}: {drawn} glyphs draw something in the model, and not {wanted}")
    many(score, given)
    matrices(score, given)
    beside_broken(score, given)
    names(score, given)


def many(score, given):
    """The first and the last subroutines of fonts that have many: their numbers are without one of three biases."""
    for own, shared in hand_cff.MANY:
        path = f"{given.room}/cff_{own}_{shared}.otf"
        letters, font = [chr(hand_cff.FIRST_CODE + k) for k in range(2, 6)], font_of(path)
        score.add(*truetype_fonts.compare_pictures(given.program, path, font, given.room, letters, PLAIN))
        score.check(all(font.strokes(font.glyph(ord(it))) for it in letters), f"{path}: a subroutine draws nothing in the model")


def matrices(score, given):
    """Letters of fonts whose DICTs have matrices, each of which looks otherwise than without one."""
    letters, plain = [hand_letter(it) for it in ("lines", "level lines", "curves", "curves, then a line")], font_of(f"{given.room}/cff.otf")
    for name in hand_cff.MATRICES:
        path = f"{given.room}/{name}"
        font = font_of(path)
        score.add(*truetype_fonts.compare_pictures(given.program, path, font, given.room, letters, PLAIN))
        same = [it for it in letters if font.strokes(font.glyph(ord(it))) == plain.strokes(plain.glyph(ord(it)))]
        score.check(not same, f"{path}: a matrix changes nothing in the model")


def beside_broken(score, given):
    """A broken letter takes the room of one that draws nothing, and the letters beside it stand as beside that one."""
    broken = [name for name, _ in hand_cff.broken_glyphs()]
    texts = [hand_letter("lines") + hand_letter(it) + hand_letter("curves") for it in ["moves alone", *broken]]
    script = truetype_fonts.put_script(given.room, texts)
    wanted, *shown = truetype_fonts.pictures(given.program, script, [f"{given.room}/cff.otf"], len(texts))
    for name, picture in zip(broken, shown):
        score.check(any(wanted) and picture == wanted, f"beside the glyph '{name}' letters stand otherwise than beside one of moves alone")


# Names, and whether they find cff.otf behind cff_ranges.otf, which is taken where a name finds nothing. The last two are a
# PostScript name and a full name of a font with TrueType outlines that stands behind them.
NAMES = [
    ("Post Hand", 1), ("PostHandPS", 1), ("posthandps", 1), ("@PostHandPS", 1), ("Post Hand Whole", 0), ("Post Ranges", 0),
    ("PostRangesPS", 0), ("Post-HandPS", 0), ("PlainMediumPS", 0), ("Plain Medium", 2),
]  # fmt: skip


def names(score, given):
    """Which fonts names find: by families and PostScript names those with PostScript outlines, by full names others alone."""
    files, text = [f"{given.room}/{it}" for it in ("cff_ranges.otf", "cff.otf", "other.ttf")], hand_letter("its subroutine") + "A"
    script = truetype_fonts.put_script(given.room, [text])
    first = [next(truetype_fonts.pictures(given.program, script, files[k:] + files[:k], 1)) for k in range(3)]
    score.check(len(set(first)) == 3, "letters of three fonts look the same")
    script = truetype_fonts.put_script(given.room, [f"{{\\fn{name}}}{text}" for name, _ in NAMES])
    for (name, place), picture in zip(NAMES, truetype_fonts.pictures(given.program, script, files, len(NAMES))):
        score.check(picture == first[place], f"\\fn{name} doesn't find {os.path.basename(files[place])}")


def font_of(path):
    with open(path, "rb") as it:
        return model.Font(it.read())


# ---- FreeType


def outline_of(face, g):
    """The contours that FreeType has of a glyph: points, each on it (1) or one that a cubic curve bends towards (2)."""
    try:
        face.load_glyph(g, freetype.FT_LOAD_NO_SCALE | freetype.FT_LOAD_NO_HINTING)
    except freetype.FT_Exception:
        return []
    it, begin, found = face.glyph.outline, 0, []
    points, tags = it.points, it.tags
    for end in it.contours:
        found.append([(points[k], tags[k] & 3) for k in range(begin, end + 1)])
        begin = end + 1
    return found


def whole(value):
    """A coordinate in whole units, as FreeType rounds it: to 1/1,024, and then down."""
    return ((abs(value) + 32) // 64 * (1 if value >= 0 else -1)) // 1024


def contours_of(strokes):
    """The model's contours, as FreeType has them."""
    found = []
    for kind, *points in strokes:
        if kind == "M":
            found.append([])
        marks = [1] if len(points) == 1 else [2, 2, 1]
        found[-1] += [((whole(x), whole(y)), mark) for (x, y), mark in zip(points, marks)]
    return found


def shortened(contours):
    """Contours without lines of no length, which close them too."""
    found = []
    for contour in contours:
        kept = [point for k, point in enumerate(contour) if k == 0 or point != contour[k - 1] or point[1] != 1]
        while len(kept) > 1 and kept[-1] == kept[0]:
            kept.pop()
        found += [kept] if len(kept) > 1 else []
    return found


def compare_glyphs(path, font, numbers):
    """How many glyphs are FreeType's, and how many aren't."""
    face, failed = freetype.Face(path), 0
    for g in numbers:
        own, other = contours_of(font.strokes(g)), outline_of(face, g)
        if shortened(own) != shortened(other):
            failed += 1
            print(f"FAILED: {path}: glyph {g} isn't FreeType's")
    print(f"{path}: {len(numbers)} glyphs beside FreeType's", flush=True)
    return len(numbers) - failed, failed


# ---- a program's answers


def told(path):
    """A path as crates/cff_vectors tells it."""
    return "".join((" | L" if kind == "M" else f" {kind}") + "".join(f" {x},{y}" for x, y in points) for kind, *points in path or [])


def answers(held, numbers):
    """What the model answers of these glyphs of a table."""
    try:
        cff = cff_model.read(held, 0, len(held))
    except cff_model.Refusal as it:
        return [f"CffRefusal {{ place: {it.byte}, cause: {it.cause} }}"] * len(numbers)
    return [told(cff_model.path(cff, g)) for g in numbers]


def compare_answers(program, tables, of):
    """How many of a program's answers of the glyphs of some tables are the model's, and how many aren't."""
    rows, wanted = [], []
    for held, numbers in tables:
        asked = [f"glyph 0 {len(held)} {g}" for g in numbers]
        rows += ["file", *(f"bytes {held[k : k + 60].hex()}" for k in range(0, len(held), 60)), *asked]
        wanted += [f"{row}:{it}" for row, it in zip(asked, answers(held, numbers))]
    text = "".join(f"{row}\n" for row in rows)
    got = subprocess.run([program], input=text, capture_output=True, check=True, encoding="utf-8").stdout.splitlines()
    wrong = [a for a, b in itertools.zip_longest(wanted, got) if a != b]
    for it in wrong[:5]:
        print(f"FAILED: {of}: {str(it)[:200]} isn't the program's answer")
    refused = sum(":CffRefusal" in it for it in wanted)
    print(f"{of}: {len(wanted)} answers, {refused} of them refusals, {sum(it.endswith(':') for it in wanted)} of no contours", flush=True)
    return len(wanted) - len(wrong), len(wrong)


def compare_mutants(program, tables, count):
    """The same of tables with 1, 3 or 30 bytes changed, of which each second has them among its first 400 bytes."""
    chance, passed, failed, asked = random.Random(1), 0, 0, []
    for k in range(count):
        held, glyphs = tables[k % len(tables)]
        held = bytearray(held)
        for _ in range(chance.choice([1, 3, 30])):
            held[chance.randrange(len(held) if k // len(tables) % 2 else min(400, len(held)))] = chance.randrange(256)
        asked.append((bytes(held), sorted(chance.sample(range(glyphs), min(25, glyphs)))))
        if len(asked) == 100 or k == count - 1:
            result = compare_answers(program, asked, f"mutants up to {k + 1}")
            passed, failed, asked = passed + result[0], failed + result[1], []
    return passed, failed


def table_of(font):
    place, size = font.tables["CFF "]
    return font.held[place : place + size]


def compare_font(given, path):
    """What is compared of a font's first face."""
    font = font_of(path)
    numbers = range(0, font.count, given.every)
    # The model makes each face bold or slanted that is asked for so, which isn't done with one that is
    looks = [it for it in truetype_fonts.LOOKS if not (it[2].get("bold") and font.weight > 549 or it[2].get("italic") and font.slanted)]
    with tempfile.TemporaryDirectory(prefix="vimalorua-") as room:
        letters = [it for it in LETTERS if font.glyph(ord(it))]
        yield truetype_fonts.compare_pictures(given.program, path, font, room, letters, looks)
    print(f"{path}: {len(letters)} letters beside the model's, {len(looks)} pictures of each", flush=True)
    if freetype:
        yield compare_glyphs(path, font, numbers)
    if given.answers:
        yield compare_answers(given.answers, [(table_of(font), numbers)], path)


def words_given():
    parser = argparse.ArgumentParser()
    parser.add_argument("--program", default=f"{TOP}/release/vimalorua")
    parser.add_argument("--answers")
    parser.add_argument("--every", type=int, default=1)
    parser.add_argument("--mutants", type=int, default=0)
    parser.add_argument("fonts", nargs="*", metavar="FONT")
    given = parser.parse_args()
    given.fonts = given.fonts or [it for it in FONTS if os.path.exists(it)]
    return given


def main():
    given = words_given()
    counts = [it for path in given.fonts for it in compare_font(given, path)]
    if given.answers and given.mutants:
        fonts = [*map(font_of, given.fonts), *(model.Font(held) for name, held in hand_cff.fonts() if name in HAND or name in hand_cff.MATRICES)]
        tables = [(table_of(it), it.count) for it in fonts if it.tables["CFF "][1] < MOST_CHANGED]
        counts.append(compare_mutants(given.answers, tables, given.mutants))
    passed, failed = (sum(it) for it in zip(*counts))
    print(f"{passed} passed, {failed} failed")
    return 1 if failed else 0


if __name__ == "__main__":
    sys.exit(main())
