"""Writes the rows of crates/plan_vectors on faces of families: a collection, what is asked of it, and what the rules give.

usage: python3 tests/face_rows.py

It writes what stands behind the last line of four bars in `stdin` there, and what stands behind the line `faces` in
`stdout`: the outline of each letter, and the pixel at which it stands, worked here from the faces' numbers.
"""

import sys

import hand_font
from hand_font import TRIANGLE, glyph, longs, words

FOLDER = f"{hand_font.TOP}/crates/plan_vectors"
SIZE = 16
MISSING = 576

HEAD = f"""[Script Info]
PlayResX: 48
PlayResY: 32
WrapStyle: 2
ScaledBorderAndShadow: yes
[V4+ Styles]
Style: Default,Hand,{SIZE},&H00FFFFFF,&H000000FF,&H00000000,&H00000000,0,0,0,0,100,100,0,0,1,0,0,7,0,0,0,1
[Events]
"""


class Face:
    """A face: its family and its full name, its weight and slant, its heights, and the advance of each letter."""

    def __init__(self, family, full, weight, slanted, heights, advances):
        self.family, self.full, self.weight, self.slanted = family, full, weight, slanted
        self.ascent, self.descent = heights
        self.advances = {" ": 256, **advances}

    def codes(self):
        """The codes of the list of its glyphs, behind which that of missing characters stands."""
        return [*sorted(map(ord, self.advances)), 65535]

    def file(self):
        letters = sorted(self.advances)
        held = [("missing", MISSING, 0, glyph(1, 0, TRIANGLE))]
        held += [(c, self.advances[c], 0, b"" if c == " " else glyph(1, 0, TRIANGLE)) for c in letters]
        segments = [(ord(c), ord(c), k + 1 - ord(c), 0) for k, c in enumerate(letters)]
        maps = hand_font.cmap_of((3, 1, hand_font.format_4([*segments, (65535, 65535, 1, 0)])))
        heights = words(self.ascent, self.descent)
        return hand_font.maker().file_of(
            {
                **hand_font.tables_of(held, maps, small=True),
                "hhea": longs(0x10000) + words(self.ascent, -self.descent) + bytes(26) + words(len(held)),
                "hmtx": words(*(it for _, advance, _, _ in held for it in (advance, 0))),
                "OS/2": words(0, 500, self.weight) + bytes(56) + words(int(self.slanted)) + bytes(10) + heights,
                "name": self.names(),
            }
        )

    def names(self):
        """The table of names; a PostScript name answers to nothing."""
        texts = [(1, self.family), (4, self.full), (6, self.full.replace(" ", "") + "PS")]
        records, held = b"", b""
        for name, text in texts:
            text = text.encode("utf-16-be")
            records += words(3, 1, 0x409, name, len(text), len(held))
            held += text
        return words(0, len(texts), 6 + len(records)) + records + held


HAND = (768, 256)
FACES = [
    Face("Hand", "Hand", 400, False, HAND, {"A": 512}),
    Face("Hand", "Hand Bold", 700, False, HAND, {"A": 640}),
    Face("Hand", "Hand Italic", 400, True, HAND, {"A": 448}),
    Face("Hand", "Hand Bold Italic", 700, True, HAND, {"A": 576}),
    Face("Plain", "Plain Medium", 549, False, (1792, 256), {"A": 1280, "B": 1024}),
    Face("Half", "Half Medium", 550, False, HAND, {"A": 512}),
    Face("Half", "Half Bold", 700, False, HAND, {"A": 512}),
]


class Letter:
    """A letter as it is asked for, in a state: the tags before it, and what they make the name, bold and italic."""

    def __init__(self, tags, letter, name="Hand", bold=False, italic=False):
        self.tags, self.letter, self.name, self.bold, self.italic = tags, letter, name, bold, italic

    def distance(self, face):
        """How far a face is from what is asked for: of the family by weight and slant, by its full name not at all."""
        name = self.name.lower().removeprefix("@")
        if face.family.lower() == name:
            return abs(face.weight - (700 if self.bold else 400)) + abs(110 * face.slanted - 100 * self.italic)
        return 0 if face.full.lower() == name else None

    def face(self):
        """The place of the first of the nearest faces, or 0."""
        far = [(self.distance(it), k) for k, it in enumerate(FACES)]
        return min((it for it in far if it[0] is not None), default=(0, 0))[1]

    def glyph(self):
        """The face of the glyph, the glyph's place in the list, and its advance."""
        own = self.face()
        for k in [own, *range(len(FACES))]:
            if self.letter in FACES[k].advances:
                return k, FACES[k].codes().index(ord(self.letter)), FACES[k].advances[self.letter]
        return own, len(FACES[own].codes()), MISSING

    def outline(self):
        """The glyph's key, and how far it advances the pen, in 1/64 pixel."""
        number, place, advance = self.glyph()
        face = FACES[number]
        scale = SIZE * 64 * 65536 // (face.ascent + face.descent)
        italic, bold = self.italic and not face.slanted, self.bold and face.weight < 550
        return f"glyph {number} {place} {scale} {scale} {int(italic)} 0 {int(bold)} 0 0", advance * scale // 65536

    def ascent(self):
        face = FACES[self.face()]
        return face.ascent * (SIZE * 64 * 65536 // (face.ascent + face.descent)) // 65536


ROWS = [
    # the four faces
    [
        Letter("", "A"),
        Letter(r"\b1", "A", bold=True),
        Letter(r"\i1", "A", bold=True, italic=True),
        Letter(r"\b0", "A", italic=True),
    ],
    # a letter of another font, in a line as high as that of the states
    [
        Letter("", "B"),
        Letter(r"\b1", "B", bold=True),
        Letter(r"\i1", "B", bold=True, italic=True),
        Letter(r"\b0", "B", italic=True),
    ],
    # the same in its own font, and a letter of none
    [Letter(r"\fnPlain", "B", "Plain"), Letter(r"\fnHand\i1", "C", italic=True), Letter(r"\b1", "A", bold=True, italic=True)],
    # an `@`, full names, a PostScript name
    [
        Letter(r"\fn@hand", "A"),
        Letter(r"\fnHAND BOLD", "A", "Hand Bold"),
        Letter(r"\i1", "A", "Hand Bold", italic=True),
        Letter(r"\fnHandItalicPS", "A", "HandItalicPS", italic=True),
    ],
    # weights, by a full name and by families
    [
        Letter(r"\fnHalf Medium\b1", "A", "Half Medium", bold=True),
        Letter(r"\fnHalf", "A", "Half", bold=True),
        Letter(r"\fnPlain\b600", "A", "Plain", bold=True),
        Letter(r"\b500", "A", "Plain"),
        Letter(r"\fnHand", "A"),
    ],
]


def asked(row):
    text = "".join((f"{{{it.tags}}}" if it.tags else "") + it.letter for it in row)
    return f"0,0:00:01.00,0:00:04.00,Default,,0,0,0,,{text}"


def answered(row):
    """The draws of a row: one for each letter, which stands behind those before it on the line's baseline."""
    x, y = 0, max(it.ascent() for it in row)
    for it in row:
        outline, advance = it.outline()
        assert x % 64 == 0 and y % 64 == 0, "letters stand at whole pixels"
        yield f" draw {x // 64} {y // 64} 255 255 255 0 255 255 255 0 0"
        yield f"  part 0 0 0 0 0 0 0 0 {outline}"
        x += advance


def question():
    held = hand_font.collection(*(it.file() for it in FACES)).hex()
    return f"{held}\n==\n{HEAD}==\n" + "\n\n".join(f"2000\n{asked(row)}" for row in ROWS) + "\n"


def answer():
    lines = [line for row in ROWS for line in ("at 2000", asked(row), *answered(row))]
    return "\n".join(lines) + "\n"


def put_behind(path, mark, text, times):
    """Writes a text behind the mark that stands so often before it in a file."""
    with open(path, encoding="utf-8") as it:
        text = mark.join([*it.read().split(mark)[:times], text])
    with open(path, "w", encoding="utf-8") as it:
        it.write(text)


def main():
    put_behind(f"{FOLDER}/stdin", "====\n", question(), 3)
    put_behind(f"{FOLDER}/stdout", "faces\n", answer(), 1)
    return 0


if __name__ == "__main__":
    sys.exit(main())
