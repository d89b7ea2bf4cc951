"""Fonts with PostScript outlines whose charstrings are written operator by operator, one for each thing that a glyph can be,
and fonts with one fault each.

usage: python3 tests/hand_cff.py FOLDER

That writes the fonts there. `table` makes a table of PostScript outlines, which tests/cff_rows.py asks for too.
"""

import sys

import hand_font
from hand_font import words

OPERATORS = {
    "hstem": 1, "vstem": 3, "vmoveto": 4, "rlineto": 5, "hlineto": 6, "vlineto": 7, "rrcurveto": 8, "callsubr": 10, "ret": 11,
    "endchar": 14, "hstemhm": 18, "hintmask": 19, "cntrmask": 20, "rmoveto": 21, "hmoveto": 22, "vstemhm": 23, "rcurveline": 24,
    "rlinecurve": 25, "vvcurveto": 26, "hhcurveto": 27, "callgsubr": 29, "vhcurveto": 30, "hvcurveto": 31,
}  # fmt: skip
ESCAPED = {"dotsection": 0, "add": 10, "random": 23, "hflex": 34, "flex": 35, "hflex1": 36, "flex1": 37}


def number(value):
    """A number of a charstring: whole, or in 1/65,536."""
    if isinstance(value, float):
        return b"\xff" + int(value * 65536).to_bytes(4, "big", signed=True)
    if -107 <= value <= 107:
        return bytes([value + 139])
    if 108 <= value <= 1131:
        return bytes([247 + (value - 108) // 256, (value - 108) % 256])
    if -1131 <= value <= -108:
        return bytes([251 + (-value - 108) // 256, (-value - 108) % 256])
    return b"\x1c" + value.to_bytes(2, "big", signed=True)


def charstring(text):
    """The bytes of numbers, operators, and bytes in hexadecimal behind #."""
    out = b""
    for word in text.split():
        if word in OPERATORS:
            out += bytes([OPERATORS[word]])
        elif word in ESCAPED:
            out += bytes([12, ESCAPED[word]])
        elif word[0] == "#":
            out += bytes.fromhex(word[1:])
        else:
            out += number(float(word) if "." in word else int(word))
    return out


def index(items, size=1):
    """An INDEX with offsets of so many bytes."""
    if not items:
        return b"\0\0"
    ends = [1]
    for it in items:
        ends.append(ends[-1] + len(it))
    return len(items).to_bytes(2, "big") + bytes([size]) + b"".join(it.to_bytes(size, "big") for it in ends) + b"".join(items)


def entry(operator, *values):
    """An operator of a DICT behind numbers of five bytes each, so that its length doesn't hang on them."""
    return b"".join(b"\x1d" + it.to_bytes(4, "big", signed=True) for it in values) + operator


GLYPHS, PRIVATE, SUBROUTINES, DICTS, SELECT = b"\x11", b"\x12", b"\x13", b"\x0c\x24", b"\x0c\x25"
SIGNS = {**{str(digit): digit for digit in range(10)}, ".": 10, "E": 11, "e": 12, "-": 14}


def real(text):
    """A real number of a DICT; e is E before an exponent below 0."""
    halves = [SIGNS[it] for it in text] + [15]
    halves += [15] * (len(halves) % 2)
    return bytes([30]) + bytes(high << 4 | low for high, low in zip(halves[::2], halves[1::2]))


def matrix(text):
    """FontMatrix behind numbers, whole ones or real ones."""
    return b"".join(real(it) if set(it) & set(".Ee") else number(int(it)) for it in text.split()) + b"\x0c\x07"


def private(subroutines, size):
    """A Private DICT, and its subroutines behind it; nothing without any."""
    subs = index([charstring(it) for it in subroutines], size)
    return (entry(SUBROUTINES, 6), subs) if subroutines else (b"", b"")


def table(glyphs, shared=(), own=(), top=b"", dicts=None, select=None, size=1, fronts=None):
    """A table of these charstrings, and of subroutines for all and for its own; with `dicts`, lists of subroutines, it has
    a font DICT for each, and `select` chooses among them. `top` stands before what else its Top DICT has, and each of
    `fronts` before what else a font DICT has."""
    head = bytes([1, 0, 4, 4]) + index([b"A"])
    tail = index([b"text"]) + index([charstring(it) for it in shared], size)
    body = index([charstring(it) for it in glyphs], size)
    blocks = [private(it, size) for it in ([own] if dicts is None else dicts)]

    def file_with(at):
        """The table where its charstrings stand at a place."""
        place, fonts = at + len(body), []
        for (held, subs), front in zip(blocks, fronts or [b""] * len(blocks)):
            fonts.append(front + entry(PRIVATE, len(held), place))
            place += len(held) + len(subs)
        if dicts is None:
            found, behind = fonts[0], b""
        else:
            behind = index(fonts)
            found = entry(DICTS, place) + entry(SELECT, place + len(behind))
            behind += select
        front = head + index([top + entry(GLYPHS, at) + found]) + tail
        return front, front + body + b"".join(held + subs for held, subs in blocks) + behind

    return file_with(len(file_with(0)[0]))[1]


# Glyphs, 1,000 units high. What is drawn in them first is two steps from the corner at 0 where not else.
SQUARE = "300 400 -300 hlineto"


def drawn_glyphs():
    """Glyphs that are drawn: their names, their advances, and their charstrings."""
    yield "missing", 600, "50 hmoveto 400 700 -400 hlineto endchar"
    yield "blank", 300, "300 endchar"
    yield "lines", 500, "100 50 rmoveto 300 100 -150 400 rlineto -100 -200 rlineto endchar"
    yield "level lines", 500, "50 hmoveto 400 600 -200 -300 -200 hlineto endchar"
    yield "upright lines", 500, "600 50 100 rmoveto 500 300 -500 vlineto endchar"
    yield "up", 500, "100 vmoveto 300 100 -100 200 rlineto endchar"
    yield "curves", 700, "100 hmoveto 50 200 100 100 150 0 100 -50 50 -100 -100 -250 rrcurveto endchar"
    yield "curves, then a line", 700, "100 hmoveto 0 300 200 200 200 0 -300 -300 rcurveline endchar"
    yield "lines, then a curve", 700, "100 hmoveto 500 0 0 300 0 200 -400 0 -100 -200 rlinecurve endchar"
    yield "only a line of curves", 700, "100 hmoveto 300 400 rcurveline -300 hlineto endchar"
    yield "upright curves", 700, "300 hmoveto 200 100 100 200 150 -300 150 -250 vvcurveto endchar"
    yield "upright curves aside", 700, "300 hmoveto 90 200 100 100 200 150 -300 150 -250 vvcurveto endchar"
    yield "level curves", 700, "100 hmoveto 200 100 300 150 -150 -100 200 -200 hhcurveto endchar"
    yield "a level curve aside", 700, "100 hmoveto 80 200 100 300 150 hhcurveto endchar"
    yield "turning curves up", 700, "100 hmoveto 300 100 200 250 -300 -50 -100 -200 vhcurveto endchar"
    yield "a fifth number up", 700, "100 hmoveto 300 100 200 250 -120 vhcurveto endchar"
    yield "turning curves level", 700, "100 hmoveto 400 50 200 150 -100 hvcurveto endchar"
    yield "three turning curves", 700, "100 hmoveto 300 50 100 200 150 -100 50 -200 -100 -50 -100 -100 40 hvcurveto endchar"
    yield "level flex", 700, "50 300 rmoveto 150 100 60 50 50 100 150 hflex -250 -300 rlineto endchar"
    yield "flex", 700, "50 300 rmoveto 100 20 100 60 100 10 100 -10 100 -60 100 -30 50 flex -300 -250 rlineto endchar"
    yield "closed flex", 700, "50 300 rmoveto 100 30 100 60 100 100 100 -50 100 hflex1 -250 -300 rlineto endchar"
    yield "free flex along", 700, "50 300 rmoveto 100 30 100 60 100 10 100 -20 100 -50 100 flex1 -300 -300 rlineto endchar"
    yield "free flex across", 700, "300 50 rmoveto 30 100 60 100 10 100 -20 100 -50 100 100 flex1 -300 -300 rlineto endchar"
    yield "free flex even", 700, "50 50 rmoveto 50 50 60 60 40 40 60 60 40 40 -50 flex1 300 -200 rlineto endchar"
    yield "hints", 500, f"1 2 hstem 3 4 vstem 60 hmoveto {SQUARE} endchar"
    yield "an old hint", 500, "60 hmoveto 300 hlineto dotsection 400 vlineto dotsection -300 hlineto endchar"
    yield "a mask", 500, f"1 2 3 4 hstemhm 5 6 hintmask #e0 60 hmoveto {SQUARE} endchar"
    yield "a mask of two bytes", 500, f"{' '.join('5' * 18)} hstemhm hintmask #ff80 60 hmoveto {SQUARE} endchar"
    yield "a mask that reads as numbers", 500, f"{' '.join('5' * 18)} hstemhm cntrmask #8b0e 60 hmoveto {SQUARE} endchar"
    yield "masks and hints", 500, f"500 1 2 vstemhm cntrmask #80 60 hmoveto 300 hlineto hintmask #0e 400 vlineto 1 2 hintmask #0e -300 hlineto endchar"
    yield "the most hints", 500, f"{' '.join([' '.join('1' * 48) + ' hstemhm'] * 4)} hintmask {'#' + '0e' * 12} 60 hmoveto {SQUARE} endchar"
    yield "two contours", 600, "500 600 -500 hlineto -480 60 rmoveto 300 400 -300 vlineto 90 -350 rmoveto 200 100 -100 hlineto endchar"
    yield "turned inside", 600, "500 600 -500 hlineto 100 -500 rmoveto 400 300 -400 vlineto endchar"
    yield "moves alone", 500, "100 hmoveto 100 vmoveto 5 5 rmoveto endchar"
    yield "more operands than a move has", 500, f"9 9 9 60 70 rmoveto {SQUARE} endchar"
    yield "no end", 500, f"60 hmoveto {SQUARE}"
    yield "bytes behind the end", 500, f"60 hmoveto {SQUARE} endchar #ffffff02"
    yield "its subroutine", 500, "60 hmoveto -107 callsubr endchar"
    yield "a subroutine that ends all", 500, "60 hmoveto -106 callsubr 5 5 rlineto"
    yield "a subroutine without a return", 500, "60 hmoveto -105 callsubr -100 hlineto endchar"
    yield "a subroutine for all", 500, "60 hmoveto -107 callgsubr endchar"
    yield "ten calls deep", 500, "60 hmoveto -98 callgsubr endchar"
    yield "fractions", 500, "60.5 20.25 rmoveto 300.75 0.5 -0.5 399.5 rlineto -299.99 hlineto endchar"
    yield "long numbers", 1500, "108 -108 rmoveto 1131 -1131 rlineto -1200 2000 rlineto endchar"
    yield "the most operands", 700, f"100 hmoveto {' '.join(['20 30 -10 25'] * 12)} hlineto 300 hlineto endchar"
    yield "far", 500, f"{' '.join(['32767 hmoveto'] * 2)} 1 hmoveto -32767 hmoveto -32700 hmoveto {SQUARE} endchar"


def broken_glyphs():
    """Glyphs that draw nothing, whatever they drew before."""
    square = f"60 hmoveto {SQUARE}"
    yield "joined", f"{square} 0 0 65 66 endchar"
    yield "two operands at the end", f"{square} 5 5 endchar"
    yield "half a step", f"{square} 1 2 3 rlineto endchar"
    yield "part of a curve", f"{square} 1 2 3 4 5 rrcurveto endchar"
    yield "a level flex of six", f"{square} 1 2 3 4 5 6 hflex endchar"
    yield "a flex of twelve", f"{square} 1 2 3 4 5 6 7 8 9 10 11 12 flex endchar"
    yield "no move", f"{square} hmoveto endchar"
    yield "arithmetic", f"{square} 1 2 add 5 rlineto endchar"
    yield "chance", f"{square} random hlineto endchar"
    yield "no operator", f"{square} #02 endchar"
    yield "a number that ends early", f"{square} #1c01"
    yield "a mask that ends early", f"{' '.join('5' * 18)} hstemhm {square} hintmask #ff"
    yield "a return", f"{square} ret"
    yield "no such subroutine", f"{square} 50 callsubr endchar"
    yield "half a subroutine", f"{square} 0.5 callsubr endchar"
    yield "eleven calls deep", f"{square} -97 callgsubr endchar"
    yield "too many operands", f"{square} {' '.join('1' * 49)} hlineto endchar"
    yield "too many hints", f"{' '.join([' '.join('1' * 48) + ' hstem'] * 4)} 1 1 vstem {square} endchar"
    yield "too far", f"{square} {' '.join(['32767 hmoveto'] * 3)} 1 hlineto endchar"
    yield "without an end", f"{square} -94 callgsubr endchar"


SHARED = [f"{SQUARE} ret", *(f"{k - 108} callgsubr ret" for k in range(1, 13)), "-94 callgsubr"]
OWN = ["250 350 -250 hlineto ret", "200 500 -200 hlineto endchar", "350 200 hlineto"]
OTHER_OWN = ["150 650 -150 hlineto ret", "100 600 -100 hlineto endchar", "50 600 hlineto"]


def glyphs():
    """All glyphs: name, advance, and charstring."""
    return [*drawn_glyphs(), *((name, 500, text) for name, text in broken_glyphs()), ("last", 400, f"20 hmoveto {SQUARE} endchar")]


FIRST_CODE = 256


def names_of(family, full, post_script):
    texts = [(3, 1, kind, text.encode("utf-16-be")) for kind, text in ((1, family), (4, full), (6, post_script))]
    records, store = b"", b""
    for platform, encoding, kind, text in texts:
        records += words(platform, encoding, 0x409, kind, len(text), len(store))
        store += text
    return words(0, len(texts), 6 + len(records)) + records + store


def font_of(cff, held, names=("Post Hand", "Post Hand Whole", "PostHandPS"), tag="CFF "):
    """A font with this table of PostScript outlines, whose glyphs have the codes from FIRST_CODE on, and the space the second."""
    maps = [(32, 32, 1 - 32, 0), (FIRST_CODE, FIRST_CODE + len(held) - 1, -FIRST_CODE, 0), (65535, 65535, 1, 0)]
    tables = hand_font.tables_of([(name, advance, 0, b"") for name, advance, _ in held], hand_font.cmap_of((3, 1, hand_font.format_4(maps))))
    del tables["loca"], tables["glyf"]
    return b"OTTO" + hand_font.maker().file_of({**tables, tag: cff, "name": names_of(*names)})[4:]


def whole_font():
    held = glyphs()
    return font_of(table([text for _, _, text in held], SHARED, OWN, size=2), held)


# How many subroutines fonts have on both sides of where their numbers begin elsewhere
MANY = [(1239, 1240), (1240, 33899), (33899, 33900), (33900, 1239)]


def font_of_many(own, shared):
    """A font with so many subroutines of its own and for all, of which the first ones and the last ones draw."""
    first = [107 if it < 1240 else 1131 if it < 33900 else 32768 for it in (own, shared)]
    calls = [(f"{k} {name}") for it, count, name in zip(first, (own, shared), ("callsubr", "callgsubr")) for k in (-it, count - 1 - it)]
    held = [("missing", 500, "endchar"), ("blank", 500, "endchar"), *((it, 500, f"60 hmoveto {it} endchar") for it in calls)]
    subs = [["300 400 -300 hlineto ret", *["ret"] * (it - 2), "200 500 -200 hlineto ret"] for it in (own, shared)]
    return font_of(table([text for _, _, text in held], subs[1], subs[0], size=3), held)


def ranges(count):
    """A choice by ranges: of the first DICT, but for a stretch in the middle."""
    return bytes([3]) + words(3, 0) + b"\0" + words(count // 2) + b"\1" + words(count - 5) + b"\0" + words(count)


# What makes a font one of font DICTs
BY_NUMBERS = entry(b"\x0c\x1e", 391, 391, 0)


def font_of_dicts(select, names):
    held = glyphs()
    return font_of(table([text for _, _, text in held], SHARED, top=BY_NUMBERS, dicts=[OWN, OTHER_OWN], select=select, size=3), held, names)


# Fonts with matrices: that of the Top DICT, and those of two font DICTs
MATRICES = {
    "cff_matrix.otf": ("0.0012 0.0001 0.0003 0.001 0.05 -0.02", []),
    "cff_turned.otf": ("0 5e4 -1e3 0 0.3 0", []),
    "cff_own_matrices.otf": ("", [".0008 0 0 .0008 0 0", "0.0005 0 0.0002 0.0005 0.03 0"]),
    "cff_matrices.otf": ("48828125e11 0 0.0000000000000000001E15 48828125e11 0 0", ["1 0 0 1 50 0", "1.5 0 0 -1 0 500.5"]),
}


def font_of_matrices(top, own):
    """A font with a matrix in its Top DICT, or without one, and such ones in its font DICTs, if it has any."""
    held, front = glyphs(), matrix(top) if top else b""
    texts, turns = [text for _, _, text in held], bytes([0]) + bytes(k % 2 for k in range(len(held)))
    if not own:
        return font_of(table(texts, SHARED, OWN, top=front, size=2), held)
    return font_of(table(texts, SHARED, top=BY_NUMBERS + front, dicts=[OWN, OWN], select=turns, fronts=[matrix(it) for it in own], size=3), held)


def small(**given):
    return table(["50 hmoveto 400 700 -400 hlineto endchar", "endchar", f"60 hmoveto {SQUARE} endchar"], **given)


def faults():
    """Fonts with one fault each: the name of its file and its bytes."""
    held, good = [("a", 500, ""), ("b", 500, ""), ("c", 500, "")], small()
    dicts = table(["endchar"] * 3, dicts=[[], []], select=ranges(3))
    yield "cff_2.otf", font_of(good, held, tag="CFF2")
    yield "cff_short.otf", font_of(good[:3], held)
    yield "cff_long_header.otf", font_of(good[:2] + b"\xff" + good[3:], held)
    yield "cff_version.otf", font_of(b"\2" + good[1:], held)
    yield "cff_no_dict.otf", font_of(good[:4] + index([b"A"]) + index([]) * 3, held)
    yield "cff_no_charstrings.otf", font_of(good[:4] + index([b"A"]) + index([entry(PRIVATE, 0, 9)]) + index([]) * 2, held)
    yield "cff_type_1.otf", font_of(small(top=b"\x8c\x0c\x06"), held)
    yield "cff_names_end.otf", font_of(good[:8], held)
    yield "cff_charstrings_end.otf", font_of(good[:-1], held)
    yield "cff_no_choice.otf", font_of(dicts.replace(SELECT, b"\x0c\x07"), held)
    yield "cff_dicts_end.otf", font_of(dicts[: -len(ranges(3)) - 1], held)


def fonts():
    """All fonts of this file: those without a fault first."""
    count = len(glyphs())
    yield "cff.otf", whole_font()
    yield "cff_ranges.otf", font_of_dicts(ranges(count), ("Post Ranges", "Post Ranges Whole", "PostRangesPS"))
    yield "cff_list.otf", font_of_dicts(bytes([0]) + bytes(k % 2 for k in range(count)), ("Post List", "Post List Whole", "PostListPS"))
    yield from ((f"cff_{own}_{shared}.otf", font_of_many(own, shared)) for own, shared in MANY)
    yield from ((name, font_of_matrices(*it)) for name, it in MATRICES.items())
    yield from faults()


def main():
    if len(sys.argv) != 2:
        print(__doc__, file=sys.stderr)
        return 2
    for name, held in fonts():
        with open(f"{sys.argv[1]}/{name}", "wb") as it:
            it.write(held)
    return 0


if __name__ == "__main__":
    sys.exit(main())
