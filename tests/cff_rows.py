#!/usr/bin/env python3
"""Writes the rows of crates/cff_vectors: tables of PostScript outlines by hand and what is asked of them, and what a model answers.

usage: python3 tests/cff_rows.py
"""
import os
import sys

sys.path.insert(0, os.path.dirname(os.path.abspath(__file__)))
import cff_model as model
from hand_cff import index, matrix, real, table

FOLDER = os.path.dirname(os.path.dirname(os.path.abspath(__file__))) + "/crates/cff_vectors"


GLYPHS = [
    "endchar", "500 endchar", "10 20 rmoveto 30 40 rlineto 5 -5 rlineto endchar", "7 hmoveto 1 2 3 4 hlineto endchar",
    "600 7 vmoveto 1 2 3 vlineto endchar", "0 0 rmoveto 1 2 3 4 5 6 7 8 9 10 11 12 rrcurveto endchar",
    "1 2 3 4 5 6 rrcurveto", "0 0 rmoveto 1 2 3 4 5 6 7 8 rcurveline endchar", "0 0 rmoveto 7 8 1 2 3 4 5 6 rlinecurve endchar",
    "0 0 rmoveto 1 2 3 4 5 6 7 8 vvcurveto endchar", "0 0 rmoveto 9 1 2 3 4 5 6 7 8 vvcurveto endchar",
    "0 0 rmoveto 1 2 3 4 hhcurveto endchar", "0 0 rmoveto 9 1 2 3 4 5 6 7 8 hhcurveto endchar",
    "0 0 rmoveto 1 2 3 4 vhcurveto endchar", "0 0 rmoveto 1 2 3 4 5 vhcurveto endchar",
    "0 0 rmoveto 1 2 3 4 5 6 7 8 hvcurveto endchar", "0 0 rmoveto 1 2 3 4 5 6 7 8 9 hvcurveto endchar",
    "0 0 rmoveto 1 2 3 4 5 6 7 hflex endchar", "0 0 rmoveto 1 2 3 4 5 6 7 8 9 10 11 12 50 flex endchar",
    "0 0 rmoveto 1 2 3 4 5 6 7 8 9 hflex1 endchar", "0 0 rmoveto 10 2 10 4 10 6 10 8 10 9 11 flex1 endchar",
    "0 0 rmoveto 1 20 1 20 1 20 1 20 1 20 11 flex1 endchar", "0 0 rmoveto 10 10 10 10 10 10 10 10 10 10 11 flex1 endchar",
    "1 2 hstem 3 4 vstem 5 5 rmoveto 1 1 rlineto endchar", "1 2 3 4 hstemhm 5 6 hintmask #e0 1 1 rmoveto 2 2 rlineto endchar",
    "1 2 3 4 5 6 7 8 9 10 11 12 13 14 15 16 17 18 hstemhm hintmask #ff80 1 1 rmoveto 2 2 rlineto endchar",
    "500 1 2 vstemhm cntrmask #80 3 3 rmoveto 4 4 rlineto endchar", "1 1 rmoveto -107 callsubr endchar",
    "1 1 rmoveto -106 callsubr", "1 1 rmoveto -107 callgsubr endchar", "1 1 rmoveto -98 callgsubr endchar", "1 1 rmoveto -97 callgsubr endchar",
    "1 1 rmoveto 3 hlineto dotsection 4 vlineto 1 2 dotsection endchar",
    " ".join(["1 " * 48 + "hstemhm"] * 4) + " hintmask #" + "0e" * 12 + " 1 1 rmoveto 2 hlineto endchar",
    "0.5 1.25 rmoveto 0.75 -0.5 rlineto endchar", "108 -108 rmoveto 1131 -1131 rlineto 2000 -2000 rlineto endchar",
    # broken
    "1 2 3 4 endchar", "1 rmoveto", "vmoveto", "1 2 3 rlineto", "1 2 3 4 5 rrcurveto", "1 2 vvcurveto", "1 2 3 flex1",
    "0.5 callsubr", "50 callsubr", "callsubr", "ret", "1 2 add endchar", "random endchar", "#02 endchar", "1 2 hintmask", "#1c01",
    "32000 hmoveto 32000 hmoveto 32000 hmoveto 1 1 rlineto endchar", " ".join("1" for _ in range(49)) + " endchar",
    " ".join("1" for _ in range(48)) + " hlineto endchar", " ".join(" ".join("1" for _ in range(48)) + " hstem" for _ in range(5)) + " endchar",
    " ".join(["1 " * 48 + "hstem"] * 4) + " 1 1 vstem 2 hlineto endchar", "5 5 endchar", "1 2 3 4 5 6 7 8 9 10 11 12 flex endchar",
]
SHARED = ["2 2 rlineto ret"] + ["%d callgsubr ret" % (k - 1 - 107) for k in range(1, 13)]
OWN = ["3 3 rlineto ret", "4 4 rlineto endchar", "5 5 rlineto"]


# Subroutines that do nothing, in 17, 305 and 4,913 numbers and operators
IDLE = ["hlineto " * 16 + "ret", "-107 callgsubr " * 16 + "ret", "-106 callgsubr " * 16 + "ret"]


def long_glyph(steps):
    """A line, in so many numbers and operators."""
    left = steps - 13 * 4915 - 5 * 307 - 3
    return "1 hlineto " + "-105 callgsubr " * 13 + "-106 callgsubr " * 5 + "hlineto " * left + "endchar"


# Matrices of a Top DICT. A scale alone changes nothing; then others, in many spellings; then what is none.
TOPS = [
    "0.001 0 0 0.001 0 0", "4.8828125e4 0 0 .00048828125 0 0", "1 0 0 1 0 0", "1e3 0 0.0002 1e3 0 0", "0.002 0 0 0.001 0 0",
    "0.000333333333333333 0 0 0.001 0 0", "0.001 0 0 -0.001 0 0", "-.001 0 0 .001 0 0", "0 0.001 -0.0005 0 0 0", "0.001 0 0 0.001 0.05 -0.0205",
    "0.0000000000000017 0 0 0.000000000000001 0 0", "2E2 0 0 10E1 0 0", "2000.5 0 0 500 0 0", "1E30 0 0 1E3 0 0", "2e0e1 0 0 0.1.0.5 0 0",
    "0.002 0 0 0.001 0 0 7", "7 0.002 0 0 0.001 0 0", "0.05 0 0 0.001 0 0", "900 0 0 800.25 1000 0",
    "48828125e11 0 68623716e12 .00048828125 0 0", "1234e6 0 0 1000e6 0 0", "0.0000000000000000000012E18 0 0 0.001 0 0", "120000000000000000000000e26 0 0 0.001 0 0",
    "0.001234567890123456789012345678901234567890 0 0 0.001 0 0", "1234567890.123456789012345e12 0 0 0.001 0 0", "98765432109876543210987e24 0 0 .1 0 0",
    "12345678901234567890e19 0 0 1 0 0", "1 0 0 1 100e20 1e18446744073709551617", "1 0 0 0.5 0.00000000000000000000000000000001E34 1E18446744073709551616",
    "0.002 0 0 0.001 0", "0.001 0.001 0.001 0.001 0 0", "0 0 0 0 0 0", "0.051 0 0 0.001 0 0", "1e16 0 0 1e16 0 0", "1e99 0 0 1 0 0",
]
# Those of a Top DICT and of font DICTs, and the units of the em
OWN_MATRICES = [
    ("", ["0.001 0 0 0.001 0 0", "0.0005 0 0 0.0005 0 0"], 1000), ("", ["0.001 0 0.0002 0.0015 0.05 0", "1 0 0 1 0 0"], 2048),
    ("0.001 0 0 0.001 0.5 0", ["1 0 0 1 0 0", "0 1 -1 0 50.5 -20"], 1000), ("0.001 0 0.0002 0.001 0 0", ["1 0.1 0 1 0 0", "1 1 1 1 0 0"], 1000),
    ("0.001 0.001 0.001 0.001 0 0", ["0.002 0 0 0.001 0 0", "0.001 0 0 0.001 0"], 65535), ("500 0 0 1 0 0", ["900 0 0 900 0 0", "0.5 0 0 1 1000 0"], 1000),
]
# The numbers of a matrix as bytes, whatever they are
BYTES = [
    b"\x1c\x00\x02\x8b\x8b\x1d\x00\x00\x00\x01\xf7\x00\xfb\x00", b"\x1d\x00\x01\x86\xa0\x8b\x8b\x1d\x00\x00\x03\xe8\x8b\x8b",
    b"\x1e\x2d\xff\x8b\x8b\x8c\x8b\x8b", b"\x1e\x2f\x8b\x8b\x1e\x1f\x8b\x8b", b"\x1e\xf2\x8b\x8b\x8c\x8b\x8b", b"\x8d\x8b\x8b\x8c\x8b\x1e\x12",
]


def told(c, g, units):
    return "".join((" | L" if s[0] == "M" else " " + s[0]) + "".join(" %d,%d" % q for q in s[1:]) for s in model.path(c, g, units) or [])


ROWS, ANSWERS = [], []


def ask(data, glyphs, size=None, units=1000):
    ROWS.append("file")
    for i in range(0, len(data), 60):
        ROWS.append("bytes " + data[i:i + 60].hex())
    size = len(data) if size is None else size
    try:
        c, refusal = model.read(data, 0, size), None
    except model.Refusal as r:
        refusal = r
    for g in glyphs:
        row = "glyph 0 %d %d" % (size, g) + (" %d" % units if units != 1000 else "")
        ROWS.append(row)
        ANSWERS.append(row + ":" + ("CffRefusal { place: %d, cause: %s }" % (refusal.byte, refusal.cause) if refusal else told(c, g, units)))


def ask_matrices():
    """Rows on matrices."""
    drawn = ["10 -20 rmoveto 3.5 400 -50 0.25 100 7 rrcurveto -300 hlineto endchar"] * 2
    for text in TOPS:
        ask(table(drawn[:1], top=matrix(text)), [0])
    for text in BYTES:
        ask(table(drawn[:1], top=text + b"\x0c\x07"), [0])
    ask(table(drawn[:1], top=matrix("0.002 0 0 0.001 0 0") + matrix("0.001 0 0 0.001 0 0")), [0])
    ask(table(drawn[:1], top=real("5") * 2 + b"\x0c\x08" + matrix("0.002 0 0 0.001 0 0")), [0])
    for top, own, units in OWN_MATRICES:
        front = matrix(top) if top else b""
        ask(table(drawn, top=front, dicts=[[], []], select=bytes([0, 0, 1]), fronts=[matrix(it) for it in own]), [0, 1], units=units)
    ask(table(drawn, dicts=[[], []], select=bytes([0, 0, 1]), fronts=[matrix("0.002 0 0 0.001 0 0"), b""]), [0, 1])


def main():
    good = table(GLYPHS, SHARED, OWN, size=2)
    ask(good, range(len(GLYPHS) + 1))
    ask(table([long_glyph(model.FUEL - 1), long_glyph(model.FUEL)], IDLE, size=2), [0, 1])
    drawn = ["1 1 rmoveto -107 callsubr endchar"] * 6
    by_list = bytes([0, 0, 1, 0, 1, 2, 1])
    ask(table(drawn, dicts=[["3 3 rlineto"], ["4 4 rlineto"]], select=by_list), range(6))
    by_ranges = bytes([3, 0, 2, 0, 1, 1, 0, 4, 0, 0, 5])
    ask(table(drawn, dicts=[["3 3 rlineto"], ["4 4 rlineto"]], select=by_ranges), range(6))
    for size in (1, 3, 4):
        ask(table(GLYPHS[2:4], SHARED[:1], OWN[:1], size=size), [0, 1])
    ask(table(GLYPHS[2:3], top=b"\x1e\x0a\x14\x05\x41\xff\x0c\x07"), [0])
    ask_matrices()
    small = table(GLYPHS[2:3])
    ask(table(GLYPHS[2:3], top=b"\x8c\x0c\x06"), [0])
    ask(table(GLYPHS[2:3], top=b"\x8d\x0c\x06"), [0])
    ask(table(GLYPHS[2:3], top=b"\x8b\x11"), [0])
    ask(table(GLYPHS[2:3], top=b"\x1c\x7f\xff\x11"), [0])
    ask(small, [0], size=3)
    ask(bytes([2]) + small[1:], [0])
    ask(small[:2] + b"\xff" + small[3:], [0])
    for cut in (6, 12, 20, len(small) - 3):
        ask(small, [0], size=cut)
    ask(small[:4] + index([b"A"]) + index([]) + index([]) + index([]), [0])
    for name, lines in (("stdin", ROWS), ("stdout", ANSWERS)):
        with open(f"{FOLDER}/{name}", "w", encoding="utf-8") as it:
            it.write("".join(f"{line}\n" for line in lines))
    print(len(ROWS), "rows,", len(ANSWERS), "answers")


if __name__ == "__main__":
    main()
