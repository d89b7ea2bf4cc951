"""Writes the rows of crates/sfnt_vectors: fonts of hand_font.py and what is asked of them, and what a model answers.

usage: python3 tests/font_rows.py

It writes `stdin` there, and `stdout`: the glyphs, the codes and the numbers as truetype_model.py has them, and each
fault with its byte as this file lists it.
"""

import os
import sys

import cff_model
import cff_rows
import hand_font
import truetype_model as model
from hand_font import ADD_Y, ON, SCALE, SHIFT, UNIT, glyph, points, signed, words

FOLDER = f"{hand_font.TOP}/crates/sfnt_vectors"
LAST = (65535, 65535, 1, 0)


def far_glyphs(number):
    """Glyphs that reach as far as points may lie, and some that lie too far before they are moved back."""

    def wide(bearing, last):
        return 500, bearing, glyph(1, 0, points([2], [ON | ADD_Y] * 3, words(32767, 32767, last), b""))

    def part(name, *scale):
        return 500, 0, glyph(-1, 0, words(SHIFT | (SCALE if scale else 0), number(name)) + signed(0, 0) + words(*scale))

    yield "the farthest point", *wide(0, 1)
    yield "a point moved too far", *wide(1, 1)
    yield "a far point moved back", *wide(-100, 2)
    yield "the farthest point as a part", *part("the farthest point", UNIT // 2)
    yield "a far point as a small part", *part("a far point moved back", UNIT // 2)
    yield "a part that is not moved", *part("a point moved too far")


def glyphs_of(number):
    """The glyphs of hand_font.py, and before the last two of them the far ones."""
    held = hand_font.glyphs(number)
    return [*held[:-2], *far_glyphs(number), *held[-2:]]


def numbered():
    names = [name for name, *_ in glyphs_of(lambda name: 0)]
    return glyphs_of(lambda name: names.index(name) if name in names else 999)


def file_of(maps, **given):
    return hand_font.maker().file_of(hand_font.tables_of(numbered(), maps, **given))


def map_4(count):
    return hand_font.cmap_of((1, 0, hand_font.OTHER_MAP), (3, 1, hand_font.format_4(hand_font.segments_of(count))))


def map_12(count):
    groups = hand_font.format_12(hand_font.groups_of(count))
    return hand_font.cmap_of((3, 1, hand_font.format_4([LAST])), (3, 10, groups))


def symbols():
    return hand_font.cmap_of((3, 0, hand_font.format_4([(61472, 61500, 65536 - 61471, 0), LAST])))


def name_table(*texts):
    """A table of names of (platform, encoding, kind, text); one without a text lies outside the table."""
    records, store = b"", b""
    for platform, encoding, kind, text in texts:
        size, at = (9, 60000) if text is None else (len(text), len(store))
        records += words(platform, encoding, 0, kind, size, at)
        store += text or b""
    return words(0, len(texts), 6 + len(records)) + records + store


def wide(text):
    return text.encode("utf-16-be")


NAMES = [(1, 0, 1, b"Caf\x8e \xf0"), (3, 1, 4, b"\0F"), (3, 1, 1, None), (3, 1, 1, wide("Zoë 😀") + b"\xd8\x3d\0"), (3, 1, 1, wide("Andere"))]


def with_names(*texts, **given):
    """The small glyphs with a map of symbols, and with these names and tables."""
    tables = hand_font.tables_of(hand_font.numbered(hand_font.SMALL), symbols(), small=True)
    return hand_font.maker().file_of({**tables, "name": name_table(*texts), **given})


def styled(family, full_name, weight, bits, first=65, count=3):
    """A face of a family: its weight and its style in `OS/2`, and some of the glyphs from the code `first` on."""
    maps = hand_font.cmap_of((3, 1, hand_font.format_4([(first, first + count - 1, 2 - first, 0), LAST])))
    tables = hand_font.tables_of(hand_font.numbered(hand_font.SMALL), maps)
    os2 = bytearray(tables["OS/2"])
    os2[4:6], os2[62:64] = words(weight), words(bits)
    names = name_table((3, 1, 1, wide(family)), (3, 1, 4, wide(full_name)))
    return hand_font.maker().file_of({**tables, "OS/2": bytes(os2), "name": names})


class Rows:
    """The questions and the answers."""

    def __init__(self):
        self.asked, self.told = [], []

    def file(self, name, held):
        self.held = held
        self.asked += [f"file {name}", *(f"bytes {held[k : k + 50].hex()}" for k in range(0, len(held), 50))]
        self.told.append(f"file {name}")

    def ask(self, question, answer):
        self.asked.append(question)
        self.told.append(f"{question}: {answer}")


def bar(found):
    return f"Some(Bar {{ top: {found[0]}, size: {found[1]} }})" if found else "None"


def codes_of(font):
    """The codes of the list of glyphs."""
    found = [*range(256)] if font.is_symbols else []
    return found + font.listed_codes + [-2]


def names_told(names):
    return "".join(f"[{name}]" for name in names)


def face_told(font):
    numbers = (
        f"units: {font.units}, glyphs: {font.count}, wide_places: {str(font.is_wide).lower()}, advances: {font.own}, "
        f"ascent: {font.ascent}, descent: {font.descent}, underline: {bar(font.underline)}, strikeout: {bar(font.strikeout)}, "
        f"bold_step: {font.bold_step}, weight: {font.weight}, slanted: {str(font.slanted).lower()}"
    )
    return f"{names_told(font.families)}/{names_told(font.full_names)} {len(codes_of(font))} Numbers {{ {numbers} }}"


def glyph_told(font, g):
    advance = font.metric(g)[0] if g < 65536 else 0
    text = f"{advance}{' blank' if font.bytes_of(g) is None else ''}"
    for contour in font.contours(g):
        text += " |" + "".join(f" {x},{y}{'' if on else '~'}" for x, y, on in contour)
    return text


def codes_told(font, codes):
    listed = codes_of(font)
    return "".join(f" {font.glyph(code)}@{listed.index(code) if code in listed else '-'}" for code in codes)


def places_told(font, places):
    listed = codes_of(font)
    found = [listed[it] if it < len(listed) else -2 for it in places]
    return "".join(f" {code}={font.glyph(code) if code >= 0 else 0}" for code in found)


CODES = [0, 31, 32, 33, 60, 84, 95, 96, 127, 255, 256, 257, 258, 259, 260, 261, 512, 520, 527, 1023, 1024, 1026, 2047, 2048, 2050, 2051, 61471, 61472, 61500, 61501]
CODES += [65000, 65001, 65002, 65003, 65004, 65535, 65536, 128511, 128512, 128514, 128515, 128516, 1114110, 1114111]


def ask_font(rows, name, held, glyphs):
    rows.file(name, held)
    font = model.Font(held)
    rows.ask("face 0", face_told(font))
    rows.ask("face 1", '"no face"')
    for g in glyphs:
        rows.ask(f"glyph {g}", glyph_told(font, g))
    rows.ask(f"codes {' '.join(str(it) for it in CODES)}", codes_told(font, CODES))
    count = len(codes_of(font))
    places = [0, 1, 31, 32, 65, count // 2, count - 20, count - 7, count - 6, count - 5, count - 3, count - 2, count - 1, count]
    rows.ask(f"places {' '.join(str(it) for it in places)}", places_told(font, places))


def ask_changed(rows, held, at, text):
    """What the file is read as that has these bytes from a place on."""
    font = model.Font(held[:at] + text + held[at + len(text) :])
    rows.ask(f"with {at} {text.hex()}", face_told(font))
    return font


def ask_names(rows):
    """Names by their platforms: those of Windows first, in their order."""
    held = with_names(*NAMES)
    rows.file("named.ttf", held)
    font, entries = model.Font(held), hand_font.directory_of(held)[0]
    assert (font.families, font.full_names) == (["Zoë 😀\ufffd", "Andere"], ["F"])
    rows.ask("face 0", face_told(font))
    record = entries["name"].place + 6
    assert ask_changed(rows, held, record + 12 * 3 + 6, words(2)).families == ["Andere"]
    # The two Windows names stand behind one another, so both kinds are changed at once
    both = bytearray(held[record + 12 * 3 + 6 : record + 12 * 4 + 8])
    both[:2] = both[-2:] = words(2)
    assert ask_changed(rows, held, record + 12 * 3 + 6, bytes(both)).families == ["Café \uf8ff"]
    assert ask_changed(rows, held, record - 6, words(0, 0)).full_names == []
    assert ask_changed(rows, held, entries["name"].entry, b"Name").families == []
    many = [(3, 1, kind, wide(f"{kind}.{k}")) for k in range(66) for kind in (4, 1)]
    held = with_names((0, 3, 1, wide("other")), *many)
    rows.file("many_names.ttf", held)
    font = model.Font(held)
    assert (len(font.families), len(font.full_names), font.families[-1]) == (64, 64, "1.63")
    rows.ask("face 0", face_told(font))


def ask_post_script(rows):
    """A face with PostScript outlines: its full names are the PostScript ones. The faults of its table, at their bytes."""
    tables = hand_font.tables_of(hand_font.numbered(hand_font.SMALL), symbols(), small=True)
    del tables["loca"], tables["glyf"]
    names = name_table((3, 1, 1, wide("Strokes")), (3, 1, 4, wide("Strokes Bold")), (3, 1, 6, wide("Strokes-Bold")))
    outlines = cff_rows.table(["endchar", "10 20 rmoveto 30 40 rlineto 5 -5 rlineto endchar"])
    held = hand_font.maker().file_of({**tables, "CFF ": outlines, "name": names})
    rows.file("strokes.otf", held)
    font = model.Font(held)
    assert font.full_names == ["Strokes-Bold"]
    rows.ask("face 0", face_told(font))
    ask_changed(rows, held, 0, b"OTTO")
    place, size = font.tables["CFF "]
    for at, text in ((0, b"\x02"), (2, b"\xff"), (6, b"\0"), (20, b"\x10")):
        changed = held[: place + at] + text + held[place + at + len(text) :]
        try:
            raise AssertionError(cff_model.read(changed, place, size))
        except cff_model.Refusal as fault:
            rows.ask(f"with {place + at} {text.hex()}", f"BadFont({fault.byte}, BadOutlines({fault.cause}))")


def ask_styles(rows):
    """Weights and slants, with `OS/2` and without it."""
    held = styled("Hand", "Hand", 400, 0)
    rows.file("styled.ttf", held)
    entries = hand_font.directory_of(held)[0]
    os2, head = entries["OS/2"].place, entries["head"].place
    for at, text in ((os2 + 4, 1), (os2 + 4, 1000), (os2 + 4, 1001), (os2 + 4, 0), (os2 + 62, 1), (os2 + 62, 2), (head + 44, 3)):
        ask_changed(rows, held, at, words(text))
    held = with_names()
    rows.file("plain.ttf", held)
    head = hand_font.directory_of(held)[0]["head"].place
    for bits in range(4):
        ask_changed(rows, held, head + 44, words(bits))
    # With the style of bold letters, and a weight that is none
    held = styled("Hand", "Hand", 0, 0)
    rows.file("no_weight.ttf", held)
    assert ask_changed(rows, held, hand_font.directory_of(held)[0]["head"].place + 44, words(1)).weight == 700


FACES = [
    ("Sans", "Sans Bold", 700, 0, 65),
    ("Sans", "Sans Italic", 400, 1, 66),
    ("Sans", "Sans Regular", 400, 0, 67),
    ("Sans", "Sans Bold Italic", 700, 1, 68),
    ("Serif", "Serif", 400, 0, 80),
    ("Light", "Sans", 300, 0, 90),
    ("Heavy", "Heavy Black", 900, 0, 66),
    ("Heavy", "Heavy Semi", 600, 0, 66),
    ("Heavy", "Heavy Fifty", 550, 0, 66),
    ("Heavy", "Heavy Slanted", 500, 1, 66),
]
ASKED = ["Serif", "serif", "SANS BOLD", "Sans Bold Italic", "Sans", "@Serif", "@Sans Bold", "@@Serif", "Sans-Bold", "", "@", "Light", "Heavy", "Nonesuch"]


BITMAPS = b"""STARTFONT 2.1
FONT grid
STARTCHAR A
ENCODING 65
BBX 1 1 0 0
BITMAP
80
ENDCHAR
STARTCHAR a
ENCODING 97
BBX 1 1 0 0
BITMAP
80
ENDCHAR
ENDFONT
"""


def glyph_told_in(fonts, number, code):
    """Where the glyph of a code is in a set."""
    found = next((k for k in (number, *range(len(fonts))) if fonts[k].glyph(code) != 0), number)
    listed = codes_of(fonts[found])
    return f" {found}:{listed.index(code) if code in listed else len(listed) - 1}"


def ask_set(rows, fonts, numbers):
    for style in ("-", "b", "i", "bi"):
        for name in ASKED:
            rows.ask(f"find {style} {name}", model.chosen(fonts, name, "b" in style, "i" in style))
    codes = [32, 64, 65, 66, 67, 68, 69, 70, 80, 82, 83, 90, 255, 256, 61475]
    for number in numbers:
        rows.ask(f"char {number} {' '.join(str(it) for it in codes)}", "".join(glyph_told_in(fonts, number, it) for it in codes))


def ask_sets(rows):
    """Which font a name finds, and where the glyphs of characters are."""
    fonts = []
    rows.ask("set", "")
    for k, face in enumerate(FACES):
        held = styled(*face)
        rows.file(f"face {k}", held)
        fonts.append(model.Font(held))
        rows.ask("add", len(fonts))
        if k == 3:
            ask_set(rows, fonts, [0, 3])
    ask_set(rows, fonts, [0, 4, 9])
    held = hand_font.collection(styled(*FACES[1]), styled(*FACES[0]), with_names(*NAMES))
    rows.file("three.ttc", held)
    rows.ask("set", "")
    fonts = [model.Font(held, face) for face in range(3)]
    rows.ask("add", 3)
    for face, font in enumerate(fonts):
        rows.ask(f"face {face}", face_told(font))
    ask_set(rows, fonts, [0, 2])
    # The second face of a collection has a fault, so none is added
    held = dict(hand_font.faults())["second_face.ttc"]
    rows.file("second_face.ttc", held)
    rows.ask("add", f"Bytes(BadFont({good_face(held)}, NoTable(Hmtx)))")
    rows.file("no font", b"STARTFONT 2.1\nSTARTCHAR A\nENDFONT\n")
    rows.ask("add", "Lines(BadFont(3, Misplaced))")
    rows.file("bitmaps", BITMAPS)
    rows.ask("add", 4)
    for style, name in (("bi", "grid"), ("-", "GRID"), ("-", "@grid"), ("-", "@Sans"), ("b", "Sans")):
        rows.ask(f"find {style} {name}", 3 if name.lower() == "grid" else model.chosen(fonts, name, "b" in style, "i" in style))
    rows.ask("char 3 65 66 67 68 97", " 3:0 0:0 0:1 0:2 3:1")
    rows.ask("char 0 97 98", f" 3:1 0:{len(codes_of(fonts[0])) - 1}")
    rows.ask("set", "")
    rows.ask("add", 1)
    rows.ask("char 0 65 66", " 0:0 -")
    rows.ask("find bi @Sans", 0)


def fault_bytes(good):
    """The fault of each of the fonts of hand_font.py that have one, and its byte."""
    entries, end = hand_font.directory_of(good)
    place = {tag: entry.place for tag, entry in entries.items()}
    sub = place["cmap"] + 12
    found = {
        "compressed.woff": (0, "Compressed"),
        "compressed.woff2": (0, "Compressed"),
        "ends.ttf": (11, "Ends"),
        "no_face.ttc": (8, "BadPlace"),
        "ends.ttc": (16, "Ends"),
        "face_outside.ttc": (16, "BadPlace"),
        "other_face.ttc": (16, "NotSfnt"),
        "directory_ends.ttf": (end - 1, "Ends"),
        "postscript.ttf": (place["glyf"], "BadOutlines(Version)"),
        "postscript_2.ttf": (end, "PostScript"),
        "outside.ttf": (end, "NoTable(Loca)"),
        "no_units.ttf": (place["head"] + 18, "BadNumber"),
        "no_glyphs.ttf": (place["maxp"] + 4, "BadNumber"),
        "map_records.ttf": (place["cmap"] + 2, "BadMap"),
        "no_map.ttf": (place["cmap"], "NoMap"),
        "map_4_head.ttf": (sub, "BadMap"),
        "map_4_ends.ttf": (sub + 6, "BadMap"),
        "map_4_order.ttf": (sub + 16, "BadMap"),
        "map_4_first.ttf": (sub + 24, "BadMap"),
        "map_12_head.ttf": (sub, "BadMap"),
        "map_12_ends.ttf": (sub + 12, "BadMap"),
        "map_12_order.ttf": (sub + 28, "BadMap"),
        "map_12_last.ttf": (sub + 28, "BadMap"),
        "map_12_codes.ttf": (sub + 28, "BadMap"),
    }
    for tag in ("head", "maxp", "hhea", "hmtx", "loca", "glyf", "cmap"):
        found[f"no_{tag}.ttf"] = (end, f"NoTable({tag.title()})")
        found[f"short_{tag}.ttf"] = (place[tag], f"ShortTable({tag.title()})")
    return {name: f"BadFont({byte}, {cause})" for name, (byte, cause) in found.items()} | {"many_faces.ttc": "TooLarge(64)"}


def ask_faults(rows):
    """Each fault: of the small font with other bytes or with fewer, or of another file."""
    good = hand_font.small_font()
    rows.file("small.ttf", good)
    rows.ask("face 0", face_told(model.Font(good)))
    ask_changed(rows, good, 0, b"OTTO")
    answers, others = fault_bytes(good), []
    for name, held in hand_font.faults():
        changed = [k for k, (a, b) in enumerate(zip(good, held)) if a != b]
        if name == "second_face.ttc":
            others.append((name, held))
        elif not changed:
            rows.ask(f"cut {len(held)}", answers[name])
        elif len(held) == len(good) and changed[-1] - changed[0] < 20:
            rows.ask(f"with {changed[0]} {held[changed[0] : changed[-1] + 1].hex()}", answers[name])
        else:
            others.append((name, held))
    for name, held in others:
        rows.file(name, held)
        rows.ask("face 0", answers.get(name) or face_told(model.Font(held)))
        if name == "second_face.ttc":
            second = good_face(held)
            rows.ask("face 1", f"BadFont({second}, NoTable(Hmtx))")
            rows.ask("face 2", '"no face"')


def good_face(held):
    """Where the directory of the second face of a collection ends."""
    at = int.from_bytes(held[16:20], "big")
    return at + 12 + 16 * int.from_bytes(held[at + 4 : at + 6], "big")


def main():
    if len(sys.argv) != 1:
        print(__doc__, file=sys.stderr)
        return 2
    rows, count = Rows(), len(numbered())
    ask_font(rows, "hand.ttf", file_of(map_4(count)), [*range(count), count, 65535])
    ask_font(rows, "wide.ttf", file_of(map_12(count), wide=True, small=True), [*range(18), *range(24, 40), *range(count - 9, count)])
    ask_names(rows)
    ask_styles(rows)
    ask_post_script(rows)
    ask_font(rows, "symbol.ttf", file_of(symbols(), small=True), [2])
    ask_faults(rows)
    ask_sets(rows)
    for name, lines in (("stdin", rows.asked), ("stdout", rows.told)):
        with open(f"{FOLDER}/{name}", "w", encoding="utf-8") as it:
            it.write("".join(f"{line}\n" for line in lines))
    return 0


if __name__ == "__main__":
    sys.dont_write_bytecode = True
    os.makedirs(FOLDER, exist_ok=True)
    sys.exit(main())
