"""A font whose glyphs are written byte by byte, one for each thing that a glyph can be, and fonts with one fault each.

usage: python3 tests/hand_font.py FOLDER

That writes the fonts there. The glyphs are described in the order of their numbers; most are mapped from the space on.
"""

import importlib.machinery
import importlib.util
import os
import struct
import sys

TOP = os.path.dirname(os.path.dirname(os.path.realpath(__file__)))


def maker():
    """The module of tools/make_ttf, which makes a file of tables."""
    loader = importlib.machinery.SourceFileLoader("make_ttf", f"{TOP}/tools/make_ttf")
    module = importlib.util.module_from_spec(importlib.util.spec_from_loader("make_ttf", loader))
    loader.exec_module(module)
    return module


def words(*numbers):
    """Numbers of 16 bits, with a sign or without."""
    return b"".join(struct.pack(">H", it & 0xFFFF) for it in numbers)


def longs(*numbers):
    return struct.pack(f">{len(numbers)}I", *numbers)


def glyph(count, left, *rest):
    """A glyph's head, with its least x, and what follows."""
    return words(count, left, 0, 500, 500) + b"".join(rest)


# Flags of points: on the contour; x and y of one byte; x and y that are added, or as before; a count of repetitions
ON, X, Y, MORE, ADD_X, ADD_Y = 1, 2, 4, 8, 16, 32
# Flags of parts: shifts in words; a shift at all; one scale; another part; two scales; four numbers; own shift; scaled shift
WORDS, SHIFT, SCALE, NEXT, SCALES, MATRIX, OWN, OFFSETS = 1, 2, 8, 32, 64, 128, 512, 2048
UNIT = 16384


def signed(*numbers):
    return bytes(it & 0xFF for it in numbers)


def points(lasts, flags, xs, ys):
    """A glyph's bytes behind its head: the last points of its contours, no instructions, flags, and steps."""
    return words(*lasts, 0) + bytes(flags) + xs + ys


TRIANGLE = points([2], [ON, ON, ON], words(100, 300, -150), words(0, 0, 400))


def whole_glyphs():
    """Glyphs without parts: name, advance, bearing, and bytes."""
    flags = [ON, ON | ADD_X, ON | ADD_Y, ON | ADD_X]
    yield "missing", 600, 50, glyph(1, 50, points([3], flags, words(50, 450), words(0, 700, -700)))
    yield "blank", 300, 40, b""
    yield "words", 500, 100, glyph(1, 100, TRIANGLE)
    up, down = ON | X | Y | ADD_X | ADD_Y, ON | X | Y | ADD_X
    flags = [up, ON | X | ADD_X | ADD_Y, ON | ADD_X | Y | ADD_Y, ON | X | Y]
    yield "bytes", 500, 20, glyph(1, 20, points([3], flags, bytes([20, 200, 90]), bytes([10, 255, 100])))
    xs, ys = bytes([0, 40, 60, 80, 60, 40]), bytes([10, 100, 80, 90, 70, 20])
    yield "repeated flags", 500, 0, glyph(1, 0, points([5], [up | MORE, 2, down | MORE, 2], xs, ys))
    flags = [ON | X | ADD_X | ADD_Y | MORE, 0, ON | X | ADD_X | ADD_Y, ON | ADD_X | Y | ADD_Y]
    yield "no repetition", 500, 10, glyph(1, 10, points([2], flags, bytes([10, 200]), bytes([250])))
    steps = words(0, 200, 200, -200), words(200, 200, -200, -200)
    yield "begins off", 500, 0, glyph(1, 0, points([3], [0, ON, 0, ON], *steps))
    yield "all off", 500, 0, glyph(1, 0, points([3], [ADD_X, ADD_X, 0, ADD_X], words(400), words(0, 400, 0, -400)))
    yield "ends off", 500, 0, glyph(1, 0, points([2], [ON, ON, 0], words(0, 300, -150), words(0, 0, 500)))
    flags = [ON, ON | ADD_X, ON | ADD_Y, ON | ADD_X, ON, ON, ON]
    steps = words(0, 500, -400, 300, -150), words(0, 500, -500, 100, 0, 250)
    yield "two contours", 600, 0, glyph(2, 0, points([3, 6], flags, *steps))
    yield "one point, two points", 500, 0, glyph(2, 0, points([0, 2], [ON, ON, 0], words(0, 100, 300), words(50, 100, 200)))
    yield "a bearing", 500, 80, glyph(1, 30, TRIANGLE)
    yield "a bearing below 0", 500, -60, glyph(1, 100, TRIANGLE)
    yield "no contours", 500, 0, glyph(0, 0)
    yield "instructions", 500, 100, glyph(1, 100, words(2, 3) + b"\xff\xfe\xfd" + TRIANGLE[4:])
    yield "bytes behind", 500, 100, glyph(1, 100, TRIANGLE, b"\xff" * 5)


def broken_glyphs():
    steps = words(0, 300, -150), words(0, 0, 400)
    yield "no head", 500, 0, words(1, 0, 0, 500) + b"\1"
    yield "ends that don't ascend", 500, 0, glyph(2, 0, points([2, 2], [ON, ON, ON], *steps))
    yield "a repetition too many", 500, 0, glyph(1, 0, points([2], [ON | ADD_X | ADD_Y | MORE, 3], b"", b""))
    yield "flags that end early", 500, 0, glyph(1, 0, points([9], [ON, ON], b"", b""))
    yield "instructions past the end", 500, 0, glyph(1, 0, words(2, 60), bytes([ON, ON, ON]))
    yield "steps that end early", 500, 0, glyph(1, 0, points([2], [ON, ON, ON], *steps)[:-1])
    yield "a far point", 500, 0, glyph(1, 0, points([2], [ON | ADD_Y] * 3, words(32767, 32767, 2), b""))
    flags = [ON | ADD_X | ADD_Y | MORE, 255] * 64 + [ON | ADD_X | ADD_Y]
    yield "too many points", 500, 0, glyph(1, 0, points([16384], flags, b"", b""))


def glyphs_of_parts(part):
    """Glyphs of parts; `part` is made of flags, a name, and bytes."""

    def row(name):
        return (part(SHIFT | (NEXT if k < 15 else 0), name, signed(k, 0)) for k in range(16))

    triangle = part(SHIFT, "words", signed(0, 0))
    first, own = part(SHIFT | NEXT, "words", signed(0, 0)), part(SHIFT | OWN | NEXT, "a bearing", signed(0, 0))
    yield "one part", 500, 130, glyph(-1, 130, part(SHIFT, "words", signed(30, -20)))
    two = part(WORDS | SHIFT | NEXT, "words", words(0, 0)), part(WORDS | SHIFT, "begins off", words(300, -100))
    yield "two parts", 700, 100, glyph(-1, 100, *two)
    yield "a scaled part", 500, 150, glyph(-1, 150, part(WORDS | SHIFT | SCALE, "words", words(100, 50, UNIT // 2 + 1)))
    yield "a scaled shift", 500, 150, glyph(-1, 150, part(WORDS | SHIFT | SCALE | OFFSETS, "words", words(100, 50, UNIT // 2)))
    yield "a mirrored part", 500, 0, glyph(-1, -400, part(SHIFT | SCALES, "words", signed(0, 10), words(-UNIT, UNIT // 4)))
    turn = words(9830, 13107, -13107, 9830)
    yield "a turned part", 500, 0, glyph(-1, 0, part(SHIFT | MATRIX, "words", signed(0, 0), turn))
    yield "own shift", 500, 0, glyph(-1, 60, own, part(SHIFT, "begins off", signed(0, 0)))
    yield "own shifts", 500, 0, glyph(-1, 60, own, part(SHIFT | OWN, "a bearing below 0", signed(0, 0)))
    yield "a blank's own shift", 500, 0, glyph(-1, 60, first, part(SHIFT | OWN, "blank", signed(0, 0)))
    yield "bytes behind parts", 500, 0, glyph(-1, 0, triangle, b"\xff" * 7)
    yield "depth 1", 500, 0, glyph(-1, 0, part(SHIFT, "words", signed(1, 0)))
    for k in range(2, 10):
        yield f"depth {k}", 500, 0, glyph(-1, 0, part(SHIFT, f"depth {k - 1}", signed(1, 1)))
    yield "laid by points", 500, 0, glyph(-1, 0, part(0, "words", signed(0, 0)))
    yield "a broken part", 500, 0, glyph(-1, 0, first, part(SHIFT, "no head", signed(0, 0)))
    yield "part of itself", 500, 0, glyph(-1, 0, part(SHIFT, "part of itself", signed(0, 0)))
    yield "a part that isn't there", 500, 0, glyph(-1, 0, part(SHIFT, "nothing", signed(0, 0)))
    yield "a part that ends early", 500, 0, glyph(-1, 0, part(WORDS | SHIFT | SCALE, "words", words(0, 0)))
    yield "sixteen parts", 500, 0, glyph(-1, 0, *row("no contours"))
    yield "too many parts", 500, 0, glyph(-1, 0, *row("sixteen parts"))
    yield "a far part", 500, 0, glyph(-1, 0, part(WORDS | SHIFT | SCALE, "words", words(32767, 0, 32767)))
    yield "a part too far", 500, 0, glyph(-1, 0, part(WORDS | SHIFT | SCALE, "a far part", words(32767, 0, 32767)))


def last_glyphs():
    """Glyphs without an advance of their own, the second without a bearing."""
    steps = words(300, -300), words(0, 0, 300, 0)
    yield "a last bearing", 500, 25, glyph(1, 100, TRIANGLE)
    yield "the last advance", 500, 0, glyph(1, 0, points([3], [ON | ADD_X, ON, ON | ADD_X, ON], *steps))


def glyphs(number):
    """Each glyph's name, advance, bearing, and bytes; `number` gives the number of a name."""

    def part(flags, name, *rest):
        return words(flags, number(name)) + b"".join(rest)

    return [*whole_glyphs(), *broken_glyphs(), *glyphs_of_parts(part), *last_glyphs()]


def numbered(names=None):
    """The glyphs of these names, or all."""
    names = names or [name for name, *_ in glyphs(lambda name: 0)]
    found = glyphs(lambda name: names.index(name) if name in names else 999)
    return [it for it in found if it[0] in names]


def format_4(segments, spare=b""):
    """A map of format 4: the first and the last code of each segment, what is added, and its list or its offset."""
    n, lists, columns = len(segments), b"", [[], [], [], []]
    for i, (first, last, delta, held) in enumerate(segments):
        offset = held
        if isinstance(held, list):
            offset = 2 * (n - i) + len(lists)
            lists += words(*held)
        for column, value in zip(columns, (last, first, delta, offset)):
            column.append(value)
    body = words(2 * n, 0, 0, 0, *columns[0], 0, *columns[1], *columns[2], *columns[3]) + lists + spare
    return words(4, 6 + len(body), 0) + body


def format_12(groups):
    return words(12, 0) + longs(16 + 12 * len(groups), 0, len(groups)) + b"".join(longs(*it) for it in groups)


def cmap_of(*records):
    """The table cmap of maps, each with its platform and its encoding."""
    out, at = words(0, len(records)), 4 + 8 * len(records)
    for platform, encoding, held in records:
        out += words(platform, encoding) + longs(at)
        at += len(held)
    return out + b"".join(held for _, _, held in records)


def segments_of(count):
    """Segments of each kind: added, listed with a hole and past the end, passed over, one that wraps, one past the glyphs."""
    return [
        (32, 30 + count, -31, 0),
        (256, 260, 1, [1, 0, 5, 65535, count - 1]),
        (512, 527, 0, 65535),
        (1024, 1026, 65536 - 1022, 0),
        (2048, 2051, 2 - 2048 + count - 4, 0),
        (65000, 65003, 0, [7, 8]),
        (65535, 65535, 1, 0),
    ]


def groups_of(count):
    return [(32, 30 + count, 1), (128512, 128515, count - 2), (1114111, 1114111, 5)]


OTHER_MAP = words(0, 262, 0) + bytes(range(256))


def tables_of(held, cmap, wide=False, small=False):
    """The tables of glyphs. Two of them have no advance of their own, and the last one no bearing."""
    count, places, glyf = len(held), [0], b""
    for _, _, _, it in held:
        glyf += it + bytes(len(it) % 2)
        places.append(len(glyf))
    own = count - 2
    metrics = words(*(v for _, advance, bearing, _ in held[:own] for v in (advance, bearing)), held[own][2])
    head = longs(0x10000, 0, 0, 0) + words(0, 1000) + bytes(16) + words(-20, -210, 700, 790, 0, 0, 0, int(wide), 0)
    found = {
        "head": head,
        "maxp": longs(0x10000) + words(count),
        "hhea": longs(0x10000) + words(760, -190) + bytes(26) + words(own),
        "hmtx": metrics,
        "loca": longs(*places) if wide else words(*(it // 2 for it in places)),
        "glyf": glyf,
        "cmap": cmap,
    }
    if not small:
        text = "Hand Letter".encode("utf-16-be")
        found["OS/2"] = words(0, 500, 400, 5) + bytes(18) + words(44, 280) + bytes(38) + words(750, -200, 0, 800, 200)
        found["post"] = longs(0x30000, 0) + words(-120, 40) + bytes(20)
        found["name"] = words(0, 1, 18, 3, 1, 0x409, 1, len(text), 0) + text
    return found


def hand_font():
    """The font with a map of format 4, short places, and all tables that are read."""
    held = numbered()
    return maker().file_of(tables_of(held, cmap_of((1, 0, OTHER_MAP), (3, 1, format_4(segments_of(len(held)))))))


def wide_font():
    """The same glyphs with a map of format 12 before one of format 4, wide places, and the needed tables alone."""
    held = numbered()
    maps = cmap_of((3, 1, format_4([(65535, 65535, 1, 0)])), (3, 10, format_12(groups_of(len(held)))))
    return maker().file_of(tables_of(held, maps, wide=True, small=True))


def symbol_font():
    """The same glyphs with a map of symbols."""
    held = numbered()
    maps = cmap_of((3, 0, format_4([(61472, 61470 + len(held), 65536 - 61471, 0), (65535, 65535, 1, 0)])))
    return maker().file_of(tables_of(held, maps))


def collection(*faces):
    """A collection of fonts: the places in each one's directory are moved with it."""
    out = b"ttcf" + longs(0x10000, len(faces))
    at, places, body = 12 + 4 * len(faces), [], b""
    for held in faces:
        places.append(at + len(body))
        n = struct.unpack(">H", held[4:6])[0]
        entries = bytearray(held[: 12 + 16 * n])
        for k in range(n):
            e = 12 + 16 * k + 8
            entries[e : e + 4] = longs(struct.unpack(">I", held[e : e + 4])[0] + places[-1])
        body += bytes(entries) + held[12 + 16 * n :]
    return out + longs(*places) + body


SMALL = ["missing", "blank", "words", "bytes", "repeated flags", "begins off", "a bearing", "a bearing below 0", "steps that end early"]
SMALL += ["two parts", "a scaled part", "own shifts", "a last bearing", "the last advance"]


def small_font(cmap=None):
    """Some of the glyphs, with the needed tables alone."""
    held = numbered(SMALL)
    maps = cmap or cmap_of((3, 1, format_4([(32, 34, -31, 0), (65, 67, 1, [4, 0, 5]), (65535, 65535, 1, 0)])))
    return maker().file_of(tables_of(held, maps, small=True))


def faults():
    """Fonts with one fault each: the name of its file and its bytes."""
    good = small_font()
    entries, end = directory_of(good)

    def at(place, *held):
        held = b"".join(it if isinstance(it, bytes) else words(it) for it in held)
        return good[:place] + held + good[place + len(held) :]

    def mapped(cmap):
        return small_font(cmap)

    def without(tag, other=b"none"):
        return at(entries[tag].entry, other)

    yield "compressed.woff", b"wOFF" + good[4:]
    yield "compressed.woff2", b"wOF2"
    yield "ends.ttf", good[:11]
    yield "many_faces.ttc", b"ttcf" + longs(0x10000, 65) + bytes(300)
    yield "no_face.ttc", b"ttcf" + longs(0x10000, 0)
    yield "ends.ttc", b"ttcf" + longs(0x10000, 2, 20)
    yield "face_outside.ttc", b"ttcf" + longs(0x10000, 2, 20, 24) + bytes(15)
    yield "other_face.ttc", b"ttcf" + longs(0x10000, 1, 16) + b"typ1" + bytes(8)
    yield "directory_ends.ttf", good[: end - 1]
    yield "postscript.ttf", without("glyf", b"CFF ")
    yield "postscript_2.ttf", without("glyf", b"CFF2")
    for tag in ("head", "maxp", "hhea", "hmtx", "loca", "glyf", "cmap"):
        yield f"no_{tag}.ttf", without(tag)
    yield "outside.ttf", at(entries["loca"].entry + 12, longs(len(good)))
    for tag, least in (("head", 54), ("maxp", 6), ("hhea", 36), ("cmap", 4)):
        yield f"short_{tag}.ttf", at(entries[tag].entry + 12, longs(least - 1))
    yield "no_units.ttf", at(entries["head"].place + 18, 0)
    yield "no_glyphs.ttf", at(entries["maxp"].place + 4, 0)
    yield "map_records.ttf", at(entries["cmap"].place + 2, 1000)
    yield "no_map.ttf", mapped(cmap_of((1, 0, OTHER_MAP), (3, 1, OTHER_MAP)))
    yield from bad_maps()
    yield "second_face.ttc", collection(good, without("hmtx"))


def bad_maps():
    """Fonts whose chosen map isn't whole, or isn't in order."""

    def mapped(held):
        return small_font(cmap_of((3, 1, held)))

    last = (65535, 65535, 1, 0)
    yield "map_4_head.ttf", mapped(format_4([])[:13])
    yield "map_4_ends.ttf", mapped(format_4([(32, 40, -31, 0), last])[:-1])
    yield "map_4_order.ttf", mapped(format_4([(32, 40, -31, 0), (41, 40, 0, 0), last]))
    yield "map_4_first.ttf", mapped(format_4([(32, 40, -31, 0), (51, 50, 0, 0), last]))
    yield "map_12_head.ttf", mapped(format_12([])[:15])
    yield "map_12_ends.ttf", mapped(format_12([(32, 40, 1)])[:-1])
    yield "map_12_order.ttf", mapped(format_12([(32, 40, 1), (40, 50, 1)]))
    yield "map_12_last.ttf", mapped(format_12([(32, 40, 1), (51, 50, 1)]))
    yield "map_12_codes.ttf", mapped(format_12([(32, 40, 1), (50, 1114112, 1)]))


class Entry:
    """Where an entry of a directory stands, and the place of its table."""

    def __init__(self, entry, place):
        self.entry, self.place = entry, place


def directory_of(held):
    n, found = struct.unpack(">H", held[4:6])[0], {}
    for e in range(12, 12 + 16 * n, 16):
        found[held[e : e + 4].decode()] = Entry(e, struct.unpack(">I", held[e + 8 : e + 12])[0])
    return found, 12 + 16 * n


def fonts():
    """All fonts of this file: those without a fault first."""
    yield "hand.ttf", hand_font()
    yield "wide.ttf", wide_font()
    yield "symbol.ttf", symbol_font()
    yield "small.ttf", small_font()
    yield "open.otf", b"OTTO" + small_font()[4:]
    yield "two.ttc", collection(hand_font(), wide_font())
    yield from faults()


def main():
    if len(sys.argv) != 2:
        print(__doc__, file=sys.stderr)
        return 2
    for name, held in fonts():
        with open(f"{sys.argv[1]}/{name}", "wb") as it:
            it.write(held)
    return 0


if __name__ == "__main__":
    sys.exit(main())
