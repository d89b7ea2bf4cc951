"""A model of docs/TRUETYPE.md and of how its letters are drawn, for fonts that have the format. Whole numbers alone. What
a table of PostScript outlines has is asked of cff_model.py."""

import struct

import cff_model

KINDS = [(3, 10), (0, 6), (0, 4), (3, 1), (0, 3), (0, 2), (0, 1), (0, 0), (3, 0)]
MOST_POINTS, MOST_PARTS, DEEPEST, FARTHEST = 16384, 256, 8, 65535


class Broken(Exception):
    """A glyph that has no contours."""


def near(value):
    """A coordinate, unless it lies too far from 0."""
    if abs(value) > FARTHEST:
        raise Broken
    return value


class Font:
    def __init__(self, held, face=0):
        self.held = held
        self.face = self.u32(12 + 4 * face) if held[:4] == b"ttcf" else 0
        self.tables = {}
        for e in range(self.face + 12, self.face + 12 + 16 * self.u16(self.face + 4), 16):
            place, size = self.u32(e + 8), self.u32(e + 12)
            if place + size <= len(held):
                self.tables.setdefault(held[e : e + 4].decode("latin-1"), (place, size))
        head, hhea = self.tables["head"][0], self.tables["hhea"][0]
        self.units, self.is_wide = self.u16(head + 18), self.u16(head + 50) != 0
        self.cff = cff_model.read(held, *self.tables["CFF "]) if "glyf" not in self.tables and "CFF " in self.tables else None
        self.count, self.own = self.u16(self.tables["maxp"][0] + 4), self.u16(hhea + 34)
        self.ascent, self.descent = self.heights(head, hhea)
        self.underline = self.bar("post", 12, 8, 10, -self.units // 10)
        self.strikeout = self.bar("OS/2", 78, 28, 26, self.units // 4)
        self.bold_step = max(1, self.units // 40)
        self.weight, self.slanted = self.style(head)
        self.families, self.full_names = self.names()
        self.codes, self.is_symbols = self.mapped()

    def u16(self, at):
        return struct.unpack_from(">H", self.held, at)[0]

    def s16(self, at):
        return struct.unpack_from(">h", self.held, at)[0]

    def u32(self, at):
        return struct.unpack_from(">I", self.held, at)[0]

    def table(self, tag, least):
        place, size = self.tables.get(tag, (0, 0))
        return place if size >= least else None

    def heights(self, head, hhea):
        pairs = [(self.s16(hhea + 4), -self.s16(hhea + 6)), (self.s16(head + 42), -self.s16(head + 38))]
        os2 = self.table("OS/2", 78)
        if os2 is not None:
            pairs.insert(0, (self.s16(os2 + 74), self.s16(os2 + 76)))
            pairs.insert(2, (self.s16(os2 + 68), -self.s16(os2 + 70)))
        up, down = next((it for it in pairs if sum(it) != 0), (0, 0))
        return max(0, up), max(0, down)

    def bar(self, tag, least, middle, size, other):
        """The top of a bar below the baseline, and its size."""
        place = self.table(tag, least)
        if place is not None and self.s16(place + size) > 0:
            return -(self.s16(place + middle) + self.s16(place + size) // 2), self.s16(place + size)
        size = self.units // 20
        return (-(other + size // 2), size) if size > 0 else None

    def style(self, head):
        """The weight, and whether the letters slant."""
        bits, os2 = self.u16(head + 44), self.table("OS/2", 78)
        weight = 700 if bits & 1 else 400
        if os2 is None:
            return weight, bits & 2 != 0
        given = self.u16(os2 + 4)
        return given if 1 <= given <= 1000 else weight, self.u16(os2 + 62) & 1 != 0

    def names(self):
        """Families and full names: those of Windows, at most 64 of each, or else one family of the others. A font with
        PostScript outlines has PostScript names in place of full ones."""
        place = self.table("name", 6)
        if place is None:
            return [], []
        end, found = place + self.tables["name"][1], {}
        for at in range(place + 6, place + 6 + 12 * self.u16(place + 2), 12):
            if at + 12 <= end:
                platform, encoding, _, kind, size, text = struct.unpack_from(">6H", self.held, at)
                text += place + self.u16(place + 4)
                whose = "windows" if platform == 3 else "other" if platform == 0 or (platform, encoding) == (1, 0) else None
                if text + size <= end:
                    found.setdefault((whose, kind), []).append(spelled(self.held[text : text + size], platform == 1))
        families = found.get(("windows", 1), [])[:64] or found.get(("other", 1), [])[:1]
        return families, found.get(("windows", 6 if self.cff else 4), [])[:64]

    def mapped(self):
        """The glyphs of all codes that have one."""
        place = self.tables["cmap"][0]
        found = []
        for r in range(place + 4, place + 4 + 8 * self.u16(place + 2), 8):
            kind, sub = (self.u16(r), self.u16(r + 2)), place + self.u32(r + 4)
            if kind in KINDS and self.u16(sub) in (4, 12):
                found.append((KINDS.index(kind), sub))
        rank, sub = min(found, key=lambda it: it[0])
        pairs = self.groups(sub) if self.u16(sub) == 12 else self.segments(sub)
        pairs = list(pairs)
        self.listed_codes = [code for code, _ in pairs]
        return {code: glyph for code, glyph in pairs if 0 < glyph < self.count}, rank == len(KINDS) - 1

    def groups(self, sub):
        for g in range(sub + 16, sub + 16 + 12 * self.u32(sub + 12), 12):
            first, last, glyph = self.u32(g), self.u32(g + 4), self.u32(g + 8)
            for code in range(first, last + 1):
                yield code, glyph + code - first

    def segments(self, sub):
        n, before = self.u16(sub + 6) // 2, -1
        for at in range(sub + 14, sub + 14 + 2 * n, 2):
            last, first, delta, offset = self.u16(at), *(self.u16(at + 2 + 2 * n * k) for k in (1, 2, 3))
            for code in range(max(first, before + 1), last + 1):
                if offset == 0:
                    yield code, (code + delta) % 65536
                else:
                    glyph = self.listed(at + 2 + 6 * n + offset + 2 * (code - first)) if offset != 65535 else 0
                    yield code, (glyph + delta) % 65536 if glyph else 0
            before = last

    def listed(self, at):
        return self.u16(at) if at + 2 <= sum(self.tables["cmap"]) else 0

    def glyph(self, code):
        if self.is_symbols and code < 256:
            return self.codes.get(code) or self.codes.get(code + 61440, 0)
        return self.codes.get(code, 0)

    def metric(self, g):
        """Advance and bearing."""
        place, size = self.tables["hmtx"]
        entry, bearing = 4 * min(g, self.own - 1), 4 * g + 2 if g < self.own else 4 * self.own + 2 * (g - self.own)
        if self.own == 0 or entry + (4 if g < self.own else 2) > size:
            return 0, 0
        return self.u16(place + entry), self.s16(place + bearing) if bearing + 2 <= size else 0

    def bytes_of(self, g):
        if self.cff:
            return None
        (loca, size), (glyf, most) = self.tables["loca"], self.tables["glyf"]
        width = 4 if self.is_wide else 2
        if width * (g + 2) > size:
            return None
        a, b = ((self.u32(loca + 4 * k) if self.is_wide else 2 * self.u16(loca + 2 * k)) for k in (g, g + 1))
        return self.held[glyf + a : glyf + min(b, most)] if a < min(b, most) else None

    def strokes(self, g):
        """The path of a glyph with PostScript outlines, in 1/65,536 of a unit: moves, lines and curves."""
        return cff_model.path(self.cff, g, self.units) or [] if self.cff else []

    def contours(self, g):
        """The contours of a glyph: points (x, y, on); none of one with PostScript outlines."""
        try:
            found, shift = self.shape(g, 0, [0, 0])
            return [[(near(x + shift), y, on) for x, y, on in contour] for contour in found]
        except (Broken, struct.error, IndexError):
            return []

    def shape(self, g, depth, room):
        """Contours before they are moved, and how far they are moved."""
        if depth > DEEPEST or g >= self.count:
            raise Broken
        held, bearing = self.bytes_of(g), self.metric(g)[1]
        if held is None:
            return [], bearing
        if len(held) < 10:
            raise Broken
        count, left = struct.unpack_from(">hh", held)
        if count < 0:
            return self.parts(held, depth, room, bearing - left)
        return simple(held, count, room), bearing - left

    def parts(self, held, depth, room, shift):
        at, flags, found = 10, 32, []
        while flags & 32:
            room[1] += 1
            if room[1] > MOST_PARTS:
                raise Broken
            flags, g = struct.unpack_from(">HH", held, at)
            dx, dy = struct.unpack_from(">hh" if flags & 1 else ">bb", held, at + 4)
            at += 8 if flags & 1 else 6
            scales = 1 if flags & 8 else 2 if flags & 64 else 4 if flags & 128 else 0
            numbers = struct.unpack_from(f">{scales}h", held, at)
            at += 2 * scales
            a, b, c, d = {0: (16384, 0, 0, 16384), 1: (*numbers, 0, 0, *numbers), 2: (*numbers[:1], 0, 0, *numbers[1:]), 4: numbers}[scales]
            if not flags & 2:
                raise Broken
            contours, own = self.shape(g, depth + 1, room)
            for contour in contours:
                sums = [(x * a + y * c + 8192, x * b + y * d + 8192, on) for x, y, on in contour]
                found.append([(near(x // 16384 + dx), near(y // 16384 + dy), on) for x, y, on in sums])
            shift = own if flags & 512 else shift
        return found, shift


def spelled(held, is_roman):
    """A name; half a pair is U+FFFD, an odd last byte isn't read."""
    if is_roman:
        return held.decode("mac_roman")
    units, found = struct.unpack(f">{len(held) // 2}H", held[: len(held) // 2 * 2]), []
    while len(units) > 0:
        size = 2 if len(units) > 1 and units[0] >> 10 == 0x36 and units[1] >> 10 == 0x37 else 1
        found.append(struct.pack(f">{size}H", *units[:size]).decode("utf-16-be", "replace"))
        units = units[size:]
    return "".join(found)


def same_name(a, b):
    """Whether names are one without regard to ASCII case."""
    return a.encode().lower() == b.encode().lower()


def chosen(fonts, name, bold, italic):
    """The place of the font that a name finds."""
    asked, far = name.removeprefix("@"), {}
    for place, font in enumerate(fonts):
        if any(same_name(it, asked) for it in font.families):
            far[place] = abs(font.weight - (700 if bold else 400)) + abs((110 if font.slanted else 0) - (100 if italic else 0))
        elif any(same_name(it, asked) for it in font.full_names):
            far[place] = 0
    return min(far, key=far.get, default=0)


def simple(held, count, room):
    """The contours of a glyph without parts."""
    if count == 0:
        return []
    ends = struct.unpack_from(f">{count}H", held, 10)
    if any(b <= a for a, b in zip(ends, ends[1:])):
        raise Broken
    at = 12 + 2 * count + struct.unpack_from(">H", held, 10 + 2 * count)[0]
    room[0] += ends[-1] + 1
    if room[0] > MOST_POINTS:
        raise Broken
    flags = []
    while len(flags) <= ends[-1]:
        more = held[at + 1] if held[at] & 8 else 0
        flags += [held[at]] * (more + 1)
        at += 2 if held[at] & 8 else 1
    if len(flags) > ends[-1] + 1:
        raise Broken
    columns = []
    for short, same in ((2, 16), (4, 32)):
        column, value = [], 0
        for flag in flags:
            if flag & short:
                value += held[at] if flag & same else -held[at]
                at += 1
            elif not flag & same:
                value += struct.unpack_from(">h", held, at)[0]
                at += 2
            column.append(near(value))
        columns.append(column)
    points = [(x, y, bool(flag & 1)) for x, y, flag in zip(*columns, flags)]
    return [points[a:b] for a, b in zip([0, *(it + 1 for it in ends)], (it + 1 for it in ends))]


# How a letter is drawn: rings in 1/64 pixel, y downwards, samples of 1/16 pixel, and bytes of coverage.


def scaled(ux, uy, italic, x, y, unit=1):
    """A point of the font's plane, y downwards."""
    below = y * uy // (65536 * unit)
    return x * ux // (65536 * unit) + (-below // 4 if italic else 0), below


def curve(a, b, c, ends_on):
    bend, n = max(abs(a[k] - 2 * b[k] + c[k]) for k in (0, 1)), 1
    while n < 32 and bend > 4 * n * n:
        n *= 2
    for u in range(1, n if ends_on else n + 1):
        z = n - u
        yield tuple((z * z * a[k] + 2 * z * u * b[k] + u * u * c[k]) // (n * n) for k in (0, 1))


def cubic(a, b, c, d):
    bend, n = max(abs(p[k] - 2 * q[k] + r[k]) for p, q, r in ((a, b, c), (b, c, d)) for k in (0, 1)), 1
    while n < 32 and bend > 3 * n * n:
        n *= 2
    for u in range(1, n + 1):
        z = n - u
        weights = z * z * z, 3 * z * z * u, 3 * z * u * u, u * u * u
        yield tuple(sum(w * p[k] for w, p in zip(weights, (a, b, c, d))) // n**3 for k in (0, 1))


def stroke_rings(strokes, place):
    """The rings of a path whose points stand at a place each."""
    found = []
    for kind, *points in strokes:
        points = [place(*it) for it in points]
        if kind == "M":
            found.append(points)
        else:
            found[-1] += cubic(last, *points) if kind == "C" else points
        last = points[-1]
    return found


def ring(points):
    """The ring of a contour of scaled points ((x, y), on)."""
    found = []
    for k, (b, on) in enumerate(points):
        if on:
            found.append(b)
            continue
        (a, a_on), (c, c_on) = points[k - 1], points[(k + 1) % len(points)]
        middle_a, middle_c = (((p[0] + b[0]) // 2, (p[1] + b[1]) // 2) for p in (a, c))
        found += curve(a if a_on else middle_a, b, c if c_on else middle_c, c_on)
    return found


def rings(font, g, ux, uy, bold=False, italic=False, underline=False, strikeout=False):
    found, contours = [], font.contours(g)
    for shift in (0, font.bold_step * ux // 65536) if bold else (0,):
        for contour in contours:
            points = [(scaled(ux, uy, italic, x, -y), on) for x, y, on in contour]
            found.append(ring([((x + shift, y), on) for (x, y), on in points]))

        def place(x, y, shift=shift):
            x, y = scaled(ux, uy, italic, x, -y, cff_model.ONE)
            return x + shift, y

        found += stroke_rings(font.strokes(g), place)
    for wanted, bar in ((underline, font.underline), (strikeout, font.strikeout)):
        if wanted and bar:
            top, size, advance = *bar, font.metric(g)[0]
            corners = (0, top), (advance, top), (advance, top + size), (0, top + size)
            found.append([scaled(ux, uy, italic, x, y) for x, y in corners])
    return found


def crossings(found):
    """For each row of samples the edges that cross it: where, and whether downwards."""
    rows = {}
    for points in found:
        for a, b in zip(points, points[1:] + points[:1]):
            (x0, y0), (x1, y1), way = (*a,), (*b,), 1
            if y0 > y1:
                (x0, y0), (x1, y1), way = (x1, y1), (x0, y0), -1
            for row in range(-((2 - y0) // 4), -((2 - y1) // 4)):
                over = x0 * (y1 - y0) + (4 * row + 2 - y0) * (x1 - x0)
                rows.setdefault(row, []).append((-((2 * (y1 - y0) - over) // (4 * (y1 - y0))), way))
    return rows


def coverage(found, px, py):
    """The bytes of pixels, of rings at a phase."""
    counts = {}
    for row, edges in crossings(found).items():
        winding = 0
        edges.sort()
        for (begin, way), (end, _) in zip(edges, edges[1:]):
            winding += way
            if winding:
                for x in range(begin + px, end + px):
                    at = x // 16, (row + py) // 16
                    counts[at] = counts.get(at, 0) + 1
    return {at: (count * 255 + 128) // 256 for at, count in counts.items()}
