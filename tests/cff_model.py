"""A model of docs/POSTSCRIPT.md: read(data, place, size) gives a Cff or raises Refusal; path(cff, g, units) gives the segments of
glyph g of a font whose em has so many units, in 1/65,536 of a unit, behind the matrix of the glyph, or None where its bytes are
broken or a point is too far from 0. Whole numbers only."""

ONE = 65536
FUEL = 65536          # a glyph has fewer numbers and operators
STACK = 48
DEPTH = 10
STEMS = 96
FAR = 65535 * ONE
DECIMAL = 10 ** 15    # 1 in a matrix of a DICT
MOST = 1000 * DECIMAL # the most that a number of it is
MATRIX = 3072 + 7


class Refusal(Exception):
    def __init__(self, cause, byte):
        super().__init__(cause, byte)
        self.cause, self.byte = cause, byte


def u8(d, i):
    return d[i] if 0 <= i < len(d) else 0


def u16(d, i):
    return u8(d, i) << 8 | u8(d, i + 1)


def s16(d, i):
    v = u16(d, i)
    return v - 65536 if v >= 32768 else v


def u32(d, i):
    return u16(d, i) << 16 | u16(d, i + 2)


def s32(d, i):
    v = u32(d, i)
    return v - (1 << 32) if v >= 1 << 31 else v


def uint(d, i, n):
    v = 0
    for k in range(n):
        v = v << 8 | u8(d, i + k)
    return v


class Index:
    """count, size of an offset, place of the offsets, place that offset 0 would have, end"""
    def __init__(s, count, off, at, base, end):
        s.count, s.off, s.at, s.base, s.end = count, off, at, base, end


def index_at(d, at, stop):
    """The INDEX at a place of a table that ends at stop; None where it isn't whole."""
    if at + 2 > stop:
        return None
    n = u16(d, at)
    if n == 0:
        return Index(0, 1, at + 2, at + 2, at + 2)
    if at + 3 > stop:
        return None
    off = u8(d, at + 2)
    if not 1 <= off <= 4:
        return None
    data = at + 3 + off * (n + 1)
    if data > stop:
        return None
    last = uint(d, at + 3 + off * n, off)
    if last == 0 or data - 1 + last > stop:
        return None
    return Index(n, off, at + 3, data - 1, data - 1 + last)


def item(d, ix, k):
    """(from, to) of item k; None where it isn't there or its offsets don't ascend in the data."""
    if k < 0 or k >= ix.count:
        return None
    a, b = uint(d, ix.at + ix.off * k, ix.off), uint(d, ix.at + ix.off * (k + 1), ix.off)
    if not (1 <= a <= b) or ix.base + b > ix.end:
        return None
    return ix.base + a, ix.base + b


# ---- DICTs

def dict_token(d, at, to):
    """('number', value, behind), ('operator', op, behind) or None"""
    b = u8(d, at)
    if b <= 21:
        if b == 12:
            return ("operator", 3072 + u8(d, at + 1), at + 2) if at + 2 <= to else None
        return "operator", b, at + 1
    if 32 <= b <= 246:
        return "number", b - 139, at + 1
    if 247 <= b <= 250:
        return ("number", (b - 247) * 256 + u8(d, at + 1) + 108, at + 2) if at + 2 <= to else None
    if 251 <= b <= 254:
        return ("number", -(b - 251) * 256 - u8(d, at + 1) - 108, at + 2) if at + 2 <= to else None
    if b == 28:
        return ("number", s16(d, at + 1), at + 3) if at + 3 <= to else None
    if b == 29:
        return ("number", s32(d, at + 1), at + 5) if at + 5 <= to else None
    if b == 30:
        i = at + 1
        while i < to:
            v = u8(d, i)
            i += 1
            if v & 15 == 15 or v >> 4 == 15:
                return "number", 0, i
        return None
    return None


def operands(d, stretch, op):
    """The two numbers before the first operator of this kind (older, newer); None without one, or where it is broken."""
    at, to = stretch
    a = b = 0
    while at < to:
        t = dict_token(d, at, to)
        if t is None:
            return None
        kind, v, at = t
        if kind == "number":
            a, b = b, v
        else:
            if v == op:
                return a, b
            a = b = 0
    return None


# ---- matrices

def halves(d, at, to):
    """The halves of bytes, the upper one of each first."""
    return [half for k in range(at, to) for half in (u8(d, k) >> 4, u8(d, k) & 15)]


def real(d, at, to):
    """The real number of these bytes, in 10^-15."""
    text = ""
    for half in halves(d, at, to):
        if half == 15:
            break
        text += "0123456789.EN?-"[half]
    return real_of(text)


def real_of(text):
    """The same of its signs, of which N is E-, rounded towards 0."""
    part, digits, places, power, below, minus = "whole", 0, 0, 0, False, False
    for sign in text:
        if sign.isdigit():
            if part == "power":
                power = power * 10 + int(sign)
            else:
                digits, places = digits * 10 + int(sign), places + (part == "places")
        elif sign == ".":
            part = "places"
        elif sign in "EN":
            part, below = "power", below or sign == "N"
        elif sign == "-":
            minus = True
    power = min(power, len(text) + 40) # beyond that a number is 0, or too great, whatever its digits are
    value = min(digits * 10 ** (0 if below else power) * DECIMAL // 10 ** (places + (power if below else 0)), MOST)
    return -value if minus else value


def numbers(d, stretch, op):
    """All numbers before the first operator of this kind, in 10^-15; None without one, or where the DICT is broken before it."""
    at, to = stretch
    held = []
    while at < to:
        t = dict_token(d, at, to)
        if t is None:
            return None
        kind, v, behind = t
        if kind == "operator":
            if v == op:
                return held
            held = []
        else:
            held.append(real(d, at + 1, behind) if u8(d, at) == 30 else max(-MOST, min(MOST, v * DECIMAL)))
        at = behind
    return None


def dict_matrix(d, stretch):
    """xx, yx, xy, yy, x, y; None where the DICT has none, where they are fewer, or where a square is flat or too narrow behind them."""
    held = numbers(d, stretch, MATRIX)
    if held is None or len(held) < 6:
        return None
    xx, yx, xy, yy = held[:4]
    return held[:6] if sum(v * v for v in held[:4]) < 51 * abs(xx * yy - xy * yx) else None


def share(top, below):
    """A fraction, rounded to the nearest, and held at 65,536 in 1/65,536."""
    return max(-ONE * ONE, min(ONE * ONE, (top + below // 2) // below))


def by_em(m):
    """A matrix in 1/65,536 of its own em."""
    em = abs(m[3]) or abs(m[1])
    return [share(v * ONE, em) for v in m]


def product(m, own):
    xx, yx, xy, yy, x, y = own
    return [share(v, DECIMAL) for a, b in ((xx, yx), (xy, yy), (x, y)) for v in (m[0] * a + m[2] * b, m[1] * a + m[3] * b)]


def glyph_matrix(c, g, units):
    """The matrix of a glyph in 1/65,536, if it has one."""
    top, own = dict_matrix(c.d, c.top), None
    if c.dicts is not None:
        k = font_number(c, g)
        dic = None if k is None else item(c.d, c.dicts, k)
        own = None if dic is None else dict_matrix(c.d, dic)
    if own is None:
        return None if top is None else by_em(top)
    return product([units * ONE, 0, 0, units * ONE, 0, 0] if top is None else by_em(top), own)


def turned(m, p):
    """A point behind a matrix."""
    return held(tuple((a * p[0] + b * p[1] + ONE // 2) // ONE + shift for a, b, shift in ((m[0], m[2], m[4]), (m[1], m[3], m[5]))))


class Cff:
    pass


def need_index(d, at, stop):
    ix = index_at(d, at, stop)
    if ix is None:
        raise Refusal("BadIndex", at)
    return ix


def read(d, place, size):
    stop = place + size
    if size < 4:
        raise Refusal("Short", place)
    if u8(d, place) != 1:
        raise Refusal("Version", place)
    if size < u8(d, place + 2):
        raise Refusal("Short", place)
    name = need_index(d, place + u8(d, place + 2), stop)
    top = need_index(d, name.end, stop)
    strings = need_index(d, top.end, stop)
    glob = need_index(d, strings.end, stop)
    one = item(d, top, 0)
    if one is None:
        raise Refusal("BadDict", name.end)

    def place_of(op):
        o = operands(d, one, op)
        return None if o is None or not 1 <= o[1] <= size else place + o[1]
    c = Cff()
    c.d, c.place, c.stop, c.globals = d, place, stop, glob
    kind = operands(d, one, 3078)
    if kind is not None and kind[1] != 2:
        raise Refusal("BadDict", one[0])
    at = place_of(17)
    if at is None:
        raise Refusal("BadDict", one[0])
    c.glyphs = need_index(d, at, stop)
    arr = place_of(3108)
    c.dicts = None if arr is None else need_index(d, arr, stop)
    c.select = place_of(3109)
    if c.dicts is not None and c.select is None:
        raise Refusal("BadDict", one[0])
    c.top = one
    return c


def font_number(c, g):
    """The number of the glyph's FD; None where it has none."""
    d, at, stop = c.d, c.select, c.stop
    if at is None or at + 1 > stop:
        return None
    f = u8(d, at)
    if f == 0:
        return u8(d, at + 1 + g) if at + 2 + g <= stop else None
    if f != 3 or at + 5 > stop:
        return None
    n = u16(d, at + 1)
    if at + 5 + 3 * n > stop:
        return None
    for k in range(n):
        r = at + 3 + 3 * k
        if u16(d, r) <= g < u16(d, r + 3):
            return u8(d, r + 2)
    return None


def private_subrs(c, dic):
    """The local subroutines of a font DICT; an empty one where it has none, None where it is broken."""
    none = Index(0, 1, 0, 0, 0)
    o = operands(c.d, dic, 18)
    if o is None or o[0] == 0:
        return none
    if o[0] < 0 or o[1] < 1 or c.place + o[0] + o[1] > c.stop:
        return None
    begin = c.place + o[1]
    s = operands(c.d, (begin, begin + o[0]), 19)
    if s is None:
        return none
    if s[1] <= 0 or begin + s[1] > c.stop:
        return None
    return index_at(c.d, begin + s[1], c.stop)


def locals_of(c, g):
    if c.dicts is None:
        return private_subrs(c, c.top)
    k = font_number(c, g)
    if k is None:
        return None
    dic = item(c.d, c.dicts, k)
    return None if dic is None else private_subrs(c, dic)


# ---- charstrings

class Broken(Exception):
    pass


def bias(n):
    return 107 if n < 1240 else 1131 if n < 33900 else 32768


def lines(s):
    return [("L", (s[i], s[i + 1])) for i in range(0, len(s) - 1, 2)]


def alternating_lines(s, across):
    out = []
    for v in s:
        out.append(("L", (v, 0) if across else (0, v)))
        across = not across
    return out


def curves(s):
    return [("C", s[i:i + 2], s[i + 2:i + 4], s[i + 4:i + 6]) for i in range(0, len(s) - 5, 6)]


def hh(s, dy):
    """dx1 dx2 dy2 dx3 each; the first has dy too"""
    out = []
    while len(s) >= 4:
        out.append(("C", (s[0], dy), (s[1], s[2]), (s[3], 0)))
        dy, s = 0, s[4:]
    return out


def vv(s, dx):
    out = []
    while len(s) >= 4:
        out.append(("C", (dx, s[0]), (s[1], s[2]), (0, s[3])))
        dx, s = 0, s[4:]
    return out


def alternating_curves(s, across):
    out = []
    while len(s) >= 4:
        last = s[4] if len(s) == 5 else 0
        if across:
            out.append(("C", (s[0], 0), (s[1], s[2]), (last, s[3])))
        else:
            out.append(("C", (0, s[0]), (s[1], s[2]), (s[3], last)))
        across, s = not across, s[4:]
    return out


def strokes(op, s):
    """The strokes of a path operator with these operands; None where their count is not one of it."""
    n = len(s)
    if op == 5:
        return lines(s) if n % 2 == 0 else None
    if op == 6:
        return alternating_lines(s, True)
    if op == 7:
        return alternating_lines(s, False)
    if op == 8:
        return curves(s) if n % 6 == 0 else None
    if op == 24:
        return curves(s[:-2]) + lines(s[-2:]) if n % 6 == 2 else None
    if op == 25:
        return lines(s[:-6]) + curves(s[-6:]) if n % 2 == 0 and n >= 6 else None
    if op == 26:
        return (vv(s, 0) if n % 4 == 0 else vv(s[1:], s[0])) if n % 4 <= 1 else None
    if op == 27:
        return (hh(s, 0) if n % 4 == 0 else hh(s[1:], s[0])) if n % 4 <= 1 else None
    if op == 30:
        return alternating_curves(s, False) if n % 4 <= 1 else None
    if op == 31:
        return alternating_curves(s, True) if n % 4 <= 1 else None
    if op == 3072 + 34:
        return [("C", (s[0], 0), (s[1], s[2]), (s[3], 0)), ("C", (s[4], 0), (s[5], -s[2]), (s[6], 0))] if n == 7 else None
    if op == 3072 + 35:
        return curves(s[:12]) if n == 13 else None
    if op == 3072 + 36:
        return [("C", (s[0], s[1]), (s[2], s[3]), (s[4], 0)), ("C", (s[5], 0), (s[6], s[7]), (s[8], -s[1] - s[3] - s[7]))] if n == 9 else None
    if op == 3072 + 37:
        if n != 11:
            return None
        dx, dy = s[0] + s[2] + s[4] + s[6] + s[8], s[1] + s[3] + s[5] + s[7] + s[9]
        end = (s[10], -dy) if abs(dx) > abs(dy) else (-dx, s[10])
        return curves(s[:6]) + [("C", s[6:8], s[8:10], end)]
    return None


def held(p):
    if abs(p[0]) > FAR or abs(p[1]) > FAR:
        raise Broken()
    return p


def plus(p, d):
    return held((p[0] + d[0], p[1] + d[1]))


def run(c, g, count=None):
    d = c.d
    body = item(d, c.glyphs, g)
    if body is None:
        raise Broken()
    sub = locals_of(c, g)
    if sub is None:
        raise Broken()
    at, to = body
    frames, stack, stems = [], [], 0
    pen, is_open, segs = (0, 0), False, []
    for k in range(FUEL - 1):
        if at == to:
            if not frames:
                return segs, k
            at, to = frames.pop()
            continue
        b = u8(d, at)
        n = 0
        if 32 <= b <= 246:
            n, v = 1, (b - 139) * ONE
        elif 247 <= b <= 250:
            n, v = 2, ((b - 247) * 256 + u8(d, at + 1) + 108) * ONE
        elif 251 <= b <= 254:
            n, v = 2, (-(b - 251) * 256 - u8(d, at + 1) - 108) * ONE
        elif b == 28:
            n, v = 3, s16(d, at + 1) * ONE
        elif b == 255:
            n, v = 5, s32(d, at + 1)
        if n:
            if at + n > to or len(stack) >= STACK:
                raise Broken()
            stack.append(v)
            at += n
            continue
        op = b
        at += 1
        if b == 12:
            if at == to:
                raise Broken()
            op = 3072 + u8(d, at)
            at += 1
        if count is not None:
            count[op] += 1
        if op in (1, 3, 18, 23, 3072, 19, 20):
            stems += len(stack) // 2
            if stems > STEMS:
                raise Broken()
            stack = []
            if op in (19, 20):
                at += (stems + 7) // 8
                if at > to:
                    raise Broken()
        elif op in (4, 21, 22):
            need = 2 if op == 21 else 1
            if len(stack) < need:
                raise Broken()
            move = (0, stack[-1]) if op == 4 else (stack[-1], 0) if op == 22 else (stack[-2], stack[-1])
            pen, is_open, stack = plus(pen, move), False, []
        elif op in (10, 29):
            table = sub if op == 10 else c.globals
            if not stack or stack[-1] % ONE or len(frames) >= DEPTH:
                raise Broken()
            body = item(d, table, stack.pop() // ONE + bias(table.count))
            if body is None:
                raise Broken()
            frames.append((at, to))
            at, to = body
        elif op == 11:
            if not frames:
                raise Broken()
            at, to = frames.pop()
        elif op == 14:
            if len(stack) > 1:
                raise Broken()
            return segs, k
        else:
            s = strokes(op, stack)
            if s is None:
                raise Broken()
            stack = []
            for t in s:
                if not is_open:
                    segs.append(("M", pen))
                    is_open = True
                if t[0] == "L":
                    pen = plus(pen, t[1])
                    segs.append(("L", pen))
                else:
                    p = plus(pen, t[1])
                    q = plus(p, t[2])
                    pen = plus(q, t[3])
                    segs.append(("C", p, q, pen))
    raise Broken()


def path(c, g, units=1000):
    try:
        segs, m = run(c, g)[0], glyph_matrix(c, g, units)
        return segs if m is None else [(t[0], *(turned(m, p) for p in t[1:])) for t in segs]
    except Broken:
        return None
