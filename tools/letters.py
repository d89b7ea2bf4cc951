"""Reads letters that are drawn in a text file, as tools/make_ttf writes them into a font.

Units of the em are whole numbers, x to the right and y upwards from the baseline. Behind '#' a line is a comment.

  family NAME               the font's name
  units N, ascent N, descent N, heights SMALL CAPITALS, underline MIDDLE SIZE, strikeout MIDDLE SIZE: a line for each
  pen X Y                   how far a stroke reaches from its middle, to the side and upwards: half of its thickness
  round N                   how square rounds are, in thousandths: 707 is an ellipse
  glyph NAME ADVANCE CODE.. a glyph, its advance and its codes as U+0041; the first one is that of missing characters
  stroke PATH               a stroke along the path; it ends level or upright behind a line, across behind a curve
  ring PATH                 a stroke along a closed path
  fill PATH                 what a closed path runs around
  part NAME X Y [SCALE]     another glyph, moved, and scaled by thousandths; a glyph has paths or parts

A path is a list of points: 'X,Y' leads there by a line, 'vX,Y' and 'hX,Y' by a quarter of a round that begins upright
or level, and 'qX,Y X,Y' by a quadratic curve with its control point.
"""

import dataclasses
import math

Point = tuple[float, float]
Contour = list[tuple[int, int, bool]]  # x, y, and whether the point is on the contour


@dataclasses.dataclass
class Part:
    glyph: str
    x: int
    y: int
    scale: int


@dataclasses.dataclass
class Glyph:
    name: str
    advance: int
    codes: list[int]
    contours: list[Contour] = dataclasses.field(default_factory=list)
    parts: list[Part] = dataclasses.field(default_factory=list)


@dataclasses.dataclass
class Face:
    family: str = ""
    numbers: dict[str, list[int]] = dataclasses.field(default_factory=dict)
    glyphs: list[Glyph] = dataclasses.field(default_factory=list)


@dataclasses.dataclass
class Segment:
    """A line, or a quadratic curve where `bend` is its control point."""

    start: Point
    bend: Point | None
    end: Point

    def first(self) -> Point:
        return minus(self.bend or self.end, self.start)

    def last(self) -> Point:
        return minus(self.end, self.bend or self.start)


def minus(a: Point, b: Point) -> Point:
    return a[0] - b[0], a[1] - b[1]


def middle(a: Point, b: Point) -> Point:
    return (a[0] + b[0]) / 2, (a[1] + b[1]) / 2


def cross(a: Point, b: Point) -> float:
    return a[0] * b[1] - a[1] * b[0]


def whole(v: float) -> int:
    return math.floor(v + 0.5)


def point_of(word: str) -> Point:
    x, y = word.split(",")
    return float(x), float(y)


def quarter(start: Point, end: Point, upright: bool, square: float) -> list[Segment]:
    """A quarter of a round, as two curves that meet at its middle."""
    corner = (start[0], end[1]) if upright else (end[0], start[1])
    near = tuple(s + (2 * square - 1) * (c - s) for s, c in zip(start, corner))
    far = tuple(e + (2 * square - 1) * (c - e) for e, c in zip(end, corner))
    return [Segment(start, near, middle(near, far)), Segment(middle(near, far), far, end)]


def path_of(words: list[str], square: float) -> list[Segment]:
    at, found, rest = point_of(words[0]), [], iter(words[1:])
    for word in rest:
        if word[0] in "vh":
            found += quarter(at, point_of(word[1:]), word[0] == "v", square)
        elif word[0] == "q":
            found += halves(Segment(at, point_of(word[1:]), point_of(next(rest))))
        else:
            found.append(Segment(at, None, point_of(word)))
        at = found[-1].end
    return found


def halves(curve: Segment) -> list[Segment]:
    a, c = middle(curve.start, curve.bend), middle(curve.bend, curve.end)
    return [Segment(curve.start, a, middle(a, c)), Segment(middle(a, c), c, curve.end)]


def reach(way: Point, pen: Point) -> Point:
    """From the middle of a stroke that goes this way to its left edge."""
    x, y = -way[1] * pen[0] ** 2, way[0] * pen[1] ** 2
    size = math.sqrt((way[1] * pen[0]) ** 2 + (way[0] * pen[1]) ** 2)
    return x / size, y / size


def meet(a: Point, along_a: Point, b: Point, along_b: Point) -> Point:
    """Where two lines meet, or the middle of their points where they are all but parallel."""
    turn = cross(along_a, along_b)
    if abs(turn) < 0.02 * math.sqrt((along_a[0] ** 2 + along_a[1] ** 2) * (along_b[0] ** 2 + along_b[1] ** 2)):
        return middle(a, b)
    t = cross(minus(b, a), along_b) / turn
    return a[0] + t * along_a[0], a[1] + t * along_a[1]


def edge(path: list[Segment], pen: Point, side: int, closed: bool) -> list[tuple[Point, bool]]:
    """The left edge of a stroke for the side 1, the right one for -1."""

    def beside(at: Point, way: Point) -> Point:
        x, y = reach(way, pen)
        return at[0] + side * x, at[1] + side * y

    def cut(at: Point, way: Point, is_line: bool) -> Point:
        if not is_line:
            return beside(at, way)
        return meet(beside(at, way), way, at, (1, 0) if abs(way[1]) >= abs(way[0]) else (0, 1))

    found = []
    for i, it in enumerate(path):
        before = path[i - 1]
        if i == 0 and not closed:
            found.append((cut(it.start, it.first(), it.bend is None), True))
        else:
            found.append((meet(beside(it.start, before.last()), before.last(), beside(it.start, it.first()), it.first()), True))
        if it.bend:
            a, b = beside(it.start, it.first()), beside(it.end, it.last())
            found.append((meet(a, it.first(), b, it.last()), False))
    if not closed:
        found.append((cut(path[-1].end, path[-1].last(), path[-1].bend is None), True))
    return found


def contour_of(points: list[tuple[Point, bool]]) -> Contour:
    """The contour in whole units, without points that stand twice or in the middle of two off it."""
    all_of = [(whole(x), whole(y), on) for (x, y), on in points]
    kept = [it for i, it in enumerate(all_of) if it != all_of[i - 1]]

    def is_implied(i: int) -> bool:
        (px, py, p), (x, y, on), (nx, ny, n) = kept[i - 1], kept[i], kept[(i + 1) % len(kept)]
        return on and not p and not n and (2 * x, 2 * y) == (px + nx, py + ny)

    return [it for i, it in enumerate(kept) if not is_implied(i)]


def contours_of(kind: str, path: list[Segment], pen: Point) -> list[Contour]:
    if kind != "stroke" and path[-1].end != path[0].start:
        path = [*path, Segment(path[-1].end, None, path[0].start)]
    if kind == "fill":
        points = [it for s in path for it in ([(s.start, True), (s.bend, False)] if s.bend else [(s.start, True)])]
        turn = sum(cross(a, b) for (a, _), (b, _) in zip(points, points[1:] + points[:1]))
        return [contour_of(points[::-1] if turn > 0 else points)]
    closed = kind == "ring"
    left, right = (edge(path, pen, side, closed) for side in (1, -1))
    if closed:
        return [contour_of(left), contour_of(right[::-1])]
    return [contour_of(left + right[::-1])]


def read_letters(text: str) -> Face:
    face, pen, square = Face(), (0.0, 0.0), 0.707
    for line in text.splitlines():
        words = line.split("#")[0].split()
        match words:
            case []:
                pass
            case ["family", *name]:
                face.family = " ".join(name)
            case ["pen", x, y]:
                pen = float(x), float(y)
            case ["round", n]:
                square = int(n) / 1000
            case ["glyph", name, advance, *codes]:
                face.glyphs.append(Glyph(name, int(advance), [int(it.removeprefix("U+"), 16) for it in codes]))
            case ["stroke" | "ring" | "fill" as kind, *points]:
                face.glyphs[-1].contours += contours_of(kind, path_of(points, square), pen)
            case ["part", name, x, y, *scale]:
                face.glyphs[-1].parts.append(Part(name, int(x), int(y), int(scale[0]) if scale else 1000))
            case [name, *numbers]:
                face.numbers[name] = [int(it) for it in numbers]
    return face
