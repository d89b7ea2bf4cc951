"""What who lays subtitles over a video asks for: pictures with alpha, only what changes, and instants at a rate.

The expected bytes are worked out here, of boxes of one colour each, by the rules of docs/PICTURES.md.
"""

import subprocess

WIDTH, HEIGHT = 16, 9
FINE = 1 << 24

HEAD = f"""[Script Info]
ScriptType: v4.00+
PlayResX: {WIDTH}
PlayResY: {HEIGHT}

[V4+ Styles]
Format: Name, Fontname, Fontsize, PrimaryColour, SecondaryColour, OutlineColour, BackColour, Bold, Italic, Underline, StrikeOut, ScaleX, ScaleY, Spacing, Angle, BorderStyle, Outline, Shadow, Alignment, MarginL, MarginR, MarginV, Encoding
Style: Default,dot,4,&Hffffff,&Hffffff,&H0,&H0,0,0,0,0,100,100,0,0,1,0,0,7,0,0,0,0

[Events]
Format: Layer, Start, End, Style, Name, MarginL, MarginR, MarginV, Effect, Text
"""

# Boxes, the lowest first: left, top, width, height, the colour, and the alpha as scripts have it (0 is opaque).
BOXES = [
    (0, 0, 10, 6, (200, 100, 50), 0),
    (2, 1, 12, 7, (10, 20, 250), 37),
    (4, 2, 3, 3, (255, 255, 255), 230),
    (5, 0, 9, 9, (0, 0, 0), 251),
    (12, 7, 4, 2, (90, 180, 30), 128),
]

# A rate, where it begins and ends, and its frames and seconds.
RATES = [
    ("24000/1001", 0, 700, 24000, 1001),
    ("25", 40, 400, 25, 1),
    ("60000/1001", 7_200_000, 7_200_150, 60000, 1001),
    ("1000/7", 5, 50, 1000, 7),
    ("1/2", 0, 6001, 1, 2),
    ("2500", 3, 6, 2500, 1),
]


def script():
    """The boxes as drawings, each in a layer of its own."""
    lines = []
    for layer, (left, top, w, h, (r, g, b), alpha) in enumerate(BOXES):
        tags = f"\\an7\\pos({left},{top})\\1c&H{b:02x}{g:02x}{r:02x}&\\1a&H{alpha:02x}&\\p1"
        lines.append(f"Dialogue: {layer},0:00:00.00,0:00:01.00,Default,,0,0,0,,{{{tags}}}m 0 0 l {w} 0 {w} {h} 0 {h}")
    return HEAD + "\n".join(lines) + "\n"


def nearest(n, d):
    return (n + d // 2) // d


def layers_of(x, y):
    """The colours and weights that fall on a pixel, the lowest first."""
    return [(colour, 255 - alpha) for left, top, w, h, colour, alpha in BOXES if left <= x < left + w and top <= y < top + h]


def over(channel, colour, weight):
    return (channel * (255 - weight) + colour * weight + 127) // 255


def with_alpha(x, y):
    """Red, green, blue and straight alpha of a pixel."""
    held = [0, 0, 0, 0]
    for colour, weight in layers_of(x, y):
        held = [over(c, FINE * n, weight) for c, n in zip(held, (*colour, 255))]
    alpha = held[3]
    return [nearest(255 * c, alpha) if alpha else 0 for c in held[:3]] + [nearest(alpha, FINE)]


def on_black(x, y):
    held = [0, 0, 0]
    for colour, weight in layers_of(x, y):
        held = [over(c, n, weight) for c, n in zip(held, colour)]
    return held


def pixels(pixel):
    return bytes(it for y in range(HEIGHT) for x in range(WIDTH) for it in pixel(x, y))


def image(words, t):
    """The image of the boxes at an instant, in the format of these words."""
    said = f"# t={t} n={len(BOXES)}\n"
    size = f"WIDTH {WIDTH}\nHEIGHT {HEIGHT}\nDEPTH 4\nMAXVAL 255\nTUPLTYPE RGB_ALPHA\nENDHDR\n"
    if words == "--format pam":
        return f"P7\n{said}{size}".encode() + pixels(with_alpha)
    if words == "--format rgba":
        return pixels(with_alpha)
    return f"P6\n{said}{WIDTH} {HEIGHT}\n255\n".encode() + pixels(on_black)


def formats(score, given):
    """A frame and a play in each format have exactly the bytes that are worked out here."""
    name = f"{given.room}/boxes.ass"
    with open(name, "w", encoding="utf-8") as it:
        it.write(script())
    play = "play --from 498 --to 503 --step 2 --renderers 2 --bands 3"
    for words in ["", "--format ppm", "--format pam", "--format rgba"]:
        for job, right in [("frame --at 500", image(words, 500)), (play, b"".join(image(words, t) for t in (498, 500, 502)))]:
            ask = [given.program, *job.split(), "--size", f"{WIDTH}x{HEIGHT}", *words.split(), name, f"{given.room}/dot.bdf"]
            done = subprocess.run(ask, stdin=subprocess.DEVNULL, capture_output=True, timeout=600)
            score.check(done.returncode == 0 and done.stdout == right, f"boxes by {job} {words} are other bytes than those that are worked out")


def rates(score, given):
    """The instants of `changes` and of `play` at a rate, and those of a step by it."""
    names = [f"{given.room}/row.ass", f"{given.room}/dot.bdf"]
    for rate, begin, end, frames, seconds in RATES:
        wanted, k = [], 0
        while begin + 1000 * k * seconds // frames < end:
            wanted.append(begin + 1000 * k * seconds // frames)
            k += 1
        words = ["--from", str(begin), "--to", str(end), "--rate", rate, "--size", "4x3", *names]
        changes = subprocess.run([given.program, "changes", *words], stdin=subprocess.DEVNULL, capture_output=True, timeout=600)
        said = [int(line.split()[0][2:]) for line in changes.stderr.decode().splitlines()]
        score.check(changes.returncode == 0 and said == wanted, f"changes at {rate} reports the instants {said}, and not {wanted}")
        play = subprocess.run([given.program, "play", *words], stdin=subprocess.DEVNULL, capture_output=True, timeout=600)
        shown = [int(line.split()[1][2:]) for line in play.stdout.split(b"\n") if line.startswith(b"# t=")]
        score.check(play.returncode == 0 and shown == wanted, f"play at {rate} shows the instants {shown}, and not {wanted}")


def film(score, given):
    """The instants of a film of two hours: the last ones stand as near to their frames as the first ones."""
    words = "changes --from 0 --to 7200000 --rate 24000/1001 --size 1x1".split()
    ask = [given.program, *words, f"{given.room}/row.ass", f"{given.room}/dot.bdf"]
    done = subprocess.run(ask, stdin=subprocess.DEVNULL, capture_output=True, timeout=600)
    said = [int(line.split()[0][2:]) for line in done.stderr.decode().splitlines()]
    wanted = [1001 * i // 24 for i in range(172_628)]
    score.check(done.returncode == 0 and said == wanted, "changes has other instants than the frames of a film of two hours")


# Plays of examples: the script, its fonts, the size, and the instants.
KEPT = [
    ("dialogue.ass", ["subtitle.bdf"], "160x90", "--from 0 --to 9000 --step 125"),
    ("signs.ass", ["subtitle.bdf"], "128x72", "--from 3900 --to 4700 --rate 24000/1001"),
    ("hello.ass", ["letters.ttf"], "96x54", "--from 0 --to 6000 --rate 5"),
    ("row.ass", ["dot.bdf"], "7x4", "--from 0 --to 40 --step 1"),
    ("row.ass", ["dot.bdf"], "1x1", "--from 0 --to 3 --rate 5000"),
    ("row.ass", ["dot.bdf"], "7x4", "--from 40 --to 40 --step 1"),
]


def depth(words):
    return 4 if words in ("--format pam", "--format rgba") else 3


def cut(stream, words, sizes):
    """The images of a stream, as instants and pixels; None where they aren't of these sizes, one after the other."""
    images, at = [], 0
    for w, h in sizes:
        t, form = None, words.split()[1]
        if form != "rgba":
            head = stream[at:].split(b"\n", 4)[:4]
            said = [f"{w} {h}"] if form == "ppm" else [f"WIDTH {w}", f"HEIGHT {h}"]
            if [it.decode() for it in head[2 : 2 + len(said)]] != said:
                return None
            t = int(head[1].split()[1][2:])
            for _ in range(4 if form == "ppm" else 8):
                at = stream.index(b"\n", at) + 1
        count = w * h * (3 if form == "ppm" else 4)
        images.append((t, stream[at : at + count]))
        at += count
    return images if at == len(stream) else None


def expanded(stream, index, crop, size, words):
    """The pixels of all instants of a play of only what changes, and why they can't be told, if so."""
    *lines, last = index
    if last[:2] != ["end", "place"] or any(line[:2] != ["image", str(k)] for k, line in enumerate(lines)):
        return None, "an index of another form"
    boxes = [[int(n) for n in line[6:]] for line in lines]
    images = cut(stream, words, [(x2 - x1, y2 - y1) if crop else size for x1, y1, x2, y2 in boxes])
    if images is None:
        return None, "images of other sizes than its index tells"
    if any(t is not None and f"t={t}" != line[4] for (t, _), line in zip(images, lines)):
        return None, "images of other instants than its index tells"
    depth = 3 if words == "--format ppm" else 4
    whole, shown = bytearray(size[0] * size[1] * depth), []
    for (_, pixels), (x1, y1, x2, y2), line in zip(images, boxes, lines):
        shown += [bytes(whole)] * (int(line[3]) - len(shown))
        row = (x2 - x1) * depth
        for y in range(y1, y2) if crop else []:
            begin = (y * size[0] + x1) * depth
            whole[begin : begin + row] = pixels[(y - y1) * row :][:row]
        if not crop:
            whole = bytearray(pixels)
    return shown + [bytes(whole)] * (int(last[2]) - len(shown)), None


def kept(score, given):
    """A play of only what changes, expanded by its index, has the pictures of the play of all instants, and no image too many."""
    for script, fonts, size, instants in KEPT:
        w, h = (int(n) for n in size.split("x"))
        names = [f"{given.top}/examples/{name}" for name in [script, *fonts]]
        for words in ["--format ppm", "--format pam", "--format rgba"]:
            ask = ["play", *instants.split(), "--size", size, *words.split(), *names]
            play = subprocess.run([given.program, *ask], stdin=subprocess.DEVNULL, capture_output=True, timeout=600)
            for crop in [False, True]:
                more = ["--changed", "--crop"] if crop else ["--changed"]
                told = f"{script} by {' '.join(more)} {words} {instants}"
                done = subprocess.run([given.program, *ask, *more], stdin=subprocess.DEVNULL, capture_output=True, timeout=600)
                score.check(done.returncode == 0, f"{told} ends with {done.returncode}: {done.stderr[:80]}")
                if done.returncode:
                    continue
                index = [line.split() for line in done.stderr.decode().splitlines()]
                shown, why = expanded(done.stdout, index, crop, (w, h), words)
                all_images = cut(play.stdout, words, [(w, h)] * int(index[-1][2]))
                wanted = None if all_images is None else [pixels for _, pixels in all_images]
                score.check(shown is not None and shown == wanted, f"{told} has {why or 'other pictures than the play of all instants'}")
                changes = sum(i == 0 or wanted[i] != wanted[i - 1] for i in range(len(wanted or [])))
                score.check(len(index) - 1 == changes, f"{told} has {len(index) - 1} images, and {changes} pictures differ")


def over_video(score, given):
    formats(score, given)
    kept(score, given)
    rates(score, given)
    film(score, given)
