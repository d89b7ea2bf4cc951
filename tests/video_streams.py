"""Plays as YUV4MPEG2 streams.

The expected bytes are worked out here in exact fractions, by ITU-R BT.601, ITU-R BT.709, SMPTE 240M and FCC, of the same
boxes as in over_video. Where FFmpeg is there, its conversion of the same picture must come within 1 of each sample, and
its reader must take the stream for what it is.
"""

import math
import shutil
import subprocess
from fractions import Fraction

import over_video

WEIGHTS = {
    "601": (Fraction("0.299"), Fraction("0.114"), "bt601"),
    "709": (Fraction("0.2126"), Fraction("0.0722"), "bt709"),
    "240M": (Fraction("0.212"), Fraction("0.087"), "smpte240m"),
    "FCC": (Fraction("0.30"), Fraction("0.11"), "fcc"),
}
INSTANTS = (498, 500, 502)


def nearest(x):
    return min(255, max(0, math.floor(x + Fraction(1, 2))))


def numbers(colours, name, full):
    """The luma and both chromas of the mean of colours."""
    red, blue, _ = WEIGHTS[name]
    r, g, b = (sum(Fraction(c[i], 255) for c in colours) / len(colours) for i in range(3))
    luma = red * r + (1 - red - blue) * g + blue * b
    chromas = (b - luma) / (1 - blue) / 2, (r - luma) / (1 - red) / 2
    if full:
        return [nearest(255 * luma)] + [nearest(128 + 255 * it) for it in chromas]
    return [nearest(16 + 219 * luma)] + [nearest(128 + 224 * it) for it in chromas]


def frame(picture, w, h, name, full, sampling):
    """A picture, a list of rows of colours, as a frame."""
    luma = [numbers([colour], name, full)[0] for row in picture for colour in row]
    step = 2 if sampling == "420" else 1
    blocks = [
        [picture[min(y, h - 1)][min(x, w - 1)] for y in range(j, j + step) for x in range(i, i + step)]
        for j in range(0, h, step)
        for i in range(0, w, step)
    ]
    chromas = [numbers(block, name, full)[1:] for block in blocks]
    return b"FRAME\n" + bytes(luma) + bytes(it[0] for it in chromas) + bytes(it[1] for it in chromas)


def head(w, h, rate, full, sampling):
    word = "420jpeg" if sampling == "420" else "444"
    return f"YUV4MPEG2 W{w} H{h} F{rate} Ip A1:1 C{word} XCOLORRANGE={'FULL' if full else 'LIMITED'}\n".encode()


def boxes():
    return [[tuple(over_video.on_black(x, y)) for x in range(over_video.WIDTH)] for y in range(over_video.HEIGHT)]


def play(given, words, script):
    ask = [given.program, "play", "--from", "498", "--to", "503", "--size", f"{over_video.WIDTH}x{over_video.HEIGHT}", "--format", "y4m", *words]
    return subprocess.run([*ask, script, f"{given.room}/dot.bdf"], stdin=subprocess.DEVNULL, capture_output=True, timeout=600)


def said_by(given, line):
    """The script of the boxes with a line more in its header."""
    name = f"{given.room}/video.ass"
    with open(name, "w", encoding="utf-8") as it:
        it.write(over_video.script().replace("PlayResY", f"{line}PlayResY", 1))
    return name


def streams(score, given):
    """A play has exactly the bytes of its matrix, range and sampling, whether the words or the script name them."""
    picture, w, h = boxes(), over_video.WIDTH, over_video.HEIGHT
    cases = [("", [], "601", False)]
    for name in WEIGHTS:
        cases.append((f"YCbCr Matrix: TV.{name}\n", [], name, False))
        cases.append((f"ycbcr matrix:pc.{name.lower()} \n", ["--matrix", "script"], name, True))
        cases.append(("YCbCr Matrix: TV.709\n", ["--matrix", f"PC.{name}"], name, True))
    cases += [("YCbCr Matrix: None\n", [], "601", False), ("YCbCr Matrix: TV.2020\n", [], "601", False)]
    for line, words, name, full in cases:
        script = said_by(given, line)
        for sampling in ("420", "444"):
            chroma = [] if sampling == "420" else ["--chroma", sampling]
            done = play(given, ["--step", "2", *words, *chroma, "--renderers", "2", "--bands", "3"], script)
            right = head(w, h, "1000:2", full, sampling) + frame(picture, w, h, name, full, sampling) * len(INSTANTS)
            score.check(done.returncode == 0 and done.stdout == right, f"a video of {line!r} by {words} in {sampling} has other bytes than those that are worked out")


def heads(score, given):
    """One head, whatever the times, with the rate as it was said."""
    script = said_by(given, "")
    for words, rate in [(["--rate", "24000/1001"], "24000:1001"), (["--rate", "25"], "25:1"), (["--step", "40"], "1000:40")]:
        done = play(given, [*words, "--times", "2"], script)
        first, _, rest = done.stdout.partition(b"\n")
        score.check(done.returncode == 0 and first + b"\n" == head(16, 9, rate, False, "420"), f"a video by {words} has the head {first}")
        score.check(rest.count(b"YUV4MPEG2") == 0 and rest.startswith(b"FRAME\n"), f"a video by {words} has more than one head")


def refusals(score, given):
    """A video is of a play alone, and what is said of its numbers is said of a video."""
    names = [said_by(given, ""), f"{given.room}/dot.bdf"]
    size = ["--size", "16x9"]
    instants = ["--from", "0", "--to", "9", "--step", "3"]
    for words, line in [
        (["frame", "--at", "5", *size, "--format", "y4m"], "usage"),
        (["play", *instants, *size, "--format", "y4m", "--changed"], "usage"),
        (["play", *instants, *size, "--matrix", "TV.709"], "usage"),
        (["play", *instants, *size, "--format", "rgba", "--chroma", "444"], "usage"),
        (["play", *instants, *size, "--format", "y4m", "--matrix", "709"], "--matrix"),
        (["play", *instants, *size, "--format", "y4m", "--chroma", "422"], "--chroma"),
        (["play", *instants, *size, "--format", "yuv"], "--format"),
    ]:
        done = subprocess.run([given.program, *words, *names], stdin=subprocess.DEVNULL, capture_output=True, timeout=600)
        score.check(done.returncode == 2 and done.stdout == b"" and f"bad words: {line}\n".encode() in done.stderr, f"{words} are refused by {done.stderr}")


def converted(picture, w, h, matrix, full, sampling):
    """The picture as FFmpeg converts it."""
    raw = bytes(it for row in picture for colour in row for it in colour)
    scale = f"scale=out_color_matrix={matrix}:out_range={'pc' if full else 'tv'}:flags=accurate_rnd+full_chroma_int+full_chroma_inp+area"
    ask = ["ffmpeg", "-v", "error", "-f", "rawvideo", "-pix_fmt", "rgb24", "-s", f"{w}x{h}", "-i", "-", "-vf", scale]
    done = subprocess.run([*ask, "-pix_fmt", f"yuv{sampling}p", "-f", "rawvideo", "-"], input=raw, capture_output=True, timeout=600)
    return done.stdout


def beside_ffmpeg(score, given):
    """FFmpeg has the same numbers within 1, at a size that is even, where its chroma samples lie at the same places."""
    picture, w, h = [row[:16] for row in boxes()[:8]], 16, 8
    for name, (_, _, matrix) in WEIGHTS.items():
        for full in (False, True):
            for sampling in ("420", "444"):
                ours, theirs = frame(picture, w, h, name, full, sampling)[6:], converted(picture, w, h, matrix, full, sampling)
                near = len(ours) == len(theirs) and all(abs(a - b) <= 1 for a, b in zip(ours, theirs))
                score.check(near, f"FFmpeg's numbers by {name}, full {full}, in {sampling} lie further than 1 away")
    done = play(given, ["--rate", "24000/1001", "--matrix", "PC.709"], said_by(given, ""))
    entries = "stream=width,height,pix_fmt,color_range,chroma_location,field_order,r_frame_rate"
    ask = ["ffprobe", "-v", "error", "-f", "yuv4mpegpipe", "-show_entries", entries, "-of", "default=noprint_wrappers=1", "-"]
    read = subprocess.run(ask, input=done.stdout, capture_output=True, timeout=600)
    wanted = {"width=16", "height=9", "pix_fmt=yuv420p", "color_range=pc", "chroma_location=center", "field_order=progressive", "r_frame_rate=24000/1001"}
    score.check(set(read.stdout.decode().split()) == wanted, f"FFmpeg reads a video as {read.stdout}")


def video_streams(score, given):
    streams(score, given)
    heads(score, given)
    refusals(score, given)
    if shutil.which("ffmpeg"):
        beside_ffmpeg(score, given)
