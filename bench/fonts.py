#!/usr/bin/env python3
"""Measures fonts of the program: reading a large TrueType font, new letters beside a bitmap font, and 64 fonts.

usage: python3 bench/fonts.py [--program FILE] [--runs N] [--large FONT] [--faces FONT]

The large font is the first there is of Debian's packages fonts-hanazono and fonts-dejavu-core, the second with zeros
behind it up to 20 MB; zeros that no table has change nothing. Times are on the processors, the least of N runs (20).
What reading the font takes, beyond its file, whose bytes it keeps, is the difference from a file of the same size that is
refused as compressed; in memory that from one that is refused at its first line. The same is measured of a collection
with PostScript outlines, the one of Debian's package fonts-noto-cjk, and of its first face alone. What a new letter
takes is the difference of two plays: one shows another letter in each image, the other the same one always.
The bitmap font has the same letters, drawn by otf2bdf at 40 pixels, where that is at hand.
"""

import argparse
import os
import shutil
import subprocess
import sys
import tempfile

TOP = os.path.dirname(os.path.dirname(os.path.realpath(__file__)))
LARGE = ["/usr/share/fonts/truetype/hanazono/HanaMinA.ttf", "/usr/share/fonts/truetype/dejavu/DejaVuSans.ttf"]
FACES = "/usr/share/fonts/opentype/noto/NotoSansCJK-Regular.ttc"
LETTERS = [chr(it) for it in [*range(33, 127), *range(161, 256)] if chr(it) not in "{}\\"]
HEAD = """[Script Info]
ScriptType: v4.00+
PlayResX: 64
PlayResY: 64
[V4+ Styles]
Format: Name, Fontname, Fontsize, PrimaryColour, BorderStyle, Outline, Shadow, Alignment
Style: Default,x,40,&H00FFFFFF,1,0,0,7
[Events]
Format: Start, End, Text
"""


def script(letters):
    """A script that shows a letter a second."""
    times = [f"0:{k // 60:02}:{k % 60:02}.00" for k in range(len(letters) + 1)]
    return HEAD + "".join(f"Dialogue: {a},{b},{it}\n" for a, b, it in zip(times, times[1:], letters))


def least(words, runs, status=0):
    """The least milliseconds on the processors."""
    found = []
    for _ in range(runs):
        child = subprocess.Popen(words, stdout=subprocess.DEVNULL, stderr=subprocess.DEVNULL)
        ended, usage = os.wait4(child.pid, 0)[1:]
        child.returncode = os.waitstatus_to_exitcode(ended)
        if child.returncode != status:
            sys.exit(f"{words[1]} ended with {child.returncode}")
        found.append(1000 * (usage.ru_utime + usage.ru_stime))
    return min(found)


def peak(words):
    """The peak of memory in MB. A child of Python begins with Python's own peak, a child of `time` with a small one."""
    with tempfile.NamedTemporaryFile("r") as said:
        subprocess.run(["/usr/bin/time", "-f", "%M", "-o", said.name, *words], stdout=subprocess.DEVNULL, stderr=subprocess.DEVNULL)
        return int(said.read().split()[-1]) * 1024 / 10**6


def put(path, held):
    with open(path, "wb") as it:
        it.write(held)
    return path


def read(path):
    with open(path, "rb") as it:
        return it.read()


def first_face(held):
    """The file of the first face of a collection alone: its directory, and its tables."""
    face = int.from_bytes(held[12:16], "big")
    size = 12 + 16 * int.from_bytes(held[face + 4 : face + 6], "big")
    out, body = bytearray(held[face : face + size]), b""
    for at in range(12, size, 16):
        place, length = (int.from_bytes(out[at + k : at + k + 4], "big") for k in (8, 12))
        out[at + 8 : at + 12] = (size + len(body)).to_bytes(4, "big")
        body += held[place : place + length] + bytes(-length % 4)
    return bytes(out) + body


def reading(given, room, held, name):
    """A font, and files of its size that are refused at once."""
    font, packed = put(f"{room}/large.ttf", held), put(f"{room}/large.woff", b"wOFF" + held[4:])
    lines = put(f"{room}/large.txt", b"line\n" + held[5:])
    words = [given.program, "check", put(f"{room}/small.ass", script(["x"]).encode())]
    known, refused = (least([*words, it], given.runs, end) for it, end in ((font, 0), (packed, 6)))
    peaks = [peak([*words, it]) for it in (font, lines)]
    print(f"{name}, {len(held) / 10**6:.1f} MB: {known - refused:.2f} ms, of {known:.2f} with its file")
    print(f"its memory: {peaks[0]:.1f} MB, of a file of its size {peaks[1]:.1f} MB")


def letter(given, room, font):
    """What a new letter takes, from the font's bytes to its mask."""
    counts = []
    for name, shown in (("new", LETTERS), ("same", LETTERS[:1] * len(LETTERS))):
        path = put(f"{room}/{name}.ass", script(shown).encode())
        words = ["play", "--from", "0", "--to", str(1000 * len(shown)), "--step", "1000", "--size", "64x64", path, font]
        counts.append(least([given.program, *words], given.runs))
    print(f"a new letter of 40 pixels, {os.path.basename(font)}: {1000 * (counts[0] - counts[1]) / len(LETTERS):.1f} microseconds")


def main():
    parser = argparse.ArgumentParser()
    parser.add_argument("--program", default=f"{TOP}/release/vimalorua")
    parser.add_argument("--runs", type=int, default=20)
    parser.add_argument("--large")
    parser.add_argument("--faces", default=FACES)
    given = parser.parse_args()
    print(f"load before: {os.getloadavg()[0]:.2f}")
    with tempfile.TemporaryDirectory(prefix="vimalorua-") as room:
        large = read(given.large or next(it for it in LARGE if os.path.exists(it)))
        reading(given, room, large + bytes(max(0, 20 * 10**6 - len(large))), "a large font")
        if os.path.exists(given.faces):
            held = read(given.faces)
            reading(given, room, held, f"a collection of {int.from_bytes(held[8:12], 'big')} faces")
            reading(given, room, first_face(held), "its first face")
        letters = f"{TOP}/examples/letters.ttf"
        fonts = [letters, f"{TOP}/examples/subtitle.bdf"]
        if shutil.which("otf2bdf"):
            fonts.append(f"{room}/letters.bdf")
            subprocess.run(["otf2bdf", "-r", "72", "-p", "34", "-o", fonts[-1], letters], check=False)
        fonts += [it for it in [given.faces] if os.path.exists(it)]
        for it in fonts:
            letter(given, room, it)
        words = [given.program, "check", f"{room}/small.ass"]
        for it in (letters, LARGE[1]):
            if os.path.exists(it):
                print(f"64 fonts of {os.path.getsize(it) / 10**6:.2f} MB each: {peak([*words, *[it] * 64]):.1f} MB")
    print(f"load after: {os.getloadavg()[0]:.2f}")


if __name__ == "__main__":
    main()
