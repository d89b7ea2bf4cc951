#!/usr/bin/env python3
"""Makes what FFmpeg's concat demuxer takes of a play of only what changes.

usage: changed_frames.py IMAGES INDEX FOLDER

IMAGES is what `vimalorua play --changed` wrote by --format pam or rgba, with --crop or without, and INDEX what it
reported. Each image becomes a PNG in FOLDER, a whole one, with its box laid over the image before; FOLDER/list names
them with the milliseconds for which each is shown, and behind them one that shows nothing. For instance:

  ./vimalorua play --changed --crop --from 0 --to 7200000 --rate 24000/1001 --size 1920x1080 --format rgba \\
      film.ass font.ttf > images 2> index
  examples/changed_frames.py images index frames
  ffmpeg -i film.mkv -f concat -safe 0 -i frames/list -filter_complex overlay=eof_action=pass subtitled.mkv
"""

import os
import re
import sys
import zlib


def read(index):
    """When each image begins, its box, and the end."""
    lines = [list(map(int, re.findall(r"\d+", line))) for line in index.splitlines()]
    return [(it[2], it[3:]) for it in lines[:-1]], lines[-1][1]


def head(images):
    """Reads the head of a PAM, and answers its size."""
    lines = [images.readline() for _ in range(8)]
    return [int(it.split()[1]) for it in lines[2:4]]


def laid(whole, width, pixels, box):
    """Lays the rows of a box over an image."""
    x1, y1, x2, y2 = box
    row = 4 * (x2 - x1)
    for y in range(y1, y2):
        at = 4 * (y * width + x1)
        whole[at : at + row] = pixels[(y - y1) * row :][:row]


def frames(images, entries):
    """The whole images, one after another."""
    is_pam = images.read(2) == b"P7"
    length = images.seek(0, os.SEEK_END)
    images.seek(0)
    width, height = entries[0][1][2:]
    whole = bytearray(4 * width * height)
    cropped = length < len(entries) * len(whole)
    for _, box in entries:
        if is_pam:
            cropped = head(images) != [width, height]
        box = box if cropped else (0, 0, width, height)
        laid(whole, width, images.read(4 * (box[2] - box[0]) * (box[3] - box[1])), box)
        yield whole
    yield bytes(len(whole))


def chunk(kind, data):
    return len(data).to_bytes(4, "big") + kind + data + zlib.crc32(kind + data).to_bytes(4, "big")


def png(whole, width, height):
    rows = b"".join(b"\0" + whole[at : at + 4 * width] for at in range(0, len(whole), 4 * width))
    size = width.to_bytes(4, "big") + height.to_bytes(4, "big") + bytes([8, 6, 0, 0, 0])
    return b"\x89PNG\r\n\x1a\n" + chunk(b"IHDR", size) + chunk(b"IDAT", zlib.compress(rows, 1)) + chunk(b"IEND", b"")


def main(images, index, folder):
    with open(index, encoding="utf-8") as it:
        entries, end = read(it.read())
    if not entries:
        sys.exit("no image was written")
    begins = [begin for begin, _ in entries] + [end, end + 1]
    os.makedirs(folder, exist_ok=True)
    with open(images, "rb") as images, open(f"{folder}/list", "w", encoding="utf-8") as names:
        names.write("ffconcat version 1.0\n")
        for at, whole in enumerate(frames(images, entries)):
            with open(f"{folder}/{at}.png", "wb") as it:
                it.write(png(whole, *entries[0][1][2:]))
            seconds, rest = divmod(begins[at + 1] - begins[at], 1000)
            names.write(f"file '{at}.png'\noption framerate 1000\nduration {seconds}.{rest:03}\n")


if __name__ == "__main__":
    if len(sys.argv) != 4:
        sys.exit(__doc__.strip())
    main(*sys.argv[1:])
