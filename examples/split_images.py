#!/usr/bin/env python3
"""Splits a stream of images, PPM or PAM, into image-0.ppm, image-1.ppm and so on, as `vimalorua play --changed --index` names them.

usage: split_images.py < IMAGES

For instance:

  ./vimalorua play --changed --index list.ffconcat --from 0 --to 7200000 --rate 24000/1001 --size 1920x1080 \\
      --format pam film.ass font.ttf | examples/split_images.py
  ffmpeg -i film.mkv -f concat -safe 0 -i list.ffconcat -filter_complex overlay=eof_action=pass subtitled.mkv
"""

import sys


def ppm(stream):
    """The lines of a PPM's head behind the first, and how many bytes its pixels have."""
    lines = [stream.readline()]
    while lines[-1].startswith(b"#"):
        lines.append(stream.readline())
    columns, rows = map(int, lines[-1].split())
    return [*lines, stream.readline()], 3 * columns * rows


def pam(stream):
    """The same of a PAM."""
    lines = [stream.readline()]
    while lines[-1] not in (b"ENDHDR\n", b""):
        lines.append(stream.readline())
    values = dict(line.split(maxsplit=1) for line in lines[:-1])
    return lines, int(values[b"WIDTH"]) * int(values[b"HEIGHT"]) * int(values[b"DEPTH"])


KINDS = {b"P6\n": ("ppm", ppm), b"P7\n": ("pam", pam)}


def main():
    stream, count = sys.stdin.buffer, 0
    while first := stream.readline():
        if first not in KINDS:
            sys.exit(f"image {count} is neither a PPM nor a PAM")
        ending, head = KINDS[first]
        lines, length = head(stream)
        pixels = stream.read(length)
        if len(pixels) < length:
            sys.exit(f"image {count} ends early")
        with open(f"image-{count}.{ending}", "wb") as it:
            it.write(b"".join([first, *lines, pixels]))
        count += 1


if __name__ == "__main__":
    if len(sys.argv) > 1:
        sys.exit(__doc__.strip())
    main()
