#!/usr/bin/env python3
"""Compares a client's picture with the program's, both binary PPM.

usage: python3 c/libass/compare.py CLIENT PROGRAM MOST [ROW]

They agree where both are of one size, each channel differs by MOST at most from row ROW on, and the client's isn't
black, nor above ROW. It tells the largest difference, and its status is 0 where they agree.
"""

import re
import sys


def parted(path):
    """A picture's size and its pixels."""
    with open(path, "rb") as it:
        size, pixels = re.fullmatch(rb"P6\n(?:# .*\n)?(\d+ \d+)\n255\n(.*)", it.read(), re.S).groups()
    return tuple(map(int, size.split())), pixels


def main(client, program, most, row="0"):
    (size, own), (other_size, wanted) = parted(client), parted(program)
    front = 3 * size[0] * int(row)
    far = max((abs(a - b) for a, b in zip(own[front:], wanted[front:])), default=0)
    print(f"a channel differs by {far} at most")
    return not (size == other_size and far <= int(most) and any(own[front:]) and (front == 0 or any(own[:front])))


if __name__ == "__main__":
    if len(sys.argv) not in (4, 5):
        sys.exit(__doc__.strip())
    sys.exit(main(*sys.argv[1:]))
