#!/usr/bin/env python3
"""Lines of a script that was made of SRT, in frames of several videos: where their letters stand beside those of libass.

usage: python3 tests/views.py

That measures the boxes anew with libass 0.17 (libass.so.9), and prints the rows of BOXES.
"""

import ctypes
import os
import subprocess

TOP = os.path.dirname(os.path.dirname(os.path.realpath(__file__)))
FONT = "letters.ttf"

# What FFmpeg makes of SRT, in the font of examples/. Its canvas is 384 by 288, whatever the video is.
HEAD = """[Script Info]
ScriptType: v4.00+
PlayResX: 384
PlayResY: 288
ScaledBorderAndShadow: yes

[V4+ Styles]
Format: Name, Fontname, Fontsize, PrimaryColour, SecondaryColour, OutlineColour, BackColour, Bold, Italic, Underline, StrikeOut, ScaleX, ScaleY, Spacing, Angle, BorderStyle, Outline, Shadow, Alignment, MarginL, MarginR, MarginV, Encoding
Style: Default,Smooth Letter,16,&Hffffff,&Hffffff,&H0,&H0,0,0,0,0,100,100,0,0,1,1,0,2,10,10,10,0

[Events]
Format: Layer, Start, End, Style, Name, MarginL, MarginR, MarginV, Effect, Text
"""
LINE = "Dialogue: 0,0:00:00.00,0:00:01.00,Default,,0,0,0,,"
SHORT = "We meet at the quay"
LONG = "The last ferry leaves at nine, and I haven't even packed the books that you gave me."

# A text, and the words of its frame.
ROWS = [
    (SHORT, "--size 640x360"),
    (SHORT, "--size 640x360 --storage 640x360"),
    (SHORT, "--size 1280x720 --storage 1920x1080"),
    (LONG, "--size 640x360 --storage 640x360"),
    (SHORT, "--size 1024x576 --storage 720x576"),
    (SHORT, "--size 1024x576 --aspect 64/45"),
    (SHORT, "--size 480x576 --aspect 3/4"),
    (r"{\an8}" + SHORT, "--size 640x480 --storage 720x480"),
    (r"{\i1}- Where?\N- Here.", "--size 854x480 --storage 854x480"),
    (SHORT, "--size 640x360 --storage 640x360 --scale 1500"),
    (SHORT, "--size 640x480 --content=0,60,640x360 --storage 1280x720"),
    (r"{\pos(192,144)\an5}" + SHORT, "--size 640x480 --content=80,0,480x480 --storage 480x480 --scale 2000"),
]

# The columns and the rows of their letters, from the first up to the one behind the last, by libass 0.17.1.
BOXES = [
    (240, 331, 400, 347),
    (240, 331, 400, 347),
    (480, 663, 800, 694),
    (161, 311, 479, 347),
    (330, 530, 694, 555),
    (330, 530, 694, 555),
    (144, 530, 336, 555),
    (226, 22, 414, 43),
    (383, 415, 475, 458),
    (200, 323, 440, 347),
    (240, 391, 400, 407),
    (214, 232, 426, 253),
]


def script_of(text):
    return f"{HEAD}{LINE}{text}\n"


def box_of(pixels, w, h):
    """The box of the pixels that are half white at least, one byte for each."""
    rows = [y for y in range(h) if max(pixels[y * w : y * w + w]) > 127]
    if not rows:
        return (0, 0, 0, 0)
    columns = [x for x in range(w) if max(pixels[x::w]) > 127]
    return (columns[0], rows[0], columns[-1] + 1, rows[-1] + 1)


def views(score, given):
    """The letters of each row stand where libass has them, and are as wide and as high, to a pixel."""
    for k, ((text, words), wanted) in enumerate(zip(ROWS, BOXES, strict=True)):
        name = f"{given.room}/view-{k}.ass"
        with open(name, "w", encoding="utf-8") as it:
            it.write(script_of(text))
        ask = [given.program, "frame", "--at", "500", "--letters", "aspect", *words.split(), name, f"{given.room}/{FONT}"]
        done = subprocess.run(ask, stdin=subprocess.DEVNULL, capture_output=True, timeout=600)
        box = None
        if done.returncode == 0:
            _, _, size, _, pixels = done.stdout.split(b"\n", 4)
            w, h = map(int, size.split())
            box = box_of(pixels[::3], w, h)
        near = box is not None and all(abs(a - b) <= 1 for a, b in zip(box, wanted))
        score.check(near, f"{text} with {words} stands at {box}, and by libass at {wanted}")


class Image(ctypes.Structure):
    """An image of libass."""


Image._fields_ = [
    *[(name, ctypes.c_int) for name in ("w", "h", "stride")],
    ("bitmap", ctypes.POINTER(ctypes.c_ubyte)),
    ("color", ctypes.c_uint32),
    *[(name, ctypes.c_int) for name in ("x", "y")],
    ("next", ctypes.POINTER(Image)),
    ("type", ctypes.c_int),
]


def libass():
    """The library, with the types of what it answers."""
    lib = ctypes.CDLL("libass.so.9")
    for name in ("ass_library_init", "ass_renderer_init", "ass_read_memory"):
        getattr(lib, name).restype = ctypes.c_void_p
    lib.ass_render_frame.restype = ctypes.POINTER(Image)
    lib.ass_set_pixel_aspect.argtypes = lib.ass_set_font_scale.argtypes = [ctypes.c_void_p, ctypes.c_double]
    return lib


def asked(words):
    """The numbers of the words: size, content, storage, aspect and scale."""
    found = dict(zip(*[iter(words.replace("=", " ").split())] * 2))
    w, h = map(int, found["--size"].split("x"))
    left, top, content = (found.get("--content") or f"0,0,{w}x{h}").split(",")
    storage = tuple(map(int, found.get("--storage", "0x0").split("x")))
    wide, high = map(int, found.get("--aspect", "0/1").split("/"))
    return (w, h), (int(left), int(top), *map(int, content.split("x"))), storage, wide / high, int(found.get("--scale", "1000")) / 1000


def measured(lib, text, words):
    """The box of a row by libass."""
    (w, h), (left, top, content_w, content_h), storage, aspect, scale = asked(words)
    one = lib.ass_library_init()
    library = ctypes.c_void_p(one)
    with open(f"{TOP}/examples/{FONT}", "rb") as it:
        font = it.read()
    lib.ass_add_font(library, b"letters", font, len(font))
    renderer = ctypes.c_void_p(lib.ass_renderer_init(library))
    lib.ass_set_frame_size(renderer, w, h)
    lib.ass_set_margins(renderer, top, h - top - content_h, left, w - left - content_w)
    lib.ass_set_use_margins(renderer, 0)
    lib.ass_set_storage_size(renderer, *storage)
    lib.ass_set_pixel_aspect(renderer, aspect)
    lib.ass_set_font_scale(renderer, scale)
    lib.ass_set_fonts(renderer, None, b"Smooth Letter", 0, None, 1)
    script = script_of(text).encode()
    track = ctypes.c_void_p(lib.ass_read_memory(library, script, len(script), None))
    image = lib.ass_render_frame(renderer, track, ctypes.c_longlong(500), None)
    pixels = bytearray(w * h)
    while image:
        it = image.contents
        if it.type == 0:
            for y in range(it.h):
                for x in range(it.w):
                    at = (it.y + y) * w + it.x + x
                    pixels[at] = max(pixels[at], it.bitmap[y * it.stride + x])
        image = it.next
    lib.ass_free_track(track)
    lib.ass_renderer_done(renderer)
    lib.ass_library_done(library)
    return box_of(pixels, w, h)


if __name__ == "__main__":
    for text, words in ROWS:
        print(f"    {measured(libass(), text, words)},")
