#!/usr/bin/env python3
"""Which face of a set a style finds, here and by libass 0.17: the rows of the table in docs/DIFFERENCES.md.

usage: python3 tests/chosen_faces.py PROGRAM

Wants libass.so.9, and Debian's fonts-dejavu. The face that PROGRAM finds is the one that, alone, gives the picture which
the whole set gives; libass tells its own.
"""

import ctypes
import re
import subprocess
import sys
import tempfile

FOLDER = "/usr/share/fonts/truetype/dejavu"
W, H = 320, 80

# The faces of a set, in its order; and for each row a name and the tags before the text.
FACES = ["Sans-Bold", "Sans-Oblique", "Sans", "Sans-BoldOblique", "Serif"]
ROWS = [
    ("DejaVu Sans", ""),
    ("dejavu sans", ""),
    ("DejaVu Sans", r"\b1"),
    ("DejaVu Sans", r"\i1"),
    ("DejaVu Sans", r"\b1\i1"),
    ("DejaVu Sans", r"\b500"),
    ("DejaVu Serif", r"\b1"),
    ("DejaVu Sans Bold", ""),
    ("DejaVu Sans Bold", r"\i1"),
    ("DejaVu Sans Bold Oblique", ""),
    ("@DejaVu Sans", ""),
    ("DejaVuSans-Oblique", ""),
    ("Nonesuch", r"\i1"),
]

# The same where the regular face is missing.
FEWER = ["Sans-BoldOblique", "Sans-Bold", "Sans-Oblique"]
FEWER_ROWS = [("DejaVu Sans", ""), ("DejaVu Sans", r"\b1")]

HEAD = f"""[Script Info]
ScriptType: v4.00+
PlayResX: {W}
PlayResY: {H}

[V4+ Styles]
Format: Name, Fontname, Fontsize, PrimaryColour, Bold, Italic, Outline, Shadow, Alignment
"""
EVENT = "[Events]\nFormat: Start, End, Style, Text\nDialogue: 0:00:00.00,0:00:01.00,Default,{\\pos(10,60)%s}Raging\n"


def script_of(name, tags):
    return (HEAD + f"Style: Default,{name},40,&Hffffff,0,0,0,0,1\n" + EVENT % tags).encode()


def path_of(face):
    return f"{FOLDER}/DejaVu{face}.ttf"


def picture(program, faces, script):
    """The picture of a script in faces."""
    with tempfile.NamedTemporaryFile(suffix=".ass") as it:
        it.write(script)
        it.flush()
        ask = [program, "frame", "--at", "500", "--size", f"{W}x{H}", it.name, *map(path_of, faces)]
        return subprocess.run(ask, stdin=subprocess.DEVNULL, stdout=subprocess.PIPE, check=True, timeout=600).stdout


def chosen_here(program, faces, script):
    """The face whose picture is that of the whole set."""
    whole = picture(program, faces, script)
    [found] = [face for face in faces if picture(program, [face], script) == whole]
    return found


def chosen_by_libass(lib, faces, script):
    """The face that libass tells last, by its name in PostScript: that of the tags."""
    told = []

    @ctypes.CFUNCTYPE(None, ctypes.c_int, ctypes.c_char_p, ctypes.c_void_p, ctypes.c_void_p)
    def note(_level, text, words, _data):
        line = ctypes.create_string_buffer(1000)
        ctypes.CDLL(None).vsnprintf(line, ctypes.c_size_t(1000), text, ctypes.c_void_p(words))
        told.append(line.value.decode())

    library = ctypes.c_void_p(lib.ass_library_init())
    lib.ass_set_message_cb(library, note, None)
    for face in faces:
        with open(path_of(face), "rb") as it:
            font = it.read()
        lib.ass_add_font(library, face.encode(), font, len(font))
    renderer = ctypes.c_void_p(lib.ass_renderer_init(library))
    lib.ass_set_frame_size(renderer, W, H)
    lib.ass_set_fonts(renderer, None, None, 0, None, 0)
    track = ctypes.c_void_p(lib.ass_read_memory(library, script, ctypes.c_size_t(len(script)), None))
    lib.ass_render_frame(renderer, track, ctypes.c_longlong(500), None)
    lines = [it for it in told if it.startswith("fontselect")]
    found = re.search(r"\) -> .*DejaVu([\w-]+)$", lines[-1]) if lines else None
    lib.ass_free_track(track)
    lib.ass_renderer_done(renderer)
    lib.ass_library_done(library)
    return found[1] if found else "none"


def main(words):
    if len(words) != 1:
        print(__doc__.strip(), file=sys.stderr)
        return 2
    libass = ctypes.CDLL("libass.so.9")
    for name in ("ass_library_init", "ass_renderer_init", "ass_read_memory"):
        getattr(libass, name).restype = ctypes.c_void_p
    for faces, rows in ((FACES, ROWS), (FEWER, FEWER_ROWS)):
        print(f"{', '.join(faces)}:")
        for name, tags in rows:
            script = script_of(name, tags)
            print(f"| {name} | {tags and '`' + tags + '`'} | {chosen_here(words[0], faces, script)} | {chosen_by_libass(libass, faces, script)} |")
    return 0


if __name__ == "__main__":
    sys.exit(main(sys.argv[1:]))
