#!/usr/bin/env python3
"""Asks libass and what stands in its place for the same, from Python by ctypes.

usage: python3 c/libass/tracks.py LIBASS PLACED PROGRAM EXAMPLES

LIBASS is the system's libass.so.9, PLACED the one that is made here. Compared are all fields of tracks: of scripts,
also odd ones, of styles that are forced on them, of chunks and steps. Then frames by PLACED alone, blended by the library's
rule, are compared with those of PROGRAM, byte for byte. The last line is 'N passed, M failed'.
"""

import ctypes
import json
import os
import subprocess
import sys
import tempfile

INT, DOUBLE, TEXT, LONG, COLOUR = ctypes.c_int, ctypes.c_double, ctypes.c_char_p, ctypes.c_longlong, ctypes.c_uint32


def of_kinds(**kinds):
    return [(name, kind) for names, kind in kinds.values() for name in names.split()]


class Style(ctypes.Structure):
    _fields_ = of_kinds(
        a=("Name FontName", TEXT),
        b=("FontSize", DOUBLE),
        c=("PrimaryColour SecondaryColour OutlineColour BackColour", COLOUR),
        d=("Bold Italic Underline StrikeOut", INT),
        e=("ScaleX ScaleY Spacing Angle", DOUBLE),
        f=("BorderStyle", INT),
        g=("Outline Shadow", DOUBLE),
        h=("Alignment MarginL MarginR MarginV Encoding treat_fontname_as_pattern", INT),
        i=("Blur", DOUBLE),
        j=("Justify", INT),
    )


class Event(ctypes.Structure):
    _fields_ = of_kinds(
        a=("Start Duration", LONG),
        b=("ReadOrder Layer Style", INT),
        c=("Name", TEXT),
        d=("MarginL MarginR MarginV", INT),
        e=("Effect Text", TEXT),
        f=("render_priv", ctypes.c_void_p),
    )


class Track(ctypes.Structure):
    _fields_ = of_kinds(
        a=("n_styles max_styles n_events max_events", INT),
        b=("styles", ctypes.POINTER(Style)),
        c=("events", ctypes.POINTER(Event)),
        d=("style_format event_format", TEXT),
        e=("track_type PlayResX PlayResY", INT),
        f=("Timer", DOUBLE),
        g=("WrapStyle ScaledBorderAndShadow Kerning", INT),
        h=("Language", TEXT),
        i=("YCbCrMatrix default_style", INT),
        j=("name", TEXT),
        k=("library parser_priv", ctypes.c_void_p),
        l=("LayoutResX LayoutResY", INT),
    )


class Image(ctypes.Structure):
    pass


Image._fields_ = of_kinds(
    a=("w h stride", INT),
    b=("bitmap", ctypes.POINTER(ctypes.c_ubyte)),
    c=("color", COLOUR),
    d=("dst_x dst_y", INT),
    e=("next", ctypes.POINTER(Image)),
    f=("type", INT),
)
MESSAGE = ctypes.CFUNCTYPE(None, INT, TEXT, ctypes.c_void_p, ctypes.c_void_p)
UNSEEN = {"max_styles", "max_events", "styles", "events", "library", "parser_priv", "render_priv"}


def fields(struct):
    values = {name: getattr(struct, name) for name, _ in struct._fields_ if name not in UNSEEN}
    return {name: value.decode("latin1") if isinstance(value, bytes) else value for name, value in values.items()}


class Libass:
    """A library, and its calls on tracks."""

    def __init__(self, path):
        self.calls = ctypes.CDLL(path)
        for name in ("ass_library_init", "ass_renderer_init"):
            getattr(self.calls, name).restype = ctypes.c_void_p
        for name in ("ass_new_track", "ass_read_memory"):
            getattr(self.calls, name).restype = ctypes.POINTER(Track)
        self.calls.ass_render_frame.restype = ctypes.POINTER(Image)
        self.calls.ass_step_sub.restype = LONG
        self.library = ctypes.c_void_p(self.calls.ass_library_init())
        self.message = MESSAGE(lambda *words: None)
        self.calls.ass_set_message_cb(self.library, self.message, None)

    def track(self, text=None):
        if text is None:
            return self.calls.ass_new_track(self.library)
        return self.calls.ass_read_memory(self.library, text, ctypes.c_size_t(len(text)), None)

    def renderer(self, w, h, font=None):
        made = ctypes.c_void_p(self.calls.ass_renderer_init(self.library))
        self.calls.ass_set_frame_size(made, w, h)
        self.calls.ass_set_storage_size(made, w, h)
        self.calls.ass_set_fonts(made, font, b"sans-serif", 0, None, 0)
        return made

    def seen(self, track):
        if not track:
            return None
        it = track.contents
        styles, events = ([fields(items[i]) for i in range(count)] for items, count in ((it.styles, it.n_styles), (it.events, it.n_events)))
        return {**fields(it), "styles": styles, "events": events}


# Scripts


HEAD = "[Script Info]\nScriptType: v4.00+\n"
STYLES = """[V4+ Styles]
Format: Name, Fontname, Fontsize, PrimaryColour, SecondaryColour, OutlineColour, BackColour, Bold, Italic, Underline, \
StrikeOut, ScaleX, ScaleY, Spacing, Angle, BorderStyle, Outline, Shadow, Alignment, MarginL, MarginR, MarginV, Encoding
"""
EVENTS = "[Events]\nFormat: Layer, Start, End, Style, Name, MarginL, MarginR, MarginV, Effect, Text\n"
LINE = "Dialogue: 0,0:00:01.00,0:00:02.00,Default,,0,0,0,,text\n"
SSA = """[Script Info]
ScriptType: v4.00
[V4 Styles]
Format: Name, Fontname, Fontsize, PrimaryColour, SecondaryColour, TertiaryColour, BackColour, Bold, Italic, \
BorderStyle, Outline, Shadow, Alignment, MarginL, MarginR, MarginV, AlphaLevel, Encoding
"""
SSA_EVENTS = "[Events]\nFormat: Marked, Start, End, Style, Name, MarginL, MarginR, MarginV, Effect, Text\n"


def style(name, alignment=2, flag=0, border=1, colour="&H00FFFFFF", scale=90, size=1.5):
    flags = f"{flag},{flag},{flag},{flag}"
    return f"Style: {name},Arial,20,{colour},&H0000FFFF,&H00112233,&H80445566,{flags},100,{scale},{size},-3,{border},{size},1.5,{alignment},10,20,30,1\n"


def headers():
    said = {
        "nothing": "",
        "a height": "PlayResY: 720\n",
        "a height of 1024": "PlayResY: 1024\n",
        "a width": "PlayResX: 1000\n",
        "a width of 1280": "PlayResX: 1280\n",
        "all": "PlayResX: 640\nPlayResY: 360\nTimer: 99.5\nWrapStyle: 2\nScaledBorderAndShadow: yes\nKerning: yes\nLanguage: english\n"
        "YCbCr Matrix: TV.709\nLayoutResX: 12\nLayoutResY: 34\n",
        "odd words": " PlayResX : 640\n!PlayResY: 5\n; c: 1\nplayresy:360x\nscaledborderandshadow: 1\nYCbCr Matrix: none\nKerning:0\nWrapStyle:  -1\n",
        "what is below 0": "PlayResX: -5\nPlayResY: 0\nYCbCr Matrix: other\nTimer: x\n",
    }
    return {f"a header of {name}": HEAD + words + STYLES + style("Default") + EVENTS + LINE for name, words in said.items()}


def styled():
    colours = ("&H12345678", "&HFF", "16777215", "-1", "4294967295", "&hffffff&", "H00ff00", "0xFF00", "99999999999", "")
    lines = [style(f"a{it}", it) for it in range(-1, 13)]
    lines += [style(f"f{it}", flag=it) for it in (-2, -1, 0, 1, 2, 400)] + [style(f"b{it}", border=it) for it in range(5)]
    lines += [style(f"c{i}", colour=it) for i, it in enumerate(colours)] + [style("s", scale=-5, size=-1.5)]
    lines += [style("*Star"), style("Default"), style("Default", 3), style(""), style("default", 5)]
    lines += ["Style: short,Arial,30\n", "Style:nospace,Arial,30\n", "Style: , ,x,y\n"]
    names = ("a1", "Default", "default", "DEFAULT", "*Default", "*Star", "Star", "none", " a2", "a2 ", "A3", "", "**a3")
    return HEAD + STYLES + "".join(lines) + EVENTS + "".join(LINE.replace("Default", it) for it in names)


def timed():
    times = "0:00:01.00 00:00:01.5 1:2:3.4 0:0:0.999 x 1:00 -1:00:00.00 0:00:01:50 100:00:00.00 0:00:01,00 0:00:01".split()
    lines = [f"Dialogue: {i},{it},0:00:10.00,Default,N, 1,-2,003,eff, te,xt \n" for i, it in enumerate(times)]
    front = "0,0:00:05.00,0:00:02.00,Default,,0,0"
    lines += [f"Dialogue: {front}\n", f"Comment: {front},0,,no\n", f"dialogue: {front},0,,low\n", f"Dialogue:{front},0,,near\n"]
    lines += [f"Dialogue:   {front},0,,   blanks\n", f" Dialogue: {front},0,,front\n", f"Dialogue: {front},0,,\n"]
    lines += [f"Dialogue: {front},0,,end\r\n"]
    return HEAD + STYLES + style("Default") + EVENTS + "".join(lines) + LINE.strip()


def scripts():
    small = HEAD + STYLES + style("Default") + EVENTS + LINE
    ssa_styles = [f"Style: s{it},Arial,20,{it * 1000},255,65535,&H80000000,-1,0,1,2,3,{it},10,20,30,{it},0\n" for it in range(13)]
    ssa_lines = "Dialogue: Marked=0,0:00:01.00,0:00:02.00,s3,,0000,0000,0000,,text\nDialogue: Marked=1,0:00:01.00,0:00:02.00,s9,,0,0,0,!Effect,{\\a6}text\n"
    made = {
        **headers(),
        "styles": styled(),
        "times": timed(),
        "another format": HEAD + "[V4+ Styles]\nFormat: Fontname, Name, Bold, Fontsize, Alignment, Foo\nStyle: F,N,-1,33,8,foo\nStyle: F2,N2,1,12\n"
        "[Events]\nFormat: Start, End, Layer, Actor, Style, Text\nDialogue: 0:00:01.00,0:00:02.00,3,act,N2,te,xt\n",
        "no format": HEAD + "[V4+ Styles]\n" + style("D") + "[Events]\n" + LINE,
        "styles behind events": HEAD + EVENTS + LINE + STYLES + style("Default"),
        "SSA": SSA + "".join(ssa_styles) + SSA_EVENTS + ssa_lines,
        "SSA without a format": "[Script Info]\n[V4 Styles]\nStyle: s,Arial,20,255,255,65535,0,-1,0,1,2,3,2,10,20,30,0,0\n[Events]\n" + ssa_lines,
        "no script": "hello\n",
        "no text": "",
        "a mark of byte order": "\xef\xbb\xbf" + small,
        "lines of CRLF": small.replace("\n", "\r\n"),
        "blank lines and other sections": HEAD + "\n\n" + STYLES + "\n" + style("Default") + "\n[Fonts]\nfontname: x\n\n" + EVENTS + "\n" + LINE + "\n[Other]\na: b\n",
        "small headings": HEAD + "[v4+ styles]\nFormat: Name, Fontname, ScaleX, Blur, Justify, Encoding\nStyle: D,@Tall,50,3,2,128\n[EVENTS]\n" + LINE,
    }
    return {name: text.encode("latin1") for name, text in made.items()}


FORCED = "Fontname=Other Default.FontSize=33.5 Alignment=6 ScaleX=1.5 Bold=1 s3.PrimaryColour=&H0000FF OutlineColour=255".split()
FORCED += "PlayResX=777 WrapStyle=1 ScaledBorderAndShadow=yes Blur=2 Justify=1 LayoutResX=5 a.b.MarginV=7 MarginL=-4".split()
FORCED += ["nothing", "Kerning=yes", "YCbCr Matrix=PC.709", "Timer=50"]
CHUNKS = ["3,1,Default,who,1,2,3,eff,te,xt ", "3,0,Default,,0,0,0,,again", "x,y,none,,,,,,odd", "5,0,Default,,0,0"]
CHUNKS += ["-1,0,*Default,,0,0,0,,below 0", "7,0,Default,,0,0,0,,a\\Nb\r\n"]


def forced(libass):
    words = (TEXT * (len(FORCED) + 1))(*(it.encode() for it in FORCED), None)
    libass.calls.ass_set_style_overrides(libass.library, words)
    tracks = [libass.seen(libass.track(scripts()[name])) for name in ("styles", "SSA", "times")]
    libass.calls.ass_set_style_overrides(libass.library, None)
    return tracks


def streamed(libass):
    track = libass.track()
    head = (HEAD + STYLES + style("Default") + EVENTS).encode()
    libass.calls.ass_process_codec_private(track, head, len(head))
    for i, chunk in enumerate(CHUNKS):
        libass.calls.ass_process_chunk(track, chunk.encode(), len(chunk), LONG(1000 * i), LONG(700))
    seen = [libass.seen(track)]
    for checks in (0, 1):
        libass.calls.ass_set_check_readorder(track, checks)
        for chunk in CHUNKS[:2]:
            libass.calls.ass_process_chunk(track, chunk.encode(), len(chunk), LONG(50), LONG(5))
        seen.append(libass.seen(track))
    libass.calls.ass_flush_events(track)
    libass.calls.ass_process_chunk(track, CHUNKS[0].encode(), len(CHUNKS[0]), LONG(50), LONG(5))
    return [*seen, libass.seen(track)]


def steps(libass):
    lines = [f"Dialogue: 0,0:00:{a:02}.00,0:00:{b:02}.50,Default,,0,0,0,,text\n" for a, b in ((1, 2), (1, 5), (3, 4), (10, 12), (20, 21), (7, 7))]
    track = libass.track((HEAD + STYLES + style("Default") + EVENTS + "".join(lines)).encode())
    return [libass.calls.ass_step_sub(track, LONG(now), by) for now in range(0, 24000, 500) for by in range(-3, 4)]


def all_seen(path):
    """All that a library answers, by names."""
    libass = Libass(path)
    renderer = libass.renderer(64, 36)
    seen = {"a new track": libass.seen(libass.track())}
    for name, text in scripts().items():
        track = libass.track(text)
        seen[f"a script of {name}"] = libass.seen(track)
        if track:
            libass.calls.ass_render_frame(renderer, track, LONG(0), None)
            seen[f"a script of {name}, shown"] = libass.seen(track)
    return {**seen, "forced styles": forced(libass), "chunks": streamed(libass), "steps": steps(libass)}


# Comparing


def differences(place, one, other):
    if isinstance(one, dict) and isinstance(other, dict):
        return [it for key in one for it in differences(f"{place}, {key}", one[key], other.get(key))]
    if isinstance(one, list) and isinstance(other, list) and len(one) == len(other):
        return [it for i in range(len(one)) for it in differences(f"{place}, {i}", one[i], other[i])]
    return [] if one == other else [f"{place}: {str(one)[:80]} by libass, and {str(other)[:80]}"]


def blended(images, w, h):
    """The images over black, by the library's rule."""
    pixels = bytearray(3 * w * h)
    while images:
        it = images.contents
        *colour, a = it.color.to_bytes(4, "big")
        for y in range(it.h):
            for x, m in enumerate(it.bitmap[y * it.stride : y * it.stride + it.w]):
                at, k = 3 * ((it.dst_y + y) * w + it.dst_x + x), (m * (255 - a) + 127) // 255
                if k:
                    pixels[at : at + 3] = ((d * (255 - k) + c * k + 127) // 255 for d, c in zip(pixels[at : at + 3], colour))
        images = it.next
    return bytes(pixels)


def frames(placed, program, examples):
    """Frames that differ from the program's, of few pixels since Python blends them."""
    w, h = 320, 180
    libass = Libass(placed)
    renderer = libass.renderer(w, h, f"{examples}/letters.ttf".encode())
    wrong = []
    for name, ms in (("dialogue", 2000), ("karaoke", 2500), ("signs", 2500), ("signs", 4000)):
        with open(f"{examples}/{name}.ass", "rb") as it:
            track = libass.track(it.read())
        own = blended(libass.calls.ass_render_frame(renderer, track, LONG(ms), None), w, h)
        words = f"frame --at {ms} --size {w}x{h} --storage {w}x{h} --letters aspect {examples}/{name}.ass {examples}/letters.ttf"
        wanted = subprocess.run([program, *words.split()], stdout=subprocess.PIPE, check=True).stdout[-3 * w * h :]
        wrong.append([f"the frame of {name} at {ms} is another one"] if own != wanted or not any(own) else [])
    return wrong


def seen_by(path):
    """Each library in a process of its own."""
    with tempfile.TemporaryFile() as file:
        subprocess.run([sys.executable, __file__, "--seen", path], stdout=file, check=True)
        file.seek(0)
        return json.load(file)


def main(words):
    if len(words) == 2 and words[0] == "--seen":
        print(json.dumps(all_seen(words[1])))
        return 0
    if len(words) != 4:
        print(__doc__.strip(), file=sys.stderr)
        return 2
    libass, placed, program, examples = map(os.path.abspath, words)
    one, other = seen_by(libass), seen_by(placed)
    wrong = [differences(name, one[name], other[name]) for name in one] + frames(placed, program, examples)
    for it in wrong:
        for line in it[:5]:
            print(f"FAILED: {line}")
    failed = sum(map(bool, wrong))
    print(f"{len(wrong) - failed} passed, {failed} failed")
    return failed > 0


if __name__ == "__main__":
    sys.exit(main(sys.argv[1:]))
