"""The files that the stored runs read, beside those of examples/."""

import os
import shutil

import face_rows
import hand_cff
import hand_font
from script_fonts import coded

HEAD = """[Script Info]
ScriptType: v4.00+
PlayResX: 16
PlayResY: 12
WrapStyle: 2
[V4+ Styles]
Format: Name, Fontname, Fontsize, PrimaryColour, OutlineColour, BackColour, BorderStyle, Outline, Shadow, Alignment
Style: Default,dot,4,&H00FFFFFF,&H00000000,&H80000000,1,0,0,7
[Events]
Format: Layer, Start, End, Style, Name, MarginL, MarginR, MarginV, Effect, Text
"""

GLYPH = "STARTCHAR x\nENCODING {code}\nDWIDTH 1 0\nBBX 1 1 0 0\nBITMAP\n80\nENDCHAR\n"
FONT = "STARTFONT 2.1\nFONT dot\nFONTBOUNDINGBOX 1 1 0 0\n{glyphs}ENDFONT\n"


LETTERS = """[Script Info]
ScriptType: v4.00+
PlayResX: 640
PlayResY: 360
WrapStyle: 2
[V4+ Styles]
Format: Name, Fontname, Fontsize, PrimaryColour, OutlineColour, BackColour, BorderStyle, Outline, Shadow, Alignment
Style: Default,hand,40,&H00FFFFFF,&H00000000,&H80000000,1,0,0,7
[Events]
Format: Layer, Start, End, Style, Name, MarginL, MarginR, MarginV, Effect, Text
"""


def line(start, end, text, margin="0", layer="0"):
    return f"Dialogue: {layer},{start},{end},Default,,{margin},0,0,,{text}\n"


def stroke_lines():
    """Letters of the fonts with PostScript outlines that are written by hand."""
    letters = [chr(hand_cff.FIRST_CODE + k) for k in range(len(hand_cff.glyphs()))]
    return glyph_lines("\\N".join("".join(letters[k : k + 18]) for k in range(0, len(letters), 18)))


def glyph_lines(text=None):
    """Tags, and the letters of the font that is written by hand, as its maps have them."""
    mapped = "".join(map(chr, range(33, 85)))
    others = "".join(map(chr, [*range(256, 261), 512, *range(1024, 1027), *range(2048, 2052), 65000, 128512, 128514, 1114111, 122]))
    text = text or "\\N".join([mapped[:20], mapped[20:40], mapped[40:], others])
    for tags in ["", r"\b1\i1\u1\s1", r"\frz20\bord3\shad2", r"\frz-50\u1\b1\blur2", r"\fscx30\fscy250"]:
        yield f"{{{tags}}}", text


def face_lines():
    """Letters in the four faces of a family, in all of them, in a face of another family, and by full names."""
    yield from (f"{{{tags}}}AAAA" for tags in ["", r"\b1", r"\i1", r"\b1\i1"])
    yield from [r"AA{\b1}AA{\i1}AA{\b0}AA", "A B", r"{\fnPlain}B"]
    yield from (f"{{{tags}}}AAAA" for tags in [r"\fnHand Bold", r"\fnHand Bold\i1", r"\fn@hand\b500", r"\fnHandBoldPS\b1"])


def in_turn(lines):
    """A script of lines, a second each."""
    return LETTERS + "".join(line(f"0:00:{k:02}.00", f"0:00:{k + 1:02}.00", text) for k, text in enumerate(lines))


def scripts():
    x = line("0:00:00.00", "0:00:01.00", "x")
    yield "empty.ass", ""
    yield "no_events.ass", "[Script Info]\nPlayResX: 4\n"
    yield "no_lines.ass", HEAD
    yield "not_utf8.ass", b"[Script Info]\n; \xe4\n[Events]\n"
    yield "crlf.ass", "\ufeff" + (HEAD + x).replace("\n", "\r\n")
    yield "early.ass", HEAD + line("0:00:09.00", "0:00:10.00", "x") + line("0:00:01.00", "0:00:02.00", "x")
    yield "fine.ass", HEAD + line("0:00:01.00", "0:00:02.00", "x")
    yield "late.ass", HEAD + line("999999:59:59.00", "999999:59:59.99", "x")
    yield "malformed.ass", HEAD + x + "".join(
        [
            line("0:00:00.00", "0:00:01.00", "x", layer="no"),
            line("soon", "0:00:01.00", "x"),
            line("0:00:00.00", "0:00:01", "x"),
            line("0:00:00.00", "0:00:01.00", "x", margin="2147483648"),
            "Dialogue: 0,0:00:00.00\n",
            "Dialogue: \n",
        ]
    )
    yield "ssa.ssa", (
        "[Script Info]\nScriptType: v4.00\nPlayResX: 16\nPlayResY: 12\n[V4 Styles]\n"
        "Format: Name, Fontname, Fontsize, PrimaryColour, Alignment\nStyle: *Default,dot,4,65535,6\n[Events]\n"
        "Format: Marked, Start, End, Style, Name, MarginL, MarginR, MarginV, Effect, Text\n"
        "Dialogue: Marked=0,0:00:00.00,0:00:01.00,*Default,,0000,0000,0000,,x x\n"
    )
    yield "moves.ass", HEAD + line("0:00:00.00", "0:00:01.00", r"{\move(0,0,12,8)}x") + line("0:00:00.50", "0:00:01.00", "x x")
    yield "glyphs.ass", in_turn(tags + text for tags, text in glyph_lines())
    yield "strokes.ass", in_turn(tags + text for tags, text in stroke_lines())
    yield "faces.ass", in_turn(face_lines())
    yield "face.ass", in_turn("AAAA" for _ in face_lines())
    yield "-x.ass", HEAD + x
    yield "two words.ass", HEAD + x
    yield "styles.ass", HEAD.replace("[Events]", "Style: Default,dot,4\n" * 10_000 + "[Events]")
    yield "lines.ass", HEAD + x * 1_000_001
    yield "held_character.ass", HEAD + x + "[Fonts]\nfontname: one.bdf\n9a\n"
    yield "held_left.ass", HEAD + x + "[Fonts]\nfontname: one.bdf\n97*D9\n"
    yield "held_other.ass", HEAD + x + "[Fonts]\nfontname: one.bdf\n" + coded(FONT.format(glyphs=GLYPH.format(code=120)).encode()) + "\nfontname: text\n97*D\n"


def fonts():
    x = GLYPH.format(code=120)
    whole = FONT.format(glyphs=x)
    yield "empty.bdf", ""
    yield "no_start.bdf", "FONT dot\n" + whole
    yield "bad_number.bdf", whole.replace("BBX 1 1", "BBX 1 1025")
    yield "bad_row.bdf", whole.replace("BITMAP\n80", "BITMAP\n8")
    yield "misplaced.bdf", whole.replace("STARTCHAR", "ENDCHAR\nSTARTCHAR")
    yield "no_end.bdf", whole.replace("ENDFONT\n", "")
    yield "no_glyphs.bdf", FONT.format(glyphs="")
    yield "one.bdf", whole
    yield "truetype.ttf", b"\0\1\0\0\0\4" + bytes(90)
    yield "glyphs.bdf", FONT.format(glyphs=x * 131_073)


def faces():
    """A family of four faces, in one file and each in its own, and a face of another family."""
    held = [face.file() for face in face_rows.FACES[:5]]
    yield "family.ttc", hand_font.collection(*held[:4])
    yield from zip(["regular.ttf", "bold.ttf", "italic.ttf", "bold_italic.ttf", "other.ttf"], held, strict=True)


def make(room, examples):
    """Puts the files and those of examples/ into a folder."""
    for name in os.listdir(examples):
        shutil.copy(f"{examples}/{name}", room)
    for name, text in [*scripts(), *fonts(), *hand_font.fonts(), *hand_cff.fonts(), *faces()]:
        with open(f"{room}/{name}", "wb") as it:
            it.write(text if isinstance(text, bytes) else text.encode())
    os.mkdir(f"{room}/folder")
    with open(f"{room}/large.bdf", "wb") as it:
        it.truncate(67_108_865)
