"""Subtitles over a video by FFmpeg: the frames beside a blend of our own, instants at their frames, and the commands of the documents.

The blend here is of straight alpha in whole numbers: (below * (255 - alpha) + above * alpha) / 255, to the nearest.
"""

import os
import re
import shutil
import subprocess

WIDTH, HEIGHT = 320, 180
SIZE = f"{WIDTH}x{HEIGHT}"
RATE = "24000/1001"
FRAMES = 24

# Scripts, their font, and where their play begins.
SHOWN = [("dialogue.ass", "letters.ttf", 5200), ("karaoke.ass", "letters.ttf", 4000), ("signs.ass", "subtitle.bdf", 900)]

# How FFmpeg reads each format with alpha, behind a rate.
FORMATS = {
    "rgba": ["-f", "rawvideo", "-pix_fmt", "rgba", "-video_size", SIZE],
    "pam": ["-f", "image2pipe", "-c:v", "pam"],
}

# A box of one column that goes a column to the right in each millisecond.
RULER = """[Script Info]
ScriptType: v4.00+
PlayResX: {width}
PlayResY: 4

[V4+ Styles]
Format: Name, Fontname, Fontsize, PrimaryColour, OutlineColour, Outline, Shadow, Alignment
Style: Default,dot,4,&Hffffff,&H0,0,0,7

[Events]
Format: Layer, Start, End, Style, Name, MarginL, MarginR, MarginV, Effect, Text
Dialogue: 0,0:00:00.00,0:00:{seconds:02}.00,Default,,0,0,0,,{{\\move(0,0,{width},0)\\p1}}m 0 0 l 1 0 1 4 0 4
"""
SECONDS = 2

# Rates, and how many frames there are before the ruler's end.
RATES = [("24000/1001", 24000, 1001), ("30000/1001", 30000, 1001), ("60000/1001", 60000, 1001), ("25", 25, 1)]


def ffmpeg(cwd, *words, data=b""):
    """What FFmpeg writes to standard output."""
    done = subprocess.run(["ffmpeg", "-v", "error", "-y", *words], cwd=cwd, input=data, capture_output=True, timeout=600)
    if done.returncode:
        print(f"ffmpeg {' '.join(words)}: {done.stderr.decode(errors='replace')}", flush=True)
    return done.stdout


def played(given, begin, end, rate, size, *words):
    """The images of a play."""
    ask = [given.program, "play", "--from", str(begin), "--to", str(end), "--rate", rate, "--size", size, *words]
    return subprocess.run(ask, cwd=given.room, stdin=subprocess.DEVNULL, capture_output=True, timeout=600).stdout


def parts(data, size):
    return [data[at : at + size] for at in range(0, len(data), size)]


def blended(below, image):
    """A film's frame, as planes of green, blue and red, below an image of red, green, blue and straight alpha."""
    planes = bytearray(below)
    alphas = image[3::4]
    covered = [at for at, alpha in enumerate(alphas) if alpha]
    for place, channel in enumerate((1, 2, 0)):
        base = place * len(alphas)
        for at in covered:
            alpha = alphas[at]
            planes[base + at] = (planes[base + at] * (255 - alpha) + image[4 * at + channel] * alpha + 127) // 255
    return bytes(planes)


def differs_by(one, other):
    """The most that two frames differ in a channel."""
    return 0 if one == other else max(abs(a - b) for a, b in zip(one, other, strict=True))


def over_film(score, given):
    """Each format with alpha over a moving picture, in red, green and blue throughout."""
    words = ["-f", "lavfi", "-i", f"testsrc2=size={SIZE}:rate={RATE}", "-frames:v", str(FRAMES)]
    ffmpeg(given.room, *words, "-c:v", "mpeg4", "-q:v", "2", "film.mp4")
    raw = ["-f", "rawvideo", "-pix_fmt", "gbrp", "-"]
    film = parts(ffmpeg(given.room, "-i", "film.mp4", "-vf", "format=gbrp", *raw), 3 * WIDTH * HEIGHT)
    score.check(len(film) == FRAMES and len(set(film)) == FRAMES, f"the film has {len(film)} frames, or equal ones")
    lay = "[0:v]format=gbrp[film];[film][1:v]overlay=format=gbrp:eof_action=pass"
    for script, font, begin in SHOWN:
        images = parts(played(given, begin, begin + 1001, RATE, SIZE, "--format", "rgba", script, font), 4 * WIDTH * HEIGHT)
        wanted = [blended(*it) for it in zip(film, images)]
        score.check(len(wanted) == FRAMES and all(a != b for a, b in zip(wanted, film)), f"{script} shows nothing over the film")
        for name, form in FORMATS.items():
            stream = played(given, begin, begin + 1001, RATE, SIZE, "--format", name, script, font)
            words = ["-i", "film.mp4", *form, "-framerate", RATE, "-i", "-", "-filter_complex", lay, *raw]
            shown = parts(ffmpeg(given.room, *words, data=stream), 3 * WIDTH * HEIGHT)
            far = max(map(differs_by, shown, wanted)) if len(shown) == FRAMES else f"{len(shown)} frames"
            score.check(far in (0, 1), f"{script} over a film by --format {name} differs from the blend by {far}")


def instants(score, given):
    """Each frame of a film shows the instant at which it stands, rounded down, and stands where it stood."""
    width = 1000 * SECONDS
    with open(f"{given.room}/ruler.ass", "w", encoding="utf-8") as it:
        it.write(RULER.format(width=width, seconds=SECONDS))
    for rate, frames, seconds in RATES:
        images = played(given, 0, width, rate, f"{width}x4", "--format", "rgba", "ruler.ass", "dot.bdf")
        wanted = [1000 * at * seconds // frames for at in range(len(images) // (16 * width))]
        score.check(len(wanted) == -(-width * frames // (1000 * seconds)), f"a play at {rate} has {len(wanted)} images")
        # The times of Matroska are whole milliseconds, to the nearest.
        for film in ("film.mp4", "film.mkv"):
            black = ["-f", "lavfi", "-i", f"color=black:size={width}x4:rate={rate}", "-frames:v", str(len(wanted))]
            ffmpeg(given.room, *black, "-c:v", "mpeg4", film)
            form = ["-f", "rawvideo", "-pix_fmt", "rgba", "-video_size", f"{width}x4", "-framerate", rate, "-i", "-"]
            lay = ["-filter_complex", "overlay=format=gbrp:eof_action=pass", "-f", "rawvideo", "-pix_fmt", "gray", "-"]
            shown = parts(ffmpeg(given.room, "-i", film, *form, *lay, data=images), 4 * width)
            said = [row.index(max(row)) for row in (it[:width] for it in shown)]
            score.check(said == wanted, f"over {film} at {rate} the frames show the instants {said}, and not {wanted}")


def blocks(text):
    """The commands of a page that make films."""
    return [it for it in re.findall(r"(?ms)^```\n(.*?)^```$", text) if "ffmpeg " in it or "on_many_machines" in it]


def colours(score, given):
    """A red that covers an HD film is the red of such films."""
    with open(f"{given.room}/red.rgba", "wb") as it:
        it.write(bytes([255, 0, 0, 255]) * 256)
    ffmpeg(given.room, *"-f lavfi -i color=gray:size=16x16 -frames:v 1 -c:v mpeg4 -colorspace bt709 hd.mp4".split())
    lay = "[1:v]scale=out_color_matrix=bt709[s];[0:v][s]overlay=eof_action=pass"
    words = [*"-i hd.mp4 -f rawvideo -pix_fmt rgba -video_size 16x16 -i red.rgba -filter_complex".split(), lay]
    said = ffmpeg(given.room, *words, *"-frames:v 1 -f rawvideo -pix_fmt yuv420p -".split())
    near = len(said) == 384 and all(differs_by(said[at : at + 1], bytes([it])) < 2 for at, it in ((0, 63), (256, 102), (320, 240)))
    score.check(near, "red over an HD film has other bytes")


def changed(score, given):
    """Only what changes, as the concat demuxer takes it, shows over a film what all images show."""
    ask = [given.program, "play", "--from", "500", "--to", "7500", "--rate", RATE, "--size", SIZE, "dialogue.ass", "letters.ttf"]
    images = subprocess.run([*ask, "--format", "rgba"], cwd=given.room, capture_output=True, timeout=600).stdout
    raw = ["-filter_complex", "overlay=format=gbrp:eof_action=pass", "-f", "rawvideo", "-pix_fmt", "gbrp", "-"]
    form = [*FORMATS["rgba"], "-framerate", RATE, "-i", "-"]
    for film, name, more in (("kept.mp4", "rgba", ["--crop"]), ("kept.mkv", "rgba", []), ("kept.mkv", "pam", ["--crop"]), ("kept.mkv", "pam", [])):
        words = ["-f", "lavfi", "-i", f"testsrc2=size={SIZE}:rate={RATE}", "-t", "7.6", "-c:v", "mpeg4", film]
        ffmpeg(given.room, *words)
        wanted = ffmpeg(given.room, "-i", film, *form, *raw, data=images)
        with open(f"{given.room}/kept", "wb") as out, open(f"{given.room}/index", "wb") as index:
            subprocess.run([*ask, "--changed", *more, "--format", name], cwd=given.room, stdout=out, stderr=index, timeout=600)
        made = f"{given.room}/kept.frames"
        done = subprocess.run([f"{given.top}/examples/changed_frames.py", "kept", "index", made], cwd=given.room, capture_output=True)
        shown = ffmpeg(given.room, "-i", film, "-f", "concat", "-safe", "0", "-i", f"{made}/list", *raw)
        holds = len(wanted) > len(images) // 4 * 3 and shown == wanted
        score.check(holds, f"only what changes, by --format {name} {more}, shows something else over {film}: {done.stderr.decode(errors='replace')}")
        shutil.rmtree(made, ignore_errors=True)


def nearest(n, d):
    return (2 * n + d) // (2 * d)


def times(room, name):
    """When a film's frames stand, in its own units, in order."""
    show = "ffprobe -v error -select_streams v -show_entries packet=pts -of csv=p=0".split()
    said = subprocess.run([*show, name], cwd=room, capture_output=True, encoding="utf-8", timeout=600).stdout
    return sorted(int(it.strip(",")) for it in said.split())


def commands(score, given):
    """The commands of the documents run as they stand, one behind another, and make films whose frames stand at their rate."""
    room = f"{given.room}/as_they_stand"
    os.mkdir(room)
    shutil.copytree(f"{given.top}/examples", f"{room}/examples")
    os.symlink(given.program, f"{room}/vimalorua")
    for page in ("README.md", "docs/PROGRAM.md"):
        with open(f"{given.top}/{page}", encoding="utf-8") as it:
            found = blocks(it.read())
        score.check(found, f"{page} has no commands for FFmpeg")
        for block in found:
            if "on_many_machines" in block and not shutil.which("parallel"):
                continue
            done = subprocess.run(["bash", "-euo", "pipefail", "-c", block], cwd=room, stdin=subprocess.DEVNULL, capture_output=True, timeout=1200)
            score.check(done.returncode == 0, f"{page}: {block}: {done.stderr.decode(errors='replace')[-2000:]}")
    score.check(times(room, "subtitled.mp4") == [1001 * at for at in range(120)], "the film of README.md has frames at other times")
    for name in ("signs.mkv", "kept.mkv", "again.mkv") if shutil.which("parallel") else ("signs.mkv", "kept.mkv"):
        score.check(times(room, name) == [nearest(1001 * at, 24) for at in range(72)], f"{name} has frames at other times")


def films(score, given):
    if not shutil.which("ffmpeg") or not shutil.which("ffprobe"):
        print("films: there is no ffmpeg here, so no subtitles are laid over films")
        return
    over_film(score, given)
    instants(score, given)
    colours(score, given)
    changed(score, given)
    commands(score, given)
