#!/usr/bin/env python3
"""Measures subtitles over a film of 1,920 by 1,080, by turns: plays with alpha alone and into ffmpeg, and ffmpeg's filter.

usage: bench/film.py [RUNS [WORKLOAD..]]     3 runs; dialogue, karaoke and signs

Each side has one thread, ffmpeg `-threads 1 -filter_threads 1`, and writes nowhere. A table tells frames a second by the
clock, and processor seconds of the program and of ffmpeg: of the run that was the fastest. From the environment:
  PROGRAM   the program, else release/vimalorua
  FONT      a TrueType file, else examples/letters.ttf
  FRAMES    how many frames, at 25 a second, else 250
"""

import os
import subprocess
import sys
import tempfile
import time

TOP = os.path.dirname(os.path.dirname(os.path.realpath(__file__)))
sys.path.insert(0, f"{TOP}/bench")
sys.dont_write_bytecode = True
import film_scripts  # noqa: E402

PROGRAM = os.path.abspath(os.environ.get("PROGRAM") or f"{TOP}/release/vimalorua")
FONT = os.path.abspath(os.environ.get("FONT") or f"{TOP}/examples/letters.ttf")
FRAMES = int(os.environ.get("FRAMES") or 250)
SIZE = "1920x1080"
# as the wrapper vimalorua sets them
SET = {
    "GLIBC_TUNABLES": "glibc.malloc.hugetlb=1",
    "MALLOC_MMAP_THRESHOLD_": "33554432",
    "MALLOC_TRIM_THRESHOLD_": "1073741824",
    "MALLOC_TOP_PAD_": "33554432",
}
FILM = f"-f lavfi -i color=black:s={SIZE}:r=25:d={FRAMES / 25}".split()
CHANGED = ["--changed", "--crop"]
PIPED = f"-f rawvideo -pix_fmt rgba -video_size {SIZE} -framerate 25 -i -".split()


def play(script, more=()):
    ask = f"{PROGRAM} play --from 0 --to {40 * FRAMES} --rate 25 --size {SIZE}".split()
    return [*ask, *more, script, FONT]


def ffmpeg(*words):
    return [*"ffmpeg -nostdin -v error -threads 1 -filter_threads 1".split(), *words, *"-threads 1 -f null -".split()]


def sides(script, fonts):
    """What is run: what is put before a pipe, and behind it."""
    lay = ["-filter_complex", "overlay=eof_action=pass"]
    rgba = play(script, ["--format", "rgba"])
    yield "`play`, on black", play(script), None
    yield "`play --format rgba`", rgba, None
    yield "`play --format y4m`", play(script, ["--format", "y4m"]), None
    yield "`play --format y4m --chroma 444`", play(script, ["--format", "y4m", "--chroma", "444"]), None
    yield "ffmpeg, no subtitles", None, ffmpeg(*FILM)
    yield "ffmpeg `-vf ass`", None, ffmpeg(*FILM, "-vf", f"ass={script}:fontsdir={fonts}")
    yield "`play --format rgba`, ffmpeg `overlay`", rgba, ffmpeg(*FILM, *PIPED, *lay)
    yield "`play --changed --crop`", [*rgba, *CHANGED], None
    yield "ffmpeg `overlay` of what changes", None, ffmpeg(*FILM, *f"-f concat -safe 0 -i {frames_of(script, rgba)}/list".split(), *lay)


def frames_of(script, rgba):
    """What changes, as the concat demuxer takes it: made once."""
    made = f"{script}.frames"
    if not os.path.exists(made):
        with open(f"{script}.images", "wb") as out, open(f"{script}.index", "wb") as index:
            subprocess.run([*rgba, *CHANGED], stdin=subprocess.DEVNULL, stdout=out, stderr=index, check=True)
        subprocess.run([f"{TOP}/examples/changed_frames.py", out.name, index.name, made], check=True)
    return made


def measured(front, back):
    """Seconds on the clock, and on the processors of each of the two."""
    begun = time.monotonic()
    running = []
    pipe = None
    if front:
        out = subprocess.PIPE if back else subprocess.DEVNULL
        running.append(subprocess.Popen(front, stdin=subprocess.DEVNULL, stdout=out, stderr=subprocess.DEVNULL, env={**os.environ, **SET}))
        pipe = running[0].stdout
    if back:
        running.append(subprocess.Popen(back, stdin=pipe or subprocess.DEVNULL, stdout=subprocess.DEVNULL))
    if pipe:
        pipe.close()
    used = {}
    for child in running:
        status, usage = os.wait4(child.pid, 0)[1:]
        child.returncode = os.waitstatus_to_exitcode(status)
        if child.returncode:
            sys.exit(f"{child.args}: exit status {child.returncode}")
        used[child.args is back] = usage.ru_utime + usage.ru_stime
    return time.monotonic() - begun, used.get(False, 0.0), used.get(True, 0.0)


def load():
    with open("/proc/loadavg", encoding="ascii") as it:
        return " ".join(it.read().split()[:3])


def main(runs, workloads):
    print(time.strftime("%Y-%m-%d, %H:%M"), f"{os.cpu_count()} processors, load before: {load()}", flush=True)
    print("| Workload | Run | Frames a second | Seconds of the program | of ffmpeg |\n|---|---|---|---|---|")
    with tempfile.TemporaryDirectory() as room:
        os.mkdir(f"{room}/fonts")
        os.symlink(FONT, f"{room}/fonts/font.ttf")
        film_scripts.main(room, FRAMES // 25 + 1)
        for name in workloads:
            runs_of = {}
            for _ in range(runs):
                for side, front, back in sides(f"{room}/{name}.ass", f"{room}/fonts"):
                    runs_of.setdefault(side, []).append(measured(front, back))
            for side, found in runs_of.items():
                clock, one, other = min(found)
                slowest = FRAMES / max(found)[0]
                print(f"| {name} | {side} | {slowest:.1f} to {FRAMES / clock:.1f} | {one:.2f} | {other:.2f} |", flush=True)
    print("load after:", load())


if __name__ == "__main__":
    main(int(sys.argv[1]) if len(sys.argv) > 1 else 3, sys.argv[2:] or list(film_scripts.KINDS))
