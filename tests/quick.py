#!/usr/bin/env python3
"""The test of the released program and library, which takes a minute or two, a shell, python3 and a C compiler.

usage: python3 tests/quick.py [--program FILE] [--archive FILE] [PART..]
       python3 tests/quick.py --write

Its parts, which all are tried where none is named:
  release    the sums of the release, and that it is of this checkout
  runs       the runs of tests/runs/: words, reports, pictures, changes, scripts written again, selftests
  postscript that letters with PostScript outlines are those of a model, and which names they answer to
  views      that letters in the frames of several videos stand where libass has them
  over_video that frames have the bytes of their formats, and instants stand at their rates
  video_streams that plays as YUV4MPEG2 streams have the numbers of their matrix, and FFmpeg's within 1
  films      subtitles over films by ffmpeg, where it is
  machines   plays that several machines share, where GNU parallel is
  writes     that scripts written again show the same pictures, and are written as the same bytes
  plays      plays by every number of threads, whose images are those of frames
  reports    that reports are in their form and go to their file, what who ends first is told, and what a terminal is shown
  refusals   runs whose calls for memory are refused
  wrapper    what the wrapper says where words or a font are refused
  library    the library from C (c/test.sh)
  players    libass's calls over it (c/libass/test.sh), where libass's header and make are
  install    installing into a folder, and removing
  letters    that examples/letters.txt makes examples/letters.ttf, which examples/attached.ass holds
  docs       the documents (tools/check_docs.py)

Each failure is told in a line or more, each part in one. The last line is 'N passed, M failed'. --write puts what the
program answers now into tests/runs/.
"""

import argparse
import os
import shutil
import subprocess
import sys
import tempfile

sys.dont_write_bytecode = True
TOP = os.path.dirname(os.path.dirname(os.path.realpath(__file__)))
sys.path.insert(0, f"{TOP}/tests")
import films  # noqa: E402
import inputs  # noqa: E402
import machines  # noqa: E402
import outside  # noqa: E402
import over_video  # noqa: E402
import plays  # noqa: E402
import postscript_fonts  # noqa: E402
import reports  # noqa: E402
import stored  # noqa: E402
import video_streams  # noqa: E402
import views  # noqa: E402

RUNS = ["words", "reports", "pictures", "truetype", "postscript", "faces", "writes"]


class Score:
    """What passed and failed, of one part and of all."""

    def __init__(self):
        self.passed = self.failed = 0
        self.failures = []

    def check(self, holds, what):
        if holds:
            self.passed += 1
        else:
            self.failed += 1
            print(f"FAILED: {what}", flush=True)

    def add(self, passed, failed):
        self.passed += passed
        self.failed += failed


def file_of(name):
    return f"{TOP}/tests/runs/{name}.txt"


def read(path):
    with open(path, encoding="utf-8") as it:
        return it.read()


def runs(score, given):
    for name in RUNS:
        for words, said in stored.parsed(read(file_of(name))):
            now = stored.answer(given.program, words, given.room)
            score.check(now == said, f"vimalorua {words}\nanswered\n{now}\nin place of\n{said}")


def write_runs(given):
    for name in RUNS:
        text = stored.written(read(file_of(name)), given.program, given.room)
        with open(file_of(name), "w", encoding="utf-8") as it:
            it.write(text)


PARTS = {
    "release": outside.release,
    "runs": runs,
    "postscript": postscript_fonts.postscript,
    "views": views.views,
    "over_video": over_video.over_video,
    "video_streams": video_streams.video_streams,
    "films": films.films,
    "machines": machines.machines,
    "writes": plays.writes,
    "plays": plays.plays,
    "reports": reports.reports,
    "refusals": outside.refusals,
    "wrapper": outside.wrapper,
    "library": outside.library,
    "players": outside.players,
    "install": outside.install,
    "letters": outside.letters,
    "docs": outside.docs,
}


def words_given():
    parser = argparse.ArgumentParser()
    parser.add_argument("--program", default=f"{TOP}/release/vimalorua")
    parser.add_argument("--archive", default=f"{TOP}/release/libvimalorua.a")
    parser.add_argument("--write", action="store_true")
    parser.add_argument("parts", nargs="*", metavar="PART")
    given = parser.parse_args()
    for it in given.parts:
        if it not in PARTS:
            parser.error(f"there is no part {it}: they are {', '.join(PARTS)}")
    given.program, given.archive = os.path.abspath(given.program), os.path.abspath(given.archive)
    given.top = TOP
    return given


def main():
    given = words_given()
    if not os.access(given.program, os.X_OK):
        print(f"there is no program {given.program}: tools/release make makes the release")
        print("0 passed, 1 failed")
        return 1
    given.room = tempfile.mkdtemp(prefix="vimalorua-")
    try:
        inputs.make(given.room, f"{TOP}/examples")
        if given.write:
            return write_runs(given)
        whole = Score()
        for name in given.parts or PARTS:
            score = Score()
            try:
                PARTS[name](score, given)
            except subprocess.CalledProcessError as why:
                score.check(False, str(why))
            print(f"{name}: {score.passed} passed, {score.failed} failed", flush=True)
            whole.add(score.passed, score.failed)
    finally:
        shutil.rmtree(given.room)
    print(f"{whole.passed} passed, {whole.failed} failed")
    return 1 if whole.failed else 0


if __name__ == "__main__":
    sys.exit(main())
