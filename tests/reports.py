"""Reports that are told in another form or to a file, readers who end first, lists of images, and what a terminal is shown.

The expected values are worked out here of the same run's report by default, which tests/runs/ has.
"""

import io
import json
import os
import pty
import re
import select
import shutil
import subprocess
import time

WIDTH, HEIGHT = 320, 180
SIZE = f"{WIDTH}x{HEIGHT}"
FRAMES = "--from 5000 --to 8000 --rate 24000/1001 --size"
PLAY = f"play {FRAMES} {SIZE} dialogue.ass subtitle.bdf"
CHANGES = f"changes {FRAMES} {SIZE} dialogue.ass subtitle.bdf"
KEPT = f"play --changed {FRAMES} {SIZE} dialogue.ass subtitle.bdf"

# Runs that report and end well.
WELL = [
    "check signs.ass subtitle.bdf letter.bdf dot.bdf",
    "check malformed.ass one.bdf",
    "check --script-fonts attached.ass dot.bdf",
    CHANGES,
    "changes --from 0 --to 1100 --step 10 --size 16x12 moves.ass one.bdf",
    PLAY,
    "play --from 0 --to 100 --step 10 --size 16x12 --times 2 --feeders 2 --again 1 malformed.ass one.bdf",
    KEPT,
    "play --changed --crop --from 0 --to 1100 --step 10 --size 16x12 moves.ass one.bdf",
    "selftest 7 50",
]

# Runs that are refused, as lists of words.
REFUSED = [
    "check no.ass dot.bdf".split(),
    ["check", 'no "such" \\ name\t\x01\n\u00e4\U0001f600.ass', "dot.bdf"],
    "changes --from 0 --to 10 --step 1 --size 4x3 no_events.ass dot.bdf".split(),
    "play --from 0 --to 10 --step 1 --size 4x3 row.ass dot.bdf bad_row.bdf".split(),
    "play --changed --from 0 --to 10 --step 1 --size 4x3 row.ass large.bdf".split(),
    "play --from 0 --to 1000001 --step 1 --size 4x3 row.ass dot.bdf".split(),
    "changes --from 0 --to 1000001 --step 1 --size 4x3 row.ass dot.bdf".split(),
]


def ran(given, words, *more, **streams):
    words = words.split() if isinstance(words, str) else words
    asked = {"stdout": subprocess.PIPE, "stderr": subprocess.PIPE, **streams}
    done = subprocess.run([given.program, words[0], *more, *words[1:]], cwd=given.room, stdin=subprocess.DEVNULL, timeout=600, **asked)
    return done.returncode, done.stdout, done.stderr


def numbers(text):
    return list(map(int, re.findall(r"\d+", text)))


def box_of(line):
    return None if line.endswith("box none") else numbers(line.split("box")[1])


def check_objects(lines):
    play, styles, count = (numbers(it) for it in lines[:3])
    rows = [it.split() for it in lines[3:]]
    malformed = [{"line": int(it[1]), "field": it[2], "byte": int(it[3])} for it in rows if it[0] == "malformed"]
    fonts = [{"glyphs": int(it[3])} for it in rows if it[0] == "font"]
    return [{"play": play, "styles": styles[0], "lines": count[0], "malformed": malformed, "fonts": fonts}]


def play_objects(lines):
    found = {"accepted": [numbers(it) for it in lines if it.startswith("accepted")]}
    for name, *rest in (it.split() for it in lines if not it.startswith("accepted")):
        found[name] = int(rest[0]) if len(rest) == 1 else dict(zip(rest[::2], map(int, rest[1::2]), strict=True))
    return [found]


def still_objects(lines):
    shown = [(*numbers(it)[:3], box_of(it)) for it in lines[:-1]]
    count, end = numbers(lines[-1])
    return [{"image": k, "place": n, "t": t, "box": box} for k, n, t, box in shown] + [{"end": count, "t": end}]


def objects_of(words, text):
    """The objects of a report by default."""
    lines, command = text.decode().splitlines(), words.split()[0]
    if command == "check":
        return check_objects(lines)
    if command == "changes":
        return [{"t": numbers(it)[0], "change": numbers(it)[1], "box": box_of(it)} for it in lines]
    if command == "selftest":
        pairs = " ".join(lines).split()[1:]
        return [dict(zip(pairs[::2], map(int, pairs[1::2]), strict=True))]
    return still_objects(lines) if "--changed" in words else play_objects(lines)


def forms(score, given):
    """JSON says what words say, by objects of one line each without a space; no form changes another byte."""
    for words in WELL:
        status, out, text = ran(given, words)
        told = ran(given, words, "--report", "json")
        lines = told[2].decode().splitlines(keepends=True)
        objects = [json.loads(it) for it in lines]
        score.check(status == 0 and objects == objects_of(words, text), f"vimalorua {words} reports other objects: {told[2][:300]!r}")
        tight = [json.dumps(it, separators=(",", ":")) + "\n" for it in objects]
        score.check(lines == tight, f"vimalorua {words} reports JSON that is written otherwise: {told[2][:300]!r}")
        same = told[:2] == (0, out) and ran(given, words, "--report", "none") == (0, out, b"") and ran(given, words, "--report", "text") == (0, out, text)
        score.check(same, f"vimalorua {words} writes or reports something else where it is told how to report")
    for words in REFUSED:
        status, out, line = ran(given, words)
        told = ran(given, words, "--report=json")
        says = json.loads(told[2]) if told[2].count(b"\n") == 1 else told[2]
        score.check(told[:2] == (status, out) and says == {"exit": status, "line": line.decode()}, f"vimalorua {words} says {told}")
        score.check(ran(given, words, "--report=none") == (status, out, b""), f"vimalorua {words} isn't silent")
        score.check(ran(given, words, "--report=text") == (status, out, line), f"vimalorua {words} has another line")


def files(score, given):
    """A report that goes to a file is the one by default, and one that can't be made is told by default, before all else."""
    path, missing = f"{given.room}/told", "folder/none/told"
    for words in [*WELL, *REFUSED]:
        status, out, text = ran(given, words)
        with open(path, "wb") as it:
            it.write(b"before\n" * 10_000)
        told = ran(given, words, "--report-to", "told")
        with open(path, "rb") as it:
            holds = it.read()
        score.check((told, holds) == ((status, out, b""), text), f"vimalorua {words} reports something else to a file: {told[2]!r}")
        refused = ran(given, words, f"--report-to={missing}")
        score.check(refused == (7, b"", b"write fault: report\n"), f"vimalorua {words} says {refused[2]!r} where it can't make a file")
        full = ran(given, words, "--report-to", "/dev/full")
        score.check(full == (status or 7, out, b""), f"vimalorua {words} says {full[2]!r} where its file is full")
    os.remove(path)
    refused = ran(given, "check --report-to told --at 0 row.ass dot.bdf")
    score.check(refused == (2, b"", b"bad words: usage\n") and not os.path.exists(path), "words that are refused make a file")
    told = ran(given, "check row.ass dot.bdf", "--report", "json", "--report-to", missing)[2]
    score.check(json.loads(told) == {"exit": 7, "line": "write fault: report\n"}, f"a file that can't be made is told as {told!r}")


def lists(score, given):
    """A list has each image for as long as it is shown, and stands beside the same images and the same report."""
    status, out, text = ran(given, KEPT)
    entries = still_objects(text.decode().splitlines())
    begins = [it["t"] for it in entries]
    file = "file image-{}.{}\noption framerate 1000\n"
    for form in ("ppm", "pam"):
        wanted = ["ffconcat version 1.0\n"]
        for at, (begin, end) in enumerate(zip(begins, begins[1:])):
            wanted.append(file.format(at, form) + f"duration {(end - begin) // 1000}.{(end - begin) % 1000:03}\n")
        wanted.append(file.format(len(begins) - 2, form))
        by_default = ran(given, KEPT, "--format", form)
        told = ran(given, KEPT, "--index", "list", "--format", form)
        with open(f"{given.room}/list", encoding="utf-8") as it:
            holds = it.read()
        score.check(told == by_default and holds == "".join(wanted), f"the list of {form} images is another one: {holds[:300]!r}")
        split(score, given, form, by_default[1], len(begins) - 1)
    refused = ran(given, KEPT, "--index=folder/none/list")
    score.check(refused == (7, b"", b"write fault: index\n"), f"a list that can't be made says {refused[2]!r}")
    full = ran(given, KEPT, "--index", "/dev/full")
    score.check(full == (7, out, b"write fault: index\n"), f"a list that can't be written says {full[2]!r}")
    for more in (["--crop"], []):
        words = f"{KEPT if more else PLAY} --index list".split()
        refused = ran(given, words, *more)
        score.check(refused == (2, b"", b"bad words: usage\n"), f"a list stands beside {words} {more}: {refused[2]!r}")


def split(score, given, form, images, count):
    """The images become the files that the list names, which FFmpeg shows for as long as it says."""
    room = f"{given.room}/split"
    os.mkdir(room)
    os.rename(f"{given.room}/list", f"{room}/list")
    done = subprocess.run([f"{given.top}/examples/split_images.py"], cwd=room, input=images, capture_output=True, timeout=60)
    made = []
    for at in range(count):
        with open(f"{room}/image-{at}.{form}", "rb") as it:
            made.append(it.read())
    score.check(done.returncode == 0 and b"".join(made) == images, f"split_images.py makes other files: {done.stderr!r}")
    if form == "ppm" and shutil.which("ffmpeg"):
        words = "ffmpeg -v error -f concat -safe 0 -i list -vf fps=24000/1001 -f rawvideo -pix_fmt rgb24 -".split()
        shown = subprocess.run(words, cwd=room, capture_output=True, timeout=600)
        every = pixels(ran(given, PLAY)[1])
        same = shown.stdout.startswith(b"".join(every)) and shown.stdout[3 * WIDTH * HEIGHT * len(every) :] in (b"", every[-1])
        score.check(same, f"ffmpeg shows something else of the list: {shown.stderr!r}")
    shutil.rmtree(room)


def pixels(images):
    """The pixels of each image of a stream of PPM."""
    found, stream = [], io.BytesIO(images)
    while stream.readline():
        for _ in range(3):
            stream.readline()
        found.append(stream.read(3 * WIDTH * HEIGHT))
    return found


def readers(score, given):
    """Who reads the images ends first: a fault by default, a closed pipe where the words tell how to report, or nothing."""
    said = [
        ([], 7, b"write fault: frames\n"),
        (["--report", "text"], 7, b"closed: frames\n"),
        (["--report", "json"], 7, b'{"exit":7,"line":"closed: frames\\n"}\n'),
        (["--report", "none"], 7, b""),
        (["--progress"], 7, b"closed: frames\n"),
        (["--quiet-pipe"], 0, b""),
        (["--quiet-pipe", "--report=json"], 0, b""),
    ]
    for words in (PLAY, KEPT):
        begin = ran(given, words)[1][:1000]
        for more, status, line in said:
            command, *rest = words.split()
            run = subprocess.Popen([given.program, command, *more, *rest], cwd=given.room, stdout=subprocess.PIPE, stderr=subprocess.PIPE)
            got = os.read(run.stdout.fileno(), 1000)
            run.stdout.close()
            told = run.stderr.read()
            run.stderr.close()
            holds = begin.startswith(got) and got and (run.wait(timeout=600), told) == (status, line)
            score.check(holds, f"vimalorua {words} {more} ends with {run.returncode} and {told!r} where its reader ends first")
        with open("/dev/full", "wb") as full:
            told = ran(given, words, "--quiet-pipe", stdout=full)
        score.check(told[::2] == (7, b"write fault: frames\n"), f"vimalorua {words} --quiet-pipe says {told[2]!r} where its images can't be written")


LONG = f"changes --from 0 --to 1000000 --step 1 --size {SIZE} karaoke.ass subtitle.bdf"


def as_they_come(score, given):
    """The first lines of what changes are there while the rest is made, and are those by default. Nobody reads the rest."""
    begin = ran(given, LONG.replace("1000000", "20"))[2].splitlines()
    command, *rest = LONG.split()
    for form in ("text", "json"):
        run = subprocess.Popen([given.program, command, "--report", form, *rest], cwd=given.room, stdout=subprocess.PIPE, stderr=subprocess.PIPE)
        started = time.monotonic()
        lines = [run.stderr.readline() for _ in begin]
        is_at_work = run.poll() is None and time.monotonic() - started < 10
        run.stderr.close()
        out = run.stdout.read()
        run.stdout.close()
        holds = is_at_work and (run.wait(timeout=600), out) == (7, b"")
        same = [it.rstrip() for it in lines] == begin if form == "text" else [json.loads(it)["t"] for it in lines] == [numbers(it.decode())[0] for it in begin]
        score.check(holds and same, f"vimalorua {LONG} --report {form} ends with {run.returncode}, and its first lines are {lines[:3]}")


DRAWN = r"\r(\d+) of (\d+), (\d+)\.\d a second, (\d+) s left\x1b\[K"


def on_terminal(given, words, *more):
    """What a run shows a terminal, when that came, and its status."""
    above, below = pty.openpty()
    command, *rest = words.split()
    run = subprocess.Popen([given.program, command, *more, *rest], cwd=given.room, stdout=subprocess.DEVNULL, stderr=below)
    os.close(below)
    shown, begin = b"", time.monotonic()
    while select.select([above], [], [], 600)[0]:
        try:
            part = os.read(above, 65536)
        except OSError:  # the terminal's other end is closed
            break
        if not part:
            break
        shown += part
    os.close(above)
    return run.wait(timeout=600), shown.decode(), time.monotonic() - begin


def terminals(score, given):
    """A terminal is shown how far a run is, once a second and at its end, and a pipe nothing of that."""
    for words, total in (("selftest 1 100", 20), (f"{PLAY} --times 2", 144), (CHANGES, 72), (KEPT, 72)):
        said = drawn_well(score, given, words, total)
        left = re.sub(DRAWN, "", said).replace("\r\x1b[K", "").replace("\r\n", "\n").strip("\n") + "\n"
        report = ran(given, words, "--report", "json")[2].decode()
        score.check(left == report, f"vimalorua {words} --progress reports {left[:300]!r} on a terminal")
        quiet = ran(given, words, "--progress", stdout=subprocess.DEVNULL)[2]
        plain = ran(given, words, stdout=subprocess.DEVNULL)[2]
        score.check(quiet == plain, f"vimalorua {words} --progress tells a pipe {quiet[:300]!r}")
    drawn_well(score, given, "play --from 0 --to 40000 --step 40 --size 1280x720 --budget 0 signs.ass subtitle.bdf", 1000)
    status, said, _ = on_terminal(given, CHANGES, "--progress", "--report-to", "told")
    with open(f"{given.room}/told", "rb") as it:
        apart = status == 0 and it.read() == ran(given, CHANGES)[2] and re.sub(DRAWN, "", said) == "\r\n"
    score.check(apart, f"vimalorua {CHANGES} --progress shows {said!r} where its report goes to a file")
    by_default = on_terminal(given, PLAY.replace("8000", "15000"))[1]
    score.check(by_default.startswith("100 images\r\n200 images\r\n") and "left" not in by_default, f"vimalorua {PLAY} shows {by_default[:300]!r}")


def drawn_well(score, given, words, total):
    """What a terminal is shown of a run whose report is JSON, where that rises to the end."""
    status, said, seconds = on_terminal(given, words, "--progress", "--report", "json")
    drawn = [list(map(int, it)) for it in re.findall(DRAWN, said)]
    made = [it[0] for it in drawn]
    holds = status == 0 and made == sorted(made) and made[-1:] == [total] and {it[1] for it in drawn} == {total} and drawn[-1][3] == 0
    score.check(holds, f"vimalorua {words} --progress shows {said[-300:]!r}")
    score.check(seconds / 2 - 1 < len(made) < seconds + 2, f"vimalorua {words} --progress draws {len(made)} times in {seconds} s")
    return said


def reports(score, given):
    forms(score, given)
    files(score, given)
    lists(score, given)
    readers(score, given)
    as_they_come(score, given)
    terminals(score, given)
