"""Plays by every number of threads, beside frames; and scripts written again, beside the ones they are of."""

import re
import subprocess

# script, fonts, size, from, to, step
PLAYED = [
    ("dialogue.ass", "subtitle.bdf", "320x180", 800, 8000, 800),
    ("karaoke.ass", "subtitle.bdf", "320x180", 900, 6000, 300),
    ("signs.ass", "subtitle.bdf", "320x180", 0, 8000, 400),
    ("moves.ass", "one.bdf", "16x12", 0, 1000, 20),
    ("dialogue.ass", "letters.ttf", "320x180", 800, 8000, 800),
    ("glyphs.ass", "hand.ttf", "320x180", 0, 5000, 500),
]


def ran(given, *words):
    """The exit status, the images and the report of words."""
    done = subprocess.run([given.program, *map(str, words)], cwd=given.room, capture_output=True, timeout=600)
    return done.returncode, done.stdout, done.stderr


def frame(given, script, font, size, at):
    return ran(given, "frame", "--at", at, "--size", size, script, font)[1]


def same(report):
    """What is the same in each report: the order of what was accepted, and the caches' counts, differ from run to run."""
    told = re.sub(r"(?m)^(outline|mask|composite) .*", r"\1", report.decode())
    return re.sub(r"(?m)^accepted (.*)", lambda it: f"accepted {sorted(map(int, it[1].split()))}", told)


def is_balanced(report):
    """Whether each claim that the caches counted was filled or failed."""
    counts = re.findall(r"claims (\d+) fills (\d+) fails (\d+)", report.decode())
    return len(counts) == 3 and all(int(it[0]) == int(it[1]) + int(it[2]) for it in counts)


def options():
    """How a play is shared out: each number of renderers and of feeders, of each of the others some."""
    for n in range(1, 9):
        yield ["--renderers", n, "--feeders", 9 - n, "--batch", n]
        yield ["--renderers", n, "--feeders", n, "--batch", 1, "--again", 2, "--ahead", 2 * n]
        yield ["--renderers", n, "--bands", n, "--budget", 0]
        yield ["--renderers", 1, "--bands", n, "--feeders", n, "--ahead", 64]


def images_of(text):
    """The images of a play, each without its comment, with the number of events that it is of."""
    found = []
    while text:
        head = re.match(rb"P6\n# t=(\d+) n=(\d+)\n(\d+) (\d+)\n255\n", text)
        end = head.end() + 3 * int(head[3]) * int(head[4])
        found.append((int(head[2]), text[head.end() : end]))
        text = text[end:]
    return found


def plays(score, given):
    for script, font, size, first, end, step in PLAYED:
        words = ["play", "--from", first, "--to", end, "--step", step, "--size", size]
        wanted = b"".join(frame(given, script, font, size, at) for at in range(first, end, step))
        report = same(ran(given, *words, script, font)[2])
        for shared in options():
            status, images, said = ran(given, *words, *shared, script, font)
            holds = status == 0 and images == wanted and same(said).split("repeated")[0] == report.split("repeated")[0]
            score.check(holds and is_balanced(said), f"{script} played with {shared} has other images or another report")
        live(score, given, [*words, "--mode", "live"], script, font, images_of(wanted))
    for seed, events in ((7, 200), (11, 40)):
        wanted = ran(given, "selftest", seed, events)
        for workers in range(1, 9):
            score.check(
                ran(given, "selftest", "--workers", workers, seed, events) == wanted and wanted[0] == 0,
                f"selftest {seed} {events} by {workers} workers reports otherwise",
            )


def live(score, given, words, script, font, wanted):
    """Live plays: an image of all events is the settled one."""
    for n in range(1, 9):
        status, images, _ = ran(given, *words, "--renderers", n, "--feeders", n, "--batch", 1, script, font)
        found = images_of(images)
        whole = all(it[0] < all_of[0] or it == all_of for it, all_of in zip(found, wanted))
        score.check(status == 0 and len(found) == len(wanted) and whole, f"{script} played live by {n} has another image")


def writes(score, given):
    """A script that is written later shows the same later, and is written as the same bytes again."""
    for script, font, size, first, end, step in PLAYED:
        for later in (0, 1500):
            status, text, _ = ran(given, "write", "--later", later, script)
            name = f"again-{later}-{script}"
            with open(f"{given.room}/{name}", "wb") as it:
                it.write(text)
            score.check(status == 0 and ran(given, "write", name)[1] == text, f"{script} is written otherwise again")
            for at in range(first, end, 4 * step):
                one, other = (images_of(frame(given, *it)) for it in ((script, font, size, at), (name, font, size, at + later)))
                score.check(one == other, f"{script} at {at} shows something else, written {later} later")
