"""Stored runs: what words answer, as tests/runs/ has it.

A run is a line '$ WORDS', what is reported, each line of it behind four blanks, and a line '= STATUS', with how many
bytes went to standard output and their sum by SHA-256 where there are any. '> full' and '2> full' behind the words
stand for a stream that takes nothing. Lines that begin with '#' say what the runs below show.
"""

import hashlib
import shlex
import subprocess

STREAMS = {"> full": "stdout", "2> full": "stderr"}


def parsed(text):
    """The runs of a file: each a line of words and what it answers."""
    found = []
    for line in text.splitlines():
        if line.startswith("$"):
            found.append((line[1:].strip(), []))
        elif line.startswith(("    ", "=")):
            found[-1][1].append(line)
    return [(words, "\n".join(said)) for words, said in found]


def answer(program, words, room):
    """What a program answers, in the form of the files."""
    streams = {"stdout": subprocess.PIPE, "stderr": subprocess.PIPE}
    with open("/dev/full", "wb") as full:
        for end, stream in STREAMS.items():
            if words.endswith(f" {end}"):
                words, streams[stream] = words.removesuffix(f" {end}"), full
        ran = subprocess.run([program, *shlex.split(words)], cwd=room, stdin=subprocess.DEVNULL, timeout=600, **streams)
    out, report = ran.stdout or b"", ran.stderr or b""
    said = [f"    {line}" for line in report.decode(errors="backslashreplace").splitlines()]
    end = f"= {ran.returncode}"
    return "\n".join([*said, f"{end}, {len(out)} bytes {hashlib.sha256(out).hexdigest()}" if out else end])


def written(text, program, room):
    """A file with the answers that a program gives now."""
    found = []
    for line in text.splitlines():
        if line.startswith("$"):
            found += [line, answer(program, line[1:].strip(), room)]
        elif not line.startswith(("    ", "=")):
            found.append(line)
    return "\n".join(found) + "\n"
