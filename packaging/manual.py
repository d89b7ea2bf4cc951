#!/usr/bin/env python3
"""Prints the manual page vimalorua(1), which it makes of docs/PROGRAM.md and docs/REPORTS.md.

usage: python3 packaging/manual.py > vimalorua.1

It takes the sections of the pages but those of the crates and of the outside, and leaves out pictures, and references
to definitions and to other pages.
"""

import os
import re

TOP = os.path.dirname(os.path.dirname(os.path.realpath(__file__)))
SKIPPED = {"The program, and what it is handed", "The outside"}
REFERENCE = r"(?:\[[^]]*\]\([^)]*\)|`[\w.]+`)"


def read(path):
    with open(f"{TOP}/{path}", encoding="utf-8") as it:
        return it.read()


def escaped(text):
    text = text.replace("\\", "\\e").replace("-", "\\-")
    return "\\&" + text if text.startswith((".", "'")) else text


def inline(text):
    """A paragraph's text: no references in brackets, code in bold, and links as their words."""
    text = re.sub(rf"\s*\({REFERENCE}(?:(?:,| and| of|; \S+ in)? {REFERENCE}| of \w+)*\)", "", text)
    text = re.sub(r"!\[[^]]*\]\([^)]*\)", "", text)
    text = re.sub(r"\[([^]]*)\]\([^)]*\)", r"\1", text)
    parts = re.split(r"`([^`]*)`", re.sub(r"\*\*([^*]*)\*\*", r"`\1`", text))
    return "".join(f"\\fB{escaped(it)}\\fR" if at % 2 else escaped(it) for at, it in enumerate(parts)).strip()


def cells_of(line):
    return [it.strip() for it in re.split(r"(?<!\\)\|", line.strip().strip("|"))]


def table(lines):
    """A table as a list: the first column is the tag, and what stands behind the second has its column's name. That of
    the statuses has each exit status and its line as tags."""
    heads, rows = cells_of(lines[0]), [cells_of(it) for it in lines[2:]]
    if any("![" in it for it in lines):
        return []
    if heads[1:3] == ["Exit", "Its line"]:
        heads, rows, found = [heads[1], heads[3]], [[f"{it[1]}, {it[2]}", it[3]] for it in rows], [".SH EXIT STATUS"]
    else:
        found = []
    for tag, *cells in rows:
        named = [f"{lowered(head)}: {cell}" if at else cell for at, (head, cell) in enumerate(zip(heads[1:], cells)) if cell]
        found += [".TP", inline(tag), inline("; ".join(named)[:1].upper() + "; ".join(named)[1:]) + "."]
    return [*found, ".PP"]


def lowered(text):
    return text[:1].lower() + text[1:]


def synopsis(lines):
    """The lines of commands, where a line that begins with a space goes on with the one before."""
    found = []
    for line in lines:
        if line.startswith(" "):
            found[-1:-1] = [escaped(line.strip())]
        else:
            command, _, rest = line.partition(" ")
            found += [f'.SY "vimalorua {command}"', escaped(rest), ".YS"]
    return found


def verbatim(lines):
    return [".PP", ".nf", ".RS 4", *(escaped(it) for it in lines), ".RE", ".fi", ".PP"]


def block(kind, lines):
    if kind == "table":
        return table(lines)
    if kind == "code":
        return verbatim(lines)
    if kind == "item":
        tag, text = re.match(r"(\S+) (.*)", " ".join(lines)).groups()
        return [f".IP {escaped(tag) if tag != '-' else chr(92) + '(bu'} 4", inline(text)]
    text = inline(" ".join(lines))
    return [".PP", text] if text else []


def blocks(lines):
    """The parts of a section, each with its kind."""
    found, is_code = [], False
    for line in [*lines, ""]:
        kind = "text"
        if line.startswith("```"):
            is_code = not is_code
            kind = "end"
        elif is_code or line.startswith("    ") and not (found and found[-1][0] == "item"):
            kind = "code"
        elif line.startswith("|"):
            kind = "table"
        elif re.match(r"(-|\d+\.) ", line):
            kind = "item"
            found.append((kind, []))
        elif not line.strip():
            kind = "end"
        elif found and found[-1][0] == "item":
            kind = "item"
        if not found or found[-1][0] != kind:
            found.append((kind, []))
        found[-1][1].append(line[4:] if kind == "code" and not is_code else line.strip() if kind != "code" else line)
    return [it for it in found if it[0] != "end"]


def sections(path):
    """The title of a page and what stands under it, and its sections."""
    title, text = re.match(r"# ([^\n]*)\n(.*)", read(path), flags=re.S).groups()
    parts = re.split(r"^## (.*)\n", text, flags=re.M)
    return zip([title, *parts[1::2]], parts[::2])


def page():
    version = read("VERSION").strip()
    lines = [f'.TH VIMALORUA 1 "" "vimalorua {version}" "User Commands"', ".SH NAME"]
    lines += ["vimalorua \\- renderer of ASS subtitles, proved correct"]
    for name, text in [*sections("docs/PROGRAM.md"), *sections("docs/REPORTS.md")]:
        if name in SKIPPED:
            continue
        parts = blocks(text.splitlines())
        if name == "The words":
            lines += [".SH SYNOPSIS", *synopsis(parts.pop(0)[1])]
        lines += [f".SH {escaped(name.replace('`', '')).upper()}"]
        for kind, part in parts:
            lines += block(kind, part)
    lines += [".SH SEE ALSO", "\\fBvimalorua\\fR(3), \\fBotf2bdf\\fR(1), \\fBpcf2bdf\\fR(1), \\fBffmpeg\\fR(1)"]
    return "\n".join(lines) + "\n"


if __name__ == "__main__":
    print(page(), end="")
