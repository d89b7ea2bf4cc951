#!/usr/bin/env python3
"""Prints the manual page vimalorua(3), which it makes of c/vimalorua.h.

usage: python3 packaging/library_manual.py > vimalorua.3
       python3 packaging/library_manual.py --names

A comment of the header is the text of the declaration behind it, and the first one that of the page. With --names it
prints the names of the calls, a line each.
"""

import os
import re
import sys

TOP = os.path.dirname(os.path.dirname(os.path.realpath(__file__)))
NAME = re.compile(r"\b(?:vimalorua_\w+|VIMALORUA_\w+)")


def read(path):
    with open(f"{TOP}/{path}", encoding="utf-8") as it:
        return it.read()


def escaped(text):
    text = text.replace("\\", "\\e").replace("-", "\\-")
    return "\\&" + text if text.startswith((".", "'")) else text


def paragraphs(comment):
    """A comment's paragraphs, each in one line, with the names of the header in bold and those in backquotes slanted."""
    lines = [re.sub(r"^ \* ?", "", it) for it in comment.strip().splitlines()]
    parts = re.split(r"\n\s*\n", "\n".join(lines))
    texts = [re.sub(r"`(\w+)`", r"\\fI\1\\fR", escaped(" ".join(it.split()))) for it in parts]
    return [NAME.sub(r"\\fB\g<0>\\fR", it) for it in texts]


def verbatim(text):
    return [".PP", ".nf", ".RS 4", *(escaped(it) for it in text.splitlines()), ".RE", ".fi"]


def declarations(header):
    """The comments of the header, each with the declarations behind it, up to the next comment at a line's beginning."""
    body = header.split('extern "C" {\n#endif\n')[1].split("#ifdef __cplusplus\n}")[0]
    parts = re.split(r"^/\*(.*?)\*/\n", body, flags=re.M | re.S)
    return [(comment, code.strip("\n")) for comment, code in zip(parts[1::2], parts[2::2])]


def calls(code):
    """The calls that are declared or written there, each as one text, without what compilers are told of it."""
    found = re.findall(r"^(?:VIMALORUA_INLINE )?((?:const )?\w+ \*?vimalorua_\w+\([^;{]*)[;{]", code, re.M)
    return [re.sub(r"\s*VIMALORUA_NO_NULLS\(.*\)", "", it).rstrip() + ";" for it in found]


def name_of(call):
    return re.search(r"(vimalorua_\w+)\(", call)[1]


def synopsis(parts):
    found = [".SH SYNOPSIS", ".nf", "\\fB#include <vimalorua.h>\\fR", ""]
    for _, code in parts:
        for call in calls(code):
            found += [f"\\fB{escaped(it)}\\fR" for it in call.splitlines()] + [""]
    return [*found, ".fi", ".PP", "Link with \\fI\\-lvimalorua\\fR (\\fBpkg\\-config \\-\\-cflags \\-\\-libs vimalorua\\fR)."]


def call_section(comment, code):
    found = []
    for at, call in enumerate(calls(code)):
        found += [".TP" if not at else ".TQ", f"\\fB{name_of(call)}\\fR()"]
    first, *others = paragraphs(comment)
    for it in others:
        first += f"\n.IP\n{it}"
    return [*found, first]


def type_section(comment, code):
    found = [f".PP\n{it}" for it in paragraphs(comment)]
    return [*found, *verbatim(code)]


def page():
    header = read("c/vimalorua.h")
    version = read("VERSION").strip()
    about = re.match(r"/\*(.*?)\*/", header, re.S)[1]
    parts = declarations(header)
    lines = [f'.TH VIMALORUA 3 "" "vimalorua {version}" "Library Functions"', ".nh", ".ad l", ".SH NAME"]
    lines += ["vimalorua \\- renderer of ASS subtitles for players, proved correct", *synopsis(parts), ".SH DESCRIPTION"]
    lines += [f".PP\n{it}" for it in paragraphs(about)]
    lines += [".SH FUNCTIONS"]
    for comment, code in parts:
        if calls(code):
            lines += call_section(comment, code)
    lines += [".SH TYPES AND NUMBERS"]
    for comment, code in parts:
        if not calls(code) and not code.startswith("#if"):
            lines += type_section(comment, code)
    lines += [".SH SEE ALSO", "\\fBvimalorua\\fR(1)"]
    return "\n".join(lines) + "\n"


def main(words):
    if words == ["--names"]:
        names = [name_of(call) for _, code in declarations(read("c/vimalorua.h")) for call in calls(code)]
        print("\n".join(names))
    elif words:
        print(__doc__.strip(), file=sys.stderr)
        return 2
    else:
        print(page(), end="")
    return 0


if __name__ == "__main__":
    sys.exit(main(sys.argv[1:]))
