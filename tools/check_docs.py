#!/usr/bin/env python3
"""The test of the documents: that they say of the code what is so, as far as a script can tell.

usage: python3 tools/check_docs.py [--write [PART..]]

It looks at these things, and ends with a line `N passed, M failed`:
  marks     each file of specs/ says in its first line whether it is public or inner (spec_marks.py)
  trust     docs/TRUST.md quotes the contracts of `run_asked` and `top`, says what each clause says, and lists the
            definitions that they reach
  edits     each edit of must-fail/ or edits/ stands in its crate's table in docs/PROMISES.md, each named there exists
            in one of the two places, and what it turns stands once in its file; no more crates than CONTRIBUTING.md
            says have edits in must-fail/
  names     each function, clause and definition that docs/PROMISES.md names in its second column exists
  words     each name of code in any page exists somewhere in the repository
  crates    docs/ARCHITECTURE.md has each crate of crates.txt, in its order and under its headings
  quoted    docs/EMBEDDING.md quotes functions of both example programs as they stand
  links     each link between pages leads to a file
  widths    no line of a page is longer than 120 columns, but for tables and pictures
  unsafe    docs/TRUST.md has a link to each file that has an unsafe call
  kit       README.md, docs/TRUST.md and the wrapper name the toolchain that `rt version` says, where rt is at hand
  filled    no page has a place that was left for a number

--write makes the list of docs/TRUST.md, takes edits that are gone out of docs/PROMISES.md, puts new ones into the row
`also refused` of their crate (from where they are moved to the row of their promise by hand), marks specs/, and breaks
long lines of pages anew. With names of parts (marks, trust, edits, widths) it writes those alone.
"""

import os
import re
import subprocess
import sys

sys.path.insert(0, os.path.dirname(os.path.abspath(__file__)))
import spec_marks  # noqa: E402

TOP = spec_marks.TOP
WORDS = sys.argv[1:]
OTHERS = {"for_each_mut", "from_utf8_unchecked", "TertiaryColour"}  # names of std and of scripts
WIDTH = 120
ALSO = "also refused"
MOST_CRATES, MOST_EDITS = 20, 3  # of must-fail/
ENTRIES = [("run_reports", "run_asked"), ("play_command", "top")]  # each in its crate's run.rt


def writes(part):
    return "--write" in WORDS and (WORDS == ["--write"] or part in WORDS)


def read(path):
    with open(os.path.join(TOP, path), encoding="utf-8") as f:
        return f.read()


def write(path, text):
    with open(os.path.join(TOP, path), "w", encoding="utf-8") as f:
        f.write(text)


class Score:
    def __init__(self):
        self.passed = self.failed = 0

    def check(self, holds, where, what):
        if holds:
            self.passed += 1
        else:
            self.failed += 1
            print(f"{where}: {what}")


def pages():
    docs = os.listdir(os.path.join(TOP, "docs"))
    return ["README.md", "bench/RESULTS.md"] + sorted(f"docs/{f}" for f in docs if f.endswith(".md"))


def crates_of():
    """The crates of crates.txt in its order, each with what it stands on."""
    found = {}
    for line in read("crates.txt").splitlines():
        if line.strip() and not line.startswith("#"):
            head, _, tail = line.partition(":")
            found[head.split()[0]] = tail.split()
    return found


def marks(score, reach):
    files, _, _ = spec_marks.right_lines(reach)
    for _, _, spec, lines in files:
        if writes("marks") and spec.first not in lines:
            spec_marks.mark(spec, lines[0])
        score.check(spec.first in lines, os.path.relpath(spec.file, TOP), f"its first line should be: {lines[0]}")


def trusted(reach):
    """The table of the definitions that the entries reach."""
    reached = reach.closure((name, node) for crate, name in ENTRIES for node in reach.of_call(crate, ("run",), name))
    files = spec_marks.files_of(reached)
    order = list(crates_of())
    rows = ["| File | Lines | What it defines |", "|---|---|---|"]
    total = count = 0
    for crate in reversed(order):
        for (name, path) in files:
            if name != crate:
                continue
            spec = reach.crates[name].specs[path]
            says = re.sub(r"^--\s*((Public|Inner):\s*)?", "", spec.first).strip().rstrip(".")
            says = says[:1].upper() + says[1:]
            says = re.sub(r"\s*\(docs/\w+\.md\)", "", says)
            file = f"{name}/specs/{path}.antt"
            rows.append(f"| [{file}](../crates/{file}) | {spec.length} | {says} |")
            total += spec.length
            count += 1
    rows.append(f"| {count} files | {total} | |")
    types = sorted({(node[1], "/".join(node[2]), node[3]) for node in reached if node[0] == "type"})
    named = ", ".join(f"`{name}` ({crate})" for crate, _, name in types)
    rows += ["", f"They speak of these types of the code: {named}."]
    return "\n".join(rows[:-1] + wrapped(rows[-1]))


def wrapped(text):
    lines, line = [], ""
    for word in text.split():
        if line and len(line) + 1 + len(word) > WIDTH:
            lines.append(line)
            line = word
        else:
            line = f"{line} {word}".strip()
    return lines + [line]


def between(text, name, path):
    begin, end = f"<!-- {name} -->\n", f"<!-- end of {name} -->"
    if begin not in text or end not in text:
        return None
    at = text.index(begin) + len(begin)
    return text[:at], text[at:text.index(end)], text[text.index(end):]


def trust(score, reach):
    path = "docs/TRUST.md"
    if not os.path.isfile(os.path.join(TOP, path)):
        return score.check(False, path, "is missing")
    parts = between(read(path), "definitions", path)
    if parts is None:
        return score.check(False, path, "has no list of definitions")
    right = trusted(reach) + "\n"
    if writes("trust") and parts[1] != right:
        write(path, parts[0] + right + parts[2])
        parts = parts[0], right, parts[2]
    have, want = parts[1].splitlines(), right.splitlines()
    for line in want:
        score.check(line in have, path, f"the list lacks: {line}")
    for line in have:
        score.check(line in want, path, f"the list has: {line}")
    for crate, name in ENTRIES:
        quoted_contract(score, path, reach.crates[crate].files[("run",)], crate, name)


def quoted_contract(score, path, items, crate, entry):
    """Whether a page quotes the contract of an entry, and says behind it what each clause says."""
    parts = between(read(path), f"contract of {entry}", path)
    if parts is None:
        return score.check(False, path, f"doesn't quote the contract of {entry}")
    right = contract_of(crate, entry)
    if writes("trust") and parts[1] != right:
        write(path, parts[0] + right + parts[2])
        parts = parts[0], right, parts[2]
    score.check(parts[1] == right, path, f"doesn't quote the contract of {entry} as it stands")
    for item in items:
        if item.kind == "fn" and item.name == entry:
            for _, name, _ in item.clauses:
                score.check(f"`{name or entry}`" in parts[2], path, f"doesn't say what the clause {name} says")


def contract_of(crate, entry):
    """The head and the clauses of an entry, as run.rt has them."""
    text = read(f"crates/{crate}/src/run.rt")
    at = text.index(f"pub fn {entry}<")
    return "```rust\n" + text[at:text.index("\n{", at) + 1] + "```\n"


def sections(text):
    """The parts of a page by their second headings."""
    found, name, start = [], None, 0
    lines = text.split("\n")
    for i, line in enumerate(lines):
        if line.startswith("## "):
            found.append([line[3:].strip(), i, len(lines)])
            if len(found) > 1:
                found[-2][2] = i
    return lines, found


def cells(line):
    return [cell.strip() for cell in line.strip().strip("|").split("|")]


def edit_files(crate):
    """The edits of a crate, each by its name and its path."""
    for folder in (f"crates/{crate}/must-fail", f"edits/{crate}"):
        full = os.path.join(TOP, folder)
        for file in sorted(os.listdir(full)) if os.path.isdir(full) else []:
            if file.endswith(".edit"):
                yield file[:-5], f"{folder}/{file}"


def applies(crate, path):
    """Whether each text that an edit turns stands in its file once, as those before it leave the file."""
    file, old, texts = "", "", {}
    for line in read(path).split("\n"):
        if line.startswith("file: "):
            file = os.path.join("crates", crate, line[6:].strip())
            if os.path.isfile(os.path.join(TOP, file)):
                texts.setdefault(file, read(file))
        elif line.startswith("old: "):
            old = line[5:]
        elif line.startswith("new:"):
            if not old or texts.get(file, "").count(old) != 1:
                return False
            texts[file] = texts[file].replace(old, line[4:].removeprefix(" "))
    return bool(texts)


def edit_places(score, crates):
    """Where the edits stand."""
    folder = os.path.join(TOP, "edits")
    for name in sorted(os.listdir(folder)) if os.path.isdir(folder) else []:
        score.check(name in crates or name == "TRIED", f"edits/{name}", "is no crate's")
    tried_by_the_gate = []
    for crate in crates:
        files = list(edit_files(crate))
        for name, path in files:
            score.check(applies(crate, path), path, "turns what doesn't stand in its file, or stands there twice")
            score.check([n for n, _ in files].count(name) == 1, path, "stands in both places")
        there = [path for _, path in files if "/must-fail/" in path]
        tried_by_the_gate += [crate] if there else []
        score.check(len(there) <= MOST_EDITS, f"crates/{crate}/must-fail", f"has more than {MOST_EDITS} edits")
    score.check(len(tried_by_the_gate) <= MOST_CRATES, "crates", f"more than {MOST_CRATES} have edits in must-fail/")


def edits(score, crates):
    edit_places(score, crates)
    path = "docs/PROMISES.md"
    lines, found = sections(read(path))
    named_sections = {}
    for name, begin, end in found:
        for crate in re.split(r",\s*", name):
            named_sections[crate] = (begin, end)
    changed = []
    for crate in crates:
        there = sorted(name for name, _ in edit_files(crate))
        if crate not in named_sections:
            score.check(False, path, f"has no part on {crate}")
            continue
        begin, end = named_sections[crate]
        rows = [i for i in range(begin, end) if lines[i].startswith("|") and len(cells(lines[i])) == 3]
        named = []
        for i in rows[2:]:
            row = cells(lines[i])
            words = [w for w in re.split(r",\s*", row[2]) if w]
            kept = [w for w in words if w in there]
            if writes("edits") and kept != words:
                lines[i] = f"| {row[0]} | {row[1]} | {', '.join(kept)} |" if kept else f"| {row[0]} | {row[1]} | |"
                words = kept
            for word in words:
                score.check(word in there, path, f"{crate} has no edit {word}")
            named += words
        missing = [e for e in there if e not in named]
        if writes("edits") and missing and rows:
            last = rows[-1]
            row = cells(lines[last])
            if row[0] == ALSO:
                old = [w for w in re.split(r",\s*", row[2]) if w]
                lines[last] = f"| {ALSO} | | {', '.join(old + missing)} |"
            else:
                changed.append((last + 1, f"| {ALSO} | | {', '.join(missing)} |"))
            missing = []
        for edit in there:
            score.check(edit not in missing, path, f"{crate} doesn't name the edit {edit}")
    if writes("edits"):
        for at, line in sorted(changed, reverse=True):
            lines.insert(at, line)
        lines = [line for line in lines if line != f"| {ALSO} | | |"]
        write(path, "\n".join(lines))


def functions(reach, crate):
    """The functions and types of a crate: name or Type::name, each with the names of its clauses."""
    found = {}

    def add(name, clauses):
        found.setdefault(name, set()).update(clauses)

    for module, items in reach.crates[crate].files.items():
        for item in items:
            if item.test:
                continue
            if item.kind in ("fn", "type", "trait"):
                clauses = {name for _, name, _ in item.clauses}
                add(item.name, clauses)
                for at in range(len(module)):
                    add("::".join(module[at:] + (item.name,)), clauses)
            of, trait = spec_marks.target_of(item.head) if item.kind == "impl" else (item.name, None)
            for inner in item.items:
                if inner.kind == "fn":
                    clauses = {name for _, name, _ in inner.clauses}
                    add(inner.name, clauses)
                    add(f"{of}::{inner.name}", clauses)
                    for kept in clauses_of_trait(reach, trait, inner.name):
                        add(f"{of}::{inner.name}", {kept})
    return found


def clauses_of_trait(reach, trait, name):
    for crate in reach.crates.values():
        for items in crate.files.values():
            for item in items:
                if trait and item.kind == "trait" and item.name == trait:
                    for inner in item.items:
                        if inner.name == name:
                            yield from (clause for _, clause, _ in inner.clauses)


def names(score, reach):
    path = "docs/PROMISES.md"
    lines, found = sections(read(path))
    definitions = {name for crate in reach.crates.values() for spec in crate.specs.values() for name in spec.by_name}
    for title, begin, end in found:
        crates = [c for c in re.split(r",\s*", title) if c in reach.crates]
        if not crates:
            continue
        known = {}
        for crate in crates:
            for name, clauses in functions(reach, crate).items():
                known.setdefault(name, set()).update(clauses)
        for line in lines[begin:end]:
            row = cells(line) if line.startswith("|") else []
            if len(row) != 3 or row[0] in ("Promise", "---", ALSO):
                continue
            last = None
            for call, inside in re.findall(r"`([^`]+)`|\(([^)]*)\)", row[1]):
                if call:
                    last = call
                    score.check(call in known, path, f"{title}: no function or type {call}")
                    continue
                for word in re.findall(r"`([^`]+)`", inside):
                    score.check(word.split(".")[0] in definitions, path, f"{title}: no definition {word}")
                for word in re.split(r"[,:;]\s*", re.sub(r"`[^`]+`", "", inside)):
                    word = word.strip()
                    if re.fullmatch(r"\w+", word) and last in known:
                        score.check(word in known[last], path, f"{title}: {last} has no clause {word}")


def words(score):
    known = set()
    for at, folders, files in os.walk(TOP):
        folders[:] = [f for f in folders if f not in (".git", "out", "docs", "target")]
        for file in files:
            known.update(re.split(r"[._]", file)[:1] + [file, file.split(".")[0]])
            if file.endswith((".rt", ".antt", ".edit", ".txt", ".sh", ".py", ".h", ".c")) or file in ("vimalorua", "HANDLES"):
                with open(os.path.join(at, file), encoding="utf-8", errors="replace") as f:
                    known.update(re.findall(r"[^\W\d][\w'\-]*", f.read()))
    for page in pages():
        if page.startswith("bench/"):
            continue
        text = re.sub(r"```.*?```", "", read(page), flags=re.S)
        for span in re.findall(r"`([^`\n]+)`", text):
            is_file = re.search(r"\.\w{1,5}$", span) and "_" not in span
            if is_file or not re.fullmatch(r"[A-Za-z_][\w:.]*(\(\))?", span):
                continue
            for part in re.split(r"::|\.", span.rstrip("()")):
                if "_" in part.strip("_") or re.search(r"[a-z][A-Z]", part):
                    score.check(part in known or part in OTHERS, page, f"nothing is called `{span}`")


def stages_of(path, heading):
    """The crates of a file by its headings, in its order."""
    found, stage, crates = [], "", crates_of()
    for line in read(path).splitlines():
        if line.startswith(heading):
            stage = line[len(heading):].strip()
        row = cells(line) if line.startswith("|") else [line.partition(":")[0].split(" ")[0]]
        if row[0] in crates:
            found.append((stage, row[0]))
    return found


def crate_tables(score):
    path = "docs/ARCHITECTURE.md"
    begin, end = (read(path).find(f"\n## {title}") for title in ("The crates, by stage", "How a run of the program"))
    told = [it for it in stages_of(path, "### ") if f"\n| {it[1]} |" in read(path)[begin:end]]
    for at, it in enumerate(stages_of("crates.txt", "# ")):
        score.check(told[at:at + 1] == [it], path, f"should have {it[1]} as crate {at + 1}, in {it[0]}, as crates.txt")


def quoted(score):
    programs = [read(f"crates/library_example/src/{name}.rt") for name in ("one_thread", "two_threads")]
    for block in re.findall(r"```rust\n(.*?)```", read("docs/EMBEDDING.md"), re.S):
        score.check(any(block in program for program in programs), "docs/EMBEDDING.md", f"stands in no example: {block[:60]}")


def links(score):
    for page in pages():
        for target in re.findall(r"\]\(([^)\s]+)\)", read(page)):
            if "://" in target or target.startswith("#"):
                continue
            full = os.path.normpath(os.path.join(TOP, os.path.dirname(page), target.split("#")[0]))
            score.check(os.path.exists(full), page, f"leads nowhere: {target}")


def rewrapped(text):
    """A page whose paragraphs with a line that is too long are broken anew."""
    done, part, fenced = [], [], False

    def end():
        if any(len(line) > WIDTH for line in part):
            m = re.match(r"(\s*(?:[-*]|\d+\.)\s+|\s*)", part[0])
            hang = " " * len(m.group(1))
            words = re.findall(r"(?:`[^`]*`|\S)+", " ".join(part))
            if m.group(1).strip():
                words = words[1:]
            line = m.group(1)
            begun = False
            for word in words:
                if begun and len(line) + 1 + len(word) > WIDTH:
                    done.append(line)
                    line, begun = hang + word, True
                else:
                    line, begun = (line + " " + word if begun else line + word), True
            done.append(line)
        else:
            done.extend(part)
        part.clear()

    for line in text.split("\n"):
        if line.startswith("```"):
            end()
            fenced = not fenced
            done.append(line)
        elif fenced or not line.strip() or re.match(r"[|#<]|!\[|    ", line) and not part:
            end()
            done.append(line)
        elif re.match(r"[|#<]|!\[", line):
            end()
            done.append(line)
        elif re.match(r"\s*([-*]|\d+\.)\s", line):
            end()
            part.append(line)
        else:
            part.append(line)
    end()
    return "\n".join(done)


def widths(score):
    for page in pages():
        if page.startswith("bench/"):
            continue
        if writes("widths"):
            text = read(page)
            if rewrapped(text) != text:
                write(page, rewrapped(text))
        fenced = False
        for number, line in enumerate(read(page).splitlines(), 1):
            fenced = fenced != line.startswith("```")
            if not (line.startswith("|") or line.startswith("![") or fenced):
                score.check(len(line) <= WIDTH, f"{page}:{number}", f"has {len(line)} columns")


def unsafe(score, reach):
    text = read("docs/TRUST.md")
    for crate in reach.crates:
        for at, _, files in os.walk(os.path.join(TOP, "crates", crate, "src")):
            for file in files:
                full = os.path.join(at, file)
                with open(full, encoding="utf-8") as f:
                    found = re.search(r"\bunsafe\b", spec_marks.blank(f.read()))
                where = os.path.relpath(full, TOP)
                if found:
                    score.check(f"(../{where})" in text, "docs/TRUST.md", f"doesn't name the unsafe call in {where}")


def kit(score):
    try:
        said = subprocess.run(["rt", "version"], capture_output=True, text=True, timeout=60).stdout.split()
    except (OSError, subprocess.TimeoutExpired):
        return
    if said:
        for page in ("README.md", "docs/TRUST.md"):
            score.check(" ".join(said[:3]) in read(page), page, f"doesn't name {' '.join(said[:3])}")
        score.check(f"kit={said[0]}" in read("vimalorua"), "vimalorua", f"doesn't name {said[0]}")


def version(score):
    path = "crates/play_command/src/own_text.rt"
    score.check(f'"vimalorua {read("VERSION").strip()}\\n"' in read(path), path, "doesn't say the version that VERSION has")


def filled(score):
    for page in pages():
        score.check("GATE-TIME" not in read(page), page, "a measured time is to be filled in")


def main():
    score = Score()
    reach = spec_marks.Reach()
    crates = crates_of()
    marks(score, reach)
    trust(score, reach)
    edits(score, crates)
    names(score, reach)
    words(score)
    crate_tables(score)
    quoted(score)
    links(score)
    widths(score)
    unsafe(score, reach)
    kit(score)
    version(score)
    filled(score)
    print(f"{score.passed} passed, {score.failed} failed")
    return score.failed > 0


if __name__ == "__main__":
    sys.exit(main())
