"""What stands around the program: the release, the wrapper, the library, installing, and the documents."""

import filecmp
import os
import re
import resource
import shutil
import subprocess
import tempfile


def ran(words, cwd, **how):
    how = {"capture_output": True, "encoding": "utf-8", "errors": "surrogateescape", "timeout": 1200, **how}
    return subprocess.run(words, cwd=cwd, stdin=subprocess.DEVNULL, **how)


def counted(score, name, done):
    """Takes the counts of another test's last line."""
    lines = done.stdout.splitlines() or [""]
    found = re.fullmatch(r"(\d+) passed, (\d+) failed", lines[-1])
    for line in lines[: -1 if found else None] + done.stderr.splitlines() if done.returncode else []:
        print(f"FAILED: {name}: {line}", flush=True)
    score.add(*map(int, found.groups()) if found else (0, 1))


def read(path):
    with open(path, encoding="utf-8") as it:
        return it.read()


def release(score, given):
    folder = f"{given.top}/release"
    done = ran(["sha256sum", "--check", "--quiet", "SHA256SUMS"], folder if os.path.isdir(folder) else given.top)
    score.check(done.returncode == 0, f"SHA256SUMS isn't of what release/ has: {done.stdout}{done.stderr}")
    which = ran([f"{given.top}/vimalorua", "--which"], given.top)
    score.check(os.path.realpath(which.stdout.strip()) == f"{folder}/vimalorua", "the release isn't of this checkout's sources")
    sizes = {it.name: it.stat().st_size for it in os.scandir(folder)} if os.path.isdir(folder) else {"vimalorua": 0}
    score.check(sizes["vimalorua"] < 1_200_000 and sum(sizes.values()) < 3 * 10**6, f"the release is large: {sizes}")
    with open(given.program, "rb") as it:
        versions = [tuple(map(int, found.split(b"."))) for found in re.findall(rb"GLIBC_([0-9.]+)\0", it.read())]
    score.check((2, 2, 5) in versions and max(versions) <= (2, 34), f"the program asks for glibc {max(versions, default=None)}")
    version = read(f"{given.top}/VERSION").strip()
    score.check(re.fullmatch(r"\d+\.\d+\.\d+", version), f"VERSION is {version}")
    header = re.search(r"#define VIMALORUA_VERSION (\d+)", read(f"{given.top}/c/vimalorua.h"))[1]
    score.check(header == version.split(".")[0], f"the header has {header}, and VERSION {version}")
    own = ran([given.program, "--version"], given.top)
    score.check((own.returncode, own.stdout, own.stderr) == (0, f"vimalorua {version}\n", ""), f"the program says it is {own.stdout!r}")
    changes = read(f"{given.top}/CHANGELOG.md")
    score.check(re.search(rf"^## {re.escape(version)}, \d{{4}}-\d\d-\d\d$", changes, re.M), f"CHANGELOG.md has no {version} with its day")


def refusals(score, given):
    """Of a frame and a small play each call for memory is refused, and of a selftest some."""
    for job, step in (("frame", 1), ("play", 1), ("selftest", 101)):
        words = [f"{given.top}/bench/refusals.sh", job, "1", str(10**6), str(step)]
        done = ran(words, given.top, env={**os.environ, "PROGRAM": given.program})
        told = re.search(r"refused in (\d+) runs: \d+ out of memory, (\d+) failed\n", done.stdout)
        if done.returncode or not told:
            print(done.stdout + done.stderr, end="", flush=True)
        score.add(*((int(told[1]) - int(told[2]), int(told[2])) if told else (0, 1)))


# Words, and what the wrapper says behind the program's line.
SAID = [
    ("fram", "the first word is check, frame, changes, write, play or selftest, and not 'fram'"),
    ("frame --size 4x3 row.ass dot.bdf", "frame lacks --at (milliseconds from 0 to 4000000000000)"),
    ("check row.ass", "check lacks FONT.."),
    ("changes --from 0 --to 1 --size 4x3 row.ass dot.bdf", "changes lacks --step (milliseconds from 1 to 4000000000000) or --rate (frames from 1 to 1000000, as 25, or frames in seconds, as 24000/1001)"),
    ("play --from 0 --to 1 --step 1 --rate 25 --size 4x3 row.ass dot.bdf", "play takes --step or --rate, and not both"),
    ("play --from 0 --step 1 --size 4x3 row.ass dot.bdf", "play lacks --to (milliseconds from 0 to 4000000000000) or --frames (a number from 1 to 1000000)"),
    ("changes --from 0 --to 1 --frames 2 --step 1 --size 4x3 row.ass dot.bdf", "changes takes --to or --frames, and not both"),
    ("play --from 0 --to 1 --step 1 --size 4x3 --crop row.ass dot.bdf", "--crop stands beside --changed alone"),
    ("play --changed --from 0 --to 1 --step 1 --size 4x3 --bands 2 row.ass dot.bdf", "--bands doesn't stand beside --changed, whose work isn't shared out"),
    ("play --from 0 --to 1 --step 1 --size 4x3 --index list row.ass dot.bdf", "--index stands beside --changed alone"),
    ("play --changed --crop --index list --from 0 --to 1 --step 1 --size 4x3 row.ass dot.bdf", "--index stands beside whole images, and --crop makes none"),
    ("check --report xml row.ass dot.bdf", "--report takes text, json or none, and not 'xml'"),
    ("selftest 1 1 --report-to", "--report-to lacks its value: the name of a file"),
    ("changes --progress=1 --from 0 --to 1 --step 1 --size 4x3 row.ass dot.bdf", "--progress takes no value"),
    ("frame --at 0 --size 4x3 --quiet-pipe row.ass dot.bdf", "frame has no option --quiet-pipe"),
    ("play --from 0 --to 1 --step 1 --size 4x3 --matrix TV.709 row.ass dot.bdf", "--matrix stands beside --format y4m alone"),
    ("play --changed --from 0 --to 1 --step 1 --size 4x3 --format y4m row.ass dot.bdf", "--format y4m doesn't stand beside --changed"),
    ("frame --at 0 --size 4x3 --format y4m row.ass dot.bdf", "frame has no --format y4m, which is of play"),
    ("play --from 0 --to 1 --step 1 --size 4x3 --format y4m --matrix 709 row.ass dot.bdf", "--matrix takes script, or TV. or PC. and 601, 709, 240M or FCC, as TV.709, and not '709'"),
    ("play --from 0 --frames 0 --step 1 --size 4x3 row.ass dot.bdf", "--frames takes a number from 1 to 1000000, and not '0'"),
    ("frame --at 0 --at 0", "--at is given twice"),
    ("frame --font x", "frame has no option --font"),
    ("frame -x", "there is no option -x; a name that begins with - stands behind --"),
    ("write row.ass row.ass", "write takes SCRIPT alone, and not row.ass too"),
    ("frame --at 0 --size", "--size lacks its value: columns and rows, each from 1 to 4096, as 1280x720"),
    ("frame --at x --size 4x3 row.ass dot.bdf", "--at takes milliseconds from 0 to 4000000000000, and not 'x'"),
    ("frame --at 0 --size=4 row.ass dot.bdf", "--size takes columns and rows, each from 1 to 4096, as 1280x720, and not '4'"),
    ("frame --at 0 --size 4x3 --aspect 4 row.ass dot.bdf", "--aspect takes the width and height of a pixel, each from 1 to 65536, as 64/45, and not '4'"),
    ("frame --at 0 --size 4x3 --content -8,0,4x3 row.ass dot.bdf", "--content lacks its value: left, top and size, as 0,60,640x360, or behind a = as --content=-8,0,1296x720"),
    ("selftest 1 0", "EVENTS takes a number from 1 to 100000, and not '0'"),
    ("check row.ass dot.bdf bad_row.bdf", "that font is bad_row.bdf"),
    ("check row.ass dot.bdf truetype.ttf", "that font is truetype.ttf"),
    ("check row.ass cff_version.otf", "that font is cff_version.otf"),
    ("check row.ass cff_2.otf", "that font is cff_2.otf, whose outlines are of CFF2: 'otf2bdf -r 72 -p 48 -o cff_2.bdf cff_2.otf' makes"),
    ("check row.ass empty.bdf", "that font is empty.bdf, which is neither BDF nor OpenType"),
]


def wrapper(score, given):
    words_of_wrapper(score, given, f"{given.top}/vimalorua")
    score.check("(cd crates/" in ran([f"{given.top}/vimalorua", "help"], given.room).stdout, "the help doesn't tell of builds")


def words_of_wrapper(score, given, program):
    """What a wrapper says itself. The program's own lines stay as they are, and where it says more it says one line."""
    for words, wanted in SAID:
        own = ran([given.program, *words.split()], given.room)
        done = ran([program, *words.split()], given.room)
        holds = done.stderr.startswith(f"{own.stderr}vimalorua: {wanted}") and done.stderr.count("\n") == 2
        score.check(holds and done.returncode == own.returncode, f"vimalorua {words} says {done.stderr!r}")
    for words in ("check row.ass dot.bdf", "frame --at 0 --size 4x3 row.ass dot.bdf", "check no.ass dot.bdf", "write --later 5 row.ass", "check --report json row.ass dot.bdf bad_row.bdf"):
        own, done = (ran([it, *words.split()], given.room) for it in (given.program, program))
        score.check((own.returncode, own.stdout, own.stderr) == (done.returncode, done.stdout, done.stderr), f"vimalorua {words} says more")
    version = ran([program, "--version"], given.room)
    score.check(version.stdout == f"vimalorua {read(f'{given.top}/VERSION')}", f"--version says {version.stdout!r}")
    own, usage, none = ran([given.program, "--help"], given.room), ran([program, "help"], given.room), ran([program], given.room)
    score.check(usage.returncode == 0 and none.returncode == 2 and usage.stdout == none.stderr, "no words aren't answered by the help")
    score.check(own.returncode == 0 and usage.stdout.startswith(own.stdout) and "frame --at MS" in own.stdout, "the help isn't the program's")
    standard_input(score, given, program)
    file_limit(score, given, program)


def standard_input(score, given, program):
    """A script and a font that come by standard input are as those of files, and a file is called - by ./-."""
    wanted = ran([program, "check", "row.ass", "dot.bdf"], given.room)
    for file, words in (("row.ass", "check - dot.bdf"), ("dot.bdf", "check row.ass -"), ("row.ass", "check - -- dot.bdf")):
        with open(f"{given.room}/{file}", "rb") as it:
            done = subprocess.run([program, *words.split()], cwd=given.room, stdin=it, capture_output=True, encoding="utf-8")
        score.check((done.returncode, done.stderr) == (0, wanted.stderr), f"vimalorua {words} says {done.stderr!r}")
    missing = ran([program, "check", "./-", "dot.bdf"], given.room)
    score.check(missing.returncode == 3, f"./- is no file, and says {missing.stderr!r}")


def file_limit(score, given, program):
    """A write past the system's limit of a file's size is a fault of writing, and the bytes below the limit were written."""
    words, most = "frame --at 0 --size 40x30 row.ass dot.bdf".split(), 1024
    whole = subprocess.run([given.program, *words], cwd=given.room, stdout=subprocess.PIPE).stdout
    with tempfile.TemporaryFile() as file:
        done = subprocess.run(
            [program, *words],
            cwd=given.room,
            stdout=file,
            stderr=subprocess.PIPE,
            preexec_fn=lambda: resource.setrlimit(resource.RLIMIT_FSIZE, (most, most)),
        )
        file.seek(0)
        front = file.read()
    score.check((done.returncode, done.stderr) == (7, b"write fault: frames\n"), f"past a limit of file size: {done.returncode} {done.stderr!r}")
    score.check(len(whole) > most and front == whole[:most], "below a limit of file size other bytes were written")


def scripted(score, script, given):
    """Takes the parts of a test in shell that passed, of which each is told in a line."""
    done = ran([f"{given.top}/{script}", given.archive], given.top, env={**os.environ, "PROGRAM": given.program})
    passed = re.findall(r"^test.sh: .* passed$", done.stdout, re.M)
    if done.returncode:
        print(done.stdout + done.stderr, end="", flush=True)
    score.add(len(passed), 1 if done.returncode or not passed else 0)


def library(score, given):
    scripted(score, "c/test.sh", given)


def players(score, given):
    header = subprocess.run([os.environ.get("CC", "cc"), "-E", "-"], input=b"#include <ass/ass.h>", capture_output=True)
    if header.returncode or not shutil.which("make"):
        print("players: there is no header of libass here, or no make, so libass's calls aren't tried")
        return
    scripted(score, "c/libass/test.sh", given)


def install(score, given):
    """Installs into a folder, asks what lies there, and removes it."""
    if not shutil.which("make"):
        print("install: there is no make here, so nothing is installed")
        return
    with tempfile.TemporaryDirectory(prefix="vimalorua-") as room:
        words = ["make", "-s", f"PREFIX={room}/usr"]
        env = {key: value for key, value in os.environ.items() if key != "MAKEFLAGS"}
        done = ran([*words, "install", f"DESTDIR={room}/stage"], given.top, env=env)
        score.check(done.returncode == 0, f"make install: {done.stdout}{done.stderr}")
        os.rename(f"{room}/stage{room}/usr", f"{room}/usr")
        words_of_wrapper(score, given, f"{room}/usr/bin/vimalorua")
        completion(score, f"{room}/usr/share/bash-completion/completions/vimalorua")
        page = ran(["gzip", "-cd", f"{room}/usr/share/man/man1/vimalorua.1.gz"], room).stdout
        score.check(".SH EXIT STATUS" in page and ".SH SYNOPSIS" in page, "the manual page has no statuses or no synopsis")
        page = ran(["gzip", "-cd", f"{room}/usr/share/man/man3/vimalorua_open.3.gz"], room).stdout
        score.check(".SH FUNCTIONS" in page and "\nint32_t vimalorua_open(" not in page, "the library's manual page has no calls")
        built_with(score, given, f"{room}/usr")
        done = ran([*words, "uninstall"], given.top, env={**env, "PATH": os.environ["PATH"]})
        left = [name for _, _, names in os.walk(f"{room}/usr") for name in names]
        score.check(done.returncode == 0 and not left, f"make uninstall leaves {left}: {done.stderr}")


def completion(score, file):
    """What is completed behind some words."""
    for words, wanted in (("vimalorua fr", "frame"), ("vimalorua play --mo", "--mode"), ("vimalorua play --mode l", "live"), ("vimalorua frame --letters a", "aspect"), ("vimalorua check --report j", "json"), ("vimalorua play --q", "--quiet-pipe")):
        script = f'. "{file}"; COMP_WORDS=({words}); COMP_CWORD=$((${{#COMP_WORDS[@]}} - 1)); _vimalorua; echo "${{COMPREPLY[*]}}"'
        said = ran(["bash", "-c", script], "/").stdout.strip()
        score.check(said == wanted, f"{words} is completed as {said!r}")


def built_with(score, given, prefix):
    """A program in C by what was installed, with the archive and with the shared library."""
    pc = read(f"{prefix}/lib/pkgconfig/vimalorua.pc")
    flags = [it.replace("${libdir}", f"{prefix}/lib").replace("${includedir}", f"{prefix}/include") for it in re.findall(r"(?<!\S)-[IlL]\S+", pc)]
    if shutil.which("pkg-config"):
        env = {**os.environ, "PKG_CONFIG_PATH": f"{prefix}/lib/pkgconfig", "PKG_CONFIG_ALLOW_SYSTEM_CFLAGS": "1", "PKG_CONFIG_ALLOW_SYSTEM_LIBS": "1"}
        said = ran(["pkg-config", "--cflags", "--libs", "vimalorua"], "/", env=env).stdout.split()
        score.check(sorted(said) == sorted(flags), f"pkg-config says {said}, and the file {flags}")
    doc = f"{prefix}/share/doc/vimalorua/examples"
    cc = os.environ.get("CC", "cc")
    wanted = ran([given.program, "frame", "--at", "2000", "--size", "64x36", "hello.ass", "letter.bdf"], doc).stdout
    for kind, more in (("archive", ["-Wl,-Bstatic", *flags, "-Wl,-Bdynamic"]), ("shared library", [*flags, f"-Wl,-rpath,{prefix}/lib"])):
        made = f"{prefix}/demo"
        done = ran([cc, "-o", made, f"-I{prefix}/include", "demo.c", "files.c", *more], doc)
        score.check(done.returncode == 0, f"a program with the {kind}: {done.stderr}")
        said = ran([made, "2000", "2001", "1", "64x36", "hello.ass", "letter.bdf"], doc).stdout
        score.check(said and said == re.sub("# .*\n", "", wanted, count=1), f"a program with the {kind} draws something else")
        if os.path.exists(made):
            os.remove(made)


def letters(score, given):
    """Makes the font of smooth letters again, and the script that holds it."""
    examples = f"{given.top}/examples"
    done = ran(["tools/make_ttf", f"{examples}/letters.txt", f"{given.room}/again.ttf"], given.top)
    score.check(done.returncode == 0, f"make_ttf: {done.stderr}")
    same = done.returncode == 0 and filecmp.cmp(f"{given.room}/again.ttf", f"{examples}/letters.ttf", shallow=False)
    score.check(same, "examples/letters.txt makes another font than examples/letters.ttf")
    again = shutil.copy(f"{examples}/attached.ass", f"{given.room}/attached.ass")
    done = ran(["tools/attach_fonts", again, f"{examples}/letters.ttf"], given.top)
    score.check(done.returncode == 0, f"attach_fonts: {done.stderr}")
    score.check(filecmp.cmp(again, f"{examples}/attached.ass", shallow=False), "examples/attached.ass holds another font than examples/letters.ttf")


def docs(score, given):
    counted(score, "docs", ran(["python3", "tools/check_docs.py"], given.top))
