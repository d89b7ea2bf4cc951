#!/usr/bin/env bash
# Measures the program: pictures of 1920x1080, and checks of 100,000 and of 1,000,000 Dialogue lines. It makes its inputs
# itself, and each time is the least of RUNS runs, 20 where none are given. It takes the proved build where one is at hand. Else it
# takes the toolchain's unproved one, which tests itself at each step and is hundreds of times as slow, and leaves out what would take
# minutes.
set -eu

top=$(dirname -- "$(dirname -- "$(readlink -f -- "${BASH_SOURCE[0]}")")")
runs=${1:-20}
room=$(mktemp -d)
trap 'rm -rf "$room"' EXIT

program=$("$top/vimalorua" --which)
echo "program: $program"
if [ "${program%/out/*}" = "$top" ]; then
    echo 'this is the unproved build, whose times say nothing of a proved one'
    runs=2
fi

date -u +%Y-%m-%d
printf '%s processors: %s\n' "$(nproc)" "$(sed -n 's/^model name.*: //p' /proc/cpuinfo | head -n 1)"
printf 'load before: %s\n' "$(cut -d ' ' -f 1-3 /proc/loadavg)"

# script WIDTH HEIGHT SIZE
script() {
    sed -e "s/^PlayResX:.*/PlayResX: $1/" -e "s/^PlayResY:.*/PlayResY: $2/" \
        -e "s/^Style: Default,Grid Letter,[0-9]*/Style: Default,Grid Letter,$3/" "$top/examples/hello.ass" | grep -v '^Dialogue:'
}

# lines COUNT TEXT
lines() {
    yes "Dialogue: 0,0:00:01.00,0:00:05.00,Default,,0,0,0,,$2" | head -n "$1"
}

text='The quick brown fox jumps over the lazy dog, 0123456789, and then sits in the sun.'
{ script 1920 1080 40; lines 1 "$text"; } > "$room/large.ass"
{ script 16 16 40; lines 1 "$text"; } > "$room/small.ass"
{ script 1280 720 80; lines 100000 'What the river said, nobody wrote down.'; } > "$room/100000.ass"
{ script 1280 720 80; lines 1000000 'So she said.'; } > "$room/1000000.ass"

. "$top/bench/pages.sh"
page > "$room/empty.ass"
page 'What the river said, nobody wrote down.' > "$room/plain.ass"
mapfile -t boards < <(signs 200)
page "${boards[@]}" > "$room/signs.ass"

# measure NAME RUNS SCRIPT WORDS..: the least time on the processors and on the clock, and the peak memory.
measure() {
    ASAN_OPTIONS=detect_leaks=0 python3 - "$@" << 'END'
import os, subprocess, sys, tempfile, time

name, runs, script, words = sys.argv[1], int(sys.argv[2]), sys.argv[3], sys.argv[4:]

def run(words):
    """How the words end: the status, milliseconds on the processors (user and system) and on the clock, and the peak in KiB."""
    begun = time.monotonic()
    child = subprocess.Popen(words, stdout=subprocess.DEVNULL, stderr=subprocess.DEVNULL)
    status, usage = os.wait4(child.pid, 0)[1:]
    child.returncode = os.waitstatus_to_exitcode(status)
    return child.returncode, 1000 * (usage.ru_utime + usage.ru_stime), 1000 * (time.monotonic() - begun), usage.ru_maxrss

found = [run(words) for _ in range(runs)]
if any(each[0] != 0 for each in found):
    sys.exit(f"{name}: exit status {max(each[0] for each in found)}")
peak = min(each[3] for each in found)
if os.path.exists("/usr/bin/time"):
    # A child of Python begins with Python's own peak, a child of `time` with a small one.
    with tempfile.NamedTemporaryFile("r") as said:
        run(["/usr/bin/time", "-f", "%M", "-o", said.name] + words)
        peak = int(said.read().split()[-1])
size = os.path.getsize(script)
print(f"{name}: {min(each[1] for each in found):.1f} ms on the processors, {min(each[2] for each in found):.1f} ms on the clock, "
      f"peak {peak / 1024:.1f} MiB; the script has {size / 1048576:.1f} MiB")
END
}

cd "$room"
font=$top/examples/letter.bdf
measure 'frame 16x16' "$runs" small.ass "$program" frame --at 2000 --size 16x16 small.ass "$font"
measure 'frame 1920x1080' "$runs" large.ass "$program" frame --at 2000 --size 1920x1080 large.ass "$font"
subtitle=$top/examples/subtitle.bdf
measure 'frame without a line' "$runs" empty.ass "$program" frame --at 1000 --size 1920x1080 empty.ass "$subtitle"
measure 'frame of a bordered line' "$runs" plain.ass "$program" frame --at 1000 --size 1920x1080 plain.ass "$subtitle"
measure 'frame of 200 signs' "$runs" signs.ass "$program" frame --at 1000 --size 1920x1080 signs.ass "$subtitle"
measure 'check 100,000 lines' "$runs" 100000.ass "$program" check 100000.ass "$font"
if [ "${program%/out/*}" != "$top" ]; then
    measure 'check 1,000,000 lines' $(((runs + 3) / 4)) 1000000.ass "$program" check 1000000.ass "$font"
fi

printf 'load after: %s\n' "$(cut -d ' ' -f 1-3 /proc/loadavg)"
