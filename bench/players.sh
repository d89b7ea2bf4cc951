#!/usr/bin/env bash
# Measures subtitles in ffmpeg itself: its filter `ass` with libass.so.9 of c/libass, with the system's libass, and no
# filter, by turns, on one thread. It prints a table of processor seconds of whole runs, the least and the most of some,
# of what the filter adds to them, most of which is ffmpeg's own blending, and the peak of memory. Where perf is on the
# machine it samples one run more of each, and tells how much of it was in the library, without libc: libass.so.9, and
# for the system's FreeType, HarfBuzz, FriBidi and fontconfig with what reads its files.
#
#   bench/players.sh [RUNS] [WORKLOAD..]     3 runs; dialogue, karaoke and signs
#
# From the environment:
#   PLACED    the folder of libass.so.9, else out/libass
#   FONT      a TrueType file, else examples/letters.ttf
#   FRAMES    how many frames of 1,920 by 1,080, at 25 a second, else 250
set -euo pipefail
top=$(dirname -- "$(dirname -- "$(readlink -f -- "${BASH_SOURCE[0]}")")")
runs=${1:-3}
placed=$(readlink -e -- "${PLACED:-$top/out/libass}")
frames=${FRAMES:-250}
workloads=${*:2}
room=$(mktemp -d)
trap 'rm -rf "$room"' EXIT
mkdir "$room/fonts"
cp "${FONT:-$top/examples/letters.ttf}" "$room/fonts/font.ttf"

python3 "$top/bench/film_scripts.py" "$room" $((frames / 25 + 1))

# One run, told as processor seconds and the peak of memory in MB.
cat > "$room/measured.py" << 'LINES'
import resource
import subprocess
import sys

subprocess.run(sys.argv[1:], stdin=subprocess.DEVNULL, check=True)
used = resource.getrusage(resource.RUSAGE_CHILDREN)
print(f"{used.ru_utime + used.ru_stime:.2f} {used.ru_maxrss // 1024}")
LINES

run() { # SIDE WORKLOAD COMMAND..
    local filter=(-vf "ass=$room/$2.ass:fontsdir=$room/fonts") path=
    [ "$1" != none ] || filter=()
    [ "$1" != here ] || path=$placed
    env ${path:+LD_LIBRARY_PATH="$path"} "${@:3}" ffmpeg -nostdin -v error -filter_threads 1 -threads 1 -f lavfi \
        -i "color=black:s=1920x1080:r=25:d=$((frames / 25))" "${filter[@]}" -threads 1 -f null -
}

# The share of a run in the library, in percent.
sample() { # SIDE WORKLOAD
    run "$1" "$2" perf record -q -e cpu-clock -F 1000 -o "$room/samples" > "$room/log" 2>&1
    perf report -i "$room/samples" --stdio --sort dso 2> "$room/log" |
        awk '/lib(ass|freetype|harfbuzz|fribidi|fontconfig|expat)\./ { sum += $1 } END { print sum + 0 }' > "$room/$1.$2.share"
}

for workload in ${workloads:-dialogue karaoke signs}; do
    for ((turn = 0; turn < runs; turn++)); do
        for side in here libass none; do
            run "$side" "$workload" python3 "$room/measured.py" >> "$room/$side.$workload"
        done
    done
    for side in here libass; do
        ! command -v perf > "$room/log" || sample "$side" "$workload"
    done
done
python3 - "$room" ${workloads:-dialogue karaoke signs} << 'LINES'
import os
import sys


def in_library(side, name, least):
    """Milliseconds of a run in the library."""
    path = f"{sys.argv[1]}/{side}.{name}.share"
    if not os.path.exists(path):
        return "-"
    with open(path, encoding="utf-8") as it:
        return f"{float(it.read()) * least * 10:.0f}"


def runs_of(side, name):
    with open(f"{sys.argv[1]}/{side}.{name}", encoding="utf-8") as it:
        return [tuple(map(float, line.split())) for line in it]


print("| Workload | Seconds, here | libass | No filter | The filter alone | Of libass's | In the library, ms | Peak MB |")
print("|---|---|---|---|---|---|---|---|")
for name in sys.argv[2:]:
    runs = {side: runs_of(side, name) for side in ("here", "libass", "none")}
    cells = [f"{min(it)[0]:.2f} to {max(it)[0]:.2f}" for it in runs.values()]
    here, libass, none = (min(it)[0] for it in runs.values())
    peaks = " / ".join(str(int(max(peak for _, peak in runs[side]))) for side in ("here", "libass"))
    filters = [f"{here - none:.2f} / {libass - none:.2f}", f"{(here - none) / (libass - none):.2f}"]
    library = f"{in_library('here', name, here)} / {in_library('libass', name, libass)}"
    print("|", " | ".join([name, *cells, *filters, library, peaks]), "|")
LINES
