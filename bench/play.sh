#!/usr/bin/env bash
# Measures plays of the proved program: frames a second of settled plays of 200 signs by 1, 2 and 4 renderers, and in 4 bands; of one
# line and of many, small and large, and of short and long scripts; memory of plays of many images, and of keys that take more than their
# masks; what renderers cost that wait for one mask; and selftests. Each time is the least of RUNS runs, and each peak the greatest.
# play.sh [RUNS [PART]]: 3 runs and all parts where none are given; the parts are speed, lines, memory, keys and selftest.
set -eu

top=$(dirname -- "$(dirname -- "$(readlink -f -- "${BASH_SOURCE[0]}")")")
runs=${1:-3}
part=${2:-}
program=$("$top/vimalorua" --which)
room=$(mktemp -d)
trap 'rm -rf "$room"' EXIT
. "$top/bench/pages.sh"
# as the wrapper vimalorua sets them
export MALLOC_MMAP_THRESHOLD_=33554432 MALLOC_TRIM_THRESHOLD_=1073741824 MALLOC_TOP_PAD_=33554432
export GLIBC_TUNABLES=glibc.malloc.hugetlb=1
mapfile -t boards < <(signs 200)
page "${boards[@]}" > "$room/signs.ass"
talk 40000 > "$room/talk.ass"
talk 200 > "$room/short.ass"
page 'What the river said, nobody wrote down.' > "$room/line.ass"
mapfile -t lines < <(yes 'So she said.' | head -n 1000)
page "${lines[@]:0:50}" > "$room/50.ass"
page "${lines[@]}" > "$room/1000.ass"

date -u +%Y-%m-%d
printf '%s processors: %s\n' "$(nproc)" "$(sed -n 's/^model name.*: //p' /proc/cpuinfo | head -n 1)"
printf 'load before: %s\n' "$(cut -d ' ' -f 1-3 /proc/loadavg)"

# measure NAME FRAMES WORDS..: the least time on the clock and the processors, frames a second, and the greatest peak
measure() {
    python3 - "$runs" "$@" << 'END'
import os, subprocess, sys, time

runs, name, frames, words = int(sys.argv[1]), sys.argv[2], int(sys.argv[3]), sys.argv[4:]

def run():
    begun = time.monotonic()
    child = subprocess.Popen(words, stdout=subprocess.DEVNULL, stderr=subprocess.DEVNULL)
    status, usage = os.wait4(child.pid, 0)[1:]
    child.returncode = os.waitstatus_to_exitcode(status)
    if child.returncode:
        sys.exit(f"{name}: exit status {child.returncode}")
    return time.monotonic() - begun, usage.ru_utime + usage.ru_stime, usage.ru_maxrss

found = [run() for _ in range(runs)]
clock, used = min(it[0] for it in found), min(it[1] for it in found)
speed = f", {frames / clock:.1f} frames a second" if frames else ""
print(f"{name}: {clock:.2f} s on the clock, {used:.2f} s on the processors{speed}, peak {max(it[2] for it in found) / 1024:.0f} MiB", flush=True)
END
}

# asked NAME: whether this part is to be measured
asked() {
    [ -z "$part" ] || [ "$part" = "$1" ]
}

cd "$room"
font=$top/examples/subtitle.bdf
if asked speed; then
    for renderers in 1 2 4; do
        measure "200 signs, 250 frames of 1920x1080, $renderers renderers" 250 \
            "$program" play --mode settled --from 0 --to 10000 --step 40 --size 1920x1080 --renderers "$renderers" signs.ass "$font"
    done
    measure "200 signs, 250 frames of 1920x1080, 1 renderer in 4 bands" 250 \
        "$program" play --mode settled --from 0 --to 10000 --step 40 --size 1920x1080 --bands 4 signs.ass "$font"
fi

# plays NAME SCRIPT FROM COUNT SIZE BATCH: so many frames by one renderer, a millisecond apart
plays() {
    measure "$1, $4 frames of $5" "$4" "$program" play --mode settled --from "$3" --to $(($3 + $4)) --step 1 --size "$5" --batch "$6" "$2" "$font"
}

if asked lines; then
    for size in '16x16 1000' '1920x1080 16'; do
        # shellcheck disable=SC2086
        plays 'one line' line.ass 5000 1000 $size
        # shellcheck disable=SC2086
        plays '50 lines' 50.ass 5000 200 $size
        # shellcheck disable=SC2086
        plays '1,000 lines' 1000.ass 5000 20 $size
    done
    plays '200 lines one after the other' short.ass 100000 20000 16x16 1000
    plays '40,000 lines one after the other' talk.ass 100000 20000 16x16 1000
fi
if asked memory; then
    for budget in 1048576 16777216 ''; do
        for count in 1000 10000 20000 40000; do
            measure "a line a second, $count frames of 640x360, 4 renderers, budget ${budget:-by default}" "$count" \
                "$program" play --mode settled --from 0 --to $((count * 1000)) --step 1000 --size 640x360 --renderers 4 ${budget:+--budget "$budget"} talk.ass "$font"
        done
    done
fi
# 20,000 marks of no advance: each frame has one mask of one pixel, and a key with a part for each mark, another one in each frame
if asked keys; then
    {
        printf 'STARTFONT 2.1\nFONT marks\nSIZE 1 72 72\nFONTBOUNDINGBOX 1 1 0 0\nSTARTPROPERTIES 3\nFAMILY_NAME "Marks"\nFONT_ASCENT 1\nFONT_DESCENT 0\nENDPROPERTIES\n'
        printf 'CHARS 1\nSTARTCHAR a\nENCODING 97\nSWIDTH 0 0\nDWIDTH 0 0\nBBX 1 1 0 0\nBITMAP\n80\nENDCHAR\nENDFONT\n'
    } > marks.bdf
    page "{\\t(\\fscy200)}$(head -c 20000 /dev/zero | tr '\0' a)" | sed 's/Subtitle,48/Marks,1/' > marks.ass
    for count in 200 2000; do
        measure "20,000 marks of no advance, $count frames of 64x64, budget 65536" "$count" \
            "$program" play --mode settled --from 0 --to "$((count * 4))" --step 4 --size 64x64 --budget 65536 marks.ass marks.bdf
    done
fi

if asked selftest; then
    for workers in 1 4; do
        measure "selftest of 20,000 events, $workers workers" 0 "$program" selftest --workers "$workers" 7 20000
    done
fi

printf 'load after: %s\n' "$(cut -d ' ' -f 1-3 /proc/loadavg)"
