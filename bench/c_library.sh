#!/usr/bin/env bash
# Measures the library for C, and libass where it is on the machine, by one program over 20 workloads, and prints tables
# of the least times of some runs, in which the two take turns. Where there is no libass, its numbers are '-'.
#
#   bench/c_library.sh ASSBENCH.C [RUNS]
#
# ASSBENCH.C is a bench that makes libass's calls. Beside it are gen.py and bdf2ttf.py, which make scripts and fonts.
# From the environment:
#   ARCHIVE   the library, else release/libvimalorua.a
#   LIBASS    the compiler's words for libass, else those of pkg-config
#   FONT      a BDF file, else examples/subtitle.bdf; libass gets it as TrueType, one square for each set pixel
#   ROWS      the names of some workloads, else all
#   EVERY     a number: only one frame of so many is drawn, for a trial; else each
#   PICTURES  a folder for the last frame of each workload by each side, else none
set -euo pipefail

top=$(dirname -- "$(dirname -- "$(readlink -f -- "${BASH_SOURCE[0]}")")")
bench=$(readlink -f -- "${1:?usage: c_library.sh ASSBENCH.C [RUNS]}")
runs=${2:-5}
peer=$(dirname -- "$bench")
font=${FONT:-$top/examples/subtitle.bdf}
room=$(mktemp -d)
trap 'rm -rf "$room"' EXIT

# name, script, font, size, from, to, step, and further options
workloads() {
    cat << 'END'
plain plain letters 1920x1080 0 10000 40
karaoke karaoke letters 1920x1080 0 10000 40
signs signs letters 1920x1080 0 10000 40
transforms transforms letters 1920x1080 0 10000 40
move move letters 1920x1080 0 10000 40
dialogue-each-line dialogue letters 1920x1080 0 1500000 3000
dialogue-one-minute dialogue letters 1920x1080 30000000 30060000 40
dialogue-stream dialogue letters 1920x1080 0 60000 40 --stream
drawing drawing letters 1920x1080 0 10000 40
paper-20-frames paper grid 320x180 0 200000 10000
paper-5000-frames paper grid 320x180 0 200000 40
bigblur bigblur letters 1920x1080 0 10000 40
edges edges letters 1920x1080 0 10000 40
stack stack letters 1920x1080 0 40000 40
plain-4k plain letters 3840x2160 0 10000 40
signs-4k signs letters 3840x2160 0 10000 40
bigblur-4k bigblur letters 3840x2160 0 10000 40
transforms-8MB transforms letters 1920x1080 0 10000 40 --glyph-max 200 --bitmap-mb 8
signs-2MB signs letters 1920x1080 0 10000 40 --glyph-max 50 --bitmap-mb 2
signs-resized signs letters 1920x1080 0 2000 40 --resize 1280x720
END
}

build() {
    cc -O2 -I"$top/c/bench" -o "$room/here" "$bench" "$top"/c/{bench/ass_shim,ass_images,files}.c \
        "${ARCHIVE:-$top/release/libvimalorua.a}" -lpthread
    sides=here
    if [ -n "${LIBASS:=$(pkg-config --cflags --libs libass 2> "$room/log" || :)}" ]; then
        # shellcheck disable=SC2086
        cc -O2 -o "$room/libass" "$bench" $LIBASS -lpthread
        sides='here libass'
    fi
}

inputs() {
    python3 "$peer/gen.py" all "$room"
    # The bench looks through the rest of a script for each of its lines.
    python3 "$peer/gen.py" tagged --lines 20000 > "$room/tagged.ass"
    python3 "$peer/gen.py" grid.bdf > "$room/grid.here"
    cp "$font" "$room/letters.here"
    if [ "$sides" != here ]; then
        python3 "$peer/bdf2ttf.py" "$room/letters.here" "$room/letters.libass" > "$room/log"
        python3 "$peer/bdf2ttf.py" "$room/grid.here" "$room/grid.libass" > "$room/log"
    fi
}

# One run of a workload by one side.
render() { # SIDE NAME SCRIPT FONT SIZE FROM TO STEP OPTION..
    local picture=()
    [ -z "${PICTURES:-}" ] || picture=(--ppm "$PICTURES/$2.$1.ppm")
    "$room/$1" render "$room/$3.ass" --font "$room/$4.$1" --size "$5" --from "$6" --to "$7" \
        --step $(($8 * ${EVERY:-1})) --cpu-clock "${picture[@]}" "${@:9}" >> "$room/said.$1.$2"
}

# What lines read: render the first of two modes, and feed the second.
read_lines() { # SIDE MODE SCRIPT
    "$room/$1" "$2" "$room/$3.ass" --runs 3 --cpu-clock >> "$room/said.$1.$2-$3"
}

# What a side had to do, as it told itself.
work_of() { # SIDE NAME
    grep -E '^(size|track_events|frames[12]|fed|events|script_lines) ' "$room/said.$1.$2" | sort -u
}

# Names each workload at which the two had other work.
other_work() {
    local file name
    [ "$sides" != here ] || return 0
    for file in "$room"/said.here.*; do
        name=${file#"$room/said.here."}
        cmp -s <(work_of here "$name") <(work_of libass "$name") || echo "$name: the two had other events or frames"
    done
}

# The least of a key's values, divided, with so many decimals.
least() { # SIDE NAME KEY DIVISOR DECIMALS
    if [ -f "$room/said.$1.$2" ]; then
        awk -v key="$3" -v by="$4" -v places="$5" '
            $1 == key && (!found || $2 < value) { value = $2; found = 1 }
            END { if (found) printf "%.*f", places, value / by; else printf "-" }' "$room/said.$1.$2"
    else
        printf -- '-'
    fi
}

# A cell: here, and libass.
cell() { # NAME KEY DIVISOR DECIMALS
    printf ' %s / %s |' "$(least here "$@")" "$(least libass "$@")"
}

render_table() {
    local name rest
    echo '| Workload | First | Cold | Warm | Warm p95 | Blending | All, warm | Images | Same | Moved | Peak MB |'
    echo '|---|---|---|---|---|---|---|---|---|---|---|'
    while read -r name rest; do
        [ -f "$room/said.here.$name" ] || continue
        printf '| %s |' "$name"
        cell "$name" first1 1000 2
        cell "$name" render1_mean 1000 3
        cell "$name" render2_mean 1000 3
        cell "$name" render2_p95 1000 3
        cell "$name" blend2_mean 1000 2
        cell "$name" total2_mean 1000 2
        cell "$name" images2_mean 1 1
        cell "$name" same2 1 0
        cell "$name" moved2 1 0
        cell "$name" peak_rss_kb 1024 0
        echo
    done < <(workloads)
}

line_table() {
    local mode script
    echo '| What | Lines | Events | ms for 1,000 | A repetition | Heap bytes an event |'
    echo '|---|---|---|---|---|---|'
    for mode in parse feed; do
        for script in dialogue tagged; do
            printf '| %s | %s |' "$mode" "$script"
            cell "$mode-$script" events 1 0
            cell "$mode-$script" per_1000_min 1000 2
            cell "$mode-$script" repeat_per_1000_min 1000 2
            cell "$mode-$script" heap_bytes_per_event 1 0
            echo
        done
    done
}

build
inputs
date -u +%Y-%m-%d
printf '%s processors: %s\n' "$(nproc)" "$(sed -n 's/^model name.*: //p' /proc/cpuinfo | head -n 1)"
printf 'load before: %s\n' "$(cut -d ' ' -f 1-3 /proc/loadavg)"
for ((run = 0; run < runs; run++)); do
    while read -r name words; do
        [[ " ${ROWS:-$name} " == *" $name "* ]] || continue
        for side in $sides; do
            # shellcheck disable=SC2086
            render "$side" "$name" $words
        done
    done < <(workloads)
    for side in $sides; do
        [ -z "${ROWS:-}" ] || continue
        for mode in parse feed; do
            read_lines "$side" "$mode" dialogue
            read_lines "$side" "$mode" tagged
        done
    done
done
printf 'load after: %s\n\n' "$(cut -d ' ' -f 1-3 /proc/loadavg)"
echo "The least of $runs runs, milliseconds of the thread on the processor; each cell: this library / libass"
echo
render_table
printf '\nsigns-resized, the first frame at 1280x720 and back at 1920x1080:'
cell signs-resized resize_there_first 1000 1
cell signs-resized resize_back_first 1000 1
printf '\n\n'
[ -n "${ROWS:-}" ] || line_table
other_work
