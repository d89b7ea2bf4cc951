#!/usr/bin/env bash
# Measures the kernels at the sizes of RESULTS.md, on the machine at hand. The program is proved and built first where that is needed. It
# times each turn by the clock on the wall. Below stands what the whole run took on the processor and on that clock: where the second is
# much more than the first, the run had to wait, and its times are too long.
set -eu

top=$(dirname -- "$(dirname -- "$(readlink -f -- "${BASH_SOURCE[0]}")")")
program=$top/crates/kernel_bench/out/kernel_bench

# Whether the program is there and no source of the crates that it is made of is newer.
is_fresh() {
    local crate
    [ -x "$program" ] || return 1
    for crate in ass_num region_rows sample_region outline_points cancelled_edges fixed_outline border_region mask_cover mask_blur \
        event_places blend alpha_canvas bdf_font drawing_path kernel_bench; do
        [ -z "$(find "$top/crates/$crate/src" -newer "$program" -print -quit)" ] || return 1
    done
}

TIMEFORMAT='  the whole run: %U s and %S s on the processor, for itself and for the system; %R s on the wall'

measure() {
    printf '\n%s %s\n' "$1" "$2"
    { time "$program" "$@" 2>&1 | sed 's/^/  /'; } 2>&1
}

if ! is_fresh; then
    echo "run.sh: proving and building the program, which takes some minutes" >&2
    (cd "$top/crates/kernel_bench" && rt run) >&2
fi

date -u +%Y-%m-%d
printf '%s processors: %s\n' "$(nproc)" "$(sed -n 's/^model name.*: //p' /proc/cpuinfo | head -n 1)"
printf 'load before: %s\n' "$(cut -d ' ' -f 1-3 /proc/loadavg)"

measure outline 42 200
measure drawing 2000 200
measure region 48 200
measure region 200 100
measure cancel 2000 200
measure cancel 100000 5
measure border 48 100
measure border 200 20
measure cover 48 500
measure cover 200 100
measure sum 200 500
measure blur 200 300
measure shift 10000 50
measure shift 100000 10
measure shift 1000000 5
measure draw 64 5000
measure draw 256 1000
measure draw 1080 100
measure alpha 64 1000
measure alpha 256 500
measure alpha 1080 50

printf '\nload after: %s\n' "$(cut -d ' ' -f 1-3 /proc/loadavg)"
