#!/usr/bin/env bash
# Measures the library for C with one thread that feeds and 1, 2, 4 and 8 that list frames: by seats of one track, and
# by as many handles of one thread each, by turns. Prints a table of the most frames a second of some runs, of all drawers
# together, and of the share of tries that found the track busy in that run.
#
#   bench/threads.sh [RUNS [SECONDS]]     without them 3 runs of 3 seconds each
#
# ARCHIVE is the library, else release/libvimalorua.a.
set -euo pipefail

top=$(dirname -- "$(dirname -- "$(readlink -f -- "${BASH_SOURCE[0]}")")")
runs=${1:-3}
seconds=${2:-3}
room=$(mktemp -d)
trap 'rm -rf "$room"' EXIT
cc -O2 -std=c11 -D_POSIX_C_SOURCE=200809L -o "$room/threads" "$top"/c/{bench/threads,files}.c \
    "${ARCHIVE:-$top/release/libvimalorua.a}" -lpthread

run() { # SIDE DRAWERS SCRIPT TO
    "$room/threads" "$1" "$2" "$seconds" "$top/examples/$3.ass" "$top/examples/subtitle.bdf" 1280x720 0 "$4" 40 \
        >> "$room/$1.$2.$3"
}

best() { # SIDE DRAWERS SCRIPT
    sort -n "$room/$1.$2.$3" | tail -n 1
}

date -u +%Y-%m-%d
printf '%s processors: %s\n' "$(nproc)" "$(sed -n 's/^model name.*: //p' /proc/cpuinfo | head -n 1)"
printf 'load before: %s\n' "$(cut -d ' ' -f 1-3 /proc/loadavg)"
for ((i = 0; i < runs; i++)); do
    for drawers in 1 2 4 8; do
        for side in seats handles; do
            run "$side" "$drawers" signs 8000
            run "$side" "$drawers" dialogue 8000
        done
    done
done
printf 'load after: %s\n\n' "$(cut -d ' ' -f 1-3 /proc/loadavg)"
echo '| Workload | Drawers | Frames a second by seats | Busy, of 100 tries | Frames a second by handles |'
echo '|---|---|---|---|---|'
for script in signs dialogue; do
    for drawers in 1 2 4 8; do
        read -r frames busy < <(best seats "$drawers" "$script")
        read -r others _ < <(best handles "$drawers" "$script")
        printf '| %s | %s | %s | %s | %s |\n' "$script" "$drawers" "$frames" "$busy" "$others"
    done
done
