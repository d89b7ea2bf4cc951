#!/usr/bin/env bash
# Measures by the library for C how long a flush of EVENTS events, 1,000,000 without a word, keeps another thread from
# the track: prints the least of RUNS runs of the milliseconds that it took and of the longest wait of the other.
#
#   bench/flush.sh [EVENTS [RUNS]]
#
# ARCHIVE is the library, else release/libvimalorua.a.
set -euo pipefail

top=$(dirname -- "$(dirname -- "$(readlink -f -- "${BASH_SOURCE[0]}")")")
events=${1:-1000000}
runs=${2:-5}
room=$(mktemp -d)
trap 'rm -rf "$room"' EXIT
cc -O2 -std=c11 -D_POSIX_C_SOURCE=200809L -o "$room/flush" "$top"/c/{bench/flush,files}.c \
    "${ARCHIVE:-$top/release/libvimalorua.a}" -lpthread

date -u +%Y-%m-%d
printf '%s processors: %s\n' "$(nproc)" "$(sed -n 's/^model name.*: //p' /proc/cpuinfo | head -n 1)"
printf 'load before: %s\n' "$(cut -d ' ' -f 1-3 /proc/loadavg)"
for ((i = 0; i < runs; i++)); do
    "$room/flush" "$events" "$top/examples/signs.ass" "$top/examples/subtitle.bdf" >> "$room/times"
done
printf 'load after: %s\n' "$(cut -d ' ' -f 1-3 /proc/loadavg)"
printf 'a flush of %s events: %s ms; the longest wait of another thread beside it: %s ms\n' "$events" \
    "$(cut -d ' ' -f 1 "$room/times" | sort -n | head -n 1)" "$(cut -d ' ' -f 2 "$room/times" | sort -n | head -n 1)"
