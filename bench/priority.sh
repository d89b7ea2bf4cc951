#!/usr/bin/env bash
# Whether a renderer that waits for a mask lets the one that makes it work, where it has a higher real-time priority and
# both have one processor: two renderers want one slow mask, the first of them at the priority 3 and the other at 10, and
# then the other way round. It prints the seconds that each play took, or that it was stopped after 30.
#
#   bench/priority.sh
#
# It wants the right to give real-time priorities.
set -euo pipefail

top=$(dirname -- "$(dirname -- "$(readlink -f -- "${BASH_SOURCE[0]}")")")
program=$("$top/vimalorua" --which)
room=$(mktemp -d)
trap 'rm -rf "$room"' EXIT
. "$top/bench/pages.sh"
page '{\an5\pos(960,540)\bord120\blur60}slow' > "$room/slow.ass"

# play FIRST OTHERS: the priorities of the first thread that is begun, and of those after it
play() {
    local pid threads at begun=$EPOCHREALTIME
    taskset -c 0 "$program" play --mode settled --from 5000 --to 5080 --step 40 --size 1920x1080 --renderers 2 \
        "$room/slow.ass" "$top/examples/subtitle.bdf" > "$room/images" &
    pid=$!
    threads=()
    while [ -d "/proc/$pid" ] && [ "${#threads[@]}" -lt 3 ]; do
        mapfile -t threads < <(find "/proc/$pid/task" -mindepth 1 -maxdepth 1 -printf "%f\n" 2> "$room/none" | sort -n)
    done
    for ((at = 1; at < ${#threads[@]}; at++)); do
        chrt -f -p "$([ "$at" = 1 ] && echo "$1" || echo "$2")" "${threads[at]}" 2> "$room/none" || true
    done
    for ((at = 0; at < 300; at++)); do
        [ -d "/proc/$pid" ] || break
        sleep 0.1
    done
    if [ -d "/proc/$pid" ]; then
        kill -9 "$pid"
        printf 'priorities %s and %s: stopped after 30 s\n' "$1" "$2"
    else
        printf 'priorities %s and %s: %.1f s\n' "$1" "$2" "$(echo "$EPOCHREALTIME - $begun" | bc)"
    fi
    wait "$pid" || true
}

date -u +%Y-%m-%d
printf '%s processors: %s\n' "$(nproc)" "$(sed -n 's/^model name.*: //p' /proc/cpuinfo | head -n 1)"
printf 'load before: %s\n' "$(cut -d ' ' -f 1-3 /proc/loadavg)"
play 3 10
play 10 3
printf 'load after: %s\n' "$(cut -d ' ' -f 1-3 /proc/loadavg)"
