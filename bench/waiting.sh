#!/usr/bin/env bash
# What threads cost that wait for a mask which another one makes: 4 and 8 renderers want one mask of a drawing of 6,000
# lines at once. It reads the processor time of each thread every 2 ms and prints, of the run in which it was least, what
# the waiting threads used together while the one that makes the mask went from a third of its time to nearly all.
#
#   bench/waiting.sh [RUNS]
#
# 5 runs without a word.
set -euo pipefail

top=$(dirname -- "$(dirname -- "$(readlink -f -- "${BASH_SOURCE[0]}")")")
room=$(mktemp -d)
trap 'rm -rf "$room"' EXIT
. "$top/bench/pages.sh"
page "{\\an5\\pos(960,540)\\fscx250\\fscy250\\p1}m 0 0$(awk 'BEGIN { srand(1); for (i = 0; i < 6000; i++) printf " l %d %d", rand() * 400, rand() * 400 }')" > "$room/drawing.ass"

date -u +%Y-%m-%d
printf '%s processors: %s\n' "$(nproc)" "$(sed -n 's/^model name.*: //p' /proc/cpuinfo | head -n 1)"
printf 'load before: %s\n' "$(cut -d ' ' -f 1-3 /proc/loadavg)"
python3 - "${1:-5}" "$("$top/vimalorua" --which)" "$room/drawing.ass" "$top/examples/subtitle.bdf" << 'END'
import os, subprocess, sys, time

runs, program, script, font = int(sys.argv[1]), *sys.argv[2:]


def looks(renderers):
    """Each look's processor time of each thread, in milliseconds, with the time of the look."""
    words = ["--from", "5000", "--to", str(5000 + 40 * renderers), "--step", "40", "--size", "320x180"]
    words = [program, "play", "--mode", "settled", *words, "--renderers", str(renderers), script, font]
    child = subprocess.Popen(words, stdout=subprocess.DEVNULL, stderr=subprocess.DEVNULL)
    found = []
    while child.poll() is None:
        used = {}
        try:
            for thread in os.listdir(f"/proc/{child.pid}/task"):
                with open(f"/proc/{child.pid}/task/{thread}/schedstat", encoding="ascii") as file:
                    used[thread] = int(file.read().split()[0]) / 1e6
        except OSError:
            pass
        found.append((time.monotonic() * 1e3, used))
        time.sleep(0.002)
    return found


def cost(renderers):
    found, last = looks(renderers), {}
    for _, used in found:
        last.update(used)
    maker = max(last, key=last.get)
    making = [it for it in found if 0.35 * last[maker] < it[1].get(maker, 0) < 0.97 * last[maker]]
    (begun, before), (ended, behind) = making[0], making[-1]
    return sum(behind[it] - before.get(it, 0) for it in behind if it != maker), ended - begun


for renderers in (4, 8):
    least, window = min(cost(renderers) for _ in range(runs))
    print(f"{renderers - 1} threads waited for {window:.0f} ms and used {least:.2f} ms on the processors together")
END
printf 'load after: %s\n' "$(cut -d ' ' -f 1-3 /proc/loadavg)"
