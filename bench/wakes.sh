#!/usr/bin/env bash
# Measures how long a thread that sleeps until a making ends takes to go on behind its end. A run of cache_bench without
# words has one such thread: it asks for a key that another one has claimed, which fails to make it only a while later.
# From the call of the kernel that wakes the sleeper (a futex, which perf traces) to the sleeper's return from its last wait
# for the bell or its lock; tracing is in the time. How long a making takes, and what the sleeper asks for then, isn't.
#
#   bench/wakes.sh [RUNS]
#
# PROGRAM is the program, else crates/cache_bench/out/cache_bench. It prints the least, the median, that of 99 in 100 and the
# greatest of RUNS runs, 1,000 without a word, and how many sleepers went on within 50 microseconds. Wants root, for perf.
set -euo pipefail

top=$(dirname -- "$(dirname -- "$(readlink -f -- "${BASH_SOURCE[0]}")")")
runs=${1:-1000}
program=${PROGRAM:-$top/crates/cache_bench/out/cache_bench}
room=$(mktemp -d)
trap 'rm -rf "$room"' EXIT
[ -x "$program" ] || { echo "wakes.sh: no program $program" >&2; exit 1; }

date -u +%Y-%m-%d
printf '%s processors: %s\n' "$(nproc)" "$(sed -n 's/^model name.*: //p' /proc/cpuinfo | head -n 1)"
printf 'load before: %s\n' "$(cut -d ' ' -f 1-3 /proc/loadavg)"
# shellcheck disable=SC2016
perf record -q -o "$room/record" -e syscalls:sys_enter_futex -e syscalls:sys_exit_futex \
    bash -c 'for ((i = 0; i < $1; i++)); do "$2" > "$3"; done' bash "$runs" "$program" "$room/counts"
perf script --ns -i "$room/record" -F tid,time,event,trace > "$room/calls" 2> "$room/warnings"
python3 - "$runs" "$room/calls" << 'END'
import re, sys

WAITS, WAKE, ALL, NEAR = (0, 9), 1, 0x7FFFFFFF, 64
waiting, woken, behind, found = {}, {}, {}, []

def has_gone_on(tid):
    found.append(behind.pop(tid) - woken.pop(tid)[0])

for line in open(sys.argv[2]):
    call = re.match(r"\s*(\d+)\s+([\d.]+):\s+syscalls:sys_(enter|exit)_futex:\s*(.*)", line)
    tid, time = int(call[1]), float(call[2])
    if call[3] == "exit":
        waiting.pop(tid, None)
        if tid in woken:
            behind[tid] = time
        continue
    word, operation, value = (int(it, 16) for it in re.match(r"uaddr: (\w+), op: (\w+), val: (\w+)", call[4]).groups())
    operation &= 0x7F
    if tid in behind and not (operation in WAITS and abs(word - woken[tid][1]) < NEAR):
        has_gone_on(tid)
    if operation in WAITS:
        waiting[tid] = word
    elif operation == WAKE and value == ALL:
        for other, slept_at in waiting.items():
            if slept_at == word:
                woken.setdefault(other, (time, word))
for tid in list(behind):
    has_gone_on(tid)
found = sorted(1e6 * it for it in found)
if not found:
    sys.exit("wakes.sh: nobody slept")
rows = found[0], found[len(found) // 2], found[len(found) * 99 // 100], found[-1]
print("%s runs, %d sleepers: least %.1f, median %.1f, of 99 in 100 %.1f, greatest %.1f microseconds" % (sys.argv[1], len(found), *rows))
print("within 50 microseconds: %d of %d" % (sum(it <= 50 for it in found), len(found)))
END
printf 'load after: %s\n' "$(cut -d ' ' -f 1-3 /proc/loadavg)"
