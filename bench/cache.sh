#!/usr/bin/env bash
# Measures visits of a shared cache, on the machine at hand. The program is proved and built first where that is needed.
# Each time is the least of many short laps, so that what else the machine does shows little.
set -eu

top=$(dirname -- "$(dirname -- "$(readlink -f -- "${BASH_SOURCE[0]}")")")
program=$top/crates/cache_bench/out/cache_bench

# Whether the program is there and no source that it is made of is newer.
is_fresh() {
    local crate
    [ -x "$program" ] || return 1
    for crate in ass_num turn_cell evict_core flight_cache cache_bench; do
        [ -z "$(find "$top/crates/$crate/src" -newer "$program" -print -quit)" ] || return 1
    done
}

if ! is_fresh; then
    echo "cache.sh: proving and building the program, which takes some minutes" >&2
    (cd "$top/crates/cache_bench" && rt run) >&2
fi

date -u +%Y-%m-%d
printf '%s processors: %s\n' "$(nproc)" "$(sed -n 's/^model name.*: //p' /proc/cpuinfo | head -n 1)"
printf 'load before: %s\n' "$(cut -d ' ' -f 1-3 /proc/loadavg)"

# 10,000 keys, 2,500 for each of four threads
"$program" 2500 4

# 60,000 keys, nearly as many as a cache has: their entries outgrow a processor's own caches
"$program" 15000 1

printf 'load after: %s\n' "$(cut -d ' ' -f 1-3 /proc/loadavg)"
