#!/usr/bin/env bash
# Counts the masks that a try hasn't had where all are ready: of a settled play of 200 signs, with a border each, in 256
# images by four renderers, and by one, those of the second of two times, less those of the first alone. A renderer that a
# try was refused to asks for its image's 400 masks one after another, so these calls are counted, by a probe of perf.
#
#   bench/tries.sh [RUNS]
#
# PROGRAM is the program with its symbols, else crates/vimalorua_main/out/vimalorua_main, which `rt ci` leaves there. It
# prints the least and the greatest of RUNS runs, 5 without a word.
set -euo pipefail

top=$(dirname -- "$(dirname -- "$(readlink -f -- "${BASH_SOURCE[0]}")")")
runs=${1:-5}
program=${PROGRAM:-$top/crates/vimalorua_main/out/vimalorua_main}
probe=untried_$$
room=$(mktemp -d)
trap 'perf probe -q --del "*:$probe*" 2> "$room/none" || true; rm -rf "$room"' EXIT
. "$top/bench/pages.sh"
symbol=$(nm "$program" | awk '/ mask_caches::caches::Caches::composite::</ && !seen++ { print $1 }')
[ -n "$symbol" ] || { echo "tries.sh: $program has no symbol of Caches::composite" >&2; exit 1; }
# a probe wants the place in the file
read -r place begin < <(readelf -lW "$program" | awk '$1 == "LOAD" && / R E / { print $2, $3 }')
perf probe -q -x "$program" --add "$probe=$(printf '0x%x' $((0x$symbol - begin + place)))"
event=$(perf probe --list 2> "$room/none" | awk -v name="$probe" '$1 ~ name && !seen++ { print $1 }')
mapfile -t boards < <(signs 200)
page "${boards[@]}" > "$room/signs.ass"

# lent RENDERERS TIMES: how many masks were asked for one after another
lent() {
    perf stat -x, -e "$event" -o "$room/count" "$program" play --mode settled --from 0 --to 9984 --step 39 \
        --size 1920x1080 --renderers "$1" --times "$2" "$room/signs.ass" "$top/examples/subtitle.bdf" > "$room/images"
    awk -F, '/untried/ { print $1 }' "$room/count"
}

date -u +%Y-%m-%d
printf '%s processors: %s\n' "$(nproc)" "$(sed -n 's/^model name.*: //p' /proc/cpuinfo | head -n 1)"
printf 'load before: %s\n' "$(cut -d ' ' -f 1-3 /proc/loadavg)"
for renderers in 1 4; do
    for ((i = 0; i < runs; i++)); do
        echo $(($(lent "$renderers" 2) - $(lent "$renderers" 1)))
    done | sort -n > "$room/found"
    printf '%s renderers: of 102,400 masks %s to %s were not had by a try\n' "$renderers" "$(head -n 1 "$room/found")" \
        "$(tail -n 1 "$room/found")"
done
printf 'load after: %s\n' "$(cut -d ' ' -f 1-3 /proc/loadavg)"
