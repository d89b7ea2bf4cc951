#!/usr/bin/env bash
# Tests seats of one track in eight threads (c/tests/threads.c), in each of the kinds that are named: plainly, under the
# sanitizers of addresses and of undefined behaviour, and under valgrind's memcheck. valgrind's drd and helgrind don't
# know the archive's atomics, and would tell of races that there are none of.
#
#   c/threads.sh [ARCHIVE [KIND..]]     without them release/libvimalorua.a, and plain, sanitized and memcheck
#
# The four threads that feed get CHUNKS chunks each, else 2000, the others make DRAWS frames each, else 500, and there
# are ROUNDS rounds of a twentieth of that with pauses at random, else 50. Under memcheck it is a tenth of all.
set -euo pipefail
here=$(dirname -- "$(readlink -f -- "${BASH_SOURCE[0]}")")
top=$(dirname -- "$here")
archive=$(readlink -e -- "${1:-$top/release/libvimalorua.a}")
kinds=${*:2}
cc=${CC:-cc}
sizes=("${CHUNKS:-2000}" "${DRAWS:-500}" "${ROUNDS:-50}")
work=$(mktemp -d)
trap 'rm -rf "$work"' EXIT

build() { # WORD..
    local heap='-Dmalloc=refusing_malloc -Drealloc=refusing_realloc -Dfree=counted_free'
    local words=(-std=c11 -D_POSIX_C_SOURCE=200809L -pedantic -Wall -Wextra -Wconversion -Werror "$@")
    # shellcheck disable=SC2086
    "$cc" "${words[@]}" $heap -c -o "$work/heap.o" "$here/rattle_heap.c"
    "$cc" "${words[@]}" -o "$work/threads" "$here"/{files,tests/refusing,tests/threads}.c "$work/heap.o" "$archive" \
        -lpthread
}

for kind in ${kinds:-plain sanitized memcheck}; do
    run=("$work/threads" "$top/examples/subtitle.bdf")
    case $kind in
    plain) build -O2 ;;
    sanitized) build -g -O1 -fsanitize=address,undefined -fno-sanitize-recover=all ;;
    memcheck)
        build -g -O1
        run=(valgrind -q --error-exitcode=9 --leak-check=full --errors-for-leak-kinds=definite,possible "${run[@]}")
        for i in "${!sizes[@]}"; do sizes[i]=$((sizes[i] / 10)); done
        ;;
    *)
        echo "threads.sh: there is no kind $kind: they are plain, sanitized and memcheck" >&2
        exit 2
        ;;
    esac
    "${run[@]}" "${sizes[@]}"
    echo "threads.sh: $kind passed"
done
