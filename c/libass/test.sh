#!/usr/bin/env bash
# Tests libass's calls over the library, in seconds: what a player does to tracks (test.c), with the shared library as
# it is and under the sanitizers where the compiler has them, each call for memory refused (refusals.c), and that the
# shared library shows the names of libass's header alone. It takes libass's header.
#
#   c/libass/test.sh [ARCHIVE]     without it release/libvimalorua.a
set -euo pipefail
here=$(dirname -- "$(readlink -f -- "${BASH_SOURCE[0]}")")
top=$(readlink -f -- "$here/../..")
archive=$(readlink -e -- "${1:-$top/release/libvimalorua.a}")
cc=${CC:-cc}
functions=46
work=$(mktemp -d)
trap 'rm -rf "$work"' EXIT
sources=(library.c system_fonts.c track.c script.c written.c frames.c)
sanitizers=()
flags=(-std=c99 -D_POSIX_C_SOURCE=200809L -Wall -Wextra -Wpedantic -Wconversion -Werror "-I$top/c")
cd "$here"

# The names that it shows are functions of the header.
names() {
    "${MAKE:-make}" -s ARCHIVE="$archive" FOLDER="$work" CC="$cc" CFLAGS='-O2 -Wconversion -Werror'
    nm -D --defined-only "$work/libass.so.9" | awk '{ print $NF }' | sort > "$work/shown"
    echo '#include <ass/ass.h>' | "$cc" -E - | grep -oE '\bass_[a-z_]+ *\(' | tr -d ' (' | sort -u > "$work/declared"
    [ "$(comm -12 "$work/shown" "$work/declared" | wc -l)" = "$functions" ]
    [ "$(wc -l < "$work/shown")" = "$functions" ]
}

plain() {
    "$cc" -O1 "${flags[@]}" -o "$work/plain" test.c "$work/libass.so.9" "-Wl,-rpath,$work"
    "$work/plain" "$top/examples/signs.ass" "$top/examples/letters.ttf"
}

sanitized() {
    "$cc" -g -O1 "${sanitizers[@]}" "${flags[@]}" -o "$work/sanitized" test.c "${sources[@]}" "$archive" -ldl -lpthread
    "$work/sanitized" "$top/examples/signs.ass" "$top/examples/letters.ttf"
}

refusals() {
    mkdir "$work/refusing" "$work/fonts"
    cp "$top/examples/dot.bdf" "$work/fonts"
    for it in "${sources[@]}"; do
        "$cc" -g -O1 "${sanitizers[@]}" "${flags[@]}" -include stdlib.h -Dmalloc=refusing_malloc \
            -Dcalloc=refusing_calloc -Drealloc=refusing_realloc -Wno-implicit-function-declaration \
            -c -o "$work/refusing/$it.o" "$it"
    done
    "$cc" -g -O1 "${sanitizers[@]}" "${flags[@]}" -o "$work/refusals" refusals.c "$work/refusing/"*.o "$archive" \
        -ldl -lpthread
    "$work/refusals" "$top/examples/dot.bdf" "$work/fonts"
}

kinds='names plain'
echo 'int main(void) { return 0; }' > "$work/empty.c"
if "$cc" -fsanitize=address,undefined -o "$work/empty" "$work/empty.c" 2> "$work/log" && "$work/empty"; then
    sanitizers=(-fsanitize=address,undefined -fno-sanitize-recover=all)
    kinds="$kinds sanitized"
else
    echo 'test.sh: the compiler has no sanitizers, so all is built plainly' >&2
fi
kinds="$kinds refusals"
for kind in $kinds; do
    "$kind"
    echo "test.sh: libass's calls, $kind passed"
done
