#!/usr/bin/env bash
# Tests the library from C: the demo's frames beside those of `./vimalorua frame`, pictures beside their lists, by one
# thread and by four in turn, every status, every call for memory refused, and seats in eight threads; plainly, and under
# the sanitizers where the compiler has them. Then the shared library beside the archive, what both show of names, the
# headers in each C and C++, and the library from Python and Rust.
#
#   c/test.sh [ARCHIVE]     without it release/libvimalorua.a
#
# PROGRAM is the program that draws the frames, in place of ./vimalorua.
set -euo pipefail
here=$(dirname -- "$(readlink -f -- "${BASH_SOURCE[0]}")")
top=$(dirname -- "$here")
archive=$(readlink -m -- "${1:-$top/release/libvimalorua.a}")
shared=${archive%/*}/libvimalorua.so.1
cc=${CC:-cc}
work=$(mktemp -d)
trap 'rm -rf "$work"' EXIT

if [ ! -f "$archive" ]; then
    echo "test.sh: there is no $archive: c/build.sh makes one" >&2
    exit 1
fi

sanitizers=-fsanitize=address,undefined
kinds=plain
echo 'int main(void) { return 0; }' > "$work/empty.c"
if "$cc" $sanitizers -o "$work/empty" "$work/empty.c" 2> "$work/log" && "$work/empty"; then
    kinds='plain sanitized'
else
    echo 'test.sh: the compiler has no sanitizers, so all is built plainly' >&2
fi

compile() { # KIND OBJECT FILE WORDS..
    local flags='-O2'
    [ "$1" = plain ] || flags="-g -O1 $sanitizers -fno-sanitize-recover=all"
    # shellcheck disable=SC2086
    "$cc" $flags -std=c11 -D_POSIX_C_SOURCE=200809L -pedantic -Wall -Wextra -Wconversion -Werror "${@:4}" \
        -c -o "$work/$1/$2" "$here/$3"
}

link() { # KIND PROGRAM OBJECT..
    local flags=
    [ "$1" = plain ] || flags=$sanitizers
    # shellcheck disable=SC2086
    (cd "$work/$1" && "$cc" $flags -o "$2" "${@:3}" "$archive" -lpthread)
}

build() { # KIND
    local refusing='-Dmalloc=refusing_malloc -Drealloc=refusing_realloc -Dfree=counted_free'
    mkdir "$work/$1"
    compile "$1" images.o ass_images.c
    compile "$1" files.o files.c
    # shellcheck disable=SC2086
    compile "$1" refusing_heap.o rattle_heap.c $refusing
    # shellcheck disable=SC2086
    compile "$1" refusing_images.o ass_images.c $refusing
    compile "$1" refusing.o tests/refusing.c
    compile "$1" errors.o tests/errors.c
    compile "$1" pictures.o tests/pictures.c
    compile "$1" demo.o demo.c
    compile "$1" shim.o bench/ass_shim.c
    link "$1" errors errors.o refusing.o refusing_heap.o refusing_images.o
    link "$1" pictures pictures.o files.o images.o
    link "$1" demo demo.o files.o
}

# The archive asks for what docs/EMBEDDING-C.md names, and gives the header's calls.
archive_alone() {
    local others
    others=$(nm -g "$archive" | awk '$1 != "" && NF > 1 { print $NF }' | sort -u |
        grep -vxE 'mem(cpy|move|set)|malloc|realloc|free|__u?(div|mod)ti3|rattle_(alloc|realloc|dealloc)|vimalorua_[a-z0-9_]+' || :)
    if [ -n "$others" ]; then
        printf 'test.sh: other names in the archive:\n%s\n' "$others" >&2
        return 1
    fi
    sed -n 's/^[a-z].*[ *]\(vimalorua_[a-z0-9_]*\)(.*/\1/p' "$here/vimalorua.h" | sort > "$work/declared"
    nm -g "$archive" | awk '$2 == "T" && $3 ~ /^vimalorua_/ && $3 !~ /_shut$|_by_numbers$|_proved$/ { print $3 }' | sort > "$work/given"
    diff "$work/declared" "$work/given"
}

# The shared library shows the header's calls and nothing else, each with the version that it came with, has its name,
# and needs the C library alone. The demo with it draws as with the archive.
shared_alone() {
    nm -D --defined-only "$shared" | awk '$2 != "A" { sub(/@.*/, "", $3); print $3 }' | sort | diff "$work/declared" -
    nm -D --defined-only "$shared" | sed -n 's/.* vimalorua_\(.*\)@@VIMALORUA_\(1[.].*\)$/\2 \1/p' | sort > "$work/later"
    printf '%s\n' '1.2 draw_in' '1.2 images_in' '1.3 status_text' '1.4 add_fonts' '1.4 add_script_fonts' \
        '1.4 font_names' '1.5 leave' '1.5 seat_copy' '1.5 seat_set_budget' '1.5 share' '1.5 split' '1.5 try_draw' \
        '1.5 try_draw_in' '1.5 try_feed' '1.5 try_feed_lines' '1.5 try_flush' '1.5 try_list' '1.5 try_list_in' \
        '1.8 draw_alpha' '1.8 draw_alpha_in' '1.8 try_draw_alpha' '1.8 try_draw_alpha_in' |
        diff - "$work/later"
    readelf -d "$shared" | sed -n 's/.*(\(SONAME\|NEEDED\)).*\[\(.*\)\]/\1 \2/p' | sort > "$work/needs"
    printf 'NEEDED libc.so.6\nSONAME libvimalorua.so.1\n' | diff - "$work/needs"
    (cd "$work/plain" && "$cc" -o shared demo.o files.o "$shared" "-Wl,-rpath,${shared%/*}")
    "$work/plain/shared" 1000 5000 1500 320x180 "$top/examples/signs.ass" "$top/examples/subtitle.bdf" |
        cmp - "$work/wanted-signs.ass-subtitle.bdf.ppm"
}

# An image without the second line of its head, which is a comment.
no_comment() {
    local magic comment
    IFS= read -r magic
    IFS= read -r comment
    [[ $comment == '# t='* ]]
    echo "$magic"
    cat
}

# The frames that the program draws, once for both kinds.
wanted() { # FROM TO STEP WxH SCRIPT FONT
    local ms into
    into=$work/wanted-$(basename "$5")-$(basename "$6").ppm
    [ ! -f "$into" ] || return 0
    for ((ms = $1; ms < $2; ms += $3)); do
        "${PROGRAM:-$top/vimalorua}" frame --at "$ms" --size "$4" "${@:5}" 2> "$work/log" | no_comment || {
            cat "$work/log" >&2
            return 1
        }
    done > "$into"
}

# The demo's frames beside the program's, and pictures beside their lists.
frames() { # KIND FROM TO STEP WxH SCRIPT FONT
    wanted "${@:2}"
    "$work/$1/demo" "${@:2}" > "$work/demo.ppm"
    cmp "$work/demo.ppm" "$work/wanted-$(basename "$6")-$(basename "$7").ppm"
    "$work/$1/pictures" "${@:2}"
}

# The blocks of docs/EMBEDDING-C.md that are written in a language, or in none.
blocks() { # LANGUAGE
    awk -v fence="\`\`\`$1" '/^```/ { inside = !inside; wanted = inside && $0 == fence; next } wanted' \
        "$top/docs/EMBEDDING-C.md"
}

# The page's ten lines, in a program, and its commands, as they stand there: at the top of a folder that has the release.
from_page() {
    local page=$work/page
    mkdir -p "$page/c" "$page/release"
    ln -s "$top/examples" "$page/examples"
    ln -s "$here"/*.c "$here"/*.h "$page/c"
    ln -s "$archive" "$shared" "$page/release"
    blocks c > "$page/yours.c"
    cat >> "$page/yours.c" << 'END'

#include "files.c"

int main(int argc, char **argv) {
    static uint8_t rgb[3 * 1280 * 720];
    size_t script_len = 0, font_len = 0;
    uint8_t *script = argc < 3 ? NULL : read_file(argv[1], &script_len);
    uint8_t *font = argc < 3 ? NULL : read_file(argv[2], &font_len);
    if (script == NULL || font == NULL || draw(script, script_len, font, font_len, 2500, rgb) != VIMALORUA_DONE)
        return 1;
    printf("P6\n1280 720\n255\n");
    fwrite(rgb, 1, sizeof rgb, stdout);
    free(script);
    free(font);
    return 0;
}
END
    "$cc" -Wall -Wextra -Werror -I"$here" -c -o "$page/yours.o" "$page/yours.c"
    (
        cd "$page"
        blocks '' > commands
        sh -e commands
        ./yours examples/dialogue.ass examples/subtitle.bdf > yours.ppm
        "$work/plain/demo" 2500 2501 1 1280x720 examples/dialogue.ass examples/subtitle.bdf > demo.ppm
        cmp yours.ppm demo.ppm
    )
}

# The headers alone in every C and C++, and beside libass's in either order: that of the machine, where it is there, and
# what it declares of nodes.
headers() {
    local words order
    mkdir -p "$work/libass/ass"
    cat > "$work/libass/ass/ass.h" << 'END'
#ifndef LIBASS_ASS_H
#define LIBASS_ASS_H
#include <stdint.h>
typedef struct ass_image {
    int w, h;
    int stride;
    unsigned char *bitmap;
    uint32_t color;
    int dst_x, dst_y;
    struct ass_image *next;
    enum { IMAGE_TYPE_CHARACTER, IMAGE_TYPE_OUTLINE, IMAGE_TYPE_SHADOW } type;
} ASS_Image;
#endif
END
    for words in "$cc -x c -std=c89" "$cc -x c -std=c99" "$cc -x c -std=c11" "$@"; do
        echo '#include "vimalorua.h"' > "$work/header.c"
        # shellcheck disable=SC2086
        $words -Wall -Wextra -Wpadded -Werror -pedantic -I"$here" -c -o "$work/header.o" "$work/header.c"
        for order in '<ass/ass.h> "ass_images.h"' '"ass_images.h" <ass/ass.h>'; do
            # shellcheck disable=SC2086
            printf '#include %s\n' $order > "$work/header.c"
            printf 'int is_node(const vimalorua_node *a, const ASS_Image *b);\n' >> "$work/header.c"
            printf 'int is_node(const vimalorua_node *a, const ASS_Image *b) { return sizeof *a == sizeof *b; }\n' >> "$work/header.c"
            # shellcheck disable=SC2086
            $words -Wall -Wextra -Werror -pedantic -I"$here" -isystem "$work/libass" -c -o "$work/header.o" "$work/header.c"
            # shellcheck disable=SC2086
            if echo '#include <ass/ass.h>' | $words -E - > "$work/log" 2>&1; then
                $words -Wall -Wextra -Werror -I"$here" -c -o "$work/header.o" "$work/header.c"
            fi
        done
    done
}

# The shared library from another language: its picture is the demo's.
from_other() { # NAME WORDS..
    local at=(2500 320x180 "$top/examples/dialogue.ass" "$top/examples/letters.ttf")
    "${@:2}" "${at[@]}" > "$work/other.ppm"
    "$work/plain/demo" 2500 2501 1 "${at[@]:1}" | cmp - "$work/other.ppm"
    echo "test.sh: $1 passed"
}

# The header from C++, in a program that is linked.
from_cxx() {
    cat > "$work/calls.cc" << 'END'
#include "ass_images.h"
int main() {
    vimalorua *handle = nullptr;
    size_t place = 0;
    const char text[] = "[Events]\n";
    if (vimalorua_open(reinterpret_cast<const uint8_t *>(text), sizeof text - 1, 0, &handle, &place) != VIMALORUA_DONE)
        return 1;
    vimalorua_close(handle);
    ass_images images = {};
    ass_images_free(&images);
    return vimalorua_version() != VIMALORUA_VERSION;
}
END
    "$1" -Wall -Wextra -Werror -I"$here" -c -o "$work/calls.o" "$work/calls.cc"
    (cd "$work/plain" && "$1" -o calls "$work/calls.o" images.o "$archive")
    "$work/plain/calls"
}

archive_alone
for kind in $kinds; do
    build "$kind"
    "$work/$kind/errors"
    frames "$kind" 0 1 1 4x3 "$top/examples/row.ass" "$top/examples/dot.bdf"
    frames "$kind" 0 2000 1000 320x180 "$top/examples/hello.ass" "$top/examples/letter.bdf"
    for script in dialogue karaoke signs; do
        frames "$kind" 1000 5000 1500 320x180 "$top/examples/$script.ass" "$top/examples/subtitle.bdf"
    done
    frames "$kind" 1000 8000 1500 320x180 "$top/examples/dialogue.ass" "$top/examples/letters.ttf"
    echo "test.sh: $kind passed"
done
# shellcheck disable=SC2086
"$here/threads.sh" "$archive" $kinds
echo 'test.sh: seats in eight threads passed'
shared_alone
echo 'test.sh: the shared library passed'
from_page
echo 'test.sh: the lines and commands of docs/EMBEDDING-C.md passed'
cxx=${CXX:-c++}
if command -v "$cxx" > "$work/log"; then
    from_cxx "$cxx"
    echo 'test.sh: C++ passed'
    headers "$cxx -x c++ -std=c++98" "$cxx -x c++ -std=c++17"
else
    echo 'test.sh: there is no C++ here, so C++ is left out' >&2
    headers
fi
echo 'test.sh: the headers passed'
if python3 -c 'import ctypes' 2> "$work/log"; then
    from_other Python python3 "$here/tests/client.py" "$shared"
else
    echo 'test.sh: there is no ctypes here, so Python is left out' >&2
fi
if command -v rustc > "$work/log"; then
    ln -s "$shared" "$work/libvimalorua.so"
    rustc --edition 2021 -D warnings -L "$work" -C link-arg="-Wl,-rpath,${shared%/*}" -o "$work/client" "$here/tests/client.rs"
    from_other Rust "$work/client"
else
    echo 'test.sh: there is no rustc here, so Rust is left out' >&2
fi
