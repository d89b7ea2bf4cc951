#!/usr/bin/env bash
# Makes libvimalorua.a and libvimalorua.so.1, with their C, of the archive that `rt lib` made of vimalorua_c.
#
#   c/link.sh PROVED.a FOLDER
#
# The toolchain's own compiler and linker do it, without headers of the machine, so they leave the same bytes everywhere.
set -euo pipefail
here=$(dirname -- "$(readlink -f -- "${BASH_SOURCE[0]}")")
proved=$(readlink -e -- "$1")
folder=$(readlink -e -- "$2")
kit=$(dirname -- "$(rt doc)")/toolchain
room=$(mktemp -d)
trap 'rm -rf "$room"' EXIT

# All that the three files need of C's headers.
mkdir "$room/include"
cd "$room/include"
echo '#define bool _Bool' > stdbool.h
printf 'typedef __SIZE_TYPE__ size_t;\n#define NULL ((void *)0)\n' > stddef.h
cat > stdint.h << 'LINES'
typedef __UINT8_TYPE__ uint8_t;
typedef __INT32_TYPE__ int32_t;
typedef __UINT32_TYPE__ uint32_t;
typedef __INT64_TYPE__ int64_t;
typedef __UINT64_TYPE__ uint64_t;
LINES
echo 'int sched_yield(void);' > sched.h
mkdir sys
cat > sys/select.h << 'LINES'
struct timeval { long tv_sec, tv_usec; };
int select(int count, void *reads, void *writes, void *others, struct timeval *time);
LINES
cat > stdlib.h << 'LINES'
#include <stddef.h>
void *malloc(size_t bytes);
void *realloc(void *block, size_t bytes);
void free(void *block);
LINES

cd "$room"
for name in rattle_heap vimalorua; do
    "$kit/bin/clang" --no-default-config --target=x86_64-unknown-linux-gnu -march=x86-64 -nostdinc -isystem include \
        -std=c11 -O2 -fPIC -Wall -Wextra -Werror -c -o "$name.o" -x c - -I"$here" < "$here/$name.c"
done
cp "$proved" libvimalorua.a
chmod 644 libvimalorua.a
"$kit/bin/llvm-ar" rsD libvimalorua.a rattle_heap.o vimalorua.o
"$kit/bin/ld.lld" -shared -soname libvimalorua.so.1 --version-script "$here/vimalorua.map" -z defs -z relro -z now \
    -z noexecstack --gc-sections --build-id=none -o libvimalorua.so.1 \
    --whole-archive libvimalorua.a --no-whole-archive "$kit/lib/libgcc.a" "$kit/lib/libc.so.6"
chmod 644 libvimalorua.so.1
mv -f libvimalorua.a libvimalorua.so.1 "$folder"
