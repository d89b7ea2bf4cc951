#!/usr/bin/env bash
# Makes the library for C, an archive and a shared library, into out/library/, and says where the archive lies. What the
# tools print is shown where that fails.
#
#   c/build.sh               the proved one: it takes what `rt ci` proved on this machine of the crates below it, and
#                            proves and compiles its own
#   c/build.sh --unproved    one to try the calls on, of sources that needn't be proved: it stops at an index out of
#                            bounds and at an overflow
set -euo pipefail
top=$(dirname -- "$(dirname -- "$(readlink -f -- "${BASH_SOURCE[0]}")")")
made=$top/out/library
case $* in
'') maker=("$top/tools/release" library "$made") ;;
--unproved) maker=(python3 "$top/c/unproved.py" "$made") ;;
*)
    echo 'usage: c/build.sh [--unproved]' >&2
    exit 2
    ;;
esac
mkdir -p "$made"
rm -f "$made"/*
if ! "${maker[@]}" > "$made/log" 2>&1; then
    tail -n 20 "$made/log" >&2
    exit 1
fi
echo "$made/libvimalorua.a"
