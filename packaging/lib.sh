#!/bin/sh
# Makes libpikhsen.a and libpikhsen.so.0 in a folder, from the static library that rt leaves in crates/pikhsen_c/out and
# the heap of heap.c. They need the C library alone, export pikhsen_* alone, and are the same bytes each time.
#
#     packaging/lib.sh FOLDER              of the static library as it is
#     packaging/lib.sh FOLDER LEVEL..      proves and builds it before, for each level
#
# For x86-64-v2 both are made in FOLDER. For a higher level, as x86-64-v3, the shared library alone is made, in
# FOLDER/glibc-hwcaps/LEVEL: the C library's loader takes it from there where the processor has that level.
set -eu
cd "$(dirname "$0")/.."
folder=$1
shift
archive=crates/pikhsen_c/out/libpikhsen_c.a
work=$(mktemp -d)
# taken_away: takes away what an earlier run made, of all levels.
taken_away() {
    rm -f "$folder/libpikhsen.a" "$folder/libpikhsen.so.0" "$folder"/glibc-hwcaps/*/libpikhsen.so.0 "$folder"/pikhsen/compat/*
}
# A run that does not end well leaves no library, and no package or wheel of one: they would be of older sources.
trap 'status=$?; rm -rf "$work"; test $status = 0 || { taken_away; rm -f bin/*.deb bin/*.whl; }' EXIT
trap 'exit 130' INT
trap 'exit 143' HUP TERM
taken_away # while it proves none is there

# linked FOLDER: makes the shared library there, of one object file, whose other names are local: so two libraries of
# Rattle's can be in one program.
linked() {
    mkdir -p "$1"
    ld -r -o "$work/pikhsen.o" --whole-archive "$archive" "$work/heap.o"
    objcopy --wildcard --keep-global-symbol='pikhsen_*' --remove-section=.comment "$work/pikhsen.o"
    # --build-id=none and no start files: nothing of the machine at hand is in it. A function of it that calls another of
    # it reaches no other's of that name.
    cc -shared -nostartfiles -Wl,-soname,libpikhsen.so.0 -Wl,--version-script=packaging/pikhsen.map -Wl,-z,defs \
        -Wl,-z,now -Wl,-z,noexecstack -Wl,--build-id=none -Wl,-Bsymbolic-functions -o "$1/libpikhsen.so.0" \
        "$work/pikhsen.o"
}

packaging/heap.sh "$work/heap.o"
for level in "${@:-}"; do
    test -z "$level" || packaging/prove.py --cpu "$level" pikhsen_c
    case $level in
    '' | x86-64-v2)
        linked "$folder"
        ar rcD "$folder/libpikhsen.a" "$work/pikhsen.o"
        ranlib -D "$folder/libpikhsen.a"
        ;;
    *) linked "$folder/glibc-hwcaps/$level" ;;
    esac
done
