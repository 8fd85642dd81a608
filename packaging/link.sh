#!/bin/sh
# Links the programs that rt built in crates/*/out into bin/LEVEL/: as rt does, but with heap.c in the place of the
# toolchain's heap, and with untraced.c. Linked with the toolchain's alone, too, each must be the program that rt linked,
# byte for byte. A run that does not end well leaves no program in bin/LEVEL/.
#
#     packaging/link.sh LEVEL      x86-64-v2 or x86-64-v3, for which they were built
set -eu
cd "$(dirname "$0")/.."
level=${1:?}
kit=$(dirname "$(dirname "$(readlink -f "$(command -v rt)")")")
work=$(mktemp -d)
trap 'status=$?; rm -rf "$work"; test $status = 0 || rm -rf "bin/$level"' EXIT
trap 'exit 130' INT
trap 'exit 143' HUP TERM

# linked CRATE HEAP [FILE]: makes the program of a crate with this heap, and with this file.
linked() {
    "$kit/bin/rattle-link" --target x86_64-unknown-linux-gnu --toolchain "$kit/toolchain" -o "$work/program" \
        "crates/$1/out/$1.o" "$kit/c/libos_c.a" "$2" ${3:+"$3"} 2>"$work/said" || { cat "$work/said" >&2 && exit 1; }
}

packaging/heap.sh "$work/heap.o"
packaging/heap.sh "$work/untraced.o" untraced.c
while read -r name crate; do
    linked "$crate" "$kit/c/liblibc_c.a"
    cmp "$work/program" "crates/$crate/out/$crate"
    linked "$crate" "$work/heap.o" "$work/untraced.o"
    install -D -m 755 -T "$work/program" "bin/$level/$name"
done <packaging/programs
