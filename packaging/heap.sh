#!/bin/sh
# Compiles heap.c, the heap of programs and library, or another file of this folder, by the toolchain's compiler:
#
#     packaging/heap.sh FILE [SOURCE]
set -eu
kit=$(dirname "$(dirname "$(readlink -f "$(command -v rt)")")")
exec "$kit/toolchain/bin/clang" -O2 -fPIC -c -o "$1" "$(dirname "$0")/${2:-heap.c}"
