#!/bin/sh
# Proves and builds into bin/LEVEL/ the programs of the list packaging/programs, which has the name of each with its
# crate, for processors of that level. There is no unproved build, and a run that does not end well leaves no program in
# bin/, and no package: they would be of older sources.
#
#     packaging/build.sh LEVEL      x86-64-v2 or x86-64-v3
set -eu
cd "$(dirname "$0")/.."
level=$1
case $level in
x86-64-v2 | x86-64-v3) ;;
*) echo "CPU is x86-64-v2 or x86-64-v3, and not $level" >&2 && exit 2 ;;
esac
names=$(cut -d' ' -f1 packaging/programs)
trap 'test $? = 0 || { cd bin && rm -rf $names level x86-64-v* *.deb; }' EXIT
trap 'exit 130' INT
trap 'exit 143' HUP TERM
rm -rf "bin/$level"
mkdir -p "bin/$level"
test ! -f bin/level || test "$(cat bin/level)" != "$level" || (cd bin && rm -f $names level)
: >"bin/$level/began"
packaging/prove.py --cpu "$level" $(cut -d' ' -f2 packaging/programs)
packaging/link.sh "$level"
# What was edited meanwhile is newer than these.
(cd "bin/$level" && touch -r began $names)
