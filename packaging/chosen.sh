#!/bin/sh
# Makes the programs of a level those in bin/, and notes the level in bin/level. They are copies, since the gate refuses
# links in the folders at the top.
#
#     packaging/chosen.sh LEVEL      x86-64-v2 or x86-64-v3
set -eu
cd "$(dirname "$0")/.."
files=$(sed "s|^|bin/$1/|; s| .*||" packaging/programs)
for file in $files; do test -x "$file"; done
install -m 755 -t bin $files
echo "$1" >bin/level
