#!/bin/sh
# Runs the built programs of a folder from the outside: all tests of this folder.
#
#     tests/programs/outside.sh FOLDER      as bin/x86-64-v2, in which argon2, argon2-verify and scrypt lie
set -eu
cd "$(dirname "$0")/../.."
echo "the programs in $1"
for test in argon2 scrypt scrypt_ask hostile stack comparisons story; do
    "tests/programs/$test.py" "$1"
done
