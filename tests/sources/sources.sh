#!/bin/sh
# What a reader of the sources relies on, beside the proofs, and calls.py cannot see in compiled code: proofs by hand are
# listed in docs/GATE.md; no comment goes over lines; what is unsafe stands in files that are compared whole; and so do all
# files of the programs, of which no compiled code is kept, also those in C, and of the crate that calls the system, the zeros
# over the stack, the box of a stream, and the lists that are wiped. (Who has read one again: sha256sum FILE.)
set -eu
cd "$(dirname "$0")/../.."
status=0
fail() {
    echo "$1" >&2
    status=1
}

proofs=$(find crates -name out -prune -o -name Proof.antt -print | sort)
listed=$(grep -o 'crates/[A-Za-z0-9_/]*/Proof\.antt' docs/GATE.md | sort -u)
test "$proofs" = "$listed" ||
    fail "docs/GATE.md lists other proofs by hand than there are: $(printf '%s\n' $proofs $listed | sort | uniq -u)"

# refuse PATTERN REASON [BUT]: no source has what this pattern says, in no other file than BUT.
refuse() {
    ! found=$(find crates -name out -prune -o \( -name '*.rt' -o -name '*.antt' \) -exec grep -nE -- "$1" /dev/null {} + |
        grep -vE "^(${3:-none})[^:]*:") || fail "$2: $found"
}
refuse '/\*|\{-' "a comment may hide lines, or show some that are none"
whole=tests/sources/whole.sha256
refuse '\bunsafe\b[^(]' "what is unsafe stands where it is not compared whole" \
    "$(sed 's/.*  //' $whole | paste -sd '|')|crates/\w+_tests/"

sha256sum --quiet --strict -c $whole >&2 || fail "a file is not what was read"
for file in crates/system_calls/src/* $(find crates/*/src -path '*_tests/*' -prune -o -name main.rt -printf '%h/* '); do
    grep -qF "  $file" $whole || fail "a file is compared with nothing: $file"
done

tests/sources/encoded_texts.py || status=1
exit $status
