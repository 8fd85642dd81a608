#!/usr/bin/env python3
"""Whether a comparison stops at the first difference: counts, by valgrind, the instructions of runs that differ in the
place of a wrong byte alone. Each code and each tag is compared over all its bytes, so the counts are the same. No
contract sees that, and of time nothing is promised.

    tests/programs/comparisons.py FOLDER      the codes of an encrypted file: of its header, and of the whole; and all
                                              bytes of the tag of a hash

The tags of texts of hashes in C are for tests/library/c_face.py.
"""
import base64
import os
import pathlib
import re
import subprocess
import sys

sys.path += map(str, pathlib.Path(__file__).resolve().parents[1].iterdir())  # the other folders of tests/
from checking import is_there, over_programs
from scrypt_files import F5, FROM_PW, LINES
from shown import compile_c

PLACES = (0, 1, 15, 16, 31)
# A hash of Debian's argon2 (package argon2, version 0~20171227), of the password `password`, without its tag.
TEXT = "$argon2d$v=19$m=8,t=1,p=1$c29tZXNhbHQ$"
TAG = "xRnmA6xgPsGutbcexEpheePzl1sUwMl+ORTHnmNj4Xg"

UNCOUNTED = "valgrind", "the instructions of comparisons are not counted"
VALGRIND = "valgrind --tool=callgrind --callgrind-out-file=/dev/null --log-file=log".split()
VERIFIES = """
#include "pikhsen.h"
#include <string.h>
int main(int count, char **words) {
    const unsigned char *text = (const unsigned char *)words[1];
    return (int)pikhsen_argon2_verify(text, strlen(words[1]), (const unsigned char *)"password", 8, 8, 99);
}
"""


def counted(folder, *words):
    """Status, standard error and the count of instructions of a run with this password, which sees no variable."""
    how = {"cwd": folder, "env": {"PATH": os.environ["PATH"]}, "input": b"password", "capture_output": True}
    ran = subprocess.run([*VALGRIND, *words], **how)
    found = re.search(r"Collected : (\d+)", pathlib.Path(folder, "log").read_text(encoding="utf-8"))
    return ran.returncode, ran.stderr, int(found[1]) if found else None


def same(checks, name, runs, status, line=b""):
    """All runs end so, after the same number of instructions."""
    checks.that(f"{name}: how it ends", {it[:2] for it in runs}, {(status, line)})
    counts = {it[2] for it in runs}
    checks.that(f"{name}: how many counts there are", (len(counts), None in counts), (1, False))


def changed(text, place):
    return text[:place] + bytes([text[place] ^ 1]) + text[place + 1:]


def kind(symbol):
    """What symbols are read alike."""
    return next(it for it in (str.islower, str.isupper, str.isdigit, str.isprintable) if it(symbol))


def tag_with_another(place):
    """The tag with another byte at this place, and symbols of the kinds that it had."""
    tag = base64.b64decode(TAG + "=")
    made = (base64.b64encode(tag[:place] + bytes([byte]) + tag[place + 1:]).decode().rstrip("=") for byte in range(256))
    return next(it for it in made if it != TAG and [*map(kind, it)] == [*map(kind, TAG)])


def tags_of_texts(checks, library, folder):
    """The tags of texts of hashes, by the library in this folder."""
    if not is_there(*UNCOUNTED, 4):
        return
    source, program = pathlib.Path(folder, "verifies.c"), f"{folder}/verifies"
    source.write_text(VERIFIES, encoding="utf-8")
    checks.that("verifies.c, compiled", compile_c(source, library, program, True), (0, ""))
    checks.that("the right tag", counted(folder, program, TEXT + TAG)[0], 0)
    same(checks, "the tag of a text", [counted(folder, program, TEXT + tag_with_another(it)) for it in PLACES], 16)


def over_files(checks, contents, *words):
    """What runs with these words come to, over a file of each of these contents."""
    for content in contents:
        checks.put("file", content)
        yield counted(checks.folder, *words)


def main(checks, _, program, verify):
    if not is_there(*UNCOUNTED, 8):
        return
    tags = [f"{TEXT}{it}\n".encode() for it in (TAG, *map(tag_with_another, range(32)))]
    right, *others = over_files(checks, tags, verify, "file")
    checks.that("the right tag", right[:2], (0, b""))
    same(checks, "the tag of a hash", others, 1)
    checks.put("pw", b"pw\n")
    for name, begin, line in (("header", 64, "S10"), ("file", len(F5) - 32, "S11")):
        files = (changed(F5, begin + it) for it in PLACES)
        runs = [*over_files(checks, files, program, "dec", *FROM_PW.split(), "file")]
        same(checks, f"the code of a {name}", runs, 1, LINES[line])
    # cmp stops at the first word that differs, so its counts are seen to differ
    checks.put("zeros", bytes(32))
    runs = over_files(checks, (changed(bytes(32), it) for it in PLACES), "cmp", "-s", "zeros", "file")
    checks.that("counts of a comparison that stops", len({it[2] for it in runs}) > 1, True)


if __name__ == "__main__":
    over_programs(main, __doc__, "scrypt", "argon2-verify")
