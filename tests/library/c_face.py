#!/usr/bin/env python3
"""Makes libpikhsen of what was proved, and calls it from C and from Python: header and exports are the same, both ways to
link, keys that a call leaves in memory and vector registers, what docs/LIBRARY.md and the manual page show, all of
python_module.py and compat.py and, of what is installed and packaged, of packages.py, python_wheel.py and compat_swap.py.

    tests/library/c_face.py              takes crates/pikhsen_c/out/libpikhsen_c.a as tests/library/archive.py or make lib left it,
                                 and the library for x86-64-v3 as make lib left it in bin/lib, if it is of these sources
    tests/library/c_face.py --header FOLDER      what C and C++ see of the library in this folder, and the pages' logins over it
"""
import hashlib
import os
import pathlib
import re
import shutil
import subprocess
import sys
import tempfile
import time

sys.path += map(str, pathlib.Path(__file__).resolve().parents[1].iterdir())  # the other folders of tests/
import binaries
import comparisons
import compat
import compat_swap
import packages
import python_module
import python_wheel
from checking import Checks, is_there, ran, said
from library_texts import HEADER, numbers_of_header, prototypes
from shown import INCLUDE, compile_c, library_runs, logins_run, other_languages_run, pieces_run
from tree import TOP, below

CRATE = "pikhsen_c"
STRICT = ["-std=c89", "-pedantic", "-Wall", "-Wextra", "-Werror", "-D_POSIX_C_SOURCE=200112L"]
CPP = ["-Wall", "-Wextra", "-pedantic", "-Werror", "-Wold-style-cast", "-Wconversion", "-Wsign-conversion"]


def is_of_sources(archive):
    """Whether the static library is there, and newer than all that it is proved from."""
    folders = [TOP / "crates" / it / part for it in [*below()[CRATE], CRATE] for part in ("src", "specs", "proofs")]
    newest = max(it.stat().st_mtime for folder in folders for it in [folder, *folder.rglob("*")] if it.exists())
    return archive.is_file() and archive.stat().st_mtime > newest


def build(checks, folder):
    """Both libraries, twice, and what they show of themselves."""
    if not is_of_sources(TOP / f"crates/{CRATE}/out/lib{CRATE}.a"):
        sys.exit(f"crates/{CRATE}/out has no static library of these sources: make lib makes it")
    subprocess.run([TOP / "packaging/lib.sh", f"{folder}/lib"], check=True)
    if is_of_sources(TOP / "bin/lib" / packages.HIGHER):
        # as make lib left it
        pathlib.Path(folder, "lib", packages.HIGHER).parent.mkdir(parents=True)
        shutil.copy2(TOP / "bin/lib" / packages.HIGHER, pathlib.Path(folder, "lib", packages.HIGHER))
    subprocess.run([TOP / "packaging/lib.sh", f"{folder}/again"], check=True)
    for file in ("libpikhsen.a", "libpikhsen.so.0"):
        both = [pathlib.Path(folder, it, file).read_bytes() for it in ("lib", "again")]
        checks.that(f"{file}, built twice", both[0] == both[1], True)
    binaries.library(checks, f"{folder}/lib/libpikhsen.so.0", f"{folder}/lib/libpikhsen.a", sorted(prototypes(HEADER)))
    os.symlink("libpikhsen.so.0", f"{folder}/lib/libpikhsen.so")
    for higher in pathlib.Path(folder, "lib/glibc-hwcaps").glob("*"):
        binaries.shared_library(checks, str(higher / "libpikhsen.so.0"), sorted(prototypes(HEADER)), True)
        status, said_there = ran(TOP / "tests/library/python_module.py", higher)
        checks.that(f"the module over that for {higher.name}", (status, said_there if status else ""), (0, ""))
    return f"{folder}/lib"


def from_c(checks, folder, lib, is_watched):
    has_cpp = is_there("g++", "the header is not compiled as C++, and nothing is called from it")
    has_valgrind = is_watched and is_there("valgrind", "nothing runs under it")
    call, head = pathlib.Path(folder, "call.cpp"), '#include "pikhsen.h"\n'
    call.write_text(CALL, encoding="utf-8")
    for words in (["gcc", *STRICT, "-x", "c"], *([["g++", "-Wall", "-Wextra", "-Werror", "-x", "c++"]] * has_cpp)):
        checks.that(f"header under {words[0]}", ran(*words, *INCLUDE, "-fsyntax-only", "-", input=head * 2), (0, ""))
    # the compiler warns of what is wrong in a body, and of nothing else; or of nothing, and keeps a test of a pointer
    head += "unsigned int f(const void *file, struct pikhsen_scrypt_costs *costs)\n"
    words = ["gcc", *STRICT, "-O2", "-Wno-unused-parameter", *INCLUDE, "-S", "-x", "c", "-", "-o", "-"]
    for name, body, warnings in (
        ("an answer that is ignored", "pikhsen_scrypt_info(file, 64, costs); return 0;", ["unused-result"]),
        ("a null pointer without a length", "return pikhsen_scrypt_info(file, 64, 0);", ["nonnull"]),
        # an attribute "nonnull" would let the compiler drop the caller's test after the call
        ("null with length 0", "unsigned int told = pikhsen_scrypt_info(file, 0, costs); return file ? told : 77;", []),
        ("null itself", "return pikhsen_scrypt_info(0, 0, costs) + 77;", []),
    ):
        status, says = ran(*words, input=f"{head}{{\n    {body}\n}}\n")
        found = status == 0, re.findall(r"\[-W(?:error=)?([\w-]+)\]$", says, re.MULTILINE), "$77" in says
        checks.that(f"warned of: {name}", found, (warnings == [], warnings, warnings == []))
    program, valgrind = f"{folder}/program", ["valgrind", "-q", "--error-exitcode=9", "--leak-check=full", "--track-origins=yes"]
    for static in (True, False):
        kind = "static" if static else "shared"
        if has_cpp:
            checks.that(f"C++ {kind}, compiled", compile_c(call, lib, program, static, *CPP, compiler="g++"), (0, ""))
            checks.that(f"C++ {kind}", ran(program), (0, ""))
        for refuse in (["-DREFUSE"], []):
            name = f"c_face.c {kind} {' '.join(refuse)}"
            made = compile_c(TOP / "tests/library/c_face.c", lib, program, static, *STRICT, *refuse)
            checks.that(f"{name}, compiled", made, (0, ""))
            checks.that(name, ran("sh", "-c", 'ulimit -Ss 64; exec "$0"', program, env={}), (0, ""))
            if not refuse and has_valgrind:
                checks.that(f"{name} under valgrind", ran(*valgrind, program), (0, ""))


CALL = """#include "pikhsen.h"
#if PIKHSEN_ENCODED_ROOM(16, 32) != 121
#error "the room is not a number of the preprocessor's"
#endif
int main() {
    char room[PIKHSEN_ENCODED_ROOM(16, 32)], password[] = { 'x' }, salt[16] = { 0 };
    size_t len = 16;
    bool has_room = sizeof room == PIKHSEN_ENCODED_ROOM(len, 32);
    unsigned int told = pikhsen_argon2_encoded(PIKHSEN_ARGON2ID, 0x13, 1, 8, 1, password, 1, salt, len, 32, 8, 100,
        room, 0, &len);
    return has_room && told == PIKHSEN_BUFFER && len == 0 ? 0 : 1;
}
"""


def kept_pieces(process, pieces):
    """Which of these bytes stand somewhere in the memory that a process can write."""
    found = set()
    maps = pathlib.Path(f"/proc/{process.pid}/maps").read_text(encoding="utf-8")
    with open(f"/proc/{process.pid}/mem", "rb") as memory:
        for start, end in re.findall(r"^([0-9a-f]+)-([0-9a-f]+) rw", maps, re.MULTILINE):
            memory.seek(int(start, 16))
            content = memory.read(int(end, 16) - int(start, 16))
            found |= {name for name, piece in pieces.items() if piece in content}
    return found


def pieces_of(name, content):
    """The first sixteen of each 64 bytes, but for the beginning and the end, where the heap writes once it is freed."""
    return {f"{name}, bytes {at} to {at + 15}": content[at:at + 16] for at in range(64, len(content) - 64, 64)}


def first_rows():
    """The first row of scrypt's table (RFC 7914, section 6, step 1): in its own order, and as it stands in the table,
    where the sixteen words of each 64 bytes stand along their diagonals."""
    row = hashlib.pbkdf2_hmac("sha256", b"pw", b"\7" * 32, 1, 1024)
    places = [(4 * diagonal + 5 * step) % 16 for diagonal in range(4) for step in range(4)]
    turned = b"".join(row[at + 4 * word:at + 4 * word + 4] for at in range(0, 1024, 64) for word in places)
    return {**pieces_of("row", row), **pieces_of("row of the table", turned)}


def first_blocks(kib, lanes, length):
    """The first two blocks of each lane of Argon2id (RFC 9106, section 3.2, steps 1, 3 and 4), in one pass."""
    numbers = b"".join(it.to_bytes(4, "little") for it in (lanes, length, kib, 1, 0x13, 2))
    texts = b"".join(len(it).to_bytes(4, "little") + it for it in (b"pw", b"\7" * 32, b"", b""))
    first_hash = hashlib.blake2b(numbers + texts).digest()
    pieces = {}
    for lane in range(lanes):
        for column in (0, 1):
            # H' of 1,024 bytes (section 3.3)
            given = first_hash + column.to_bytes(4, "little") + lane.to_bytes(4, "little")
            hashes = [hashlib.blake2b((1024).to_bytes(4, "little") + given).digest()]
            while len(hashes) < 31:
                hashes.append(hashlib.blake2b(hashes[-1]).digest())
            block = b"".join(it[:32] for it in hashes[:-1]) + hashes[-1]
            pieces.update(pieces_of(f"block {column} of lane {lane}, tag of {length} bytes", block))
    return pieces


def secrets_from_c(checks, folder, lib):
    """After a call the stack and the vector registers hold zeros, and so does the memory that it frees, but for texts
    of hashes. So no key is left: c_face.c counts what is not freed, and the library has no memory beside. And none is found
    in writable memory: none of the four pieces of the 64 derived bytes, nor what they are made of."""
    programs = []
    for level in (pathlib.Path(lib), *sorted(pathlib.Path(lib, "glibc-hwcaps").glob("*"))):
        programs.append(f"{folder}/secrets-{level.name}")
        # to bind a name at its first call would store vector registers, and a piece of a key may be in these
        flags = *STRICT, "-DREFUSE", "-Wl,-z,now"
        made = compile_c(TOP / "tests/library/secrets.c", level, programs[-1], not programs[1:], *flags)
        checks.that(f"secrets.c over {level.name}, compiled", made, (0, ""))
    # a matrix of 64 KiB; a table of 64 rows, or 16, of 1,024 bytes, and two rows, or three; the block of a stream; four
    # rows of 128 bytes, and two; and such of 8 MiB, for which the heap requests 2 MiB more
    takes = {**dict.fromkeys(("hash", "encoded", "verify", "keyed-text", "keyed-test"), 65536),
             **dict.fromkeys(("key", "encrypt", "in-place", "decrypt", "wrong"), 67584),
             **dict.fromkeys(("to-pieces", "of-pieces", "pieces-freed"), 67584 + 2496),
             "sparse": 19456, "small-key": 768, "large-hash": 8388608 + (2 << 20), "large-key": 8390656 + (2 << 20)}
    painted, freed = (looked_at(programs[0], it) for it in ("painted", "freed"))
    registers = [looked_at(it, "registers") for it in programs]
    for what, count in takes.items():
        told = f"told {numbers_of_header()['WRONG_PASSPHRASE'][0] if what == 'wrong' else 0}"
        checks.that(f"painted: {what}", painted[what], f"{told}, not wiped 0, touched deeper 0")
        checks.that(f"freed: {what}", freed[what], f"{told}, asked for {count}, not freed 0, not zero 0")
        for level in registers:
            checks.that(f"registers: {what}", level[what], f"{told}, not zero:")
    sizes = re.findall(r"\.(?:t?data|t?bss) +\w+ +\w+ \w+ (\w+)", said("readelf", "-SW", f"{lib}/libpikhsen.so.0"))
    checks.that("memory of the library's own is too small for a key", sum(int(it, 16) for it in sizes) < 16, True)
    # what is left is found
    checks.that("painted: seven", " not wiped 0," in painted["seven"], False)
    checks.that("freed: seven", freed["seven"], "told 0, asked for 1024, not freed 0, not zero 1024")
    checks.that("registers: three", registers[0]["three"], "told 0, not zero: 3")
    try:
        searches_from_c(checks, programs[0])
    except PermissionError as why:
        print(f"the memory of a process may not be read here ({why}): keys are not looked for")


def looked_at(program, look):
    """What secrets.c says of each call, by its name: of the stack, of freed memory or of vector registers."""
    return dict(line.split(": ", 1) for line in said(program, look).splitlines())


def searches_from_c(checks, program):
    """What a search finds after each call, and, to show that it finds what is there, while such calls are made."""
    keys = hashlib.scrypt(b"pw", salt=b"\7" * 32, n=64, r=8, p=1, dklen=64)
    of_key = {f"bytes {at} to {at + 15}": keys[at:at + 16] for at in range(0, 64, 16)}
    rows, blocks, other_blocks = first_rows(), first_blocks(64, 2, 64), first_blocks(64, 2, 32)
    pieces = {**of_key, **rows, **blocks, **other_blocks}
    # the first two show that the search finds a key, on the stack too
    for what in ("kept", "stack", "hash", "encoded", "verify", "key", "sparse", "encrypt", "decrypt", "to-pieces", "of-pieces", "pieces-freed"):
        searched(checks, [program, what], pieces, {*of_key} if what in ("kept", "stack") else set())
    # a row stands in its own order only before it is turned
    turned = {name: piece for name, piece in rows.items() if "table" in name}
    for what, wanted in (("hash", blocks), ("encoded", other_blocks), ("key", turned), ("sparse", turned)):
        searched(checks, [program, "again", what], wanted, {*wanted}, seconds=30)  # which are enough for all


def searched(checks, words, pieces, expected, seconds=0):
    """Which of these bytes stand in the memory of a process that made a call, at one time or another of so many seconds."""
    with subprocess.Popen(words, stdin=subprocess.PIPE, stdout=subprocess.PIPE) as process:
        try:
            checks.that(f"answer of: {' '.join(words[1:])}", process.stdout.readline(), b"0\n")
            found, end = kept_pieces(process, pieces), time.monotonic() + seconds
            while len(found) < len(pieces) and time.monotonic() < end:
                found |= kept_pieces(process, pieces)
            checks.that(f"found in memory: {' '.join(words[1:])}", found, expected)
        finally:
            process.kill()


def main():
    checks = Checks("none")
    if not is_there("gcc", "the library is not built, and not called"):
        checks.end()
    with tempfile.TemporaryDirectory() as folder:
        is_whole = "--header" not in sys.argv
        lib = build(checks, folder) if is_whole else os.path.abspath(sys.argv[2])
        from_c(checks, folder, lib, is_watched=is_whole)
        logins_run(checks, folder, lib)
        pieces_run(checks, folder, lib)
        if is_whole:
            python_module.calls(checks, folder, lib)
            secrets_from_c(checks, folder, lib)
            comparisons.tags_of_texts(checks, lib, folder)
            library_runs(checks, folder, lib)
            other_languages_run(checks, folder, lib)
            packages.all_of(checks, folder, lib)
            for package in pathlib.Path(folder, "packages").glob("pikhsen-libargon2_*.deb"):
                compat_swap.swapped(checks, folder, package)
            python_wheel.all_of(checks, folder, lib)
            compat.all_of(checks, folder, lib)
    checks.end()


main()
