#!/usr/bin/env python3
"""Runs the built argon2 and argon2-verify from the outside: words, files, standard streams, statuses; beside Debian's
argon2; and over the hashes of PHP, argon2-cffi, passlib, Django, libsodium, libargon2 and Debian's argon2, with right
and wrong passwords. What is not installed is left out.

    tests/programs/argon2.py FOLDER      in which the programs lie

Expected hashes are those of Debian's argon2 (package argon2, version 0~20171227) and of RFC 9106's reference values.
"""
import base64
import ctypes
import pathlib
import random
import re
import shutil
import subprocess
import sys

sys.path += map(str, pathlib.Path(__file__).resolve().parents[1].iterdir())  # the other folders of tests/
import pages
from checking import is_there, left_out, over_programs
from scrypt_files import LINES

CHEAP = "somesalt -d -t 1 -k 8 -e"
FIRST = b"$argon2d$v=19$m=8,t=1,p=1$c29tZXNhbHQ$xRnmA6xgPsGutbcexEpheePzl1sUwMl+ORTHnmNj4Xg\n"
I_256 = b"$argon2i$v=19$m=256,t=2,p=1$c29tZXNhbHQ$iekCn0Y3spW+sCcFanM2xBT63UP2sghkUoHLIUpWRS8"
# nothing given but a form of output, and salts of s alone, of type id, one pass and 8 KiB, by their lengths
PLAIN = b"$argon2i$v=19$m=4096,t=3,p=1$c29tZXNhbHQ$iWh06vD8Fy27wf9npn6FXWiCX4K6pW6Ue1Bnzz07Z8A\n"
SALTS = {16: b"T9G7F4ntvjOCgttwF4CMKEmjm52g0bFKQltH+leQhf8", 17: b"cNrRQY3sLbHe38u+cfPZ8lRrKB9qhrEoELxcr/UZxGk",
         254: b"M1Y/xPAYtlm+iCGxd13+wHo7+WEkKtY9WCLfsviUeCg", 255: b"4pUw72Sr9mwLVDS/SAA6Pgh1LDwJc0ra6eTcp0ku8xE"}
LONGEST_TAG = (b"11164024bbb98e6e90b14957a1d51417df657057e0c245f9359366d794eb5f63",
               b"b4e4162facc1fd3b88e73741e49c9fa04069973a7ee3fb65bcfef1cd394250e0\n")
RIGHT, WRONG = (0, b"", b""), (1, b"", b"")


def refused(number):
    return (2 if number.startswith("V") else 1, b"", LINES[number])


def hashed(text):
    return (0, text, b"")


def text_of(numbers, salt, tag):
    return b"$argon2id$v=19$%s$%s$%s" % (numbers, base64.b64encode(salt).rstrip(b"="), tag)


# Words, standard input, and (status, standard output, standard error).
TABLE = [
    # limits that are met, and that are not; where none is given, and where no costs are
    (f"{CHEAP} --maxops 6", b"password", hashed(FIRST)), (f"{CHEAP} --maxops 5", b"password", refused("A7b")),
    ("somesalt -t 2 -m 8 -e --maxmem 256", b"password", hashed(I_256 + b"\n")),
    ("somesalt -t 2 -m 8 -e --maxmem 255", b"password", refused("A7a")),
    ("somesalt -e", b"password", hashed(PLAIN)),
    # a row for each line; crates/argon2_words/src/vectors.rt has others, docs/EXAMPLES.md words that are not refused
    *((words, b"password", refused(number)) for words, number in (
        ("somesalt -e --maxmem 4095", "A7a"), ("somesalt -k 4194308 -e", "A7a"),
        ("somesalt -t 4294967295 -k 16 -e", "A7b"), ("", "A1"), ("somesalt -e -q", "A2"), ("somesalt -e -t", "A3"),
        ("somesalt -t x -q", "A4"), ("somesalt", "A5"), ("somesalt -t 0 -e", "A6.1"), ("somesalt -p 0 -e", "A6.2"),
        ("somesalt -k 15 -p 2 -e", "A6.3"), ("somesalt -l 3 -e", "A6.4"), ("seven77 -e", "A6.5"), (f"{'s' * 256} -e", "A6.5"))),
    ("somesalt -e", b"", refused("A8b")), ("somesalt -e", b"p" * 128, refused("A8c")),
    # more than 64 MiB, and long salts
    ("somesalt -d -t 1 -k 65540 -r", b"password", hashed(b"6c51226ce388e165ceaa1c9b5e0646e1bd532392cbf72680d8a8e71c00a35c2f\n")),
    *((f"{'s' * length} -id -t 1 -k 8 -e", b"password", hashed(text_of(b"m=8,t=1,p=1", b"s" * length, tag + b"\n")))
      for length, tag in SALTS.items()),
]

# what is compared with the installed program, with the password of each
COMPARED = [
    ("somesalt -d -t 1 -k 8 -l 4096 -e", b"password"), ("somesalt -id -t 1 -k 262144 -p 2 -v 10 -e", b"password"),
    ("somesalt -d -t 1 -k 8 -r", b"password"), ("somesalt -i -t 1 -k 2100 -l 4 -r", b"password"),
    ("somesalt -i -t 3 -m 12 -r", b"password\n"), ("somesalt -id -t 2 -k 1000 -p 3 -e", b"p" * 127),
    ("somesalt -d -t 4 -k 77 -p 2 -l 65 -e", b"\x00\xff password"), ("saltsaltsaltsalt -id -t 1 -m 16 -p 4 -l 64 -e", b"x"),
    *((f"somesalt -{kind} -t {passes} -k {memory} -p {lanes} -v 10 {form}", b"password") for kind in ("i", "d", "id")
      for passes, memory, form in ((1, 64, "-e"), (2, 1000, "-r"), (3, 77, "-e"), (4, 40, "-r")) for lanes in (1, 2, 3, 4)),
]


# Of argon2-verify: words before the file, its text, the password, and what is expected.
VERIFIED = [
    # the first line alone counts, without its end; and each byte of the password
    *(("", I_256 + it, b"password", RIGHT) for it in (
        b"\nother\n", b"\r\n$argon2", b"\r", b"\n" + b"x" * 100000, b"\0" * (128 - len(I_256)), b"\0\n$argon2", b"\n\0")),
    *(("", I_256, it, WRONG) for it in (b"password\n", b"", b"p" * 4096)),
    *(("", I_256, b"p" * it, refused("V7b")) for it in (4097, 1000000)),
    # limits that are met, and that are not; where none is given, up to 4 TiB
    *((f"{it} --maxmem 256", I_256, b"password", RIGHT) for it in ("", "--maxmem 1")),
    ("--maxops 526 --maxmem 0000000256", I_256, b"password", RIGHT),
    *((it, I_256, b"password", refused("V6a")) for it in ("--maxmem 255", "--maxops 525 --maxmem 255")),
    ("--maxops 525", I_256, b"password", refused("V6b")),
    *(("", I_256.replace(b"m=256", it), b"password", refused("V6a")) for it in (b"m=4194308", b"m=4294967295")),
    ("", I_256.replace(b"t=2", b"t=4294967295"), b"password", refused("V6b")),
    # no hash is told first, then a range, then the limits, then the password
    ("--maxmem 255", b"x", b"p" * 4097, refused("V4")),
    ("--maxmem 1", I_256.replace(b"m=256", b"m=7"), b"p" * 4097, refused("V5")),
    ("--maxmem 255", I_256, b"p" * 4097, refused("V6a")),
    # salt, tag and numbers at their ends, but memory and passes: no text in range is longer by 20 bytes
    ("", text_of(b"m=128,t=1,p=16", b"s" * 255, b"dHR0" * 1365 + b"dA"), b"password", WRONG),
    # no hash: nothing, an empty line, spaces, padding, a symbol left out, other lengths, another type, a zero before a
    # number, a NUL, Django's first word, a bcrypt text, bytes that are no text
    *(("", it, b"password", refused("V4")) for it in (
        b"", b"\n" + I_256, b" " + I_256, I_256 + b" ", I_256 + b"=", I_256[:-1], b"x" * 8191, b"x" * 8192,
        b"x" * 100000, I_256.replace(b"2i$", b"2x$"), I_256.replace(b"m=256", b"m=0256"), b"\0" + I_256,
        b"argon2" + I_256, b"$2y$10$" + b"a" * 53, b"\xff\xfe" + I_256)),
    # out of range
    *(("", I_256.replace(old, new), b"password", refused("V5")) for old, new in (
        (b"t=2", b"t=0"), (b"t=2", b"t=4294967296"), (b"p=1", b"p=0"), (b"p=1", b"p=33"), (b"m=256", b"m=7"),
        (b"v=19", b"v=18"), (b"c29tZXNhbHQ", b"c29t"), (b"m=256", b"m=" + b"9" * 7000))),
]
# Words that are refused before anything is opened, and names of what is no file.
WORDS = [
    *((words, "V1") for words in (
        [], ["-h"], ["--help"], ["--maxmem"], ["--maxmem", "1"], ["hash", "other"], ["--maxmem", "1", "-x"], ["-"],
        ["--maxmem=1", "hash"], ["--maxmem=1"], ["-m", "1", "hash"], [b"\xff"], ["--maxops", "1", b"\xff"])),
    *((["--maxmem", value, "hash"], "V2") for value in ("0", "4294967296", "-1", "", "x", "1 ", "+1", "1" * 21)),
    *((["--maxops", value, "hash"], "V2") for value in ("0", "9223372036854775808")),
    *(([name], "V3") for name in ("none", ".", "", "hash/hash")),
]

# What a shell's line with the program, and the password on standard input, comes to.
STREAMS = [
    (f"{CHEAP} <&-", refused("A8a")), (f"{CHEAP} </", refused("A8a")), (f"{CHEAP} >&-", refused("A9")),
    (f"{CHEAP} >/dev/full", refused("A9")), ("somesalt 2>&-", WRONG), (f"{CHEAP} <&- >&- 2>&-", WRONG),
]
SILENT = (2, b"", b"")
VERIFIED_STREAMS = [
    ("hash <&-", refused("V7a")), ("hash </", refused("V7a")), ("hash >&-", RIGHT), ("none 2>&-", SILENT),
    ("none 2>/dev/full", SILENT), ("hash <&- >&- 2>&-", SILENT), ("./--maxmem", refused("V3")),
    # the file is standard input itself, by any name and of any kind; or is not
    *((it, refused("V9")) for it in (
        "hash <hash", "./hash <hash", "/dev/stdin", "/dev/stdin <hash", "/proc/self/fd/0", "/dev/fd/3 3<&0",
        "/dev/null </dev/null")),
    ("hash </dev/null", WRONG), ("/dev/null", refused("V4")), ("/dev/fd/3 3<hash", RIGHT),
]
# What is left of standard input: what refuses words or the file is told before the password is read, of which no more
# is read than tells that it is too long.
LEFT = [("", b"password", b"password", "A1"), ("somesalt -e -q", b"password", b"password", "A2"),
        (CHEAP, b"p" * 128 + b"left", b"left", "A8c")]
VERIFIED_LEFT = [*((words, b"password", b"password", number) for words, number in (
    ("", "V1"), ("none", "V3"), ("/dev/stdin", "V9"), ("--maxmem 255 hash", "V6a"))), ("hash", b"p" * 4097 + b"left", b"left", "V7b")]
# Words, the file that is a standard stream, what it holds, how that ends, and what comes to the file. One that is read
# gets neither a hash nor a line; another does, after what it held.
READ = [
    (f"{CHEAP} <password >>password", "password", b"password", refused("A9"), b""),
    (f"{CHEAP} <password >>other", "other", b"password", hashed(b""), FIRST),
    ("short -e <password 2>>password", "password", b"password", WRONG, b""),
    ("short -e <password 2>>other", "other", b"password", WRONG, LINES["A6.5"]),
]
VERIFIED_READ = [("--maxmem 255 hash 2>>other", "other", b"", SILENT, LINES["V6a"]),
                 ("--maxmem 255 hash 2>>hash", "hash", I_256, SILENT, b"")]


def streams(checks, lines, left, read):
    for line, expected in lines:
        checks.that(f"a stream: {line}", checks.shell(f'"$0" {line}', b"password"), expected)
    for words, given, rest, number in left:
        status, _, said = refused(number)
        found = checks.shell(f'"$0" {words}; s=$?; cat; exit $s', given)
        checks.that(f"what is left of standard input: {words}", found, (status, rest, said))
    checks.put("password", b"password")
    for words, file, before, expected, more in read:
        checks.put(file, before)
        found = checks.shell(f'"$0" {words}', b"password")
        checks.that(f"a stream that may be read: {words}", (found, checks.content(file)), (expected, before + more))


def examples(checks):
    """The rows of docs/EXAMPLES.md that are one command with one line of output."""
    found = [(number, re.fullmatch(r"`argon2 ([^`]*)`", command), re.fullmatch(r"`([^` ]*)`(?:, status 0|: the first run)?", said))
             for heading, (number, command, said, _) in pages.tables("EXAMPLES.md") if "argon2" in heading]
    run = [(number, command[1], said[1]) for number, command, said in found if command and said]
    checks.that("examples that are one command", [number for number, *_ in run], ["1", "2", "3", "12", "40"])
    for number, words, said in run:
        checks.that(f"example {number}", checks.run(words.split(), b"password"), hashed(said.encode() + b"\n"))


def of_argon2(checks):
    for words, given, expected in TABLE:
        checks.that(f"argon2 {words}, {len(given)} bytes", checks.run(words.split(), given), expected)
    examples(checks)
    streams(checks, STREAMS, LEFT, READ)
    # nobody reads the output any more: a fault like any other, and no signal
    checks.that("a pipe that nobody reads", checks.unread_pipe(CHEAP.split(), b"password"), (1, LINES["A9"]))
    checks.that("a password in pieces", checks.slowly(CHEAP.split(), b"password", 0.01), hashed(FIRST))
    checks.that("a word that is no text", checks.run([b"somesalt", b"-e", b"\xff"], b"password"), refused("A1"))
    found = checks.run(CHEAP.split(), b"password", program=b"\xff", executable=checks.program)
    checks.that("a program's name that is no text", found, hashed(FIRST))
    checks.that("an empty salt", checks.run(["", "-e"], b"password"), refused("A6.5"))
    status, output, line = checks.run("somesalt -d -t 1 -k 8 -l 4096 -r".split(), b"password")
    checks.that("the longest tag", (status, len(output), output[:64], output[-65:], line), (0, 8193, *LONGEST_TAG, b""))
    for words, password in COMPARED if is_there("argon2", "it is not compared with", len(COMPARED)) else ():
        _, printed, _ = checks.run(words.split(), password, program=shutil.which("argon2"))
        checks.that(f"as the installed argon2 {words}", checks.run(words.split(), password), (0, printed, b""))


def of_argon2_verify(checks):
    for words, text, password, expected in VERIFIED:
        checks.put("hash", text)
        name = f"argon2-verify {words}, {text[:80]} of {len(text)} bytes, a password of {len(password)}"
        checks.that(name, checks.run([*words.split(), "hash"], password), expected)
    checks.put("hash", I_256)
    for words, number in WORDS:
        checks.that(f"words {words}", checks.run(words, b"password"), refused(number))
    streams(checks, VERIFIED_STREAMS, VERIFIED_LEFT, VERIFIED_READ)
    checks.that("a password in pieces", checks.slowly(["hash"], b"password", 0.01), RIGHT)
    pieces = "fold -w 7 hash | while read -r it || [ \"$it\" ]; do printf %s \"$it\"; sleep 0.002; done"
    checks.that("a file in pieces", checks.shell(f'mkfifo pipe; {pieces} >pipe & "$0" pipe', b"password"), RIGHT)
    # the end of the line is enough: it is not waited for the end of the file, and the bytes behind the line stay
    for end in (r"\n", r"\r", r"\0"):
        line = f'rm -f kept; mkfifo kept; exec 4<>kept; {{ cat hash; printf "{end}"; }} >&4; timeout 4 "$0" kept'
        checks.that(f"a pipe that stays open behind a line that ends in {end}", checks.shell(line, b"password"), RIGHT)
    line = r'{ cat hash; printf "\nrest"; } | { "$0" /proc/self/fd/3 3<&0 </dev/null; cat; }'
    checks.that("what is behind the line", checks.shell(line, b""), (0, b"rest", b""))


# ---- hashes of other programs

PASSWORDS = [b"x", b"correct horse", b"", "\u00e9\u4e2d".encode(), b"a\nb", b" spaces ", b"p" * 127, b"p" * 128, b"p" * 4096]
SETTINGS = "['memory_cost' => 64, 'time_cost' => 2, 'threads' => 1]"
IN_PHP = f"defined('%s') || exit(127); echo password_hash(stream_get_contents(STDIN), %s, {SETTINGS});"
# Each Python may have the modules.
IN_PYTHON = """
try:
    import {}, argon2, sys
except ImportError:
    raise SystemExit(127)
password = sys.stdin.buffer.read()
print({}, end='')
"""
EACH_PYTHON = '"$1" -c "$0" || /usr/bin/python3 -c "$0"'
MODULES = [
    ("argon2-cffi", ("argon2", "argon2.PasswordHasher(1, 64, 2).hash(password)")),
    ("argon2-cffi, its defaults", ("argon2", "argon2.PasswordHasher().hash(password)")),
    ("passlib", ("passlib.hash", "passlib.hash.argon2.using(rounds=1, memory_cost=64).hash(password)")),
    # its first word, before the text, is cut off
    ("Django", ("django.contrib.auth.hashers", "django.conf.settings.configure() or "
               "django.contrib.auth.hashers.Argon2PasswordHasher()"
                ".encode(password.decode(), 'some salt').removeprefix('argon2')")),
]


def by_programs(argon2):
    """What makes a hash of its standard input; its status is 127 where it is not installed."""
    makers = [*((f"PHP's {it}", ["php", "-r", IN_PHP % (it, it)]) for it in ("PASSWORD_ARGON2ID", "PASSWORD_ARGON2I")),
              *((name, ["sh", "-c", EACH_PYTHON, IN_PYTHON.format(*it), sys.executable]) for name, it in MODULES),
              *((name, [program, *f"somesalt {kind} -t 2 -k 256 -p 2 -e -v {version}".split()])
                for name, program in (("Debian's argon2", "argon2"), ("argon2", argon2))
                for kind in ("-d", "-i", "-id") for version in (10, 13))]
    for name, words in makers:
        for password in [it for it in PASSWORDS if "somesalt" not in words or 0 < len(it) < 127]:
            made = subprocess.run(["env", *words], input=password, capture_output=True)
            if made.returncode == 127:
                left_out(f"{name} is not installed", "its hashes are not checked")
                break
            made.check_returncode()
            yield name, made.stdout, password


def library(name):
    try:
        return ctypes.CDLL(name)
    except OSError:
        return left_out(f"{name} is not installed", "its hashes are not checked")


def by_libsodium():
    if sodium := library("libsodium.so.23"):
        sodium.sodium_init()
        for password in PASSWORDS:
            made = ctypes.create_string_buffer(128)
            given = password, ctypes.c_ulonglong(len(password)), ctypes.c_ulonglong(1), ctypes.c_size_t(8192)
            if sodium.crypto_pwhash_str(made, *given):
                raise SystemExit("crypto_pwhash_str failed")
            yield "libsodium", made.value, password


def by_libargon2():
    """Of random types, versions, numbers and lengths."""
    if reference := library("libargon2.so.1"):
        random.seed(74)
        for _ in range(100):
            lanes = random.choice((1, 1, 2, 3, 4))
            numbers = random.randrange(1, 4), 8 * lanes + random.randrange(200), lanes
            salt, length = random.randbytes(random.choice((8, 16, 64, 255))), random.choice((4, 16, 32, 64, 100, 4096))
            password = random.randbytes(random.choice((0, 1, 5, 64, 127, 128, 500, 4095, 4096)))
            made = ctypes.create_string_buffer(7000)
            how = ctypes.c_size_t(7000), ctypes.c_int(random.randrange(3)), ctypes.c_uint32(random.choice((0x10, 0x13)))
            lengths = [ctypes.c_size_t(it) for it in (len(password), len(salt), length)]
            if reference.argon2_hash(*map(ctypes.c_uint32, numbers), password, lengths[0], salt, lengths[1], None, lengths[2], made, *how):
                raise SystemExit("argon2_hash failed")
            yield "libargon2", made.value, password


def hashes_of_others(checks, argon2):
    """A right password, and one whose last byte, or length, is another."""
    for name, text, password in (*by_programs(argon2), *by_libsodium(), *by_libargon2()):
        checks.put("hash", text)
        other = password[:-1] + bytes([password[-1] ^ 1]) if password else b"x"
        checks.that(f"{name}: {text[:60]} of {len(password)} bytes", checks.run(["hash"], password), RIGHT)
        checks.that(f"{name}: {text[:60]}, another password", checks.run(["hash"], other), WRONG)


def main(checks, _, argon2, verify):
    of_argon2(checks)
    checks.program = verify
    of_argon2_verify(checks)
    hashes_of_others(checks, argon2)


if __name__ == "__main__":
    over_programs(main, __doc__, "argon2", "argon2-verify")
