#!/usr/bin/env python3
"""Runs the built scrypt from the outside: words, files, pipes, the environment, standard streams, statuses, Debian's
scrypt where it is installed, and a small file in every damaged form: cut to each length, with each of its bits changed,
and with 1 to 100 bytes more.

    tests/programs/scrypt.py FOLDER      in which the programs lie
"""
import concurrent.futures
import fcntl
import hashlib
import itertools
import os
import pathlib
import re
import shlex
import shutil
import socket
import stat
import subprocess
import sys
import tempfile
import termios
import time

sys.path += map(str, pathlib.Path(__file__).resolve().parents[1].iterdir())  # the other folders of tests/
from checking import TIME_LIMIT, is_there, left_out, over_programs
from scrypt_ask import Terminal
from scrypt_files import COSTS, ENVIRONMENT, F0, F5, FILES, FIXED, FROM_PW, LINES, SALT


def done(out=b""):
    return (0, out, b"")


def refused(number, out=b""):
    return (1, out, LINES[number])


SILENT = (1, b"", b"")
INFO = b"N = 16; r = 1; p = 1; memory = 2048; cores = 64\n"
# The text of the larger files: 1,000,003 bytes.
LARGE = b"".join(hashlib.sha256(i.to_bytes(4, "big")).digest() for i in range(31251))[:1000003]
ENC, DEC = f"enc {FIXED} {FROM_PW}", f"dec {FROM_PW}"
# Words, standard input, and what is written where that is all.
WRITTEN = [
    # files and what opens them
    *((words, b"", F0) for words in (f"{ENC} empty", f"{ENC} -", f"{ENC} --keep 2 empty")),
    *((words, b"", F5) for words in (
        f"{ENC} hello", f"{ENC} --keep 2 hello", f"{ENC} --keep 4 -M 512 --maxops 160 hello",
        f"enc {FIXED} --passphrase env:PW hello")),
    (f"{ENC} -", b"hello", F5), (f"enc {FIXED} -P hello", b"pw\nmore", F5),
    (f"enc {FIXED} --passphrase dev:stdin-once hello", b"pw", F5),
    (f"{DEC} F0", b"", b""), (f"{DEC} -", F5, b"hello"), ("info F5", b"", INFO), ("info -", F5, INFO),
    ("info huge", b"",
     b"N = 9223372036854775808; r = 1; p = 1; memory = 1180591620717411303424; cores = 36893488147419103232\n"),
    # limits that are met, also those of a part of the table; each source of a passphrase, and what ends one
    *((f"dec {it} F5", b"", b"hello") for it in (
        FROM_PW, f"-M 2048 --maxops 64 {FROM_PW}", f"--keep 4 -M 512 --maxops 160 {FROM_PW}",
        f"--keep 16 -M 128 --maxops 544 {FROM_PW}", "--passphrase file:pw-cr-lf", "--passphrase file:pw-alone",
        *(f"--passphrase env:{name}" for name in ("PW", "PW_LINE", "PW_LONG")))),
    ("dec -P F5", b"pw\nmore", b"hello"), ("dec --passphrase dev:stdin-once F5", b"pw", b"hello"),
]
# Words, by their refusal.
REFUSED = {
    # one for each line that scrypt_ask.py has not; crates/scrypt_words/src/vectors.rt has all others
    "S1": ["", f"dec -M +2048 {FROM_PW} F5"], "S2c": ["enc -P - out"], "S3": ["dec F5"],
    "S5a": [f"enc {COSTS} --salt 00 {FROM_PW} hello"],
    "S16a": [f"{DEC} --keep 0 F5"], "S16b": [f"{DEC} --keep 32 F5"],
    "S4a": [f"dec --passphrase {it} F5" for it in ("file:missing", "file:folder", "env:UNSET")],
    "S4b": [f"dec --passphrase {it} F5" for it in ("file:pw-2049", "env:PW_2049")],
    "S10": [f"dec --passphrase file:{it} F5" for it in ("empty", "pw-2048", "pw-2048-line")],
    # headers; damaged() has every damaged form of a file
    "S6": [f"{DEC} no-r", "info no-log-n", "info F5-cut-95"], "S7": ["info F5-version-1"],
    # limits, whose ends the tests of scrypt_command have: before the passphrase is read, where no limits are given,
    # where no costs are, of a new file, and where memory is past 64 bits, or more than there is
    "S8": [f"dec -M 2047 --maxops 64 {FROM_PW} F5", "dec --passphrase file:missing huge", f"{DEC} 4-gib-and-more",
           f"{ENC} -M 2047 hello", f"enc -M 134217727 {FROM_PW} hello",
           *(f"enc --logN {it} -r 8 -p 1 {FROM_PW} hello" for it in (63, 50))],
    "S9": [f"dec -M 2048 --maxops 63 {FROM_PW} F5", f"{DEC} much-work", f"{ENC} --maxops 63 hello",
           f"enc --maxops 4194303 {FROM_PW} hello"],
    # names
    "S12": [f"{DEC} missing", "info missing", f"{DEC} folder", "dec --passphrase file:missing missing"],
    "S13": [f"{DEC} F5 missing/out", f"{DEC} F5 folder"],
}

SLOWLY = "{ printf p; sleep 0.1; printf 'w\\nmore'; }"
# A shell's line in which the program is $0, and (status, standard output, standard error).
IN_A_SHELL = [
    # standard streams that are closed, that are folders, and that are full
    *((f'"$0" {DEC} - {it}', refused("S12")) for it in ("<&-", "</")),
    *((f'"$0" dec -P F5 {it}', refused("S4a")) for it in ("<&-", "</")),
    *((f'"$0" {DEC} F5 {it}', refused("S13")) for it in (">&-", ">/dev/full", "/dev/full")),
    ('"$0" info F5 >/dev/full', refused("S13")),
    (f'"$0" {DEC} F0 >/dev/full', done()),
    *((f'"$0" {it}', SILENT) for it in ("info F5-cut-95 2>&-", "info F5-cut-95 2>/dev/full", f"{DEC} F5 <&- >&- 2>&-")),
    # what comes in pieces, or from another program, or is not read to its end
    (f'"$0" enc {COSTS} {FROM_PW} large | "$0" {DEC} - | cmp - large', done()),
    (f'{{ "$0" {DEC} large.enc; echo $? >&2; }} | head -c 5', (0, LARGE[:5], LINES["S13"] + b"1\n")),
    (f'{SLOWLY} | "$0" enc {FIXED} --passphrase file:/dev/stdin hello', done(F5)),
    (f'mkfifo it; {SLOWLY} >it & "$0" dec --passphrase file:it F5; rm it', done(b"hello")),
    # a run that reads neither its input nor its passphrase from standard input leaves that to others
    (f'printf left | {{ "$0" {ENC} hello out; cat; }}', done(b"left")),
    (f'printf left | {{ "$0" {DEC} F5 out; cat; rm out; }}', done(b"left")),
    ('printf left | { "$0" info F5; cat; }', done(INFO + b"left")),
    # info reads a header and no more, and so does a run that its costs end
    ('{ "$0" info -; cat; } <F5', done(INFO + F5[96:])), ('cat F5 | { "$0" info -; cat; }', done(INFO + F5[96:])),
    (f'{{ "$0" dec -M 2047 {FROM_PW} -; cat; }} <F5', (0, F5[96:], LINES["S8"])),
    # outputs that are no regular files
    (f'"$0" {ENC} /dev/null /dev/stdout', done(F0)), (f'"$0" {ENC} /dev/null /dev/../dev/null', done()),
    (f'"$0" {ENC} - </dev/null >/dev/null', done()), (f'"$0" {ENC} /dev/null >/dev/null', done()),
    (f'mkfifo pipe; cat pipe & "$0" {ENC} hello pipe; wait; rm pipe', done(F5)),
    # an empty infile, and one of a name that begins as an option; a dash is a plain outfile
    (f'"$0" {DEC} ""', refused("S12")), (f'cp F5 ./-dashed; "$0" {DEC} -- -dashed', done(b"hello")),
    (f'"$0" {DEC} F5 - && cat ./-; rm ./-', done(b"hello")),
    # permissions of a new outfile, and of one that is there
    (f'umask 027; "$0" {DEC} F5 out && stat -c %a out; rm out', done(b"640\n")),
    (f'>out; chmod 604 out; "$0" {DEC} F5 out && stat -c %a out; rm out', done(b"604\n")),
]

# A shell's words after the program, what stood in the file `out` before (None: there was none), (status, standard
# output, standard error), and what stands there after.
OUTFILES = [
    (f"{DEC} F5 out", None, done(), b"hello"), (f"{DEC} F5 out", b"a longer text", done(), b"hello"),
    (f"{ENC} hello out", None, done(), F5), (f"{DEC} F0 out", b"before", done(), b""),
    # a link to it, or to nothing
    *((f"{ENC} hello link-to-out", it, done(), F5) for it in (b"before", None)),
    # cut in the last code, to its first byte, too
    (f"{DEC} F5-cut-127 out", b"before", refused("S11"), b""), (f"{DEC} F5-cut-130 out", None, refused("S11"), b"he"),
    *(("dec --passphrase file:other-pw F5 out", it, refused("S10"), it) for it in (b"before", None)),
    *((f"{ENC} {it} out", b"before", refused("S12"), b"before") for it in ("missing", "folder")),
    # none is opened before a standard input that is closed, and none takes the place of a stream that is closed
    *((f"{ENC} - out {it}", b"before", refused("S12"), b"before") for it in ("<&-", "</", "<folder")),
    *((f"{DEC} F5-cut-130 out {it}", None, SILENT, b"he") for it in ("2>&-", "<&- 2>&-", "<&- >&- 2>&-", ">&- 2>&-")),
    (f"enc {FIXED} -P hello out <&-", None, refused("S4a"), None),
    (f"enc {FIXED} -P hello out <&- >&- 2>&-", None, SILENT, None),
    (f"{DEC} F5 out <&- >&- 2>&-", None, done(), b"hello"),
]


def under(*names):
    """What reads `kept` as the input or as the secret's file, and would write it under one of these names."""
    return [(b"kept", f"enc {COSTS} {words}") for it in names for words in (
        f"{FROM_PW} kept {it}", f"{FROM_PW} {it} kept", f"{FROM_PW} - {it} <kept", f"--passphrase file:kept hello {it}",
        f"-P hello {it} <kept")]


# What stands in the file `kept`, and a shell's words after the program, of which it is read and would be written: by a
# name, or as a standard stream, which would be read again, or would stand in that file. It stays as it is.
KEPT = [
    *under("./kept", '"$PWD"/kept', "symbolic-link"),
    *((b"kept", f"enc {COSTS} {it}") for it in (
        *(f"{FROM_PW} {it}" for it in (
            "kept >>kept", "symbolic-link >>kept", "kept 1<>kept", "- <kept >>kept", "- <kept 1<>kept")),
        *(f"--passphrase file:kept hello {it}" for it in ("kept", ">>kept")), "-P hello <kept >>kept")),
    *((F5, f"{DEC} {it}") for it in ("kept ./kept", "- kept <kept", "kept >>kept", "- <kept >>kept")),
    (F5, "info kept >>kept"), (F5[:-1], f"{DEC} kept ./kept"), (b"pw\n", "dec -P F5 <kept >>kept"),
]
# The same, and how they end, and what stands there after.
READ_AND_WRITTEN = [
    *((content, words, refused("S13"), content) for content, words in (*KEPT, *under("folder/../kept", "hard-link"))),
    (b"lost", f"enc {COSTS} {FROM_PW} kept >kept", refused("S13"), b""),
    # a line is left out where standard error is such a file
    *((F5, f"dec --passphrase file:other-pw {it}", SILENT, F5) for it in (
        "kept out 2>>kept", "kept out 2<>kept", "symbolic-link out 2>>kept", "- out <kept 2>>kept")),
    (b"kept", f"enc {COSTS} {FROM_PW} kept /dev/full 2>>kept", SILENT, b"kept"),
    (b"pv\n", "dec --passphrase file:kept F5 out 2>>kept", SILENT, b"pv\n"),
    (b"pv\n", "dec -P F5 out <kept 2>>kept", SILENT, b"pv\n"),
    # another file is written after what it holds, and so is one that is not opened yet
    (b"before", f"enc {FIXED} {FROM_PW} hello >>kept", done(), b"before" + F5),
    (b"before\n", "dec --passphrase file:other-pw F5 out 2>>kept", SILENT, b"before\n" + LINES["S10"]),
    (F5, "dec kept out 2>>kept", SILENT, F5 + LINES["S3"]),
]


def leaves(checks, name, words, expected, file, content):
    """A line of a shell with these words ends so, and then the file has this content."""
    found = checks.shell(f'"$0" {words}')
    checks.that(name, (found, checks.content(file)), (expected, content))


def without_the_root_folder(checks):
    """No file takes the place of a closed stream where the root folder, which else stands there, may not be opened."""
    if os.geteuid() != 0 or shutil.which("ldd") is None:
        left_out("root alone can make it", "a root folder that may not be opened", 4)
        return
    checks.shell("""mkdir -p root/files; cp -L --parents "$0" $(ldd "$0" | grep -o '/[^ ]*') root
        cp pw hello F5 F5-cut-130 root/files; chmod -R a+rX root; chmod 777 root/files; chmod 711 root""")
    from_pw = "--passphrase file:files/pw"
    for name, words, expected in (
        ("all streams open", f"dec {from_pw} files/F5", done(b"hello")),
        ("no passphrase from the infile", f"enc {FIXED} -P files/hello files/out <&-", refused("S12")),
        ("no infile as standard error", f"dec {from_pw} files/F5-cut-130 files/out 2>&-", SILENT),
        ("no file with all streams closed", f"dec {from_pw} files/F5-cut-130 files/out <&- >&- 2>&-", SILENT),
    ):
        found = checks.shell(f'chroot --userspec=65534:65534 root "$0" {words}')
        checks.that(name, (found, checks.content("root/files/out")), (expected, None))


def pipes(checks):
    """Nobody reads the output any more: a fault like any other, and no signal. The file, or the passphrase, comes byte
    by byte. What holds the passphrase is read to its end, or 2,049 bytes of it."""
    checks.that("a pipe that nobody reads", checks.unread_pipe(f"{DEC} F5".split()), (1, LINES["S13"]))
    checks.that("a file in pieces", checks.slowly(f"{DEC} -".split(), F5, 0.002), done(b"hello"))
    checks.that("a passphrase in pieces", checks.slowly("dec -P F5".split(), b"pw\nmore", 0.02), done(b"hello"))
    for name, given, expected in (
        ("all", b"pw\nmore", done(b"hello")),
        ("2049 bytes with a line end", b"pw\n".ljust(2049, b"x") + b"left", done(b"helloleft")),
        ("2049 bytes without one", b"p" * 2049 + b"left", refused("S4b", b"left")),
    ):
        checks.put("typed", given)
        for way, text in (("a pipe", 'cat typed | { "$0" dec -P F5; s=$?; cat; exit $s; }'),
                          ("a file", '{ "$0" dec -P F5; s=$?; cat; exit $s; } <typed')):
            checks.that(f"-P takes {name} of {way}", checks.shell(text), expected)


def outputs_that_are_read(checks):
    """An output that is the input, or the secret's file, under another name stays as it is."""
    checks.shell(">kept; ln kept hard-link; ln -s kept symbolic-link")
    for content, words, expected, after in READ_AND_WRITTEN:
        checks.put("kept", content)
        leaves(checks, f"a file that is read: {words}", words, expected, "kept", after)
    # a terminal is written, also where it is read
    terminal = Terminal(f"exec {shlex.quote(checks.program)} dec -P F5", checks.folder, dict(os.environ))
    terminal.types("pw\n\4")
    checks.that("a terminal", terminal.ends()[:2], (0, "pw\r\nhello"))


def block_devices(checks):
    """Nor is a block device written that is read, whatever its names. Another one is written from its beginning, and keeps the rest."""
    if not is_there("losetup", "a block device is not made of a file", 7):
        return
    content = LARGE[:65536]
    checks.put("disk", content)
    status, device, _ = checks.run("--find --show disk".split(), program="losetup")
    if status != 0:
        left_out("root alone can make one of a file", "a block device", 7)
        return
    device = device.decode().strip()
    other = f"{device}-{os.getpid()}"
    try:
        os.mknod(other, 0o600 | stat.S_IFBLK, os.stat(device).st_rdev)
        for words, expected, after in (
            *((f"enc {COSTS} {it}", refused("S13"), content) for it in (
                f"{FROM_PW} {device} {device.replace('dev/', 'dev/./')}", f"{FROM_PW} {device} {other}",
                f"{FROM_PW} - {other} <{device}", f"{FROM_PW} {other} >{device}", f"--passphrase file:{other} hello {device}")),
            (f"info {other} 2>{device}", SILENT, content),
            (f"enc {FIXED} {FROM_PW} hello {device}", done(), F5 + content[len(F5):]),
        ):
            leaves(checks, f"a block device: {words}", words, expected, device, after)
    finally:
        pathlib.Path(other).unlink(missing_ok=True)
        subprocess.run(["losetup", "--detach", device], check=True)


def folders_that_are_kept(checks):
    """The folder of a file is brought to the disk, too; of a link, that of the link."""
    if not is_there("strace", "which folders are brought to the disk is not looked at", 6):
        return
    os.mkdir(f"{checks.folder}/folder/below")
    os.symlink("below/out", f"{checks.folder}/folder/link")
    for name, kept in (
        ("new", ""), ("./new", ""), ("folder/new", "/folder"), ("folder//below/../new", "/folder/below/.."),
        ("folder/link", "/folder"), (f"{checks.folder}/folder/new", "/folder"),
    ):
        found = checks.shell(f'strace -qqy -e trace=fsync -o calls "$0" enc {FIXED} {FROM_PW} hello {name}')
        folders = [os.path.realpath(it) for it in re.findall(r"<(.*)>", checks.content("calls").decode())][1:]
        checks.that(f"the folder of {name}", (found, folders), (done(), [os.path.realpath(checks.folder + kept)]))


BIND = ">mounted; mount --bind kept mounted"
# In this file system a file that is opened to be written is copied, and each descriptor of it, also one that was opened
# before, tells from then on the numbers of the copy. Without an index that is another file than its hard link.
LAYERS = """mkdir below above work merged; mv kept hello pw F5 below
ln below/kept below/hard-link; ln -s kept below/symbolic-link
mount -t overlay overlay -o lowerdir=below,upperdir=above,workdir=work,index=off merged && cd merged"""


def mounted(checks, mount, content, line):
    """What a shell's line does in a folder in which `kept` has this content, after this mount, and what `kept` holds
    then. None where it cannot be mounted."""
    folder = tempfile.mkdtemp(dir=checks.folder)
    checks.put(f"{folder}/kept", content)
    text = f"cp hello pw F5 {folder}; cd {folder}; {mount} || exit 99; {line}; s=$?; cp kept {folder}/after; exit $s"
    found = checks.shell(f"unshare -m --propagation private sh -c '{text}' \"$0\"")
    after = checks.content(f"{folder}/after")
    return None if after is None else (found, after)


def outputs_over_mounts(checks):
    """The same where a mount gives the input another name, or other numbers."""
    over_layers = [*READ_AND_WRITTEN[:len(KEPT)], (b"kept", f"enc {FIXED} {FROM_PW} hello kept", done(), F5),
                   (b"kept", f"enc {FIXED} {FROM_PW} hello hard-link", done(), b"kept")]
    for name, mount, rows in (
        ("a bind mount", BIND, [(b"kept", f"enc {COSTS} {FROM_PW} kept mounted", refused("S13"), b"kept")]),
        ("a file system of layers", LAYERS, over_layers),
    ):
        if mounted(checks, mount, b"kept", "true") != (done(), b"kept"):
            left_out("root alone can mount one, and layers not over each file system", name, len(rows))
            continue
        for content, words, expected, after in rows:
            checks.that(f"{name}: {words}", mounted(checks, mount, content, f'"$0" {words}'), (expected, after))


def words_of_bytes(checks):
    checks.put("out", b"before")
    found = checks.run([b"dec", b"--passphrase", b"file:pw", b"F5", b"out", b"\xff"])
    checks.that("a word that is no text", (found, checks.content("out")), (refused("S1"), b"before"))
    checks.that("a name that is no text", checks.run([b"dec", b"--passphrase", b"file:\xff", b"F5"]), refused("S1"))
    found = checks.run(["info", "F5"], program=b"\xff", executable=checks.program)
    checks.that("a program's name that is no text", found, done(INFO))
    # a variable, a file and standard input give the same bytes of a passphrase, text or not
    checks.put("made", checks.run(f"enc {COSTS} --passphrase env:PW_BYTES hello".split())[1])
    for source in ("-P", "--passphrase file:pw-bytes"):
        found = checks.run(f"dec {source} made".split(), FILES["pw-bytes"])
        checks.that(f"bytes of {source}", found, done(b"hello"))


# The costs where none are given (README.md, "Which costs").
DEFAULT = "--logN 17 -r 8 -p 1"
LENGTHS = (1, 31, 32, 33, 63, 64, 65, 4063, 4064, 4095, 4096, 4097, 8191, 8192, 8193, 100000)


def costs_of(file):
    """The costs that a file has in its header, as words."""
    r, p = (int.from_bytes(file[at:at + 4], "big") for at in (8, 12))
    return f"--logN {file[7]} -r {r} -p {p}" if len(file) >= 16 else "no header"


def comes_back(checks, name, costs, text, *more):
    """What enc makes of a text with these costs, and dec gives back."""
    status, made, said = checks.run([*f"enc {costs} {FROM_PW}".split(), *more, "-"], text)
    checks.that(f"{name}, encrypted", (status, len(made), said, costs_of(made)), (0, 128 + len(text), b"", costs or DEFAULT))
    checks.that(f"{name}, decrypted", checks.run(f"dec {FROM_PW} -".split(), made), done(text))
    return made


def from_enc_and_back(checks):
    """Texts about the length of a piece; costs with a block past r of 32, and a table above 64 MiB; and two salts."""
    for length in LENGTHS:
        comes_back(checks, f"{length} bytes", COSTS, LARGE[:length])
    for costs in ("", "--logN 10 -r 33 -p 1", "--logN 10 -r 128 -p 2", "--logN 16 -r 9 -p 1", "--logN 15 -r 24 -p 1"):
        made = comes_back(checks, costs or "the costs where none are given", costs, b"hello", "--salt", SALT)
        checks.that(f"the salt that is given, {costs or DEFAULT}", made[16:48].hex(), SALT)
    first, second = (comes_back(checks, "a salt of its own", COSTS, b"hello")[16:48] for _ in range(2))
    checks.that("a salt of its own for each file", [first[:16] != second[:16], first[16:] != second[16:]], [True, True])


def beside_the_installed(checks):
    small, larger = "--logN 10 -r 1 -p 1", "--logN 11 -r 3 -p 2"
    cases = [(costs, 1, text) for costs in (COSTS, small, larger) for text in (b"", b"hello", LARGE)]
    cases += [("--logN 10 -r 1 -p 2", 1 << power, b"hello") for power in range(11)]
    if not is_there("scrypt", "it is not compared with", len(cases) + sum(it[0] != COSTS for it in cases)):
        return
    other = shutil.which("scrypt")
    for costs, keep, text in cases:
        name = f"of {len(text)} bytes, {costs}, one row in {keep}"
        ours = checks.run(f"enc {costs} --keep {keep} {FROM_PW} -".split(), text)[1]
        checks.put("ours", ours)
        found = checks.run(f"dec {FROM_PW} ours".split(), program=other)
        checks.that(f"{other} opens ours {name}", (*found[:2], costs_of(ours)), (0, text, costs))
        if costs != COSTS:  # its own costs begin at 2^10, but it opens files with less
            made = checks.run(f"enc {costs} {FROM_PW} - theirs".split(), text, program=other)
            found = checks.run(f"dec --keep {keep} {FROM_PW} theirs".split())
            checks.that(f"ours opens {other}'s {name}", (made[0], found), (0, done(text)))


# ---- damaged files


def damaged():
    """A small file in every damaged form, with its name, the line that is said of it, what the output begins with,
    which held something before, and its length: what bytes more come to is not known without the cipher."""
    for length in range(len(F5)):
        text = b"before" if length < 96 else b"hello"[:max(length - 128, 0)]
        yield f"cut to {length} bytes", F5[:length], "S6" if length < 96 else "S11", text, len(text)
    for place, bit in itertools.product(range(len(F5)), range(8)):
        file, text = bytearray(F5), bytearray(b"hello" if place >= 96 else b"before")
        file[place] ^= 1 << bit
        if 96 <= place < 101:
            text[place - 96] ^= 1 << bit
        line = "S7" if place == 6 else "S6" if place < 64 else "S10" if place < 96 else "S11"
        yield f"bit {bit} of byte {place} changed", file, line, text, len(text)
    for more in range(1, 101):
        yield f"{more} bytes more", F5 + bytes(more), "S11", b"hello", 5 + more


def decrypted(checks, file, size):
    """Status, line and what stands in the output, where the file comes in pieces of this size: each is sent when the one
    before was read."""
    with tempfile.TemporaryDirectory(dir=checks.folder) as own:
        out = pathlib.Path(own, "out")
        out.write_bytes(b"before")
        ours, theirs = socket.socketpair()
        words = [checks.program, *"dec --passphrase file:../pw - out".split()]
        running = subprocess.Popen(words, stdin=theirs, stderr=subprocess.PIPE, cwd=own, env={})
        for begin in range(0, len(file), size):
            latest = time.monotonic() + TIME_LIMIT
            while running.poll() is None and any(fcntl.ioctl(theirs, termios.FIONREAD, bytes(4))):
                if time.monotonic() > latest:
                    running.kill()
                time.sleep(0)
            ours.send(file[begin:begin + size])
        ours.close()
        _, said = running.communicate(timeout=TIME_LIMIT)
        theirs.close()
        return running.returncode, said, out.read_bytes()


def damaged_files(checks):
    """Each comes byte by byte, in pieces of 31 bytes, and whole."""
    with concurrent.futures.ThreadPoolExecutor(os.cpu_count()) as threads:
        for size in (1, 31, len(F5) + 100):
            ran = [(*it, threads.submit(decrypted, checks, it[1], size)) for it in damaged()]
            for name, _, line, front, length, ended in ran:
                status, said, text = ended.result()
                found = status, said, text[:len(front)], len(text)
                checks.that(f"{name}, in pieces of {size}", found, (1, LINES[line], front, length))
            checks.that(f"the whole file, in pieces of {size}", decrypted(checks, F5, size), (0, b"", b"hello"))


def main(checks, *_):
    checks.environment = {**ENVIRONMENT, "PATH": os.environ.get("PATH", "")}
    for name, content in {**FILES, "large": LARGE}.items():
        checks.put(name, content)
    checks.shell("mkdir folder; ln -s out link-to-out")
    checks.put("large.enc", checks.run(f"enc {COSTS} {FROM_PW} large".split())[1])
    for words, given, expected in WRITTEN:
        checks.that(f"{words}, given {given[:9]}", checks.run(words.split(), given), done(expected))
    for number, lines in REFUSED.items():
        for words in lines:
            checks.that(words, checks.run(words.split()), refused(number))
    checks.that("2049 bytes of standard input", checks.run("dec -P F5".split(), b"p" * 2049), refused("S4b"))
    for line, expected in IN_A_SHELL:
        checks.that(line, checks.shell(line), expected)
    for words, before, expected, after in OUTFILES:
        checks.put("out", before)
        leaves(checks, f"an outfile: {words}", words, expected, "out", after)
    for part in (
        without_the_root_folder, pipes, outputs_that_are_read, block_devices, folders_that_are_kept,
        outputs_over_mounts, words_of_bytes, from_enc_and_back, beside_the_installed, damaged_files,
    ):
        part(checks)


if __name__ == "__main__":
    over_programs(main, __doc__, "scrypt")
