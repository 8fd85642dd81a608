#!/usr/bin/env python3
"""Runs the built programs over a system that refuses: each request for memory, alone and from there on, each that is
too large, all memory above a limit, and each call, which fails, is interrupted, or comes short. And looks at the
memory of a hash or a key when it is freed: it holds zeros; and at a program from another process of the same user.

    tests/programs/hostile.py FOLDER      in which the programs argon2, argon2-verify and scrypt lie

hostile_system.c, which stands between a program and the system, is compiled here. Without a C compiler only the memory
of the whole process is limited, and its calls are looked at. Expected hashes are those of Debian's argon2
(package argon2, version 0~20171227) and of RFC 9106's reference program; scrypt_files.py says where its files come from.
"""
import concurrent.futures
import errno
import hashlib
import hmac
import os
import pathlib
import resource
import shutil
import signal
import subprocess
import sys
import tempfile
import threading
import time
from dataclasses import dataclass

sys.path += map(str, pathlib.Path(__file__).resolve().parents[1].iterdir())  # the other folders of tests/
from checking import compiled, is_there, left_out, over_programs
from scrypt_files import COSTS, ENVIRONMENT, F0, F5, FILES, FIXED, FROM_PW, HEADER, LINES, SALT, of_costs

# The status of a refusal, and that of want of memory.
REFUSED = {"argon2": (1, "A10"), "argon2-verify": (2, "V8"), "scrypt": (1, "S15")}
STREAMS = ["standard input", "standard output", "standard error"]


def calls_of(text):
    """The calls of a run, as hostile_system.c names them, each with what comes of it where it fails, and how many bytes
    were written before, None where no output is opened yet. The text has them in parts, `REFUSAL: CALL, CALL ..`, or
    `REFUSAL@BYTES: ..`; after `none` the run goes on, and after `line` it ends as else, but without its line. 0, 1 and
    2 are the standard streams: pipes, which are looked at by their names below /proc."""
    for part in f"none: open /, open /, open /; {text}".strip("; ").split(";"):
        head, _, names = part.partition(":")
        refusal, _, written = head.strip().partition("@")
        for call in map(str.strip, names.split(",")):
            kind, _, name = call.rpartition(" ")
            if name.isdigit():
                name = f"/proc/self/fd/{name}" if kind == "look at" else STREAMS[int(name)]
            yield f"{kind} {name}", refusal, int(written) if written else None


@dataclass
class Run:
    """A run, what it writes, to standard output or to the file `out`, its calls, and the refusal in which it ends."""

    program: str
    words: str
    given: bytes = b""
    output: bytes = b""
    calls: str = ""
    refusal: str = "none"
    to_file: bool = False
    status: int = 0

    def __post_init__(self):
        self.calls, self.name = [*calls_of(self.calls)], f"{self.program} {self.words}"

    def after(self, refusal, written):
        """Status, standard output, standard error and the content of `out` where it ends so, with so many bytes written."""
        status, line = (self.status, b"") if refusal == "none" else (REFUSED[self.program][0], LINES[refusal])
        front = None if written is None else self.output[:written]
        return (status, b"", line, front) if self.to_file else (status, front or b"", line, None)

    def plain(self):
        is_opened = self.refusal == "none" or any(written is not None for _, _, written in self.calls)
        return self.after(self.refusal, len(self.output) if is_opened else None)

    def where_it_fails(self, refusal, written):
        """The same where a call fails of which this comes; with its line, also where none is said then."""
        return self.plain() if refusal in ("none", "line") else self.after(refusal, written)

    def without_memory(self):
        return self.after(REFUSED[self.program][1], None)


# What is opened to be read is looked at, since it may be a folder. A secret is read to its end. An outfile is opened,
# and its folder; what is read is looked at while the outfile is open, and before it is emptied.
def secret(name, refusal):
    return f"{refusal}: open {name}, look at {name}, read {name}, read {name};"


def opened_out(*read):
    looks = ", ".join(f"look at {name}" for name in read)
    return f"S13: open out; S13@0: look at out, open ., look at out, {looks}, empty out;"


def enc_body(source, target):
    return (f"S13@0: write {target}; S12@96: read {source}; S13@96: write {target}; S12@101: read {source}; "
            f"S13@101: write {target};")


PASSWORD, CHECKED, TYPED = (f"{it}: look at 0, read 0, read 0;" for it in ("A8a", "V7a", "S4a"))
PW = secret("pw", "S4a")
# whether it is standard input; and a byte at a time, to the end of its line
HASH = f"V3: open hash-256, look at hash-256, look at hash-256, look at 0{', read hash-256' * 84};"
HELLO, READ_F5 = "S12: open hello, look at hello;", "S12: open F5, look at F5, read F5;"
DISK = "sync out, sync ."
# Texts of the password `password`: of 256 KiB, of 1 MiB and of 4 MiB.
HASHES = {
    "hash-256": b"$argon2i$v=19$m=256,t=2,p=1$c29tZXNhbHQ$iekCn0Y3spW+sCcFanM2xBT63UP2sghkUoHLIUpWRS8\n",
    "hash-1024": b"$argon2d$v=19$m=1024,t=1,p=1$c29tZXNhbHQ$Li5eBf5XrCz0cuzQRe9oflYqmA/VAzmzichw4ZYrvEU\n",
    "hash-4096": b"$argon2d$v=19$m=4096,t=1,p=1$c29tZXNhbHQ$7ihYKDQmx1c4J4Y2qvRnMEArWN1gWQxGzVROHZ+9G/Q\n",
}
PUT = {**FILES, **HASHES}
HASHED = {
    "somesalt -d -t 1 -k 8 -e": b"$argon2d$v=19$m=8,t=1,p=1$c29tZXNhbHQ$xRnmA6xgPsGutbcexEpheePzl1sUwMl+ORTHnmNj4Xg\n",
    "somesalt -t 2 -m 8 -e": HASHES["hash-256"],
    "somesalt -t 2 -m 8 -id -p 2 -r": b"6d093c501fd5999645e0ea3bf620d7b8be7fd2db59c20d9fff9539da2bf57037\n",
    "somesalt -t 2 -m 8 -v 10 -r": b"fd4dd83d762c49bdeaf57c47bdcd0c2f1babf863fdeb490df63ede9975fccf06\n",
}
CUT = "F5-cut-127"
# Before a line, what is open to be read is looked at, and standard error only where that is a file.
RUNS = [
    *(Run("argon2", it, b"password", HASHED[it], f"{PASSWORD} A9@0: look at 1, write 1") for it in HASHED),
    Run("argon2", "seven77 -e", b"password", b"", f"{PASSWORD} line: look at 0, write 2", "A6.5"),
    Run("argon2", "somesalt -e", b"", b"", "A8a: look at 0, read 0; line: look at 0, write 2", "A8b"),
    Run("argon2", "somesalt -t x -q", b"password", b"", "line: write 2", "A4"),
    Run("argon2-verify", "hash-256", b"password", b"", HASH + CHECKED),
    Run("argon2-verify", "hash-256", b"Password", b"", HASH + CHECKED, status=1),
    Run("argon2-verify", "hash-256", b"p" * 4097, b"",
        f"{HASH} V7a: look at 0, read 0; line: look at hash-256, look at 0, look at 2, write 2", "V7b"),
    Run("argon2-verify", "--maxmem 255 hash-256", b"password", b"",
        f"{HASH} line: look at hash-256, look at 2, write 2", "V6a"),
    Run("argon2-verify", "--maxmem 0 hash-256", b"", b"", "line: write 2", "V2"),
    Run("scrypt", f"enc {FIXED} {FROM_PW} -", b"", F0,
        f"S12: look at 0; {PW} S13@0: look at 1, write 1; S12@96: read 0; S13@96: write 1"),
    *(Run("scrypt", f"enc {FIXED} {keep}{FROM_PW} hello out", b"", F5,
          f"{HELLO} {PW} {opened_out('hello', 'pw')} {enc_body('hello', 'out')} S13@{len(F5)}: {DISK}", to_file=True)
      for keep in ("", "--keep 2 ", "--keep 4 ")),
    Run("scrypt", f"enc {FIXED} -P hello", b"pw", F5, f"{HELLO} {TYPED} S13@0: look at 1; {enc_body('hello', '1')}"),
    # what is no regular file is not brought to the disk
    Run("scrypt", f"enc {FIXED} {FROM_PW} hello /dev/null", b"", b"", f"{HELLO} {PW} S13: open /dev/null; "
        f"S13@0: look at /dev/null, look at /dev/null; {enc_body('hello', '/dev/null')}"),
    *(Run("scrypt", f"dec {keep}{FROM_PW} F5", b"", b"hello",
          f"{READ_F5} {PW} S13@0: look at 1; S12@0: read F5; S13@0: write 1; S12@5: read F5")
      for keep in ("", "--keep 2 ", "--keep 16 ")),
    Run("scrypt", "dec -P F5 out", b"pw\n", b"hello", f"{READ_F5} {TYPED} {opened_out('F5', '0')} S12@0: read F5; "
        f"S13@0: write out; S12@5: read F5; S13@5: {DISK}", to_file=True),
    Run("scrypt", "dec --passphrase env:PW -", F5, b"hello",
        "S12: look at 0, read 0; S13@0: look at 1; S12@0: read 0; S13@0: write 1; S12@5: read 0"),
    Run("scrypt", "info F5", b"", b"N = 16; r = 1; p = 1; memory = 2048; cores = 64\n",
        f"{READ_F5} S13@0: look at 1, write 1"),
    Run("scrypt", "dec --passphrase file:other-pw F5 out", b"", b"", READ_F5 + secret("other-pw", "S4a")
        + "line: look at F5, look at other-pw, look at 2, write 2", "S10", to_file=True),
    Run("scrypt", f"dec {FROM_PW} {CUT} out", b"", b"", f"S12: open {CUT}, look at {CUT}, read {CUT}; {PW} "
        f"{opened_out(CUT, 'pw')} S12@0: read {CUT}, read {CUT}; line@0: look at {CUT}, look at pw, look at 2, write 2",
        "S11", to_file=True),
]


class System:
    """The programs, over a system that may be hostile, each thread in a folder of its own below this one."""

    def __init__(self, programs, below, library):
        self.programs, self.below, self.library = programs, below, library
        self.threads = threading.local()

    def folder(self):
        if not hasattr(self.threads, "folder"):
            self.threads.folder = tempfile.mkdtemp(dir=self.below)
            for name, content in PUT.items():
                pathlib.Path(self.threads.folder, name).write_bytes(content)
        return self.threads.folder

    def run(self, run, hostile=None, before=(), **more):
        """Status, standard output, standard error and `out` after this run, with these words before its own."""
        out = pathlib.Path(self.folder(), "out")
        out.unlink(missing_ok=True)
        environment = ENVIRONMENT if hostile is None else {**ENVIRONMENT, "LD_PRELOAD": self.library, **hostile}
        words = [*before, self.programs[run.program], *run.words.split()]
        how = {"cwd": self.folder(), "env": environment, "timeout": 60, **more}
        reading, writing = os.pipe()  # it has all that is given before the program begins, so that no read finds less
        os.write(writing, run.given)
        os.close(writing)
        with os.fdopen(reading, "rb") as given:
            ran = subprocess.run(words, stdin=given, capture_output=True, **how)
        return ran.returncode, ran.stdout, ran.stderr, out.read_bytes() if out.exists() else None

    def logged(self, run, **hostile):
        """What it does over a system that refuses nothing, its calls, and how often it asks for memory."""
        with tempfile.TemporaryFile("w+") as log:
            done = self.run(run, {"HOSTILE_LOG": str(log.fileno()), **hostile}, pass_fds=[log.fileno()])
            log.seek(0)
            *called, requests = log.read().splitlines()
        return done, called, int(requests.split()[1])


def memory(system, run):
    """Each request for memory is refused, alone and from there on: whether there is one, and what was found where it is not the
    line of want of memory."""
    _, _, requests = system.logged(run)
    rows = [(f"{number}-{last}", run.without_memory()) for number in range(1, requests + 1) for last in (number, 1 << 40)]
    rows.append((f"{requests + 1}-{1 << 40}", run.plain()))
    ended = [(numbers, system.run(run, {"HOSTILE_MEMORY": numbers}), expected) for numbers, expected in rows]
    return requests > 0, [(numbers, found) for numbers, found, expected in ended if found != expected]


def file_of_no_text(log_n):
    """The file of no text under the passphrase pw, with r and p of 1, by Python's hashlib and hmac."""
    front = of_costs(log_n, 1, 1)
    keys = hashlib.scrypt(b"pw", salt=bytes(range(32)), n=1 << log_n, r=1, p=1, maxmem=1 << 26, dklen=64)
    head = front + hmac.digest(keys[32:], front, "sha256")
    return head + hmac.digest(keys[32:], head, "sha256")


F_MIB = file_of_no_text(13)
# Runs, and the bytes that are requested for the matrix or for the table, of 128 N, or 128 N / S: from 2 MiB on 2 MiB more, since
# it begins at a huge page.
LARGE_REQUESTS = [(run, size + (size >> 21 > 0) * (2 << 20)) for run, size in [
    *((Run("argon2", words, b"password", text), size) for words, text, size in (
        ("somesalt -d -t 1 -k 1024 -e", HASHES["hash-1024"], 1 << 20),
        ("somesalt -d -t 1 -k 1024 -r", b"2e2e5e05fe57ac2cf472ecd045ef687e562a980fd50339b389c870e1962bbc45\n", 1 << 20),
        ("somesalt -id -t 2 -k 1024 -p 2 -e",
         b"$argon2id$v=19$m=1024,t=2,p=2$c29tZXNhbHQ$kEfNQbPvk6Q7hokW6Jrvn1Mjb9kdT/I7OXVDKsviazk\n", 1 << 20),
        ("somesalt -d -t 1 -k 4096 -e", HASHES["hash-4096"], 1 << 22),
        ("somesalt -id -t 2 -k 4096 -p 2 -r",
         b"77212eb8fa2fd319a927e794b272e9dcb02859ef05ef5515f31494b4dfd389a1\n", 1 << 22))),
    *((Run("argon2-verify", f"hash-{size}", b"password"), size << 10) for size in (1024, 4096)),
    *((Run("scrypt", f"{words} {keep} {FROM_PW} -", given, made), table)
      for log_n, file, tables in ((15, file_of_no_text(15), {"": 1 << 22, "--keep 2": 1 << 21}),
                                  (13, F_MIB, {"": 1 << 20, "--keep 4": 1 << 18}))
      for words, given, made in ((f"enc --logN {log_n} -r 1 -p 1 --salt {SALT}", b"", file), ("dec", file, b""))
      for keep, table in tables.items()),
]]
INFO = Run("scrypt", "info -", F_MIB, b"N = 8192; r = 1; p = 1; memory = 1048576; cores = 32768\n")


def largest_requests(checks, system):
    """No request is for more than 65,536 bytes above those of the matrix or the table, and one is for no fewer, that of a matrix
    the last; `info` of a file asks for no table."""
    for run, size in [(INFO, 0), *LARGE_REQUESTS]:
        found = system.run(run, {"HOSTILE_LARGEST": str(size + 65536)})
        checks.that(f"no larger request: {run.name}", found, run.plain())
    for run, size in LARGE_REQUESTS:
        found = system.run(run, {"HOSTILE_LARGEST": str(size - 1)})
        checks.that(f"a request as large: {run.name}", found, run.without_memory())
        if run.program != "scrypt":
            counts = [system.logged(run, **refusing)[2] for refusing in ({}, {"HOSTILE_LARGEST": str(size - 1)})]
            checks.that(f"no request after the matrix: {run.name}", counts[1], counts[0])


# A file is refused for its passphrase, once its table of 1 MiB was filled.
WRONG_PASSPHRASE = Run("scrypt", "dec --passphrase file:other-pw -", F_MIB, refusal="S10"), 1 << 20


def freed_blocks(checks, system):
    """Matrix and table hold zeros when they are freed, after a refusal, too."""
    for run, size in [*LARGE_REQUESTS, WRONG_PASSPHRASE]:
        done, called, _ = system.logged(run, HOSTILE_FREED=str(size))
        checks.that(f"over a system that looks: {run.name}", done, run.plain())
        checks.that(f"freed: {run.name}", [it for it in called if it.startswith("free ")], ["free zeros"])
    # a program that frees what it holds as it is: so the look at a block sees more than zeros
    system.programs["python"] = sys.executable
    _, called, _ = system.logged(Run("python", "-c b=b'7'*(1<<20);del(b)"), HOSTILE_FREED=str(1 << 20))
    checks.that("freed: a block of sevens", "free what is there" in called, True)


# In bytes; a limit below which the loader starts no program is passed over.
LIMITS = range(2 << 20, 7 << 19, 1 << 16)


def limits(system, run):
    """The size of the whole process is limited: either it ends as ever, or for want of memory."""
    found = []
    for limit in LIMITS:
        ended = system.run(run, preexec_fn=lambda: resource.setrlimit(resource.RLIMIT_AS, (limit, limit)))
        if ended[0] == 127 or ended[0] < 0 and not found:
            continue
        found.append("refused" if ended == run.without_memory() else "plain" if ended == run.plain() else ended)
    return found[-1:], [each for each in found if each not in ("refused", "plain")]


# A call that comes short has no error.
SHORT = 0
# Errors after which a run goes on: of a file system that brings nothing to the disk, of a folder that may not be read, and where
# nothing is told of a standard stream. There every other one is a fault.
HARMLESS = [("sync", errno.EINVAL), ("sync", errno.EOPNOTSUPP), ("sync", errno.ENOSYS), ("open .", errno.EACCES), ("look at /proc", errno.ENOENT)]
FAULTS = [("sync", errno.EDQUOT), ("open .", errno.ENOENT), ("look at /proc", errno.EACCES), ("look at /proc", errno.ELOOP)]


def failing_calls(system, run):
    """Each call fails, is interrupted once, as often as it is asked again and once more, or comes short."""
    done, called, _ = system.logged(run)
    wrong = []
    if (done, called) != (run.plain(), [call for call, _, _ in run.calls]):
        return [("what it does", done, called)]
    for number, (call, refusal, written) in enumerate(run.calls, 1):
        failed = run.where_it_fails(refusal, written)
        if refusal == "line":  # which is not said
            failed = (*failed[:2], b"", failed[3])
        expected = [(errno.EIO, 1, failed)]
        for table, ended in ((HARMLESS, run.plain()), (FAULTS, failed)):
            expected += [(error, 1, ended) for start, error in table if call.startswith(start)]
        if not call.startswith("look"):
            expected.append((errno.EINTR, 1, run.plain()))
        if call.startswith(("read", "write")):
            expected += [(errno.EINTR, 16, run.plain()), (SHORT, 1, run.plain())]
            if refusal != "line":
                expected.append((errno.EINTR, 17, failed))
        for way, times, wanted in expected:
            found = system.run(run, {"HOSTILE_CALLS": f"{number}-{number + times - 1}", "HOSTILE_WAY": str(way)})
            if found != wanted:
                wrong.append((number, call, way, times, found, wanted))
    return wrong


# Refused before anything is opened, or as it is.
UNOPENED = [
    Run("argon2", "", calls="line: write 2", refusal="A1"),
    Run("argon2-verify", "missing", b"password", calls="V3: open missing; line: write 2", refusal="V3"),
    Run("scrypt", "", calls="line: write 2", refusal="S1"),
    Run("scrypt", "dec F5", calls="line: write 2", refusal="S3"),
    Run("scrypt", f"dec {FROM_PW} missing", calls="S12: open missing; line: write 2", refusal="S12"),
]


def refused_looks(system, run, only, error):
    """What a run does if all looks are refused, as by a filter of calls that does not know them, or those below /proc, and what it
    should: it ends at the first, with its line, unless it reads a file and so has to know which one standard error is."""
    found = system.run(run, {"HOSTILE_ONLY": only, "HOSTILE_CALLS": f"1-{1 << 40}", "HOSTILE_WAY": str(error)})
    at = next((at for at, (call, _, _) in enumerate(run.calls) if call.startswith(only)), len(run.calls))
    is_read = only != "look at" and any(call == f"open {name}" for call, _, _ in run.calls[:at] for name in PUT)
    if at == len(run.calls):
        return found, run.plain()
    _, refusal, written = run.calls[at]
    status, out, said, content = run.where_it_fails(refusal, written)
    return found, (status, out, b"" if is_read else said, content)


def salts(checks, system):
    """The random bytes of a salt cannot be had, come in pieces, or end too soon."""
    run = Run("scrypt", f"enc {COSTS} {FROM_PW} hello")
    _, called, _ = system.logged(run)
    at = called.index("read /dev/urandom") + 1
    checks.that("random bytes are opened and read", called[at - 3:at], [f"{it} /dev/urandom" for it in ("open", "look at", "read")])
    for number in (at - 2, at - 1, at):
        found = system.run(run, {"HOSTILE_CALLS": f"{number}-{number}"})
        checks.that(f"call {number} fails", found, run.after("S5b", None))
    for way in (errno.EINTR, SHORT):
        status, made, said, _ = system.run(run, {"HOSTILE_CALLS": f"{at}-{at}", "HOSTILE_WAY": str(way)})
        checks.that(f"random bytes: {way}", (status, len(made), said), (0, len(F5), b""))
        checks.that(f"a whole salt: {way}", len(set(made[16:48])) > 8 and made[16:48] != HEADER[16:48], True)


def nothing_is_opened(checks, system):
    """Where / may not be opened, which stands for a standard stream that is closed, no input is, as the page says."""
    run, way = Run("scrypt", f"enc {FIXED} {FROM_PW} hello"), str(errno.EACCES)
    for closed in (None, 0, 1, 2):
        found = system.run(run, {"HOSTILE_ONLY": "open /\n", "HOSTILE_CALLS": f"1-{1 << 40}", "HOSTILE_WAY": way},
                           preexec_fn=lambda it=closed: it is None or os.close(it))
        said = b"" if closed == 2 else LINES["S12"]
        expected = (0, F5, b"", None) if closed is None else (1, b"", said, None)
        checks.that(f"/ may not be opened, and {closed} is closed", found, expected)


KINDS = {"open": "open", "openat": "open", "read": "read", "write": "write", "statx": "look at", "ftruncate": "empty", "fsync": "sync"}
# Calls that change files, or wait for the disk, and that no run makes.
NEVER = """unlink unlinkat rename renameat renameat2 truncate fallocate chmod fchmod fchmodat chown fchown fchownat link linkat
    symlink symlinkat mkdir mkdirat mknod mknodat rmdir copy_file_range sendfile splice pwrite64 pwritev writev creat
    fdatasync sync syncfs sync_file_range msync""".split()


def no_other_calls(checks, system):
    """The calls that hostile_system.c sees are all that the system sees of their kinds, once the program began."""
    if not is_there("strace", "the calls that the system sees are not looked at", len(RUNS) + 1):
        return
    strace, log = shutil.which("strace"), pathlib.Path(system.folder(), "trace")
    for run in RUNS:
        system.run(run, before=[strace, "-qq", "-e", f"trace={','.join([*KINDS, *NEVER])}", "-o", log])
        traced = log.read_text(encoding="ascii", errors="replace").splitlines()
        begun = [number for number, line in enumerate(traced) if '"/", ' in line]
        names = [line.split("(")[0] for line in traced[begun[0]:]] if begun else traced
        found = [KINDS.get(name, name) for name in names]
        expected = [next(kind for kind in KINDS.values() if call.startswith(kind)) for call, _, _ in run.calls]
        checks.that(f"no other calls: {run.name}", found, expected)
    line = f'mkfifo pipe; cat pipe & {strace} -qq -e trace=fsync -o trace "$0" enc {FIXED} {FROM_PW} hello pipe; s=$?; wait; exit $s'
    ran = subprocess.run(["sh", "-c", line, system.programs["scrypt"]], stdout=subprocess.PIPE, cwd=system.folder(), env=ENVIRONMENT)
    checks.that("a named pipe is not brought to the disk", (ran.returncode, ran.stdout, log.read_bytes()), (0, F5, b""))


# Traces a process for a moment, and opens its memory: says 0 of each, or the error.
LOOKING = """#include <errno.h>
#include <fcntl.h>
#include <stdio.h>
#include <stdlib.h>
#include <sys/ptrace.h>
int main(int count, char **words)
{
    char memory[64];
    snprintf(memory, sizeof memory, "/proc/%s/mem", words[1]);
    printf("%d ", ptrace(PTRACE_SEIZE, atoi(words[1]), NULL, NULL) == 0 ? 0 : errno);
    return !printf("%d\\n", open(memory, O_RDONLY) >= 0 ? 0 : errno);
}
"""
# What another user than root does with the program, by names of descriptors, and what is written then.
BY_DESCRIPTORS = (
    "cat pw | ../scrypt enc --logN 4 -r 1 -p 1 --passphrase file:/dev/stdin hash made",
    "cat made | ../scrypt dec --passphrase file:/proc/self/fd/5 /dev/stdin /dev/stdout 5<pw | cmp - hash",
    "cat made | ../scrypt dec --passphrase file:/dev/fd/5 /proc/self/fd/0 5<pw | cmp - hash",
    "printf password | ../argon2-verify /proc/self/fd/5 5<hash",
)


def kept_from_others(checks, folder, *programs):
    """Another process of the same user can't look into a program that waits for its input, and SIGABRT leaves no core file of
    it; but it opens its own descriptors by their names. The user is not root, who may do all."""
    user = ["setpriv", "--reuid=65534", "--regid=65534", "--clear-groups"] if os.geteuid() == 0 else []
    if user and not is_there("setpriv", "who may look into a program is not asked"):
        return
    room, looking = pathlib.Path(folder, "others"), f"{folder}/looking"
    compiled(LOOKING, looking, "-w")
    room.mkdir()
    os.chmod(folder, 0o755)
    os.chmod(room, 0o777)
    for name, text in (("hash", HASHES["hash-1024"]), ("pw", b"a\n")):
        (room / name).write_bytes(text)
    for it in programs:
        shutil.copy(it, folder)
    seen = {}
    for words in ("sleep 60", "../argon2 somesalt -e", "../argon2-verify hash", "../scrypt dec --passphrase file:pw -"):
        name = words.split()[0].removeprefix("../")
        shell = [*user, "sh", "-c", f"ulimit -c unlimited; exec {words}"]
        with subprocess.Popen(shell, stdin=subprocess.PIPE, cwd=room, env=ENVIRONMENT) as run:
            while f"({name}) S " not in pathlib.Path(f"/proc/{run.pid}/stat").read_text(encoding="ascii"):
                time.sleep(0.01)  # until it waits
            looked = subprocess.run([*user, looking, str(run.pid)], stdout=subprocess.PIPE, text=True, check=True).stdout.split()
            run.send_signal(signal.SIGABRT)
            status = run.wait()
        cores = [it.unlink() for it in room.iterdir() if it.name not in ("hash", "pw")]
        seen[name] = *(it == "0" for it in looked), len(cores)
        checks.that(f"{name} ends by SIGABRT", status, -signal.SIGABRT)
    for what, *each in zip(("traced", "read", "left in a core file"), *seen.values()):
        if each[0]:  # sleep is
            checks.that(f"a program is {what}", dict(zip(seen, each)), {it: each[0] * (it == "sleep") for it in seen})
        else:
            left_out(f"no process of the user is {what} here", "programs neither", len(programs))
    for line in BY_DESCRIPTORS:
        found = subprocess.run([*user, "sh", "-c", line], capture_output=True, cwd=room, env=ENVIRONMENT)
        checks.that(f"as another user: {line}", (found.returncode, found.stdout, found.stderr), (0, b"", b""))


def main(checks, folder, argon2, verify, scrypt):
    with concurrent.futures.ThreadPoolExecutor(os.cpu_count()) as threads:
        library = os.path.join(folder, "hostile_system.so")
        system = System({"argon2": argon2, "argon2-verify": verify, "scrypt": scrypt}, folder, library)
        if is_there("cc", "requests for memory and calls are not refused one by one"):
            source = pathlib.Path(__file__).with_name("hostile_system.c").read_text(encoding="utf-8")
            compiled(source, library, "-O1", "-shared", "-fPIC")
            tables = [(run, *(threads.submit(test, system, run) for test in (failing_calls, memory))) for run in RUNS]
            for run, called, requested in tables:
                checks.that(f"a call refused: {run.name}", called.result(), [])
                checks.that(f"memory refused: {run.name}", requested.result(), (True, []))
            for run in [*RUNS, *UNOPENED]:
                for only, error in (("look at", errno.EPERM), ("look at /proc", errno.EACCES)):
                    checks.that(f"each {only} refused: {run.name}", *refused_looks(system, run, only, error))
            for part in (largest_requests, freed_blocks, salts, nothing_is_opened):
                part(checks, system)
            kept_from_others(checks, folder, argon2, verify, scrypt)
        for run, limited in [(run, threads.submit(limits, system, run)) for run in RUNS]:
            checks.that(f"memory limited: {run.name}", limited.result(), (["plain"], []))
        no_other_calls(checks, system)


over_programs(main, __doc__, "argon2", "argon2-verify", "scrypt")
