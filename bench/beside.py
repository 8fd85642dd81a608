#!/usr/bin/env python3
"""Times our programs and library beside others, for the tables by hand of docs/BENCHMARKS.md.

    bench/beside.py FOLDER.. [--rounds 5]      FOLDER as bin/x86-64-v2

In each round each does the same work once, in turn; user and system time, and the time by the clock, least of all
rounds. What they make is compared. What is not installed is left out.

Files of 100 MiB are under a key or a passphrase whose derivation takes no time to speak of. bench/hash.go and
bench/hash.rs are built where go, cargo and Debian's packages of the libraries are. Huge pages are what the heap
(packaging/heap.c) asks for; to have none a process says so (prctl, PR_SET_THP_DISABLE). The library is that of
PIKHSEN_LIBRARY, or what make lib made for the highest level of this machine. A login is an encoded hash that is read
and checked; argon2-cffi (Debian: python3-argon2) starts a thread for each lane. Files that are opened with every S-th
row of the table (--keep S) have no text, and r = 8, p = 1; memory is the greatest resident size by GNU time.
"""
import ctypes
import ctypes.util
import hashlib
import importlib.util
import os
import pathlib
import random
import shutil
import subprocess
import sys
import tempfile

from scratch import TOP, asked, circumstances, in_turn, peak, spent, used

KEY = "--passphrase env:PW"
GPG = "gpg --batch --homedir . --pinentry-mode loopback --passphrase pw --compress-algo none --cipher-algo AES256 -o"
OPENSSL = "openssl enc -aes-256-ctr -pbkdf2 -pass env:PW"
# Of each program for files how it encrypts the file text into made, and decrypts made into back.
SCRYPT = f"enc --logN 10 -r 8 -p 1 {KEY} text made", f"dec {KEY} made back"
OTHERS = {
    "Debian's scrypt": [f"scrypt {it}" for it in SCRYPT],
    "age": ("age -e -i key -o made text", "age -d -i key -o back made"),
    "gpg --symmetric, AES-256": (f"{GPG} made --symmetric text", f"{GPG} back --decrypt made"),
    "openssl enc, AES-256 in counter mode, no code": (f"{OPENSSL} -in text -out made",
                                                      f"{OPENSSL} -d -in made -out back"),
}
HASHES = {"Argon2id, 64 MiB, 3 passes": "3 16", "Argon2id, 256 MiB, 1 pass": "1 18"}  # passes, and the size
OF_PAGES = {
    "`argon2 -id -t 3 -m 16`": "argon2 somesalt -id -t 3 -m 16 -r",
    "`argon2 -id -t 1 -m 18`": "argon2 somesalt -id -t 1 -m 18 -r",
    "a key of N = 2^17, r = 8, p = 1": f"scrypt enc --logN 17 -r 8 -p 1 {KEY} /dev/null",
}
PR_SET_THP_DISABLE = 41
LIMITS = f"-M {1 << 40} --maxops {(1 << 63) - 1} {KEY}"
CARGO = """[package]
name = "hash"
version = "0.0.0"
edition = "2021"
[dependencies]
rust-argon2 = "1"
"""
# Where cargo finds libraries: in Debian's packages of them.
OF_DEBIAN = ["--offline", "--config", "source.crates-io.replace-with='debian'",
             "--config", "source.debian.directory='/usr/share/cargo/registry'"]
BUILT = [TOP / "bin/lib" / it for it in ("libpikhsen.so.0", "glibc-hwcaps/x86-64-v3/libpikhsen.so.0")]
PASSWORD, SALT = b"correct horse", b"sixteen bytes..."
SODIUM, ARGON2 = (ctypes.CDLL(it) if it else None for it in map(ctypes.util.find_library, ("sodium", "argon2")))


def hashes(folders):
    """Hashes by our programs, and by those over libraries that are installed. Each gets the passes and the size."""
    programs = {f"argon2, {it.name}": f"{it}/argon2 somesalt -id -t {{}} -m {{}} -r" for it in folders}
    pathlib.Path("src").mkdir()
    shutil.copy(TOP / "bench/hash.go", ".")
    shutil.copy(TOP / "bench/hash.rs", "src/main.rs")
    pathlib.Path("Cargo.toml").write_text(CARGO, encoding="utf-8")
    go = {"GO111MODULE": "off", "GOPATH": "/usr/share/gocode", "GOCACHE": os.path.abspath("cache")}
    how = {**os.environ, **go, "CARGO_PROFILE_RELEASE_LTO": "true"}
    by_cargo = ["cargo", "build", "-q", "--release", *OF_DEBIAN]
    for name, program, build in (("golang.org/x/crypto", "./hash", ["go", "build", "hash.go"]),
                                 ("rust-argon2", "target/release/hash", by_cargo)):
        if shutil.which(build[0]) and subprocess.run(build, env=how).returncode == 0:
            programs[name] = f"{program} {{}} {{}}"
    for name, costs in HASHES.items():
        words = {by: program.format(*costs.split()).split() for by, program in programs.items()}
        yield name, {by: lambda it=it: used(it, b"password") for by, it in words.items()}


def coded(words, made, text=None):
    """A run that writes a file anew, and in it this text, if any; what it prints is no part of what it makes."""
    pathlib.Path(made).unlink(missing_ok=True)
    ran = used(words.split())._replace(made=None)
    if text and pathlib.Path(made).read_bytes() != text:
        raise SystemExit(f"{words}: what it decrypts is not what it encrypted")
    return ran


def files(folders):
    """Files by our programs and by others, encrypted and then decrypted in each round."""
    text = random.Random(1).randbytes(100 << 20)
    pathlib.Path("text").write_bytes(text)
    if shutil.which("age-keygen"):
        subprocess.run(["age-keygen", "-o", "key"], stderr=subprocess.DEVNULL, check=True)
    programs, works = {f"scrypt, {it.name}": [f"{it}/scrypt {words}" for words in SCRYPT] for it in folders}, {}
    for name, (enc, dec) in {**programs, **OTHERS}.items():
        if shutil.which(enc.split()[0]):
            works[f"{name}: encrypt"] = lambda enc=enc: coded(enc, "made")
            works[f"{name}: decrypt"] = lambda dec=dec: coded(dec, "back", text)
    yield "a file of 100 MiB", works


def without_huge_pages():
    ctypes.CDLL(None).prctl(PR_SET_THP_DISABLE, 1, 0, 0, 0)


def pages(folder):
    """What our programs do without huge pages, and with them."""
    for name, words in OF_PAGES.items():
        words = f"{folder}/{words}".split()
        yield f"{name}, {folder.name}", {
            way: lambda before=before: used(words, b"password", preexec_fn=before)._replace(made=None)
            for way, before in (("without huge pages", without_huge_pages), ("with huge pages", None))}


def kept(folder):
    """A file that is opened with every S-th row of the table, and the memory that takes."""
    for log_n in (17, 20):
        used(f"{folder}/scrypt enc --logN {log_n} -r 8 -p 1 {LIMITS} /dev/null kept".split())
        for keep in (1, 4, 16, 64):
            words = f"{folder}/scrypt dec --keep {keep} {LIMITS} kept".split()
            name = f"2^{log_n}, --keep {keep}, {peak(words) or 0:.1f} MiB"
            yield name, {folder.name: lambda: used(words)}
        pathlib.Path("kept").unlink()


def by_libsodium(passes, kib):
    """Argon2id of libsodium: 2 is its number for that."""
    tag, length, size = ctypes.create_string_buffer(32), ctypes.c_ulonglong, ctypes.c_size_t(kib << 10)
    SODIUM.crypto_pwhash(tag, length(32), PASSWORD, length(len(PASSWORD)), SALT, length(passes), size, 2)
    return tag.raw


def key_by_libsodium(log_n):
    key, size = ctypes.create_string_buffer(64), ctypes.c_size_t
    SODIUM.crypto_pwhash_scryptsalsa208sha256_ll(
        PASSWORD, size(len(PASSWORD)), SALT, size(len(SALT)), ctypes.c_uint64(1 << log_n), 8, 1, key, size(64))
    return key.raw


def calls(pikhsen):
    """Of each call from Python its name, and by whom it is done."""
    def hashed(kib, passes, lanes):
        return pikhsen.hash(PASSWORD, SALT, passes=passes, memory_kib=kib, lanes=lanes)

    if importlib.util.find_spec("argon2"):
        from argon2.low_level import Type, hash_secret_raw

        for kib, passes, lanes in ((64, 3, 1), (4096, 3, 1), (65536, 3, 4), (262144, 1, 1)):
            yield f"argon2id, {kib} KiB, {passes} passes, {lanes} lanes", {
                "argon2-cffi": lambda: hash_secret_raw(PASSWORD, SALT, passes, kib, lanes, 32, Type.ID),
                "libpikhsen": lambda: hashed(kib, passes, lanes)}
    for kib, passes in ((64, 1), (64, 3), (4096, 3), (19456, 2), (65536, 3)) if ARGON2 else ():
        text = pikhsen.encode(PASSWORD, salt=SALT, passes=passes, memory_kib=kib, lanes=1)
        yield f"login, {kib} KiB, {passes} passes", {
            "libargon2": lambda: ARGON2.argon2id_verify(text.encode(), PASSWORD, ctypes.c_size_t(len(PASSWORD))) == 0,
            "libpikhsen": lambda: pikhsen.verify(text, PASSWORD)}
    has_sodium = SODIUM and SODIUM.sodium_init() >= 0
    for kib, passes in ((19456, 2), (65536, 1), (65536, 3), (262144, 1)) if has_sodium else ():
        yield f"argon2id, {kib} KiB, {passes} passes", {
            "libsodium": lambda: by_libsodium(passes, kib), "libpikhsen": lambda: hashed(kib, passes, 1)}
    for log_n in (14, 17) if has_sodium else ():
        yield f"scrypt, N = 2^{log_n}, r = 8", {
            "libsodium": lambda: key_by_libsodium(log_n),
            "libpikhsen": lambda: pikhsen.scrypt(PASSWORD, SALT, log_n=log_n, length=64)}
    for log_n in (10, 14, 17):
        yield f"scrypt, N = 2^{log_n}, r = 8", {
            "hashlib.scrypt": lambda: hashlib.scrypt(PASSWORD, salt=SALT, n=1 << log_n, r=8, p=1, maxmem=1 << 30),
            "libpikhsen": lambda: pikhsen.scrypt(PASSWORD, SALT, log_n=log_n)}


def of_library():
    """The calls, timed in this process."""
    os.environ.setdefault("PIKHSEN_LIBRARY", str([it for it in BUILT if it.is_file()][-1]))
    sys.path.insert(0, str(TOP / "python"))
    import pikhsen

    for name, works in calls(pikhsen):
        yield name, {by: lambda work=work: spent(work) for by, work in works.items()}


def print_least(rows, rounds):
    """A line for each work of each row: the names of both, the least of its seconds of the processor and by the clock,
    and the ratio of the former to those of the row's first work."""
    for name, works in rows:
        least = in_turn(name, works, rounds)
        first = next(iter(least.values()))
        for by, (cpu, elapsed) in least.items():
            print(name, by, f"{cpu:.5f}", f"{elapsed:.5f}", f"{cpu / max(first[0], 1e-6):.2f}", sep="\t", flush=True)


def main():
    given = asked(__doc__).parse_args()
    print(circumstances())
    with tempfile.TemporaryDirectory(prefix="pikhsen-beside-") as room:
        os.chdir(room)
        for rows in (hashes(given.folders), files(given.folders), *map(pages, given.folders), of_library()):
            print_least(rows, given.rounds)
        for folder in given.folders:
            print_least(kept(folder), 1)


sys.dont_write_bytecode = True
main()
