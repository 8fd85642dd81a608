#!/usr/bin/env python3
"""Calls the module for Python over a built library: RFC vectors, hashlib, each byte of a file changed, each cut, files
in place, and in pieces and on a disk (tests/library/python_files.py), settings of texts, salts of its own, buffers that
it wipes, all forms of bytes, limits, exceptions, threads, processes, what help shows first, and libraries that it must
refuse.

    tests/library/python_module.py FOLDER      the folder in which libpikhsen.so.0 lies
"""
import array
import base64
import concurrent.futures
import copy
import ctypes
import hashlib
import inspect
import mmap
import os
import pathlib
import pickle
import pydoc
import re
import resource
import shutil
import sys
import tempfile
from unittest import mock

sys.path += map(str, pathlib.Path(__file__).resolve().parents[1].iterdir())  # the other folders of tests/
import values_table
from binaries import V3, runs_v3
from checking import compiled, is_there, over_library
from encoded_texts import work_of
from python_files import CHEAP, NOT_MADE, SALT, decrypted_in_pieces, files_of_python, lent_by, raised, refusal, refused
from scrypt_files import of_costs
from shown import LIBRARY, STORED, with_module
from tree import TOP, VERSION

# RFC 9106, 5.1 to 5.3
TAGS = {
    "D": "512b391b6f1162975371d30919734294f868e3be3984f3c1a13a4db9fabe4acb",
    "I": "c814d9d1dc7f37aa13f0d77f2494bda1c8de6b016dd388d29952a4c4672b6ce8",
    "ID": "0d640df58d78766c08c037a34a8b53c9d01ef0452d75b65eb52520e96b01e659",
}
# the README of the reference implementation
REFERENCE = "$argon2i$v=19$m=65536,t=2,p=4$c29tZXNhbHQ$RdescudvJCsgt3ub+b+dWRWJTmaaJObG"
# printf password | argon2 somesalt -t 2 -m 8 -v 10
OLD = "$argon2i$v=16$m=256,t=2,p=1$c29tZXNhbHQ$/U3YPXYsSb3q9XxHvc0MLxur+GP960kN9j7emXX8zwY"
SMALL = {"passes": 1, "memory_kib": 8, "lanes": 1}


def from_python(checks, pikhsen):
    checks.that("version", pikhsen.version(), VERSION)
    for text, settings in (
        (REFERENCE, {"memory_kib": 65536, "lanes": 4, "length": 24}),
        (OLD, {"memory_kib": 256, "lanes": 1, "version": 0x10}),
    ):
        found = pikhsen.encode(b"password", salt=b"somesalt", passes=2, kind=pikhsen.Kind.I, **settings)
        checks.that(f"encoded text, {settings}", found, text)
    for told in (REFERENCE, OLD, OLD.replace("v=16$", "")):
        checks.that(f"right password of {told[:20]}", pikhsen.verify(told, b"password"), True)
        checks.that(f"wrong password of {told[:20]}", pikhsen.verify(told, b"passwore"), False)
    refused(checks, [("SALT_LENGTH", {"salt": b"saltsal"})], pikhsen.hash, password=b"x")
    longest = pikhsen.encode(b"x" * 127, length=4096, salt=b"s" * 255, **SMALL)
    checks.that("longest text", pikhsen.verify(longest, b"x" * 127), True)


# The length of a password whose bytes are all p, and its tag by Debian's libargon2 (0~20171227), for 8 KiB in one pass
LENGTHS = {
    0: "Ze7t9R9ABr5D6ybRIUGCqX1Qh3Z+NIe/vISd0ygUVlE", 127: "X7UDfgEA10928A+8gOXYyEdqu8WXMfdT7BZQ/UdTsF4",
    128: "lT5x55qHkB7o0WQDZVNJ3bSh1Bqkx4p99ie/SCC8zpw", 200: "3tbNRvV7sZKpjkf2UD6t8e6WHIkGc9uIZd0mt56AJyU",
    1_000_000: "tCIEZwLxQnoIKtVKR1eyClr1cf47EdjtUdA71sEoYdo",
}


def any_password_from_python(checks, pikhsen):
    """By the module, and by the library's functions without a secret, which it does not call."""
    small = {"salt": b"somesalt", **SMALL}
    for length, symbols in LENGTHS.items():
        text, password = f"$argon2id$v=19$m=8,t=1,p=1$c29tZXNhbHQ${symbols}", b"p" * length
        checks.that(f"hash, a password of {length}", pikhsen.hash(password, **small), base64.b64decode(symbols + "="))
        checks.that(f"encode, a password of {length}", pikhsen.encode(password, **small), text)
        checks.that(f"verify, a password of {length}", pikhsen.verify(text, password), True)
        checks.that(f"verify, a password of not {length}", pikhsen.verify(text, password + b"p"), False)
        out, settings = pikhsen._buffer(len(text) + 1), (pikhsen.Kind.ID, 0x13, 1, 8, 1)
        given = *settings, password, b"somesalt", 32, 8, 10, out, ctypes.byref(ctypes.c_size_t())
        found = pikhsen._number(pikhsen._lib.pikhsen_argon2_encoded, *given), out.value.decode()
        checks.that(f"encoded without a secret, a password of {length}", found, (pikhsen.Status.OK, text))
        for given, status in ((password, pikhsen.Status.OK), (password + b"p", pikhsen.Status.MISMATCH)):
            found = pikhsen._number(pikhsen._lib.pikhsen_argon2_verify, text.encode(), given, 8, 10)
            checks.that(f"verified without a secret, {len(given)} bytes for {length}", found, status)


def secrets_from_python(checks, pikhsen):
    """The standard's tags, and their texts, which hold neither the secret nor the associated data."""
    given = {"secret": b"\3" * 8, "associated": bytearray(b"\4" * 12)}
    for name, tag in TAGS.items():
        symbols = [base64.b64encode(it).decode().rstrip("=") for it in (b"\2" * 16, bytes.fromhex(tag))]
        text = f"$argon2{name.lower()}$v=19$m=32,t=3,p=4${'$'.join(symbols)}"
        settings = {"salt": b"\2" * 16, "passes": 3, "memory_kib": 32, "lanes": 4, "kind": pikhsen.Kind[name], **given}
        checks.that(f"RFC 9106, {name}", pikhsen.hash(b"\1" * 32, **settings).hex(), tag)
        checks.that(f"text of RFC 9106, {name}", pikhsen.encode(b"\1" * 32, **settings), text)
        checks.that(f"right secret and data, {name}", pikhsen.verify(text, b"\1" * 32, **given), True)
        for what, others in (
            ("neither", {}), ("no secret", {**given, "secret": b""}), ("no data", {**given, "associated": b""}),
            ("another secret", {**given, "secret": b"\3" * 7 + b"\2"}), ("other data", {**given, "associated": b"\4" * 11}),
            ("exchanged", {"secret": b"\4" * 12, "associated": b"\3" * 8}),
        ):
            checks.that(f"right password, {what}, {name}", pikhsen.verify(text, b"\1" * 32, **others), False)
        checks.that(f"wrong password, {name}", pikhsen.verify(text, b"\1" * 31, **given), False)
        refused(checks, [("MEMORY_LIMIT", {"max_kib": 31}), ("WORK_LIMIT", {"max_ops": 87})], pikhsen.verify, text, b"\1" * 32, **given)
    wrong = [("TypeError", {each: value}) for value in ("pepper", 7, None) for each in given]
    refused(checks, wrong, pikhsen.encode, b"x")
    refused(checks, wrong, pikhsen.verify, "", b"x")


def texts_of_others(checks, pikhsen):
    """Texts of other programs, under the least limits that LIBRARY's table has for their settings, and under less."""
    table = {it: (int(kib), int(ops.replace(",", ""))) for it, kib, ops in
             re.findall(r"^\| .* \| `(m=(\d+),t=\d+,p=\d+)` \| ([\d,]+) \|$", LIBRARY, re.MULTILINE)}
    checks.that("settings of LIBRARY's table", sorted(table), sorted({it.split("$")[-3] for it in STORED}))
    for stored in STORED:
        text, (kib, ops), answers = stored.removeprefix("argon2"), table[stored.split("$")[-3]], []
        limits = {"max_kib": kib, "max_ops": ops}
        why = refusal(lambda: answers.append(pikhsen.verify(text, b"correct horse", **limits)))
        checks.that(f"least limits: {text[:34]}", (why, answers), (None, [True]))
        less = ("MEMORY_LIMIT", {"max_kib": kib - 1}), ("WORK_LIMIT", {"max_ops": ops - 1})
        refused(checks, less, pikhsen.verify, text, b"correct horse", **limits)


def keys_from_python(checks, pikhsen):
    # RFC 7914, 12, and the same by every S
    found = {pikhsen.scrypt(b"", b"", **CHEAP, keep=keep).hex()[:32] for keep in (1, 2, 16)}
    checks.that("RFC 7914, 1, by every keep", found, {"77d6576238657b203b19ca42c18a0497"})
    found = pikhsen.scrypt(b"pleaseletmein", b"SodiumChloride", log_n=14, keep=8)
    checks.that("RFC 7914, 3", found.hex()[:32], "7023bdcb3afd7348461c06cd81fd38eb")
    for length in (1, 31, 33, 100):
        found = pikhsen.scrypt(b"pw", b"NaCl", log_n=5, r=3, p=2, length=length)
        checks.that(f"hashlib, {length}", found, hashlib.scrypt(b"pw", salt=b"NaCl", n=32, r=3, p=2, dklen=length))
    key = hashlib.scrypt(b"pw", salt=b"NaCl", n=1 << 17, r=8, p=1, dklen=64, maxmem=1 << 28)
    checks.that("hashlib, where nothing else is given", pikhsen.scrypt(b"pw", b"NaCl"), key)
    checks.that("no bytes", pikhsen.scrypt(b"pw", b"NaCl", log_n=5, length=0), b"")
    rows = (
        ("LOG_N", {"log_n": 0, "r": 1}), ("LOG_N", {"log_n": 64}), ("LOG_N", {"log_n": 256 + 4}), ("ZERO", {"r": 0}), ("KEEP", {"keep": 3}),
        ("PRODUCT", {"r": 1 << 15, "p": 1 << 15}), ("KEEP", {"keep": 2048}), ("KEEP_ABOVE_N", {"log_n": 4, "keep": 32}),
        ("MEMORY_LIMIT", {"log_n": 63, "max_bytes": 2**64 - 1, "max_ops": 2**64 - 1}), ("WORK_LIMIT", {"log_n": 14, "max_ops": 100}),
        ("MEMORY_LIMIT", {"log_n": 14, "max_bytes": (1 << 24) - 1}),
    )
    refused(checks, rows, pikhsen.scrypt, b"", b"")
    refused(checks, rows, pikhsen.encrypt, b"", b"")


def files_from_python(checks, pikhsen):
    for text in (b"", b"hello", bytes(range(256)) * 300):
        file = pikhsen.encrypt(text, b"pw", **CHEAP)
        found = pikhsen.decrypt(file, b"pw", keep=4), refusal(pikhsen.decrypt, file, b"PW"), pikhsen.info(file)
        checks.that(f"file, {len(text)}", (len(file), *found), (len(text) + 128, text, "WRONG_PASSPHRASE", (4, 1, 1)))
    checks.that("salt", refusal(pikhsen.encrypt, b"", b"", salt=SALT[1:]), "FILE_SALT")
    file, by_keep = (pikhsen.encrypt(b"hello", b"pw", salt=SALT, keep=keep, **CHEAP) for keep in (1, 8))
    checks.that("file by every keep", file == by_keep, True)
    checks.that("header", file[:64], of_costs(4, 1, 1, SALT))
    changed = [file[:at] + bytes([file[at] ^ 1]) + file[at + 1:] for at in range(len(file))]
    whys = [refusal(pikhsen.decrypt, each, b"pw") for each in changed]
    expected = ["MAGIC"] * 6 + ["FORMAT_VERSION"] + ["CHECKSUM"] * 57 + ["WRONG_PASSPHRASE"] * 32 + ["DAMAGED"] * 37
    checks.that("each byte changed", whys, expected)
    ends = [refusal(pikhsen.decrypt, file[:length], b"pw") for length in range(len(file))]
    checks.that("each cut", ends, ["TOO_SHORT"] * 96 + ["DAMAGED"] * 37)
    heads = [refusal(pikhsen.info, file[:length]) for length in range(len(file) + 1)]
    checks.that("each cut, info", heads, ["TOO_SHORT"] * 64 + [None] * 70)
    rows = ("MEMORY_LIMIT", {"max_bytes": 1 << 20}), ("WORK_LIMIT", {"max_ops": 1 << 20}), ("KEEP", {"keep": 7})
    refused(checks, rows, pikhsen.decrypt, of_costs(20, 8, 1, SALT) + bytes(64), b"pw")
    refused(checks, [("KEEP_ABOVE_N", {"keep": 16})], pikhsen.decrypt, pikhsen.encrypt(b"", b"", log_n=3), b"")
    # of several reasons the first: wrong types, the length, the header, keep, the limits
    none = {"keep": 7, "max_bytes": 0, "max_ops": 0}
    for why, given, named in (
        ("TypeError", "file", {"keep": "x"}), ("TypeError", b"", {"keep": "x"}), ("TOO_SHORT", bytes(95), none),
        ("TOO_SHORT", file[:95], none), ("MAGIC", bytes(96), none), ("CHECKSUM", changed[63], none), ("KEEP", file, none),
        ("MEMORY_LIMIT", file, {**none, "keep": 1}),
    ):
        refused(checks, [(why, named)], pikhsen.decrypt, given, b"PW")
    checks.that("no passphrase, and no file", refusal(pikhsen.decrypt, bytes(96), "PW"), "TypeError")
    checks.that("a header and no file", refusal(pikhsen.info, bytes(64)), "MAGIC")


def in_place_from_python(checks, pikhsen):
    """The same file as `encrypt` makes, in the buffer of its text; or the text as it was."""
    for text in (b"", b"Dear Ada", bytes(range(256)) * 300):
        file = pikhsen.encrypt(text, b"pw", salt=SALT, **CHEAP)
        for form in (bytearray, lambda it: memoryview(bytearray(it)), mapped):
            buffer = form(text + b"x" * 128)
            pikhsen.encrypt_in_place(buffer, b"pw", salt=SALT, keep=4, **CHEAP)
            checks.that(f"in place, {len(text)} bytes", bytes(memoryview(buffer)), file)
    buffer = bytearray(b"Dear Ada" + bytes(128))
    before = bytes(buffer)
    rows = *NOT_MADE, ("BUFFER", {"buffer": bytearray(127)})
    refused(checks, rows, pikhsen.encrypt_in_place, buffer=buffer, passphrase=b"pw", **CHEAP)
    checks.that("in place, refused", bytes(buffer), before)
    try:
        pikhsen.encrypt_in_place(buffer, b"pw", log_n=0)
    except pikhsen.Refused:
        buffer.append(0)
    checks.that("in place, a buffer that grows after a refusal", len(buffer), len(before) + 1)
    wanted = "a buffer that can be written, and lies in one piece, is wanted here"
    for name, given in (("is only read", before), ("lies in pieces", memoryview(bytearray(400))[::2])):
        told = raised(pikhsen.encrypt_in_place, given, b"pw", **CHEAP)
        # the module tests that: ctypes says something else, and that of PyPy nothing
        checks.that(f"in place, a buffer that {name}", (type(told), str(told)), (TypeError, wanted))


# Which buffers are taken, and that what is in the others stays.
IN_PLACE = """import mmap, pikhsen
for buffer in (bytearray(136), mmap.mmap(-1, 136), memoryview(bytearray(136)), bytes(136), memoryview(bytearray(272))[::2]):
    try:
        pikhsen.encrypt_in_place(buffer, b"pw", log_n=4)
        print(pikhsen.decrypt(buffer, b"pw") == bytes(8), end=" ")
    except TypeError:
        print(bytes(buffer) == bytes(136), "TypeError", end=" ")
"""


def in_place_from_pypy(checks, lib):
    """The same buffers are taken under PyPy, whose ctypes does not look at them."""
    if is_there("pypy3", "the module is not called from it", 1):
        found = with_module(lib, "-c", IN_PLACE, python="pypy3")
        checks.that("in place, by pypy3", found, (0, "True True True True TypeError True TypeError "))


def settings_from_python(checks, pikhsen):
    """What a text says of its settings, and whether its hash is to be made anew."""
    text, told = REFERENCE, pikhsen.settings(REFERENCE)
    checks.that("settings", told, (pikhsen.Kind.I, 0x13, 2, 65536, 4, 8, 24))
    checks.that("settings of bytes", pikhsen.settings(text.encode()), told)
    checks.that("settings without a version", pikhsen.settings(text.replace("v=19$", "")).version, 0x10)
    same = told._asdict()
    checks.that("just these settings", pikhsen.needs_rehash(text, **same), False)
    for name, value in same.items():
        for other in (value - 1, value + 1, -1, 1 << 70):
            checks.that(f"other settings: {name} {other}", pikhsen.needs_rehash(text, **{**same, name: other}), True)
    checks.that("settings of encode", pikhsen.needs_rehash(pikhsen.encode(b"password")), False)
    stored = pikhsen.encode(b"password", **SMALL)
    checks.that("a cheap text", pikhsen.needs_rehash(stored), True)
    checks.that("a cheap text that is wanted", pikhsen.needs_rehash(stored, **SMALL), False)
    for why, outside in (
        ("TEXT_VERSION", text.replace("v=19", "v=18")), ("TEXT_PASSES", text.replace("t=2", "t=4294967296")),
        ("TEXT_LANES", text.replace("p=4", "p=0")), ("TEXT_MEMORY", text.replace("m=65536", "m=31")),
        ("TEXT_TAG_LENGTH", text[:-28]), ("TEXT_SALT_LENGTH", text.replace("c29tZXNhbHQ", "c29tZXNhbA")),
        ("NOT_ENCODED", text + "\0"), ("NOT_ENCODED", text + "\n"), ("NOT_ENCODED", "\ud800"),
    ):
        verified = "NOT_ENCODED" if why == "NOT_ENCODED" else "OUT_OF_RANGE"
        found = refusal(pikhsen.settings, outside), refusal(pikhsen.needs_rehash, outside), refusal(pikhsen.verify, outside, b"x")
        checks.that(f"settings, and verify, of {outside!r}", found, (why, why, verified))


def large_from_python(checks, pikhsen, folder):
    """What is no file is refused before it is copied: a GiB of it, where 64 MiB are left to the process."""
    large, limits = pathlib.Path(folder, "large"), resource.getrlimit(resource.RLIMIT_AS)
    large.write_bytes(b"no file")
    os.truncate(large, 1 << 30)
    with open(large, "rb") as file, mmap.mmap(file.fileno(), 0, access=mmap.ACCESS_READ) as content:
        pages = int(pathlib.Path("/proc/self/statm").read_text(encoding="ascii").split()[0])
        resource.setrlimit(resource.RLIMIT_AS, (pages * mmap.PAGESIZE + (64 << 20), limits[1]))
        whys = [refusal(pikhsen.info, content), refusal(pikhsen.decrypt, content, b"pw")]
        with memoryview(content) as view, view[4:] as end:
            whys.append(refusal(pikhsen.info, end))
        resource.setrlimit(resource.RLIMIT_AS, limits)
    checks.that("a GiB that is no file", whys, ["MAGIC"] * 3)
    large.unlink()


def threads_from_python(checks, pikhsen):
    """Many calls side by side give what they give one after another."""
    def work(number):
        password = b"%d" % number
        text = pikhsen.encode(password, salt=b"somesalt", memory_kib=256, lanes=2)
        file = pikhsen.encrypt(password, password, log_n=6, salt=SALT)
        return text, pikhsen.verify(text, password), pikhsen.decrypt(file, password) == password, file

    with concurrent.futures.ThreadPoolExecutor(8) as pool:
        together = list(pool.map(work, range(64)))
    checks.that("threads", together == [work(number) for number in range(64)], True)


class Longer(bytes):
    """Bytes that tell a wrong length."""

    def __len__(self):
        return super().__len__() + 9


def mapped(content):
    """A map of memory with these bytes; there is none of no bytes."""
    memory = mmap.mmap(-1, len(content) or 1)
    memory[:len(content)] = content
    return memory if content else content


def in_structure(content):
    """One item that holds all the bytes, and has no dimension."""
    return type("Structure", (ctypes.Structure,), {"_fields_": [("held", ctypes.c_char * len(content))]}).from_buffer_copy(content)


def arguments_from_python(checks, pikhsen):
    """All that holds bytes is taken for its bytes, and nothing else is."""
    # all have lengths that 4 divides, and so has the text
    salt, file_salt = b"salt" * 3, b"salt" * 8
    small = {"length": 30, **SMALL}
    tag, key = pikhsen.hash(b"password", salt, **small), pikhsen.scrypt(b"password", salt, log_n=4)
    text = pikhsen.encode(b"password", salt=salt, **small)
    file = pikhsen.encrypt(b"Dear Ada", b"password", log_n=4, salt=file_salt)
    for name, form in (
        ("bytearray", bytearray), ("subclass", Longer), ("memoryview", memoryview),
        ("items of four bytes", lambda it: array.array("I", it)),
        ("every other byte", lambda it: memoryview(bytes(b for each in it for b in (each, 0)))[::2]),
        ("two dimensions", lambda it: memoryview(it).cast("B", (len(it) // 4, 4)) if it else it),
        ("mmap", mapped), ("no dimension", in_structure),
    ):
        for call, found, expected in (
            ("hash", pikhsen.hash(form(b"password"), form(salt), secret=form(b""), **small), tag),
            ("encode", pikhsen.encode(form(b"password"), salt=form(salt), **small), text),
            ("scrypt", pikhsen.scrypt(form(b"password"), form(salt), log_n=4), key),
            ("encrypt", pikhsen.encrypt(form(b"Dear Ada"), form(b"password"), log_n=4, salt=form(file_salt)), file),
            ("decrypt", pikhsen.decrypt(form(file), form(b"password")), b"Dear Ada"),
            ("info", tuple(pikhsen.info(form(file))), (4, 8, 1)),
            ("verify", pikhsen.verify(form(text.encode()), form(b"password")), True),
        ):
            checks.that(f"{call}, {name}", found, expected)
    for call, *given in ((pikhsen.decrypt, 8, b""), (pikhsen.verify, None, b"x")):
        checks.that(f"a wrong type for {call.__name__}", refusal(call, *given), "TypeError")
    refused(checks, [("TypeError", {"passes": 1.5})], pikhsen.hash, b"x", salt)
    refused(checks, [("TypeError", {"log_n": "4"})], pikhsen.scrypt, b"", b"")
    texts_from_python(checks, pikhsen, text)
    numbers_from_python(checks, pikhsen, text, file)
    checks.that("great limits", pikhsen.verify(text, b"password", max_kib=1 << 70, max_ops=1 << 70), True)
    for odd in ("\ud800", "$\u00e9", "\uff04argon2id$", text + "\ud800"):
        told = raised(pikhsen.verify, odd, b"password")
        found = type(told), told.args, told.__context__
        checks.that("a text that is not ASCII", found, (pikhsen.Invalid, (pikhsen.Status.NOT_ENCODED,), None))


def texts_from_python(checks, pikhsen, text):
    """A text in the place of bytes is refused with what to do, and is not shown."""
    horse = "correct horse"
    for call, *given in (
        (pikhsen.hash, b"x", horse), (pikhsen.encode, horse), (pikhsen.verify, text, horse),
        (pikhsen.scrypt, horse, b""), (pikhsen.encrypt, horse, b""), (pikhsen.decrypt, horse, b""),
        (pikhsen.encrypt_in_place, horse, b""), (pikhsen.info, horse),
    ):
        told = raised(call, *given)
        found = type(told), '"..".encode()' in str(told), "horse" in str(told)
        checks.that(f"{call.__name__}, a text: what is said", found, (TypeError, True, False))


def numbers_from_python(checks, pikhsen, text, file):
    """Numbers that the library's types don't hold are refused as those are that they hold and are out of range."""
    of_argon2 = dict(passes="PASSES", lanes="LANES", memory_kib="MEMORY", kind="KIND", version="ARGON2_VERSION", length="TAG_LENGTH")
    for number in (-1, -(1 << 32) + 1, -(1 << 70), 1 << 38, (1 << 70) + 3):
        rows = [(why, {name: number}) for name, why in of_argon2.items()]
        refused(checks, rows, pikhsen.hash, b"x", b"saltsalt")
        refused(checks, rows, pikhsen.encode, b"x")
        rows = ("LOG_N", {"log_n": number}), ("KEEP", {"keep": number}), ("BUFFER", {"length": number})
        refused(checks, rows, pikhsen.scrypt, b"", b"")
    for number in (-1, -(1 << 70)):
        great = -number << 32
        rows = ("ZERO", {"r": number}), ("ZERO", {"p": number}), ("PRODUCT", {"r": great}), ("PRODUCT", {"p": great})
        refused(checks, rows, pikhsen.scrypt, b"", b"")
        refused(checks, [("MEMORY_LIMIT", {"max_kib": number}), ("WORK_LIMIT", {"max_ops": number})], pikhsen.verify, text, b"x")
        refused(checks, [("MEMORY_LIMIT", {"max_bytes": number}), ("WORK_LIMIT", {"max_ops": number})], pikhsen.decrypt, file, b"x")


def limits_from_python(checks, pikhsen):
    for kind in pikhsen.Kind:
        for passes, kib, lanes in ((1, 8, 1), (2, 519, 1), (3, 1030, 2), (1, 1024, 2)):
            settings = {"kind": kind, "passes": passes, "memory_kib": kib, "lanes": lanes}
            most, blocks = work_of(kind, kib, passes, lanes), kib // (4 * lanes) * 4 * lanes
            text = pikhsen.encode(b"x", **settings)
            needs = [("the hash", "KiB", "max_kib", blocks), ("the hash", "block functions", "max_ops", most)]
            exact(checks, pikhsen, needs, pikhsen.hash, b"x", b"saltsalt", **settings)
            exact(checks, pikhsen, needs, pikhsen.encode, b"x", **settings)
            exact(checks, pikhsen, needs, pikhsen.verify, text, b"x")
    # RFC 7914, 4 to 6; the rows that are kept are less than the parts where N is small
    for log_n, r, p, keep in ((4, 1, 1, 1), (4, 3, 2, 4), (2, 2, 9, 1), (3, 1, 5, 8), (7, 8, 1, 64)):
        costs = {"log_n": log_n, "r": r, "p": p, "keep": keep}
        held, cores = max(128 * r * 2**log_n // keep, 128 * r * p), 2 * r * p * 2**log_n * (1 + keep)
        needs = [("the key", "bytes", "max_bytes", held), ("the key", "cores of Salsa20/8", "max_ops", cores)]
        file = pikhsen.encrypt(b"Dear Ada", b"pw", **costs)
        for call, *given in (
            (pikhsen.scrypt, b"pw", b"salt"), (pikhsen.encrypt, b"Dear Ada", b"pw"), (pikhsen.Encryptor, b"pw"),
            (pikhsen.encrypt_in_place, bytearray(200), b"pw"),
        ):
            exact(checks, pikhsen, needs, call, *given, **costs)
        exact(checks, pikhsen, needs, pikhsen.decrypt, file, b"pw", keep=keep)
        exact(checks, pikhsen, needs, decrypted_in_pieces, pikhsen, file, keep=keep)
    great_limits_from_python(checks, pikhsen)


def exact(checks, pikhsen, needs, call, *given, **named):
    """Of each limit of a call: what the text says that is needed is enough, and one less is not."""
    enough = {parameter: needed for _, _, parameter, needed in needs}
    checks.that(f"{call.__name__}: just enough", refusal(call, *given, **named, **enough), None)
    for what, unit, parameter, needed in needs:
        for allowed in (needed - 1, 0):
            told = raised(call, *given, **named, **{**enough, parameter: allowed})
            found = type(told), str(told), getattr(told, "needed", None), getattr(told, "allowed", None)
            says = f"{what} takes {needed} {unit}, and {parameter} allows {allowed}"
            checks.that(f"{call.__name__}: {parameter} {allowed}", found, (pikhsen.LimitExceeded, says, needed, allowed))


def great_limits_from_python(checks, pikhsen):
    """Costs that nobody pays: memory is told before work, and with enough of the one the other is told. No limit is above
    2^40 bytes, or 2^64-1 cores."""
    salt, great = b"saltsalt", 2**32 - 1
    for call, given, named, parameter, needed, allowed in (
        (pikhsen.hash, (b"", salt), {"memory_kib": great, "passes": great}, "max_kib", 2**32 - 16, None),
        (pikhsen.scrypt, (b"", b""), {"log_n": 33, "r": 1}, "max_bytes", 2**40, None),
        (pikhsen.scrypt, (b"", b""), {"log_n": 33, "r": 2}, "max_bytes", 2**41, 2**40),
        (pikhsen.decrypt, (of_costs(63, 8, 2**26, SALT) + bytes(32), b""), {}, "max_bytes", 2**73, 2**40),
    ):
        told = raised(call, *given, **named, **{parameter: needed - 1, "max_ops": 0})
        checks.that(f"{call.__name__}, {named}: {parameter}", (told.needed, told.allowed), (needed, allowed or needed - 1))
        told = raised(call, *given, **named, **{parameter: needed, "max_ops": 0})
        checks.that(f"{call.__name__}, {named}: enough of {parameter}", told.status.name, "MEMORY_LIMIT" if allowed else "WORK_LIMIT")
    told = raised(pikhsen.scrypt, b"", b"", log_n=32, r=1, p=2**30 - 1, keep=1024, max_bytes=2**40, max_ops=1 << 70)
    checks.that("more work than any limit allows", (told.needed, told.allowed), (2 * (2**30 - 1) * 2**32 * 1025, 2**64 - 1))


def signatures_from_python(checks, pikhsen):
    """What `help` shows first, and LIBRARY's table, is each function as it is called."""
    words = {it: " ".join(text.split()) for it, text in re.findall(r"^    ([A-Z]+): ((?:.*,\n +)*.*)$", pikhsen.__doc__, re.MULTILINE)}
    told, rows = {}, []
    signature = r"^    (\w+)\((.*)\) -> (\w+)\n        (.*)$"
    for name, short, result, about in re.findall(signature, pikhsen.__doc__, re.MULTILINE):
        rows.append((f"{name}({short}) -> {result}", about))
        whole = re.sub("[A-Z]{4,}", lambda it: words[it[0]], short)
        told[name] = *form_of(eval(f"lambda {whole}: 0", vars(pikhsen)))[:2], result
    public = [getattr(pikhsen, it) for it in pikhsen.__all__]
    streams = pikhsen.Encryptor, pikhsen.Decryptor
    called = {it.__name__: form_of(it) for it in public if inspect.isfunction(it) or it in streams}
    checks.that("signatures at the head of the module", told, called)
    lines = pydoc.plain(pydoc.render_doc(pikhsen)).splitlines()
    late = [it for it in told if not any(line.strip().startswith(f"{it}(") for line in lines[:60])]
    checks.that("functions that help does not show in its first 60 lines", late, [])
    checks.that("LIBRARY's table of functions", re.findall(r"^\| `(\w+\(.*\) -> \w+)` \| (.*) \|$", LIBRARY, re.MULTILINE), rows)
    checks.that("LIBRARY's words of that table", dict(re.findall(r"^\| `([A-Z]+)` \| `(.*)` \|$", LIBRARY, re.MULTILINE)), words)


def form_of(function):
    """The parameters of a function that are given by their place, and those that are given by their name, with what
    they are if not; and the name of its result."""
    signature = inspect.signature(function)
    named = {it.name: it.default for it in signature.parameters.values() if it.kind == it.KEYWORD_ONLY}
    result = function if inspect.isclass(function) else signature.return_annotation
    return [it for it in signature.parameters if it not in named], named, getattr(result, "__name__", str(result))


def salts_from_python(checks, pikhsen):
    """A salt that is not given is what the system gave for it."""
    for name, length, made_by in (
        ("text", 16, lambda: base64.b64decode(pikhsen.encode(b"password", **SMALL).split("$")[4] + "==")),
        ("file", 32, lambda: pikhsen.encrypt(b"Dear Ada", b"password", **CHEAP)[16:48]),
        ("file in pieces", 32, lambda: pikhsen.Encryptor(b"password", **CHEAP).finish()[16:48]),
    ):
        with mock.patch.object(os, "urandom", side_effect=lambda count: bytes(range(count))) as system:
            checks.that(f"salt of a {name}, as the system gave it", (made_by(), system.call_count), (bytes(range(length)), 1))


def buffers_from_python(checks, pikhsen):
    """What `decrypt` lends to the library is wiped, whatever comes of the call."""
    file = pikhsen.encrypt(b"Dear Ada" * 100, b"password", log_n=4)
    for name, given, password, why in (
        ("right", file, b"password", None), ("damaged", file[:-1], b"password", "DAMAGED"),
        ("wrong", file, b"passwore", "WRONG_PASSPHRASE"),
    ):
        with lent_by(pikhsen) as lent:
            checks.that(f"decrypt, {name}", refusal(pikhsen.decrypt, given, password), why)
        checks.that(f"decrypt, {name}: what was lent", [len(it) for it in lent], [len(given)])
        checks.that(f"decrypt, {name}: what is left in it", [it.raw.strip(b"\0") for it in lent], [b""])


def exceptions_from_python(checks, pikhsen):
    """Each is itself when it is copied, and of its families; and the library has its sentence, in just its room."""
    sentences = {name: says for _, name, _, says, *_ in values_table.rows("status")}
    for status in pikhsen.Status:
        raises, says = pikhsen._EXCEPTIONS.get(status, pikhsen.Invalid), sentences[status.name]
        made = raises(status, *(("the hash", 2, "KiB", "max_kib", 1) if raises is pikhsen.LimitExceeded else ()))
        for again in (pickle.loads(pickle.dumps(made)), copy.copy(made), copy.deepcopy(made)):
            checks.that(f"{made!r} again", (type(again), again.args, again.status, str(again)), (type(made), made.args, status, str(made)))
        families = isinstance(made, ValueError), isinstance(made, MemoryError)
        is_value = status is not pikhsen.Status.OUT_OF_MEMORY
        checks.that(f"families of {made!r}", families, (is_value, not is_value))
        checks.that(f"sentence of {status!r}", pikhsen.message(status), says)
        for room, *expected in ((len(says), "BUFFER", b"", 0), (len(says) + 1, "OK", says.encode(), len(says))):
            out, length = pikhsen._buffer(room), ctypes.c_size_t(7)
            number = pikhsen._number(pikhsen._lib.pikhsen_message, status, out, ctypes.byref(length))
            found = [pikhsen.Status(number).name, out.value, length.value]
            checks.that(f"sentence of {status!r}, {room} bytes", found, expected)
    for number in (len(pikhsen.Status), 1 << 31, (1 << 32) - 1, 1 << 32, -1):
        checks.that(f"sentence of {number}", pikhsen.message(number), "unknown number")
    checks.that("memory", pikhsen.OutOfMemory.__mro__[1:3], (MemoryError, pikhsen.Refused))


STRANGE = """import pikhsen
for call in (lambda: pikhsen.hash(b"x", b"x"), lambda: pikhsen.verify("x", b"x"), lambda: pikhsen.info(b"")):
    try:
        call()
    except pikhsen.Refused as refused:
        print(type(refused).__name__, int(refused.status), isinstance(refused, ValueError))
"""
POOL = """import concurrent.futures, multiprocessing, pikhsen
with concurrent.futures.ProcessPoolExecutor(1, multiprocessing.get_context("spawn")) as pool:
    print(repr(pool.submit(pikhsen.decrypt, b"x", b"x").exception(60)))
"""


def libraries_of_python(checks, pikhsen, folder, lib):
    """Libraries that the module must refuse to load, numbers that it doesn't know, and which library it loads."""
    right, other, newer, lacks = f"{lib}/libpikhsen.so.0", *(f"{folder}/{it}.so" for it in ("other", "newer", "lacks"))
    names = list(pikhsen._PARAMETERS)
    for out, number, has in ((other, 10203, names), (newer, 199, names), (lacks, 100, names[:-1])):
        # numbers that the module doesn't know, and 9
        answers = {"pikhsen_version": number, "pikhsen_argon2_hash": "4000000000u", "pikhsen_scrypt_info": 9}
        text = "".join(f"unsigned int {name}(void) {{ return {answers.get(name, 77)}; }}\n" for name in has)
        compiled(text, out, "-shared", "-fPIC")
    installed_for_levels(checks, pikhsen, folder, lib, newer)
    module = f"import sys; sys.path.insert(0, {str(TOP / 'python')!r}); import pikhsen; print(pikhsen.version())"
    for name, named, options, expected in (
        ("named", right, [], VERSION), ("of another version", other, [], "version 1.2.3, and this module is for 0.x"),
        ("that lacks a function", lacks, [], "ImportError: libpikhsen can't be loaded"),
        ("that is not there", f"{folder}/none", [], "ImportError: libpikhsen can't be loaded"),
        ("found, under an empty name", "", [], VERSION), ("found, under -I", other, ["-I", "-B"], VERSION),
        ("found, under -E", other, ["-E", "-B"], VERSION),
    ):
        variables = {"LD_LIBRARY_PATH": lib, "PIKHSEN_LIBRARY": named}
        last = with_module(lib, *options, "-c", module, variables=variables)[1].splitlines()[-1]
        checks.that(f"a library {name}", (expected in last, last), (True, last))
    found = with_module(lib, "-c", STRANGE, variables={"PIKHSEN_LIBRARY": newer})[1]
    checks.that("numbers that are not known", found, "Refused 4000000000 False\nRefused 77 False\nOutOfMemory 9 False\n")
    found = with_module(lib, "-c", POOL, timeout=120)[1]
    checks.that("a refusal in a pool of processes", found, "NotAFile(<Status.TOO_SHORT: 26>)\n")


def installed_for_levels(checks, pikhsen, folder, lib, other):
    """An installed module takes the library of its prefix, and one of a wheel that beside it: for x86-64-v3 where the
    processor has that level, all of its instructions, if it is there."""
    for lacks in ("", *sorted(V3)):
        with mock.patch("builtins.open", mock.mock_open(read_data=f"processor: 0\nflags: fpu {' '.join(V3 - {lacks})} sha_ni\n")):
            checks.that(f"x86-64-v3 without {lacks or 'nothing'}", pikhsen._has_v3(), not lacks)
    for what, modules, libraries in (
        ("an installed module", "a prefix/share/pikhsen", "a prefix/lib"), ("one of a wheel", "site", "site/pikhsen"),
    ):
        module, lower = pathlib.Path(folder, modules, "pikhsen/__init__.py"), pathlib.Path(folder, libraries, "libpikhsen.so.0")
        higher = lower.parent / "glibc-hwcaps/x86-64-v3" / lower.name
        shutil.copytree(TOP / "python/pikhsen", module.parent, ignore=shutil.ignore_patterns("__pycache__"))
        higher.parent.mkdir(parents=True)
        shutil.copy(f"{lib}/libpikhsen.so.0", lower)
        variables = {"PYTHONPATH": str(module.parent.parent), "PIKHSEN_LIBRARY": None}
        for name, expected in (("of the lower level", VERSION), ("of the higher level", "0.1.99" if runs_v3() else VERSION)):
            found = with_module(lib, "-c", "import pikhsen; print(pikhsen.version())", variables=variables)
            checks.that(f"{what}, over the library {name}", found[1].splitlines()[-1:], [expected])
            shutil.copy(other, higher)


def calls(checks, folder, lib):
    """All that is tested of the module: over the library in one folder, with files of its own in another."""
    os.environ["PIKHSEN_LIBRARY"] = f"{lib}/libpikhsen.so.0"
    sys.dont_write_bytecode = True
    sys.path.insert(0, str(TOP / "python"))
    import pikhsen

    for part in (
        from_python, any_password_from_python, secrets_from_python, texts_of_others, keys_from_python, files_from_python,
        in_place_from_python, settings_from_python, salts_from_python, buffers_from_python, threads_from_python,
        arguments_from_python, limits_from_python, exceptions_from_python, signatures_from_python,
    ):
        part(checks, pikhsen)
    in_place_from_pypy(checks, lib)
    large_from_python(checks, pikhsen, folder)
    with tempfile.TemporaryDirectory(dir=folder) as kept:
        files_of_python(checks, pikhsen, kept, lib)
    libraries_of_python(checks, pikhsen, folder, lib)


if __name__ == "__main__":
    over_library(calls)
