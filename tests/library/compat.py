#!/usr/bin/env python3
"""What programs get that call libargon2.so.1 and find that of compat/: its names and numbers, random calls beside Debian's
library (whatever differs is one of the differences that man/pikhsen-compat.7 lists), refused memory, and programs of Debian
over both, each with what it made over the other.

    tests/library/compat.py FOLDER      the folder in which libpikhsen.a lies
"""
import ctypes
import os
import pathlib
import random
import re
import sys

sys.path += map(str, pathlib.Path(__file__).resolve().parents[1].iterdir())  # the other folders of tests/
import binaries
from compat_openssl import REFUSING, openssl_of
from checking import HEAPS, compiled, is_there, left_out, over_library, ran, said
from shown import STORED
from tree import TOP

HEADER = TOP / "compat/libargon2/argon2.h"
DEBIANS = pathlib.Path("/usr/lib/x86_64-linux-gnu/libargon2.so.1")
KINDS = ("argon2d", "argon2i", "argon2id")
NAMES = sorted([
    *(f"argon2_{it}" for it in ("ctx", "encodedlen", "error_message", "hash", "type2string", "verify", "verify_ctx")),
    *(f"{kind}_{it}" for kind in KINDS for it in ("ctx", "hash_encoded", "hash_raw", "verify", "verify_ctx")),
])
# What is built: the names that it shows, its soname, and the libraries that it needs.
SHOWN = {
    "libargon2.so.1": (NAMES, ["libargon2.so.1"], "libc.so.6"),
    "pikhsen.so": (["OSSL_provider_init"], [], "libcrypto.so.3", "libc.so.6"),
}
# The numbers of argon2.h that are named below.
OK, OUTPUT_TOO_LONG, SALT_TOO_LONG, MEMORY_ALLOCATION_ERROR, INCORRECT_PARAMETER, ENCODING_FAIL, DECODING_FAIL, VERIFY_MISMATCH = (
    0, -3, -7, -22, -25, -31, -32, -35)
# Words of the header that are none.
NO_NUMBERS = {"ARGON2_LOCAL", "ARGON2_MIN", "ARGON2_OF_TYPE", "ARGON2_PUBLIC"}
# How many random calls are made, and how many bytes their outputs have room for.
CALLS, ROOM = 10000, 8000
SIZE = ctypes.c_size_t
GIVE = ctypes.CFUNCTYPE(ctypes.c_int, ctypes.POINTER(ctypes.c_void_p), SIZE)
TAKE = ctypes.CFUNCTYPE(None, ctypes.c_void_p, SIZE)
# The numbers of a random call that come first.
COSTS = "t_cost", "m_cost", "lanes"


class Context(ctypes.Structure):
    """argon2_context."""
    _fields_ = [
        *(field for name in ("out", "pwd", "salt", "secret", "ad") for field in (
            (name, ctypes.c_void_p), (f"{name}len", ctypes.c_uint32))),
        *((name, ctypes.c_uint32) for name in ("t_cost", "m_cost", "lanes", "threads", "version")),
        ("allocate_cbk", GIVE), ("free_cbk", TAKE), ("flags", ctypes.c_uint32),
    ]


def loaded(file):
    """A library with these names, of whose parameters those of 64 bits are told by what they are given."""
    library = ctypes.CDLL(str(file))
    library.argon2_error_message.restype = library.argon2_type2string.restype = ctypes.c_char_p
    library.argon2_encodedlen.restype = SIZE
    return library


def built(checks, folder, lib):
    """Library and provider, built twice, and what each shows of itself."""
    for it in ("compat", "again"):
        checks.that(f"compat.sh: {it}", ran(TOP / "packaging/compat.sh", lib, f"{folder}/{it}"), (0, ""))
    for sign in "#$\\'\"`\n":
        status, said_of = ran(TOP / "packaging/compat.sh", lib, f"{folder}/a{sign}b")
        checks.that(f"compat.sh: a folder with {sign!r}", (status, "can't name" in said_of, os.listdir(f"{folder}/a{sign}b")), (2, True, []))
    for file in sorted(pathlib.Path(folder, "compat").glob("*.so*")):
        name, (names, soname, *needed) = file.name, SHOWN[file.name]
        checks.that(f"{name}, built twice", file.read_bytes() == pathlib.Path(folder, "again", name).read_bytes(), True)
        binaries.names_in(checks, ["nm", "-D", "--defined-only", str(file)], names)
        checks.that(f"{name}: soname", re.findall(r"\(SONAME\).*\[(.*)\]", said("readelf", "-d", str(file))), soname)
        checks.that(f"{name}: nothing of this machine", "Build ID" in said("readelf", "-nW", str(file)), False)
        binaries.hardened(checks, name, file, False, needed)
        binaries.level(checks, name, file, False)


def header(checks, folder):
    """Types, numbers and functions of argon2.h are those of Debian's."""
    text = HEADER.read_text(encoding="utf-8")
    declared = text[text.index("\nint argon2_ctx("):text.index("\n#ifdef __cplusplus\n}")]
    words = (["gcc", "-std=c99"], *([["g++", "-x", "c++"]] if is_there("g++", "argon2.h is not compiled as C++", 1) else []))
    for word in words:
        checks.that(f"argon2.h under {word[0]}", ran(*word, "-Wall", "-Wextra", "-pedantic", "-Werror", "-fsyntax-only", HEADER), (0, ""))
    debians = pathlib.Path("/usr/include/argon2.h")
    if not debians.exists():
        left_out("libargon2-dev is not installed", "its argon2.h is not compared", 3)
        return
    found = {}
    for name, file in (("ours", HEADER), ("Debian's", debians)):
        plain = re.sub(r"/\*.*?\*/", "", file.read_text(encoding="utf-8"), flags=re.DOTALL)
        numbers = {*re.findall(r"\b(?:ARGON2_[A-Z]\w+|Argon2_(?:d|i|id)\b)", plain)} - NO_NUMBERS
        lines = [f'printf("{it} %lld\\n", (long long)({it}));' for it in sorted(numbers)]
        lines += [f'printf("{it} %zu %zu\\n", offsetof(argon2_context, {it}), sizeof of.{it});' for it, _ in Context._fields_]
        lines += [f'printf("{it} %zu\\n", sizeof({it}));' for it in ("argon2_context", "argon2_type")]
        compiled("#include <limits.h>\n#include <stddef.h>\n#include <stdio.h>\n#include <argon2.h>\n"
                 f"int main(void) {{ argon2_context of; {' '.join(lines)} }}", f"{folder}/numbers", "-I", str(file.parent))
        found[name] = set(said(f"{folder}/numbers").splitlines())
    checks.that("numbers and sizes of argon2.h", found["ours"], found["Debian's"])
    both = f"#include <stddef.h>\n#include <argon2.h>\n{declared}"
    checks.that("functions of argon2.h beside Debian's", ran("gcc", "-x", "c", "-fsyntax-only", "-", input=both), (0, ""))


def hashed_in(library, it, which):
    """The answer of a context, its lengths, and its buffers after the call."""
    buffers = {name: ctypes.create_string_buffer(it[name], max(1, len(it[name]))) for name in ("pwd", "salt", "secret", "ad")}
    buffers["out"] = ctypes.create_string_buffer(b"\xa5" * ROOM, ROOM)
    asked = []

    def give(to, size):
        asked.append(ctypes.create_string_buffer(size))
        to[0] = ctypes.addressof(asked[-1])
        return 0

    of = Context(**{name: ctypes.addressof(buffers[name]) for name in buffers if name != it["null"]},
                 **{f"{name}len": len(it[name]) for name in buffers if name != "out"},
                 **{name: it[name] for name in (*COSTS, "outlen", "threads", "version", "flags")})
    if "give" in it["callbacks"]:
        of.allocate_cbk = GIVE(give)
    if "take" in it["callbacks"]:
        of.free_cbk = TAKE(lambda at, size: None)
    if which == "verify":
        answer = library.argon2_verify_ctx(ctypes.byref(of), it["tag"], it["kind"])
    elif it["kind"] < 3 and it["by_name"]:
        answer = getattr(library, f"{KINDS[it['kind']]}_ctx")(ctypes.byref(of))
    else:
        answer = library.argon2_ctx(ctypes.byref(of), it["kind"])
    lengths = [getattr(of, f"{name}len") for name in buffers]
    return answer, lengths, [it.raw for it in buffers.values()]


def encoded_by(library, it):
    """The answer of argon2_hash, or of a function of the type, and its buffers after the call."""
    tag, text = (ctypes.create_string_buffer(b"\xa5" * ROOM, ROOM) for _ in range(2))
    given, wanted = [it[name] for name in COSTS], it["wanted"]
    for name in ("pwd", "salt"):
        given += [None if it["null"] == name else it[name], SIZE(len(it[name]))]
    tag_len, room = SIZE(it["outlen"]), SIZE(it["room"])
    if it["kind"] < 3 and it["version"] == 0x13 and it["by_name"] and wanted != "both":
        name, *last = ("hash_raw", tag, tag_len) if wanted == "tag" else ("hash_encoded", tag_len, text, room)
        answer = getattr(library, f"{KINDS[it['kind']]}_{name}")(*given, *last)
    else:
        given += [None if wanted == "text" else tag, tag_len, None if wanted == "tag" else text, room]
        answer = library.argon2_hash(*given, it["kind"], it["version"])
    return answer, [], [tag.raw, text.raw]


def some_call(of, library):
    """Arguments of a random call, most of them in range."""
    def number(usual, *others):
        return of.choice(others) if of.random() < 0.05 else usual

    lanes = number(of.randint(1, 4), 0, 200, 0x1000000, 0xffffffff)
    it = {
        "t_cost": number(of.randint(1, 3), 0, 5), "lanes": lanes,
        "m_cost": number(8 * min(lanes, 300) + of.randrange(60), 0, 1, 7, 8, 15, 16),
        "version": number(of.choice((0x10, 0x13, 0x13)), 0, 0x11, 0x12, 0x14), "threads": number(lanes, 0, 1, 2, 0x1000000),
        "kind": number(of.randrange(3), 3, 7), "outlen": number(of.randint(4, 104), 0, 3, 4096, 4097, 5000),
        "pwd": of.randbytes(number(of.randrange(200), 0, 1, 5000)),
        "salt": of.randbytes(number(of.randint(8, 108), 0, 7, 255, 256, 300)),
        **{name: of.randbytes(of.choice((0, of.randrange(60)))) for name in ("secret", "ad")},
        "null": number(None, "out", "pwd", "salt", "secret", "ad"), "callbacks": number((), ("give", "take"), ("give",), ("take",)),
        "flags": of.choice((0, 0, 1, 2, 3)), "by_name": of.random() < 0.5, "wanted": of.choice(("tag", "text", "both")),
    }
    exact = library.argon2_encodedlen(*(it[name] for name in COSTS), len(it["salt"]), it["outlen"], min(it["kind"], 2))
    it["room"] = max(0, min(ROOM, of.choice((ROOM, exact, number(exact, exact - 1, 20, 0)))))
    return it


def listed_of(it, is_context):
    """The answers by which a call is refused that Debian's library does not refuse."""
    return {
        *([OUTPUT_TOO_LONG] if it["outlen"] > 4096 else []), *([SALT_TOO_LONG] if len(it["salt"]) > 255 else []),
        *([INCORRECT_PARAMETER] if it["version"] not in (0x10, 0x13) else []),
        *([MEMORY_ALLOCATION_ERROR] if is_context and it["callbacks"] == ("give", "take") else []),
    }


def changed(of, text):
    """A text, mostly changed in some way."""
    at = of.randrange(len(text))
    setting, value = of.choice((rb"m=\d+", rb"t=\d+", rb"p=\d+")), of.choice((b"0", b"7", b"4294967296", b"01"))
    return of.choice((
        text[:at] + bytes([of.randrange(1, 256)]) + text[at + 1:], text[:at],
        text[:at] + of.choice((b"$", b"A", b"=", b"+", b"0", b",", b"1")) + text[at:],
        text + of.choice((b"A", b"$", b"=", b" ")),
        re.sub(rb"\$v=\d+", of.choice((b"", b"$v=16", b"$v=19", b"$v=18")), text),
        re.sub(setting, lambda it: it[0][:2] + value, text), text, text,
    ))


def out_of_range(text):
    """Whether a text is one of a hash, but for the range of some value."""
    found = re.fullmatch(rb"\$argon2(?:d|i|id)(?:\$v=(\d+))?\$m=(\d+),t=(\d+),p=(\d+)\$([A-Za-z0-9+/]*)\$([A-Za-z0-9+/]*)", text)
    if not found:
        return False
    version, kib, passes, lanes = (int(it) if it else 16 for it in found.groups()[:4])
    salt, tag = (len(it) * 3 // 4 for it in found.groups()[4:])
    return not (version in (16, 19) and 8 * lanes <= kib < 1 << 32 and 1 <= passes < 1 << 32 and 1 <= lanes < 1 << 24
                and 8 <= salt <= 255 and 4 <= tag <= 4096)


def beside_debians(checks, file):
    """Random calls, of which each ends as over Debian's library, or in one of the ways that the page lists."""
    ours, theirs, of = loaded(file), loaded(DEBIANS), random.Random(1)
    wrong, seen = [], dict.fromkeys(("worked", "refused", "listed", "no room", "text"), 0)

    def compare(name, it, listed, ours_said, theirs_said, refused):
        answer, theirs_answer, is_unchanged = ours_said[0], theirs_said[0], ours_said[1:] == refused
        if listed and theirs_answer in (OK, VERIFY_MISMATCH, ENCODING_FAIL):
            kind, same = "listed", answer in listed and is_unchanged
        elif answer in (OK, VERIFY_MISMATCH):
            kind, same = "worked", not listed and ours_said == theirs_said
        else:
            kind, same = "no room" if answer == ENCODING_FAIL else "refused", answer == theirs_answer and is_unchanged
        seen[kind] += 1
        if not same:
            wrong.append((name, answer, theirs_answer, it))

    for code in range(-40, 4):
        known = (it.argon2_error_message(code) != it.argon2_error_message(1) for it in (ours, theirs))
        checks.that(f"a sentence of {code}", *known)
    for kind in range(-1, 5):
        for case in range(3):
            checks.that(f"the name of {kind}, {case}", *(it.argon2_type2string(kind, case) for it in (ours, theirs)))
    for _ in range(CALLS):
        it, which = some_call(of, theirs), of.choice(("hash", "verify", "text", "text"))
        inputs = it["pwd"], it["salt"], it["secret"], it["ad"]
        before = [*map(len, inputs), it["outlen"]], [*(each or b"\0" for each in inputs), b"\xa5" * ROOM]
        if which == "text":
            if it["kind"] < 3:
                given = *(it[name] for name in COSTS), len(it["salt"]), it["outlen"], it["kind"]
                lengths = [each.argon2_encodedlen(*given) for each in (ours, theirs)]
                wrong += [("encodedlen", *lengths, it)] if lengths[0] != lengths[1] else []
            both = [encoded_by(each, it) for each in (ours, theirs)]
            compare("argon2_hash", it, listed_of(it, False), *both, ([], [b"\xa5" * ROOM] * 2))
            text = both[0][2][1].split(b"\0")[0]
            if both[0][0] == OK and text[:1] == b"$":
                text, password = changed(of, text), of.choice((it["pwd"], it["pwd"], b"x" + it["pwd"]))
                kind = of.choice((it["kind"],) * 5 + (0, 1, 2, 3))
                # a hash of it, if it is a text of one, is soon made
                if all(int(it) < 2000 or int(it) > 0xffffffff for it in re.findall(rb"[mt]=(\d+)", text)):
                    told = [each.argon2_verify(text, password, SIZE(len(password)), kind) for each in (ours, theirs)]
                    is_read = told[1] in (OK, VERIFY_MISMATCH)
                    if told[0] == DECODING_FAIL != told[1] and (not is_read or out_of_range(text) or not text.isascii()):
                        seen["text"] += 1
                    elif told[0] != told[1]:
                        wrong.append(("argon2_verify", *told, text))
        else:
            if which == "verify":
                it["tag"] = hashed_in(theirs, {**it, "flags": 0}, "hash")[2][-1]
                at = of.randrange(max(1, min(it["outlen"], 4096)))
                it["tag"] = it["tag"] if of.random() < 0.5 else it["tag"][:at] + bytes([it["tag"][at] ^ 4]) + it["tag"][at + 1:]
            both = [hashed_in(each, it, which) for each in (ours, theirs)]
            compare(f"argon2_ctx to {which}", it, listed_of(it, True), *both, before)
    checks.that("calls beside Debian's library", wrong[:3], [])
    checks.that("kinds of answers that were seen", [name for name, count in seen.items() if count < 20], [])
    print(f"{CALLS} calls beside Debian's library: {seen}")


# Refuses each request for memory in turn: the answer must be MEMORY_ALLOCATION_ERROR, with nothing written and all freed.
# After a call that works its tag, which is kept turned round, must not be on the stack below the caller's frame. And each
# call works in a thread whose stack has 64 KiB.
CALLS_OF_C = """#include <argon2.h>
#include <pthread.h>
#include <stdio.h>
#include <string.h>
#include "refusing.h"
static uint8_t password[] = "password", secret[] = "secret", tag[32], turned[32];
static char text[200];
static argon2_context of;
static __attribute__((noinline)) int called(int which)
{
    of = (argon2_context){.out = tag, .outlen = 32, .pwd = password, .pwdlen = 8, .salt = (uint8_t *)"somesalt", .saltlen = 8,
        .secret = secret, .secretlen = 6, .t_cost = 1, .m_cost = 4096, .lanes = 2, .threads = 2, .version = 0x13, .flags = 3};
    memcpy(password, "password", 8);
    memcpy(secret, "secret", 6);
    memset(tag, 7, 32);
    memset(text, 7, 200);
    switch (which) {
    case 0: return argon2_ctx(&of, Argon2_id);
    case 1: return argon2_hash(1, 4096, 2, "password", 8, "somesalt", 8, tag, 32, text, 200, Argon2_id, 0x13);
    case 2: return argon2id_hash_raw(1, 4096, 2, "password", 8, "somesalt", 8, tag, 32);
    case 3: return argon2id_hash_encoded(1, 4096, 2, "password", 8, "somesalt", 8, 32, text, 200);
    default: return argon2id_verify("TEXT", "correct horse", 13);
    }
}
static __attribute__((noinline)) int is_left(void)
{
    volatile uint8_t here[60000];
    for (size_t at = 0; at + 32 < sizeof here; at += 1) {
        int same = 0;
        while (same < 16 && here[at + same] == (uint8_t)~turned[same])
            same += 1;
        if (same == 16)
            return 1;
    }
    return 0;
}
static void *in_thread(void *which)
{
    return (void *)(long)called((long)which);
}
int main(void)
{
    pthread_attr_t small;
    pthread_t thread;
    pthread_attr_init(&small);
    pthread_attr_setstacksize(&small, 64 << 10);
    for (long which = 0; which < 5; which += 1) {
        void *answer = &small;
        pthread_create(&thread, &small, in_thread, (void *)which);
        pthread_join(thread, &answer);
        if (answer != ARGON2_OK)
            return 2;
    }
    for (int which = 0; which < 5; which += 1)
        for (long requests = 0, answer = 1; answer != ARGON2_OK; requests += 1) {
            granted = requests;
            live = 0;
            answer = called(which);
            granted = -1;
            /* the fourth call has the tag of the third */
            for (int at = 0; at < 32 && which < 3; at += 1)
                turned[at] = (uint8_t)~tag[at];
            int left = answer == ARGON2_OK && is_left();
            int wrote = text[0] != 7 || tag[0] != 7 || memcmp(password, "password", 8) != 0 || of.pwdlen != 8
                || of.secretlen != 6;
            int is_right = answer == ARGON2_OK ? requests > 0 : answer == ARGON2_MEMORY_ALLOCATION_ERROR && !wrote;
            if (live != 0 || requests > 50 || left || !is_right) {
                printf("%d, request %ld: %ld, %ld blocks, %d, %d\\n", which, requests, answer, live, wrote, left);
                return 1;
            }
        }
    return 0;
}
"""


def calls_of_c(checks, folder, file):
    program, source = f"{folder}/calls", CALLS_OF_C.replace("TEXT", STORED[0])
    words = ["-std=gnu99", "-O1", "-w", *REFUSING, "-I", HEADER.parent, f"-Wl,-rpath,{file.parent},-z,now", "-o", program]
    checks.that("calls.c, compiled", ran("gcc", *words, "-x", "c", "-", "-x", "none", file, input=source), (0, ""))
    checks.that("a stack of 64 KiB, memory refused in turn, and the stack after each call", ran(program), (0, ""))


# The memory of hashes over other heaps, in KiB; and a heap of a program's own, of what The GNU C Library, Replacing malloc, names
# as the least: it ends the process where it is to free what it did not give.
SIZES = 8, 64, 1024, 2048, 2052, 4096, 30000, 65536, 262144
OWN_HEAP = """#include <stddef.h>
#include <string.h>
#include <sys/mman.h>
#include <unistd.h>
struct head { size_t size, tag; };
void *malloc(size_t size)
{
    struct head *it = mmap(NULL, size + sizeof *it, PROT_READ | PROT_WRITE, MAP_PRIVATE | MAP_ANONYMOUS, -1, 0);
    if (it == MAP_FAILED)
        return NULL;
    *it = (struct head){size, 0x1234};
    return it + 1;
}
void free(void *block)
{
    struct head *it = (struct head *)block - 1;
    if (block && it->tag != 0x1234)
        _exit(99);
    if (block)
        munmap(it, it->size + sizeof *it);
}
void *calloc(size_t count, size_t size) { return malloc(count * size); }
void *realloc(void *old, size_t size)
{
    void *it = malloc(size);
    size_t before = old ? ((struct head *)old - 1)->size : 0;
    if (it && old)
        memcpy(it, old, before < size ? before : size);
    if (it)
        free(old);
    return it;
}
"""
HASHES_OF_C = """#include <argon2.h>
#include <stdio.h>
#include <stdlib.h>
int main(int count, char **words)
{
    char text[200];
    for (int at = 1; at < count; at += 1) {
        int made = argon2id_hash_encoded(1, atoi(words[at]), 1, "password", 8, "somesalt", 8, 32, text, 200);
        printf("%d%d%d ", made, argon2id_verify(text, "password", 8), argon2id_verify(text, "passwort", 8));
    }
    puts(text);
    return 0;
}
"""


def over_other_heaps(checks, folder, file):
    """Hashes of all sizes, made and verified over the heaps that programs bring, as over the C library's."""
    words = ["-std=gnu99", "-O1", "-w", "-I", HEADER.parent, "-x", "c", "-", "-x", "none", file, f"-Wl,-rpath,{file.parent},-z,now"]
    for name, text in (("hashes", HASHES_OF_C), ("own", OWN_HEAP + HASHES_OF_C)):
        checks.that(f"{name}.c, compiled", ran("gcc", *words, "-o", f"{folder}/{name}", input=text), (0, ""))
    expected = ran(f"{folder}/hashes", *map(str, SIZES))
    checks.that("hashes over the C library's heap", (expected[0], expected[1].split()[:-1]), (0, [f"00{VERIFY_MISMATCH}"] * len(SIZES)))
    checks.that("hashes over a heap of the program's own", ran(f"{folder}/own", *map(str, SIZES)), expected)
    for package, heap in HEAPS.items():
        if os.path.exists(heap):
            environment = {"LD_PRELOAD": heap, "EF_DISABLE_BANNER": "1"}
            checks.that(f"hashes over {package}", ran(f"{folder}/hashes", *map(str, SIZES), env=environment), expected)
        else:
            left_out(f"{package} is not installed", "no hash is made over it", 1)


def answers(checks, file):
    """What the interface promises beyond the calls beside Debian's: flags clear what they name, and an output may lie over an input."""
    library = loaded(file)
    # RFC 9106, 5.3
    it = {"t_cost": 3, "m_cost": 32, "lanes": 4, "threads": 4, "version": 0x13, "kind": 2, "outlen": 32, "null": None,
          "pwd": b"\1" * 32, "salt": b"\2" * 16, "secret": b"\3" * 8, "ad": b"\4" * 12, "callbacks": (), "by_name": False}
    expected = bytes.fromhex("0d640df58d78766c08c037a34a8b53c9d01ef0452d75b65eb52520e96b01e659")
    for flags, password, secret in ((0, 32, 8), (1, 0, 8), (2, 32, 0), (3, 0, 0)):
        answer, lengths, (found, _, found_secret, _, tag) = hashed_in(library, {**it, "flags": flags}, "hash")
        checks.that(f"RFC 9106's Argon2id, flags {flags}", (answer, tag[:32], lengths[0], lengths[2]), (OK, expected, password, secret))
        kept = found == (it["pwd"] if password else bytes(32)), found_secret == (it["secret"] if secret else bytes(8))
        checks.that(f"password and secret after flags {flags}", kept, (True, True))
    for lanes, expected_answer in ((1, OK), (2, OK), (0, -16)):
        tag = ctypes.create_string_buffer(32)
        answer = library.argon2id_hash_raw(1, 64, lanes, b"pw", SIZE(2), b"somesalt", SIZE(8), tag, SIZE(32))
        checks.that(f"{lanes} lanes", (answer, tag.raw != bytes(32)), (expected_answer, expected_answer == OK))
    over, apart = (ctypes.create_string_buffer(b"the password, over which the tag is written", 64) for _ in range(2))
    tag = ctypes.create_string_buffer(64)
    for password, to in ((apart, tag), (over, over)):
        found = library.argon2id_hash_raw(1, 64, 1, password, SIZE(43), b"somesalt", SIZE(8), to, SIZE(64))
        checks.that("a tag over its password, and beside it", found, OK)
    checks.that("a tag over its password", over.raw, tag.raw)


def with_library(file):
    """The environment in which programs find this library of Argon2, or Debian's."""
    return {**os.environ, **({"LD_LIBRARY_PATH": str(file.parent)} if file else {})}


PHP = """$told = isset($argv[1]) ? file_get_contents($argv[1]) : password_hash("secret", PASSWORD_ARGON2ID, ["memory_cost" => 1024, "time_cost" => 2, "threads" => 2]);
$is_ours = str_contains(file_get_contents("/proc/self/maps"), getenv("OURS"));
echo json_encode([password_verify("secret", $told), password_verify("no", $told), $is_ours]), $told;"""
PYTHON = """import argon2, json, os, sys
hasher = argon2.PasswordHasher(memory_cost=1024, time_cost=2)
text = open(sys.argv[1]).read() if len(sys.argv) > 1 else hasher.hash("secret")
def is_right(password):
    try:
        return hasher.verify(text, password)
    except argon2.exceptions.VerifyMismatchError:
        return False
print(json.dumps([is_right("secret"), is_right("no"), os.environ["OURS"] in open("/proc/self/maps").read()], separators=(",", ":")), end=text)"""


def of_passwords(checks, folder, file, name, *words):
    """A program makes a hash over each library, and verifies what it made over the other."""
    text = pathlib.Path(folder, "text")
    for maker, other in ((file, None), (None, file)):
        for which, how, given in ((maker, "makes", []), (other, "verifies", [text])):
            status, found = ran(*words, *given, env={**with_library(which), "OURS": str(file)})
            told, *rest = found.partition("$")
            expected = f"[true,false,{'true' if which else 'false'}]"
            checks.that(f"{name} {how}, {'ours' if which else 'Debian'}", (status, told), (0, expected))
            text.write_text("".join(rest), encoding="utf-8")


def volumes(checks, folder, file):
    """cryptsetup makes a volume in a file over each library, and opens it over the other."""
    if not is_there("cryptsetup", "no volume is made", 8):
        return
    costs = ["--pbkdf", "argon2id", "--pbkdf-memory", "1024", "--pbkdf-parallel", "2", "--pbkdf-force-iterations", "4"]
    for maker, other in ((file, None), (None, file)):
        volume = f"{folder}/volume-{'ours' if maker else 'Debian'}"
        ran("truncate", "-s", "24M", volume)
        words = ["luksFormat", "--batch-mode", "--type", "luks2", *costs, "--key-file", "-", volume]
        made = ran("cryptsetup", *words, env=with_library(maker), input="passphrase")
        if made[0] != 0 and maker is file and "ice" in made[1]:
            left_out(f"cryptsetup makes no volume here ({made[1].strip()[:60]})", "none is opened", 8)
            return
        checks.that(f"cryptsetup luksFormat: {volume[-6:]}", made, (0, ""))
        for which in (maker, other):
            for key, expected in (("passphrase", 0), ("other", 2)):
                words = ["open", "--test-passphrase", "--key-file", "-", volume]
                status, _ = ran("cryptsetup", *words, env=with_library(which), input=key)
                checks.that(f"cryptsetup opens {volume[-6:]}, {'ours' if which else 'Debian'}, {key}", status, expected)


def safes(checks, folder, file):
    """keepassxc-cli makes a file of passwords over each library, and opens it over the other."""
    if not is_there("keepassxc-cli", "no file of passwords is made", 6):
        return
    at_home = {"HOME": folder, "QT_QPA_PLATFORM": "offscreen", "LC_ALL": "C.UTF-8"}

    def command(given, which, *words):
        return ran("keepassxc-cli", *words, input=given, env={**with_library(which), **at_home})[0]

    for maker, other in ((file, None), (None, file)):
        safe = f"{folder}/{'ours' if maker else 'Debian'}.kdbx"
        checks.that(f"keepassxc-cli makes {safe}", command("pw\npw\n", maker, "db-create", "-q", "-p", "-t", "100", safe), 0)
        for password, expected in (("pw", 0), ("no", 1)):
            checks.that(f"keepassxc-cli opens that of the other, {password}", command(f"{password}\n", other, "ls", "-q", safe), expected)


def programs(checks, folder, file):
    """Programs of Debian, over Debian's library and this one."""
    if is_there("php", "no hash is made by it", 4):
        of_passwords(checks, folder, file, "php", "php", "-n", "-r", PHP, "--")
    if ran("/usr/bin/python3", "-c", "import argon2")[0] == 0:
        of_passwords(checks, folder, file, "python3-argon2", "/usr/bin/python3", "-c", PYTHON)
    else:
        left_out("python3-argon2 is not installed", "no hash is made by it", 4)
    volumes(checks, folder, file)
    safes(checks, folder, file)


def all_of(checks, folder, lib):
    built(checks, folder, lib)
    file = pathlib.Path(folder, "compat/libargon2.so.1")
    header(checks, folder)
    answers(checks, file)
    over_other_heaps(checks, folder, file)
    calls_of_c(checks, folder, file)
    openssl_of(checks, folder, file.parent)
    if DEBIANS.exists():
        programs(checks, folder, file)
        beside_debians(checks, file)
    else:
        left_out("libargon2-1 is not installed", "no program runs over both libraries, and no calls are made beside it", CALLS)


if __name__ == "__main__":
    over_library(all_of)
