#!/usr/bin/env python3
"""Compares what the definitions of hashes and of derivations come to with hashlib and, where it is installed, with libargon2, on
arguments at random.

    tests/definitions/beside.py [SEED]

The cases are the same for a seed, which is printed; without one it is 1.
"""
import ctypes
import hashlib
import hmac
import random
import sys

from run import Definitions, deeply  # it has the other folders of tests/
from checking import left_out
from values import Record, shown

LIBRARY = "libargon2.so.1"


def cases(draw, definitions, library):
    """What is compared: a name, what the definition comes to, and what it should."""
    def text(longest, least=0):
        return bytes(draw.randrange(256) for _ in range(draw.randint(least, longest)))

    def called(module, name, *given):
        return definitions.meaning_in(module, name)(*(tuple(it) if isinstance(it, bytes) else it for it in given))

    for _ in range(100):
        message, size = text(300), draw.randint(1, 64)
        yield f"BLAKE2b {message.hex()} {size}", called("blake.specs.Blake2b", "blake2b", size, message), \
            hashlib.blake2b(message, digest_size=size).digest()
    for _ in range(200):
        key, message = text(140), text(200)
        yield f"HMAC {key.hex()} {message.hex()}", called("macs.specs.HmacSha256", "hmac_sha256", key, message), \
            hmac.digest(key, message, "sha256")
    for _ in range(100):
        password, salt, size = text(70), text(70), draw.randint(1, 200)
        yield f"PBKDF2 {password.hex()} {salt.hex()} {size}", \
            called("macs.specs.Pbkdf2", "pbkdf2", password, salt, size), hashlib.pbkdf2_hmac("sha256", password, salt, 1, size)
    for _ in range(24):
        password, salt, size = text(70), text(40), draw.randint(1, 70)
        n, r, p = 2**draw.randint(1, 3), draw.randint(1, 3), draw.randint(1, 2)
        yield f"scrypt {password.hex()} {salt.hex()} {n} {r} {p} {size}", \
            called("romix.specs.Scrypt", "scrypt", password, salt, n, r, p, size), \
            hashlib.scrypt(password, salt=salt, n=n, r=r, p=p, dklen=size)
    for kind in (*range(3), 0, 2) if library else ():
        numbers = {"kind": kind, "version": draw.choice((16, 19)), "passes": draw.randint(1, 2), "lanes": 1}
        numbers |= {"memory_kib": draw.randint(8, 12), "tag_len": draw.randint(4, 80)}
        password, salt = text(30), text(20, 8)
        numbers |= {"salt_len": len(salt), "password_len": len(password)}
        given = Record(password=tuple(password), salt=tuple(salt), secret=(), associated=())
        tag = ctypes.create_string_buffer(numbers["tag_len"])
        costs = numbers["passes"], numbers["memory_kib"], 1
        fault = library.argon2_hash(*costs, password, len(password), salt, len(salt), tag, len(tag), None, 0, kind, numbers["version"])
        yield f"Argon2 {numbers} {password.hex()} {salt.hex()}", called("argon.specs.Argon2", "argon2_tag", Record(numbers), given), \
            tag.raw if fault == 0 else b""


def main(seed):
    print(f"seed {seed}")
    try:
        library = ctypes.CDLL(LIBRARY)
        number, size, text = ctypes.c_uint32, ctypes.c_size_t, ctypes.c_char_p
        library.argon2_hash.argtypes = [number, number, number, text, size, text, size, text, size, text, size, ctypes.c_int, number]
    except OSError:
        library = left_out(f"{LIBRARY} is not installed", "the definitions of Argon2 beside it")
    definitions, passed, failed = Definitions(), 0, 0
    for name, found, expected in cases(random.Random(seed), definitions, library):
        if bytes(found) == expected:
            passed += 1
        else:
            failed += 1
            print(f"FAILED: {name}: {shown(found)} is not {shown(tuple(expected))}")
    print(f"{passed} passed, {failed} failed")
    return 1 if failed else 0


if __name__ == "__main__":
    sys.exit(deeply(lambda: main(int(sys.argv[1]) if sys.argv[1:] else 1)) != 0)
