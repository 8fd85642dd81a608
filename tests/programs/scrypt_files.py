"""What the tests of the built scrypt share: files and what opens them, and the lines of its refusals.

The two short files were made by Python's hashlib.scrypt and hmac with OpenSSL's aes-256-ctr, and Debian's scrypt (package
scrypt, version 1.3.1) opens them.
"""
import hashlib

import values_table

SALT = bytes(range(32)).hex()
# The passphrase is pw, N is 16, r and p are 1, the salt is SALT; the text is empty, or hello.
HEADER = bytes.fromhex(
    "73637279707400040000000100000001000102030405060708090a0b0c0d0e0f101112131415161718191a1b1c1d1e1f"
    "1d82fc58a29c853312a1e6a48fe98f8b051b8b6444079bef986b3d3c6d1df86cf5c61735c73ccf3a91c00c4042fac38a"
)
F0 = HEADER + bytes.fromhex("5bb3efa8e3ab1f98f2a734df4bdefbb608eb96705dc5ac5de43edab725b2541a")
F5 = HEADER + bytes.fromhex("a3ca5b5806faf691951296a9925e754d1b00d8f6acaa79868e221cd3c40efb4bdd9ffb35b8")

COSTS = "--logN 4 -r 1 -p 1"
FIXED = f"{COSTS} --salt {SALT}"
FROM_PW = "--passphrase file:pw"


def of_costs(log_n, r, p, salt=bytes(range(32))):
    """The header of a file (FORMAT of Tarsnap's scrypt), but for its last code."""
    front = b"scrypt\0" + bytes([log_n]) + r.to_bytes(4, "big") + p.to_bytes(4, "big") + salt
    return front + hashlib.sha256(front).digest()[:16]


# What lies in the folder in which the program runs.
FILES = {
    "empty": b"", "hello": b"hello", "F0": F0, "F5": F5,
    **{f"F5-cut-{length}": F5[:length] for length in (130, 127, 95)}, "F5-version-1": F5[:6] + b"\1" + F5[7:],
    **{name: of_costs(*costs) + bytes(32) for name, costs in (
        ("huge", (63, 1, 1)), ("no-r", (4, 0, 1)), ("no-log-n", (0, 1, 1)), ("4-gib-and-more", (23, 8, 1)),
        ("much-work", (20, 1, 4096)))},
    "pw": b"pw\n", "pw-cr-lf": b"pw\r\nsecond line", "pw-alone": b"pw", "other-pw": b"pv\n", "pw-bytes": b"\xff\x01\x80pw\n",
    "pw-2048": b"p" * 2048, "pw-2049": b"p" * 2049, "pw-2048-line": b"p" * 2048 + b"\n" + b"q" * 3000,
}

# The variables that it sees beside PATH.
ENVIRONMENT = {
    "PW": "pw", "PW_LINE": "pw\nmore", "PW_LONG": "pw\n" + "x" * 5000, "PW_2049": "p" * 2049, "PW_BYTES": b"\xff\x01\x80pw"
}

LINES = {number: line.encode() + b"\n" for _, number, _, line, _ in values_table.rows("message")}
