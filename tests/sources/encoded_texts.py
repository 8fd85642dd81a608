#!/usr/bin/env python3
"""Which texts near an encoded text are encoded texts, by a regular expression and Python's base64.

Compares the tables of crates/argon_text_tests/src/tests/near_misses.rt: for each byte of the known text, what reading
answers where another byte stands in its place; of that and of the short text, where a byte is left out, where it
comes twice, and of each prefix. 0: it is read; 1: it is not in the grammar; 2: a value is out of range. Where that file
has other answers it prints these.
"""
import base64
import pathlib
import re
import sys

FILE = pathlib.Path("crates/argon_text_tests/src/tests/near_misses.rt")
KNOWN = "$argon2i$v=19$m=256,t=2,p=1$c29tZXNhbHQ$iekCn0Y3spW+sCcFanM2xBT63UP2sghkUoHLIUpWRS8"
SHORT = "$argon2i$m=256,t=2,p=1$c29tZXNhbHQ$/U3YPXYsSb3q9XxHvc0MLxur+GP960kN9j7emXX8zwY"
NUMBER = "(0|[1-9][0-9]*)"
TEXT = re.compile(r"\$argon2(d|i|id)(?:\$v=N)?\$m=N,t=N,p=N\$([A-Za-z0-9+/]*)\$([A-Za-z0-9+/]*)".replace("N", NUMBER), re.ASCII)


def decoded(symbols):
    """The bytes of base64 without padding; None where it is none, or its last bits are not zero."""
    if len(symbols) % 4 == 1:
        return None
    found = base64.b64decode(symbols + "=" * (-len(symbols) % 4), validate=True)
    return found if base64.b64encode(found).decode().rstrip("=") == symbols else None


def read(text):
    """What reading a text answers."""
    match = TEXT.fullmatch(text)
    salt, tag = map(decoded, match.group(6, 7)) if match else (None, None)
    if salt is None or tag is None:
        return "1"
    version, memory, passes, lanes = map(int, (match[2] or "16", *match.group(3, 4, 5)))
    in_range = version in (16, 19) and 1 <= passes < 2**32 and 1 <= lanes < 2**24 and 8 * lanes <= memory < 2**32 \
        and 8 <= len(salt) <= 255 and 4 <= len(tag) <= 4096
    return "0" if in_range else "2"


def work_of(kind, memory, passes, lanes):
    """The block functions of a hash of type 0, 1 or 2 (RFC 9106, 3.2 and 3.4.1.2)."""
    segment = memory // (4 * lanes)
    independent = [0, 4 * lanes * passes, 2 * lanes][kind]
    return passes * 4 * lanes * segment - 2 * lanes + 2 * -(-segment // 128) * independent


def row(known, near):
    """What reading answers where a text stands in the place of this one, at each of its places."""
    return "".join(read(near(known, at)) for at in range(len(known)))


def main():
    rows = [row(KNOWN, lambda known, at: known[:at] + byte + known[at + 1:]) for byte in "$,=+/06A-.\n"]
    for known in (KNOWN, SHORT):
        rows.append(row(known, lambda known, at: known[:at] + known[at + 1:]))
        rows.append(row(known, lambda known, at: known[:at + 1] + known[at:]))
        rows.append(row(known, lambda known, at: known[:at]))
    if re.findall('"([012]+)"', FILE.read_text(encoding="utf-8")) != rows:
        sys.exit("\n".join([f"{FILE} has other answers than this program", *rows]))


if __name__ == "__main__":
    main()
