"""The words of the toolchain's libraries that definitions of specs/ use: how many arguments each takes, and its value, as the
library's own definition has it. Lists, and texts as lists of bytes, are tuples; numbers are those of ℕ, so a difference is
0 where the second is the greater. SHA-256 is hashlib's.
"""
import base64
import hashlib
from itertools import takewhile

from values import NONE, Case, applied, error, ok, some


def entry_or(items, at, otherwise):
    return items[at] if at < len(items) else otherwise


def with_entry(items, at, value):
    return items[:at] + (value,) + items[at + 1:] if at < len(items) else items


def power(base, exponent):
    if exponent * base.bit_length() > 1 << 24:
        raise OverflowError(f"{base} ^ {exponent}")
    return base**exponent


def replicated(times, item):
    if times > 1 << 22:
        raise OverflowError(f"a list of {times}")
    return (item,) * times


def counted(start, count):
    if count > 1 << 22:
        raise OverflowError(f"a list of {count}")
    return tuple(range(start, start + count))


def folded(step, value, items):
    for it in items:
        value = applied(step, value, it)
    return value


def begun(test, items):
    """How many of the first items pass a test."""
    return len([*takewhile(lambda it: applied(test, it), items)])


def before(test, items):
    return begun(lambda it: not applied(test, it), items)


def found(test, items, answer):
    at = before(test, items)
    return some(answer(at)) if at < len(items) else NONE


def number_of_digits(radix, digits):
    value = 0
    for it in digits:
        value = value * radix + (it - 48)
    return value


def rotated(width, value, by):
    """To the left, within so many bits."""
    by %= width
    return (value << by) % (1 << width) | (value % (1 << width)) >> (width - by)


def unhexed(text, count):
    if len(text) % 2:
        return error("OddLength")
    if len(text) // 2 != count:
        return error("InvalidStringLength")
    if not all(it in b"0123456789abcdefABCDEF" for it in text):
        return error("InvalidHexCharacter")
    return ok(tuple(bytes.fromhex(bytes(text).decode())))


def are_same_options(are_same, left, right):
    return applied(are_same, left[1], right[1]) if is_some(left) and is_some(right) else is_some(left) == is_some(right)


def begins_with(are_same, items, others):
    return len(others) <= len(items) and all(applied(are_same, *it) for it in zip(items, others))


def is_some(option):
    return option[0] == "Some"


WORDS = {
    # numbers
    "◌+◌": (2, lambda a, b: a + b), "◌-◌": (2, lambda a, b: max(a - b, 0)), "◌*◌": (2, lambda a, b: a * b), "◌^◌": (2, power),
    "◌/◌": (2, lambda a, b: a // b if b else 0), "◌%◌": (2, lambda a, b: a % b if b else a),
    "div_ceil": (2, lambda a, b: -(-a // b)), "suc": (1, lambda a: a + 1), "min": (2, min), "max": (2, max),
    "nat_eq": (2, lambda a, b: a == b), "nat_lt": (2, lambda a, b: a < b), "nat_le": (2, lambda a, b: a <= b),
    "bit_xor": (2, lambda a, b: a ^ b), "bit_and": (2, lambda a, b: a & b), "bit_at": (2, lambda a, at: a >> at & 1),
    "bit_not": (2, lambda width, a: (1 << width) - 1 - a), "rotate_left": (3, rotated),
    "rotate_right": (3, lambda width, a, by: rotated(width, a, width - by % width)),
    "to_be_bytes": (2, lambda width, a: tuple((a % (1 << width)).to_bytes(width // 8, "big"))),
    "from_be_bytes": (2, lambda width, items: sum(entry_or(items, it, 0) << width - 8 - 8 * it for it in range(width // 8))),
    "little_bytes": (2, lambda count, a: tuple((a % 256**count).to_bytes(count, "little"))),
    "little_number": (2, lambda count, items: sum(entry_or(items, it, 0) << 8 * it for it in range(count))),
    "number_l": (2, lambda radix, items: sum(it * radix**at for at, it in enumerate(items))),
    # yes and no
    "◌==◌": (2, lambda a, b: a == b), "not": (1, lambda a: not a), "cond": (3, lambda test, a, b: a if test else b),
    # lists
    "◌∷◌": (2, lambda first, others: (first,) + others), "◌++◌": (2, lambda a, b: a + b), "length": (1, len),
    "take": (2, lambda count, items: items[:count]), "drop": (2, lambda count, items: items[count:]),
    "replicate": (2, replicated), "range_with_len": (2, counted),
    "map": (2, lambda change, items: tuple(applied(change, it) for it in items)), "fold": (3, folded),
    "filter": (2, lambda test, items: tuple(it for it in items if applied(test, it))),
    "flat_map": (2, lambda change, items: tuple(it for part in items for it in applied(change, part))),
    "concat": (1, lambda items: tuple(it for part in items for it in part)),
    "zip2": (3, lambda join, left, right: tuple(applied(join, *it) for it in zip(left, right))),
    "sum_by": (2, lambda value, items: sum(applied(value, it) for it in items)),
    "count_by": (2, lambda test, items: sum(1 for it in items if applied(test, it))),
    "list_all": (2, lambda test, items: all(applied(test, it) for it in items)),
    "list_any": (2, lambda test, items: any(applied(test, it) for it in items)),
    "get_or": (3, entry_or), "slice_index_or": (3, entry_or), "slice_index": (2, lambda items, at: entry_or(items, at, 0)),
    "slice_get": (2, lambda items, at: some(items[at]) if at < len(items) else NONE),
    "set": (3, with_entry), "slice_set": (3, with_entry), "remove": (2, lambda items, at: items[:at] + items[at + 1:]),
    "position_or_len": (2, before), "position": (2, lambda test, items: found(test, items, lambda at: at)),
    "find": (2, lambda test, items: found(test, items, lambda at: items[at])),
    "before_first": (2, lambda test, items: items[:before(test, items)]),
    "after_first": (2, lambda test, items: items[before(test, items) + 1:]), "starts_with": (3, begins_with),
    # options and results
    "is_some": (1, is_some), "is_none": (1, lambda it: not is_some(it)), "is_ok": (1, lambda it: it[0] == "Ok"),
    "ok_or": (2, lambda it, otherwise: ok(it[1]) if is_some(it) else error(otherwise)),
    "option_map": (2, lambda change, it: some(applied(change, it[1])) if is_some(it) else NONE),
    "option_and_then": (2, lambda change, it: applied(change, it[1]) if is_some(it) else NONE),
    "option_map_or": (3, lambda change, it, otherwise: applied(change, it[1]) if is_some(it) else otherwise),
    "option_or": (2, lambda a, b: a if is_some(a) else b), "option_eq": (3, are_same_options),
    "unwrap_or": (2, lambda it, otherwise: it[1] if is_some(it) else otherwise),
    "result_ok": (1, lambda it: some(it[1]) if it[0] == "Ok" else NONE), "box_value": (1, lambda it: it),
    # texts
    "codes": (1, lambda text: text), "bytes_eq": (2, lambda a, b: a == b), "decimal": (1, lambda a: tuple(str(a).encode())),
    "is_ascii_digit": (1, lambda it: 48 <= it <= 57), "digits_value": (2, number_of_digits),
    "to_ascii_lowercase": (1, lambda it: it + 32 if 65 <= it <= 90 else it),
    "chars": (1, lambda text: tuple(map(ord, bytes(text).decode("utf-8", "replace")))),
    "encode_utf8": (1, lambda it: tuple(chr(it).encode())), "encode_lower": (1, lambda items: tuple(bytes(items).hex().encode())),
    "decode_sized": (2, unhexed),
    "encode_of": (2, lambda engine, items: tuple(base64.b64encode(bytes(items)).rstrip(b"="))),  # of the one engine below
    "sha256": (1, lambda message: tuple(hashlib.sha256(bytes(message)).digest())),
    # what takes none
    "zero": (0, 0), "true": (0, True), "false": (0, False), "[]": (0, ()), "w32": (0, 32), "w64": (0, 64),
    "standard_no_pad": (0, Case(("standard_no_pad",))),
}
CASES = {"Some", "Ok", "Err", "None", "tt", "pos", "negsuc"}
