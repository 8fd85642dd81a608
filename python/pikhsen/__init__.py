"""Argon2, scrypt and scrypt's encrypted files, by libpikhsen.

These are all calls; `help(pikhsen.verify)` says everything about one.

Hashes of passwords, by Argon2:

    encode(password, *, salt=None, SETTINGS, KEYED, LIMITS) -> str
        the text to keep for a password
    verify(text, password, *, KEYED, LIMITS) -> bool
        whether the password is that of the text
    needs_rehash(text, *, SETTINGS, salt_len=16) -> bool
        whether the text was made with other settings
    settings(text) -> Settings
        what the text says of its settings
    hash(password, salt, *, SETTINGS, KEYED, LIMITS) -> bytes
        the tag alone

    SETTINGS: passes=3, memory_kib=65536, lanes=4, length=32,
              kind=Kind.ID, version=0x13
    KEYED: secret=b"", associated=b""
    LIMITS: max_kib=1 << 22, max_ops=1 << 33

Encrypted files and keys, by scrypt:

    encrypt(text, passphrase, *, salt=None, COSTS) -> bytes
        the encrypted file of a text
    decrypt(file, passphrase, *, BOUNDS) -> bytes
        the text of an encrypted file
    encrypt_file(source, target, passphrase, *, salt=None, progress=None, COSTS) -> None
        encrypts a file of any length
    decrypt_file(source, target, passphrase, *, progress=None, BOUNDS) -> None
        decrypts a file of any length
    Encryptor(passphrase, *, salt=None, COSTS) -> Encryptor
        encrypts in pieces, by `update` and `finish`
    Decryptor(passphrase, *, BOUNDS) -> Decryptor
        decrypts in pieces, by `update` and `finish`
    encrypt_in_place(buffer, passphrase, *, salt=None, COSTS) -> None
        puts the encrypted file into the buffer of its text
    info(file) -> Costs
        what opening a file takes
    scrypt(password, salt, *, length=64, COSTS) -> bytes
        a key

    COSTS: log_n=17, r=8, p=1, keep=1, max_bytes=1 << 32, max_ops=1 << 33
    BOUNDS: keep=1, max_bytes=1 << 32, max_ops=1 << 33

And of the library:

    version() -> str
        the version of the library
    message(status) -> str
        what a number of the library says

For example:

    >>> import pikhsen
    >>> stored = pikhsen.encode(b"correct horse")       # a text to keep, with a new salt
    >>> pikhsen.verify(stored, b"correct horse")
    True
    >>> file = pikhsen.encrypt(b"Dear Ada", b"passphrase")
    >>> pikhsen.decrypt(file, b"passphrase")
    b'Dear Ada'

Passwords, salts and files are bytes, or anything else that holds bytes: a bytearray, a memoryview, an mmap. A text
raises TypeError: `password.encode()` gives its bytes. Files that may be larger than the memory are for `encrypt_file`
and `decrypt_file`, or, in pieces that a program makes itself, for Encryptor and Decryptor. A refusal raises Refused,
whose `status` says why, and numbers that are out of range raise Invalid, a ValueError.

Limits: `max_kib` is in KiB, `max_bytes` in bytes. The work of Argon2 is counted in block functions, one for each KiB
and pass and a few more; that of scrypt in cores of Salsa20/8, 4 * r * p * 2 ** log_n of them with `keep` 1. On a Xeon
of 2.5 GHz a million block functions took 0.7 to 2.1 seconds, most at 256 MiB, and 2 ** 28 cores 20 to 27. If no others
are given, the limits are those of the programs argon2 and scrypt: 4 GiB, and work for hours by Argon2, or a quarter of
an hour by scrypt. A SERVER THAT READS HASHES OR FILES OF STRANGERS GIVES LOWER ONES: `max_kib=1 << 20, max_ops=1 << 23`
for a hash, `max_bytes=1 << 30, max_ops=1 << 28` for a file. LimitExceeded has what was `needed`.

Ctrl-C does not shorten a call: it goes on to its end, and then KeyboardInterrupt is raised in place of its result.
`encrypt_file` and `decrypt_file` heed it after the key, and after each piece, and leave no new file, nor a part of one
or a descriptor, at whatever moment it comes; the buffer of `encrypt_in_place` may hold the file. So limits are what bounds the time. Ctrl-\\ ends the process at once, and leaves a
part of a new file, under a name that begins with ".pikhsen-". A call that somebody may want to stop is best made in a
process of its own.

Threads and processes: a call lets other threads run meanwhile, and any number of calls may run at a time, but for those
of one Encryptor or Decryptor, which wait for each other. Work is best spread over threads; with processes use the start
methods spawn or forkserver of multiprocessing, since the library must not be called in the forked child of a process
with threads.

The library is the file that the variable PIKHSEN_LIBRARY names; or the one that lies beside this module, as in a wheel,
or that `make install` installed with it; or libpikhsen.so.0, if the system finds it. An empty value counts as none, and
under Python's options -E and -I the variable is not read.
"""
import ctypes
import enum
import operator
import os
import sys
import weakref
from ctypes import POINTER, byref, c_char_p, c_size_t, c_ubyte, c_uint, c_ulong, c_void_p
from typing import TYPE_CHECKING, Any, Callable, Dict, List, NamedTuple, Optional, Type, Union

__all__ = [
    "BytesLike", "Costs", "Damaged", "Decryptor", "Encryptor", "Invalid", "Kind", "LimitExceeded", "NotAFile",
    "OutOfMemory", "Refused", "Settings", "Status", "WrongPassphrase", "decrypt", "decrypt_file", "encode", "encrypt",
    "encrypt_file", "encrypt_in_place", "hash", "info", "message", "needs_rehash", "scrypt", "settings", "verify",
    "version",
]

# What is taken for bytes: all that a memoryview can be made of, so no str; and which of these can be written. In Python
# 3.9 only checkers of types have names for that; a program that runs finds some of these types here.
if TYPE_CHECKING:
    from _typeshed import ReadableBuffer as BytesLike, WriteableBuffer
else:
    BytesLike, WriteableBuffer = Union[bytes, bytearray, memoryview], Union[bytearray, memoryview]
Path = Union[str, bytes, "os.PathLike[str]", "os.PathLike[bytes]"]


class Kind(enum.IntEnum):
    """The types of Argon2 (RFC 9106, 3.1)."""

    D = 0
    I = 1
    ID = 2


class Status(enum.IntEnum):
    """The result of a call, by the numbers of pikhsen.h."""

    OK = 0
    PASSES = 1
    LANES = 2
    MEMORY = 3
    TAG_LENGTH = 4
    SALT_LENGTH = 5
    PASSWORD_LENGTH = 6
    MEMORY_LIMIT = 7
    WORK_LIMIT = 8
    OUT_OF_MEMORY = 9
    KIND = 10
    ARGON2_VERSION = 11
    INPUT_LENGTH = 12
    BUFFER = 13
    NOT_ENCODED = 14
    OUT_OF_RANGE = 15
    MISMATCH = 16
    LOG_N = 17
    ZERO = 18
    PRODUCT = 19
    KEEP = 20
    KEEP_ABOVE_N = 21
    MAGIC = 22
    FORMAT_VERSION = 23
    CHECKSUM = 24
    FILE_COSTS = 25
    TOO_SHORT = 26
    WRONG_PASSPHRASE = 27
    DAMAGED = 28
    TOO_LONG = 29
    FILE_SALT = 30
    TEXT_VERSION = 31
    TEXT_PASSES = 32
    TEXT_LANES = 33
    TEXT_MEMORY = 34
    TEXT_TAG_LENGTH = 35
    TEXT_SALT_LENGTH = 36
    STREAM = 37


# What the statuses say, as pikhsen.h and man 3 pikhsen do, but for BUFFER: of what a program in Python gives, the length of
# a key by scrypt is refused so, and a buffer of fewer than 128 bytes for a file in place.
_SENTENCES: Dict[int, str] = {
    Status.OK: "the call did its work",
    Status.PASSES: "Argon2: passes are not 1 to 2^32-1",
    Status.LANES: "Argon2: lanes are not 1 to 2^24-1",
    Status.MEMORY: "Argon2: memory is not 8 * lanes to 2^32-1 KiB",
    Status.TAG_LENGTH: "Argon2: the tag is not 4 to 4096 bytes long",
    Status.SALT_LENGTH: "Argon2: the salt is not 8 to 255 bytes long",
    Status.PASSWORD_LENGTH: "Argon2: the password is 2^32 bytes or longer",
    Status.MEMORY_LIMIT: "more memory is needed than the limit allows",
    Status.WORK_LIMIT: "more work is needed than the limit allows",
    Status.OUT_OF_MEMORY: "memory was refused",
    Status.KIND: "Argon2: the kind is not 0, 1 or 2",
    Status.ARGON2_VERSION: "Argon2: the version is not 0x10 or 0x13",
    Status.INPUT_LENGTH: "Argon2: the secret or the data is 2^32 bytes or longer",
    Status.BUFFER: "scrypt: the key's length is not 0 to 32 * (2^32-1), or the buffer has fewer than 128 bytes",
    Status.NOT_ENCODED: "the text is not an encoded hash",
    Status.OUT_OF_RANGE: "the text is an encoded hash with a value out of range",
    Status.MISMATCH: "the password is not that of the text",
    Status.LOG_N: "scrypt: log2 N is not 1 to 63",
    Status.ZERO: "scrypt: r or p is below 1",
    Status.PRODUCT: "scrypt: r * p is 2^30 or more",
    Status.KEEP: "scrypt: keep is not a power of two from 1 to 1024",
    Status.KEEP_ABOVE_N: "scrypt: keep is above N",
    Status.MAGIC: 'file: it does not begin with "scrypt"',
    Status.FORMAT_VERSION: "file: the version of its format is not 0",
    Status.CHECKSUM: "file: the checksum of its header is wrong",
    Status.FILE_COSTS: "file: its costs are out of range",
    Status.TOO_SHORT: "file: it is shorter than 96 bytes, or than 64 to read its costs alone",
    Status.WRONG_PASSPHRASE: "file: the passphrase is not the file's",
    Status.DAMAGED: "file: it is damaged, or cut short, after its first 96 bytes",
    Status.TOO_LONG: "file: the text is 2^60 bytes or longer",
    Status.FILE_SALT: "file: the salt is not 32 bytes long",
    Status.TEXT_VERSION: "text: its version is not 16 or 19",
    Status.TEXT_PASSES: "text: its passes are not 1 to 2^32-1",
    Status.TEXT_LANES: "text: its lanes are not 1 to 2^24-1",
    Status.TEXT_MEMORY: "text: its memory is not 8 * lanes to 2^32-1 KiB",
    Status.TEXT_TAG_LENGTH: "text: its tag is not 4 to 4096 bytes long",
    Status.TEXT_SALT_LENGTH: "text: its salt is not 8 to 255 bytes long",
    Status.STREAM: "file: the stream runs already, or does not run in this direction",
}


class Refused(Exception):
    """A call was refused. Its text says why, and `status` is the Status.

    A library that is newer than this module may return a number that is no Status; `status` is then that number.
    """

    def __init__(self, status: Union[Status, int], *others: object) -> None:
        super().__init__(status, *others)

    @property
    def status(self) -> Union[Status, int]:
        """Why the call was refused."""
        told: Union[Status, int] = self.args[0]
        return told

    def __str__(self) -> str:
        return _SENTENCES.get(self.status, f"refused for a reason that this module does not know: {self.status}")


class Invalid(Refused, ValueError):
    """An argument is out of range, or a text is no encoded text."""


class LimitExceeded(Refused, ValueError):
    """More memory or work is needed than a limit allows. The text tells both, and names the parameter to raise."""

    def __init__(self, status: Status, what: str, needed: int, unit: str, parameter: str, allowed: int) -> None:
        super().__init__(status, what, needed, unit, parameter, allowed)

    @property
    def needed(self) -> int:
        """The least value of the parameter that is enough. None is above 2 ** 40 bytes, or work of 2 ** 64 - 1."""
        told: int = self.args[2]
        return told

    @property
    def allowed(self) -> int:
        """The value that the parameter has."""
        told: int = self.args[5]
        return told

    def __str__(self) -> str:
        _, what, needed, unit, parameter, allowed = self.args
        return f"{what} takes {needed} {unit}, and {parameter} allows {allowed}"


class OutOfMemory(MemoryError, Refused):
    """Memory was refused. This is a MemoryError and a Refused, and no ValueError."""

    __init__ = Refused.__init__


class NotAFile(Refused, ValueError):
    """The bytes do not begin as an encrypted file of version 0."""


class WrongPassphrase(Refused, ValueError):
    """The passphrase is not the file's."""


class Damaged(Refused, ValueError):
    """The file is damaged, or cut short, after its first 96 bytes. Nothing of its text is returned."""


# All other statuses are Invalid.
_EXCEPTIONS: Dict[int, Type[Refused]] = {
    Status.MEMORY_LIMIT: LimitExceeded,
    Status.WORK_LIMIT: LimitExceeded,
    Status.OUT_OF_MEMORY: OutOfMemory,
    Status.MAGIC: NotAFile,
    Status.FORMAT_VERSION: NotAFile,
    Status.CHECKSUM: NotAFile,
    Status.FILE_COSTS: NotAFile,
    Status.TOO_SHORT: NotAFile,
    Status.WRONG_PASSPHRASE: WrongPassphrase,
    Status.DAMAGED: Damaged,
}


class Costs(NamedTuple):
    """What opening a file takes: N is 2 ** log_n; the memory is 128 * N * r bytes (RFC 7914, 2)."""

    log_n: int
    r: int
    p: int


class Settings(NamedTuple):
    """What an encoded text says of its hash: how it was made, and the lengths of its salt and its tag, in bytes."""

    kind: Kind
    version: int
    passes: int
    memory_kib: int
    lanes: int
    salt_len: int
    length: int


class _Costs(ctypes.Structure):
    _fields_ = [("log_n", c_uint), ("r", c_uint), ("p", c_uint)]


class _Settings(ctypes.Structure):
    _fields_ = [
        ("kind", c_uint), ("version", c_uint), ("passes", c_uint), ("memory_kib", c_uint), ("lanes", c_uint),
        ("salt_len", c_size_t), ("tag_len", c_size_t),
    ]


# A file in pieces.
class _Stream(ctypes.Structure):
    _fields_ = [("runs", c_ubyte), ("state", c_void_p)]

    def free(self) -> None:
        _lib.pikhsen_stream_free(byref(self))


# The first number of the version of the library that this module is made for.
_MAJOR = 0
_TOP = (1 << 32) - 1
_BYTES = [c_char_p, c_size_t]
_LIMITS = [c_ulong, c_ulong]
_PARAMETERS = {
    "pikhsen_version": [],
    "pikhsen_message": [c_uint] + _BYTES + [POINTER(c_size_t)],
    "pikhsen_argon2_hash": [c_uint] * 5 + 4 * _BYTES + [c_uint, c_ulong] + _BYTES,
    "pikhsen_argon2_encoded": (
        [c_uint] * 5 + 2 * _BYTES + [c_size_t, c_uint, c_ulong] + _BYTES + [POINTER(c_size_t)]
    ),
    "pikhsen_argon2_verify": 2 * _BYTES + [c_uint, c_ulong],
    "pikhsen_argon2_encoded_keyed": (
        [c_uint] * 5 + 4 * _BYTES + [c_size_t, c_uint, c_ulong] + _BYTES + [POINTER(c_size_t)]
    ),
    "pikhsen_argon2_verify_keyed": 4 * _BYTES + [c_uint, c_ulong],
    "pikhsen_argon2_settings": _BYTES + [POINTER(_Settings)],
    "pikhsen_argon2_needs_rehash": _BYTES + [POINTER(_Settings), POINTER(c_uint)],
    "pikhsen_scrypt": 2 * _BYTES + [c_uint] * 4 + _LIMITS + _BYTES,
    "pikhsen_scrypt_info": _BYTES + [POINTER(_Costs)],
    "pikhsen_scrypt_encrypt": 2 * _BYTES + [c_uint] * 4 + _LIMITS + 2 * _BYTES,
    "pikhsen_scrypt_encrypt_in_place": 2 * _BYTES + [c_uint] * 4 + _LIMITS + _BYTES,
    "pikhsen_scrypt_decrypt": _BYTES + [c_uint] + _LIMITS + 2 * _BYTES + [POINTER(c_size_t)],
    "pikhsen_scrypt_encrypt_start": 2 * _BYTES + [c_uint] * 4 + _LIMITS + [POINTER(_Stream)] + _BYTES,
    "pikhsen_scrypt_encrypt_feed": [POINTER(_Stream)] + _BYTES,
    "pikhsen_scrypt_encrypt_finish": [POINTER(_Stream)] + _BYTES,
    "pikhsen_scrypt_decrypt_start": _BYTES + [c_uint] + _LIMITS + _BYTES + [POINTER(_Stream)],
    "pikhsen_scrypt_decrypt_feed": [POINTER(_Stream)] + 2 * _BYTES + [POINTER(c_size_t)],
    "pikhsen_scrypt_decrypt_finish": [POINTER(_Stream)],
    "pikhsen_stream_free": [POINTER(_Stream)],
}


def _loaded() -> ctypes.CDLL:
    """The library, with the parameters of its functions, if it has the version that this module is made for."""
    named = "" if sys.flags.ignore_environment else os.environ.get("PIKHSEN_LIBRARY", "")
    # in a wheel it is beside this file; `make install` put it below the prefix of share/pikhsen/pikhsen/__init__.py
    file = os.path.abspath(__file__)
    prefix, is_installed, _ = file.rpartition("/share/pikhsen/pikhsen/__init__.py")
    folder = f"{prefix}/lib" if is_installed else os.path.dirname(file)
    # of a name without a folder the loader takes the library for the processor's level by itself
    for level in ("glibc-hwcaps/x86-64-v3/",) * _has_v3() + ("",):
        beside = f"{folder}/{level}libpikhsen.so.0"
        if not named and os.path.exists(beside):
            named = beside
    try:
        library = ctypes.CDLL(named or "libpikhsen.so.0")
        for name, parameters in _PARAMETERS.items():
            function = getattr(library, name)
            function.argtypes, function.restype = parameters, c_uint
    except (AttributeError, OSError) as why:
        raise ImportError(f"libpikhsen can't be loaded (PIKHSEN_LIBRARY may name its file): {why}") from None
    number = library.pikhsen_version()
    if number // 10000 != _MAJOR:
        raise ImportError(f"libpikhsen has the version {_dotted(number)}, and this module is for {_MAJOR}.x")
    return library


def _has_v3() -> bool:
    """Whether the processor has the level x86-64-v3."""
    try:
        with open("/proc/cpuinfo", encoding="ascii", errors="replace") as about:
            flags = next((line for line in about if line.startswith("flags")), "")
    except OSError:
        return False
    return {"abm", "avx2", "bmi1", "bmi2", "f16c", "fma", "movbe"} <= set(flags.split())


def _dotted(number: int) -> str:
    return f"{number // 10000}.{number // 100 % 100}.{number % 100}"


_lib = _loaded()
# Each stream, by a reference to who has it, which does not keep it.
_streams: Dict[object, object] = {}


class _OfNobody:
    """The stream of who is gone, as ctypes asks for a parameter."""

    from_param = _streams.pop


# Not by `__del__`: the handler of a signal may raise before the first line of that. From here on there is C alone.
_wipe: Any = _lib["pikhsen_stream_free"]
_wipe.argtypes, _wipe.restype = [_OfNobody], c_uint


def _stream_of(owner: object) -> _Stream:
    """A stream. What the library keeps of it, the keys among it, is wiped and freed when nobody has the owner any more."""
    stream = _Stream()
    _streams[weakref.ref(owner, _wipe)] = byref(stream)
    return stream


# Makes what a call raises whose limits are exceeded, of the status.
_Exceeded = Callable[[Status], Refused]


def _call(function: Callable[..., int], *arguments: object, exceeded: _Exceeded = Refused) -> None:
    """Calls the function, with each bytes or buffer as a pointer and a length, and raises what it is refused for."""
    _judge(_number(function, *arguments), exceeded)


def _number(function: Callable[..., int], *arguments: object) -> int:
    """What the function answers, with each bytes or buffer as a pointer and a length."""
    flat: List[object] = []
    for given in arguments:
        flat += [given, len(given)] if isinstance(given, (bytes, ctypes.Array)) else [given]
    return function(*flat)


def _judge(number: int, exceeded: _Exceeded = Refused) -> None:
    """Raises what a call was refused for, if it was."""
    if number not in _SENTENCES:
        raise Refused(number)
    if number != Status.OK:
        raises = _EXCEPTIONS.get(number, Invalid)
        raise exceeded(Status(number)) if raises is LimitExceeded else raises(Status(number))


def _hash_exceeds(
    status: Status, kind: int, version: int, passes: int, memory_kib: int, lanes: int, max_kib: int, max_ops: int
) -> LimitExceeded:
    """Of a hash with these settings, in range: its blocks, or its block functions (RFC 9106, 3.2 and 3.4.1.2)."""
    segment = memory_kib // (4 * lanes)
    blocks = 4 * lanes * segment
    if status == Status.MEMORY_LIMIT:
        return LimitExceeded(status, "the hash", blocks, "KiB", "max_kib", max_kib)
    # two more for every 128 blocks of a segment whose accesses do not depend on the password
    independent = {Kind.D: 0, Kind.I: 4 * lanes * passes, Kind.ID: 2 * lanes}[Kind(kind)]
    ops = passes * blocks - 2 * lanes + 2 * -(-segment // 128) * independent
    return LimitExceeded(status, "the hash", ops, "block functions", "max_ops", max_ops)


def _key_exceeds(status: Status, log_n: int, r: int, p: int, keep: int, max_bytes: int, max_ops: int) -> LimitExceeded:
    """Of a key with these costs, in range: the greater of the rows that are kept and the parts, or its cores (RFC 7914,
    4 to 6)."""
    n = 1 << log_n
    if status == Status.MEMORY_LIMIT:
        held = 128 * r * max(n // keep, p)
        return LimitExceeded(status, "the key", held, "bytes", "max_bytes", min(max_bytes, 1 << 40))
    return LimitExceeded(status, "the key", 2 * r * p * n * (1 + keep), "cores of Salsa20/8", "max_ops", max_ops)


def _view(given: BytesLike) -> memoryview:
    """What holds bytes. A text is refused with what to do, and is not shown: it may be a password."""
    if isinstance(given, str):
        raise TypeError('bytes are wanted here, and not a text: "..".encode() gives its bytes')
    return memoryview(given)


def _bytes(given: BytesLike) -> bytes:
    """Plain bytes, whose length is what `len` tells."""
    return given if type(given) is bytes else _view(given).tobytes()


def _ascii(text: Union[str, BytesLike]) -> bytes:
    """The bytes of an encoded text. A question mark, which stands for what is not ASCII, is in none."""
    return str.encode(text, "ascii", "replace") if isinstance(text, str) else _bytes(text)


def _beginning(given: BytesLike, length: int) -> bytes:
    """The first bytes, so many if there are as many. No more items than that are copied."""
    view = _view(given)
    # what has no dimension is one item, and can't be cut
    return (view[:length] if view.ndim else view).tobytes()[:length]


def _u32(number: int, other: int = 0) -> int:
    """The number, or the other, which is refused for the same reason, where the number doesn't fit 32 bits."""
    number = operator.index(number)
    return number if 0 <= number <= _TOP else other


def _clamped(number: int, top: int = _TOP) -> int:
    """The number from 0 to the top that is nearest: as a limit, or as r or p, it is judged as the number is."""
    return min(max(operator.index(number), 0), top)


def _limits(max_bytes: int, max_ops: int) -> "tuple[int, int]":
    return _clamped(max_bytes, (1 << 64) - 1), _clamped(max_ops, (1 << 64) - 1)


def _argon2_settings(
    kind: int, version: int, passes: int, memory_kib: int, lanes: int
) -> "tuple[int, int, int, int, int]":
    return _u32(kind, _TOP), _u32(version), _u32(passes), _u32(memory_kib), _u32(lanes)


def _argon2_limits(max_kib: int, max_ops: int) -> "tuple[int, int]":
    return _clamped(max_kib), _clamped(max_ops, (1 << 64) - 1)


def _scrypt_settings(
    log_n: int, r: int, p: int, keep: int, max_bytes: int, max_ops: int
) -> "tuple[int, int, int, int, int, int]":
    return (_u32(log_n), _clamped(r), _clamped(p), _u32(keep), *_limits(max_bytes, max_ops))


def _tag_length(length: int) -> int:
    """The length, or 0, which is refused as it is."""
    length = operator.index(length)
    return length if 0 <= length <= 4096 else 0


def _file_salt(salt: Optional[BytesLike]) -> bytes:
    return os.urandom(32) if salt is None else _bytes(salt)


def _buffer(length: int) -> "ctypes.Array[ctypes.c_char]":
    return (ctypes.c_char * length)()


def _front(buffer: "ctypes.Array[ctypes.c_char]", length: int) -> bytes:
    # ctypes.string_at cuts a length to 32 bits.
    return memoryview(buffer)[:length].tobytes()


def version() -> str:
    """The version of the library, as "0.1.0"."""
    return _dotted(_lib.pikhsen_version())


def message(status: int) -> str:
    """What a number of the library says, as pikhsen.h has it. A newer library knows more numbers than this module."""
    out, text_len = _buffer(80), c_size_t()
    _call(_lib.pikhsen_message, _u32(status, _TOP), out, byref(text_len))
    return _front(out, text_len.value).decode()


def hash(
    password: BytesLike, salt: BytesLike, *, passes: int = 3, memory_kib: int = 65536, lanes: int = 4,
    length: int = 32, kind: int = Kind.ID, version: int = 0x13, secret: BytesLike = b"", associated: BytesLike = b"",
    max_kib: int = 1 << 22, max_ops: int = 1 << 33,
) -> bytes:
    """The tag of a password by Argon2 (RFC 9106), `length` bytes.

    The password has 0 to 2^32-1 bytes: AN EMPTY PASSWORD IS ACCEPTED. The salt has 8 to 255 bytes, the tag 4 to 4096.
    `memory_kib` is in KiB, at least 8 for each lane. If no others are given, the settings are those that RFC 9106
    recommends second: 64 MiB, 3 passes, 4 lanes. `version` is 0x13, or 0x10 for old hashes.

    Raises LimitExceeded, before memory is taken, if it needs more than `max_kib` KiB (4 GiB if not given) or `max_ops`
    block functions, and Invalid if an argument is out of range.
    """
    out, limits = _buffer(_tag_length(length)), _argon2_limits(max_kib, max_ops)
    numbers = _argon2_settings(kind, version, passes, memory_kib, lanes)
    _call(
        _lib.pikhsen_argon2_hash, *numbers, _bytes(password), _bytes(salt), _bytes(secret), _bytes(associated), *limits,
        out, exceeded=lambda status: _hash_exceeds(status, *numbers, *limits),
    )
    return out.raw


def encode(
    password: BytesLike, *, salt: Optional[BytesLike] = None, passes: int = 3, memory_kib: int = 65536, lanes: int = 4,
    length: int = 32, kind: int = Kind.ID, version: int = 0x13, secret: BytesLike = b"", associated: BytesLike = b"",
    max_kib: int = 1 << 22, max_ops: int = 1 << 33,
) -> str:
    """The encoded text of a password's hash, "$argon2id$v=19$m=..", to be kept and given to `verify`.

    The salt is new, 16 bytes, if none is given. Settings, limits and the EMPTY PASSWORD THAT IS ACCEPTED are those of
    `hash`: refuse an empty password before you enrol it. The text holds neither `secret` nor `associated`: `verify`
    takes the same two again.
    """
    salt = os.urandom(16) if salt is None else _bytes(salt)
    length = _tag_length(length)
    numbers, limits = _argon2_settings(kind, version, passes, memory_kib, lanes), _argon2_limits(max_kib, max_ops)
    # the room that PIKHSEN_ENCODED_ROOM tells, or more; a longer salt is refused
    out, text_len = _buffer(64 + 2 * min(len(salt), 255) + 2 * length), c_size_t()
    _call(
        _lib.pikhsen_argon2_encoded_keyed, *numbers, _bytes(password), salt, _bytes(secret), _bytes(associated), length,
        *limits, out, byref(text_len), exceeded=lambda status: _hash_exceeds(status, *numbers, *limits),
    )
    return _front(out, text_len.value).decode()


def verify(
    text: Union[str, BytesLike], password: BytesLike, *, secret: BytesLike = b"", associated: BytesLike = b"",
    max_kib: int = 1 << 22, max_ops: int = 1 << 33,
) -> bool:
    """Whether the password is that of an encoded text, a str or bytes, with nothing after it, not even a line end.

    If the text was made with `secret` or `associated`, give these again: with others, or without them, the result for
    the right password is False.

    The text may come from a stranger and ask for 4 TiB and days, so LimitExceeded is raised, before memory for the hash
    is taken, if it needs more than `max_kib` KiB (4 GiB if not given) or `max_ops` block functions, about passes *
    memory. A SERVER GIVES LOWER ONES, as `max_kib=1 << 20, max_ops=1 << 23`. Invalid is raised if it is no encoded
    text. No limit counts the bytes of the password, 0 to 2^32-1, and all of them are read once, so the time of a call
    grows with their number: a service bounds the length of what a stranger sends before it calls.
    """
    limits = _argon2_limits(max_kib, max_ops)
    try:
        _call(
            _lib.pikhsen_argon2_verify_keyed, _ascii(text), _bytes(password), _bytes(secret), _bytes(associated),
            *limits, exceeded=lambda status: _hash_exceeds(status, *settings(text)[:5], *limits),
        )
    except Refused as refused:
        if refused.status is not Status.MISMATCH:
            raise
        return False
    return True


def settings(text: Union[str, BytesLike]) -> Settings:
    """The settings of an encoded text, a str or bytes. Nothing is hashed, and no password is tested.

    Raises Invalid if it is no encoded text; if a value of it is out of range, `status` says which one, by a number from
    TEXT_VERSION to TEXT_SALT_LENGTH.
    """
    told = _Settings()
    _call(_lib.pikhsen_argon2_settings, _ascii(text), byref(told))
    costs = told.passes, told.memory_kib, told.lanes
    return Settings(Kind(told.kind), told.version, *costs, told.salt_len, told.tag_len)


def needs_rehash(
    text: Union[str, BytesLike], *, passes: int = 3, memory_kib: int = 65536, lanes: int = 4, length: int = 32,
    kind: int = Kind.ID, version: int = 0x13, salt_len: int = 16,
) -> bool:
    """Whether an encoded text was made with other settings than these, which are those of `encode` if none are given.

    Call it after a successful login, while the password is there; if it is True, encode the password again and store
    the new text. Weaker and stronger settings count alike. Raises what `settings` raises.
    """
    numbers = _argon2_settings(kind, version, passes, memory_kib, lanes)
    lengths = (_clamped(it, (1 << 64) - 1) for it in (salt_len, length))
    needs = c_uint()
    _call(_lib.pikhsen_argon2_needs_rehash, _ascii(text), byref(_Settings(*numbers, *lengths)), byref(needs))
    return needs.value != 0


def scrypt(
    password: BytesLike, salt: BytesLike, *, log_n: int = 17, r: int = 8, p: int = 1, length: int = 64, keep: int = 1,
    max_bytes: int = 1 << 32, max_ops: int = 1 << 33,
) -> bytes:
    """The key of a password by scrypt (RFC 7914), `length` bytes; N is 2 ** log_n.

    With `keep` S above 1, a power of two up to 1024 and N, every S-th row of the table is kept: 1/S of the memory, up
    to (1 + S) / 2 times the work, and the same key.

    Raises LimitExceeded, before memory for the table is taken, if the table, 128 * r * N / S bytes, or 128 * r * p
    bytes are more than `max_bytes` (4 GiB if not given), or 2 * r * p * N * (1 + S) cores of Salsa20/8 more than
    `max_ops`. Two rows of 128 * r bytes, or three with S above 1, come beside the table, so where r is great and N / S
    small up to four times `max_bytes` is taken. Memory for the key's own bytes is taken first, and no limit counts it.
    Raises Invalid if an argument is out of range.
    """
    length = operator.index(length)
    if not 0 <= length <= 32 * _TOP:
        raise Invalid(Status.BUFFER)
    out, costs = _buffer(length), _scrypt_settings(log_n, r, p, keep, max_bytes, max_ops)
    _call(
        _lib.pikhsen_scrypt, _bytes(password), _bytes(salt), *costs, out,
        exceeded=lambda status: _key_exceeds(status, *costs),
    )
    return out.raw


def info(file: BytesLike) -> Costs:
    """The costs in the first 64 bytes of a file. Anyone can make these, so they don't say who wrote the file."""
    costs = _Costs()
    _call(_lib.pikhsen_scrypt_info, _beginning(file, 64), byref(costs))
    return Costs(costs.log_n, costs.r, costs.p)


def encrypt(
    text: BytesLike, passphrase: BytesLike, *, log_n: int = 17, r: int = 8, p: int = 1, keep: int = 1,
    max_bytes: int = 1 << 32, max_ops: int = 1 << 33, salt: Optional[BytesLike] = None,
) -> bytes:
    """The encrypted file of a text, 128 bytes longer, as scrypt(1) writes it.

    AN EMPTY PASSPHRASE IS ACCEPTED, and anybody can open such a file: test it before, if it comes from a variable, a
    file or a pipe.

    The salt is new, 32 bytes, if none is given. Two files with one passphrase, salt and costs betray their texts.
    Costs and limits are those of `scrypt`.
    """
    text, costs = _bytes(text), _scrypt_settings(log_n, r, p, keep, max_bytes, max_ops)
    out = _buffer(len(text) + 128)
    _call(
        _lib.pikhsen_scrypt_encrypt, _bytes(passphrase), _file_salt(salt), *costs, text, out,
        exceeded=lambda status: _key_exceeds(status, *costs),
    )
    return out.raw


def encrypt_in_place(
    buffer: WriteableBuffer, passphrase: BytesLike, *, log_n: int = 17, r: int = 8, p: int = 1, keep: int = 1,
    max_bytes: int = 1 << 32, max_ops: int = 1 << 33, salt: Optional[BytesLike] = None,
) -> None:
    """Encrypts the text in a buffer that can be written, and lies in one piece: all of it but its last 128 bytes. The
    file takes its place.

    So no second buffer is needed, and the text is gone. After a refusal the buffer is unchanged; after Ctrl-C it may
    hold either. All else is as for `encrypt`, A NEW SALT FOR EACH FILE and the EMPTY PASSPHRASE THAT IS ACCEPTED among
    others.
    """
    with _view(buffer) as view:
        # PyPy's from_buffer tests neither
        if view.readonly or not view.c_contiguous:
            raise TypeError("a buffer that can be written, and lies in one piece, is wanted here")
        out = (ctypes.c_char * view.nbytes).from_buffer(buffer)
    costs = _scrypt_settings(log_n, r, p, keep, max_bytes, max_ops)
    number = _number(_lib.pikhsen_scrypt_encrypt_in_place, _bytes(passphrase), _file_salt(salt), *costs, out)
    # else what is raised would hold on to the buffer, and who catches it could not change its length
    del out
    _judge(number, lambda status: _key_exceeds(status, *costs))


def decrypt(
    file: BytesLike, passphrase: BytesLike, *, keep: int = 1, max_bytes: int = 1 << 32, max_ops: int = 1 << 33
) -> bytes:
    """The text of an encrypted file, if the whole file is right under the passphrase, its final code included.

    Otherwise it returns nothing of the text, and raises the first of these that has a reason: NotAFile; Invalid, if
    `keep` is no power of two up to 1024, or above the file's N; LimitExceeded; OutOfMemory; WrongPassphrase; Damaged.

    The file may come from a stranger and ask for any costs. What opening it may take is limited by `max_bytes`, in
    bytes, and `max_ops`, in cores of Salsa20/8, as `scrypt` counts them: up to four times `max_bytes` is taken if r is
    great and N / `keep` small. If nothing else is said these are 4 GiB, enough for log_n 22 and r 8, and 2 ** 33. A
    SERVER GIVES LOWER ONES: `max_bytes=1 << 30, max_ops=1 << 28` are enough for log_n 20 and r 8, and bound the time to
    20 to 27 seconds on a Xeon of 2.5 GHz. Copies of file and text, up to three times the file's length, come beside
    that; a long input that does not begin as a file is refused before it is copied. Ctrl-C waits for the end of the
    call.
    """
    front = _beginning(file, 96)
    passphrase, allowance = _bytes(passphrase), (_u32(keep), *_limits(max_bytes, max_ops))
    # the library tests the length first, then the header, then all else
    if len(front) == 96:
        info(front)
    file = _bytes(file)
    out, text_len = _buffer(len(file)), c_size_t()
    try:
        _call(
            _lib.pikhsen_scrypt_decrypt, passphrase, *allowance, file, out, byref(text_len),
            exceeded=lambda status: _key_exceeds(status, *info(front), *allowance),
        )
        return _front(out, text_len.value)
    finally:
        ctypes.memset(out, 0, len(out))


# made of what stands above
from ._files import Decryptor, Encryptor, decrypt_file, encrypt_file
