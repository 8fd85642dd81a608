"""Files in pieces, in memory and on a disk. Callers have this from the package."""
import contextlib
import ctypes
import errno
import functools
import io
import os
import stat
import threading
from ctypes import byref, c_size_t
from typing import Any, Callable, List, NoReturn, Optional, Protocol, TypeVar, Union

from . import (
    BytesLike, NotAFile, Path, Status, _buffer, _bytes, _call, _file_salt, _front, _key_exceeds, _lib, _limits,
    _scrypt_settings, _stream_of, _u32, info,
)


class Readable(Protocol):
    """A file that is opened for reading bytes."""

    def read(self, size: int, /) -> Optional[BytesLike]: ...


class Writable(Protocol):
    """A file that is opened for writing bytes."""

    def write(self, piece: bytes, /) -> Optional[int]: ...


# What names a file.
_PATHS = str, bytes, os.PathLike
# What is told of the bytes of a source that are done, and of all that it has, or None where that is not known.
Progress = Callable[[int, Optional[int]], object]
_Self = TypeVar("_Self", bound="_InPieces")


class _InPieces:
    """What Encryptor and Decryptor share: a stream of the library, which may be in one call at a time."""

    def __init__(self) -> None:
        self._stream, self._turn = _stream_of(self), threading.RLock()
        self._is_over = self._is_at_work = False

    def close(self) -> None:
        """Wipes and frees what is kept, the keys among it. After that `update` and `finish` raise ValueError."""
        with self._turn:
            self._end()

    def _end(self) -> None:
        self._is_over = True
        self._stream.free()

    def _in_turn(self, call: Callable[[], bytes], is_last: bool = False) -> bytes:
        """What a call gives, of which there is one at a time. The last ends the stream, and so does one that raises, since
        its piece is lost. Within a call of its thread, the handler of a signal may close the stream, and do nothing else
        with it."""
        with self._turn:
            if self._is_over:
                raise ValueError(f"this {type(self).__name__} is finished or closed, or was refused")
            if self._is_at_work:
                raise RuntimeError(f"a call of this {type(self).__name__} is under way")
            goes_on = False
            try:
                self._is_at_work = True
                given = call()
                goes_on = not is_last
                return given
            finally:
                self._is_at_work = False
                # what was closed may have been started since
                if self._is_over or not goes_on:
                    self._end()

    def __enter__(self: _Self) -> _Self:
        return self

    def __exit__(self, *_: object) -> None:
        self.close()

    def __reduce__(self) -> NoReturn:
        # two streams with one key betray their texts
        raise TypeError(f"a {type(self).__name__} can't be copied or pickled")


class Encryptor(_InPieces):
    """Encrypts a text in pieces of any length, in memory that does not grow.

        with pikhsen.Encryptor(b"passphrase") as encryptor:
            for piece in pieces:
                send(encryptor.update(piece))
            send(encryptor.finish())

    All that `update` and `finish` return, one after the other, is the file that `encrypt` makes of the whole text. The
    first piece brings 96 bytes more than it has, and `finish` 32. WITHOUT THESE IT IS CUT SHORT, and opened by nobody.

    Making one derives the key, so that takes the time and the memory, and raises what `encrypt` raises. All else is as
    for that, A NEW SALT FOR EACH FILE and the EMPTY PASSPHRASE THAT IS ACCEPTED among others.

    The keys are kept until `finish`, `close` or the end of a `with`, or until nobody has the object any more; then they
    are wiped. After that, and after a call that raised anything but TypeError, every call raises ValueError. Threads
    may share one; it can't be copied or pickled. A forked child has a copy: WHO GOES ON WITH BOTH encrypts two texts
    with one key stream, which betrays them. The handler of a signal that comes within a call may close the object, and
    the call may then raise ValueError; `update` and `finish` raise RuntimeError there.
    """

    def __init__(
        self, passphrase: BytesLike, *, log_n: int = 17, r: int = 8, p: int = 1, keep: int = 1,
        max_bytes: int = 1 << 32, max_ops: int = 1 << 33, salt: Optional[BytesLike] = None,
    ) -> None:
        super().__init__()
        head, costs = _buffer(96), _scrypt_settings(log_n, r, p, keep, max_bytes, max_ops)

        def start() -> bytes:
            _call(
                _lib.pikhsen_scrypt_encrypt_start, _bytes(passphrase), _file_salt(salt), *costs, byref(self._stream),
                head, exceeded=lambda status: _key_exceeds(status, *costs),
            )
            return head.raw

        self._head = self._in_turn(start)

    def update(self, data: BytesLike) -> bytes:
        """The next bytes of the file, for the next bytes of the text."""
        data = _bytes(data)
        piece = (ctypes.c_char * len(data)).from_buffer_copy(data)

        def feed() -> bytes:
            _call(_lib.pikhsen_scrypt_encrypt_feed, byref(self._stream), piece)
            return self._after_head(piece.raw)

        return self._in_turn(feed)

    def finish(self) -> bytes:
        """The last bytes of the file. There are always some."""
        code = _buffer(32)

        def end() -> bytes:
            _call(_lib.pikhsen_scrypt_encrypt_finish, byref(self._stream), code)
            return self._after_head(code.raw)

        return self._in_turn(end, is_last=True)

    def _after_head(self, piece: bytes) -> bytes:
        head, self._head = self._head, b""
        return head + piece


class Decryptor(_InPieces):
    """Decrypts a file in pieces of any length, in memory that does not grow.

        with pikhsen.Decryptor(b"passphrase") as decryptor:
            for piece in pieces:
                keep(decryptor.update(piece))
            decryptor.finish()

    THE TEXT COMES OUT BEFORE IT IS TESTED: only when `finish` has returned is it known that what `update` returned is
    the text, all of it and unchanged. Do not use it before. IF `finish` RAISES, or is never reached, THROW IT AWAY.

    The piece with the 96th byte of the file derives the key, so that takes the time and the memory, within the limits
    that `decrypt` has, and raises what `decrypt` raises before it returns a text: NotAFile, Invalid, LimitExceeded,
    OutOfMemory or WrongPassphrase. All else is as for Encryptor.
    """

    def __init__(
        self, passphrase: BytesLike, *, keep: int = 1, max_bytes: int = 1 << 32, max_ops: int = 1 << 33
    ) -> None:
        super().__init__()
        self._passphrase, self._allowance = _bytes(passphrase), (_u32(keep), *_limits(max_bytes, max_ops))
        self._front = b""

    def update(self, data: BytesLike) -> bytes:
        """The text, NOT YET TESTED, that the next bytes of the file bring: 32 bytes less than have come after the first
        96, since the last 32 bytes of a file are its final code."""
        piece = _bytes(data)
        return self._in_turn(lambda: self._released(piece))

    def _released(self, piece: bytes) -> bytes:
        if not self._stream.runs:
            missing = 96 - len(self._front)
            self._front, piece = self._front + piece[:missing], piece[missing:]
            if len(self._front) < 96:
                return b""
            passphrase, self._passphrase = self._passphrase, b""
            _call(
                _lib.pikhsen_scrypt_decrypt_start, passphrase, *self._allowance, self._front, byref(self._stream),
                exceeded=lambda status: _key_exceeds(status, *info(self._front), *self._allowance),
            )
        out, released = _buffer(len(piece) + 32), c_size_t()
        try:
            _call(_lib.pikhsen_scrypt_decrypt_feed, byref(self._stream), piece, out, byref(released))
            return _front(out, released.value)
        finally:
            ctypes.memset(out, 0, len(out))

    def finish(self) -> bytes:
        """Tests the final code, and returns no more text, which is b"". If the file is damaged, or cut short, it raises
        Damaged, or NotAFile if it had fewer than 96 bytes: throw away what `update` returned."""

        def end() -> bytes:
            if not self._stream.runs:
                raise NotAFile(Status.TOO_SHORT)
            _call(_lib.pikhsen_scrypt_decrypt_finish, byref(self._stream))
            return b""

        return self._in_turn(end, is_last=True)


# Files are read in pieces of so many bytes.
_PIECE = 1 << 16


def _length(source: Any) -> Optional[int]:
    """How many bytes a regular file has left. Of others that is not known; and some, as those of /proc, tell 0."""
    file = getattr(source, "raw", source)
    if not isinstance(file, io.FileIO):
        return None
    about = os.fstat(file.fileno())
    return about.st_size - source.tell() if stat.S_ISREG(about.st_mode) and about.st_size else None


def _read(source: Readable) -> BytesLike:
    """The next piece, which is empty at the end alone."""
    piece = source.read(_PIECE)
    if piece is None:
        raise BlockingIOError(errno.EAGAIN, os.strerror(errno.EAGAIN))
    return piece


def _write(target: Writable, piece: bytes) -> None:
    """Writes a whole piece: a raw file may take a part of it in each call, or nothing if it does not block."""
    while piece:
        count = target.write(piece)
        if count is None and not isinstance(target, io.RawIOBase):
            return
        if not count:
            raise BlockingIOError(errno.EAGAIN, os.strerror(errno.EAGAIN))
        if not 0 < count <= len(piece):
            raise OSError(f"write() of {len(piece)} bytes returned {count}")
        piece = piece[count:]


# How a folder is opened to name files in it, which needs no leave to read it. PyPy has no name for that.
_TO_NAME = getattr(os, "O_PATH", 0o10000000) | os.O_DIRECTORY
# What fsync answers where the file system has no such call.
_NO_SYNC = errno.EINVAL, errno.EOPNOTSUPP, errno.ENOSYS


def _sync(opened: int) -> None:
    """Puts a file, or a new name in a folder, on the disk, where the file system does that."""
    try:
        os.fsync(opened)
    except OSError as refused:
        if refused.errno not in _NO_SYNC:
            raise


class _NewFile:
    """A new file, for its owner alone, which has another name until all is done.

    The handler of a signal may raise after each instruction of Python, as between a call and what keeps its result. So a
    descriptor comes into a list, or leaves it and is closed, in one instruction that has C alone below it. `undo` may be
    called at any moment, and again.
    """

    def __init__(self, path: Path) -> None:
        self.path, self.beside = path, f".pikhsen-{os.urandom(8).hex()}"
        self.folder, self.name = os.path.split(os.fsdecode(path))
        # below all descriptors stands None, where closing ends: then the folder's, the file's, and for a time another
        self.opened: List[Any] = [None]
        # the file, and then one of a byte, as they are told apart
        self.made: List[os.stat_result] = []

    def open(self, name: str, flags: int, folder: Optional[int] = None) -> None:
        """One descriptor more, of this name in a folder."""
        self.opened += map(functools.partial(os.open, mode=0o600, dir_fd=folder), [name], [flags])

    def close(self, least: int) -> None:
        """Closes what is opened, the newest first, but for so many."""
        while len(self.opened) > least:
            for _ in map(os.close, iter(self.opened.pop, None)):
                break

    def make(self, name: str) -> None:
        self.open(name, os.O_WRONLY | os.O_CREAT | os.O_EXCL, self.opened[1])
        self.made += map(os.fstat, self.opened[-1:])

    def found(self, name: str) -> Optional[os.stat_result]:
        """What has this name in the folder, if anything has."""
        try:
            return os.stat(name, dir_fd=self.opened[1], follow_symlinks=False)
        except FileNotFoundError:
            return None

    def begin(self) -> Writable:
        """Makes the file, in the folder that the path names to the system now: what becomes of the current folder, or of
        a link on the way, does not matter later."""
        if not self.name:
            # the system makes no file of a name that ends so, and says why
            os.open(self.path, os.O_WRONLY | os.O_CREAT | os.O_EXCL)
        self.open(self.folder or ".", _TO_NAME)
        if self.found(self.name):
            raise FileExistsError(errno.EEXIST, os.strerror(errno.EEXIST), self.path)
        self.make(self.beside)
        return open(self.opened[2], "wb", buffering=0, closefd=False)

    def finish(self) -> None:
        """Gives the file its name, if there is no such file yet, and puts both on the disk. Who may not read the folder
        cannot do that with the name."""
        folder, file = self.opened[1:]
        _sync(file)
        # some file systems say only then what they did not keep, and say it of a copy, too
        self.opened += map(os.dup, self.opened[2:])
        self.close(3)
        try:
            os.link(self.beside, self.name, src_dir_fd=folder, dst_dir_fd=folder)
        except FileExistsError:
            raise
        except OSError:
            # A file system that has one name for each file: one of a byte takes that name, and is replaced; but closed
            # before, since some (rclone's) make a file at its closing, and one that was not written even later.
            self.make(self.name)
            os.write(self.opened[-1], b"-")
            self.close(3)
            os.replace(self.beside, self.name, src_dir_fd=folder, dst_dir_fd=folder)
        else:
            os.unlink(self.beside, dir_fd=folder)
        with contextlib.suppress(PermissionError):
            self.open(".", os.O_RDONLY | os.O_DIRECTORY, folder)
        for it in self.opened[3:]:
            _sync(it)
        self.close(2)

    def undo(self) -> None:
        """Takes away what was made, and not what stands there instead by now. What the system says is not told, since it
        would hide what was raised."""
        # what was made last may not be noted
        with contextlib.suppress(OSError):
            self.made += map(os.fstat, self.opened[2 + len(self.made):])
        # closed first, as in `finish`
        while len(self.opened) > 2:
            with contextlib.suppress(OSError):
                self.close(2)
        for name in (self.beside, self.name):
            with contextlib.suppress(OSError):
                about = self.found(name)
                # what is longer than the second may be another's, which has its number by now
                if about and any(os.path.samestat(about, it) for it in self.made[:1 if about.st_size > 1 else 2]):
                    os.unlink(name, dir_fd=self.opened[1])
        self.close(1)


# What makes the stream, once there is a file for what it gives.
_Making = Callable[[], Union[Encryptor, Decryptor]]


def _convert(
    source: Union[Path, Readable], begin: Callable[[], Writable], making: _Making, progress: Optional[Progress]
) -> None:
    """Writes what a stream makes of all that is read. A file that is opened already stays so."""
    if isinstance(source, _PATHS):
        with open(source, "rb", buffering=0) as opened:
            _convert(opened, begin, making, progress)
        return
    done, length, target = 0, _length(source), begin()
    with making() as stream:
        while piece := _bytes(_read(source)):
            _write(target, stream.update(piece))
            done += len(piece)
            if progress is not None:
                progress(done, length)
        _write(target, stream.finish())


def _between_files(
    source: Union[Path, Readable], target: Union[Path, Writable], making: _Making, progress: Optional[Progress]
) -> None:
    """The same to a file that is opened already, and stays so, or to a new one of a path, which is there when all of it
    is. If this raises, it is not."""
    for it, does in ((source, "read"), (target, "write")):
        if not isinstance(it, _PATHS) and not hasattr(it, does):
            raise TypeError(f"a path or an opened file is wanted here, and not {type(it).__name__}")
    if not isinstance(target, _PATHS):
        opened = target
        _convert(source, lambda: opened, making, progress)
        return
    new = _NewFile(target)
    try:
        _convert(source, new.begin, making, progress)
        new.finish()
        # In one instruction; and from it to the return there is no call, after which a handler of a signal may raise.
        [*map(os.close, iter(new.opened.pop, None))]
    finally:
        try:
            if new.opened[1:]:
                new.undo()
        finally:
            # one raised in its midst
            if new.opened[1:]:
                new.undo()


def encrypt_file(
    source: Union[Path, Readable], target: Union[Path, Writable], passphrase: BytesLike, *, log_n: int = 17, r: int = 8,
    p: int = 1, keep: int = 1, max_bytes: int = 1 << 32, max_ops: int = 1 << 33, salt: Optional[BytesLike] = None,
    progress: Optional[Progress] = None,
) -> None:
    """Encrypts the file `source` into the new file `target`, piece by piece: neither is in memory as a whole.

    Each is a path, or a file that is opened for bytes and stays open, as `sys.stdin.buffer`, a pipe, or what the
    `makefile` of a socket returns. `source` is read to its end. One that does not block raises BlockingIOError if it is
    not ready.

    If there is a `target` of this path, FileExistsError is raised, and it stays. A new one is for its owner alone (mode
    600), and has its name only when it is whole and on the disk, in the folder that the path named when the call began.
    A file system that has no `fsync` (EINVAL, EOPNOTSUPP or ENOSYS) is taken to keep what it got.

    If the call raises, there is none, nor a part of it, nor a descriptor left, also if the handler of a signal raises, as
    KeyboardInterrupt at Ctrl-C, at any moment. But if a second one raises while that is heeded, or the process is killed,
    a part may be left beside, under a name that begins with ".pikhsen-"; and before CPython 3.11, and in PyPy, one that
    raises in the last instructions of a call may find the whole `target` there, and `source` be closed later. One that
    raises as the call returns raises in its caller, who has the `target`. An opened file may have a part if the call
    raises, and is not flushed.

    `progress` is called after each piece, with the bytes of `source` that are done, and all that it had at first, or
    None if that is not known, as of a pipe. What it raises ends the call.

    All else is as for `encrypt`, A NEW SALT FOR EACH FILE and the EMPTY PASSPHRASE THAT IS ACCEPTED among others.
    """
    _between_files(
        source, target,
        lambda: Encryptor(
            passphrase, log_n=log_n, r=r, p=p, keep=keep, max_bytes=max_bytes, max_ops=max_ops, salt=salt
        ),
        progress,
    )


def decrypt_file(
    source: Union[Path, Readable], target: Union[Path, Writable], passphrase: BytesLike, *, keep: int = 1,
    max_bytes: int = 1 << 32, max_ops: int = 1 << 33, progress: Optional[Progress] = None,
) -> None:
    """Decrypts the encrypted file `source` into the new file `target`, if the whole file is right under the passphrase,
    its final code included. Both, and `progress`, are as for `encrypt_file`, and so is what is left if it raises.

    So no text has the name `target` before it is tested; what was written if the file is not right is removed, and not
    overwritten. BUT AN OPENED FILE GETS THE TEXT BEFORE THE TEST: do not use it before the call returns, and if it
    raises, throw away what was written.

    What is raised, and the limits, are those of `decrypt`. The key is derived before the first byte is written.
    """
    _between_files(
        source, target, lambda: Decryptor(passphrase, keep=keep, max_bytes=max_bytes, max_ops=max_ops), progress
    )
