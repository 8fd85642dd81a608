"""Files from Python: those that are given in pieces, those on a disk, and those that come and go through pipes and sockets.
tests/library/python_module.py calls this."""
import concurrent.futures
import contextlib
import copy
import errno
import faulthandler
import gc
import io
import itertools
import os
import pathlib
import pickle
import shutil
import socket
import subprocess
import sys
import tempfile
import threading
import time
import types
from unittest import mock

sys.path += map(str, pathlib.Path(__file__).resolve().parents[1].iterdir())  # the other folders of tests/
from checking import is_there, left_out
from scrypt_files import F0, F5
from shown import with_module

CHEAP, SALT = {"log_n": 4, "r": 1, "p": 1}, b"s" * 32
# One less than files of these costs need.
BELOW_CHEAP = ("MEMORY_LIMIT", {"max_bytes": 2047}), ("WORK_LIMIT", {"max_ops": 63})
# Why no file is made.
NOT_MADE = ("LOG_N", {"log_n": 0}), ("FILE_SALT", {"salt": SALT[1:]}), ("KEEP", {"keep": 3}), *BELOW_CHEAP


def raised(call, *arguments, **named):
    """What a call raises, which holds on to nothing that the call had, or None."""
    try:
        call(*arguments, **named)
    except (Exception, KeyboardInterrupt) as told:  # the module's own, which is loaded by name
        return told.with_traceback(None)
    return None


def refusal(call, *arguments, **named):
    """The name of the status with which a call is refused, what the system says, or an exception; else None."""
    told = raised(call, *arguments, **named)
    says = getattr(told, "strerror", None) or type(told).__name__
    return told and getattr(getattr(told, "status", None), "name", says)


def refused(checks, rows, call, *arguments, **named):
    """Each of these changes of what a call is given is refused, for the reason beside it."""
    for why, others in rows:
        checks.that(f"{call.__name__}, {why}: {others}", refusal(call, *arguments, **{**named, **others}), why)


@contextlib.contextmanager
def lent_by(module):
    """The buffers that a module lends to the library meanwhile."""
    lent, real = [], module._buffer
    with mock.patch.object(module, "_buffer", lambda length: lent.append(real(length)) or lent[-1]):
        yield lent


EXISTS, FULL, NO_DATA = (os.strerror(it) for it in (errno.EEXIST, errno.ENOSPC, errno.EAGAIN))
NO_LINKS = mock.Mock(side_effect=PermissionError(errno.EPERM, "no links"))


def in_pieces(stream, content, size):
    """All that a stream gives for these bytes, in pieces of a size."""
    return b"".join([*(stream.update(content[at:at + size]) for at in range(0, len(content), size)), stream.finish()])


def streams_from_python(checks, pikhsen):
    """In pieces of any length a file and its text are those that go through the library whole."""
    for length in (0, 1, 31, 32, 33, 63, 64, 95, 96, 97, 5000):
        text = bytes(it * 7 % 251 for it in range(length))
        file = pikhsen.encrypt(text, b"pw", salt=SALT, **CHEAP)
        for size in (1, 16, 31, 32, 33, 96, 97, 6000):
            made = in_pieces(pikhsen.Encryptor(b"pw", salt=SALT, keep=4, **CHEAP), text, size)
            checks.that(f"{length} bytes in pieces of {size}", made, file)
            checks.that(f"text of {length} bytes in pieces of {size}", in_pieces(pikhsen.Decryptor(b"pw", keep=4), file, size), text)
        decryptor = pikhsen.Decryptor(b"pw")
        released = [decryptor.update(file[at:at + 1]) for at in range(len(file))]
        checks.that(f"when the text comes, {length}", [bool(it) for it in released], [at >= 128 for at in range(len(file))])
    for text, file in ((b"", F0), (b"hello", F5)):
        checks.that(f"{text}, as OpenSSL makes it", in_pieces(pikhsen.Encryptor(b"pw", salt=bytes(range(32)), **CHEAP), text, 2), file)
        checks.that(f"{text}, of what OpenSSL makes", in_pieces(pikhsen.Decryptor(b"pw"), file, 50), text)


def decrypted_in_pieces(pikhsen, file, passphrase=b"pw", **named):
    return pikhsen.Decryptor(passphrase, **named).update(file)


def damage_in_pieces(checks, pikhsen):
    """Each byte changed, each cut, costs and limits: a stream is refused for the reason of the whole file."""
    file = pikhsen.encrypt(b"hello", b"pw", salt=SALT, **CHEAP)
    changed = [file[:at] + bytes([file[at] ^ 1]) + file[at + 1:] for at in range(len(file))]
    for name, files in (("changed", changed), ("cut", [file[:at] for at in range(len(file))]), ("longer", [file + b"x"])):
        for size in (7, 96, 200):
            found = [refusal(in_pieces, pikhsen.Decryptor(b"pw"), it, size) for it in files]
            checks.that(f"each byte {name}, in pieces of {size}", found, [refusal(pikhsen.decrypt, it, b"pw") for it in files])
    refused(checks, [*NOT_MADE, ("TypeError", {"passphrase": "pw"})], pikhsen.Encryptor, passphrase=b"pw", **CHEAP)
    rows = ("KEEP", {"keep": 3}), ("WRONG_PASSPHRASE", {"passphrase": b"PW"}), *BELOW_CHEAP
    refused(checks, rows, decrypted_in_pieces, pikhsen, file[:96])
    refused(checks, [("TypeError", {"passphrase": "pw"}), ("TypeError", {"keep": "x"})], pikhsen.Decryptor, passphrase=b"pw")


def left(stream):
    with stream as same:
        assert same is stream


def ends_of_streams(checks, pikhsen):
    """After its end, whatever that was, a stream does nothing more and keeps nothing; before it, it is not doubled."""
    file = pikhsen.encrypt(b"Dear Ada", b"pw", **CHEAP)

    def encryptor():
        return pikhsen.Encryptor(b"pw", **CHEAP)

    def decryptor(given=file):
        made = pikhsen.Decryptor(b"pw")
        made.update(given)
        return made

    ends = {"finish": lambda it: it.finish(), "close": lambda it: it.close(), "with": left}
    rows = [(f"{make.__name__}, {name}", make(), end, None) for make in (encryptor, decryptor) for name, end in ends.items()]
    for name, stream, end, why in (
        *rows, ("decryptor, closed before it has a key", decryptor(b"scrypt"), ends["close"], None),
        ("decryptor of a damaged file", decryptor(file + b"x"), ends["finish"], "DAMAGED"),
        ("decryptor of a short file", decryptor(b"scrypt"), ends["finish"], "TOO_SHORT"),
        ("decryptor of no file", decryptor(b""), lambda it: it.update(bytes(96)), "MAGIC"),
    ):
        for double in (copy.copy, copy.deepcopy, pickle.dumps):
            checks.that(f"{name}: {double.__name__}", refusal(double, stream), "TypeError")
        checks.that(f"{name}: a text", (refusal(stream.update, "text"), refusal(stream.update, None)), ("TypeError",) * 2)
        checks.that(f"{name}: its end", refusal(end, stream), why)
        checks.that(f"{name}: what is kept after it", stream._stream.runs, 0)
        after = [refusal(call) for call in (lambda: stream.update(b""), lambda: stream.update(b"x"), stream.finish, stream.close)]
        checks.that(f"{name}: calls after it", after, ["ValueError"] * 3 + [None])
    def raises(*_):
        raise KeyboardInterrupt

    # also where the handler of a signal would raise before the first line of what it finds
    for make, handler in itertools.product((encryptor, decryptor), (None, raises)):
        stream = make()
        kept = stream._stream
        sys.settrace(handler)
        del stream
        sys.settrace(None)
        gc.collect()
        checks.that(f"{make.__name__}: what is kept that nobody has any more, {handler}", kept.runs, 0)
    before = len(pikhsen._streams)
    encryptor()
    refusal(pikhsen.Encryptor, b"pw", log_n=0)
    gc.collect()
    checks.that("streams that are kept of nobody", len(pikhsen._streams) - before, 0)
    with lent_by(pikhsen._files) as lent:
        decryptor()
    checks.that("what was lent for a text", [(len(it), it.raw.strip(b"\0")) for it in lent], [(len(file) - 96 + 32, b"")])


def threads_of_a_stream(checks, pikhsen):
    """Threads that share a stream wait for each other: the library has it in one call at a time, and each piece once."""
    feed, turn, waiting = pikhsen._lib.pikhsen_scrypt_encrypt_feed, threading.Lock(), []

    def noted(*given):
        waiting.append(turn.locked())
        with turn:  # two at a time would spoil the memory of this process
            time.sleep(0.001)
            return feed(*given)

    encryptor = pikhsen.Encryptor(b"pw", salt=SALT, **CHEAP)
    with mock.patch.object(pikhsen._lib, "pikhsen_scrypt_encrypt_feed", noted), concurrent.futures.ThreadPoolExecutor(8) as pool:
        head = encryptor.update(b"")
        pieces = list(pool.map(encryptor.update, [bytes(1000)] * 40))
    whole = pikhsen.encrypt(bytes(40000), b"pw", salt=SALT, **CHEAP)
    expected = [whole[at:at + 1000] for at in range(96, 40096, 1000)]
    checks.that("threads of a stream: calls at a time", any(waiting), False)
    checks.that("threads of a stream", (head, sorted(pieces), encryptor.finish()), (whole[:96], sorted(expected), whole[-32:]))


def handlers_of_a_stream(checks, pikhsen):
    """The handler of a signal runs between two lines of a call of a stream. At each it may close that: nothing waits for
    itself, and nothing is kept. No other call is made within one."""
    file, ends = pikhsen.encrypt(b"Dear Ada", b"pw", **CHEAP), set()

    def closed_at(at, stream, call):
        """Why a call is refused whose stream is closed before its line of this number; and whether it has as many."""
        lines = itertools.count(1)

        def trace(frame, event, _):
            if frame.f_code.co_filename == pikhsen._files.__file__:
                if event == "line" and next(lines) == at:
                    stream.close()
                return trace

        faulthandler.dump_traceback_later(20, exit=True)  # where the call waits for itself
        sys.settrace(trace)
        why = refusal(call, stream)
        sys.settrace(None)
        faulthandler.cancel_dump_traceback_later()
        return why, next(lines) > at

    for name, make, call in (
        ("Encryptor.update", lambda: pikhsen.Encryptor(b"pw", **CHEAP), lambda it: it.update(b"Dear Ada")),
        ("Encryptor.finish", lambda: pikhsen.Encryptor(b"pw", **CHEAP), lambda it: it.finish()),
        ("Decryptor.update", lambda: pikhsen.Decryptor(b"pw"), lambda it: it.update(file)),
    ):
        for at in itertools.count(1):
            stream = make()
            why, has_line = closed_at(at, stream, call)
            ends.add(why)
            if not has_line:
                break
            after = why in (None, "ValueError", "STREAM"), stream._stream.runs, refusal(stream.update, b"x")
            checks.that(f"{name}, closed before one of its lines", after, (True, 0, "ValueError"))
    checks.that("what a call says that is closed in its midst", ends, {None, "ValueError", "STREAM"})
    encryptor = pikhsen.Encryptor(b"pw", **CHEAP)
    with mock.patch.object(pikhsen._lib, "pikhsen_scrypt_encrypt_feed", lambda *_: len(encryptor.update(b"x"))):
        checks.that("a call within a call", refusal(encryptor.update, b"Dear Ada"), "RuntimeError")


def streams_and_scrypt(checks, pikhsen):
    """What is made in pieces, the program scrypt opens; and what that makes is opened in pieces."""
    if not is_there("scrypt", "no other program opens what is made in pieces", 6):
        return

    def scrypt(given, *words):
        how = {"input": given, "stdout": subprocess.PIPE, "check": True, "env": {**os.environ, "KEY": "a passphrase"}}
        return subprocess.run(["scrypt", *words, "--passphrase", "env:KEY", "-"], **how).stdout

    text = bytes(range(256)) * 300
    for size in (1000, 65536, 1 << 20):
        made = in_pieces(pikhsen.Encryptor(b"a passphrase", log_n=10), text, size)
        checks.that(f"scrypt opens what was made in pieces of {size}", scrypt(made, "dec"), text)
        made = scrypt(text, "enc", "--logN", "10", "-r", "8", "-p", "1")
        found = in_pieces(pikhsen.Decryptor(b"a passphrase"), made, size)
        checks.that(f"what scrypt made, in pieces of {size}", found, text)


def leaves(checks, name, target, why, content, call, *arguments, **named):
    """A call is refused for this reason, or done, and leaves a file of these bytes, or none, and nothing beside it."""
    found = refusal(call, *arguments, **named), target.read_bytes() if target.exists() else None, parts(target.parent)
    checks.that(f"{call.__name__}, {name}", found, (why, content, []))


def parts(folder):
    """What has the name of a file that is not done."""
    return sorted(pathlib.Path(folder).glob(".pikhsen-*"))


def kept_files_from_python(checks, pikhsen, folder):
    """Files on a disk: what `encrypt` makes and `decrypt` gives, in a new file, which is gone after a refusal."""
    text, file, again = (pathlib.Path(folder, it) for it in ("text", "text.scrypt", "again"))
    for content in (b"", b"Dear Ada", bytes(range(256)) * 300):
        text.write_bytes(content)
        pikhsen.encrypt_file(text, str(file), b"pw", salt=SALT, keep=4, **CHEAP)
        whole = file.read_bytes()
        checks.that(f"file, {len(content)}", whole, pikhsen.encrypt(content, b"pw", salt=SALT, **CHEAP))
        pikhsen.decrypt_file(os.fsencode(file), again, b"pw", keep=4)
        checks.that(f"text of a file, {len(content)}", again.read_bytes(), content)
        checks.that("modes of new files", [it.stat().st_mode & 0o777 for it in (file, again)], [0o600] * 2)
        leaves(checks, "where there is a file", file, EXISTS, whole, pikhsen.encrypt_file, text, file, b"pw")
        # and nothing is tested before that
        leaves(checks, "where there is a file", again, EXISTS, content, pikhsen.decrypt_file, file, again, b"PW")
        again.unlink()
        for why, given, named in (
            ("DAMAGED", whole[:-1], {}), ("DAMAGED", whole + b"x", {}), ("CHECKSUM", whole[:63] + b"x" * 65, {}),
            ("WRONG_PASSPHRASE", whole, {"passphrase": b"PW"}), ("TOO_SHORT", whole[:95], {}), ("TOO_SHORT", b"", {}),
            *((why, whole, named) for why, named in BELOW_CHEAP), ("KEEP", whole, {"keep": 3}), ("MAGIC", b"x" * 200, {}),
        ):
            file.write_bytes(given)
            leaves(checks, why, again, why, None, pikhsen.decrypt_file, file, again, **{"passphrase": b"pw", **named})
            checks.that(f"decrypt_file, {why}: its source", file.read_bytes(), given)
        file.unlink()
    for why, named in NOT_MADE:
        leaves(checks, why, file, why, None, pikhsen.encrypt_file, text, file, b"pw", **{**CHEAP, **named})
    for call, costs, opened in (
        (pikhsen.encrypt_file, CHEAP, io.BytesIO()), (pikhsen.decrypt_file, {}, io.BytesIO(pikhsen.encrypt(b"text", b"pw", **CHEAP))),
    ):
        leaves(checks, "of a folder", file, os.strerror(errno.EISDIR), None, call, folder, file, b"pw", **costs)
        for source, target in ((5, file), (None, file), (text, 5), (io.StringIO("text"), file), (opened, io.StringIO())):
            what = f"of what is no file: {type(source).__name__}, {type(target).__name__}"
            leaves(checks, what, file, "TypeError", None, call, source, target, b"pw", **costs)


def names_of_new_files(checks, pikhsen, folder):
    """A new file has its name when it is whole, and replaces none; also where a file has one name alone."""
    source, target, beside = (pathlib.Path(folder, it) for it in ("Dear", "Ada", "beside"))
    content, seen = bytes(range(256)) * 1000, set()
    source.write_bytes(pikhsen.encrypt(content, b"pw", **CHEAP))

    def look(*_):
        seen.add((target.exists(), *(it.stat().st_mode & 0o777 for it in parts(folder))))

    for links in (os.link, NO_LINKS):
        with mock.patch.object(os, "link", links):
            leaves(checks, "a name", target, None, content, pikhsen.decrypt_file, source, target, b"pw", progress=look)
            target.unlink()
            leaves(checks, "where another made a file meanwhile", target, EXISTS, b"of another", pikhsen.decrypt_file,
                   source, target, b"pw", progress=lambda *_: target.write_bytes(b"of another"))
        target.unlink()
    checks.that("files that have not got their names", seen, {(False, 0o600)})
    found = []
    pikhsen.decrypt_file(source, target, b"pw", progress=lambda *_: found.append(refusal(pikhsen.decrypt_file, source, beside, b"pw")))
    checks.that("two new files at once", (found[0], beside.exists() and beside.read_bytes()), (None, content))
    target.unlink()
    first = pathlib.Path(folder, f".pikhsen-{bytes(8).hex()}")
    first.write_bytes(b"of another")
    with mock.patch.object(os, "urandom", bytes):
        found = refusal(pikhsen.decrypt_file, source, target, b"pw")
    found = found, first.read_bytes(), target.exists()
    checks.that("a file that has another's first name", found, (EXISTS, b"of another", False))
    first.unlink()


def lose(path, is_replaced):
    """A file is gone, or another stands in its place, and then there is no room."""
    path.unlink()
    if is_replaced:
        path.write_bytes(b"of another")
    raise OSError(errno.ENOSPC, FULL)


def names_that_fail(checks, pikhsen, folder):
    """Where a file has one name alone, and gets no other: it is gone, and so is the file of a byte that has that name for it,
    but not what stands there instead."""
    target, replace = pathlib.Path(folder, "target"), os.replace

    def late(*given, **named):
        replace(*given, **named)
        raise KeyboardInterrupt

    for name, replacing, why, content in (
        ("is not replaced", OSError(errno.ENOSPC, FULL), FULL, None),
        ("is of another", lambda *_, **__: lose(target, True), FULL, b"of another"),
        ("is not replaced at Ctrl-C", KeyboardInterrupt(), "KeyboardInterrupt", None), ("is replaced at Ctrl-C", late, "KeyboardInterrupt", None),
    ):
        with mock.patch.object(os, "link", NO_LINKS), mock.patch.object(os, "replace", mock.Mock(side_effect=replacing)) as replaced:
            leaves(checks, f"a file of a byte that {name}", target, why, content, pikhsen.encrypt_file, io.BytesIO(b"x"),
                   target, b"pw", **CHEAP)
        checks.that(f"a file of a byte that {name}: calls", replaced.call_count, 1)
        target.unlink(missing_ok=True)


def paths_of_new_files(checks, pikhsen, folder):
    """A path names what it names to the system when the call begins; and where the system makes no file, none is made, for
    the system's reason."""
    top, before = pathlib.Path(folder, "paths"), os.getcwd()
    near, file = top / "near", pikhsen.encrypt(b"x", b"pw", salt=SALT, **CHEAP)
    (top / "far/inner").mkdir(parents=True)
    near.mkdir()
    (near / "link").symlink_to("../far/inner")
    (near / "nowhere").symlink_to("none")
    (near / "text").write_bytes(b"x")

    def elsewhere(*_):
        os.chdir(folder)
        near.rename(top / "moved")
        near.mkdir()

    for path, lies in (
        ("out", "moved/out"), ("link/../out", "far/out"), (b".//link/./out", "far/inner/out"), (near / "out", "moved/out"), ("../out", "out"),
    ):
        os.chdir(near)
        found = refusal(pikhsen.encrypt_file, io.BytesIO(b"x"), path, b"pw", salt=SALT, progress=elsewhere, **CHEAP)
        shutil.rmtree(near)
        (top / "moved").rename(near)
        there = pathlib.Path(top, lies.replace("moved", "near"))
        checks.that(f"a new file {path}, whose folder gets another name", (found, there.exists() and there.read_bytes()), (None, file))
        there.unlink(missing_ok=True)
    os.chdir(near)
    kept = sorted(top.rglob("*"))
    for path in (
        "", "new/", "new//", b"new/", "link/", "text/", "nofolder/../x", "nofolder/x", "nofolder/new/", "text/x", "text", "nowhere",
        "link", "/", ".", "..", "link/..", "x" * 300,
    ):
        expected = refusal(os.open, path, os.O_WRONLY | os.O_CREAT | os.O_EXCL)
        for why, links in (("", os.link), (", without links", NO_LINKS)):
            with mock.patch.object(os, "link", links):
                found = refusal(pikhsen.encrypt_file, "text", path, b"pw", **CHEAP)
            checks.that(f"no new file {path}{why}", (found, sorted(top.rglob("*"))), (expected, kept))
    os.chdir(before)


def parts_of_another(checks, pikhsen, folder):
    """What stands in the place of a part that is gone is not removed."""
    target = pathlib.Path(folder, "target")
    for instead in (False, True):
        found = refusal(pikhsen.encrypt_file, io.BytesIO(b"x"), target, b"pw", **CHEAP,
                        progress=lambda *_: lose(*parts(folder), instead))
        left = [it.read_bytes() for it in parts(folder)]
        checks.that(f"a part that is gone, {instead}", (found, target.exists(), left), (FULL, False, [b"of another"] * instead))
    parts(folder)[0].unlink()


def synced_from_python(checks, pikhsen, folder):
    """A new file and its name are synced; that the file system does not do so, or that the folder may not be read, is no
    failure."""
    target, synced, opening = pathlib.Path(folder, "target"), [], os.open

    def noted(opened):
        synced.append(os.path.basename(os.readlink(f"/proc/self/fd/{opened}"))[:9])
        if number and len(synced) == at:
            raise OSError(number, os.strerror(number))

    def unreadable(name, flags, *mode, **of_folder):
        if flags & os.O_DIRECTORY and not flags & os.O_PATH:  # as a folder that may be written, and not read
            raise PermissionError
        return opening(name, flags, *mode, **of_folder)

    no_call = errno.EINVAL, errno.EOPNOTSUPP, errno.ENOSYS
    for number, at, instead in (
        (0, 0, opening), (0, 0, unreadable), *((it, at, opening) for it in (*no_call, errno.EIO, errno.EDQUOT) for at in (1, 2)),
    ):
        why = None if number in (0, *no_call) else os.strerror(number)
        synced.clear()
        with mock.patch.object(os, "fsync", noted), mock.patch.object(os, "open", instead):
            found = refusal(pikhsen.encrypt_file, io.BytesIO(), target, b"pw", **CHEAP)
        names = [".pikhsen-", os.path.basename(folder)[:9]][:1 if instead is unreadable or why and at == 1 else 2]
        checks.that(f"synced, {number} at {at}, {instead.__name__}", (found, target.exists(), parts(folder), synced),
                    (why, why is None, [], names))
        target.unlink(missing_ok=True)


def closed_from_python(checks, pikhsen, folder):
    """What only closing tells is heeded before the file has its name; and since some file systems make a file again at its
    closing, or one that has no bytes later, none such is removed or replaced."""
    target, closing, seen = pathlib.Path(folder, "target"), os.close, []

    def tells(opened):
        of = os.path.basename(os.readlink(f"/proc/self/fd/{opened}"))
        closing(opened)
        if of.startswith(".pikhsen-"):
            raise OSError(errno.EIO, os.strerror(errno.EIO))

    with mock.patch.object(os, "close", tells):
        leaves(checks, "what only closing tells", target, os.strerror(errno.EIO), None, pikhsen.encrypt_file, io.BytesIO(b"x"),
               target, b"pw", **CHEAP)

    def noted(call, which, folder_of):
        def instead(*names, **folders):
            path = f"{os.readlink('/proc/self/fd/%d' % folders[folder_of])}/{names[which]}"
            opened = [f"/proc/self/fd/{it}" for it in os.listdir("/proc/self/fd")]
            seen.append((path in [os.readlink(it) for it in opened if os.path.lexists(it)], os.path.getsize(path)))
            return call(*names, **folders)

        return instead

    damaged = io.BytesIO(pikhsen.encrypt(b"xy", b"pw", **CHEAP)[:-1])
    with mock.patch.object(os, "unlink", noted(os.unlink, 0, "dir_fd")), mock.patch.object(os, "link", NO_LINKS), \
            mock.patch.object(os, "replace", noted(os.replace, 1, "dst_dir_fd")):
        leaves(checks, "removed after it was closed", target, "DAMAGED", None, pikhsen.decrypt_file, damaged, target, b"pw")
        checks.that("files that are replaced", refusal(pikhsen.encrypt_file, io.BytesIO(b"x"), target, b"pw", **CHEAP), None)
    checks.that("removed or replaced: whether it is open, and its bytes", seen, [(False, 1), (False, 1)])
    target.unlink()


class Narrow(io.RawIOBase):
    """A raw file that takes at most 1,000 bytes at a time, or, after so many bytes, none for now."""

    def __init__(self, room=1 << 20):
        self.taken, self.room = bytearray(), room

    def writable(self):
        return True

    def write(self, given):
        taken = bytes(given[:min(1000, self.room - len(self.taken))])
        self.taken += taken
        return len(taken) or None


def ends_of(kind):
    """The end of a pipe, or of a pair of sockets, that is read, and the other."""
    if kind == "pipe":
        return map(open, os.pipe(), ("rb", "wb"))
    reading, writing = socket.socketpair()
    with reading, writing:
        return reading.makefile("rb"), writing.makefile("wb")


def opened_files_from_python(checks, pikhsen, folder):
    """Files that are opened already: in memory, pipes, sockets, raw ones, and of types that Python has not."""
    text = bytes(range(256)) * 1000
    file = pikhsen.encrypt(text, b"pw", salt=SALT, **CHEAP)
    path = pathlib.Path(folder, "opened")
    path.write_bytes(b"before" + text)
    for call, given, expected, named in (
        (pikhsen.encrypt_file, text, file, {"salt": SALT, **CHEAP}), (pikhsen.decrypt_file, file, text, {}),
    ):
        for kind in ("pipe", "socket"):
            (source, to), target, told = ends_of(kind), io.BytesIO(), []
            with source:
                threading.Thread(target=lambda: (to.write(given), to.close()), daemon=True).start()
                call(source, target, b"pw", progress=lambda *it: told.append(it), **named)
                found = target.getvalue(), source.closed, target.closed
            checks.that(f"{call.__name__}, {kind}", found, (expected, False, False))
            checks.that(f"{call.__name__}, {kind}: progress", (told[-1], {it for _, it in told}), ((len(given), None), {None}))
    for source in (open(path, "rb"), open(path, "rb", buffering=0)):
        with source:
            told, target = [], Narrow()
            source.read(6)
            pikhsen.encrypt_file(source, target, b"pw", salt=SALT, progress=lambda *it: told.append(it), **CHEAP)
            checks.that("a raw target", bytes(target.taken), file)
            whole = [(min(it, len(text)), len(text)) for it in range(65536, len(text) + 65536, 65536)]
            checks.that("progress", told, whole)
    with tempfile.NamedTemporaryFile() as source, tempfile.NamedTemporaryFile() as target:
        # its class has neither `read` nor `write`
        pathlib.Path(source.name).write_bytes(text)
        found = refusal(pikhsen.encrypt_file, source, target, b"pw", salt=SALT, **CHEAP)
        target.flush()
        checks.that("files that wrap others", (found, pathlib.Path(target.name).read_bytes()), (None, file))
    # it brings all at once, and then nothing for now; and it takes all that it is given, and says nothing
    taken, new = bytearray(), path.with_suffix(".new")
    silent = types.SimpleNamespace(read=mock.Mock(side_effect=[memoryview(text), None, None]), write=taken.extend)
    found = refusal(pikhsen.encrypt_file, silent, silent, b"pw", salt=SALT, **CHEAP)
    checks.that("what is opened and ends too early", found, NO_DATA)
    checks.that("what says nothing of a write", bytes(taken), file[:-32])
    leaves(checks, "of what ends too early", new, NO_DATA, None, pikhsen.encrypt_file, silent, new, b"pw", **CHEAP)
    for count in (-1, len(file) + 1):
        # if such an answer were believed, and the rest written again: three calls at most
        target = mock.Mock(spec=["write"], **{"write.side_effect": [count] * 3})
        checks.that(f"a write that took {count} bytes", refusal(pikhsen.decrypt_file, io.BytesIO(file), target, b"pw"), "OSError")
    checks.that("a raw target that is full", refusal(pikhsen.decrypt_file, io.BytesIO(file), Narrow(70000), b"pw"), NO_DATA)
    target = io.BytesIO()
    checks.that("damage, to an opened file", (refusal(pikhsen.decrypt_file, io.BytesIO(file[:-1]), target, b"pw"), target.getvalue()), ("DAMAGED", text[:-1]))
    for name in ("/dev/null", "/proc/self/cmdline"):
        target = io.BytesIO()
        pikhsen.encrypt_file(name, target, b"pw", salt=SALT, **CHEAP)
        checks.that(f"of {name}", target.getvalue(), pikhsen.encrypt(pathlib.Path(name).read_bytes(), b"pw", salt=SALT, **CHEAP))


LARGE = """import pathlib, pikhsen, re, resource, sys
text, file, again = sys.argv[1:]
def most():
    return int(re.search(r"VmHWM:\\s+(\\d+)", pathlib.Path("/proc/self/status").read_text())[1])
before = most()
pikhsen.encrypt_file(text, file, b"pw", log_n=4)
pikhsen.decrypt_file(file, again, b"pw")
print(most() < before + (4 << 10))
resource.setrlimit(resource.RLIMIT_FSIZE, (1 << 20, resource.RLIM_INFINITY))
pathlib.Path(again).unlink()
try:
    pikhsen.decrypt_file(file, again, b"pw")
except OSError as refused:
    print(refused.strerror, pathlib.Path(again).exists(), [*pathlib.Path(again).parent.glob(".pikhsen-*")])
"""


def large_files_from_python(checks, folder, lib):
    """32 MiB go through 4 MiB of memory more than before; where the disk has no room, no file is left."""
    names = [f"{folder}/{it}" for it in ("large", "large.scrypt", "text of large")]
    with open(names[0], "wb") as large:
        large.truncate(1 << 25)
    checks.that("32 MiB on a disk", with_module(lib, "-c", LARGE, *names)[1], "True\nFile too large False []\n")


INTERRUPTED = """import os, pikhsen, signal, sys, threading, time
signal.signal(signal.SIGINT, signal.default_int_handler)
def interrupt():
    # while the table is being filled: it has 256 MiB in all
    while int(open("/proc/self/statm").read().split()[1]) < 1 << 14:
        time.sleep(0.001)
    os.kill(os.getpid(), signal.SIGINT)
buffer = bytearray(200)
for call in (lambda: pikhsen.encrypt_file(*sys.argv[1:], b"pw", log_n=18), lambda: pikhsen.encrypt_in_place(buffer, b"pw", log_n=18)):
    threading.Thread(target=interrupt, daemon=True).start()
    try:
        call()
    except KeyboardInterrupt:
        print(os.path.exists(sys.argv[2]), ".pikhsen-" in str(os.listdir(os.path.dirname(sys.argv[2]))), bytes(buffer[:6]))
"""


MOMENTS = """import os, pikhsen, random, signal, sys, time
os.chdir(sys.argv[1])
signal.signal(signal.SIGALRM, signal.default_int_handler)
text = bytes(range(256)) * 1000
file = pikhsen.encrypt(text, b"pw", log_n=4, r=1, p=1)
for name, content in (("text", text), ("file", file), ("damaged", file[:-1])):
    with open(name, "wb") as out:
        out.write(content)

def there():
    return {*os.listdir("."), *os.listdir("/proc/self/fd")}

def left(wait, call, source, **named):
    # what a call leaves that raises KeyboardInterrupt after so many seconds; None where it came before the call, or after it
    try:
        signal.setitimer(signal.ITIMER_REAL, wait)
        try:
            call(source, "target", b"pw", **named)
        except pikhsen.Damaged:
            pass
        signal.setitimer(signal.ITIMER_REAL, 0)
    except KeyboardInterrupt as told:
        return told.__traceback__.tb_next and there() - before

def refuse(*_, **__):
    raise PermissionError

before, count, found, links = there(), 0, set(), (os.link, refuse)
rows = [(it, *of) for it in links for of in (
    (pikhsen.encrypt_file, "text", {"log_n": 4, "r": 1, "p": 1}), (pikhsen.decrypt_file, "file", {}),
    (pikhsen.decrypt_file, "damaged", {}),
)]
took = [[] for _ in rows]
while count < int(sys.argv[2]):
    which = random.randrange(len(rows))
    os.link, call, source, named = rows[which]
    # a few calls go on to their ends, to see how long they take
    wait = random.uniform(1e-6, 1.1 * min(took[which])) if len(took[which]) > 5 else 0
    begun = time.perf_counter()
    try:
        it = left(wait, call, source, **named)
    except KeyboardInterrupt:
        it = None
    if not wait:
        took[which].append(time.perf_counter() - begun)
    elif it is not None:
        count, found = count + 1, found | it
    if os.path.exists("target"):
        os.unlink("target")
print(sorted(found))
"""


def interrupted_at_any_moment(checks, folder, lib):
    """Wherever Ctrl-C ends a call, also one that removes a file that is damaged, it leaves no target, no part of it, and no
    descriptor."""
    if sys.version_info < (3, 11):
        left_out("Python is older than 3.11", "moments of a call at which a signal comes are not tried", 1)
        return
    with tempfile.TemporaryDirectory(dir=folder) as work:
        found = with_module(lib, "-c", MOMENTS, work, "5000", timeout=600)
    checks.that("what calls leave that 5,000 signals ended", found, (0, "[]\n"))


def interrupted(checks, folder, lib):
    """Ctrl-C during a call: that goes on to its end, and KeyboardInterrupt is raised. No new file is left."""
    names = [f"{folder}/{it}" for it in ("short", "short.scrypt")]
    pathlib.Path(names[0]).write_bytes(b"Dear Ada")
    found = with_module(lib, "-c", INTERRUPTED, *names, timeout=120)
    checks.that("Ctrl-C during a call", found, (0, f"False False {bytes(6)}\nFalse False {b'scrypt'}\n"))


def files_of_python(checks, pikhsen, folder, lib):
    """All of this file: over the library in one folder, with files of its own in another."""
    for part in (
        streams_from_python, damage_in_pieces, ends_of_streams, threads_of_a_stream, handlers_of_a_stream,
        streams_and_scrypt,
    ):
        part(checks, pikhsen)
    for part in (
        kept_files_from_python, names_of_new_files, names_that_fail, paths_of_new_files, parts_of_another,
        synced_from_python, closed_from_python, opened_files_from_python,
    ):
        part(checks, pikhsen, folder)
    large_files_from_python(checks, folder, lib)
    interrupted(checks, folder, lib)
    interrupted_at_any_moment(checks, folder, lib)
