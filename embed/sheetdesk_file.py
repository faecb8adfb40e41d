"""Desks in files: written whole or not at all, and taken back only if they are admitted. docs/FORMAT.md says what a file
holds, and what each fault is. Outside of what is proved.

    desk = sheetdesk_file.load("tower.desk")
    desk.fetch(0, 1)
    sheetdesk_file.save(desk, "tower.desk")

What can't be read, written, admitted or locked raises a Fault. A save that fails leaves the file as it was.
"""
import array
import contextlib
import errno
import fcntl
import os
import stat
import struct
import sys
import time

import sheetdesk
from sheetdesk_why import refused, why

MAGIC = b"\x89DESK\r\n\x1a"
# Magic, layout and number of words; and with the sum behind them.
HEAD, LEAST = 16, 20
# No desk of any layout has more bytes: nobody need read such a file.
MOST = 1 << 26


class Fault(Exception):
    """Why a desk isn't loaded, saved or locked: `kind` is "unread", "large", "magic", "short", "trailing", "sum", "layout", "form",
    "admitted", "unsaved", "unsynced" or "locked"."""

    def __init__(self, kind, said):
        super().__init__(said)
        self.kind = kind


def _table():
    for byte in range(256):
        for _ in range(8):
            byte = byte >> 1 ^ (0x82F63B78 if byte & 1 else 0)
        yield byte


_SUMS = tuple(_table())


def crc32c(content):
    """CRC-32C (Castagnoli)."""
    total, sums = 0xFFFFFFFF, _SUMS
    for byte in content:
        total = sums[(total ^ byte) & 255] ^ total >> 8
    return total ^ 0xFFFFFFFF


def _little(words):
    """The words in the order of the file."""
    if sys.byteorder != "little":
        words.byteswap()
    return words


def _judge(words):
    """Raises what the library has against the words, with a hint."""
    number = refused(words)
    if number is not None:
        kind, name = ("form", "not in form (1)") if number == 1 else ("admitted", "not admitted (11)")
        raise Fault(kind, "%s: %s" % (name, why(words) or "no cause was found"))


def pack(words):
    """The bytes of a file for a desk that is admitted."""
    _judge(words)
    words = array.array("I", words[: words[9]])
    content = MAGIC + struct.pack("<II", sheetdesk.LAYOUT, len(words)) + _little(words).tobytes()
    return content + struct.pack("<I", crc32c(content))


def unpack(content):
    """The words of a file's bytes, an array, if they are a desk that is admitted."""
    size = len(content)
    if content[:8] != MAGIC[:size]:
        raise Fault("magic", "no saved desk: it doesn't begin with the magic")
    layout, count = struct.unpack_from("<II", content, 8) if size >= HEAD else (0, 0)
    due = LEAST + 4 * count
    if size < due:
        least = "at least " if size < HEAD else ""
        raise Fault("short", "too short: %d bytes, and it should have %s%d" % (size, least, due))
    if size > due:
        raise Fault("trailing", "trailing bytes: %d bytes, and it should have %d" % (size, due))
    has, makes = struct.unpack_from("<I", content, size - 4)[0], crc32c(memoryview(content)[: size - 4])
    if has != makes:
        raise Fault("sum", "wrong sum: it has %08x, and its bytes make %08x: it is damaged" % (has, makes))
    if layout != sheetdesk.LAYOUT:
        raise Fault("layout", "saved in layout %d, and this library has layout %d: its log makes it anew "
                    "(docs/FORMAT.md, Other layouts)" % (layout, sheetdesk.LAYOUT))
    words = array.array("I")
    words.frombytes(content[HEAD : size - 4])
    _judge(_little(words))
    if len(words) != words[9]:
        raise Fault("form", "not in form (1): %d words, and its desk has %d" % (len(words), words[9]))
    return words


def _irregular():
    return OSError(errno.EINVAL, "it isn't a regular file")


def _read(path):
    """All bytes of a file, which is a regular one."""
    file = os.open(path, os.O_RDONLY | os.O_CLOEXEC | os.O_NONBLOCK)
    try:
        about, parts = os.fstat(file), []
        if not stat.S_ISREG(about.st_mode):
            raise _irregular()
        if about.st_size > MOST:
            raise Fault("large", "too large: %d bytes, and no desk has over %d" % (about.st_size, MOST))
        while not parts or parts[-1]:
            parts.append(os.read(file, 1 << 20))
        return b"".join(parts)
    finally:
        os.close(file)


def load(path, record=None):
    """Takes a desk back from its file."""
    try:
        content = _read(path)
    except OSError as error:
        raise Fault("unread", "can't be read: %s" % error.strerror) from error
    return sheetdesk.Desk(unpack(content), record)


def _open_new(beside):
    """The new file that is written beside the old one, held alone: one that a killed save left is taken over, and one that
    another save writes is waited for."""
    while True:
        file = os.open(beside, os.O_RDWR | os.O_CREAT | os.O_CLOEXEC | os.O_NOFOLLOW, 0o666)
        try:
            fcntl.flock(file, fcntl.LOCK_EX)
            with contextlib.suppress(FileNotFoundError):
                if os.path.samestat(os.fstat(file), os.stat(beside)):
                    return file
        except BaseException:
            os.close(file)
            raise
        os.close(file)


def _real(path):
    """The file that a path leads to, through links. A link to nothing is an error."""
    if os.path.lexists(path):
        os.stat(path)
        return os.path.realpath(path)
    return os.fspath(path)


def _replace(name, content):
    mode = None
    if os.path.exists(name):
        mode = os.stat(name).st_mode
        if not stat.S_ISREG(mode):
            raise _irregular()
        os.close(os.open(name, os.O_WRONLY | os.O_APPEND | os.O_CLOEXEC))
    beside = name + ".new"
    file = _open_new(beside)
    try:
        os.ftruncate(file, 0)
        if mode is not None:
            os.fchmod(file, stat.S_IMODE(mode))
        rest = memoryview(content)
        while rest:
            rest = rest[os.write(file, rest) :]
        os.fsync(file)
        os.rename(beside, name)
    except BaseException:
        with contextlib.suppress(OSError):
            os.unlink(beside)
        raise
    finally:
        os.close(file)


def save(desk, path):
    """Saves a desk that is admitted: a new file beside the old one, written whole, on the disk, given the name, and the
    folder on the disk."""
    content = pack(desk.words())
    try:
        name = _real(path)
        _replace(name, content)
    except OSError as error:
        raise Fault("unsaved", "not saved, the file is as it was: %s" % error.strerror) from error
    try:
        folder = os.open(os.path.dirname(name) or ".", os.O_RDONLY | os.O_DIRECTORY)
        try:
            os.fsync(folder)
        finally:
            os.close(folder)
    except OSError as error:
        if error.errno != errno.EINVAL:
            raise Fault("unsynced", "saved, but it may not outlast a power cut: %s" % error.strerror) from error


@contextlib.contextmanager
def lock(path, seconds=60):
    """Holds the lock of a desk's file, a file beside it, and waits so long for another who has it. The lock's file stays."""
    until = time.monotonic() + seconds
    try:
        file = os.open(_real(path) + ".lock", os.O_RDWR | os.O_CREAT | os.O_CLOEXEC | os.O_NOFOLLOW, 0o666)
    except OSError as error:
        raise Fault("locked", "not locked: %s" % error.strerror) from error
    try:
        while True:
            try:
                fcntl.flock(file, fcntl.LOCK_EX | fcntl.LOCK_NB)
                break
            except BlockingIOError:
                if time.monotonic() >= until:
                    raise Fault("locked", "not locked: another process has it") from None
                time.sleep(0.02)
        yield
    finally:
        os.close(file)
