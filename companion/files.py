"""Files of users: how they are read, and how they are written so that no text is lost.

These functions raise OSError. A pipe or a device never makes them wait where nothing is at its other end.
"""

from __future__ import annotations

import errno
import os
import secrets
import stat
from contextlib import contextmanager, suppress
from typing import Callable, Iterator, Optional

#: How many bytes are asked for at once.
_PIECE = 1 << 16
#: Some systems lack these flags, which then do nothing.
_CLOSE_ON_EXEC = getattr(os, "O_CLOEXEC", 0)
_NOT_MINE = getattr(os, "O_NOCTTY", 0)

#: What is looked at last, before a file takes the place of another one.
Consent = Callable[[], bool]


def read_bytes(name: str, most: Optional[int] = None) -> bytes:
    """The bytes of a file, of a device or of a pipe, and no more than `most` of them.

    A pipe that nothing writes to is an error.
    """
    with _opened(name, os.O_RDONLY | os.O_NONBLOCK | _NOT_MINE) as descriptor:
        is_pipe = stat.S_ISFIFO(os.fstat(descriptor).st_mode)
        pieces = []
        with suppress(BlockingIOError):
            pieces.append(os.read(descriptor, _PIECE))
            if is_pipe and not pieces[0]:
                raise OSError(errno.EPIPE, "nothing writes to this pipe")
        os.set_blocking(descriptor, True)
        size = sum(map(len, pieces))
        while (not pieces or pieces[-1]) and (most is None or size < most):
            pieces.append(os.read(descriptor, _PIECE))
            size += len(pieces[-1])
    return b"".join(pieces)[:most]


def create(name: str, data: bytes) -> None:
    """Makes a file that only its owner may read. It's an error if something has the name."""
    with _opened(name, os.O_WRONLY | os.O_CREAT | os.O_EXCL, 0o600) as descriptor:
        with _removed_unless_done(name):
            _write(descriptor, data)
            os.fsync(descriptor)


def replace(name: str, data: bytes, consent: Optional[Consent] = None) -> None:
    """Has a plain file hold these bytes: at each moment it holds the old ones or the new ones.

    The bytes go to a file beside it, which then takes its place and its rights. A symbolic link stays, and the file
    that it leads to is written. Where there is no file, one is made. Without consent nothing changes.
    """
    target = os.path.realpath(name)
    old = _status(target)
    if old is not None and not stat.S_ISREG(old.st_mode):
        raise OSError(errno.EINVAL, "it's a directory" if stat.S_ISDIR(old.st_mode) else "it's no plain file")
    if old is not None and not os.access(target, os.W_OK):
        raise PermissionError(errno.EACCES, os.strerror(errno.EACCES))
    part = os.path.join(os.path.dirname(target), f".pedx-{secrets.token_hex(6)}")
    with _opened(part, os.O_WRONLY | os.O_CREAT | os.O_EXCL, 0o666 if old is None else 0o600) as descriptor:
        with _removed_unless_done(part):
            _write(descriptor, data)
            if old is not None:
                _keep_rights(descriptor, target, old)
            os.fsync(descriptor)
            if consent is not None and not consent():
                raise OSError(errno.EEXIST, "another program has written it meanwhile")
            os.replace(part, target)
    _sync_folder(os.path.dirname(target))


def put(name: str, data: bytes) -> None:
    """Writes to what has a name: takes the place of a plain file, and hands the bytes to a device or to a pipe.

    A pipe that nothing reads from is an error.
    """
    try:
        mode = os.stat(name).st_mode
    except FileNotFoundError:
        mode = stat.S_IFREG
    if not (stat.S_ISFIFO(mode) or stat.S_ISCHR(mode)):
        replace(name, data)
        return
    try:
        with _opened(name, os.O_WRONLY | os.O_NONBLOCK | _NOT_MINE) as descriptor:
            os.set_blocking(descriptor, True)
            _write(descriptor, data)
    except OSError as error:
        if error.errno == errno.ENXIO and stat.S_ISFIFO(mode):
            raise OSError(errno.ENXIO, "nothing reads from this pipe") from error
        raise


def holds(name: str, data: bytes) -> bool:
    """Whether a plain file holds just these bytes."""
    try:
        status = os.stat(name)
        return stat.S_ISREG(status.st_mode) and status.st_size == len(data) and read_bytes(name) == data
    except OSError:
        return False


def _status(name: str) -> Optional[os.stat_result]:
    try:
        return os.stat(name)
    except FileNotFoundError:
        return None


@contextmanager
def _opened(name: str, flags: int, mode: int = 0o600) -> Iterator[int]:
    descriptor = os.open(name, flags | _CLOSE_ON_EXEC, mode)
    try:
        yield descriptor
    finally:
        os.close(descriptor)


@contextmanager
def _removed_unless_done(name: str) -> Iterator[None]:
    """Removes a file where what is done with it fails, or is interrupted."""
    try:
        yield
    except BaseException:
        with suppress(OSError):
            os.unlink(name)
        raise


def _write(descriptor: int, data: bytes) -> None:
    rest = memoryview(data)
    while rest:
        rest = rest[os.write(descriptor, rest):]


def _keep_rights(descriptor: int, old_name: str, old: os.stat_result) -> None:
    """Gives a file the owner, the group, the mode and the attributes of another one, as far as the system permits.

    The rights of a group that can't be kept become those of others, so nobody may do more than before.
    """
    mode = stat.S_IMODE(old.st_mode)
    with suppress(OSError):
        os.fchown(descriptor, -1, old.st_gid)
    with suppress(OSError):
        os.fchown(descriptor, old.st_uid, -1)
    now = os.fstat(descriptor)
    if now.st_gid != old.st_gid:
        mode = mode & ~0o070 | (mode & 0o007) << 3
    if (now.st_uid, now.st_gid) != (old.st_uid, old.st_gid):
        mode &= 0o777
    os.fchmod(descriptor, mode)
    if hasattr(os, "listxattr"):
        with suppress(OSError):
            for attribute in os.listxattr(old_name):
                with suppress(OSError):
                    os.setxattr(descriptor, attribute, os.getxattr(old_name, attribute))


def _sync_folder(name: str) -> None:
    """Has the system keep the names of a folder, too; some can't."""
    with suppress(OSError):
        with _opened(name, os.O_RDONLY) as descriptor:
            os.fsync(descriptor)
