"""New files and replacements: each is written under a random hidden name, synced, and renamed.

One rename is the whole protocol. A hidden file is locked while its writer lives, so other runs know
those that a killed run has left, and remove them. No name is opened through a symbolic link.
"""

from __future__ import annotations

import contextlib
import ctypes
import errno
import fcntl
import functools
import os
import re
import secrets
import stat
from collections.abc import Iterator
from contextlib import contextmanager
from typing import Any, BinaryIO, Callable

from aecp.archive._form import Exists, Refused, shown

# What a file system says that can't sync folders.
UNSYNCED = (errno.EINVAL, errno.EBADF, errno.ENOSYS, errno.ENOTSUP)

HIDDEN = re.compile(r"\.aecp-[0-9a-f]{8}\.new")
OPENING = os.O_NONBLOCK | os.O_NOFOLLOW | os.O_CLOEXEC
MAKING = os.O_CREAT | os.O_EXCL | os.O_NOFOLLOW | os.O_CLOEXEC
TRIES = 1000
AT_FDCWD, RENAME_NOREPLACE = -100, 1
NOT_SUPPORTED = (errno.ENOSYS, errno.EINVAL, errno.EPERM, errno.EOPNOTSUPP, errno.EMLINK)
EXISTS = "there is a file of this name, and nothing is written over it"


class Busy(Refused):
    """Another run has the lock."""


# New files.


@contextmanager
def new_file(path: str, mode: int = 0o666) -> Iterator[BinaryIO]:
    """Yields a file that can be written and read. When the block ends, the file is synced and gets
    the name `path`, never over another file. After an exception nothing is left.

    mode: the mode of the file, less the umask.

    Raises Exists if something has this name; OSError.
    """
    if os.path.lexists(path):
        raise Exists(EXISTS)

    def name(file: BinaryIO, hidden: str) -> None:
        give_mode(file.fileno(), mode & ~umask())
        os.fsync(file.fileno())
        rename_to_new(hidden, path)

    with hidden_file(os.path.dirname(path), name) as file:
        yield file


@contextmanager
def replacement(path: str, status: os.stat_result) -> Iterator[BinaryIO]:
    """Yields a file as new_file does. It replaces the regular file `path` whose status is given,
    and takes over its mode, and its owner where that is allowed. The caller holds `locked`.

    Raises Refused if `path` isn't that file any more; OSError.
    """

    def name(file: BinaryIO, hidden: str) -> None:
        give_status(file.fileno(), status)
        os.fsync(file.fileno())
        if not os.path.samestat(os.lstat(path), status):
            raise Refused("another file has its name now, and nothing is written over that")
        os.rename(hidden, path)

    with hidden_file(os.path.dirname(path), name) as file:
        yield file


def give_status(file: int, status: os.stat_result) -> None:
    """Gives an open file a mode, and an owner and a group where that is allowed."""
    mine, mode = os.fstat(file), status.st_mode & 0o777
    if (mine.st_uid, mine.st_gid) != (status.st_uid, status.st_gid):
        give_mode(file, mode & 0o700)  # until the group is right, it may do nothing
        for owner, group in ((-1, status.st_gid), (status.st_uid, -1)):
            with contextlib.suppress(OSError):
                os.fchown(file, owner, group)
        if os.fstat(file).st_gid != status.st_gid:
            mode &= ~0o070
    give_mode(file, mode)


def give_mode(file: int, mode: int) -> None:
    """Gives an open file a mode. Where the file system has no modes, does nothing."""
    with contextlib.suppress(OSError):
        os.fchmod(file, mode)


@contextmanager
def hidden_file(folder: str, name: Callable[[BinaryIO, str], None]) -> Iterator[BinaryIO]:
    """Yields a new file with a hidden name. When the block ends, `name` gives it its name, and the
    folder is synced. After an exception, also of `name`, the file is removed."""
    file, hidden = make_hidden(folder)
    try:
        yield file
        file.flush()
        name(file, hidden)
        sync_folder(folder)
    except BaseException:
        unlink_if_same(hidden, file.fileno())
        with contextlib.suppress(OSError):  # what isn't written yet needs no place any more
            file.close()
        raise
    file.close()


def make_hidden(folder: str) -> tuple[BinaryIO, str]:
    """Makes a file with a random name, locked and only for its owner. Returns it and its path."""
    for _ in range(TRIES):
        path = os.path.join(folder, f".aecp-{secrets.token_hex(4)}.new")
        try:
            file = os.open(path, os.O_RDWR | MAKING, 0o600)
        except FileExistsError:
            continue
        except OSError as error:
            error.filename = folder or "."
            raise
        try:
            with contextlib.suppress(OSError):  # some file systems have no locks
                fcntl.flock(file, fcntl.LOCK_EX)
            if is_named(path, file):  # else another run has removed it, before it was locked
                return os.fdopen(file, "w+b"), path
        except BaseException:
            unlink_if_same(path, file)
            os.close(file)
            raise
        os.close(file)
    raise FileExistsError(errno.EEXIST, "no hidden name is free", folder)


def is_named(path: str, file: int) -> bool:
    """Returns whether a path is that of an open file, and no link."""
    try:
        return os.path.samestat(os.lstat(path), os.fstat(file))
    except FileNotFoundError:
        return False


def unlink_if_same(path: str, file: int) -> None:
    """Removes the name of an open file, if the file still has it."""
    with contextlib.suppress(OSError):
        if is_named(path, file):
            os.unlink(path)


def rename_to_new(hidden: str, path: str) -> None:
    """Gives a file a name that nothing has yet. Raises Exists if something has it; OSError."""
    for way in (rename_exclusive, link_and_unlink, rename_over_empty):
        try:
            way(hidden, path)
            return
        except FileExistsError:
            raise Exists(EXISTS) from None
        except OSError as error:
            if error.errno not in NOT_SUPPORTED or way is rename_over_empty:
                raise


def rename_exclusive(hidden: str, path: str) -> None:
    """Renames a file by renameat2. Raises OSError, ENOSYS if there is no such call."""
    call = renameat2()
    if call is None:
        raise OSError(errno.ENOSYS, os.strerror(errno.ENOSYS))
    old, new = os.fsencode(hidden), os.fsencode(path)
    if call(AT_FDCWD, old, AT_FDCWD, new, RENAME_NOREPLACE):
        number = ctypes.get_errno()
        raise OSError(number, os.strerror(number), path)


@functools.lru_cache(maxsize=None)
def renameat2() -> Any:
    """Returns the system's call renameat2, or None."""
    call = getattr(ctypes.CDLL(None, use_errno=True), "renameat2", None)
    if call is not None:
        number, text = ctypes.c_int, ctypes.c_char_p
        call.restype, call.argtypes = number, [number, text, number, text, ctypes.c_uint]
    return call


def link_and_unlink(hidden: str, path: str) -> None:
    """Gives a file a second name, and removes its first."""
    os.link(hidden, path, follow_symlinks=False)
    os.unlink(hidden)


def rename_over_empty(hidden: str, path: str) -> None:
    """Makes an empty file of the new name, and renames over it. It is locked, so that others don't
    take it for one that a killed run has left."""
    empty = os.open(path, os.O_WRONLY | MAKING, 0o600)
    try:
        with contextlib.suppress(OSError):  # some file systems have no locks
            fcntl.flock(empty, fcntl.LOCK_EX)
        os.rename(hidden, path)
    except BaseException:
        unlink_if_same(path, empty)
        raise
    finally:
        os.close(empty)


def umask() -> int:
    """Returns the mask of modes of this process."""
    with contextlib.suppress(OSError, ValueError, IndexError):
        with open("/proc/self/status", encoding="ascii", errors="replace") as status:
            line = next(line for line in status if line.startswith("Umask:"))
            return int(line.split()[1], 8)
    mask = os.umask(0o077)
    os.umask(mask)
    return mask


def sync(path: str) -> None:
    """Makes a file and its name survive a loss of power. Raises OSError."""
    file = os.open(path, os.O_RDONLY | OPENING)
    try:
        os.fsync(file)
    finally:
        os.close(file)
    sync_folder(os.path.dirname(path))


def sync_folder(folder: str) -> None:
    """Makes the names in a folder survive a loss of power, if the file system supports that and the
    folder may be read. Raises OSError if the disk fails or is full."""
    try:
        file = os.open(folder or ".", os.O_RDONLY | os.O_CLOEXEC)
    except PermissionError:
        return
    try:
        os.fsync(file)
    except OSError as error:
        if error.errno not in UNSYNCED:
            raise
    finally:
        os.close(file)


# Locks and leftovers.


@contextmanager
def locked(path: str, wait: bool = True) -> Iterator[os.stat_result]:
    """Locks a regular file against other runs, and yields its status.

    wait: whether to wait for another run that has the lock.

    Raises Busy without `wait`, if another run has the lock; Refused for a link, a pipe or a device,
    and where the file system has no locks; OSError.
    """
    file = lock_of(path, wait)
    try:
        yield os.fstat(file)
    finally:
        os.close(file)


def lock_of(path: str, wait: bool) -> int:
    """Returns an open file that is locked, and that has this path while it is locked."""
    for _ in range(TRIES):
        file = open_regular(path)
        try:
            lock_or_refuse(file, wait)
            if is_named(path, file):  # else another run has replaced it, and has waited less
                return file
        except BaseException:
            os.close(file)
            raise
        os.close(file)
    raise Refused("it is replaced again and again")


def open_regular(path: str) -> int:
    """Opens a regular file that can be locked. Raises Refused for anything else; OSError."""
    mode = os.lstat(path).st_mode
    if stat.S_ISLNK(mode):
        raise Refused(f"it is a symbolic link: name the file {shown(os.readlink(path))}")
    if not stat.S_ISREG(mode):
        raise Refused("it is no regular file")
    try:
        file = os.open(path, os.O_RDWR | OPENING)  # some file systems lock only these
    except OSError:
        file = os.open(path, os.O_RDONLY | OPENING)
    if not stat.S_ISREG(os.fstat(file).st_mode):
        os.close(file)
        raise Refused("it is no regular file")
    return file


def lock_or_refuse(file: int, wait: bool) -> None:
    """Locks an open file. Raises Busy, Refused."""
    try:
        fcntl.flock(file, fcntl.LOCK_EX | (0 if wait else fcntl.LOCK_NB))
    except BlockingIOError:
        raise Busy("another run of aecp works on it") from None
    except OSError as error:
        raise Refused(f"it can't be locked: {os.strerror(error.errno or 0)}") from None


def remove_leftovers(folder: str) -> None:
    """Removes the hidden files that killed runs have left in a folder. Files of runs that are alive
    stay. Raises nothing: what can't be removed stays."""
    with contextlib.suppress(OSError):
        with os.scandir(folder or ".") as entries:
            names = [entry.name for entry in entries if HIDDEN.fullmatch(entry.name)]
        for name in names:
            remove_leftover(os.path.join(folder, name))


def remove_leftover(path: str, is_empty: bool = False) -> None:
    """Removes a hidden file, if it can be locked: then no run that is alive has it. With `is_empty`,
    only if it is empty."""
    with contextlib.suppress(OSError, Refused):
        file = open_regular(path)
        try:
            lock_or_refuse(file, wait=False)
            if not is_empty or os.fstat(file).st_size == 0:
                unlink_if_same(path, file)
        finally:
            os.close(file)


def remove_empty(path: str) -> str:
    """Removes an empty FILE.aec, such as `rename_over_empty` of a killed run leaves. Returns what
    there is to say of it."""
    with contextlib.suppress(OSError):
        if os.lstat(path).st_size == 0:
            remove_leftover(path, is_empty=True)
            return "" if os.path.lexists(path) else "FILE.aec was empty, and is made anew"
    return ""
