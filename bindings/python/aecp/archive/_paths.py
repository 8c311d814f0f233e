"""Which files a run works on, and where it writes."""

from __future__ import annotations

import contextlib
import fnmatch
import os
import re
import stat
from collections.abc import Iterable, Iterator
from typing import NamedTuple, Optional

from aecp.archive import _saving
from aecp.archive._form import Refused, shown

STREAM, NOTE, OLD_NOTE = ".aec", ".aec.json", ".aec.note"
OURS = (STREAM, NOTE, OLD_NOTE)
# Files that are being written, by this form and by the one before.
HIDDEN = re.compile(r"\.aecp-.{8}\.new|\..*\.aec\.([0-9a-f]{12}\.new|json\.new|lock)", re.S)
ENDS = "txt md csv tsv json xml html log py sh toml yaml yml".split()
TEXTS = ["README*", *(f"*.{end}" for end in ENDS)]


class Found(NamedTuple):
    """A file to work on.

    path      where it is
    name      what messages call it
    below     its path below the folder of --to
    size      its bytes when it was found
    is_named  it was named itself, instead of found in a folder
    inode     its number in the file system when it was found, 0 if that isn't known
    is_new    whether nothing had the name of its result when the run began, as far as that is known
    """

    path: str
    name: str
    below: str
    size: int
    is_named: bool
    inode: int = 0
    is_new: bool = False


class Passed(NamedTuple):
    """A path that isn't worked on, and why. `is_bad` makes the run fail."""

    name: str
    why: str
    is_bad: bool


def names_below(path: str) -> str:
    """Returns the name that a named path has below the folder of --to: as `cp -r` does, its last
    part."""
    name = os.path.basename(path)
    return "" if name in (".", "..") else name


def file_of(path: str, below: str, is_named: bool) -> Found:
    """Returns a file with its size."""
    size = inode = 0
    with contextlib.suppress(OSError):
        status = os.stat(path)
        size, inode = status.st_size, status.st_ino
    return Found(os.path.abspath(path), path, below, size, is_named, inode)


def walked(top: str, passed: list[Passed]) -> Iterator[tuple[os.DirEntry[str], str]]:
    """Yields each entry below a folder that is no folder, sorted by name, with its path from the
    folder on. Folders that are links aren't entered."""
    waiting = [sorted_entries(top, "", passed)]
    while waiting:
        entry, below = next(waiting[-1], (None, ""))
        if entry is None:
            waiting.pop()
        elif entry.is_dir(follow_symlinks=False):
            waiting.append(sorted_entries(entry.path, below, passed))
        else:
            yield entry, below


def sorted_entries(
    folder: str, below: str, passed: list[Passed]
) -> Iterator[tuple[os.DirEntry[str], str]]:
    """Yields the entries of a folder, sorted by name, each with its path below the top."""
    try:
        with os.scandir(folder) as scanned:
            entries = sorted(scanned, key=lambda it: it.name)
    except OSError as error:
        passed.append(Passed(folder, str(error.strerror or error), True))
        return
    for entry in entries:
        yield entry, os.path.join(below, entry.name)


def matches(names: Iterable[str], patterns: list[str]) -> bool:
    """Returns whether one of the names matches one of the patterns."""
    return any(fnmatch.fnmatchcase(name, pattern) for name in names for pattern in patterns)


def originals(
    paths: Iterable[str], include: list[str], exclude: list[str], passed: list[Passed]
) -> Iterator[Found]:
    """Yields the files to keep: those that are named, and those in folders that are named."""
    for path in paths:
        if os.path.islink(path):
            passed.append(Passed(path, "it is a symbolic link: name what it points to", True))
        elif os.path.isdir(path):
            yield from originals_in(path, include, exclude, passed)
        elif not os.path.lexists(path):
            passed.append(Passed(path, "there is no such file", True))
        elif not os.path.isfile(path):
            passed.append(Passed(path, "it is no plain file", True))
        elif path.endswith(OURS):
            passed.append(Passed(path, "it is a kept file: only originals are kept", True))
        else:
            yield file_of(path, names_below(path), True)


def originals_in(
    folder: str, include: list[str], exclude: list[str], passed: list[Passed]
) -> Iterator[Found]:
    """Yields the files to keep in a folder and below it."""
    top = names_below(folder.rstrip("/") or "/")
    for entry, below in walked(folder, passed):
        names = entry.name, below
        if entry.is_symlink():
            passed.append(Passed(entry.path, "a symbolic link, passed over", False))
        elif entry.name.endswith(OURS) or HIDDEN.fullmatch(entry.name):
            continue
        elif not entry.is_file(follow_symlinks=False):
            passed.append(Passed(entry.path, "no plain file, passed over", False))
        elif matches(names, exclude) or (include and not matches(names, include)):
            continue
        elif not include and matches((entry.name,), TEXTS):
            why = "passed over: its name is that of a text (--include keeps it)"
            passed.append(Passed(entry.path, why, False))
        else:
            yield file_of(entry.path, os.path.join(top, below), False)


def names_apart(found: list[Found], passed: list[Passed]) -> list[Found]:
    """Returns the files without those whose FILE.aec below the folder of --to would have the name
    of another one's."""
    first: dict[str, Found] = {}
    for it in found:
        other = first.setdefault(it.below, it)
        if other.path != it.path:
            why = f"its FILE.aec would have the name of that of {shown(other.name)}"
            passed.append(Passed(it.name, f"{why}: keep it in another folder", True))
    return [it for it in found if first[it.below].path == it.path]


def kept_path(path: str) -> str:
    """Returns the path of the kept file that a path names: its own, that of its original, or that
    of its note."""
    for end in (NOTE, OLD_NOTE):
        if path.endswith(end):
            return path[: -len(end)] + STREAM
    return path if path.endswith(STREAM) or os.path.isdir(path) else path + STREAM


def kept_files(paths: Iterable[str], passed: list[Passed]) -> Iterator[Found]:
    """Yields the kept files that are named, and those in folders that are named, each once."""
    seen: set[str] = set()
    for path in paths:
        if os.path.isdir(path):
            found = kept_in(path, passed)
        elif os.path.lexists(kept_path(path)):
            found = iter([file_of(kept_path(path), names_below(kept_path(path)), True)])
        else:
            found = iter([])
            why = "there is no such file"
            if os.path.lexists(path):
                why = "it isn't kept: there is no such FILE.aec"
            passed.append(Passed(path, why, True))
        is_empty, before = os.path.isdir(path), len(passed)
        for it in found:
            is_empty = False
            if it.path not in seen:
                seen.add(it.path)
                yield it
        if is_empty and not any(it.is_bad for it in passed[before:]):
            passed.append(Passed(path, "there is no kept file in it", True))


def kept_in(folder: str, passed: list[Passed]) -> Iterator[Found]:
    """Yields the kept files in a folder and below it."""
    top = names_below(folder.rstrip("/") or "/")
    for entry, below in walked(folder, passed):
        if HIDDEN.fullmatch(entry.name) or not entry.name.endswith(OURS):
            continue
        if entry.is_symlink():
            passed.append(Passed(entry.path, "a symbolic link, passed over", False))
        elif entry.name.endswith(STREAM):
            yield file_of(entry.path, os.path.join(top, below), False)
        elif not os.path.lexists(kept_path(entry.path)):
            passed.append(Passed(entry.path, "a note without its stream", True))


def target_path(found: Found, to: Optional[str]) -> str:
    """Returns the path of FILE.aec for an original: beside it, or below the folder of --to."""
    return found.path + STREAM if to is None else os.path.join(to, found.below + STREAM)


def made_target(found: Found, to: Optional[str]) -> str:
    """Returns the path of FILE.aec for an original. Its folder is made. Raises Refused, OSError."""
    return target_path(found, to) if to is None else place_below(to, found.below + STREAM)


def require_kept(found: Found, to: Optional[str]) -> None:
    """Raises Refused if an original has no FILE.aec that can be repaired. An empty one can't be."""
    path = target_path(found, to)
    name = shown(found.name + STREAM if to is None else path)
    if not os.path.lexists(path):
        hint = "" if to is None else ": give the same PATH and DIR as when it was kept"
        raise Refused(f"there is no kept file {name} to repair{hint}")
    if is_empty_file(path):
        raise Refused(f"there is no kept file {name} to repair: the file of this name is empty")


def is_empty_file(path: str) -> bool:
    """Returns whether a path is that of an empty regular file."""
    status = os.lstat(path)
    return stat.S_ISREG(status.st_mode) and status.st_size == 0


def place_below(folder: str, below: str) -> str:
    """Returns a path below a folder. Missing folders are made, and their names survive a loss of
    power. Raises Refused if a link or a file has the name of a folder below `folder`; OSError."""
    make_folders(folder)
    path = folder
    for part in filter(None, os.path.dirname(below).split(os.sep)):
        path = os.path.join(path, part)
        make_folder(path)
        if not stat.S_ISDIR(os.lstat(path).st_mode):
            raise Refused(f"{shown(path)} is a link or a file, no folder")
    return os.path.join(folder, below)


def make_folders(path: str) -> None:
    """Makes a folder and those above it that are missing. Raises OSError."""
    if not os.path.isdir(path or "."):
        make_folders(os.path.dirname(path.rstrip(os.sep)))
        make_folder(path)


def make_folder(path: str) -> None:
    """Makes a folder, and syncs the one above it, unless something has this name. Raises OSError."""
    try:
        os.mkdir(path)
    except FileExistsError:
        return
    _saving.sync_folder(os.path.dirname(path.rstrip(os.sep)) or ".")
