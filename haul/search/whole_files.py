"""Files that are complete at any time: a new text is written beside the file, and then replaces
it."""

from __future__ import annotations

import errno
import os
import stat
from collections.abc import Iterable, Iterator
from contextlib import contextmanager, suppress

# The permissions of a new file, before the user's mask is applied.
ANY_RIGHTS = 0o666
# Identifies a version of a file.
Stamp = tuple[int, int, int]


def find_stamp(path: str) -> Stamp | None:
    """Returns what identifies a version of a file: its inode, its size and its modification time.
    Returns `None` if there is no such file."""
    try:
        return make_stamp(os.stat(path))
    except FileNotFoundError:
        return None


def make_stamp(found: os.stat_result) -> Stamp:
    return found.st_ino, found.st_size, found.st_mtime_ns


@contextmanager
def write_new_text(path: str, lines: Iterable[bytes], rights_of: str) -> Iterator[Stamp | None]:
    """Writes a new text beside a file, with the permissions of the file `rights_of`, and yields
    what will identify the new version. When the context is left normally, the new text, which is
    then safely on disk, replaces the file. If the new text can't be written, or if an exception
    leaves the context, the file keeps its old text and the new text is removed."""
    new = f"{path}.new"
    # A search that was killed may have left a new text behind.
    with suppress(FileNotFoundError):
        os.unlink(new)
    with named_in_faults(new):
        write_file(new, lines, rights_of)
    with removed_on_failure(new):
        yield find_stamp(new)
        with named_in_faults(new):
            os.replace(new, path)
    sync_folder(os.path.dirname(path) or os.curdir)


@contextmanager
def removed_on_failure(path: str) -> Iterator[None]:
    try:
        yield
    except BaseException:
        with suppress(OSError):
            os.unlink(path)
        raise


@contextmanager
def named_in_faults(path: str) -> Iterator[None]:
    """Raises each `OSError` again with `path` as the name of the file."""
    try:
        yield
    except OSError as error:
        raise OSError(error.errno, error.strerror, path) from None


def replace_file(path: str, lines: Iterable[bytes], rights_of: str) -> Stamp | None:
    """Replaces the text of a file, with the permissions of the file `rights_of`. Returns what
    identifies the new version."""
    with write_new_text(path, lines, rights_of) as stamp:
        return stamp


def write_file(new: str, lines: Iterable[bytes], rights_of: str) -> None:
    """Writes a file that doesn't exist yet, with the permissions of the file `rights_of` if there
    is such a file. If the writing fails, no new file is left."""
    number = os.open(new, os.O_WRONLY | os.O_CREAT | os.O_EXCL | os.O_CLOEXEC, ANY_RIGHTS)
    with removed_on_failure(new), open(number, "wb") as file:
        with suppress(FileNotFoundError):
            os.fchmod(number, stat.S_IMODE(os.stat(rights_of).st_mode))
        file.writelines(lines)
        file.flush()
        os.fsync(number)


def remove_file(path: str) -> None:
    """Removes a file if it exists."""
    with suppress(FileNotFoundError):
        os.unlink(path)
        sync_folder(os.path.dirname(path) or os.curdir)


def move_aside(path: str) -> str:
    """Renames a file that can't be used. Returns its new name, which no other file has."""
    name, number = f"{path}.bad", 1
    while os.path.lexists(name):
        number += 1
        name = f"{path}.bad.{number}"
    os.rename(path, name)
    sync_folder(os.path.dirname(path) or os.curdir)
    return name


def sync_folder(path: str) -> None:
    """Makes sure that changes to the names in a folder are on disk, except on file systems that
    can't do that for a folder."""
    folder = os.open(path, os.O_RDONLY | os.O_DIRECTORY | os.O_CLOEXEC)
    try:
        os.fsync(folder)
    except OSError as error:
        if error.errno != errno.EINVAL:
            raise
    finally:
        os.close(folder)
