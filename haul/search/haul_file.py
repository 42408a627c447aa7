"""Keeps a haul in a file. The file has a complete haul at any time, even if this program or the
machine stops."""

from __future__ import annotations

import errno
import fcntl
import itertools
import os
import stat
import time
from collections.abc import Callable, Iterable, Iterator, Sequence
from contextlib import suppress
from typing import NamedTuple

from haul.formats.field_reader import BadHaul
from haul.formats.haul import Haul
from haul.formats.haul_reader import read_one_haul
from haul.formats.haul_writer import format_haul
from haul.search.side_file import SideFile
from haul.search.whole_files import ANY_RIGHTS, find_stamp, make_stamp, replace_file, write_new_text

# How long to try to lock a file, and the pause between two tries, in seconds.
SECONDS_FOR_LOCK, SECONDS_BETWEEN_TRIES = 2.0, 0.02


class CantUseFile(Exception):
    """Raised if a search can't use FILE or FILE.late. Gives the reason."""


class Displaced(OSError):
    """Raised if another program has changed the file. The haul has been written to another file
    beside it."""


class Beside(NamedTuple):
    """A file beside FILE, the function that returns its lines, and whether the lines have
    changed."""

    file: SideFile
    write: Callable[[], Iterable[bytes]]
    is_changed: bool


class HaulFile:
    """A file with a haul, and a lock that prevents a second search from keeping the same file.

    The running search holds the lock on FILE.lock. That file remains after the search. A new text
    is written to FILE.new, which then replaces FILE.
    """

    def __init__(self, name: str) -> None:
        """Locks the file. Raises `CantUseFile` if it is locked or isn't a regular file."""
        self.name = name
        # Symbolic links are resolved, so that a file and a link to it have the same lock.
        self.path = os.path.realpath(name) if os.path.islink(name) else name
        self.refuse_other_files()
        # Identifies the file as it was last read or written here. `None` if there was no file.
        self.known = find_stamp(self.path)
        self.lock = os.open(
            f"{self.path}.lock", os.O_RDWR | os.O_CREAT | os.O_CLOEXEC | os.O_NOFOLLOW, ANY_RIGHTS
        )
        try:
            lock_within(self.lock, SECONDS_FOR_LOCK)
        except BlockingIOError:
            raise CantUseFile(f"{name}: another search keeps this file") from None
        except OSError as error:
            raise OSError(error.errno, error.strerror, f"{self.path}.lock") from None

    def refuse_other_files(self) -> None:
        with suppress(FileNotFoundError):
            mode = os.stat(self.path).st_mode
            if stat.S_ISDIR(mode):
                raise CantUseFile(f"{self.name}: this is a folder; give the name of a file in it")
            if not stat.S_ISREG(mode):
                raise CantUseFile(f"{self.name}: not a regular file")

    def is_there(self) -> bool:
        return os.path.exists(self.path)

    def read(self) -> Haul | None:
        """Returns the haul in the file, or `None` if there is no file. Raises `CantUseFile` if the
        file isn't a single haul, or if soups are missing from the haul."""
        try:
            with open(self.path, "rb") as file:
                self.known = make_stamp(os.fstat(file.fileno()))
                haul = read_one_haul(file)
        except FileNotFoundError:
            self.known = None
            return None
        except BadHaul as bad:
            raise CantUseFile(f"{self.name}: {bad}") from None
        if haul.soups != haul.size():
            raise CantUseFile(f"{self.name}: haul with missing soups")
        return haul

    def write(self, haul: Haul, beside: Sequence[Beside] = ()) -> None:
        """Replaces the files in `beside` whose lines have changed, and then the haul's file. The
        haul's file keeps its old text until the new text is safely on disk, even if this call fails
        with `OSError`. Raises `Displaced` if another program has changed the haul's file since it
        was last read or written here."""
        self.refuse_changes(haul, beside)
        with write_new_text(self.path, write_lines(haul), self.path) as stamp:
            for one in beside:
                if one.is_changed:
                    one.file.write(one.write())
            # Writing has taken time, so the file may have changed meanwhile.
            self.refuse_changes(haul, beside)
        self.known = stamp

    def refuse_changes(self, haul: Haul, beside: Sequence[Beside]) -> None:
        """Checks whether another program has changed the file. If so, writes the haul beside the
        file and raises `Displaced`."""
        if find_stamp(self.path) != self.known:
            name = self.write_mine(haul, beside)
            reason = f"changed by another program, so the haul of this search is in {name}"
            raise Displaced(errno.ESTALE, reason, self.name)

    def write_mine(self, haul: Haul, beside: Sequence[Beside]) -> str:
        """Writes a haul to FILE.mine, or to FILE.mine.2 and so on if FILE.mine or a file beside it
        exists. From now on, the files in `beside` are kept beside the new file. Those that have
        changed are written at once. Returns the path of the haul."""
        for number in itertools.count(1):
            end = ".mine" + (f".{number}" if number > 1 else "")
            name = self.path + end
            if not any(
                map(os.path.lexists, (name, *(f"{name}.{one.file.suffix}" for one in beside)))
            ):
                break
        for one in beside:
            one.file.move_to(name, self.name + end)
            if one.is_changed:
                one.file.write(one.write())
        replace_file(name, write_lines(haul), self.path)
        return name


def write_lines(haul: Haul) -> Iterator[bytes]:
    return (f"{line}\n".encode("ascii") for line in format_haul(haul))


def lock_within(number: int, seconds: float) -> None:
    """Locks a file. Tries again for some seconds, since a search that was killed may hold the lock
    for a moment. Raises `BlockingIOError` if another process still holds the lock."""
    end = time.monotonic() + seconds
    while True:
        try:
            fcntl.flock(number, fcntl.LOCK_EX | fcntl.LOCK_NB)
            return
        except BlockingIOError:
            if time.monotonic() >= end:
                raise
            time.sleep(SECONDS_BETWEEN_TRIES)
