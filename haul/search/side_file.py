"""FILE.late and FILE.finds: files that a search keeps beside FILE. A file that can't be used is
renamed, so that nothing in it is lost."""

from __future__ import annotations

import os
import stat
from collections.abc import Callable, Iterable
from contextlib import suppress
from typing import TypeVar

from haul.search.whole_files import (
    Stamp,
    find_stamp,
    make_stamp,
    move_aside,
    remove_file,
    replace_file,
)

Read = TypeVar("Read")


class SideFile:
    """A file beside FILE. Its name is the name of FILE, followed by a dot and a suffix."""

    def __init__(
        self,
        path: str,
        name: str,
        suffix: str,
        complain: Callable[[str], None],
    ) -> None:
        """`path` is the path of FILE, and `name` its name in messages. Problems with it
        are passed to `complain` as lines."""
        self.suffix = suffix
        self.complain = complain
        self.move_to(path, name)

    def move_to(self, path: str, name: str) -> None:
        """Keeps this beside another FILE from now on."""
        self.file, self.path, self.name = path, f"{path}.{self.suffix}", f"{name}.{self.suffix}"
        # Identifies the file as it was last read or written here. `None` if there was no file.
        self.known: Stamp | None = None

    def read(self, parse: Callable[[Iterable[bytes]], Read], bad: type[Exception]) -> Read | None:
        """Returns the result of `parse` for the lines of the file, or `None` if there is no file.
        If the file isn't regular or `parse` raises `bad`, renames the file and returns `None`."""
        with suppress(FileNotFoundError):
            if not stat.S_ISREG(os.lstat(self.path).st_mode):
                self.reject("not a regular file")
                return None
        try:
            with open(self.path, "rb") as file:
                self.known = make_stamp(os.fstat(file.fileno()))
                return parse(file)
        except FileNotFoundError:
            return None
        except bad as why:
            self.reject(str(why))
            return None

    def reject(self, why: str) -> None:
        """Renames the file, and reports why."""
        new = os.path.basename(move_aside(self.path))
        self.known = None
        self.complain(f"{self.name}: {why}, so it is now {new}, and the search begins a new one")

    def write(self, lines: Iterable[bytes]) -> None:
        """Replaces the file. If another program has changed it, the changed file is renamed
        first."""
        found = find_stamp(self.path)
        if found not in (None, self.known):
            self.reject("changed by another program")
        self.known = replace_file(self.path, lines, self.file)

    def remove(self) -> None:
        remove_file(self.path)
        self.known = None
