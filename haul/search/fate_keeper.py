"""Keeps the fates of unsettled soups in FILE.late, for `haul why --keep`."""

from __future__ import annotations

import os
import time
from collections.abc import Callable, Iterator
from dataclasses import replace

from haul.fates.explain import Fates
from haul.fates.fate import Fate, Kind
from haul.fates.rows import is_missing
from haul.formats.late_file import Late, read_late
from haul.search.haul_file import CantUseFile, HaulFile
from haul.search.side_file import SideFile
from haul.search.whole_files import make_stamp

SUFFIX = "late"
# The file is written this often while fates are found, in seconds. So little is found twice if this
# program is stopped.
SECONDS_BETWEEN_WRITING = 5.0


class FateKeeper:
    """A FILE.late to which fates are added. No search can keep FILE at the same time."""

    def __init__(self, name: str, complain: Callable[[str], None]) -> None:
        """`name` is that of FILE.late. Raises `CantUseFile`, and `BadLate` if it isn't one."""
        if not name.endswith(f".{SUFFIX}"):
            raise CantUseFile(f"{name}: not the FILE.late of a search")
        self.haul_file = HaulFile(name.removesuffix(f".{SUFFIX}"))
        self.file = SideFile(self.haul_file.path, self.haul_file.name, SUFFIX, complain)
        self.late = self.read()
        self.written_at = time.monotonic()

    def read(self) -> Late:
        haul = self.haul_file.read()
        with open(self.file.path, "rb") as file:
            self.file.known = make_stamp(os.fstat(file.fileno()))
            late = read_late(file)
        why = None if haul is None else late.find_misfit(haul)
        if why is not None:
            raise CantUseFile(f"{self.file.name}: {why}")
        # Version 1 doesn't say which soups it covers.
        return late if haul is None else late.choose(haul.ranges, late.generation)

    def find_missing(self, fates: Fates) -> Iterator[tuple[int, Fate]]:
        """Finds the fates that the file doesn't have, or that weren't decided, and writes them into
        the file. Yields each soup with its fate."""
        places = [place for place, line in enumerate(self.late.lines) if is_missing(line)]
        soups = [self.late.lines[place].soup for place in places]
        is_written = True
        for place, fate in zip(places, fates.find_all(soups), strict=True):
            line = self.late.lines[place]
            if fate.kind is not Kind.SETTLED:
                self.late.lines[place] = replace(line, fate=fate.text().encode("ascii"))
                is_written = False
            if time.monotonic() - self.written_at >= SECONDS_BETWEEN_WRITING:
                self.write()
                is_written = True
            yield line.soup, fate
        if not is_written:
            self.write()

    def end(self) -> None:
        """Lets searches keep FILE again."""
        os.close(self.haul_file.lock)

    def write(self) -> None:
        self.file.write(self.late.write())
        self.written_at = time.monotonic()
