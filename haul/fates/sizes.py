"""The sizes of a pattern's generations, as `census run --sizes` prints them. A pattern that has too
many cells isn't run any further."""

from __future__ import annotations

import re
from collections.abc import Iterator
from dataclasses import dataclass
from math import sqrt
from typing import NamedTuple

from haul.census.bounded import BoundedCensus, Undecided
from haul.census.children import NoCensus
from haul.census.command_lines import list_sizes_arguments

# The most cells that a pattern may have.
MOST_CELLS = 1_000_000
# As soon as a pattern has so many cells, some later generations are looked at, since running all
# generations before them may take long. The first of them is this number of generations later.
MANY_CELLS, STEP_AHEAD = 50_000, 64
# So few generations are run one by one.
FEW_GENERATIONS = 32
# The most generations by which `census run` advances a pattern.
MOST_GENERATIONS = 100_000
# The generation, the number of live cells, and the sides of their bounding box.
SIDE = rb"(-?[0-9]{1,6})"
LINE = re.compile(rb"([0-9]{1,6}) (?:0|([1-9][0-9]{0,9}) " + rb" ".join([SIDE] * 4) + rb")")


class Size(NamedTuple):
    """The size of a pattern: its number of live cells, and the columns and rows of its bounding
    box."""

    cells: int
    width: int
    height: int


@dataclass(frozen=True)
class Sizes:
    """Finds the sizes of a pattern, given as plaintext."""

    census: BoundedCensus
    rule: str
    pattern: bytes

    def between(self, first: int, last: int) -> list[Size]:
        """Returns the size in each generation from `first` to `last`. Raises `Undecided` if one of
        them has too many cells."""
        sizes: list[Size] = []
        has_looked_ahead = False
        for generation, size in enumerate(self.read(first, last), first):
            if size.cells >= MOST_CELLS:
                raise refuse(generation)
            if size.cells >= MANY_CELLS and not has_looked_ahead:
                self.look_ahead(generation, size.cells, last)
                has_looked_ahead = True
            sizes.append(size)
        return sizes

    def look_ahead(self, generation: int, cells: int, last: int) -> None:
        """Raises `Undecided` if one of some generations up to `last` has too many cells. The
        pattern has `cells` cells in generation `generation`."""
        step = STEP_AHEAD
        while generation < last:
            later = min(generation + step, MOST_GENERATIONS)
            more = self.count_cells(later)
            if more >= MOST_CELLS:
                found = self.find_large((generation, cells), (later, more))
                if found <= last:
                    raise refuse(found)
                return
            generation, cells, step = later, more, 2 * step

    def find_large(self, low: tuple[int, int], high: tuple[int, int]) -> int:
        """Returns a generation with too many cells, just after one that hasn't. Both are between
        `low` and `high`, which are generations with their numbers of cells."""
        while high[0] - low[0] > FEW_GENERATIONS:
            # Most patterns that grow fast fill an area, whose side grows evenly.
            begin, end, wanted = sqrt(low[1]), sqrt(high[1]), sqrt(MOST_CELLS)
            part = min(max((wanted - begin) / (end - begin), 0.1), 0.9)
            middle = low[0] + round((high[0] - low[0]) * part)
            found = middle, self.count_cells(middle)
            low, high = (low, found) if found[1] >= MOST_CELLS else (found, high)
        sizes = enumerate(self.read(low[0], high[0]), low[0])
        return next(generation for generation, size in sizes if size.cells >= MOST_CELLS)

    def count_cells(self, generation: int) -> int:
        (size,) = self.read(generation, generation)
        return size.cells

    def read(self, first: int, last: int) -> Iterator[Size]:
        """Yields the size in each generation from `first` to `last`, as soon as it is known."""
        wanted = first
        for line in self.census.read_lines(
            list_sizes_arguments(self.rule, first, last), self.pattern
        ):
            found = LINE.fullmatch(line)
            if found is None or int(found[1]) != wanted or wanted > last:
                raise NoCensus.at(self.census.census.path)
            yield read_size(found)
            wanted += 1
        if wanted != last + 1:
            raise NoCensus.at(self.census.census.path)


def read_size(found: re.Match[bytes]) -> Size:
    if found[2] is None:
        return Size(0, 0, 0)
    left, top, right, bottom = map(int, found.groups()[2:])
    return Size(int(found[2]), right - left + 1, bottom - top + 1)


def refuse(generation: int) -> Undecided:
    return Undecided(f"{MOST_CELLS} cells in generation {generation}")
