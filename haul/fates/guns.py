"""Glider guns, which are recognised by their growth and by their cells."""

from __future__ import annotations

from collections.abc import Iterator
from dataclasses import dataclass
from fractions import Fraction
from functools import cached_property

from haul.life.apgcodes import list_orientations
from haul.life.cells import read_rle_cells
from haul.life.field import ROW, pack, unpack_all
from haul.life.generations import read_rule
from haul.life.groups import run_alone
from haul.patterns.rules import LIFE

# The cells of a block, counted from its first one.
BLOCK = (0, 1, ROW, ROW + 1)


@dataclass(frozen=True)
class Gun:
    """A gun that shoots a glider in each period, and has a block in each phase."""

    name: str
    period: int
    rle: str

    @cached_property
    def views(self) -> list[tuple[int, list[int]]]:
        """The gun, with the glider that it has shot last, in all phases and orientations. Each view
        has the first cell of a block, and all cells."""
        run = list(
            run_alone(read_rule(LIFE), {*map(pack, read_rle_cells(self.rle))}, 3 * self.period)
        )
        # What is there in two successive periods is the gun and its last glider.
        phases = [
            run[time] & run[time + self.period] for time in range(self.period, 2 * self.period)
        ]
        found: list[tuple[int, list[int]]] = []
        for phase in phases:
            for view in list_orientations(unpack_all(phase)):
                cells = set(map(pack, view))
                found.append((next(list_blocks(cells)), list(cells)))
        return found

    def count_in(self, pattern: set[int]) -> int:
        """Returns how many of these guns are in a pattern."""
        blocks = list(list_blocks(pattern))
        return sum(
            all(cell + place - first in pattern for cell in cells)
            for first, cells in self.views
            for place in blocks
        )


GUNS = (
    Gun(
        "Gosper glider gun",
        30,
        "24bo$22bobo$12b2o6b2o12b2o$11bo3bo4b2o12b2o$2o8bo5bo3b2o$2o8bo3bob2o4bobo$10bo5bo7bo$"
        "11bo3bo$12b2o!",
    ),
    Gun(
        "Simkin glider gun",
        120,
        "2o5b2o$2o5b2o2$4b2o$4b2o5$22b2ob2o$21bo5bo$21bo6bo2b2o$21b3o3bo3b2o$26bo4$20b2o$20bo$"
        "21b3o$23bo!",
    ),
)
# The number of cells of a glider, which a gun gains in each period.
GLIDER = 5


def list_blocks(pattern: set[int]) -> Iterator[int]:
    """Yields the first cell of each two by two cells that are all alive."""
    for cell in pattern:
        if all(cell + step in pattern for step in BLOCK):
            yield cell


def find_guns(rate: Fraction, pattern: set[int]) -> str | None:
    """Returns the name of the guns that make a pattern grow at this rate, or `None` if there are no
    such guns."""
    for gun in GUNS:
        count = rate * gun.period / GLIDER
        if count.denominator == 1 and gun.count_in(pattern) == count:
            return gun.name if count == 1 else f"{count} {gun.name}s"
    return None
