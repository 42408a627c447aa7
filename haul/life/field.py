"""Runs a pattern for hundreds of generations. The time for a generation depends only on the number
of cells near the latest changes. This is fast, since most of what a soup leaves doesn't change.

Here, a cell is a single number: its row times `ROW`, plus its column.
"""

from __future__ import annotations

from collections.abc import Iterable
from typing import NamedTuple

from haul.life.cells import Cell, Cells
from haul.life.generations import Rule

# The column of each cell is between -ROW / 2 and ROW / 2, since no pattern runs for long enough to
# get farther.
ROW = 2**20
# The offsets from a cell to its eight neighbours, and to all cells that are at most two columns and
# two rows away.
NEIGHBOURS = tuple(dy * ROW + dx for dy in (-1, 0, 1) for dx in (-1, 0, 1) if (dx, dy) != (0, 0))
NEAR = tuple(dy * ROW + dx for dy in range(-2, 3) for dx in range(-2, 3) if (dx, dy) != (0, 0))


# A pattern with more cells isn't run, since that would take minutes.
MOST_CELLS = 100_000


class TooManyCells(Exception):
    """Raised if a pattern has more than `MOST_CELLS` cells."""


class Change(NamedTuple):
    """The cells that are born and the cells that die in a generation."""

    births: list[int]
    deaths: list[int]


def pack(cell: Cell) -> int:
    x, y = cell
    return y * ROW + x


def unpack(number: int) -> Cell:
    x = (number + ROW // 2) % ROW - ROW // 2
    return x, (number - x) // ROW


def unpack_all(numbers: Iterable[int]) -> Cells:
    return frozenset(map(unpack, numbers))


def list_around(cell: int) -> tuple[int, ...]:
    """Returns the neighbours of a cell. This is the loop over `NEIGHBOURS` written out, because the
    loop would take half of the time of a run."""
    above, below = cell - ROW, cell + ROW
    return (above - 1, above, above + 1, cell - 1, cell + 1, below - 1, below, below + 1)


class Field:
    """A pattern that is advanced under a rule, generation by generation."""

    def __init__(self, rule: Rule, cells: Iterable[int]) -> None:
        self.rule = rule
        self.live = set(cells)
        # The number of live neighbours of each cell. Most cells without live neighbours are left
        # out.
        self.counts: dict[int, int] = {}
        self.changed = list(self.live)
        self.count(self.changed, 1)

    def count(self, cells: list[int], change: int) -> None:
        """Adds `change` to the counts of the neighbours of these cells."""
        counts = self.counts
        known = counts.get
        for cell in cells:
            for other in list_around(cell):
                counts[other] = known(other, 0) + change

    def step(self) -> Change:
        """Advances the pattern by a generation, and returns what has changed. Raises `TooManyCells`
        if the pattern is too large."""
        live, counts = self.live, self.counts
        if len(live) > MOST_CELLS:
            raise TooManyCells
        births, survivals = self.rule.births, self.rule.survivals
        touched = set(self.changed)
        for cell in self.changed:
            touched.update(list_around(cell))
        known = counts.get
        born = [c for c in touched if known(c, 0) in births and c not in live]
        dead = [c for c in touched & live if known(c, 0) not in survivals]
        live.update(born)
        live.difference_update(dead)
        self.count(born, 1)
        self.count(dead, -1)
        self.changed = born + dead
        return Change(born, dead)


def find_move(one: set[int], other: set[int]) -> int | None:
    """Returns the move that takes one pattern to the other, or `None` if there is none."""
    if len(one) != len(other):
        return None
    move = min(other) - min(one)
    return move if all(cell + move in other for cell in one) else None
