"""Moves, measures and draws sets of cells.

A cell is a pair (x, y), where x grows to the right and y downwards.
"""

from __future__ import annotations

from collections.abc import Iterable

from haul.patterns.plaintext import Rows
from haul.patterns.rle import read_rle

Cell = tuple[int, int]
Cells = frozenset[Cell]


def read_rle_cells(rle: str) -> Cells:
    """Returns the live cells of a pattern in RLE, whose corner is at (0, 0)."""
    rows = enumerate(read_rle(rle.encode("ascii")).rows)
    return frozenset((x, y) for y, row in rows for x, c in enumerate(row) if c == "O")


def move(cells: Iterable[Cell], shift: Cell) -> Cells:
    dx, dy = shift
    if not dx and not dy:
        return frozenset(cells)
    return frozenset([(x + dx, y + dy) for x, y in cells])


def find_corner(cells: Cells) -> Cell:
    """Returns the top left corner of a pattern's bounding box."""
    columns, lines = zip(*cells, strict=True)
    return min(columns), min(lines)


def move_to_corner(cells: Cells) -> Cells:
    """Returns a pattern moved so that its bounding box begins at (0, 0)."""
    left, top = find_corner(cells)
    return move(cells, (-left, -top))


def fits_in(cells: Cells, side: int) -> bool:
    """Checks whether a pattern's bounding box has at most `side` columns and rows."""
    return all(max(line) - min(line) < side for line in zip(*cells, strict=True))


def draw_rows(cells: Cells, box: Cells) -> Rows:
    """Returns the rows of the pattern `cells` within the bounding box of the pattern `box`."""
    columns, lines = (range(min(side), max(side) + 1) for side in zip(*box, strict=True))
    return ["".join(["O" if (x, y) in cells else "." for x in columns]) for y in lines]
