"""Islands and clusters of live cells, as defined in docs/PROFILE.md."""

from __future__ import annotations

from haul.life.cells import Cell, Cells
from haul.life.generations import list_neighbours


def find_islands(phases: list[Cells]) -> list[Cells]:
    """Returns the islands of an object in the order of their first cells. An island is given by its
    cells in phase 0.

    Two live cells that touch (also at corners) in the same phase belong to one island. A place that
    is alive in several phases counts as one cell.
    """
    left = [set(phase) for phase in phases]
    islands: list[Cells] = []
    while left[0]:
        island: list[Cell] = []
        reached = [min(left[0])]
        while reached:
            cell = reached.pop()
            island += [cell] if cell in left[0] else []
            for phase in left:
                if cell in phase:
                    phase.remove(cell)
                    reached.extend(phase.intersection(list_neighbours(cell)))
        islands.append(frozenset(island))
    return islands


def is_cluster(cells: Cells) -> bool:
    """Checks whether all live cells are connected by steps of at most two columns and two rows.
    Returns `False` if there are no live cells."""
    left, edge = set(cells), list(cells)[:1]
    left.difference_update(edge)
    while edge and left:
        x, y = edge.pop()
        reached = left.intersection(
            [(x + dx, y + dy) for dx in (-2, -1, 0, 1, 2) for dy in (-2, -1, 0, 1, 2)]
        )
        left -= reached
        edge.extend(reached)
    return bool(cells) and not left
