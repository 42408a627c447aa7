"""Draws patterns as SVG paths. Each run of live cells is a horizontal line through the middle of
its cells. The style sheet of the page sets the thickness of the line."""

from __future__ import annotations

import re
from functools import cache
from html import escape

from haul.life.cells import Cells, draw_rows
from haul.patterns.plaintext import Rows
from haul.plurals import write_count

# The size of a cell in pixels, for most objects and for objects with few cells.
SCALE, LARGER_SCALE = 4, 12
# Objects with fewer cells than this are drawn in the larger size.
FEW_CELLS = 10
RUNS = re.compile("O+")


def draw_path(rows: Rows) -> str:
    """Returns the path that draws the runs of live cells, row by row. Each move except for the
    first one is relative to the end of the previous run."""
    moves: list[str] = []
    end, before = 0, 0
    for y, row in enumerate(rows):
        found = draw_runs(row)
        if found is not None:
            first, runs, last = found
            moves.append(
                f"m{first - end} {y - before}{runs}" if moves else f"M{first} {y + 0.5}{runs}"
            )
            end, before = last, y
    return "".join(moves)


@cache
def draw_runs(row: str) -> tuple[int, str, int] | None:
    """Returns the column of the first live cell in a row, the path that draws the row's runs, and
    the column after the last live cell. Returns `None` if there are no live cells."""
    runs = [run.span() for run in RUNS.finditer(row)]
    if not runs:
        return None
    (first, end), *more = runs
    text = f"h{end - first}"
    for start, stop in more:
        text += f"m{start - end} 0h{stop - start}"
        end = stop
    return first, text, end


def draw_picture(cells: Cells, name: str) -> str:
    """Returns a picture of a pattern, with a margin of one cell."""
    width, height = measure(cells)
    scale = LARGER_SCALE if len(cells) < FEW_CELLS else SCALE
    title = f"{name}: {width} by {height}, {write_count(len(cells), 'cell')}"
    columns, rows = width + 2, height + 2
    return (
        f'<svg class="cells-{scale}" width="{columns * scale}" height="{rows * scale}" '
        f'viewBox="-1 -1 {columns} {rows}" role="img">'
        f'<title>{escape(title)}</title><path d="{draw_path(draw_rows(cells, cells))}"/></svg>'
    )


def measure(cells: Cells) -> tuple[int, int]:
    """Returns the width and the height of a pattern whose bounding box begins at (0, 0)."""
    width, height = (max(side) + 1 for side in zip(*cells, strict=True))
    return width, height
