"""Coordinates: a line `X Y` for each live cell, in the format of `census run --coordinates`."""

from __future__ import annotations

import re
from collections.abc import Iterable, Iterator

from haul.patterns.rle import LINE_LENGTH, format_run
from haul.patterns.rules import format_rule

# The columns of the live cells, indexed by row.
Columns = dict[int, set[int]]
# A number has at most 15 digits.
NUMBER = rb"(0|-?[1-9][0-9]{0,14})"
LINE = re.compile(NUMBER + rb" " + NUMBER + rb"\r?\n?")
# Matches the whole first line, since RLE without a header may begin with a digit, too.
FIRST_LINE = re.compile(rb"[\r\n]*[-0-9][-0-9 ]*(?:\r?\n|$)")


class BadCoordinates(Exception):
    """Raised if a text isn't coordinates. Lines and columns count from 1."""

    def __init__(self, line: int, column: int) -> None:
        super().__init__(f"bad coordinates at line {line} column {column}")


def is_coordinates(text: bytes) -> bool:
    """Checks whether the first line that isn't empty looks like a line of coordinates."""
    return FIRST_LINE.match(text) is not None


def read_coordinates(lines: Iterable[bytes]) -> Columns:
    """Returns the live cells. They may be given in any order, and empty lines are skipped. Raises
    `BadCoordinates` at the first fault."""
    rows: Columns = {}
    for number, line in enumerate(lines, 1):
        found = LINE.fullmatch(line)
        if found is not None:
            rows.setdefault(int(found[2]), set()).add(int(found[1]))
        elif line.strip(b"\r\n"):
            raise BadCoordinates(number, find_column(line))
    return rows


def find_column(line: bytes) -> int:
    """Returns the column in which the first wrong field of a line begins, or the end of the line if
    a field is missing."""
    first, space, second = line.rstrip(b"\r\n").partition(b" ")
    if not re.fullmatch(NUMBER, first):
        return 1
    return len(first) + len(space) + 1 if second or space else len(first) + 1


def format_rle_of_cells(rows: Columns, option: str) -> Iterator[str]:
    """Yields the lines of a pattern's RLE. The first line says where the pattern is. A line never
    ends between a count and its tag. The pattern must have a live cell."""
    left, right = min(min(row) for row in rows.values()), max(max(row) for row in rows.values())
    top, bottom = min(rows), max(rows)
    yield f"#CXRLE Pos={left},{top}"
    yield f"x = {right - left + 1}, y = {bottom - top + 1}, rule = {format_rule(option)}"
    line = ""
    for token in list_cell_tokens(rows, left, top):
        if len(line) + len(token) > LINE_LENGTH:
            yield line
            line = ""
        line += token
    yield line


def list_cell_tokens(rows: Columns, left: int, top: int) -> Iterator[str]:
    """Yields the runs of cells (without the dead cells at the end of a row), the runs of row ends,
    and the final `!`."""
    latest = top
    for y in sorted(rows):
        if y > latest:
            yield format_run(y - latest, "$")
            latest = y
        end = left
        for first, count in list_runs(sorted(rows[y])):
            if first > end:
                yield format_run(first - end, "b")
            yield format_run(count, "o")
            end = first + count
    yield "!"


def list_runs(columns: list[int]) -> Iterator[tuple[int, int]]:
    """Yields the first column and the length of each run of adjacent columns. `columns` ascends."""
    first = columns[0]
    for before, x in zip(columns, columns[1:]):
        if x > before + 1:
            yield first, before + 1 - first
            first = x
    yield first, columns[-1] + 1 - first
