"""Apgcodes: the extended Wechsler format of patterns, and the codes of objects. docs/FORMATS.md
describes both."""

from __future__ import annotations

from collections.abc import Iterator
from itertools import groupby

from haul.life.cells import Cells, fits_in, move_to_corner
from haul.life.generations import Recurrence
from haul.patterns.plaintext import SIDE

# The most columns and rows of a pattern that a code draws.
SIDE_OF_TEXT = 40

# The characters of the extended Wechsler format. Each of the first 32 stands for a column of a
# strip, which is five rows high. `ROWS_OF_COLUMN` has the live rows of each column.
CHARACTERS = "0123456789abcdefghijklmnopqrstuvwxyz"
STRIP = 5
ROWS_OF_COLUMN = {
    character: [row for row in range(STRIP) if value >> row & 1]
    for value, character in enumerate(CHARACTERS)
}
# Runs of one, two and three dead columns. A longer run is `y`, followed by the character for its
# length minus four.
RUNS = {"0": 1, "w": 2, "x": 3}
LEAST_LONG_RUN = 4


def read_wechsler(text: str) -> Cells | None:
    """Reads a text in extended Wechsler format. Returns `None` if it isn't in this format, has no
    live cells, or has more than `SIDE` columns or rows."""
    columns = read_columns(text)
    if not columns:
        return None
    drawn = frozenset(
        [(x, top + row) for x, top, character in columns for row in ROWS_OF_COLUMN[character]]
    )
    return drawn if drawn and fits_in(drawn, SIDE) else None


def read_columns(text: str) -> list[tuple[int, int, str]] | None:
    """Reads the live columns of a text in extended Wechsler format: the number of each column, the
    first row of its strip, and its character. Returns `None` if the text isn't in this format."""
    columns: list[tuple[int, int, str]] = []
    x = top = 0
    characters = iter(text)
    for character in characters:
        if character == "z":
            x, top = 0, top + STRIP
        elif character in RUNS:
            x += RUNS[character]
        elif character == "y":
            run = CHARACTERS.find(next(characters, "?"))
            if run < 0:
                return None
            x += LEAST_LONG_RUN + run
        elif character in ROWS_OF_COLUMN:
            columns.append((x, top, character))
            x += 1
        else:
            return None
    return columns


def write_wechsler(cells: Cells) -> str | None:
    """Returns a pattern in extended Wechsler format, or `None` if it has more than `SIDE_OF_TEXT`
    columns or rows. The text begins at the corner of the pattern's bounding box."""
    if not fits_in(cells, SIDE_OF_TEXT):
        return None
    strips: dict[int, dict[int, int]] = {}
    for x, y in move_to_corner(cells):
        strip = strips.setdefault(y // STRIP, {})
        strip[x] = strip.get(x, 0) | 1 << y % STRIP
    return "z".join(write_strip(strips.get(strip, {})) for strip in range(max(strips) + 1))


def write_strip(columns: dict[int, int]) -> str:
    """Returns the text of a strip. `columns` has the value of each column with a live cell."""
    values = [columns.get(x, 0) for x in range(max(columns) + 1)] if columns else []
    texts: list[str] = []
    for value, run in groupby(values):
        length = len(list(run))
        texts.append(CHARACTERS[value] * length if value else write_dead_run(length))
    return "".join(texts)


def write_dead_run(length: int) -> str:
    for character, columns in RUNS.items():
        if columns == length:
            return character
    return "y" + CHARACTERS[length - LEAST_LONG_RUN]


def list_orientations(cells: Cells) -> Iterator[Cells]:
    """Yields a pattern in all eight orientations."""
    for turned in (cells, frozenset([(y, x) for x, y in cells])):
        for across, down in ((1, 1), (-1, 1), (1, -1), (-1, -1)):
            yield frozenset([(x * across, y * down) for x, y in turned])


def find_code(recurrence: Recurrence) -> str:
    """Returns the apgcode of a pattern that recurs."""
    texts = [
        text
        for phase in recurrence.phases
        if fits_in(phase, SIDE_OF_TEXT)
        for image in list_orientations(phase)
        if (text := write_wechsler(image))
    ]
    kind = recurrence.kind()
    number = len(recurrence.phases[0]) if kind == "s" else recurrence.period
    if not texts:
        return f"ov_{kind}{number}"
    return f"x{kind}{number}_{min(texts, key=lambda text: (len(text), text))}"
