"""Lays out tables as text, CSV and JSON."""

from __future__ import annotations

import csv
import io
import json
from collections.abc import Iterable, Iterator

GAP = "  "
# The fewest characters to which a code is cut, including the ellipsis.
LEAST_OF_A_CODE = 8
# Larger integers lose digits in programs that read numbers as doubles, such as JavaScript.
EXACT = 2**53


def align_columns(
    rows: list[list[str]], texts: set[int], code: int, width: int | None
) -> Iterator[str]:
    """Yields lines with aligned columns: texts to the left, numbers to the right. If `width` is
    given, codes in column `code` are cut so that no line is wider. But no code is cut to fewer than
    `LEAST_OF_A_CODE` characters, even if a line is then wider."""
    widths = [max(len(row[column]) for row in rows) for column in range(len(rows[0]))]
    over = sum(widths) + len(GAP) * (len(widths) - 1) - width if width is not None else 0
    if over > 0:
        widths[code] = min(widths[code], max(LEAST_OF_A_CODE, widths[code] - over))
    for row in rows:
        cells: list[str] = []
        for column, (cell, most) in enumerate(zip(row, widths, strict=True)):
            shown = cut_text(cell, most) if column == code else cell
            cells.append(shown.ljust(most) if column in texts else shown.rjust(most))
        yield GAP.join(cells).rstrip()


def cut_text(text: str, most: int) -> str:
    return text if len(text) <= most else text[: most - 1] + "…"


def format_figure(number: float) -> str:
    """Returns a number with two decimal places, or with three significant digits if it is between 0
    and 1."""
    return f"{number:.2f}" if number >= 1 or number == 0 else f"{number:.3g}"


def format_truth(holds: bool) -> str:
    return "yes" if holds else "no"


def make_exact(number: int) -> int | str:
    """Returns an integer for JSON, as a string if a double would lose digits."""
    return number if number <= EXACT else str(number)


def format_csv(rows: Iterable[list[str]]) -> Iterator[str]:
    """Yields the rows as lines of CSV, without their line feeds."""
    for row in rows:
        text = io.StringIO()
        csv.writer(text, lineterminator="").writerow(row)
        yield text.getvalue()


def format_json(
    facts: dict[str, object], objects: Iterable[dict[str, object]], name: str = "objects"
) -> Iterator[str]:
    """Yields the lines of a JSON object that has the facts, and the objects as a list called
    `name`. Each object is on its own line."""
    comma = ", " if facts else ""
    yield f'{json.dumps(facts)[:-1]}{comma}"{name}": ['
    before: str | None = None
    for one in objects:
        if before is not None:
            yield before + ","
        before = json.dumps(one)
    yield from [] if before is None else [before]
    yield "]}"
