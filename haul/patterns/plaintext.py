"""Plaintext patterns, read as `census` reads them, with the same error messages."""

from __future__ import annotations

# Rows of `.` and `O`.
Rows = list[str]
# The most columns and rows of a pattern that `census` reads.
SIDE = 1000


class BadPlaintext(Exception):
    """Raised if a text isn't a plaintext pattern that `census` reads."""


def is_plaintext(text: bytes) -> bool:
    """Checks whether the first line that isn't empty is plaintext rather than RLE. A text without
    such a line is plaintext, too."""
    return text.lstrip(b"\r\n")[:1] in (b"", b"!", b".", b"O", b"*")


def read_plaintext(text: bytes) -> Rows:
    """Returns the rows, without comments. Raises `BadPlaintext` at the first fault."""
    rows: Rows = []
    *lines, last = text.split(b"\n")
    for number, line in enumerate([*lines, last] if last else lines, 1):
        if line.startswith(b"!"):
            continue
        row = line.removesuffix(b"\r")
        good = len(row) - len(row.lstrip(b".O*"))
        if good > SIDE or good and len(rows) >= SIDE:
            raise BadPlaintext("pattern larger than 1000 by 1000")
        if good < len(row):
            raise BadPlaintext(f"bad byte at line {number} column {good + 1}")
        rows.append(row.decode("ascii").replace("*", "O"))
    return rows


def trim_rows(rows: Rows) -> Rows:
    """Returns the rows of a pattern within its bounding box, as `census` prints them."""
    live = [row for row in rows if "O" in row]
    if not live:
        return []
    left, right = min(row.index("O") for row in live), max(row.rindex("O") for row in live)
    first, last = (
        next(place for place in order if "O" in rows[place])
        for order in (range(len(rows)), reversed(range(len(rows))))
    )
    return [row[left : right + 1] for row in rows[first : last + 1]]
