"""Reads the tables that come with `haul`, such as names.tsv: lines of fields separated by tabs."""

from __future__ import annotations

from collections.abc import Iterator


class BadTable(Exception):
    """Raised if a table is damaged. Gives the number of a damaged line."""

    def __init__(self, name: str, line: int, why: str) -> None:
        super().__init__(f"{name}: bad table at line {line}: {why}")


def read_table(name: str, text: bytes, heads: list[str]) -> Iterator[list[str]]:
    """Yields the fields of each line after the first line, which must have the heads of the
    columns. Raises `BadTable` if the table is damaged."""
    lines = text.split(b"\n")
    if lines.pop():
        raise BadTable(name, len(lines) + 1, "no line feed at the end")
    for number, line in enumerate(lines, 1):
        if not line.isascii():
            raise BadTable(name, number, "a byte that isn't ASCII")
        fields = line.decode("ascii").split("\t")
        if number == 1 and fields != heads:
            raise BadTable(name, number, f"the heads aren't {' '.join(heads)}")
        if len(fields) != len(heads):
            raise BadTable(name, number, f"not {len(heads)} fields")
        if number > 1:
            yield fields
    if not lines:
        raise BadTable(name, 1, "the table is empty")
