"""Reads lists of codes: lines with a code and a count, as Catagolue is remembered to give them, and
hauls of `census` and of apgsearch.
"""

from __future__ import annotations

import csv
import io
import re

from haul.formats.field_reader import BadHaul
from haul.formats.haul import SYMMETRY
from haul.formats.haul_reader import read_any_haul
from haul.formats.syntax import CODE
from haul.hauls.by_parts import Objects
from haul.known.database import MOST_COUNT, List
from haul.terminal import Terminal

# The most bytes of a list.
MOST_BYTES = 2**28
HEAD_OF_HAUL = re.compile(rb"\s*@VERSION")


class BadList(Exception):
    """Raised if a text isn't a list of codes. Says where and why."""


def read_list(file: str, text: bytes, rule: str, symmetry: str | None, terminal: Terminal) -> List:
    """Reads a list. The rule and the symmetry count for lines of codes only, since a haul has its
    own. The totals of a haul of `census` are counted by parts, as Catagolue does."""
    if HEAD_OF_HAUL.match(text):
        try:
            haul = Objects(read_any_haul(io.BytesIO(text)), terminal).by_parts()
        except BadHaul as bad:
            raise BadList(str(bad)) from None
        return List(file, haul.job.rule, haul.job.symmetry, dict(haul.totals))
    return List(file, rule, symmetry or SYMMETRY, read_lines(text))


def read_lines(text: bytes) -> dict[str, int | None]:
    """Reads lines such as `"xs4_33","123"` or `xs4_33 123`. The first line may be a head. A line
    without a count is a code only."""
    counts: dict[str, int | None] = {}
    rows = csv.reader(io.StringIO(text.decode("utf-8-sig", "replace"), newline=""))
    try:
        for number, row in enumerate(rows, 1):
            fields = [field.strip() for field in row] if len(row) > 1 else "".join(row).split()
            if not fields:
                continue
            code, count = fields[0], fields[1] if len(fields) > 1 else None
            if "_" not in code or not CODE.fullmatch(code.encode("utf-8")):
                if number == 1:
                    continue
                raise BadList(f"line {number}: not a code and a count")
            if count is not None and not (count.isdecimal() and int(count) < MOST_COUNT):
                raise BadList(f"line {number}: not a code and a count")
            counts[code] = None if count is None else int(count)
    except csv.Error as error:
        raise BadList(f"line {rows.line_num}: {error}") from None
    if not counts:
        raise BadList("no line with a code and a count")
    return counts
