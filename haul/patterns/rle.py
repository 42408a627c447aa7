"""Reads and writes RLE, the format of patterns on LifeWiki and Catagolue and in Golly.

A pattern is given by its plaintext rows of `.` and `O`, from the corner (0, 0) to its last live
column and row.
"""

from __future__ import annotations

import re
from typing import NamedTuple

from haul.patterns.plaintext import SIDE, Rows
from haul.patterns.rules import format_rule, parse_rule

# The longest line to write.
LINE_LENGTH = 70
# A longer count is cut to this many digits. The cut count is still larger than the side of any
# pattern.
COUNT_DIGITS = 20

HEADER = re.compile(
    rb"[ \t]*x[ \t]*=[ \t]*[0-9]+[ \t]*,[ \t]*y[ \t]*=[ \t]*[0-9]+[ \t]*"
    rb"(?:,[ \t]*rule[ \t]*=[ \t]*([^\r\n]*?)[ \t]*)?"
)
BLANKS = re.compile(rb"[ \t\r\n]*")
COUNT = re.compile(rb"[0-9]*")
# The tags of cells in a pattern with more than two states.
STATE = re.compile(rb"[.A-X]|[p-y][A-X]")
# In LifeHistory and the like, these states are alive and dead in the pattern without its history.
HISTORY = "history"
LIVE_STATES, DEAD_STATES = b"ACE", b".BDF"
WITHOUT_HISTORY = "states A, C and E are read as live cells, and B, D and F as dead cells"


class BadRle(Exception):
    """Raised if a text isn't RLE, or if `census` can't run its pattern under its rule. Gives the
    place of the fault."""

    def __init__(self, text: bytes, place: int, why: str) -> None:
        line, begins = text.count(b"\n", 0, place) + 1, text.rfind(b"\n", 0, place) + 1
        super().__init__(f"bad RLE at line {line} column {place - begins + 1}: {why}")


class RleReader:
    """Reads a text of RLE, and keeps the place up to which it has been read."""

    def __init__(self, text: bytes, is_plane: bool) -> None:
        self.text = text
        # Whether a pattern on a bounded grid is read as one on the plane.
        self.is_plane = is_plane
        self.has_history = False
        self.place = 0
        # The position of the next cell.
        self.column = 0
        self.row = 0
        self.rows: list[bytearray] = []

    def bad(self, place: int, why: str) -> BadRle:
        return BadRle(self.text, place, why)

    def skip(self) -> None:
        """Skips blanks, and lines that begin with `#`."""
        while True:
            found = BLANKS.match(self.text, self.place)
            assert found is not None
            self.place = found.end()
            begins = self.place == 0 or self.text[self.place - 1 : self.place] == b"\n"
            if not begins or self.text[self.place : self.place + 1] != b"#":
                return
            self.place = min(self.end_of_line() + 1, len(self.text))

    def end_of_line(self) -> int:
        end = self.text.find(b"\n", self.place)
        return end if end >= 0 else len(self.text)

    def header(self) -> str | None:
        """Reads the header if there is one. Returns its rule, or `None` if there is no header or
        the header has no rule."""
        self.skip()
        if self.text[self.place : self.place + 1] != b"x":
            return None
        end = self.end_of_line()
        found = HEADER.fullmatch(self.text[self.place : end].removesuffix(b"\r"))
        if found is None:
            raise self.bad(self.place, "not a header")
        place, self.place = self.place, end
        if found[1] is None:
            return None
        return self.read_rule(found[1].decode("latin-1"), place + found.start(1))

    def read_rule(self, text: str, place: int) -> str:
        """Returns the rule without its grid. A rule with a history is returned without it."""
        rule, colon, _ = text.partition(":")
        if colon and not self.is_plane:
            raise self.bad(place + len(rule), "a bounded grid, which --plane reads as the plane")
        if rule.lower().endswith(HISTORY):
            self.has_history = True
            rule = rule[: -len(HISTORY)]
        option = parse_rule(rule)
        if option is None:
            raise self.bad(place, "a rule that is neither B/S, S/B nor a known name")
        if option.startswith("b0"):
            raise self.bad(place, "birth on zero neighbours")
        return rule

    def run(self) -> bool:
        """Reads a tag with its count. Returns `False` if it is the final `!`."""
        self.skip()
        place = self.place
        found = COUNT.match(self.text, place)
        assert found is not None
        count = int(found[0].lstrip(b"0")[:COUNT_DIGITS] or b"0") if found[0] else 1
        self.place = found.end()
        if found[0]:
            self.skip()
        tag = self.plain_tag(self.text[self.place : self.place + 1])
        if tag == b"!" and not found[0]:
            return False
        if tag not in (b"b", b"o", b"$"):
            is_state = STATE.match(self.text, self.place)
            raise self.bad(
                self.place,
                "no ! at the end"
                if not tag
                else "a third state"
                if is_state
                else "not b, o, $ or !",
            )
        if count == 0:
            raise self.bad(place, "a count of 0")
        self.place += 1
        self.put(tag, count, place)
        return True

    def plain_tag(self, tag: bytes) -> bytes:
        """Returns the tag of a cell without its history."""
        if not self.has_history or not tag:
            return tag
        return b"o" if tag in LIVE_STATES else b"b" if tag in DEAD_STATES else tag

    def put(self, tag: bytes, count: int, place: int) -> None:
        if tag == b"$":
            self.row, self.column = self.row + count, 0
            return
        first, self.column = self.column, self.column + count
        if tag == b"o":
            if self.column > SIDE or self.row >= SIDE:
                raise self.bad(place, "a cell past the 1000th column or row")
            self.rows.extend(bytearray() for _ in range(self.row + 1 - len(self.rows)))
            row = self.rows[self.row]
            row.extend(b"." * (first - len(row)) + b"O" * count)


class Rle(NamedTuple):
    """A pattern that was read: its rows, the rule in the header or `None`, and whether its cells
    had a history."""

    rows: Rows
    rule: str | None
    has_history: bool = False


def read_rle(text: bytes, is_plane: bool = False) -> Rle:
    """Reads a pattern. If `is_plane` is set, a pattern on a bounded grid is read as one on the
    plane. Raises `BadRle` at the first fault."""
    reading = RleReader(text, is_plane)
    rule = reading.header()
    while reading.run():
        pass
    width = max(map(len, reading.rows), default=0)
    rows = [row.decode("ascii").ljust(width, ".") for row in reading.rows]
    return Rle(rows, rule, reading.has_history)


def format_rle(rows: Rows, option: str) -> list[str]:
    """Returns the lines of a pattern's RLE. A line never ends between a count and its tag."""
    width = max((len(row.rstrip(".")) for row in rows), default=0)
    height = max((y for y, row in enumerate(rows, 1) if "O" in row), default=0)
    lines = [f"x = {width}, y = {height}, rule = {format_rule(option)}", ""]
    for token in [*list_tokens(rows), "!"]:
        if len(lines[-1]) + len(token) > LINE_LENGTH:
            lines.append("")
        lines[-1] += token
    return lines


def list_tokens(rows: Rows) -> list[str]:
    """Returns the runs of cells (without the dead cells at the end of a row) and the runs of row
    ends."""
    tokens: list[str] = []
    ends = 0
    for row in rows:
        for run in re.finditer(r"\.+|O+", row.rstrip(".")):
            if ends:
                tokens.append(format_run(ends, "$"))
                ends = 0
            tokens.append(format_run(len(run[0]), "o" if run[0][0] == "O" else "b"))
        ends += 1
    return tokens


def format_run(count: int, tag: str) -> str:
    return tag if count == 1 else f"{count}{tag}"
