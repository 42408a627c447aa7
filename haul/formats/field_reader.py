"""Reads a text field by field, and finds where a wrong field begins."""

from __future__ import annotations

import re
from typing import IO

from haul.formats.syntax import DECIMAL

# Every line of a haul is shorter than this: the longest one has a code of 400 characters and three
# numbers. The rest of a longer line isn't read.
LINE_LIMIT = 1000


class BadHaul(Exception):
    """Raised if a text isn't of the kind that `what` names. Gives the line and the column of the
    wrong field. Both count from 1, and columns count bytes. `why` is the reason, which may be
    empty."""

    def __init__(self, line: int, column: int, why: str = "", what: str = "haul") -> None:
        reason = f": {why}" if why else ""
        super().__init__(f"bad {what} at line {line} column {column}{reason}")
        self.line, self.column, self.why = line, column, why


class FieldReader:
    """Reads an input line by line, and each line field by field. Keeps the number of the current
    line, its fields, and how many of these have been read."""

    def __init__(self, stream: IO[bytes]) -> None:
        self.stream = stream
        self.number = 0
        self.fields: list[bytes] = []
        self.is_ended = False
        self.read = 0
        # The next line, if it has been peeked at.
        self.held: bytes | None = None

    def peek(self) -> bytes:
        """Returns the next line with its line feed, or an empty text at the end of the input."""
        if self.held is None:
            self.held = self.stream.readline(LINE_LIMIT)
        return self.held

    def skip(self) -> None:
        """Skips the next line, after `peek` has returned it."""
        self.held = None
        self.number += 1

    def next_line(self) -> None:
        line = self.peek()
        self.held = None
        self.number += 1
        self.is_ended = line.endswith(b"\n")
        body = line[:-1] if self.is_ended else line
        # An empty line has no fields, and neither has the end of the input.
        self.fields = body.split(b" ") if body else []
        self.read = 0

    def bad_field(self, back: int = 0, why: str = "") -> BadHaul:
        """Returns the fault that the next field is wrong, or that the field `back` fields before it
        is wrong."""
        before = self.fields[: self.read - back]
        return BadHaul(
            self.number, sum(map(len, before)) + len(before) + 1 - (self.is_missing(back)), why
        )

    def is_missing(self, back: int) -> int:
        """Returns 1 if the line has fields, but ends before the field that `bad_field` reports,
        otherwise 0. `bad_field` subtracts this from the column, since there is no space before a
        missing field."""
        return 1 if self.read - back >= len(self.fields) and self.fields else 0

    def field(self) -> bytes:
        """Reads the next field."""
        if self.read == len(self.fields):
            raise self.bad_field()
        self.read += 1
        return self.fields[self.read - 1]

    def word(self, wanted: bytes) -> None:
        if self.field() != wanted:
            raise self.bad_field(1)

    def matched(self, wanted: re.Pattern[bytes]) -> str:
        found = self.field()
        if not wanted.fullmatch(found):
            raise self.bad_field(1)
        return found.decode("ascii")

    def number_in(self, least: int, most: int, too_small: str = "", too_large: str = "") -> int:
        """Reads the next field as a number. `too_small` and `too_large` are the reasons to give for
        a number that isn't between `least` and `most`."""
        found = self.field()
        if not DECIMAL.fullmatch(found):
            raise self.bad_field(1)
        number = int(found)
        if number < least:
            raise self.bad_field(1, too_small)
        if number > most:
            raise self.bad_field(1, too_large)
        return number

    def end_line(self) -> None:
        if self.read < len(self.fields) or not self.is_ended:
            raise self.bad_field()

    def only_number(self, name: bytes, most: int, too_large: str) -> int:
        """Reads a line that consists of a name and a number."""
        self.next_line()
        self.word(name)
        number = self.number_in(0, most, too_large=too_large)
        self.end_line()
        return number

    def only_words(self, *words: bytes) -> None:
        """Reads a line that consists of exactly these words."""
        self.next_line()
        for word in words:
            self.word(word)
        self.end_line()
