"""The streams of a call of `haul`, and the files that it reads."""

from __future__ import annotations

import errno
import io
import os
from collections.abc import Iterable, Iterator
from contextlib import contextmanager
from itertools import chain
from typing import BinaryIO, TextIO

from haul.formats.field_reader import BadHaul
from haul.formats.haul import Haul
from haul.formats.haul_reader import read_any_haul
from haul.formats.report_files import INPUT_LIMIT, BadLines, Reports
from haul.formats.report_lines import Report
from haul.patterns.coordinates import is_coordinates
from haul.terminal import Terminal

# The most bytes that a pattern may have, as in `census`, unless it is given as coordinates.
PATTERN_LIMIT = 2**24
# Every line of coordinates is shorter than this.
MOST_LINE = 64


class Refused(Exception):
    """Raised if a text is refused. Gives the reason."""


class Streams:
    """The standard streams. If a file isn't named, or is named `-`, standard input is read."""

    def __init__(self, stdin: BinaryIO, stdout: TextIO, stderr: TextIO) -> None:
        self.stdin = stdin
        self.stdout = stdout
        self.terminal = Terminal(stderr)

    @contextmanager
    def open_input(self, name: str | None) -> Iterator[BinaryIO]:
        """Opens a file. It is closed when the context is left, unless it is standard input. Raises
        `Refused` for a folder."""
        if name is None or name == "-":
            yield self.stdin
        elif os.path.isdir(name):
            raise Refused(f"{name}: this is a folder; give the name of a file in it")
        else:
            with open(name, "rb") as file:
                yield file

    def read_haul(self, name: str | None) -> Haul:
        """Reads a file that consists of a single haul, which may be a haul of apgsearch. Raises
        `Refused` for any other file."""
        with self.open_input(name) as stream:
            try:
                haul = read_any_haul(stream)
            except BadHaul as bad:
                raise Refused(f"{format_place(name)}{bad}") from None
        if haul.said_objects not in (None, haul.objects()):
            self.terminal.complain(
                f"{format_place(name)}@NUM_OBJECTS is {haul.said_objects}, and the objects of the "
                f"table are {haul.objects()}"
            )
        return haul

    def read_reports(self, reports: Reports, name: str | None) -> Iterator[Report]:
        """Yields the reports of a file. Raises `Refused` if it isn't report lines."""
        with self.open_input(name) as stream:
            try:
                yield from reports.read(stream, format_place(name))
            except BadLines as bad:
                raise Refused(str(bad)) from None

    def read_pattern(self, name: str | None) -> bytes:
        """Reads the text of a pattern. Raises `OSError` if it is too long."""
        with self.open_input(name) as stream:
            return check_length(stream.read(PATTERN_LIMIT + 1), name)

    @contextmanager
    def open_pattern(self, name: str | None) -> Iterator[tuple[bytes, Iterator[bytes]]]:
        """Opens a pattern. If the pattern is given as coordinates, yields the beginning of the text
        and all lines, since the text may be longer than `PATTERN_LIMIT`. Otherwise, yields the
        whole text and no lines, or raises `OSError` if the text is too long."""
        with self.open_input(name) as stream:
            text = stream.read(PATTERN_LIMIT + 1)
            if is_coordinates(text):
                # The last line of the text may have been cut off.
                start = io.BytesIO(text + stream.readline(MOST_LINE))
                yield text, limit_input(chain(read_short_lines(start), read_short_lines(stream)))
                return
        yield check_length(text, name), iter(())

    def write_lines(self, lines: Iterable[str]) -> None:
        self.stdout.writelines(f"{line}\n" for line in lines)


def check_length(text: bytes, name: str | None) -> bytes:
    """Returns the text of a pattern unchanged. Raises `OSError` if it is too long."""
    if len(text) > PATTERN_LIMIT:
        raise OSError(
            errno.EFBIG, "pattern longer than 16777216 bytes", name if name != "-" else None
        )
    return text


def read_short_lines(stream: BinaryIO) -> Iterator[bytes]:
    """Yields the lines of a stream. A line that is too long for coordinates is split into
    pieces."""
    return iter(lambda: stream.readline(MOST_LINE), b"")


def limit_input(lines: Iterable[bytes]) -> Iterator[bytes]:
    """Yields the lines unchanged. Raises `OSError` if their total length is too large."""
    size = 0
    for line in lines:
        size += len(line)
        if size > INPUT_LIMIT:
            raise OSError(errno.EFBIG, f"input longer than {INPUT_LIMIT} bytes")
        yield line


def format_place(name: str | None) -> str:
    """Returns the beginning of a message about a file."""
    return "" if name is None or name == "-" else f"{name}: "
