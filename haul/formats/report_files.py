"""Reads the report lines in files: those of one job, and only the first report of each soup.
Doesn't check whether the soups really left what the reports say."""

from __future__ import annotations

import errno
from collections.abc import Iterator
from typing import IO

from haul.formats.haul import Job
from haul.formats.recognition import describe_other_form
from haul.formats.report_lines import LINE_LIMIT, BadLine, Report, read_report_line
from haul.terminal import Terminal

# Every report line begins like this.
REPORT = b"report "
# The forms of texts that may be report lines. A text that looks like another form isn't read.
READ = ("reports", "late", "empty")
# A line that begins with this is skipped. An example is the first line of FILE.late.
COMMENT = b"#"
# The progress line is updated after this many lines.
LINES_BETWEEN_PROGRESS = 10_000
# The most skipped lines that get a message each. Further skipped lines are only counted.
MOST_TOLD = 1000
# The most bytes that an input may have, as for `census gather`.
INPUT_LIMIT = 2**32


class BadLines(Exception):
    """Raised if an input isn't report lines. Says what it looks like instead."""


class Reports:
    """Reads the reports of one or more inputs. Keeps their job and the numbers of their soups."""

    def __init__(self, terminal: Terminal) -> None:
        self.terminal = terminal
        # The job of the first report.
        self.job: Job | None = None
        self.soups: set[int] = set()
        self.lines = 0
        # The number of skipped lines, including those without a message of their own.
        self.skipped = 0

    def read(self, stream: IO[bytes], place: str) -> Iterator[Report]:
        """Yields each report that has the job of the first report, unless a report of the same soup
        has been read before. Comments are skipped silently. A bad line, or a report of another job,
        is skipped with a message on standard error that begins with `place`. Raises `BadLines` if
        the input looks like something else, or has other lines, but none that begins like a report
        line."""
        # The messages about the lines before the first report line. `None` after that.
        waiting: list[str] | None = []
        for number, line in enumerate(split_lines(stream), 1):
            if number == 1 and (other := describe_other_form(line + b"\n", *READ)):
                raise BadLines(f"{place}no report lines{other}{find_lines_beside(line)}")
            if waiting is not None and line.startswith(REPORT):
                for why in waiting:
                    self.skip(why)
                waiting = None
            self.lines += 1
            if self.lines % LINES_BETWEEN_PROGRESS == 0:
                self.terminal.show_progress(f"{self.lines} lines")
            if line.startswith(COMMENT):
                continue
            try:
                report = read_report_line(line)
            except BadLine as bad:
                why = f"{place}line {number}: {bad}"
                if waiting is None:
                    self.skip(why)
                else:
                    waiting.append(why)
                continue
            self.job = self.job or report.job
            if report.job != self.job:
                self.skip(f"{place}line {number}: other job")
            elif report.soup not in self.soups:
                self.soups.add(report.soup)
                yield report
        if waiting:
            raise BadLines(f"{place}no report lines, which `census work` and `haul search` write")

    def skip(self, why: str) -> None:
        """Counts a skipped line. Writes the message `why` about it, unless `MOST_TOLD` messages
        have been written before."""
        self.skipped += 1
        if self.skipped <= MOST_TOLD:
            self.terminal.complain(why)

    def tell_skipped(self) -> None:
        """Writes how many lines were skipped without a message, if there were any."""
        if self.skipped > MOST_TOLD:
            self.terminal.complain(f"{self.skipped - MOST_TOLD} more lines are skipped")


def find_lines_beside(line: bytes) -> str:
    """Returns where report lines may be, if an input begins like a haul."""
    is_haul = line == b"@VERSION 2"
    return "; the report lines of a search are in FILE.late" if is_haul else ""


def split_lines(stream: IO[bytes]) -> Iterator[bytes]:
    """Yields the lines of an input without their line feeds. If a line is too long, yields only its
    first `LINE_LIMIT + 1` bytes. Raises `OSError` if the input is too long."""
    size, is_begun = 0, False
    while piece := stream.readline(LINE_LIMIT + 1):
        size += len(piece)
        if size > INPUT_LIMIT:
            raise OSError(errno.EFBIG, f"input longer than {INPUT_LIMIT} bytes")
        if not is_begun:
            yield piece.removesuffix(b"\n")
        is_begun = not piece.endswith(b"\n")
