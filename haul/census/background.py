"""Programs that run in sessions of their own, so that Ctrl-C doesn't reach them. They end when
`haul` ends."""

from __future__ import annotations

import os
import re
import selectors
import subprocess
import time
from collections.abc import Callable
from contextlib import suppress
from typing import IO

from haul.census.children import children, kill_apart, measure_session
from haul.census.client import FAILED, Ended, check_ending
from haul.census.launcher import CENSUS
from haul.formats.report_lines import LINE_LIMIT

BYTES_AT_A_TIME = 65_536
# A program may print at most `MOST_PRINTED` bytes, and `BYTES_OF_A_SOUP` more for each soup that it
# takes. It may write at most `MOST_COMPLAINED` bytes to standard error, apart from progress lines
# and report lines.
MOST_PRINTED, BYTES_OF_A_SOUP, MOST_COMPLAINED = 2**26, 4096, 2**20
# How long to wait at a time for a program that has closed its streams.
SECONDS_TO_END = 0.05
# How long to read from a program that was killed. All its processes are killed, too, so the streams
# end at once, unless a process had a user of its own.
SECONDS_FOR_REST = 1.0
# The progress line of `census take`.
PROGRESS = re.compile(rb"([0-9]{1,8}) of [0-9]{1,8} soups")
# How a report line of `census take` begins, and the expression that finds the soup's number in it.
# Whenever more than twice `MOST_REPORTS` such lines have been collected, only the `MOST_REPORTS`
# lines with the lowest soup numbers are kept.
REPORT_BEGINS = b"report "
MOST_REPORTS = 100_000
REPORT_OF = re.compile(rb"report [^\n]*? soup=([0-9]{1,13}) ")


class StreamWaiter:
    """Waits for streams. Each stream has a function that is called when there is something to
    read."""

    def __init__(self) -> None:
        self.selector = selectors.DefaultSelector()

    def add(self, stream: IO[bytes] | int, read: Callable[[], None]) -> None:
        self.selector.register(stream, selectors.EVENT_READ, read)

    def remove(self, stream: IO[bytes] | int) -> None:
        self.selector.unregister(stream)

    def wait(self, seconds: float) -> None:
        """Waits until something can be read, but at most `seconds` seconds, and calls the functions
        of the streams that can be read."""
        for key, _ in self.selector.select(seconds):
            key.data()


class BackgroundProgram:
    """A running program, with the text that it has printed to a pipe so far."""

    # The most bytes that `printed` and `complained` may have.
    most_printed = MOST_PRINTED
    most_complained = MOST_COMPLAINED

    def __init__(
        self, waiter: StreamWaiter, how: str, words: list[str], stderr: int | None
    ) -> None:
        """Starts a program with `launcher.py`, in the mode `how`: `CENSUS` or `FIND`. Raises
        `OSError` if `launcher.py` can't be started."""
        self.waiter = waiter
        self.process = children.start(words, subprocess.PIPE, stderr, how=how)
        self.printed, self.complained = bytearray(), bytearray()
        # The name of the stream to which the program has written too much, or `None`.
        self.flooded: str | None = None
        # The number of streams that are still open.
        self.open = 0
        for stream, text in (
            (self.process.stdout, self.printed),
            (self.process.stderr, self.complained),
        ):
            if stream is not None:
                self.open += 1
                waiter.add(stream, self.reader(stream, text))

    def reader(self, stream: IO[bytes], text: bytearray) -> Callable[[], None]:
        def read() -> None:
            piece = os.read(stream.fileno(), BYTES_AT_A_TIME)
            text.extend(piece)
            self.refuse_floods()
            if not piece:
                self.waiter.remove(stream)
                stream.close()
                self.open -= 1

        return read

    def refuse_floods(self) -> None:
        """Kills a program that has written too much to a stream, and discards what it wrote
        there."""
        for text, most, stream in (
            (self.printed, self.most_printed, "output"),
            (self.complained, self.most_complained, "error"),
        ):
            if len(text) > most:
                self.flooded = self.flooded or stream
                self.kill()
                text.clear()

    def measure_memory(self) -> int:
        """Returns the number of bytes of memory that the program and its children use."""
        return measure_session(self.process.pid)

    def is_ended(self) -> bool:
        """Checks whether the program has ended and everything that it printed has been read."""
        if self.open == 0:
            # The program is about to end, unless it has only closed its streams.
            with suppress(subprocess.TimeoutExpired):
                self.process.wait(SECONDS_TO_END)
        elif self.process.poll() is not None:
            # Processes that the program has left running would keep the streams open.
            self.kill()
        if self.open > 0 or self.process.returncode is None:
            return False
        children.remove(self.process)
        return True

    def kill(self) -> None:
        kill_apart(self.process)

    def read_rest(self) -> None:
        """Reads what a program that was killed has printed before."""
        self.process.wait()
        end = time.monotonic() + SECONDS_FOR_REST
        while self.open > 0 and time.monotonic() < end:
            self.waiter.wait(SECONDS_TO_END)

    def end(self) -> None:
        """Kills the program, waits for its end, and discards what it printed."""
        self.kill()
        self.process.wait()
        children.remove(self.process)
        for stream in (self.process.stdout, self.process.stderr):
            if stream is not None and not stream.closed:
                self.waiter.remove(stream)
                stream.close()


class BackgroundTake(BackgroundProgram):
    """A call of `census take`. It writes progress lines and report lines to standard error."""

    def __init__(self, waiter: StreamWaiter, words: list[str], soups: int = 0) -> None:
        """Starts a call that takes `soups` soups."""
        self.most_printed = MOST_PRINTED + BYTES_OF_A_SOUP * soups
        # Complete lines that are neither progress nor reports.
        self.remarks = bytearray()
        # The report lines with the lowest soup numbers. `reported` counts all report lines.
        self.reports: list[tuple[int, bytes]] = []
        self.reported = 0
        self.reported_bytes = 0
        # The number of soups run so far, according to the latest progress line.
        self.latest = 0
        super().__init__(waiter, CENSUS, words, subprocess.PIPE)

    def refuse_floods(self) -> None:
        # Progress lines and report lines don't count as complaints, but there may be too many
        # reports.
        self.read_errors()
        if self.reported_bytes > self.most_printed or len(self.remarks) > MOST_COMPLAINED:
            self.flooded = self.flooded or "error"
            self.kill()
            self.remarks.clear()
            self.reports.clear()
        super().refuse_floods()

    def read_errors(self) -> None:
        """Splits the text on standard error into progress, report lines and other complete lines.
        Keeps an incomplete last line."""
        *lines, last = self.complained.split(b"\n")
        for line in lines:
            rest = self.pass_progress(line)
            if rest.startswith(REPORT_BEGINS):
                self.add_report(bytes(rest))
            else:
                self.remarks += rest + b"\n"
        self.complained[:] = self.pass_progress(last)
        is_report = self.complained.startswith(REPORT_BEGINS)
        self.most_complained = LINE_LIMIT if is_report else MOST_COMPLAINED

    def pass_progress(self, line: bytearray) -> bytearray:
        """Reads the progress in a line. Returns the text that follows it."""
        found = PROGRESS.findall(line)
        if found:
            self.latest = int(found[-1])
        # Everything up to the last carriage return is progress, which has been read.
        return line.rpartition(b"\r")[2]

    def add_report(self, line: bytes) -> None:
        soup = REPORT_OF.match(line)
        self.reported += 1
        self.reported_bytes += len(line)
        # A line without a soup number is refused later.
        self.reports.append((int(soup[1]) if soup else -1, line))
        if len(self.reports) > 2 * MOST_REPORTS:
            self.reports = sorted(self.reports)[:MOST_REPORTS]

    def soups(self) -> int:
        """Returns the number of soups run so far, according to the progress line."""
        self.read_errors()
        return self.latest

    def haul_text(self) -> bytes:
        """Returns the text that was printed. Raises `Ended` if the program failed."""
        if self.flooded is not None:
            raise Ended(FAILED, f"census wrote too much to its standard {self.flooded}")
        last = bytes(self.complained)
        if PROGRESS.match(last):
            # The program was killed before it could erase its progress line.
            last = b""
        complaint = bytes(self.remarks) + last
        return check_ending(self.process.returncode, bytes(self.printed), complaint)
