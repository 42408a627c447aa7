"""Signals that end long work. The work either finishes its running part, or ends at once."""

from __future__ import annotations

import os
import signal
import time
from contextlib import suppress

# If the work hasn't ended this many seconds after a signal to end at once, the next signal ends the
# program, unless the work is writing.
SECONDS_TO_END = 10.0


class Stopping:
    """The signals that have come. The first Ctrl-C asks the work to finish what is running. Any
    other signal asks the work to drop what is running, and also ends the program when the work has
    ended."""

    def __init__(self) -> None:
        self.finishes = False
        # The signal that ends the program, or `None`, and when the signal came, in seconds.
        self.number: int | None = None
        self.since: float
        # Whether the work is doing something that must be completed before the program ends.
        self.is_writing = False
        # Each signal writes a byte to this pipe, which wakes work that is waiting.
        self.reading, self.writing = os.pipe()
        os.set_blocking(self.reading, False)
        os.set_blocking(self.writing, False)

    def came(self, number: int) -> bool:
        """Notes a signal. Returns whether the work may go on until it ends by itself. Called by the
        main thread."""
        if number == signal.SIGINT and not self.finishes and self.number is None:
            self.finishes = True
        elif self.number is None:
            self.number, self.since = number, time.monotonic()
        elif time.monotonic() - self.since >= SECONDS_TO_END and not self.is_writing:
            return False
        # If the pipe is full, its earlier bytes wake the work.
        with suppress(BlockingIOError):
            os.write(self.writing, b"\0")
        return True

    def hear(self) -> None:
        """Reads the bytes in the pipe, so that they don't wake the work again."""
        with suppress(BlockingIOError):
            os.read(self.reading, 4096)
