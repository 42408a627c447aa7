"""Reports finds: prints each find, and queues a call of the `--finds` program for it.

Late and unsettled soups are reported in the same way, and are called finds here, too.
"""

from __future__ import annotations

from collections import deque
from collections.abc import Callable
from typing import TextIO

from haul.plurals import write_count
from haul.search.finds_program import FindsProgram
from haul.terminal import Terminal

# The last field of a line about a find begins with `none` if the reference census doesn't have the
# find. On a terminal, a mark is printed before such a line.
UNKNOWN_MARK, UNKNOWN = "!", "none"


class Reporter:
    """The finds that remain to be reported."""

    def __init__(
        self, output: TextIO, terminal: Terminal, calls: FindsProgram, finds: list[list[str]]
    ) -> None:
        """`finds` are the finds that the previous search hadn't reported."""
        self.output = output
        self.terminal = terminal
        self.calls = calls
        self.waiting = deque(finds)
        self.marks_finds = output.isatty()
        # Returns the fields as they are printed.
        self.show: Callable[[list[str]], list[str]] = list
        self.count = 0
        # Whether a find couldn't be printed. Nothing is printed after that.
        self.has_failed = False
        # Whether printing failed because the program that reads the finds has ended.
        self.has_no_reader = False

    def add(self, fields: list[str]) -> None:
        self.waiting.append(fields)

    def report_next(self) -> None:
        """Reports the next find. There must be one. Raises `OSError` if it can't be printed."""
        fields = self.waiting[0]
        self.terminal.show_progress("")
        is_unknown = self.marks_finds and fields[-1].startswith(UNKNOWN)
        try:
            print(
                (UNKNOWN_MARK if is_unknown else "") + "\t".join(self.show(fields)),
                file=self.output,
                flush=True,
            )
        except OSError as error:
            self.has_failed = True
            self.has_no_reader = isinstance(error, BrokenPipeError)
            raise
        self.waiting.popleft()
        self.count += 1
        self.calls.add(fields)

    def is_done(self) -> bool:
        return not self.waiting or self.has_failed

    def list_unreported(self) -> list[list[str]]:
        """Returns the finds whose calls haven't ended, followed by the finds that weren't
        printed."""
        return [*self.calls.list_open(), *self.waiting]

    def count_unreported(self) -> int:
        return self.calls.left() + len(self.waiting)

    def what_is_left(self) -> list[str]:
        finds = [write_count(len(self.waiting), "find") + " to print"] if self.waiting else []
        calls = write_count(self.calls.left(), "call") + f" of {self.calls.program}"
        return finds + ([] if self.calls.is_done() else [calls])
