"""Lines for the user on standard error: progress on a terminal, and complaints."""

from __future__ import annotations

import os
import re
import shutil
from contextlib import suppress
from typing import TextIO

CONTROLS = re.compile(r"[\x00-\x1f\x7f-\x9f]")
# The number of columns of a terminal that doesn't say how wide it is.
USUAL_WIDTH = 80


class Terminal:
    """Standard error, which may be a terminal. A line that can't be written is dropped."""

    def __init__(self, stderr: TextIO) -> None:
        self.stderr = stderr

    def is_interactive(self) -> bool:
        """Checks whether this is a terminal, where someone may read progress lines."""
        return self.stderr.isatty()

    def show_progress(self, line: str) -> None:
        """Replaces the progress line if this is a terminal. An empty line erases it."""
        if self.is_interactive():
            with suppress(OSError):
                print(f"\r\033[K{line}", end="", file=self.stderr, flush=True)

    def pass_progress_on(self, line: bytes) -> None:
        """Writes another program's progress line unchanged if this is a terminal."""
        if self.is_interactive():
            with suppress(OSError):
                os.write(self.stderr.fileno(), line)

    def complain(self, line: str) -> None:
        """Erases the progress line, and writes a line about a problem."""
        self.show_progress("")
        with suppress(OSError):
            print(f"haul: {escape_controls(line)}", file=self.stderr, flush=True)

    def width(self) -> int:
        """Returns the number of columns."""
        try:
            return os.get_terminal_size(self.stderr.fileno()).columns or USUAL_WIDTH
        except OSError:
            return USUAL_WIDTH


def escape_controls(text: str) -> str:
    """Replaces control characters by escapes such as `\\x1b`, so that the name of a file can't move
    the cursor or end a line."""
    return CONTROLS.sub(lambda found: f"\\x{ord(found[0]):02x}", text)


def find_output_width(stdout: TextIO) -> int | None:
    """Returns the number of columns if standard output is a terminal, otherwise `None`."""
    return shutil.get_terminal_size().columns if stdout.isatty() else None
