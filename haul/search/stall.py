"""How long a search has waited for a soup to end. Under some rules, soups grow without end, and a
single one may take minutes and gigabytes."""

from __future__ import annotations

import shlex
import time

from haul.census.command_lines import format_soup_command
from haul.formats.haul import Job
from haul.search.status_line import format_duration

# After this many seconds without a soup, the status line says so.
SECONDS_UNTIL_SAID = 10.0
# A longer time between two looks doesn't count: the search has been stopped meanwhile (Ctrl-Z).
MOST_SECONDS_AT_A_TIME = 2.0
# The generations that the command of the last line shows.
SHOWN_GENERATIONS = 1000


class Stall:
    """The time since the latest soup has ended."""

    def __init__(self, most: int) -> None:
        """The search ends after `most` seconds without a soup, or never if `most` is 0."""
        self.most = most
        self.soups = 0
        self.seconds = 0.0
        self.looked = time.monotonic()

    def look(self, soups: int) -> None:
        """Takes note of the number of soups that have ended so far."""
        now = time.monotonic()
        if soups == self.soups:
            self.seconds += min(now - self.looked, MOST_SECONDS_AT_A_TIME)
        else:
            self.soups, self.seconds = soups, 0.0
        self.looked = now

    def is_long(self) -> bool:
        return self.seconds >= SECONDS_UNTIL_SAID

    def is_over(self) -> bool:
        return 0 < self.most <= self.seconds

    def text(self, memory: int) -> str:
        """Returns how long no soup has ended, and how much memory `census` has."""
        end = f", the search ends after {format_duration(self.most)}" if self.most else ""
        return (
            f"no soup for {format_duration(self.seconds)}, census has {format_bytes(memory)}{end}"
        )

    def last_words(self, job: Job, soup: int) -> str:
        """Returns why the search ends, and the command that shows how a soup grows."""
        run = ["census", "run", str(SHOWN_GENERATIONS), "--rule", job.rule, "--sizes", "1"]
        return (
            f"no soup has ended for {self.most} seconds under {job.rule} with --limit "
            f"{job.profile.limit}; --soup-seconds 0 waits for ever, and this shows how a soup grows: "
            f"{format_soup_command(job, soup)} | {shlex.join(run)}"
        )


def format_bytes(size: int) -> str:
    """Returns a size with its unit, such as `1.3 GB` or `12 MB`."""
    return f"{size / 1e9:.1f} GB" if size >= 1e9 else f"{size / 1e6:.0f} MB"
