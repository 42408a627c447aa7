"""Keeps FILE.finds while a search runs, so that the next search reports what this one hasn't, even
if this one is killed."""

from __future__ import annotations

import os
import time
from contextlib import suppress

from haul.formats.haul import NUMBER_LIMIT, Job
from haul.hauls.join import Joining
from haul.search.finds import Finder
from haul.search.haul_file import Beside
from haul.search.reporter import Reporter
from haul.search.side_file import SideFile
from haul.search.unreported import Unreported

# At most a twentieth of the time is spent on removing finds from FILE.finds. But they are removed
# at least every second.
SHARE_OF_FORGETTING, MOST_SECONDS_UNTIL_FORGOTTEN = 20, 1.0
# The first soup of a batch, and the batch's new codes, each with its lowest soup.
NewOfBatch = tuple[int, list[tuple[str, int]]]


class FindsFile:
    """FILE.finds of a search in progress."""

    def __init__(
        self, file: SideFile, job: Job, joining: Joining, finder: Finder, reporter: Reporter
    ) -> None:
        self.file, self.job, self.joining = file, job, joining
        self.finder, self.reporter = finder, reporter
        # When reported finds may be removed again.
        self.due = 0.0
        # What was left to report when the file was last written.
        self.left_in_file = 0, 0

    def list_unreported(
        self, batches: list[NewOfBatch] | None = None, late: list[list[str]] | None = None
    ) -> Unreported:
        """Returns what the search hasn't reported yet, including these late soups and the possible
        finds of these batches."""
        since = [new.first for new in self.finder.queue]
        examined = (batches or [])[1:] if self.finder.is_silent else batches or []
        since += [first for first, codes in examined if codes]
        return Unreported(
            self.job,
            self.joining.ranges,
            min(since, default=NUMBER_LIMIT),
            self.reporter.list_unreported() + (late or []),
        )

    def write_beside(self, batches: list[NewOfBatch], late: list[list[str]]) -> Beside:
        """Returns how to write the file beside a FILE that has these batches, too."""
        unreported = self.list_unreported(batches, late)
        is_needed = self.file.known is not None or not unreported.is_empty()
        return Beside(self.file, unreported.write, is_needed)

    def note_written(self) -> None:
        """Notes that the file says what is left to report now."""
        self.left_in_file = self.count_left()

    def count_left(self) -> tuple[int, int]:
        return len(self.finder.queue), self.reporter.count_unreported()

    def forget_reported(self) -> None:
        """Removes what has been reported from the file, so that little is reported twice if this
        program is killed. Does this again later if it fails."""
        began = time.monotonic()
        if self.file.known is None or self.left_in_file == self.count_left() or began < self.due:
            return
        self.note_written()
        with suppress(OSError):
            self.write()
        took = time.monotonic() - began
        self.due = began + min(took * SHARE_OF_FORGETTING, MOST_SECONDS_UNTIL_FORGOTTEN)

    def write(self) -> None:
        """Writes the file beside FILE, or removes it if everything has been reported."""
        unreported = self.list_unreported()
        if unreported.is_empty():
            if self.file.known is not None:
                self.file.remove()
        elif os.path.exists(self.file.file):
            self.file.write(unreported.write())
