"""The status line of a search: on a terminal, a line that is updated in place; otherwise one line
per minute."""

from __future__ import annotations

import time
from dataclasses import dataclass

from haul.plurals import pluralize, write_count
from haul.terminal import Terminal

# The time from one status to the next.
SECONDS_ON_A_TERMINAL, SECONDS_ELSEWHERE = 1.0, 60.0


@dataclass(frozen=True)
class Status:
    """The progress of a search."""

    # The number of soups in the haul, plus the soups that later batches have run so far.
    soups: int
    # The number of soups that this call of `haul search` has run.
    run: int
    objects: int
    codes: int
    finds: int
    # The running time of this call of `haul search`, in seconds.
    seconds: float
    # The number of soups that remain to be run, or `None` if the search has no end.
    left: int | None
    # What to say if no soup has ended for some time, or `None`.
    stall: str | None = None
    # How many soups the first batch has run, and how many it has. `None` if a batch has ended, or if
    # none is running.
    first_batch: tuple[int, int] | None = None

    def rate(self) -> float:
        """Returns the number of soups per second that this call of `haul search` has run."""
        return self.run / self.seconds if self.seconds > 0 else 0.0

    def text(self) -> str:
        if self.stall is not None:
            return f"{self.stall}, {write_count(self.soups, 'soup')} so far"
        if self.first_batch is not None:
            return self.first_text()
        words = [
            write_count(self.soups, "soup"),
            f"{self.rate():,.0f} per second",
            write_count(self.objects, "object"),
            write_count(self.codes, "code"),
            write_count(self.finds, "find"),
            f"running for {format_duration(self.seconds)}",
        ]
        return ", ".join([*words, *self.time_left()])

    def first_text(self) -> str:
        """Returns a text about the first batch. Its objects are known when it has ended."""
        assert self.first_batch is not None
        done, count = self.first_batch
        words = [
            f"first batch: {done:,} of {write_count(count, 'soup')}",
            f"{self.rate():,.0f} per second",
            f"running for {format_duration(self.seconds)}",
        ]
        return ", ".join([*words, *self.time_left()])

    def short_text(self) -> str:
        """Returns the same facts as `text`, with numbers rounded to three digits, for a narrow
        terminal."""
        if self.stall is not None:
            return self.stall
        if self.first_batch is not None:
            done, count = map(format_short, self.first_batch)
            rate = format_short(round(self.rate()))
            words = [f"first batch: {done} of {count} soups", f"{rate}/s"]
            return " ".join([*words, format_duration(self.seconds), *self.time_left()])
        numbers = (
            (self.soups, "soup"),
            (self.objects, "object"),
            (self.codes, "code"),
            (self.finds, "find"),
        )
        soups, *others = (
            f"{format_short(number)} {pluralize(number, name)}" for number, name in numbers
        )
        return " ".join(
            [
                soups,
                f"{format_short(round(self.rate()))}/s",
                *others,
                format_duration(self.seconds),
                *self.time_left(),
            ]
        )

    def time_left(self) -> list[str]:
        if self.left is None:
            return []
        return [f"{format_duration(self.left / self.rate())} left" if self.rate() > 0 else "? left"]


def format_duration(seconds: float) -> str:
    """Returns a duration as hours, minutes and seconds, such as `121:02:03`."""
    whole = int(seconds)
    return f"{whole // 3600}:{whole // 60 % 60:02}:{whole % 60:02}"


def format_short(number: int) -> str:
    """Returns a number rounded to three digits, such as `12.3M`. A number below a thousand is
    returned unchanged."""
    if number < 1000:
        return str(number)
    # Rounded to three digits, 999,500 is a million.
    size = (len(str(int(float(f"{number:.3g}")))) - 1) // 3
    return f"{number / 1000**size:.3g}{' kMGTPE'[size]}"


class StatusLine:
    """Shows the status at regular intervals."""

    def __init__(self, terminal: Terminal) -> None:
        self.terminal = terminal
        self.is_on_a_terminal = terminal.is_interactive()
        self.every = SECONDS_ON_A_TERMINAL if self.is_on_a_terminal else SECONDS_ELSEWHERE
        self.next = time.monotonic() + self.every

    def is_due(self) -> bool:
        return time.monotonic() >= self.next

    def show(self, status: Status) -> None:
        """Writes the status to standard error. Failures are ignored."""
        self.next = time.monotonic() + self.every
        if self.is_on_a_terminal:
            # A line that is wider than the terminal couldn't be erased.
            text = (
                status.text() if len(status.text()) < self.terminal.width() else status.short_text()
            )
            self.terminal.show_progress(text[: self.terminal.width() - 1])
        else:
            self.terminal.complain(status.text())

    def seconds_left(self) -> float:
        return max(0.0, self.next - time.monotonic())
