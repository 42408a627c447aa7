"""Statistics of when soups settled: the number of soups at each checkpoint, and the quartiles and
the mean of the checkpoints."""

from __future__ import annotations

from collections import Counter

from haul.formats.report_lines import Report

# The number of generations that a bar covers.
GENERATIONS_OF_A_BAR = 500
QUARTERS = 4


class Settling:
    """The number of unsettled soups, and of settled soups by checkpoint, according to reports."""

    def __init__(self) -> None:
        self.unsettled = 0
        self.for_good = 0
        # The number of settled soups whose reports don't say whether they settled for good.
        self.unmarked = 0
        # The number of soups that settled at each checkpoint.
        self.checkpoints: Counter[int] = Counter()

    def add(self, report: Report) -> None:
        if report.settled is None:
            self.unsettled += 1
            return
        self.checkpoints[report.settled] += 1
        self.for_good += report.for_good is True
        self.unmarked += report.for_good is None

    def settled(self) -> int:
        return self.checkpoints.total()

    def soups(self) -> int:
        return self.unsettled + self.settled()

    def quartiles(self) -> list[int] | None:
        """Returns the first quartile, the median and the third quartile of the checkpoints, or
        `None` if no soup has settled."""
        soups = self.settled()
        return (
            [self.smallest(-(-quarter * soups // QUARTERS)) for quarter in range(1, QUARTERS)]
            if soups
            else None
        )

    def smallest(self, place: int) -> int:
        """Returns the `place`-th smallest checkpoint, counted from 1. A checkpoint counts once for
        each soup that settled there."""
        for checkpoint, soups in sorted(self.checkpoints.items()):
            place -= soups
            if place <= 0:
                return checkpoint
        raise AssertionError("fewer soups have settled")

    def mean(self) -> float | None:
        soups = self.settled()
        return (
            sum(checkpoint * number for checkpoint, number in self.checkpoints.items()) / soups
            if soups
            else None
        )

    def bars(self) -> list[tuple[int, int, int]]:
        """Returns the bars up to the last checkpoint. Each bar has its first and last generation,
        and the number of soups that settled from the first to the last."""
        soups: Counter[int] = Counter()
        for checkpoint, number in self.checkpoints.items():
            soups[checkpoint // GENERATIONS_OF_A_BAR] += number
        bars = range(max(soups, default=0) + 1)
        return [
            (bar * GENERATIONS_OF_A_BAR, (bar + 1) * GENERATIONS_OF_A_BAR - 1, soups[bar])
            for bar in bars
        ]
