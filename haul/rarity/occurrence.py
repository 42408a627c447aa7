"""Occurrences: one soup in N has an object, with the exact interval of 95 % for N."""

from __future__ import annotations

from dataclasses import dataclass

from haul.statistics.shares import find_share_high, find_share_low


@dataclass(frozen=True)
class Occurrence:
    """How often an object occurs: `having` of `soups` soups have it."""

    having: int
    soups: int

    def one_in(self) -> float | None:
        """Returns N if one soup in N has the object, or `None` if no soup has it."""
        return self.soups / self.having if self.having else None

    def one_in_low(self) -> float:
        """Returns the low end of the interval of N."""
        return 1 / find_share_high(self.having, self.soups)

    def one_in_high(self) -> float | None:
        """Returns the high end of the interval of N, or `None` if no soup has the object."""
        return 1 / find_share_low(self.having, self.soups) if self.having else None

    def describe(self) -> str:
        """Returns a text such as `one in 1785714` or `none in 100000000`."""
        one_in = self.one_in()
        return f"none in {self.soups}" if one_in is None else f"one in {format_one_in(one_in)}"


def format_one_in(one_in: float) -> str:
    """Returns the number rounded to an integer, or with two decimal places if it is below 100."""
    return f"{one_in:.0f}" if one_in >= 100 else f"{one_in:.2f}"
