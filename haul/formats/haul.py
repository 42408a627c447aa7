"""Hauls: how many objects of each code were left by the soups of a census."""

from __future__ import annotations

from collections.abc import Iterable
from dataclasses import KW_ONLY, dataclass, field

from haul.formats.profile import Profile

# Catagolue's name for soups without symmetry. `census` runs no other soups.
SYMMETRY = "C1"
# Every soup has a number below this.
NUMBER_LIMIT = 2**40
# Every total is below this.
TOTAL_LIMIT = 2**64
# The most samples that a code has in a haul of `census`.
MOST_SAMPLES = 3

Range = tuple[int, int]


@dataclass(frozen=True)
class Job:
    """How a census makes its soups (seed and symmetry), and how it runs them (rule and profile)."""

    seed: str
    rule: str
    profile: Profile
    # Anything but `SYMMETRY` occurs only in hauls of apgsearch.
    symmetry: str = SYMMETRY


@dataclass
class Haul:
    """The result of a census of a set of soups."""

    job: Job
    _: KW_ONLY
    # The first number and the size of each range, in ascending order. No range is empty, and no two
    # ranges touch.
    ranges: list[Range] = field(default_factory=list)
    soups: int = 0
    unsettled: int = 0
    for_good: int = 0
    # The number of objects of each code, in the order of the codes.
    totals: dict[str, int] = field(default_factory=dict)
    # For each code of `totals`, the numbers of sample soups that left an object with the code. A
    # haul of `census` has the lowest numbers.
    samples: dict[str, list[int]] = field(default_factory=dict)
    # The version of apgsearch, or `None` for a haul of `census`. A haul of apgsearch doesn't say
    # which soups it has, how many of them are unsettled, or how many settled for good.
    apgsearch: str | None = None
    # The number of objects that a haul of apgsearch claims. The sum of its totals may differ.
    said_objects: int | None = None
    # The line of the input in which the haul begins.
    line: int = 1

    def objects(self) -> int:
        return sum(self.totals.values())

    def size(self) -> int:
        """Returns how many soup numbers the ranges have."""
        return count_numbers(self.ranges)

    def first_total_line(self) -> int:
        """Returns the line of the input that has the first total. The other totals follow it."""
        return self.line + 11 + max(1, len(self.ranges))

    def first_sample_line(self) -> int:
        return self.first_total_line() + len(self.totals) + 2


def count_numbers(ranges: Iterable[Range]) -> int:
    return sum(count for _, count in ranges)
