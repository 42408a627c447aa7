"""Finds the fates of soups and patterns. `census` decides whether they settle and computes their
generations. The explanation is found here."""

from __future__ import annotations

from collections.abc import Iterator
from dataclasses import dataclass

from haul.census.bounded import SOUP_SECONDS, BoundedCensus, Bounds, Undecided
from haul.census.client import Census
from haul.census.soup_runs import SOUPS_IN_A_CALL, draw_soup
from haul.fates.fate import MOST_LIMIT, Fate, tell_undecided
from haul.fates.inquiry import Inquiry
from haul.fates.sizes import Sizes
from haul.formats.haul import Job


class TooLate(Exception):
    """Raised if the limit of a profile is too large."""


@dataclass(frozen=True)
class Fates:
    """Finds fates under the rule and the profile of a job."""

    census: Census
    job: Job
    # How long a soup or a pattern may take. 0 stands for no bound.
    seconds: int = SOUP_SECONDS

    def __post_init__(self) -> None:
        """Raises `TooLate` if the limit of the profile is too large."""
        if self.job.profile.limit > MOST_LIMIT:
            raise TooLate(
                f"the limit {self.job.profile.limit} is above {MOST_LIMIT}, the most for `haul why`"
            )

    def find_all(self, soups: list[int]) -> Iterator[Fate]:
        """Yields the fates of soups. Several soups are examined at a time."""
        return self.census.ask_in_parts(self.find_of_soup, soups, SOUPS_IN_A_CALL, "soups run")

    def find_of_soup(self, soups: list[int]) -> Fate:
        (soup,) = soups
        return self.find(draw_soup(self.job, soup))

    def find(self, pattern: bytes) -> Fate:
        """Returns the fate of a pattern, given as plaintext."""
        census = BoundedCensus(self.census, Bounds(self.seconds))
        try:
            return Inquiry(census, self.job, pattern).find_fate()
        except Undecided as why:
            return tell_undecided(str(why))

    def count_cells(self, pattern: bytes, generation: int) -> int:
        """Returns the number of live cells in a generation. Its time isn't bounded. Raises
        `Undecided` if it takes too much memory."""
        return Sizes(BoundedCensus(self.census, Bounds(0)), self.job.rule, pattern).count_cells(
            generation
        )
