"""Asks `census` about a pattern, within bounds, and finds its fate."""

from __future__ import annotations

import re
from dataclasses import dataclass
from functools import cached_property, partial

from haul.census.bounded import BoundedCensus
from haul.census.children import NoCensus
from haul.census.command_lines import list_coordinates_arguments, list_name_arguments
from haul.fates.fate import (
    GENERATIONS_OF_SIZES,
    Fate,
    tell_activity,
    tell_collision,
    tell_growth,
    tell_rest,
    tell_settled,
)
from haul.fates.growth import Growth, find_cycle_of_sizes, is_growing, name_engine
from haul.fates.rest import LONG_PERIOD, Rest, look_for_rest, look_longer_for_rest
from haul.fates.sizes import Size, Sizes
from haul.formats.haul import Job
from haul.life.field import pack
from haul.life.generations import read_rule

FINDING = re.compile(rb"settled (0|[1-9][0-9]{0,5})\n|unsettled\n")
CELL = re.compile(rb"(0|-?[1-9][0-9]{0,5}) (0|-?[1-9][0-9]{0,5})\n")
# If `census name` takes longer, the pattern may be growing too fast, so its sizes are looked at.
SECONDS_BEFORE_SIZES = 1


@dataclass
class Inquiry:
    """Finds the fate of a pattern, given as plaintext, under the rule and the profile of a job."""

    census: BoundedCensus
    job: Job
    pattern: bytes

    def find_fate(self) -> Fate:
        """Returns the fate. Raises `Undecided` if it can't be found within the bounds."""
        limit, rule = self.job.profile.limit, read_rule(self.job.rule)
        settled = self.find_checkpoint()
        if settled is not None:
            return tell_settled(settled)
        first, *later = sizes = self.sizes().between(limit, limit + LONG_PERIOD)
        cells = self.list_cells(limit)
        # The groups of a pattern that grows are many, and take long. Groups that recur don't grow, so
        # the order of these two tests doesn't change the answer.
        if sizes[-1].cells > first.cells and self.growth and self.growth.cells > 0:
            return tell_growth(self.growth, name_engine(self.growth, cells))
        periods = [period for period, size in enumerate(later, 1) if size == first]
        rest = self.work(partial(look_for_rest, rule, cells, self.job.profile, periods))
        if rest is not None and rest.meeting is None:
            return tell_rest(rest, limit)
        if self.growth and self.growth.cells > 0:
            return tell_growth(self.growth, name_engine(self.growth, cells))
        if rest is None and self.growth is not None:
            rest = self.work(partial(look_longer_for_rest, rule, cells, self.job.profile))
            if rest is not None and rest.meeting is None:
                return tell_rest(rest, limit)
        if rest is not None and rest.meeting is not None:
            return tell_collision(limit + rest.meeting)
        return tell_activity(first, limit, is_growing(self.populations))

    @cached_property
    def populations(self) -> list[int]:
        """The number of cells in each generation in which growth is looked for."""
        limit = self.job.profile.limit
        return count_all(self.sizes().between(limit, limit + GENERATIONS_OF_SIZES))

    @cached_property
    def growth(self) -> Growth | None:
        """The linear growth of the pattern, which is 0 if its population recurs."""
        return find_cycle_of_sizes(self.populations)

    def sizes(self) -> Sizes:
        return Sizes(self.census, self.job.rule, self.pattern)

    def work(self, work: partial[Rest | None]) -> Rest | None:
        return self.census.bounds.work(work)

    def find_checkpoint(self) -> int | None:
        """Returns the checkpoint at which the pattern has settled, or `None` if it is unsettled."""
        printed = self.census.ask_unless(
            list_name_arguments(self.job), self.pattern, SECONDS_BEFORE_SIZES, self.check_sizes
        )
        found = FINDING.match(printed)
        if found is None:
            raise NoCensus.at(self.census.census.path)
        return int(found[1]) if found[1] else None

    def check_sizes(self) -> None:
        """Raises `Undecided` if the pattern has too many cells in a generation up to the limit."""
        self.sizes().between(0, self.job.profile.limit)

    def list_cells(self, generation: int) -> set[int]:
        """Returns the live cells of the pattern in generation `generation`."""
        words = list_coordinates_arguments(self.job.rule, generation)
        cells: set[int] = set()
        for line in self.census.ask(words, self.pattern).splitlines(keepends=True):
            found = CELL.fullmatch(line)
            if found is None:
                raise NoCensus.at(self.census.census.path)
            cells.add(pack((int(found[1]), int(found[2]))))
        return cells


def count_all(sizes: list[Size]) -> list[int]:
    """Returns the numbers of cells."""
    return [size.cells for size in sizes]
