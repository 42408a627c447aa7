"""Asks `census` for the exact generation in which a soup settles, and for the growth of its
population."""

from __future__ import annotations

import re
from collections.abc import Iterator
from dataclasses import replace
from functools import partial
from typing import NamedTuple

from haul.census.bounded import SOUP_SECONDS, BoundedCensus, Bounds, Undecided
from haul.census.children import NoCensus
from haul.census.client import Census
from haul.census.command_lines import list_name_arguments, list_sizes_arguments
from haul.formats.haul import Job
from haul.life.soups import make_soup

# The number of generations over which growth is measured.
GENERATIONS_OF_GROWTH = 1000
EVERY_GENERATION = 1
# Each call of `census` runs a single soup, so that several calls can run at a time.
SOUPS_IN_A_CALL = 1
# The begin of a line of `census run --sizes`: a generation and its number of live cells.
POPULATION = re.compile(rb"([0-9]{1,6}) (0\n|[1-9][0-9]{0,9} )")
SETTLED = re.compile(rb"settled (0|[1-9][0-9]{0,5})\n")


class Growth(NamedTuple):
    """The growth of a soup: the last checkpoint, the population at that checkpoint, and the growth
    in the `GENERATIONS_OF_GROWTH` generations before it. If there are fewer generations, the growth
    is measured from generation 0. The last two numbers are `None` if they take too much time or
    memory."""

    checkpoint: int
    population: int | None
    growth: int | None


def draw_soup(job: Job, soup: int) -> bytes:
    """Returns a soup as plaintext."""
    return "".join(f"{row}\n" for row in make_soup(f"{job.seed}{soup}")).encode("ascii")


def find_exact_generations(census: Census, job: Job, soups: list[int]) -> Iterator[int | None]:
    """Yields, for each soup, the first generation in which it is at rest, or `None` if it isn't at
    rest in any generation up to the limit."""
    return census.ask_in_parts(
        partial(find_exact_generation, census, job), soups, SOUPS_IN_A_CALL, "soups run"
    )


def find_exact_generation(census: Census, job: Job, soups: list[int]) -> int | None:
    (soup,) = soups
    exact = replace(job, profile=job.profile._replace(stride=EVERY_GENERATION))
    finding = census.ask(list_name_arguments(exact), draw_soup(job, soup))
    found = SETTLED.match(finding)
    if found is None and finding != b"unsettled\n":
        raise NoCensus.at(census.path)
    return int(found[1]) if found else None


def measure_growths(census: Census, job: Job, soups: list[int]) -> Iterator[Growth]:
    """Yields the growth of each soup."""
    return census.ask_in_parts(
        partial(measure_growth, census, job), soups, SOUPS_IN_A_CALL, "soups run"
    )


def measure_growth(census: Census, job: Job, soups: list[int]) -> Growth:
    (soup,) = soups
    last = job.profile.limit - job.profile.limit % job.profile.stride
    bounded, pattern = BoundedCensus(census, Bounds(SOUP_SECONDS)), draw_soup(job, soup)
    try:
        before, after = (
            count_cells(bounded, job.rule, pattern, generation)
            for generation in (max(0, last - GENERATIONS_OF_GROWTH), last)
        )
    except Undecided:
        return Growth(last, None, None)
    return Growth(last, after, after - before)


def count_cells(census: BoundedCensus, rule: str, pattern: bytes, generation: int) -> int:
    """Returns the number of live cells of a pattern in a generation. Raises `Undecided` if that
    takes too much time or memory."""
    words = list_sizes_arguments(rule, generation, generation)
    found = POPULATION.match(census.ask(words, pattern))
    if found is None or int(found[1]) != generation:
        raise NoCensus.at(census.census.path)
    return int(found[2])
