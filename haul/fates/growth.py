"""Linear growth: a population that gains the same number of cells in every cycle."""

from __future__ import annotations

from dataclasses import dataclass
from fractions import Fraction

from haul.fates.guns import find_guns

# The longest cycle that is looked for. Each of the first `GENERATIONS + 1` populations is compared
# with the population one cycle later.
MOST_CYCLE, GENERATIONS = 2880, 8640
# The parts in which a population is compared that doesn't grow linearly. Parts side by side aren't
# compared, since most populations also shrink for some generations.
PARTS = 8
# Engines by the number of cells that they gain per generation.
ENGINES = {
    Fraction(16, 144): "block-laying switch engine",
    Fraction(59, 384): "glider-producing switch engine",
}


@dataclass(frozen=True)
class Growth:
    """The growth of a pattern: how many cells it gains, and in how many generations."""

    cells: int
    generations: int

    def rate(self) -> Fraction:
        return Fraction(self.cells, self.generations)


def find_cycle_of_sizes(populations: list[int]) -> Growth | None:
    """Returns the shortest cycle in which the population never changes, or gains the same number of
    cells each time. Returns `None` if there is none. `populations` has the populations of
    `GENERATIONS + MOST_CYCLE + 1` successive generations."""
    for cycle in range(1, MOST_CYCLE + 1):
        cells = populations[cycle] - populations[0]
        if cells >= 0 and all(
            later - earlier == cells
            for earlier, later in zip(populations, populations[cycle : cycle + GENERATIONS + 1])
        ):
            return Growth(cells, cycle)
    return None


def name_engine(growth: Growth, cells: set[int]) -> str | None:
    """Returns the name of an engine that grows at this rate, or `None` if none is known. A gun is
    only named if its cells are in the pattern, whose live cells are `cells`."""
    return ENGINES.get(growth.rate()) or find_guns(growth.rate(), cells)


def is_growing(populations: list[int]) -> bool:
    """Checks whether a population grows, linearly or not: if it is divided into `PARTS` parts, each
    population of a part is larger than all of the part before the last."""
    size = len(populations) // PARTS
    parts = [populations[place * size : (place + 1) * size] for place in range(PARTS)]
    return all(max(before) < min(later) for before, later in zip(parts, parts[2:]))
