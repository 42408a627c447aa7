"""Separations: the ways to divide an object into parts, as defined in docs/PROFILE.md. Parts are
blocks, which are sets of the object's islands.

The search is the same whether patterns are sets of cells or the bits of numbers
(haul/life/bitmaps.py), since both have the operators `|` and `&`.
"""

from __future__ import annotations

from collections.abc import Callable, Iterator
from dataclasses import dataclass, field
from functools import reduce
from itertools import combinations
from operator import or_
from typing import Generic, TypeVar

from haul.life.cells import Cells
from haul.life.generations import Rule

# For an object with more islands than this, only the separation into single islands is tried, since
# there are too many others.
MOST_ISLANDS = 10
# A set of islands, given by their places in the object's list of islands.
Block = frozenset[int]
Pattern = TypeVar("Pattern", int, Cells)


@dataclass(frozen=True)
class Patterns(Generic[Pattern]):
    """What the search needs to know about a kind of patterns."""

    advance: Callable[[Rule, Pattern], Pattern]
    find_islands: Callable[[list[Pattern]], list[Pattern]]
    is_cluster: Callable[[Pattern], bool]
    # Returns the move that takes one pattern to another, or `None` if there is none.
    find_move: Callable[[Pattern, Pattern], object]


@dataclass
class Separations(Generic[Pattern]):
    """The separations of an object."""

    patterns: Patterns[Pattern]
    rule: Rule
    # The object in each generation from 0 to its period.
    generations: list[Pattern]
    known: dict[Block, list[Pattern] | None] = field(default_factory=dict)

    def __post_init__(self) -> None:
        self.islands: list[Pattern] = self.patterns.find_islands(self.generations[:-1])
        self.move = self.patterns.find_move(self.generations[0], self.generations[-1])

    def find_largest(self) -> list[list[Pattern]] | None:
        """Returns the separations with the most parts. If each island is a part, there is only the
        separation into islands. Returns `None` if there are too many islands to try all."""
        islands = self.single_islands()
        if islands is not None:
            return [islands]
        if len(self.islands) > MOST_ISLANDS:
            return None
        found = list(self.list_separations()) + [[self.generations[0]]]
        most = max(len(parts) for parts in found)
        return [parts for parts in found if len(parts) == most]

    def single_islands(self) -> list[Pattern] | None:
        """Returns the islands if each of them is a part, otherwise `None`."""
        runs: list[list[Pattern]] = []
        for place in range(len(self.islands)):
            run = self.run(frozenset([place]))
            if run is None:
                return None
            runs.append(run)
        return self.islands if self.is_separation(runs) else None

    def list_separations(self) -> Iterator[list[Pattern]]:
        """Yields each separation of the object into several blocks, as a list of these blocks."""
        return self.completed([], frozenset(range(len(self.islands))))

    def completed(self, runs: list[list[Pattern]], left: Block) -> Iterator[list[Pattern]]:
        """Yields each separation that has the blocks with these `runs` and divides the islands in
        `left` into further blocks."""
        if not left:
            if self.is_separation(runs):
                yield [run[0] for run in runs]
            return
        first = min(left)
        others: tuple[int, ...]
        for size in range(len(left)):
            for others in combinations(sorted(left - {first}), size):
                block = frozenset((first, *others))
                run = self.run(block) if len(block) < len(self.islands) else None
                if run is not None:
                    yield from self.completed(runs + [run], left - block)

    def is_separation(self, runs: list[list[Pattern]]) -> bool:
        """Checks whether the blocks, each run by itself, never share a cell, and together make up
        the object in each generation. `runs` has the generations of each block."""
        for whole, first, *others in zip(self.generations, *runs, strict=True):
            for live in others:
                if first & live:
                    return False
                first |= live
            if first != whole:
                return False
        return True

    def run(self, block: Block) -> list[Pattern] | None:
        """Returns the block in each generation from 0 to the object's period, run by itself.
        Returns `None` if no separation can have this block."""
        if block not in self.known:
            self.known[block] = self.run_alone(reduce(or_, (self.islands[at] for at in block)))
        return self.known[block]

    def run_alone(self, live: Pattern) -> list[Pattern] | None:
        """Runs some islands by themselves. Returns `None` if they get a live cell that the object
        doesn't have, don't recur with the object, or are a cluster in no phase."""
        run = [live]
        for whole in self.generations[1:]:
            live = self.patterns.advance(self.rule, live)
            if live | whole != whole:
                return None
            run.append(live)
        if self.move is None or self.patterns.find_move(run[0], live) != self.move:
            return None
        return run if any(map(self.patterns.is_cluster, run[:-1])) else None
