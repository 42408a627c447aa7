"""Groups: cells of a pattern that belong together over many generations, as defined in
docs/HAUL-DETAILS.md.

Two live cells are linked if they are at most two columns and two rows apart, in the same generation
or in successive generations. Cells that are linked, directly or through others, form a group. A
stay is an unbroken range of generations in which a cell is alive. A whole stay belongs to one
group.
"""

from __future__ import annotations

from collections import defaultdict
from collections.abc import Iterator
from dataclasses import dataclass, field

from haul.life.field import NEAR, Field, find_move
from haul.life.generations import Rule

# The first and the last generation of a stay.
Stay = tuple[int, int]
# One of each two opposite offsets in `NEAR`, so that each pair of cells is compared only once.
HALF_OF_NEAR = tuple(step for step in NEAR if step > 0)


@dataclass
class Group:
    """The stays of a group, each with its cell."""

    stays: list[tuple[int, Stay]] = field(default_factory=list)

    def is_still(self, first: int, last: int) -> bool:
        """Checks whether no cell of the group changes from generation `first` to generation
        `last`."""
        return all(
            begin <= first and last <= end or last < begin or end < first
            for _, (begin, end) in self.stays
        )

    def phases(self, first: int, last: int) -> list[set[int]]:
        """Returns the cells of the group in each generation from `first` to `last`."""
        found: list[set[int]] = [set() for _ in range(first, last + 1)]
        for cell, (begin, end) in self.stays:
            for phase in range(max(begin, first), min(end, last) + 1):
                found[phase - first].add(cell)
        return found


class Watched:
    """A pattern that is run for some generations, and the stays of its cells."""

    def __init__(self, field: Field, generations: int) -> None:
        self.last = generations
        began = dict.fromkeys(field.live, 0)
        self.stays: defaultdict[int, list[Stay]] = defaultdict(list)
        for generation in range(1, generations + 1):
            births, deaths = field.step()
            for cell in deaths:
                self.stays[cell].append((began.pop(cell), generation - 1))
            for cell in births:
                began[cell] = generation
        for cell, first in began.items():
            self.stays[cell].append((first, generations))

    def groups(self, move: int | None = None) -> list[Group]:
        """Returns the groups. If `move` is given, the last generation is the first one, moved by
        `move`. Then the pattern's generations are a cycle, and the last one is taken for the first
        one, so the groups are the same whichever generation is the first."""
        links = Links(sum(map(len, self.stays.values())))
        firsts, place = {}, 0
        for cell, stays in self.stays.items():
            firsts[cell] = place
            place += len(stays)
        for cell, stays in self.stays.items():
            for step in HALF_OF_NEAR:
                other = self.stays.get(cell + step)
                if other is not None:
                    for one, another in list_meetings(stays, other):
                        links.join(firsts[cell] + one, firsts[cell + step] + another)
            if move is not None and stays[-1][1] == self.last:
                links.join(firsts[cell] + len(stays) - 1, firsts[cell - move])
        found: defaultdict[int, Group] = defaultdict(Group)
        for cell, stays in self.stays.items():
            for place, stay in enumerate(stays, firsts[cell]):
                found[links.find(place)].stays.append((cell, stay))
        return list(found.values())


def list_meetings(ones: list[Stay], others: list[Stay]) -> Iterator[tuple[int, int]]:
    """Yields the indices of each pair of stays, one from each list, that overlap or that follow one
    another without a gap. Both lists are in ascending order."""
    one = other = 0
    while one < len(ones) and other < len(others):
        (begin, end), (other_begin, other_end) = ones[one], others[other]
        if begin <= other_end + 1 and other_begin <= end + 1:
            yield one, other
        if end < other_end:
            one += 1
        else:
            other += 1


class Links:
    """Numbers that are joined into sets (union-find)."""

    def __init__(self, count: int) -> None:
        self.parents = list(range(count))

    def find(self, number: int) -> int:
        """Returns the representative of the set that contains a number."""
        parents = self.parents
        while parents[number] != number:
            parents[number] = number = parents[parents[number]]
        return number

    def join(self, one: int, other: int) -> None:
        one, other = self.find(one), self.find(other)
        if one != other:
            self.parents[one] = other


def find_period(phases: list[set[int]]) -> tuple[int, int] | None:
    """Returns the number of generations after which the first phase recurs, and its move until
    then, or `None` if it doesn't recur."""
    for period, later in enumerate(phases[1:], 1):
        move = find_move(phases[0], later)
        if move is not None:
            return period, move
    return None


def run_alone(rule: Rule, cells: set[int], generations: int) -> Iterator[set[int]]:
    """Yields a pattern in generation 0 and in the following `generations` generations."""
    pattern = Field(rule, cells)
    yield set(pattern.live)
    for _ in range(generations):
        pattern.step()
        yield set(pattern.live)


def split_clusters(cells: set[int]) -> list[set[int]]:
    """Returns the clusters of a pattern, as defined in docs/PROFILE.md."""
    left, found = set(cells), []
    while left:
        reached = [left.pop()]
        cluster = set(reached)
        while reached:
            cell = reached.pop()
            for step in NEAR:
                if cell + step in left:
                    left.remove(cell + step)
                    cluster.add(cell + step)
                    reached.append(cell + step)
        found.append(cluster)
    return found
