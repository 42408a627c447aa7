"""Shuttles: oscillators in which something moves there and back between objects that turn it. The
objects can be others, or stand elsewhere, so a shuttle is recognised by what moves."""

from __future__ import annotations

from collections import Counter
from collections.abc import Iterable, Iterator
from dataclasses import dataclass
from functools import cached_property

from haul.life.apgcodes import find_code, list_orientations
from haul.life.cells import read_rle_cells
from haul.life.field import pack, unpack_all
from haul.life.generations import Rule, find_recurrence
from haul.life.groups import split_clusters
from haul.names.objects import find_own_name
from haul.plurals import pluralize

# A cluster of live cells.
Cluster = frozenset[int]


@dataclass(frozen=True)
class Shuttle:
    """What moves there and back: its name, its period, and its cells on the way there, and half a
    period later on the way back."""

    name: str
    period: int
    there: str
    back: str

    @cached_property
    def views(self) -> list[tuple[list[Cluster], list[Cluster]]]:
        """The clusters on the way there and on the way back, in all orientations."""
        there, back = (read_rle_cells(rle) for rle in (self.there, self.back))
        return [
            (list_clusters(map(pack, one)), list_clusters(map(pack, other)))
            for one, other in zip(list_orientations(there), list_orientations(back), strict=True)
        ]


# Both are seen halfway between the objects at their ends.
SHUTTLES = (
    Shuttle(
        "queen bee shuttle",
        30,
        "11bo$11bobo$14b2o$14b2o$14b2o$11bobo$11bo!",
        "10bo$8bobo$6b2o$6b2o$6b2o$8bobo$10bo!",
    ),
    Shuttle(
        "twin bees shuttle",
        46,
        "17b2o$17bobo$19bo$17b3o4$17b3o$19bo$17bobo$17b2o!",
        "10b2o$9bobo$9bo$9b3o4$9b3o$9bo$9bobo$10b2o!",
    ),
)


def describe_shuttle(rule: Rule, phases: list[set[int]]) -> str | None:
    """Returns the name of the shuttle that an object with these phases is, and what stands beside
    it, such as `queen bee shuttle, with blocks`. Returns `None` if there is no known shuttle."""
    for shuttle in SHUTTLES:
        if len(phases) % shuttle.period == 0:
            found = list(find_moving(shuttle, [set(list_clusters(phase)) for phase in phases]))
            if found:
                several = f"{len(found)} {shuttle.name}s" if len(found) > 1 else shuttle.name
                beside = name_still_lifes(rule, found[0])
                return f"{several}, with {beside}" if beside else several
    return None


def find_moving(shuttle: Shuttle, phases: list[set[Cluster]]) -> Iterator[set[Cluster]]:
    """Finds each thing that moves in an object as in a shuttle. Yields the clusters of the object
    that stand beside it, both on its way there and on its way back. `phases` has the clusters of
    each phase."""
    found: set[tuple[int, Cluster]] = set()
    half = shuttle.period // 2
    for place, phase in enumerate(phases):
        later = phases[(place + half) % len(phases)]
        for there, back in shuttle.views:
            for move in list_moves(there[0], phase):
                moving = move_all(there, move)
                if moving <= phase and move_all(back, move) <= later:
                    whole = frozenset().union(*moving)
                    if (place % shuttle.period, whole) not in found:
                        yield phase & later
                    found.add((place % shuttle.period, whole))
                    on_way_back = frozenset().union(*move_all(back, move))
                    found.add(((place + half) % shuttle.period, on_way_back))


def list_moves(cluster: Cluster, phase: set[Cluster]) -> Iterator[int]:
    """Yields each move that takes a cluster to one of the phase."""
    for other in phase:
        move = min(other) - min(cluster)
        if len(other) == len(cluster) and {cell + move for cell in cluster} == other:
            yield move


def move_all(clusters: list[Cluster], move: int) -> set[Cluster]:
    return {frozenset(cell + move for cell in cluster) for cluster in clusters}


def name_still_lifes(rule: Rule, clusters: set[Cluster]) -> str:
    """Returns the names of the still lifes among some clusters, such as `a block and an eater 1`."""
    codes: Counter[str] = Counter()
    for cluster in clusters:
        recurrence = find_recurrence(rule, unpack_all(cluster), 1)
        if recurrence is not None:
            codes[find_code(recurrence)] += 1
    return " and ".join(name_several(code, count) for code, count in sorted(codes.items()))


def name_several(code: str, count: int) -> str:
    name = find_own_name(code) or code
    if count == 1:
        return f"{'an' if name[0] in 'aeiou' else 'a'} {name}"
    return pluralize(count, name)


def list_clusters(cells: Iterable[int]) -> list[Cluster]:
    return [frozenset(cluster) for cluster in split_clusters(set(cells))]
