"""Groups that recur, and whether a census would recognise them as objects. docs/HAUL-DETAILS.md has
the definitions."""

from __future__ import annotations

from collections import defaultdict
from dataclasses import dataclass, field

from haul.life.field import Field, find_move
from haul.life.generations import Rule
from haul.life.groups import find_period, run_alone, split_clusters


@dataclass
class Recurring:
    """A group that recurs: its phases, and how far it has moved when the first phase recurs."""

    phases: list[set[int]]
    move: int

    def period(self) -> int:
        return len(self.phases)

    def generation(self, number: int) -> set[int]:
        """Returns the group in a generation, counted from the first phase."""
        cycles, place = divmod(number, self.period())
        phase, move = self.phases[place], cycles * self.move
        return {cell + move for cell in phase} if move else phase


def find_recurring(rule: Rule, phases: list[set[int]], most: int) -> Recurring | None:
    """Returns how a group with these phases recurs, or `None` if it doesn't. If its first phase
    isn't among the others, it is run by itself for `most` generations. A group that has died, such
    as a spark, has a single phase without cells."""
    if not phases[0]:
        return Recurring([set()], 0)
    found = find_period(phases)
    if found is not None:
        period, move = found
        return Recurring(phases[:period], move)
    return find_late_recurrence(rule, phases[0], most)


def find_late_recurrence(rule: Rule, cells: set[int], most: int) -> Recurring | None:
    """Returns how a pattern recurs within `most` generations, or `None` if it doesn't."""
    pattern = Field(rule, cells)
    for period in range(1, most + 1):
        pattern.step()
        move = find_move(cells, pattern.live)
        if move is not None:
            return Recurring(list(run_alone(rule, cells, period - 1)), move)
    return None


@dataclass
class Recognition:
    """Decides whether a census would recognise a group as objects with periods of at most `most`
    generations."""

    rule: Rule
    one: Recurring
    most: int
    # For each phase, clusters that have a cell outside of the group later, when they are run alone.
    leaving: defaultdict[int, set[frozenset[int]]] = field(default_factory=lambda: defaultdict(set))

    def is_recognised(self) -> bool:
        """Checks whether, in one of the group's phases, each cluster recurs when it is run alone,
        and evolves alone as it does in the group."""
        for place, phase in enumerate(self.one.phases):
            clusters = split_clusters(phase)
            if len(clusters) == 1:
                if self.one.period() <= self.most:
                    return True
            elif self.leaving[place].isdisjoint(map(frozenset, clusters)) and all(
                self.recurs_in_group(place, cluster) for cluster in clusters
            ):
                if self.are_independent(place, clusters):
                    return True
        return False

    def recurs_in_group(self, place: int, cluster: set[int]) -> bool:
        """Checks whether a cluster of the phase at `place` recurs when it is run alone, and has only
        cells of the group until then."""
        alone, course = Field(self.rule, cluster), [frozenset(cluster)]
        for generation in range(1, self.most + 1):
            alone.step()
            if not alone.live <= self.one.generation(place + generation):
                # What the cluster becomes until then leaves the group, too.
                for later, live in enumerate(course[: self.one.period() - place], place):
                    self.leaving[later].add(live)
                return False
            if find_move(cluster, alone.live) is not None:
                return True
            course.append(frozenset(alone.live))
        return False

    def are_independent(self, place: int, clusters: list[set[int]]) -> bool:
        """Checks whether the clusters of the phase at `place`, each run alone, share no cell in any
        generation and together make up the group."""
        period = self.one.period()
        together: list[set[int]] = [set() for _ in range(period)]
        for cluster in clusters:
            for live, alone in zip(
                together, run_alone(self.rule, cluster, period - 1), strict=True
            ):
                if live & alone:
                    return False
                live |= alone
        return all(
            live == self.one.generation(place + later) for later, live in enumerate(together)
        )
