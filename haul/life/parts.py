"""Separates pseudo-objects into the independent objects that they are made of.

docs/PROFILE.md has the definition. A bi-block, for example, is two blocks:

    OO.OO    the census counts it as one object, since only one column separates the blocks;
    OO.OO    run by itself, each block does the same as it does beside the other
"""

from __future__ import annotations

from dataclasses import dataclass

from haul.life import bitmaps, clusters, generations
from haul.life.apgcodes import find_code, read_wechsler
from haul.life.cells import Cells, move, move_to_corner
from haul.life.clusters import is_cluster
from haul.life.generations import MOST_PERIOD, Recurrence, Rule, find_recurrence
from haul.life.quick_parts import run_quickly
from haul.life.separations import Patterns, Separations
from haul.patterns.codes import read_drawing, read_kind

SETS = Patterns(
    generations.advance, clusters.find_islands, clusters.is_cluster, generations.find_shift
)
BITS = Patterns(bitmaps.advance, bitmaps.find_islands, bitmaps.is_cluster, bitmaps.find_move)


@dataclass(frozen=True)
class Separation:
    """The parts of an object."""

    # The codes of the parts, in ASCII order.
    parts: tuple[str, ...]
    # `False` if the object couldn't be separated. Then `parts` has only the object itself, even if
    # the object has several parts.
    is_separated: bool = True

    def is_strict(self) -> bool:
        return self.is_separated and len(self.parts) == 1


class Separator:
    """Separates the objects of a census under one rule."""

    def __init__(self, rule: Rule) -> None:
        self.rule = rule
        # The code of each known part. The key is the part, moved to the corner, as a set of cells
        # or as the bits of a number.
        self.known: dict[Cells | int, str] = {}

    def count_known(self) -> int:
        """Returns the number of remembered parts."""
        return len(self.known)

    def forget(self) -> None:
        """Forgets the codes of all parts."""
        self.known.clear()

    def separate(self, code: str) -> Separation:
        return self.separate_quickly(code) or self.separate_by_definition(code)

    def separate_quickly(self, code: str) -> Separation | None:
        """Returns the parts of an object, or `None` if they can't be found with bits."""
        run = run_quickly(self.rule, code)
        found = Separations(BITS, self.rule, run).find_largest() if run is not None else None
        if found is None:
            return None
        return choose([list(map(self.code_of_bits, parts)) for parts in found])

    def separate_by_definition(self, code: str) -> Separation:
        recurrence = read_object(self.rule, code)
        if recurrence is None:
            return Separation((code,), is_separated=False)
        phases = recurrence.phases
        run = [*phases, move(phases[0], recurrence.shift)]
        found = Separations(SETS, self.rule, run).find_largest()
        if found is None:
            return Separation((code,), is_separated=False)
        return choose([list(map(self.code, parts)) for parts in found])

    def code_of_bits(self, part: int) -> str:
        shape = bitmaps.shift_to_corner(part)
        if shape not in self.known:
            self.known[shape] = self.code(bitmaps.list_cells(shape))
        return self.known[shape]

    def code(self, part: Cells) -> str:
        shape = move_to_corner(part)
        if shape not in self.known:
            recurrence = find_recurrence(self.rule, shape)
            assert recurrence is not None
            self.known[shape] = find_code(recurrence)
        return self.known[shape]


def choose(found: list[list[str]]) -> Separation:
    """Returns the separation whose sorted codes come first in ASCII order."""
    return Separation(min(tuple(sorted(codes)) for codes in found))


def is_counted(rule: Rule, code: str) -> bool:
    """Checks whether a code draws an object that `census` counts, which is one cluster in some
    phase. Returns `False` for an `ov_` code, which draws no object."""
    recurrence = read_object(rule, code)
    return recurrence is not None and any(map(is_cluster, recurrence.phases))


def read_object(rule: Rule, code: str) -> Recurrence | None:
    """Returns the recurrence of the object that a code draws. The drawing is phase 0. Returns
    `None` if the code draws nothing, if its period is above `MOST_PERIOD`, or if the drawn pattern
    doesn't recur as the code's prefix says."""
    text, known = read_drawing(code), read_kind(code)
    cells = read_wechsler(text) if text is not None else None
    if known is None or cells is None or known.period() > MOST_PERIOD:
        return None
    recurrence = find_recurrence(rule, cells, known.period())
    if recurrence is None or recurrence.kind() != known.letter:
        return None
    return (
        recurrence
        if known.number == (len(cells) if known.letter == "s" else recurrence.period)
        else None
    )
