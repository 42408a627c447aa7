"""Life-like rules on sets of cells: generations, and patterns that recur.

These are the definitions of docs/PROFILE.md in plain code. They aren't proved, but the tests
compare them with `census`.
"""

from __future__ import annotations

from collections import Counter
from dataclasses import dataclass
from itertools import chain

from haul.life.cells import Cell, Cells, fits_in, move
from haul.patterns.plaintext import SIDE

# The longest period of an object in any census.
MOST_PERIOD = 64


@dataclass(frozen=True)
class Rule:
    """The numbers of live neighbours with which a cell is born, and with which it survives."""

    births: frozenset[int]
    survivals: frozenset[int]


@dataclass(frozen=True)
class Recurrence:
    """How a pattern recurs: after `period` generations it is the same, moved by `shift`."""

    period: int
    shift: Cell
    # The pattern in generations 0 to `period - 1`. The phases of a spaceship aren't moved back.
    phases: list[Cells]

    def kind(self) -> str:
        """Returns `s` for a still life, `p` for an oscillator, or `q` for a spaceship."""
        return "q" if self.shift != (0, 0) else "s" if self.period == 1 else "p"


def read_rule(option: str) -> Rule:
    """Reads a rule such as `b3s23`."""
    births, survivals = (frozenset(map(int, digits)) for digits in option[1:].split("s"))
    return Rule(births, survivals)


def list_neighbours(cell: Cell) -> tuple[Cell, ...]:
    """Returns the eight neighbours of a cell."""
    x, y = cell
    return (
        (x - 1, y - 1),
        (x, y - 1),
        (x + 1, y - 1),
        (x - 1, y),
        (x + 1, y),
        (x - 1, y + 1),
        (x, y + 1),
        (x + 1, y + 1),
    )


def advance(rule: Rule, cells: Cells) -> Cells:
    births, survivals = rule.births, rule.survivals
    live = Counter(chain.from_iterable(map(list_neighbours, cells)))
    later = [
        cell for cell, count in live.items() if count in (survivals if cell in cells else births)
    ]
    if 0 in survivals:
        later += cells.difference(live)
    return frozenset(later)


def find_recurrence(rule: Rule, cells: Cells, most: int = MOST_PERIOD) -> Recurrence | None:
    """Returns how a pattern recurs within `most` generations. Returns `None` if it doesn't, or if
    it has more than `SIDE` columns or rows before it recurs."""
    phases = [cells]
    while len(phases) <= most and phases[-1] and fits_in(phases[-1], SIDE):
        later = advance(rule, phases[-1])
        shift = find_shift(cells, later)
        if shift is not None:
            return Recurrence(len(phases), shift, phases)
        phases.append(later)
    return None


def find_shift(one: Cells, other: Cells) -> Cell | None:
    """Returns the shift that takes one pattern to the other, or `None` if there is none."""
    if one == other:
        return 0, 0
    if len(one) != len(other):
        return None
    (x, y), (later_x, later_y) = min(one), min(other)
    shift = later_x - x, later_y - y
    return shift if move(one, shift) == other else None
