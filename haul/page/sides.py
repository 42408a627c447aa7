"""The hauls of a page side by side, each counted both by objects and by parts."""

from __future__ import annotations

from dataclasses import dataclass, field
from functools import cached_property

from haul.census.client import Census
from haul.census.soup_ends import End, find_ends
from haul.formats.haul import SYMMETRY, Haul
from haul.hauls.by_parts import Objects
from haul.life.parts import Separation
from haul.terminal import Terminal
from haul.views.compare import Comparison, letter_hauls, rank_codes

# The most hauls on a page.
MOST_SIDES = 8


@dataclass
class Side:
    """One haul of a page."""

    letter: str
    objects: Objects
    # The same haul with each object replaced by its parts.
    by_parts: Haul
    # The end of each sample soup about which `census` was asked, or `None` if the end isn't known.
    ends: dict[int, End | None] = field(default_factory=dict)

    @property
    def haul(self) -> Haul:
        return self.objects.haul

    def has(self, code: str) -> bool:
        """Checks whether the haul has a code, either as an object or as a part of an object."""
        return code in self.haul.totals or code in self.by_parts.totals

    def separate(self, code: str) -> Separation:
        return self.objects.separate(code)

    def samples(self, code: str) -> list[int]:
        """Returns the samples of a code, both as an object and as a part."""
        return sorted({*self.haul.samples.get(code, []), *self.by_parts.samples.get(code, [])})

    def soups(self, codes: list[str]) -> list[int]:
        """Returns the samples of several codes, or no samples if the symmetry isn't C1, since
        `haul` can't make the soups of another symmetry."""
        if self.haul.job.symmetry != SYMMETRY:
            return []
        return sorted({number for code in codes for number in self.samples(code)})


@dataclass
class Sides:
    """The hauls of a page, and the codes that are on the page."""

    all: list[Side]
    # A code is on the page if some haul has at least this many objects or parts with the code.
    least: int
    # `census` is asked about the sample soups of at most this many codes.
    play: int
    # The codes of the objects and of the parts on the page, the most frequent first.
    codes: list[str]
    parts: list[str]

    @cached_property
    def known(self) -> list[str]:
        """The codes of the objects and of the parts on the page, each only once."""
        return list(dict.fromkeys([*self.codes, *self.parts]))

    def ask(self, census: Census) -> None:
        """Asks `census` at which checkpoints the sample soups of the first `play` codes settle. The
        codes of parts come before the codes of objects, since the page begins with parts."""
        asked = list(dict.fromkeys([*self.parts, *self.codes]))[: self.play]
        for side in self.all:
            numbers = side.soups(asked)
            ends = find_ends(census, side.haul.job, numbers)
            side.ends = {number: ends.get(number) for number in numbers}

    @cached_property
    def comparison(self) -> Comparison:
        """A comparison of the parts of all hauls."""
        return Comparison(
            [side.by_parts for side in self.all],
            [side.objects for side in self.all],
            self.known,
            by_parts=True,
        )

    @cached_property
    def has_rarity(self) -> bool:
        """Whether the reference has the rarity of the parts."""
        return self.comparison.has_rarity()

    def kinds(self) -> set[str]:
        """Returns the codes of all objects, whether they are on the page or not."""
        return set().union(*(side.haul.totals for side in self.all))

    def kinds_of_parts(self) -> set[str]:
        return set().union(*(side.by_parts.totals for side in self.all))

    def first_with(self, code: str) -> Side:
        return next(side for side in self.all if side.has(code))


def make_sides(hauls: list[Haul], least: int, play: int, terminal: Terminal) -> Sides:
    sides: list[Side] = []
    for letter, haul in letter_hauls(hauls):
        objects = Objects(haul, terminal)
        sides.append(Side(letter, objects, objects.by_parts()))
    parts = rank_for_page([side.by_parts for side in sides], least)
    return Sides(sides, least, play, rank_for_page(hauls, least), parts)


def rank_for_page(hauls: list[Haul], least: int) -> list[str]:
    """Returns the codes on the page, by descending rate. The codes of a single haul are ordered by
    total, since in a haul with objects but no soups all rates are 0."""
    codes = rank_codes(hauls, least)
    return sorted(codes, key=lambda code: -hauls[0].totals[code]) if len(hauls) == 1 else codes
