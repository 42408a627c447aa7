"""Checks a haul of apgsearch: either its samples, one by one, or its totals, by comparing them with
a census of the same number of soups."""

from __future__ import annotations

from collections.abc import Iterator
from dataclasses import replace

from haul.census.client import Census
from haul.formats.haul import NUMBER_LIMIT, SYMMETRY, Haul
from haul.formats.syntax import SEED
from haul.hauls.by_parts import Objects
from haul.hauls.check import find_codes_left, retake
from haul.life.generations import read_rule
from haul.life.parts import Separator, is_counted, read_object
from haul.patterns.codes import is_large
from haul.plurals import pluralize

LINEAR_GROWTH = "linear growth isn't counted here"
FALLS_APART = "it is several clusters in every phase"
NO_CODE = "census has no such code"
# Why the samples of a code aren't checked.
NOT_COUNTED = "census doesn't count such objects"
NOT_DRAWN = "such a code doesn't draw its object"


class CantCheck(Exception):
    """Raised if a haul of apgsearch can't be checked. Gives the reason."""


def refuse_unchecked(haul: Haul) -> None:
    """Raises `CantCheck` if `census` can't run the soups of a haul."""
    if haul.job.symmetry != SYMMETRY:
        raise CantCheck(f"the symmetry is {haul.job.symmetry}, and census runs {SYMMETRY} only")
    if not SEED.fullmatch(f"seed={haul.job.seed}".encode("ascii")):
        raise CantCheck("the seed is longer than 64 bytes")


class ApgsearchCheck:
    """A check of one haul of apgsearch."""

    def __init__(self, census: Census, haul: Haul) -> None:
        refuse_unchecked(haul)
        self.census = census
        self.haul = haul
        self.rule = read_rule(haul.job.rule)

    def find_wrong_samples(self) -> Iterator[str]:
        """Yields a message for each sample whose soup leaves no part with the sample's code. Skips
        the codes that `list_unchecked` returns."""
        known = self.choose_known()
        left = find_codes_left(self.census, known)
        separator = Separator(self.rule)
        parts = {
            number: {part for code in codes for part in separator.separate(code).parts}
            for number, codes in left.items()
        }
        for code, numbers in known.samples.items():
            for number in numbers:
                if code not in parts[number]:
                    yield f"{code}: soup {number} leaves no such part"

    def choose_known(self) -> Haul:
        """Returns the haul with only the samples that can be checked."""
        samples = {
            code: numbers for code, numbers in self.haul.samples.items() if self.is_known(code)
        }
        return replace(self.haul, samples=samples)

    def list_unchecked(self) -> dict[str, list[str]]:
        """Returns the codes whose samples aren't checked, by the reason."""
        unchecked = [code for code in self.haul.samples if not self.is_known(code)]
        reasons = {
            NOT_COUNTED: [code for code in unchecked if not is_large(code)],
            NOT_DRAWN: [code for code in unchecked if is_large(code)],
        }
        return {reason: codes for reason, codes in reasons.items() if codes}

    def find_other_totals(self, first: int) -> Iterator[str]:
        """Takes the census of as many soups as the haul has, from soup `first` on. Yields a message
        for each code whose total by parts differs, with the reason if it is known. Raises
        `CantCheck` if `census` can't run soups with such high numbers."""
        if first + self.haul.soups > NUMBER_LIMIT:
            raise CantCheck("census can't run so many soups")
        job = self.haul.job
        ranges = [(first, self.haul.soups)] if self.haul.soups else []
        taken = retake(self.census, Haul(job, ranges=ranges))
        here = Objects(taken, self.census.terminal).by_parts().totals
        for code in sorted(self.haul.totals.keys() | here.keys()):
            there = self.haul.totals.get(code, 0)
            if there != here.get(code, 0):
                reason = self.find_reason(code, taken.unsettled)
                yield f"{code}: {there}, and {here.get(code, 0)} here" + (
                    f" ({reason})" if reason else ""
                )

    def is_known(self, code: str) -> bool:
        """Checks whether a code draws an object that `census` counts. An `ov_` code draws none."""
        return is_counted(self.rule, code)

    def find_reason(self, code: str, unsettled: int) -> str:
        """Returns why the two totals of a code may differ, or an empty text if no reason is
        known."""
        if code.startswith("yl"):
            return LINEAR_GROWTH
        if not is_large(code) and not self.is_known(code):
            return FALLS_APART if read_object(self.rule, code) else NO_CODE
        return f"{unsettled} {pluralize(unsettled, 'soup')} unsettled here" if unsettled else ""
