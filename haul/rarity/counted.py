"""Finds out whether `census` counts the objects of a code. Only then can the reference have
them."""

from __future__ import annotations

from functools import cache

from haul.life.generations import read_rule
from haul.life.parts import is_counted
from haul.patterns.codes import is_large, read_kind
from haul.patterns.rules import LIFE
from haul.rarity.occurrence import Occurrence
from haul.rarity.reference import find_occurrence, load_reference


@cache
def find_occurrence_of_counted(code: str) -> Occurrence | None:
    """Returns how often a code occurs in the reference. Returns `None` if `census` doesn't count
    objects with the code, because it never writes such a code, or because the object is several
    clusters in every phase, such as a queen bee shuttle."""
    if code in load_reference() or is_counted_under_life(code):
        return find_occurrence(code)
    return None


def is_counted_under_life(code: str) -> bool:
    if is_large(code):
        return read_kind(code) is not None
    return is_counted(read_rule(LIFE), code)
