"""Asks `census` when soups settle, and computes how many live cells they have then."""

from __future__ import annotations

from dataclasses import dataclass
from functools import cache

from haul.census.client import Census
from haul.formats.haul import Job
from haul.life.generations import Rule, read_rule
from haul.life.parts import read_object
from haul.patterns.codes import is_large, read_kind

# The most soups in one call. Several calls run at a time.
SOUPS_IN_A_CALL = 100


@dataclass(frozen=True)
class End:
    """The checkpoint at which a soup has settled, and the number of live cells in the objects that
    it leaves.

    `census` doesn't report phases, so `least` and `most` differ if an object's number of cells
    depends on its phase.
    """

    generation: int
    least: int
    most: int


def find_ends(census: Census, job: Job, numbers: list[int]) -> dict[int, End]:
    """Returns the ends of these soups, except for soups that don't settle, or that leave an object
    whose number of cells isn't known."""
    rule = read_rule(job.rule)
    ends: dict[int, End] = {}
    for reports in census.ask_in_parts(
        lambda part: census.reports(job, part), numbers, SOUPS_IN_A_CALL, "soups run"
    ):
        for number, fields in reports.items():
            end = read_end(rule, fields)
            if end is not None:
                ends[number] = end
    return ends


def read_end(rule: Rule, fields: list[str]) -> End | None:
    """Reads the fields that follow the soup's number in a report line: either `unsettled`, or
    `at=`, `good=` and the objects with their counts. Returns `None` if the soup is unsettled, or if
    it leaves an object whose number of cells isn't known."""
    settled, *found = fields
    if not settled.startswith("at="):
        return None
    least = most = 0
    for code, count in (field.split("*") for field in found if "*" in field):
        sizes = list_populations(rule, code)
        if not sizes:
            return None
        least, most = least + min(sizes) * int(count), most + max(sizes) * int(count)
    return End(int(settled.removeprefix("at=")), least, most)


@cache
def list_populations(rule: Rule, code: str) -> frozenset[int]:
    """Returns the numbers of live cells that an object has in its phases, or an empty set if they
    aren't known."""
    known = read_kind(code)
    if is_large(code) and known is not None and known.letter == "s":
        return frozenset([known.number])
    recurrence = read_object(rule, code)
    return frozenset(map(len, recurrence.phases)) if recurrence else frozenset()
