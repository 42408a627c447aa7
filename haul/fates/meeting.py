"""Finds the generation in which two groups of a pattern meet."""

from __future__ import annotations

from haul.life.field import NEAR, NEIGHBOURS, Change, Field
from haul.life.groups import Group


def find_meeting(field: Field, groups: list[Group], first: int, last: int) -> int | None:
    """Advances a pattern, which is at generation `first`, up to generation `last`. Returns the
    first generation in which two groups are near one another, or `None` if there is none."""
    owners = {
        cell: number
        for number, group in enumerate(groups)
        for cell, (_, end) in group.stays
        if end == first
    }
    for generation in range(first + 1, last + 1):
        if not pass_on(owners, field.step()):
            return generation
    return None


def pass_on(owners: dict[int, int], change: Change) -> bool:
    """Assigns each newborn cell to the group of its parents. Returns `False` if a newborn cell is
    near another group, otherwise `True`."""
    born = {
        cell: next(owners[cell + step] for step in NEIGHBOURS if cell + step in owners)
        for cell in change.births
    }
    for cell in change.deaths:
        del owners[cell]
    owners.update(born)
    return all(
        owners.get(cell + step, owner) == owner for cell, owner in born.items() for step in NEAR
    )
