"""Rates of objects in soups."""

from __future__ import annotations

MILLION = 1_000_000


def compute_rate(total: int, soups: int, per: int = MILLION) -> float:
    """Returns the number of objects per `per` soups, as the double nearest to the exact quotient,
    or 0 if there are no soups."""
    return total * per / soups if soups else 0.0


def bound_rarity(soups: int, total: int) -> int:
    """Returns N such that at most one soup in N has an object that occurs `total` times in `soups`
    soups. A haul doesn't record how many soups have the object, so only this bound is known."""
    return max(1, soups // total)
