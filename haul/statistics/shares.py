"""The exact interval of 95 % for a share: some of a number of soups have an object (Clopper and
Pearson 1934)."""

from __future__ import annotations

from functools import cache
from math import expm1, log, sqrt

from haul.statistics.incomplete_functions import compute_beta, compute_beta_density

TAIL = 0.025
# The quantile of the normal distribution for `TAIL`. With it, `find_beta_quantile` chooses where to
# start its search.
DEVIATIONS = 1.96
# The search ends at a step that is smaller than this, relative to the value.
NEAR = 1e-12
# The search ends after this many steps in any case.
MOST_STEPS = 100


def find_share_high(having: int, soups: int) -> float:
    """Returns the high end of the interval for the share of soups that have the object, or 1 if all
    soups have it. If each soup had the object with this probability, the chance that at most
    `having` of `soups` soups have it would be 2.5 %."""
    if having == soups:
        return 1.0
    if not having:
        return -expm1(log(TAIL) / soups)
    return find_beta_quantile(having + 1, soups - having, 1 - TAIL, DEVIATIONS)


def find_share_low(having: int, soups: int) -> float:
    """Returns the low end of the interval for the share of soups that have the object. If each soup
    had the object with this probability, the chance that at least `having` of `soups` soups have it
    would be 2.5 %."""
    if having == soups:
        return float(TAIL ** (1 / soups))
    return find_beta_quantile(having, soups - having + 1, TAIL, -DEVIATIONS)


@cache
def find_beta_quantile(a: int, b: int, chance: float, deviations: float) -> float:
    """Returns the argument at which the incomplete beta function has the value `chance`, found with
    Newton's method in a shrinking interval. The search starts `deviations` standard deviations
    above the mean."""
    low, high, mean = 0.0, 1.0, a / (a + b)
    x = mean + deviations * sqrt(mean * (1 - mean) / (a + b + 1))
    x = x if 0 < x < 1 else mean
    for _ in range(MOST_STEPS):
        over = compute_beta(a, b, x) - chance
        low, high = (low, x) if over > 0 else (x, high)
        slope = compute_beta_density(a, b, x)
        new = x - over / slope if slope else low
        new = new if low < new < high else (low + high) / 2
        if abs(new - x) <= NEAR * x:
            return new
        x = new
    return x
