"""Confidence intervals of counts: the exact interval of 95 % for a Poisson count (Garwood 1936).

A count has a Poisson distribution if events occur one by one. Objects don't: a soup often leaves
several of the same kind. So `find_dispersed_interval` also takes the dispersion of the kind into
account: the variance of the number of its objects in a soup, divided by the mean of that number.
The reference census (`haul.rarity.reference`) has the dispersions for Life with the standard
profile.

The low end is the mean for which a count at least as high as the given one has a probability of
2.5 %. The high end is the mean for which a count at most as high as the given one has this
probability. Both are found by bisection.
"""

from __future__ import annotations

from collections.abc import Callable
from math import erfc, exp, log1p, pi, sqrt

from haul.statistics.incomplete_functions import compute_gamma_tail

TAIL = 0.025
# After this many steps a double no longer changes.
STEPS = 60
# Up to this count the probability is computed exactly. Above it, two terms of an expansion give
# more than six digits.
MOST_TERMS = 30
# For counts above `MOST_TERMS`, both ends are within this many standard deviations of the count.
DEVIATIONS = 5


def find_interval(total: int) -> tuple[float, float]:
    """Returns the low and the high end of the interval for a count."""
    low = find_mean(total, 1 - TAIL) if total else 0.0
    return low, find_mean(total + 1, TAIL)


def find_dispersed_interval(total: int, dispersion: float) -> tuple[float, float]:
    """Returns the ends of the interval for a count whose variance is `dispersion` times its mean.
    They are computed for the count divided by `dispersion`, which needn't be a whole number, and
    then multiplied by `dispersion`."""
    count = total / dispersion
    low = find_mean(count, 1 - TAIL) if total else 0.0
    return low * dispersion, find_mean(count + 1, TAIL) * dispersion


def find_mean(count: float, chance: float) -> float:
    """Returns the mean at which the probability of fewer than `count` events is `chance`."""
    if count <= MOST_TERMS:
        return bisect(lambda mean: find_chance(count, mean), chance, 0.0, 2.0 * MOST_TERMS)
    # Bisects the relative distance between the mean and the count. This distance is small, so a
    # double has more digits for it than for the mean.
    most = DEVIATIONS / sqrt(count)
    return count * (1 + bisect(lambda apart: expand(count, apart), chance, -most, most))


def bisect(falls: Callable[[float], float], wanted: float, low: float, high: float) -> float:
    """Returns the argument between `low` and `high` at which the decreasing function `falls` has
    the value `wanted`."""
    for _ in range(STEPS):
        middle = (low + high) / 2
        if falls(middle) > wanted:
            low = middle
        else:
            high = middle
    return (low + high) / 2


def find_chance(count: float, mean: float) -> float:
    """Returns the probability of fewer than `count` events."""
    if count == int(count):
        return sum_terms(int(count), mean)
    return compute_gamma_tail(count, mean)


def sum_terms(count: int, mean: float) -> float:
    """Returns the probability of fewer than `count` events as a sum of terms."""
    term = chance = exp(-mean)
    for number in range(1, count):
        term *= mean / number
        chance += term
    return chance


def expand(count: float, apart: float) -> float:
    """Returns the probability of fewer than `count` events if the mean is `count * (1 + apart)`,
    with Temme's expansion of the incomplete gamma function: the NIST Digital Library of
    Mathematical Functions, 8.12.4."""
    if abs(apart) < 1e-4:
        # The difference `apart - log1p(apart)` would lose most of its digits here.
        half_square = apart * apart * (1 / 2 - apart * (1 / 3 - apart / 4))
    else:
        half_square = apart - log1p(apart)
    eta = sqrt(2 * half_square) if apart > 0 else -sqrt(2 * half_square)
    first = -1 / 3 + eta * (1 / 12 + eta * (-2 / 135 + eta * (1 / 864 + eta / 2835)))
    second = (-1 / 540 - eta / 288) / count
    return erfc(eta * sqrt(count / 2)) / 2 + exp(-count * half_square) / sqrt(2 * pi * count) * (
        first + second
    )
