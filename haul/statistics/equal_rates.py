"""A two-sided test of whether two counts have the same rate."""

from __future__ import annotations

from haul.statistics.incomplete_functions import compute_beta

# A difference with a smaller p-value gets a star. A comparison has hundreds of rows, so a limit of
# 0.05 would star many of them by chance.
STARRED_BELOW = 0.001


def compute_p_value(one: float, soups: int, other: float, other_soups: int) -> float | None:
    """Returns the p-value of the counts `one` in `soups` soups and `other` in `other_soups` soups,
    or `None` if either number of soups is 0. The counts needn't be whole numbers. If the rates are
    equal, the first count has a binomial distribution, given the sum of both counts. The
    probability of exactly the first count is halved (mid-P)."""
    if not soups or not other_soups:
        return None
    if not one + other:
        return 1.0
    share = other_soups / (soups + other_soups)
    # The smaller of two probabilities, doubled: that the second count is below `other`, and that it
    # is above, each plus half of the probability that it is exactly `other`.
    return min(1.0, 2 * min(compute_tail(one, other, 1 - share), compute_tail(other, one, share)))


def compute_tail(more: float, fewer: float, share: float) -> float:
    """Returns the probability of more than `more` successes in `more + fewer` trials that succeed
    with probability `share`, plus half of the probability of exactly `more`."""
    at_least = compute_beta(more, fewer + 1, share) if more else 1.0
    above = compute_beta(more + 1, fewer, share) if fewer else 0.0
    return (at_least + above) / 2
