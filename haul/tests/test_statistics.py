"""Exact intervals and the test of equal rates. SciPy is the judge, if Debian's Python has it."""

from __future__ import annotations

import json
import math
import subprocess
import unittest
from unittest.mock import patch

from haul.rarity.occurrence import Occurrence, format_one_in
from haul.statistics import shares
from haul.statistics.equal_rates import compute_p_value
from haul.statistics.incomplete_functions import compute_beta, compute_gamma_tail, evaluate
from haul.statistics.intervals import find_dispersed_interval, find_interval
from haul.statistics.shares import find_share_high, find_share_low

# Prints what SciPy says about the cases on standard input.
JUDGE = """\
import json, sys
from scipy.special import betainc, gammaincc
from scipy.stats import binom, binomtest, chi2
def interval(count):
    return [chi2.ppf(0.025, 2 * count) / 2 if count else 0.0, chi2.ppf(0.975, 2 * count + 2) / 2]
def share(having, of):
    return list(binomtest(having, of).proportion_ci(0.95, "exact"))
def equal(one, soups, other, others):
    tails = [binom(one + other, soups / (soups + others)), binom(one + other, others / (soups + others))]
    halves = [tail.sf(k) + tail.pmf(k) / 2 for tail, k in zip(tails, (one, other))]
    return min(1, 2 * min(halves))
ways = {"beta": betainc, "gamma": gammaincc, "interval": interval, "share": share, "equal": equal}
print(json.dumps([ways[way](*numbers) for way, numbers in json.load(sys.stdin)]))
"""
DEBIANS_PYTHON = "/usr/bin/python3"


def binomial_tail(least: int, trials: int, share: float) -> float:
    """Returns the probability of at least `least` successes in `trials` trials that succeed with
    probability `share`, as a sum."""
    return math.fsum(
        math.comb(trials, k) * share**k * (1 - share) ** (trials - k)
        for k in range(least, trials + 1)
    )


def poisson_below(count: int, mean: float) -> float:
    return math.fsum(math.exp(-mean) * mean**k / math.factorial(k) for k in range(count))


class Functions(unittest.TestCase):
    def near(self, value: float | None, wanted: float, within: float = 1e-9) -> None:
        assert value is not None
        self.assertLess(abs(value - wanted), within * max(abs(wanted), 1e-300), (value, wanted))

    def test_beta_of_whole_numbers(self) -> None:
        for trials, least in ((1, 1), (7, 3), (40, 12), (40, 40), (100, 55)):
            for share in (0.001, 0.3, 0.5, 0.72, 0.99):
                self.near(
                    compute_beta(least, trials - least + 1, share),
                    binomial_tail(least, trials, share),
                )

    def test_beta_of_other_numbers(self) -> None:
        """If both parameters are 1/2, the value is given by an arcsine. If one parameter is 1, the
        value is given by a power."""
        for x in (0.01, 0.3, 0.9):
            self.near(compute_beta(0.5, 0.5, x), 2 / math.pi * math.asin(math.sqrt(x)))
            self.near(compute_beta(2.7, 1, x), x**2.7)
            self.near(compute_beta(1, 3.3, x), 1 - (1 - x) ** 3.3)
        self.assertEqual((compute_beta(2, 3, 0), compute_beta(2, 3, 1)), (0, 1))

    def test_gamma(self) -> None:
        for count in (1, 2, 5, 17, 30):
            for mean in (0.01, 1, 4.5, 17, 60):
                self.near(compute_gamma_tail(count, mean), poisson_below(count, mean), 1e-8)
        for x in (0.1, 1, 1.6, 9):
            self.near(compute_gamma_tail(0.5, x), math.erfc(math.sqrt(x)))
            wanted = math.erfc(math.sqrt(x)) + 2 * math.sqrt(x / math.pi) * math.exp(-x)
            self.near(compute_gamma_tail(1.5, x), wanted)
        self.assertEqual(compute_gamma_tail(2, 0), 1)

    def test_fractions_with_a_denominator_of_0(self) -> None:
        """1 + 1/(1 + 1/(1 + ..)) is the golden ratio. The first fraction begins with 0. The second
        is 0 if it is cut off after its first term, and the third divides by 0 if it is cut off
        after its second term."""
        golden = (1 + math.sqrt(5)) / 2
        rest = [(1.0, 1.0)] * 100
        self.near(evaluate(iter(rest), 0.0), 1 / golden)
        self.near(evaluate(iter([(-1.0, 1.0), *rest])), 1 - 1 / golden)
        self.near(evaluate(iter([(2.0, 1.0), (-1.0, 1.0), *rest])), 1 + 2 / (1 - 1 / golden))

    def test_clopper_and_pearson(self) -> None:
        """The ends for 10 of 100 are those in statistical tables. At each end, the tail has a
        probability of 2.5 %."""
        self.assertEqual(
            (round(find_share_low(10, 100), 4), round(find_share_high(10, 100), 4)),
            (0.0490, 0.1762),
        )
        for having, soups in ((1, 1), (1, 2), (2, 3), (1, 5), (7, 8), (3, 8), (8, 8), (50, 90)):
            self.near(binomial_tail(having, soups, find_share_low(having, soups)), 0.025)
            if having < soups:
                high = find_share_high(having, soups)
                self.near(1 - binomial_tail(having + 1, soups, high), 0.025)
        self.assertEqual(find_share_high(7, 7), 1)

    def test_none_of_many(self) -> None:
        self.near(Occurrence(0, 1000).one_in_low(), 1 / (1 - 0.025 ** (1 / 1000)))
        self.assertIsNone(Occurrence(0, 1000).one_in())
        self.assertIsNone(Occurrence(0, 1000).one_in_high())

    def test_a_search_that_ends_early(self) -> None:
        """The search for a quantile returns the value that it has reached when it may take no more
        steps."""
        with patch.object(shares, "MOST_STEPS", 2):
            early = shares.find_beta_quantile.__wrapped__(4, 6, 0.025, -1.96)
        self.assertEqual(round(early, 1), 0.1)
        self.near(binomial_tail(4, 9, shares.find_beta_quantile(4, 6, 0.025, -1.96)), 0.025)

    def test_texts(self) -> None:
        """A number from 100 on is rounded to an integer."""
        for one_in, text in ((99.994, "99.99"), (100.0, "100"), (100.6, "101"), (1.1, "1.10")):
            self.assertEqual(format_one_in(one_in), text)

    def test_equal_rates(self) -> None:
        """The p-values are compared with sums of the binomial distribution."""
        for one, other, soups, others in (
            (5, 15, 100, 100),
            (0, 6, 10, 20),
            (9, 4, 7, 3),
            (6, 6, 100, 300),
        ):
            trials, share = one + other, soups / (soups + others)
            at_least = binomial_tail(one, trials, share)
            above = binomial_tail(one + 1, trials, share)
            up = (at_least + above) / 2
            wanted = min(1, 2 * min(up, 1 - up))
            self.near(compute_p_value(one, soups, other, others), wanted, 1e-8)
            self.near(compute_p_value(other, others, one, soups), wanted, 1e-8)
        self.assertEqual(compute_p_value(0, 5, 0, 7), 1)
        self.assertEqual(compute_p_value(4, 5, 4, 5), 1)
        self.assertIsNone(compute_p_value(0, 0, 3, 5))
        self.assertIsNone(compute_p_value(3, 5, 0, 0))


class Judged(unittest.TestCase):
    CASES: list[tuple[str, tuple[float, ...]]] = [
        *(
            ("beta", (a, b, x))
            for a in (0.5, 3, 40.5)
            for b in (0.7, 12)
            for x in (0.01, 0.3, 0.95)
        ),
        *(("gamma", (a, x)) for a in (0.5, 7, 29.5) for x in (0.2, 6, 45)),
        *(("interval", (count,)) for count in (0, 1, 7, 30, 31, 400, 12_345)),
        *(("share", (having, of)) for having, of in ((0, 9), (1, 9), (9, 9), (55, 10**8))),
        *(("equal", numbers) for numbers in ((5, 100, 15, 100), (0, 10, 6, 20), (90, 70, 40, 30))),
    ]

    def compute(self, way: str, numbers: tuple[float, ...]) -> float | tuple[float, float] | None:
        if way == "beta":
            return compute_beta(*numbers)
        if way == "gamma":
            return compute_gamma_tail(*numbers)
        whole = [int(number) for number in numbers]
        if way == "interval":
            self.assertEqual(find_interval(whole[0]), find_dispersed_interval(whole[0], 1.0))
            return find_interval(whole[0])
        if way == "share":
            return find_share_low(*whole) if whole[0] else 0.0, find_share_high(*whole)
        one, soups, other, others = whole
        return compute_p_value(one, soups, other, others)

    def test_scipy_says_the_same(self) -> None:
        ended = subprocess.run(
            [DEBIANS_PYTHON, "-c", JUDGE],
            input=json.dumps(self.CASES),
            capture_output=True,
            check=False,
            text=True,
        )
        if "No module named" in ended.stderr:
            self.skipTest("SciPy isn't installed")
        for (way, numbers), wanted in zip(self.CASES, json.loads(ended.stdout), strict=True):
            value = self.compute(way, numbers)
            pairs = zip(value, wanted) if isinstance(value, tuple) else [(value, wanted)]
            for one, other in pairs:
                assert one is not None
                # The intervals are shown with at most six digits.
                self.assertLess(abs(one - other), 1e-6 * abs(other) + 1e-12, (way, numbers))


if __name__ == "__main__":
    unittest.main()
