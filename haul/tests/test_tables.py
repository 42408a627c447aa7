"""Tables of one haul or of several hauls side by side, as text, as CSV and as JSON."""

from __future__ import annotations

import csv
import io
import json
import os
import sys
import tempfile
import unittest
from collections.abc import Callable
from fractions import Fraction
from itertools import permutations
from math import exp, fsum, lgamma, log, ulp
from pathlib import Path
from types import FrameType
from typing import Any
from unittest.mock import patch

from haul.rarity.reference import find_dispersion
from haul.statistics.equal_rates import compute_p_value
from haul.statistics.incomplete_functions import compute_gamma_tail
from haul.statistics.intervals import find_dispersed_interval, find_interval
from haul.tests.called import call, read_terminal, run
from haul.tests.made import QUICK_JOB, make_haul
from haul.views.compare import letter_hauls
from haul.views.layout import format_figure
from haul.views.rates import compute_rate

# The ends of the interval of 95 % for each count, from Garwood (1936).
GARWOOD = {
    0: (0, 3.689),
    1: (0.0253, 5.572),
    2: (0.242, 7.225),
    3: (0.619, 8.767),
    4: (1.090, 10.242),
    5: (1.623, 11.668),
    6: (2.202, 13.059),
    8: (3.454, 15.763),
    10: (4.795, 18.390),
    20: (12.217, 30.888),
}


def haul(rule: str, soups: int, totals: dict[str, int]) -> str:
    """Returns the text of a valid haul. Each code has one sample, whose number is the index of the
    code in the table."""
    rows = sorted(totals.items())
    lines = [
        "@VERSION 2",
        "@ROOT seed=x",
        f"@RULE {rule}",
        "@SYMMETRY C1",
        "@PROFILE 64 512 101 30300",
        f"@RANGE 0 {soups}",
        f"@NUM_SOUPS {soups}",
        "@NUM_UNSETTLED 1",
        "@NUM_FOR_GOOD 2",
        f"@NUM_OBJECTS {sum(totals.values())}",
        "",
        "@CENSUS TABLE",
    ]
    lines += [f"{code} {total}" for code, total in rows] + ["", "@SAMPLE_SOUPIDS"]
    return "".join(
        f"{line}\n" for line in lines + [f"{code} {place}" for place, (code, _) in enumerate(rows)]
    )


A = haul("b3s23", 1000, {"xs4_33": 500, "xp2_7": 20, "xq4_153": 3, "xs8_rr": 1})
B = haul("b36s23", 500, {"xs4_33": 1000, "xp2_7": 2, "xp15_4r4z4r4": 4})
C = haul("b3s12", 1000, {"xs4_33": 510, "xp2_7": 20, "ov_p123": 5})
JOBS = """\
A: seed=x rule=b3s23 profile=64,512,101,30300
A: 1000 soups, 1 unsettled, 2 for good, 524 objects
B: seed=x rule=b36s23 profile=64,512,101,30300
B: 500 soups, 1 unsettled, 2 for good, 1006 objects
"""


class Tables(unittest.TestCase):
    def setUp(self) -> None:
        self.folder = tempfile.TemporaryDirectory()
        self.addCleanup(self.folder.cleanup)
        for name, text in (("a", A), ("b", B), ("c", C)):
            Path(self.folder.name, name).write_text(text)

    def printed(self, command: str, *words: str) -> str:
        """Returns what a call prints. Whole objects are counted unless the arguments say
        otherwise."""
        whole = [] if {"--parts", "--strict", "--default"} & {*words} else ["--whole"]
        words = tuple(word for word in words if word != "--default")
        status, output, errors = run(
            command,
            *whole,
            *(os.path.join(self.folder.name, word) if word in "abclm" else word for word in words),
        )
        self.assertEqual((status, errors), (0, ""))
        return output


def exact_ends(total: int) -> tuple[float, float]:
    """Returns the ends of the interval of 95 %, found by bisection with sums of Poisson
    probabilities."""

    def mean_at(count: int, chance: float) -> float:
        low, high = 0.0, 2.0 * count + 20
        for _ in range(60):
            middle = (low + high) / 2
            terms = fsum(exp(k * log(middle) - middle - lgamma(k + 1)) for k in range(count))
            low, high = (middle, high) if terms > chance else (low, middle)
        return low

    return mean_at(total, 0.975) if total else 0.0, mean_at(total + 1, 0.025)


class Intervals(unittest.TestCase):
    def test_garwood(self) -> None:
        for total, (low, high) in GARWOOD.items():
            for found, known in zip(find_interval(total), (low, high), strict=True):
                self.assertLessEqual(
                    abs(found - known),
                    0.00051 if known > 1 or known == 0 else 0.000051 if known < 0.1 else 0.00051,
                )

    def test_both_tails_are_as_long(self) -> None:
        """Each tail has a probability of 2.5 %. The test computes the tails as sums of Poisson
        probabilities."""

        def up_to(count: int, mean: float) -> float:
            return fsum(exp(k * log(mean) - mean - lgamma(k + 1)) for k in range(count + 1))

        for total in (7, 29, 30, 31, 40, 100, 1000, 20000):
            low, high = find_interval(total)
            self.assertAlmostEqual(1 - up_to(total - 1, low), 0.025, places=6)
            self.assertAlmostEqual(up_to(total, high), 0.025, places=6)

    def test_large_totals(self) -> None:
        """For large totals, the Poisson distribution is nearly normal: on each side, 2.5 % are
        beyond 1.95996 standard deviations."""
        for total in (2**40, 2**53, 2**64 - 1):
            low, high = find_interval(total)
            self.assertAlmostEqual((total - low) / total**0.5, 1.95996, places=3)
            self.assertAlmostEqual((high - total) / total**0.5, 1.95996, places=3)

    def test_by_an_expansion(self) -> None:
        """The ends are quantiles of the gamma distribution. They differ from the expansion by
        Cornish and Fisher only by the error of this expansion."""
        deviations = 1.959963984540054

        def quantile(shape: int, z: float) -> float:
            root: float = shape**0.5
            return (
                shape
                + z * root
                + (z * z - 1) / 3
                + (z**3 - 7 * z) / (36 * root)
                - (3 * z**4 + 7 * z * z - 16) / (810 * shape)
            )

        for total in (
            31,
            50,
            1000,
            20000,
            10**6,
            10**8,
            10**9,
            2**33,
            2**36,
            2**40,
            2**46,
            2**53,
        ):
            low, high = find_interval(total)
            near = 0.05 / total**1.5 + 2 * ulp(total)
            self.assertAlmostEqual(low, quantile(total, -deviations), delta=near)
            self.assertAlmostEqual(high, quantile(total + 1, deviations), delta=near)

    def test_by_sums(self) -> None:
        """For totals below 30, both ends are exact. For other totals, they are correct to four
        decimal places."""
        for total in (*range(0, 12), 29, 30, 31, 32, 40, 60):
            for found, known in zip(find_interval(total), exact_ends(total), strict=True):
                self.assertAlmostEqual(found, known, delta=1e-9 if total < 30 else 2e-5)

    def test_figures(self) -> None:
        for number, shown in (
            (0, "0.00"),
            (0.001234, "0.00123"),
            (0.5, "0.5"),
            (0.999, "0.999"),
            (1, "1.00"),
            (1.5, "1.50"),
            (2, "2.00"),
            (1234.5, "1234.50"),
        ):
            self.assertEqual(format_figure(number), shown)

    def test_dispersed(self) -> None:
        """The count is divided by the dispersion, and Garwood's ends for the quotient are
        multiplied by the dispersion. If the quotient isn't a whole number, its ends are between
        those of the two nearest whole numbers."""
        for total in (0, 1, 7, 30, 31, 5000):
            self.assertEqual(find_dispersed_interval(total, 1), find_interval(total))
            low, high = find_dispersed_interval(4 * total, 4)
            self.assertEqual((low / 4, high / 4), find_interval(total))
        for total, spread in ((5, 2), (77, 12.2), (399, 12.2), (10, 3)):
            below, above = int(total / spread), int(total / spread) + 1
            ends = [end / spread for end in find_dispersed_interval(total, spread)]
            for end, least, most in zip(ends, find_interval(below), find_interval(above)):
                self.assertTrue(least < end < most)

    def test_dispersed_ends_have_their_chances(self) -> None:
        for total, spread in ((5, 2), (77, 12.2), (399, 12.2), (1000, 12.2), (123456, 12.2)):
            low, high = find_dispersed_interval(total, spread)
            count = total / spread
            for chance, wanted in (
                (compute_gamma_tail(count, low / spread), 0.975),
                (compute_gamma_tail(count + 1, high / spread), 0.025),
            ):
                self.assertAlmostEqual(chance, wanted, places=6)

    def test_time(self) -> None:
        """Computing an interval takes little time. The test counts the lines that are run, since a
        clock also depends on what else is running on the machine."""
        for total in (0, 10, 28, 29, 30, 31, 1000, 2**64 - 1):
            self.assertLess(lines_of(find_interval, total), 12_000)


def lines_of(function: Callable[[int], object], number: int) -> int:
    """Returns how many lines of Python the function runs for this number."""
    lines = 0

    def count(_frame: FrameType, event: str, _argument: Any) -> Any:
        nonlocal lines
        lines += event == "line"
        return count

    before = sys.gettrace()
    sys.settrace(count)
    try:
        function(number)
    finally:
        sys.settrace(before)
    return lines


class Rates(unittest.TestCase):
    """Each rate is the double nearest to the exact quotient, as computed with `Fraction`. It is
    printed in the shortest form from which the same double is read."""

    def test_each_is_the_nearest(self) -> None:
        self.assertEqual(
            [
                compute_rate(20_740, 20_000),
                compute_rate(647, 20_000),
                compute_rate(0, 5),
                compute_rate(5, 0),
            ],
            [1_037_000, 32_350, 0, 0],
        )
        for soups in (3, 7, 20_000, 999_983, 2**40 - 1):
            for total in (1, 2, 647, 20_740, 123_456_789, 2**53 + 1, 2**64 - 1):
                self.assertEqual(
                    compute_rate(total, soups), float(Fraction(total * 1_000_000, soups))
                )
                self.assertEqual(compute_rate(total, soups, 1), float(Fraction(total, soups)))

    def test_as_they_are_printed(self) -> None:
        with tempfile.TemporaryDirectory() as folder:
            Path(folder, "a").write_text(haul("b3s23", 20_000, {"xs4_33": 20_740, "xp2_7": 647}))
            Path(folder, "b").write_text(haul("b3s23", 3, {"xs4_33": 1, "xp2_7": 3}))
            self.assertEqual(
                [
                    row["per_million"]
                    for row in csv.DictReader(run("table", "--csv", f"{folder}/a")[1].splitlines())
                ],
                ["1037000.0", "32350.0"],
            )
            self.assertIn('"per_million": 32350.0,', run("table", "--json", f"{folder}/a")[1])
            rows = {
                row["code"]: row
                for row in csv.DictReader(
                    run("compare", "--csv", f"{folder}/a", f"{folder}/b")[1].splitlines()
                )
            }
        block = rows["xs4_33"]
        self.assertEqual(
            (block["per_million_a"], block["per_million_b"], block["ratio_b"]),
            ("1037000.0", repr(float(Fraction(10**6, 3))), repr(20_000 / 62_220)),
        )


class OfOne(Tables):
    def test_text(self) -> None:
        self.assertEqual(
            self.printed("table", "a"),
            """\
rank  code     total  per_million  one_in_at_most  samples  label
   1  xs4_33     500    500000.00               2  2        block
   2  xp2_7       20     20000.00              50  0        blinker
   3  xq4_153      3      3000.00             333  1        glider
   4  xs8_rr       1      1000.00            1000  3        bi-block
""",
        )
        # The bound is at least 1, although there are more blocks than soups.
        self.assertEqual(
            self.printed("table", "--top", "1", "b").splitlines()[1].split(),
            ["1", "xs4_33", "1000", "2000000.00", "1", "2", "block"],
        )

    def test_which_lines(self) -> None:
        def codes(*words: str) -> list[list[str]]:
            return [line.split()[:2] for line in self.printed("table", *words).splitlines()[1:]]

        self.assertEqual(
            codes("--rare", "a"),
            [["4", "xs8_rr"], ["3", "xq4_153"], ["2", "xp2_7"], ["1", "xs4_33"]],
        )
        self.assertEqual(codes("--rare", "--top", "2", "a"), [["4", "xs8_rr"], ["3", "xq4_153"]])
        self.assertEqual(
            codes("--top", "3", "a"), [["1", "xs4_33"], ["2", "xp2_7"], ["3", "xq4_153"]]
        )
        self.assertEqual(codes("--top", "0", "a"), [])
        self.assertEqual(codes("--kind", "s", "a"), [["1", "xs4_33"], ["4", "xs8_rr"]])
        self.assertEqual(codes("--kind", "p", "c"), [["2", "xp2_7"], ["3", "ov_p123"]])
        self.assertEqual(codes("--kind", "q", "a"), [["3", "xq4_153"]])
        self.assertEqual(codes("--period", "1", "a"), [["1", "xs4_33"], ["4", "xs8_rr"]])
        self.assertEqual(codes("--period", "15", "b"), [["2", "xp15_4r4z4r4"]])
        self.assertEqual(codes("--period", "123", "c"), [["3", "ov_p123"]])
        self.assertEqual(codes("--kind", "q", "--period", "2", "a"), [])
        self.assertEqual(codes("--kind", "pq", "a"), [["2", "xp2_7"], ["3", "xq4_153"]])
        self.assertEqual(codes("--period", "2+", "a"), [["2", "xp2_7"], ["3", "xq4_153"]])
        self.assertEqual(codes("--period", "3-15", "b"), [["2", "xp15_4r4z4r4"]])
        self.assertEqual(codes("--period", "3-14", "b"), [])
        for words in (
            ["--period", "8-3"],
            ["--period", "+"],
            ["--period", "3-"],
            ["--period", "-3"],
            ["--kind", ""],
            ["--kind", "pp"],
            ["--kind", "px"],
        ):
            self.assertEqual(run("table", *words)[0], 2, words)

    def test_codes_that_say_nothing(self) -> None:
        """A code without a known prefix has neither a kind nor a period."""
        text = haul("b3s23", 10, {"xs4_33": 3, "zz_1": 2, "y": 1}).encode()
        none: list[str] = []
        for words, codes in (
            (none, ["xs4_33", "zz_1", "y"]),
            (["--period=1"], ["xs4_33"]),
            (["--kind=s"], ["xs4_33"]),
        ):
            self.assertEqual(
                [line.split()[1] for line in run("table", *words, text=text)[1].splitlines()[1:]],
                codes,
            )

    def test_csv(self) -> None:
        rows = list(csv.DictReader(self.printed("table", "--csv", "a").splitlines()))
        self.assertEqual(
            rows[2],
            {
                "rank": "3",
                "code": "xq4_153",
                "total": "3",
                "per_million": "3000.0",
                "one_in_at_most": "333",
                "samples": "1",
                "label": "glider",
                "parts": "xq4_153",
                "strict": "yes",
                "separated": "yes",
                "by_parts": "no",
            },
        )
        self.assertEqual(len(rows), 4)
        self.assertEqual(
            list(csv.DictReader(self.printed("table", "--csv", "--kind", "p", "c").splitlines()))[
                1
            ]["label"],
            "oscillator of period 123",
        )

    def test_json(self) -> None:
        told = json.loads(self.printed("table", "--json", "a"))
        self.assertEqual(
            (told["rule"], told["soups"], told["unsettled"], told["for_good"], told["total"]),
            ("b3s23", 1000, 1, 2, 524),
        )
        self.assertEqual(
            told["objects"][2],
            {
                "rank": 3,
                "code": "xq4_153",
                "total": 3,
                "per_million": 3000.0,
                "one_in_at_most": 333,
                "samples": [1],
                "label": "glider",
                "parts": ["xq4_153"],
                "strict": True,
                "separated": True,
            },
        )
        self.assertEqual(
            json.loads(self.printed("table", "--json", "--top", "0", "a"))["objects"], []
        )

    def test_large_totals(self) -> None:
        """A number above 2^53 is a text in JSON."""
        text = haul(
            "b3s23", 2**40, {"xs4_33": 2**53, "xp2_7": 2**53 + 1, "xs8_rr": 2**63}
        ).encode()
        told = json.loads(run("table", "--whole", "--json", text=text)[1])
        self.assertEqual(
            [one["total"] for one in told["objects"]],
            ["9223372036854775808", "9007199254740993", 9007199254740992],
        )
        self.assertEqual(told["total"], "9241386435364257793")
        self.assertIn("9223372036854775808", run("table", "--whole", "--csv", text=text)[1])


class OfSeveral(Tables):
    def test_two(self) -> None:
        """Without further options there are no intervals and no stars."""
        self.assertEqual(
            self.printed("compare", "a", "b"),
            JOBS
            + """\
code          total_a  total_b  per_million_a  per_million_b  b_to_a  name
xs4_33            500     1000      500000.00     2000000.00    4.00  block
xp2_7              20        2       20000.00        4000.00    0.20  blinker
xp15_4r4z4r4        0        4           0.00        8000.00       -  pentadecathlon
xq4_153             3        0        3000.00           0.00    0.00  glider
xs8_rr              1        0        1000.00           0.00    0.00  bi-block
in A alone: xq4_153 xs8_rr; in B alone: xp15_4r4z4r4
""",
        )
        self.assertEqual(
            self.printed("compare", "--least", "4", "a", "b").splitlines()[5:],
            [
                "xs4_33            500     1000      500000.00     2000000.00    4.00  block",
                "xp2_7              20        2       20000.00        4000.00    0.20  blinker",
                "xp15_4r4z4r4        0        4           0.00        8000.00       -  pentadecathlon",
                "in A alone: none; in B alone: xp15_4r4z4r4",
            ],
        )
        self.assertEqual(
            self.printed("compare", "b", "a").splitlines()[5],
            "xs4_33           1000      500     2000000.00      500000.00    0.25  block",
        )

    def test_intervals(self) -> None:
        """The intervals are Garwood's for 20, 2, 3 and 0, per million soups."""
        rows = {
            row[0]: row
            for row in map(
                str.split, self.printed("compare", "--intervals", "a", "b").splitlines()[4:-2]
            )
        }
        for code, row in (
            (
                "code",
                "code total_a per_million_a interval_a total_b per_million_b interval_b b_to_a name",
            ),
            (
                "xp2_7",
                "xp2_7 20 20000.00 ~12216.52..30888.38 2 4000.00 ~484.42..14449.38 0.20 blinker",
            ),
            ("xq4_153", "xq4_153 3 3000.00 ~618.67..8767.27 0 0.00 ~0.00..7377.76 0.00 glider"),
        ):
            self.assertEqual(rows[code], row.split())
        self.assertEqual([code for code, row in rows.items() if row[6].endswith("*")], [])

    def test_stars(self) -> None:
        """If parts are counted under Life with the standard profile, a star marks a rate that
        differs significantly from the rate in A. The p-value that decides this is computed with the
        dispersion in the reference."""
        Path(self.folder.name, "l").write_text(haul("b3s23", 1000, {"xs4_33": 700, "xp2_7": 20}))
        Path(self.folder.name, "m").write_text(haul("b3s23", 500, {"xs4_33": 700, "xp2_7": 12}))
        lines = self.printed("compare", "--parts", "--intervals", "l", "m").splitlines()
        self.assertEqual(lines[-1], "intervals: 95 %; *: differs from A (p < 0.001)")
        self.assertEqual(lines[4].split()[-4:], ["one_in", "one_in_low", "one_in_high", "name"])
        self.assertEqual(lines[5].split()[-4:], ["1.10", "1.10", "1.10", "block"])
        stars = [line.split()[0] for line in lines if "*" in line and line is not lines[-1]]
        self.assertEqual(stars, ["xs4_33"])
        rows = csv.DictReader(self.printed("compare", "--parts", "--csv", "l", "m").splitlines())
        told = json.loads(self.printed("compare", "--parts", "--json", "l", "m"))["objects"]
        for row, one in zip(rows, told):
            spread = find_dispersion(row["code"])
            totals = int(row["total_a"]) / spread, int(row["total_b"]) / spread
            p_value = compute_p_value(totals[0], 1000, totals[1], 500)
            self.assertEqual((float(row["p"]), one["p_values"]), (p_value, [None, p_value]))
            self.assertEqual(
                (row["differs_b"], row["one_in"]),
                ("*" * (row["code"] == "xs4_33"), str(one["one_in"])),
            )
        self.assertNotIn("*", self.printed("compare", "--intervals", "l", "m"))

    def test_another_rule_beside_life(self) -> None:
        lines = self.printed("compare", "--parts", "--intervals", "a", "b").splitlines()
        self.assertEqual(lines[-1], "intervals: 95 %; ~: as if objects came singly")
        self.assertNotIn("one_in", lines[4])
        row = next(line.split() for line in lines if line.startswith("xp2_7"))
        self.assertFalse(row[3].startswith("~"))
        self.assertTrue(row[6].startswith("~"))

    def test_no_star_is_explained_if_there_is_none(self) -> None:
        """Rates are compared with those of A, so there is no star if A is under another rule."""
        lines = self.printed("compare", "--parts", "--intervals", "b", "a").splitlines()
        self.assertEqual(lines[-1], "intervals: 95 %; ~: as if objects came singly")

    def test_parts_are_the_default(self) -> None:
        forms: list[list[str]] = [[], ["--csv"], ["--json"]]
        for words in (["table", "a"], ["compare", "a", "c"]):
            for form in forms:
                printed = self.printed(words[0], "--default", *form, *words[1:])
                self.assertEqual(printed, self.printed(words[0], "--parts", *form, *words[1:]))
                self.assertNotEqual(printed, self.printed(words[0], *form, *words[1:]))
        for words in (
            ["table", "--strict", "--whole"],
            ["table", "--parts", "--whole"],
            ["table", "--parts", "--strict"],
            ["compare", "--parts", "--whole", "-", "-"],
        ):
            self.assertEqual(run(*words)[0], 2, words)

    def test_three(self) -> None:
        lines = self.printed("compare", "a", "b", "c").splitlines()
        self.assertEqual(lines[5], "C: 1000 soups, 1 unsettled, 2 for good, 535 objects")
        self.assertEqual(lines[6].split()[-3:], ["b_to_a", "c_to_a", "name"])
        self.assertEqual(
            [line.split()[0] for line in lines[7:-2]],
            ["xs4_33", "xp2_7", "xp15_4r4z4r4", "ov_p123", "xq4_153", "xs8_rr"],
        )
        self.assertEqual(lines[7].split()[-3:], ["4.00", "1.02", "block"])
        self.assertEqual(
            lines[-2], "in A alone: xq4_153 xs8_rr; in B alone: xp15_4r4z4r4; in C alone: ov_p123"
        )
        self.assertIn("as if objects came singly", lines[-1])

    def test_all_that_is_printed(self) -> None:
        """Checks all that is printed about three hauls in each order, with several options: facts,
        rates, intervals and ratios, and the codes that only one haul has."""
        names = {
            "xs4_33": "block",
            "xp2_7": "blinker",
            "xq4_153": "glider",
            "xs8_rr": "bi-block",
            "xp15_4r4z4r4": "pentadecathlon",
            "ov_p123": "not separated",
        }
        facts = {
            "a": (1000, {"xs4_33": 500, "xp2_7": 20, "xq4_153": 3, "xs8_rr": 1}),
            "b": (500, {"xs4_33": 1000, "xp2_7": 2, "xp15_4r4z4r4": 4}),
            "c": (1000, {"xs4_33": 510, "xp2_7": 20, "ov_p123": 5}),
        }
        rules = {"a": "b3s23", "b": "b36s23", "c": "b3s12"}
        ends = {total: exact_ends(total) for total in (0, 1, 2, 3, 4, 5, 20, 500, 510, 1000)}
        none: list[str] = []

        def shown(number: float) -> str:
            return f"{number:.2f}" if number >= 1 or number == 0 else f"{number:.3g}"

        for order in permutations("abc"):
            for words, least, unit in (
                (none, 1, 10**6),
                (["--per", "soup"], 1, 1),
                (["--least", "4"], 4, 10**6),
                (["--rare"], 1, 10**6),
            ):
                hauls = [facts[name] for name in order]
                best = {
                    code: max(totals.get(code, 0) / soups for soups, totals in hauls)
                    for _, totals in hauls
                    for code in totals
                    if any(other.get(code, 0) >= least for _, other in hauls)
                }
                codes = sorted(best, key=lambda code: (-best[code], code))
                if words == ["--rare"]:
                    codes = [code for code in codes[::-1] if code not in ("xs4_33", "xp2_7")]
                wanted = []
                for letter, name in zip("ABC", order):
                    soups, totals = facts[name]
                    wanted += [
                        f"{letter}: seed=x rule={rules[name]} profile=64,512,101,30300",
                        f"{letter}: {soups} soups, 1 unsettled, 2 for good, {sum(totals.values())} objects",
                    ]
                per = "soup" if unit == 1 else "million"
                wanted.append(
                    " ".join(
                        [
                            "code",
                            *(f"total_{x} per_{per}_{x} interval_{x}" for x in "abc"),
                            "b_to_a c_to_a name",
                        ]
                    )
                )
                for code in codes:
                    row, rates = [code], []
                    for soups, totals in hauls:
                        total = totals.get(code, 0)
                        low, high = (end / soups * unit for end in ends[total])
                        rates.append(total / soups)
                        row += [
                            str(total),
                            shown(total / soups * unit),
                            f"~{shown(low)}..{shown(high)}",
                        ]
                    row += [f"{rate / rates[0]:.2f}" if rates[0] else "-" for rate in rates[1:]]
                    row.append(names.get(code, "-"))
                    wanted.append(" ".join(row))
                has = {
                    x: [
                        code
                        for code in codes
                        if code in totals and sum(code in other for _, other in hauls) == 1
                    ]
                    for x, (_, totals) in zip("ABC", hauls)
                }
                wanted.append(
                    "; ".join(f"in {x} alone: {' '.join(has[x]) or 'none'}" for x in "ABC")
                )
                wanted.append("intervals: 95 %; ~: as if objects came singly")
                with self.subTest(order=order, words=words):
                    self.assertEqual(
                        [
                            " ".join(line.split())
                            for line in self.printed("compare", *words, *order).splitlines()
                        ],
                        wanted,
                    )

    def test_rare(self) -> None:
        lines = self.printed("compare", "--rare", "a", "b", "c").splitlines()
        self.assertEqual(
            [line.split()[0] for line in lines[7:-2]],
            ["xs8_rr", "xq4_153", "ov_p123", "xp15_4r4z4r4"],
        )

    def test_in_a_soup(self) -> None:
        lines = self.printed("compare", "--per", "soup", "a", "b").splitlines()
        self.assertIn("per_soup_a", lines[4])
        self.assertEqual(
            lines[6].split()[1:7],
            ["20", "0.02", "~0.0122..0.0309", "2", "0.004", "~0.000484..0.0144"],
        )

    def test_csv(self) -> None:
        rows = {
            row["code"]: row
            for row in csv.DictReader(self.printed("compare", "--csv", "a", "b", "c").splitlines())
        }
        self.assertEqual(len(rows), 6)
        block = rows["xs4_33"]
        self.assertEqual(
            [
                block[head]
                for head in "name rule_b soups_b total_b per_million_b ratio_b differs_b differs_c ratio_a".split()
            ],
            ["block", "b36s23", "500", "1000", "2000000.0", "4.0", "", "", ""],
        )
        self.assertAlmostEqual(float(rows["xp2_7"]["low_a"]), 12216.5, places=0)
        self.assertAlmostEqual(float(rows["xp2_7"]["high_a"]), 30888.4, places=0)
        self.assertEqual(rows["ov_p123"]["ratio_c"], "")
        # The CSV has everything that the text has.
        for letter, facts in (
            ("a", ["x", "b3s23", "64,512,101,30300", "1000", "1", "2", "524"]),
            ("b", ["x", "b36s23", "64,512,101,30300", "500", "1", "2", "1006"]),
        ):
            names = "seed rule profile soups unsettled for_good objects".split()
            for row in rows.values():
                self.assertEqual([row[f"{name}_{letter}"] for name in names], facts)
        alone = dict(xq4_153="A", xs8_rr="A", xp15_4r4z4r4="B", ov_p123="C")
        self.assertEqual({code: row["alone"] for code, row in rows.items() if row["alone"]}, alone)

    def test_json(self) -> None:
        told = json.loads(self.printed("compare", "--json", "a", "b", "c"))
        self.assertEqual(
            [one["alone"] for one in told["hauls"]],
            [["xq4_153", "xs8_rr"], ["xp15_4r4z4r4"], ["ov_p123"]],
        )
        self.assertEqual(
            [(one["haul"], one["rule"], one["soups"]) for one in told["hauls"]],
            [("A", "b3s23", 1000), ("B", "b36s23", 500), ("C", "b3s12", 1000)],
        )
        self.assertEqual(
            {
                one["code"]: one["name"]
                for one in told["objects"]
                if one["code"] in ("xp2_7", "ov_p123")
            },
            {"xp2_7": "blinker", "ov_p123": "oscillator of period 123"},
        )
        block = told["objects"][0]
        self.assertEqual(
            (block["code"], block["totals"], block["ratios"], block["differs"]),
            ("xs4_33", [500, 1000, 510], [None, 4.0, 1.02], [False, False, False]),
        )

    def test_how_many(self) -> None:
        self.assertEqual(
            len(json.loads(self.printed("compare", "--json", *["a"] * 16))["hauls"]), 16
        )
        status, output, errors = run("compare", *["-"] * 17)
        self.assertEqual((status, output), (2, ""))
        self.assertIn("more than 16 hauls", errors)
        self.assertIn("the following arguments are required: B\n", run("compare", "-")[2])
        self.assertEqual(run("compare", "--csv", "--json", "-", "-")[0], 2)

    def test_none_vanishes(self) -> None:
        """Sixteen hauls have sixteen letters. There is no letter for a seventeenth haul."""
        none = make_haul(ranges=[], job=QUICK_JOB)
        self.assertEqual(
            "".join(letter for letter, _ in letter_hauls([none] * 16)), "ABCDEFGHIJKLMNOP"
        )
        with self.assertRaises(ValueError):
            list(letter_hauls([none] * 17))

    def test_no_soup(self) -> None:
        none = (
            haul("b3s23", 1, {})
            .replace("@RANGE 0 1", "@RANGE 0 0")
            .replace("SOUPS 1", "SOUPS 0")
            .replace("SETTLED 1", "SETTLED 0")
            .replace("GOOD 2", "GOOD 0")
        )
        Path(self.folder.name, "c").write_text(none)
        self.assertEqual(
            self.printed("compare", "--intervals", "c", "a").splitlines()[5].split()[1:4],
            ["0", "0.00", "-"],
        )
        self.assertEqual(
            self.printed("compare", "a", "c").splitlines()[5].split()[1:-1],
            ["500", "0", "500000.00", "0.00", "0.00"],
        )


class Terminals(Tables):
    CODE = "xs40_" + "g" * 120

    def on_terminal(self, columns: int, *words: str) -> list[str]:
        """Returns the lines that are printed on a terminal with `columns` columns."""
        with patch.dict(os.environ, COLUMNS=str(columns)):
            said = read_terminal(
                lambda stdout: call(
                    (*words, "--whole"), io.BytesIO(), stdout, sys.stderr, self.folder.name
                )
            )
        return said.decode().replace("\r\n", "\n").splitlines()

    def test_long_codes_are_cut_there(self) -> None:
        Path(self.folder.name, "a").write_text(haul("b3s23", 10, {"xs4_33": 5, self.CODE: 7}))
        for words, head in (
            (["table", "a"], "rank"),
            (["compare", "a", "a"], "code"),
            (["compare", "--intervals", "a", "a"], "code"),
        ):
            with self.subTest(words=words):
                lines = self.on_terminal(140, *words)
                table = [
                    line
                    for line in lines
                    if line.startswith(head) or "xs4" in line and "alone" not in line
                ]
                self.assertEqual(len(table), 3)
                self.assertLessEqual(max(map(len, table)), 140)
                self.assertEqual(sum("…" in line for line in lines), 1)
                self.assertIn(self.CODE, self.printed(words[0], *words[1:]))

    def test_where_they_are_cut(self) -> None:
        """Nothing is cut if everything fits. Otherwise a code gets one column narrower for each
        column that the terminal lacks, down to eight columns, including the `…`."""
        code = "xs40_" + "g" * 20
        Path(self.folder.name, "a").write_text(haul("b3s23", 10, {"xs4_33": 5, code: 7}))
        for words in (["table", "a"], ["compare", "a", "a"]):
            printed = self.printed(words[0], *words[1:]).splitlines()
            width = max(len(line) for line in printed if "alone" not in line)
            self.assertEqual(self.on_terminal(width, *words), printed)
            for columns, shown in (
                (width - 1, code[:23] + "…"),
                (width - 2, code[:22] + "…"),
                (20, "xs40_gg…"),
            ):
                lines = self.on_terminal(columns, *words)
                self.assertEqual(
                    [line for line in lines if "…" in line],
                    [line for line in lines if f"{shown} " in line],
                )
                self.assertEqual(sum(shown in line for line in lines), 1)

    def test_short_ones_are_not(self) -> None:
        self.assertEqual(
            "\n".join(self.on_terminal(200, "table", "a")) + "\n", self.printed("table", "a")
        )


if __name__ == "__main__":
    unittest.main()
