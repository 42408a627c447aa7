"""Tests of the exact output for hauls that are made by hand. They notice a mistake in any number,
row or word."""

from __future__ import annotations

import io
import os
import random
import re
import tempfile
import unittest
from pathlib import Path

from haul.census.command_lines import split_ranges
from haul.formats.haul import Haul, Range
from haul.formats.haul_reader import read_one_haul
from haul.hauls.by_parts import Objects
from haul.tests.called import QUIET, census, run
from haul.tests.drawn import any_haul, text_of
from haul.tests.made import make_haul
from haul.tests.pages import page, table_of
from haul.views.compare import Comparison, rank_codes

NOTES = '#!/bin/sh\necho "$@" >> asked\nexit 4\n'


def drawn(path: str) -> set[tuple[int, int]]:
    """Returns the cells that a path draws. The path moves a pen, and draws a line for each run of
    cells."""
    cells: set[tuple[int, int]] = set()
    x = y = 0.0
    for name, first, second in re.findall(r"([Mmh])(-?[\d.]+)(?: (-?[\d.]+))?", path):
        if name == "M":
            x, y = float(first), float(second)
        elif name == "m":
            x, y = x + float(first), y + float(second)
        else:
            cells |= {(int(x) + k, int(y - 0.5)) for k in range(int(first))}
            x += int(first)
    return cells


def cells_of(plaintext: str) -> set[tuple[int, int]]:
    return {
        (x, y)
        for y, row in enumerate(plaintext.splitlines())
        for x, cell in enumerate(row)
        if cell == "O"
    }


class Codes(unittest.TestCase):
    def test_each_length(self) -> None:
        """Codes have 1 to 400 bytes, and up to three numbers of thirteen digits may follow a
        code."""
        numbers = [2**40 - 3, 2**40 - 2, 2**40 - 1]
        for length in (1, 2, 99, 100, 101, 255, 256, 299, 300, 301, 399, 400):
            with self.subTest(length=length):
                code = "x" * length
                text = text_of(make_haul({code: 3}, [(2**40 - 3, 3)], samples={code: numbers}))
                self.assertEqual(run("join", text=text.encode()), (0, text, ""))
                # The second haul also has a large total and a second range.
                text = text_of(
                    make_haul({code: 2**63}, [(0, 1), (2**40 - 3, 3)], samples={code: numbers})
                )
                self.assertEqual(run("join", text=text.encode()), (0, text, ""))
        text = text_of(make_haul({"x" * 401: 3}, [(0, 3)]))
        self.assertEqual(
            run("join", text=text.encode()), (3, "", "haul: bad haul at line 13 column 1\n")
        )

    def test_none_is_lost(self) -> None:
        """Each code has a row with its total and its number of live cells. Each character after
        `xs4_`, except `z`, stands for a column, which has as many live cells as the character's
        value has ones in binary.
        """
        for count in (1, 99, 100, 101, 201):
            with self.subTest(count=count):
                codes = [
                    f"xs4_{digit}{other}z1"
                    for digit in "123456789abcdefghijk"
                    for other in "123456789abc"
                ][:count]
                known = {code: 2 + k for k, code in enumerate(codes)}
                rows = table_of(
                    page(
                        make_haul(
                            known,
                            [(0, 300)],
                            samples={code: [k] for k, code in enumerate(sorted(codes))},
                        )
                    )
                ).rows
                self.assertEqual(
                    {row.cells[1].split()[-1]: row.cells[4] for row in rows},
                    {code: str(total) for code, total in known.items()},
                )
                value = "0123456789abcdefghijklmnopqrstuv"
                self.assertEqual(
                    [row.cells[3] for row in rows],
                    [
                        str(
                            sum(
                                bin(value.index(digit)).count("1")
                                for digit in row.cells[1].split()[-1][4:6]
                            )
                            + 1
                        )
                        for row in rows
                    ],
                )
                self.assertEqual([len(row.paths) for row in rows], [1] * count)


class Checks(unittest.TestCase):
    TEXT = census("take", "--count", "40").decode()

    def test_each_line_of_the_header(self) -> None:
        for line, is_so, should_be in (
            (8, "@NUM_UNSETTLED 1", "@NUM_UNSETTLED 0"),
            (9, "@NUM_FOR_GOOD 13", "@NUM_FOR_GOOD 14"),
        ):
            changed = self.TEXT.replace(should_be, is_so)
            self.assertEqual(
                run("check", text=changed.encode()),
                (7, f"line {line}: is {is_so}, should be {should_be}\n", ""),
            )

    def test_each_sample(self) -> None:
        """Only one of the forty soups leaves a beacon. This soup is the last, the middle or the
        first sample."""
        haul = read_one_haul(io.BytesIO(self.TEXT.encode()))
        code = "xp2_318c"
        self.assertEqual(haul.samples[code], [37])
        haul.totals[code] = 3
        line = haul.first_sample_line() + list(haul.samples).index(code)
        for numbers in ([2, 3, 37], [2, 37, 38], [37, 38, 39]):
            haul.samples[code] = numbers
            wanted = "".join(
                f"line {line}: soup {number} leaves no {code}\n"
                for number in numbers
                if number != 37
            )
            self.assertEqual(
                run("check", "--samples", text=text_of(haul).encode()), (7, wanted, "")
            )

    def asked(self, haul: Haul, *words: str) -> list[str]:
        """Returns the calls of a census program that fails at once."""
        with tempfile.TemporaryDirectory() as folder:
            Path(folder, "other").write_text(NOTES)
            Path(folder, "other").chmod(0o755)
            ended = run(
                "check", "--census", "./other", *words, text=text_of(haul).encode(), cwd=folder
            )
            self.assertEqual(ended[:2], (4, ""))
            return Path(folder, "asked").read_text().splitlines()

    def test_no_soup(self) -> None:
        self.assertEqual(run("check", text=census("take", "--count", "0")), (0, "right\n", ""))

    def test_workers(self) -> None:
        for words, workers in (
            ((), min(16, len(os.sched_getaffinity(0)))),
            (("--workers=1",), 1),
            (("--workers", "2"), 2),
            (("--workers=16",), 16),
        ):
            self.assertEqual(
                self.asked(make_haul({"xs4_33": 1}, [(5, 7)]), *words),
                [
                    f"take --seed=a --rule=b3s23 --period=64 --horizon=512 --stride=101 --limit=30300 --first=5 --count=7 --workers={workers}"
                ],
            )

    def test_no_call_is_too_large(self) -> None:
        """A call of `census take` has at most 2^24 soups and 2,000 ranges."""
        self.assertIn(
            "--first=5 --count=16777216 ", self.asked(make_haul({"xs4_33": 1}, [(5, 2**25)]))[0]
        )
        self.assertEqual(
            [len(piece) for piece in split_ranges([(3 * k, 1) for k in range(4001)])],
            [2000, 2000, 1],
        )
        self.assertEqual(
            list(split_ranges([(5, 2**24 + 1)])), [[(5, 2**24)], [(5 + 2**24, 1)]]
        )


class Joins(unittest.TestCase):
    def test_each_number(self) -> None:
        one = make_haul(
            {"xs4_33": 5, "xs5_253": 7},
            [(0, 10)],
            unsettled=2,
            for_good=3,
            samples={"xs4_33": [1, 4, 9], "xs5_253": [2]},
        )
        other = make_haul(
            {"xp2_7": 1, "xs5_253": 8},
            [(20, 10)],
            unsettled=4,
            for_good=5,
            samples={"xp2_7": [20], "xs5_253": [21, 22, 29]},
        )
        both = make_haul(
            {"xp2_7": 1, "xs4_33": 5, "xs5_253": 15},
            [(0, 10), (20, 10)],
            unsettled=6,
            for_good=8,
            samples={"xp2_7": [20], "xs4_33": [1, 4, 9], "xs5_253": [2, 21, 22]},
        )
        for parts in ((one, other), (other, one)):
            self.assertEqual(
                run("join", text="".join(map(text_of, parts)).encode()), (0, text_of(both), "")
            )

    def test_samples_between_others(self) -> None:
        """The samples of the joined haul are the three lowest of both hauls, whichever haul has
        them."""

        def part(ranges: list[Range], numbers: list[int]) -> Haul:
            return make_haul({"xs4_33": 9}, ranges, samples={"xs4_33": numbers})

        for number, least in ((6, [1, 4, 6]), (7, [1, 4, 7]), (15, [1, 4, 12])):
            parts = [part([(0, 5), (10, 5)], [1, 4, 12]), part([(6, 2), (15, 1)], [number])]
            for both in (parts, parts[::-1]):
                ended = run("join", text="".join(map(text_of, both)).encode())
                self.assertEqual(ended[1].splitlines()[-1].split(), ["xs4_33", *map(str, least)])

    def test_the_first_of_several_bad_files(self) -> None:
        with tempfile.TemporaryDirectory() as folder:
            good, bad, worse = (os.path.join(folder, name) for name in ("good", "bad", "worse"))
            Path(good).write_text(text_of(make_haul({"xs4_33": 1}, [(5, 7)])))
            Path(bad).write_text("@VERSION 2\n@ROOT sed=\n")
            Path(worse).write_text("@VERSION 1\n")
            self.assertEqual(
                run("join", good, bad, worse),
                (3, "", f"haul: {bad}: bad haul at line 2 column 7\n"),
            )
            self.assertEqual(
                run("join", worse, good, bad),
                (3, "", f"haul: {worse}: bad haul at line 1 column 10\n"),
            )


class Compares(unittest.TestCase):
    def test_exchanged(self) -> None:
        """For random hauls, comparing B with A gives the same as comparing A with B, with the
        columns exchanged. Only the ratios differ."""
        draw = random.Random("pairs")
        rows = 0
        for _ in range(200):
            one, other = any_haul(draw), any_haul(draw)
            # Some of the codes are in both hauls.
            other.totals |= {
                code: total + 1 for code, total in one.totals.items() if draw.random() < 0.5
            }
            there, back = (
                list(
                    Comparison(
                        pair,
                        [Objects(haul, QUIET) for haul in pair],
                        rank_codes(pair, 1),
                        has_intervals=False,
                    ).text(None)
                )
                for pair in ([one, other], [other, one])
            )
            self.assertEqual(
                [line[1:] for line in there[:4]], [line[1:] for line in (*back[2:4], *back[:2])]
            )
            turned = [
                [code, b, a, rate_b, rate_a, name]
                for code, a, b, rate_a, rate_b, _, name in (
                    line.split(None, 6) for line in back[5:-1]
                )
            ]
            rows_there = [line.split(None, 6) for line in there[5:-1]]
            self.assertEqual([[*row[:5], row[6]] for row in rows_there], turned)
            in_a, in_b = back[-1].split("; ")
            self.assertEqual(there[-1], f"in A{in_b[4:]}; in B{in_a[4:]}")
            rows += len(turned)
        self.assertGreater(rows, 1000)

    def test_order(self) -> None:
        """Codes are ordered by the higher of their two rates. In a haul without the code, the rate
        is 0. Codes with equal rates are in ASCII order."""
        one = make_haul({"xs4_33": 5, "xs5_253": 1, "xq4_153": 1}, [(0, 10)])
        other = make_haul({"xs4_33": 30, "xp2_7": 4, "xs6_696": 3, "xs8_rr": 99}, [(0, 1000)])
        for pair in ([one, other], [other, one]):
            # The rates are 5 in 10, then 1 in 10 twice, 99 in 1,000, 4 in 1,000, and 3 in 1,000.
            self.assertEqual(
                rank_codes(pair, 1), ["xs4_33", "xq4_153", "xs5_253", "xs8_rr", "xp2_7", "xs6_696"]
            )
            self.assertEqual(rank_codes(pair, 4), ["xs4_33", "xs8_rr", "xp2_7"])
            self.assertEqual(
                rank_codes(pair, 1, True), ["xs6_696", "xp2_7", "xs8_rr", "xs5_253", "xq4_153"]
            )

    def test_more_soups_than_a_thousand(self) -> None:
        with tempfile.TemporaryDirectory() as folder:
            names = [os.path.join(folder, name) for name in "ab"]
            Path(names[0]).write_text(text_of(make_haul({"xs4_33": 2, "xp2_7": 50}, [(0, 4000)])))
            Path(names[1]).write_text(text_of(make_haul({"xs4_33": 3, "xp2_7": 5}, [(0, 1001)])))
            rows = [
                line.split() for line in run("compare", "--whole", *names)[1].splitlines()[5:-1]
            ]
        # 50 in 4,000 are 12,500 in a million, and 5 in 1,001 are 4,995.004995. 2 in 4,000 are 500
        # in a million, and 3 in 1,001 are 2,997.002997.
        self.assertEqual(
            rows,
            [
                ["xp2_7", "50", "5", "12500.00", "4995.00", "0.40", "blinker"],
                ["xs4_33", "2", "3", "500.00", "2997.00", "5.99", "block"],
            ],
        )


if __name__ == "__main__":
    unittest.main()
