"""Properties that hold for every haul: a single fault is reported at its place, and a page shows
what the haul has."""

from __future__ import annotations

import io
import random
import re
import unittest
from fractions import Fraction

from haul.census.client import Census
from haul.formats.haul import Haul, Job
from haul.formats.haul_reader import read_one_haul
from haul.hauls.check import find_wrong_samples, list_differences
from haul.tests.called import CENSUS, QUIET, census
from haul.tests.drawn import any_haul
from haul.tests.made import QUICK_JOB, make_haul
from haul.tests.pages import compared, objects_of, page, table_of


def read(lines: list[str]) -> Haul:
    return read_one_haul(io.BytesIO("".join(f"{line}\n" for line in lines).encode()))


class OneWrongThing(unittest.TestCase):
    """Each test makes one fault in a correct haul, at one place after another, and composes the
    expected messages from the lines of the haul."""

    def setUp(self) -> None:
        self.lines = census("take", "--count", "40").decode().splitlines()
        self.right = read(self.lines)
        self.objects = int(self.lines[9].split()[1])
        self.totals = range(12, self.lines.index("", 12))
        self.samples = range(self.lines.index("@SAMPLE_SOUPIDS") + 1, len(self.lines))

    def said(self, lines: list[str]) -> list[str]:
        return list(list_differences(read(lines), self.right))

    def with_objects(self, more: int) -> tuple[list[str], str]:
        """Returns the lines with another number of objects, and the message about it."""
        lines = list(self.lines)
        lines[9] = f"@NUM_OBJECTS {self.objects + more}"
        return lines, f"line 10: is {lines[9]}, should be {self.lines[9]}"

    def test_totals(self) -> None:
        for place in self.totals:
            code, total = self.lines[place].split()
            for other in {int(total) + 1, int(total) + 7, 2**63}:
                lines, told = self.with_objects(other - int(total))
                lines[place] = f"{code} {other}"
                self.assertEqual(
                    self.said(lines),
                    [told, f"line {place + 1}: is {code} {other}, should be {code} {total}"],
                )

    def test_codes(self) -> None:
        """Each code in turn is left out, or another code is added before it."""
        for place, row in zip(self.totals, self.samples, strict=True):
            code, total = self.lines[place].split()
            lines, told = self.with_objects(-int(total))
            del lines[row], lines[place]
            self.assertEqual(self.said(lines), [told, f"missing: {code} {total}"])
            lines, told = self.with_objects(5)
            lines.insert(row, f"{code[:-1]} 39")
            lines.insert(place, f"{code[:-1]} 5")
            if code[:-1] > self.lines[place - 1].split(" ")[0]:
                self.assertEqual(
                    self.said(lines), [told, f"line {place + 1}: {code[:-1]}, should not be there"]
                )

    def test_samples(self) -> None:
        """In turn, each sample is replaced, the last sample of each row is left out, and a sample
        is added to each row."""
        tried = 0
        for row in self.samples:
            code, *numbers = self.lines[row].split()
            others = [
                [*numbers[:k], str(number), *numbers[k + 1 :]]
                for k in range(len(numbers))
                for number in range(40)
            ]
            others += [numbers[:-1], [*numbers, "39"]]
            for other in others:
                is_lawful = (
                    other
                    and list(map(int, other)) == sorted(set(map(int, other)))
                    and len(other) <= min(3, self.right.totals[code])
                )
                if is_lawful and other != numbers:
                    lines = list(self.lines)
                    lines[row] = " ".join([code, *other])
                    self.assertEqual(
                        self.said(lines),
                        [f"line {row + 1}: is {lines[row]}, should be {self.lines[row]}"],
                    )
                    tried += 1
        self.assertGreater(tried, 200)

    def test_lines_before_the_table(self) -> None:
        for line, name in ((7, "@NUM_UNSETTLED"), (8, "@NUM_FOR_GOOD")):
            self.assertTrue(self.lines[line].startswith(name))
            number = int(self.lines[line].split()[1])
            for other in {0, 1, number + 1} - {number}:
                lines = list(self.lines)
                lines[line] = f"{name} {other}"
                self.assertEqual(
                    self.said(lines),
                    [f"line {line + 1}: is {name} {other}, should be {self.lines[line]}"],
                )

    def test_sample_soups(self) -> None:
        """In turn, each sample is replaced by a soup that doesn't leave the object."""
        left = {
            number: {field.partition("*")[0] for field in line.split()[9:]}
            for number, line in enumerate(
                census("work", "--count", "40", "--worker", "1").decode().splitlines()
            )
        }
        asked = Once(left)
        tried = 0
        for row in self.samples:
            code, *numbers = self.lines[row].split()
            for k in range(len(numbers)):
                for wrong in range(40):
                    other = sorted({*numbers[:k], *numbers[k + 1 :], str(wrong)}, key=int)
                    if code in left[wrong] or len(other) < len(numbers):
                        continue
                    lines = list(self.lines)
                    lines[row] = " ".join([code, *other])
                    self.assertEqual(
                        list(find_wrong_samples(asked, read(lines))),
                        [f"line {row + 1}: soup {wrong} leaves no {code}"],
                    )
                    tried += 1
        self.assertGreater(tried, 500)


class Once(Census):
    """Stands in for the census program: reports the objects that `left` has for a soup."""

    def __init__(self, left: dict[int, set[str]]) -> None:
        super().__init__(CENSUS, QUIET)
        self.left = left

    def reports(self, job: Job, numbers: list[int]) -> dict[int, list[str]]:
        return {
            number: ["at=0", "good=no", *(f"{code}*1" for code in self.left[number])]
            for number in numbers
        }


def how_often(soups: int, total: int) -> str:
    """Returns how often an object occurs, in the words of the page: a bound `≤ 1 in N soups` if
    there are at most half as many objects as soups, otherwise the number of objects per soup. That
    number is rounded to three significant digits below 100, and to a whole number from 100 on."""
    if soups == 0:
        return "none"
    if Fraction(total, soups) <= Fraction(1, 2):
        return f"≤ 1 in {soups // total:,} soups"
    return (
        f"{total / soups:,.0f} per soup"
        if total >= 100 * soups
        else f"{total / soups:.3g} per soup"
    )


class Shown(unittest.TestCase):
    def test_number_for_number(self) -> None:
        """The table and the data have the numbers of each code, with the most frequent code first.
        The tiles have the numbers of the whole haul."""
        draw = random.Random("pages")
        rows = 0
        for _ in range(200):
            haul = any_haul(draw)
            text = page(haul, 0)
            shown, objects = table_of(text).rows, objects_of(text)
            codes = sorted(haul.totals, key=lambda code: (-haul.totals[code], code))
            self.assertEqual([row.cells[1].split()[-1] for row in shown], codes)
            self.assertEqual(list(objects)[: len(codes)], codes)
            for code, row in zip(codes, shown, strict=True):
                total, samples = haul.totals[code], haul.samples[code]
                self.assertEqual(
                    row.cells[4:],
                    [f"{total:,}", how_often(haul.soups, total), " ".join(map(str, samples))],
                )
                self.assertEqual(objects[code]["objects"], [[total, *samples]])
            soups = f"{haul.soups:,}" + (
                f" <small>of {haul.size():,}</small>" if haul.size() > haul.soups else ""
            )
            found = re.findall("<dt>([a-z ]*)(?:<small>.*?</small>)?</dt><dd>(.*?)</dd>", text)
            self.assertEqual(
                [pair for pair in found if pair[0] != "of these strict"],
                [
                    ("soups", soups),
                    ("objects", f"{haul.objects():,}"),
                    (
                        "objects per soup",
                        f"{haul.objects() / haul.soups:.2f}" if haul.soups else "–",
                    ),
                    ("distinct objects", f"{len(codes):,}"),
                    ("unsettled soups", f"{haul.unsettled:,}"),
                    ("settled for good", f"{haul.for_good:,}"),
                ],
            )
            rows += len(shown)
        self.assertGreater(rows, 300)

    def test_least(self) -> None:
        """Codes with exactly `least` objects are included."""
        draw = random.Random("least")
        for _ in range(40):
            haul = any_haul(draw)
            for least in {0, 1, *list(haul.totals.values())[:3]}:
                text = compared(haul, least=least)
                shown = sorted(row.cells[1].split()[-1] for row in table_of(text).rows)
                self.assertEqual(
                    shown, [code for code, total in haul.totals.items() if total >= least]
                )
                self.assertIn(
                    f"{len(shown):,} of {len(haul.totals):,} kinds, the most frequent first.",
                    text,
                )

    def test_four_thousand(self) -> None:
        """The table has the thousand most frequent parts."""
        codes = [f"ov_s{number:04}" for number in range(4000)]
        haul = make_haul({code: 1 + k for k, code in enumerate(codes)}, job=QUICK_JOB)
        self.assertEqual(
            [row.cells[1].split()[-1] for row in table_of(page(haul, 0)).rows],
            codes[:-1001:-1],
        )


if __name__ == "__main__":
    unittest.main()
