"""Joined hauls, and hauls that can't be joined."""

from __future__ import annotations

import io
import random
import unittest

from haul.formats.haul import Haul
from haul.formats.haul_reader import read_hauls, read_one_haul
from haul.hauls.join import CantJoin, Joining
from haul.tests.drawn import drawn_haul, drawn_job, drawn_ranges, text_of
from haul.tests.test_text import LARGER, SMALL


def joined(hauls: list[Haul]) -> str:
    joining = Joining()
    for haul in hauls:
        joining.add(haul)
    return text_of(joining.result())


def refusal(text: str) -> str:
    joining = Joining()
    for haul in read_hauls(io.BytesIO(text.encode())):
        joining.add(haul)
    try:
        joining.result()
    except CantJoin as why:
        return str(why)
    return "none"


FULL = SMALL.replace("SOUPS 2", "SOUPS 4").replace("UNSETTLED 2", "UNSETTLED 4")


class Joined(unittest.TestCase):
    def test_one_comes_back(self) -> None:
        haul = read_one_haul(io.BytesIO(LARGER.encode()))
        self.assertEqual(joined([haul]), LARGER)

    def test_touching_ranges_are_one(self) -> None:
        after = FULL.replace("@RANGE 0 4", "@RANGE 4 4")
        hauls = list(read_hauls(io.BytesIO((after + FULL).encode())))
        wanted = (
            FULL.replace("@RANGE 0 4", "@RANGE 0 8")
            .replace("SOUPS 4", "SOUPS 8")
            .replace("UNSETTLED 4", "UNSETTLED 8")
        )
        self.assertEqual(joined(hauls), wanted)

    def test_refusals_in_their_order(self) -> None:
        other = FULL.replace("@RANGE 0 4", "@RANGE 8 4").replace("b3s23", "b36s23")
        missing = SMALL.replace("@RANGE 0 4", "@RANGE 20 4")
        self.assertEqual(refusal(FULL + FULL), "ranges overlap at line 15")
        self.assertEqual(refusal(FULL + FULL + missing), "haul with missing soups at line 29")
        self.assertEqual(refusal(FULL + FULL + missing + other), "other job at line 43")
        self.assertEqual(refusal(FULL + FULL.replace("0 4", "3 4")), "ranges overlap at line 15")
        self.assertEqual(refusal(FULL + FULL.replace("0 4", "4 4")), "none")

    def test_the_first_of_two_is_told(self) -> None:
        later = [FULL.replace("@RANGE 0 4", f"@RANGE {first} 4") for first in (8, 16)]
        self.assertEqual(refusal(FULL + FULL + FULL), "ranges overlap at line 15")
        self.assertEqual(
            refusal(
                FULL
                + "".join(later).replace("SOUPS 4", "SOUPS 2").replace("UNSETTLED 4", "UNSETTLED 2")
            ),
            "haul with missing soups at line 15",
        )
        self.assertEqual(
            refusal(FULL + "".join(later).replace("b3s23", "b36s23")), "other job at line 15"
        )

    def test_ranges_that_share_one_soup(self) -> None:
        for range_, is_added in (
            ((6, 5), False),
            ((14, 3), False),
            ((12, 1), False),
            ((5, 5), True),
        ):
            joining = Joining()
            self.assertTrue(joining.put((10, 5)))
            self.assertEqual(joining.put(range_), is_added, range_)
        self.assertEqual(joining.ranges, [(5, 10)])

    def test_totals_too_large(self) -> None:
        most = 2**63
        text = LARGER.replace("OBJECTS 6", f"OBJECTS {most}").replace(
            "xp2_7 2", f"xp2_7 {most - 4}"
        )
        later = text.replace("RANGE 3 2", "RANGE 30 2").replace("RANGE 10 1", "RANGE 100 1")
        later = later.replace("xp2_7 3 10", "xp2_7 30 100").replace("3 4 10", "30 31 100")
        self.assertEqual(refusal(text + later), "totals too large")
        self.assertEqual(
            refusal(
                text + later.replace(str(most), str(most - 1)).replace(str(most - 4), str(most - 5))
            ),
            "none",
        )

    def test_in_any_order_and_grouping(self) -> None:
        draw = random.Random("joins")
        for _ in range(300):
            job, ranges, parts = drawn_job(draw), drawn_ranges(draw), []
            for _ in range(4):
                parts.append(drawn_haul(draw, job, ranges, is_complete=True))
                end = sum(ranges[-1]) if ranges else 0
                ranges = (
                    drawn_ranges(draw, end + draw.choice([-1, 0]) if end else 0)
                    if draw.random() < 0.8
                    else []
                )
                if ranges and any(first < end for first, _ in ranges):
                    ranges = [(first + 2, count) for first, count in ranges]
                if not ranges and end:
                    ranges = [(end, 3)]
            whole = joined(parts)
            for _ in range(3):
                draw.shuffle(parts)
                self.assertEqual(joined(parts), whole)
            left = read_one_haul(io.BytesIO(joined(parts[:2]).encode()))
            right = read_one_haul(io.BytesIO(joined(parts[2:]).encode()))
            self.assertEqual(joined([left, right]), whole)
            self.assertEqual(joined([right, left]), whole)


if __name__ == "__main__":
    unittest.main()
