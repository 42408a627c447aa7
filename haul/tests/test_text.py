"""Reading and writing of haul texts."""

from __future__ import annotations

import io
import random
import re
import unittest

from haul.formats.field_reader import BadHaul
from haul.formats.haul import Haul
from haul.formats.haul_reader import read_hauls, read_one_haul
from haul.tests.drawn import any_haul, text_of

# A haul with two of four soups of the empty seed, both unsettled, as in docs/FORMATS.md.
SMALL = """\
@VERSION 2
@ROOT seed=
@RULE b3s23
@SYMMETRY C1
@PROFILE 1 1 1 0
@RANGE 0 4
@NUM_SOUPS 2
@NUM_UNSETTLED 2
@NUM_FOR_GOOD 0
@NUM_OBJECTS 0

@CENSUS TABLE

@SAMPLE_SOUPIDS
"""

# A haul with two codes.
LARGER = """\
@VERSION 2
@ROOT seed=a
@RULE b3s23
@SYMMETRY C1
@PROFILE 64 512 101 30300
@RANGE 3 2
@RANGE 10 1
@NUM_SOUPS 3
@NUM_UNSETTLED 0
@NUM_FOR_GOOD 1
@NUM_OBJECTS 6

@CENSUS TABLE
xp2_7 2
xs4_33 4

@SAMPLE_SOUPIDS
xp2_7 3 10
xs4_33 3 4 10
"""


def read(text: str) -> Haul:
    return read_one_haul(io.BytesIO(text.encode("latin-1")))


def said_of(text: str) -> str:
    """Returns the message about a text that isn't a haul: the place of the fault, and a reason if
    the field at this place is well formed. Returns `none` if there is no fault."""
    try:
        list(read_hauls(io.BytesIO(text.encode("latin-1"))))
    except BadHaul as bad:
        return str(bad).removeprefix("bad haul at ")
    return "none"


def fault(text: str) -> str:
    """Returns the place of the fault in a text, or `none` if there is no fault."""
    return said_of(text).partition(":")[0]


class Reading(unittest.TestCase):
    def test_small(self) -> None:
        haul = read(SMALL)
        self.assertEqual(
            (haul.soups, haul.unsettled, haul.for_good, haul.ranges, haul.totals),
            (2, 2, 0, [(0, 4)], {}),
        )
        self.assertEqual(text_of(haul), SMALL)

    def test_larger(self) -> None:
        haul = read(LARGER)
        self.assertEqual(haul.job.profile, (64, 512, 101, 30300))
        self.assertEqual(haul.totals, {"xp2_7": 2, "xs4_33": 4})
        self.assertEqual(haul.samples, {"xp2_7": [3, 10], "xs4_33": [3, 4, 10]})
        self.assertEqual((haul.first_total_line(), haul.first_sample_line()), (14, 18))
        self.assertEqual(text_of(haul), LARGER)

    def test_the_largest_total(self) -> None:
        most = 2**64 - 1
        text = (
            LARGER.replace("OBJECTS 6", f"OBJECTS {most}")
            .replace("xs4_33 4\n", "")
            .replace("xp2_7 2", f"xp2_7 {most}")
            .replace("xs4_33 3 4 10\n", "")
        )
        self.assertEqual(text_of(read(text)), text)
        self.assertEqual(fault(text.replace(str(most), str(most + 1))), "line 11 column 14")

    def test_no_number(self) -> None:
        none = (
            SMALL.replace("@RANGE 0 4", "@RANGE 0 0")
            .replace("SOUPS 2", "SOUPS 0")
            .replace("UNSETTLED 2", "UNSETTLED 0")
        )
        self.assertEqual(text_of(read(none)), none)

    def test_several(self) -> None:
        hauls = list(read_hauls(io.BytesIO((SMALL + LARGER + SMALL).encode())))
        self.assertEqual([haul.line for haul in hauls], [1, 15, 34])

    def test_places_and_reasons(self) -> None:
        """If the field at the place is well formed, the message also has a reason. In the table of
        this test, `None` means that the reason isn't checked, and `""` that the message has no
        reason."""
        for old, new, place, reason in [
            ("@VERSION 2", "", "line 1 column 1", None),
            ("@VERSION 2", "@VERSION", "line 1 column 9", None),
            ("@VERSION 2", "@VERSION 3", "line 1 column 10", None),
            ("@VERSION 2", "@VERSION  2", "line 1 column 10", None),
            ("@VERSION 2", "@VERSION 2 ", "line 1 column 12", None),
            ("seed=a", "seed=\x7f", "line 2 column 7", None),
            ("seed=a", "seed=" + "a" * 65, "line 2 column 7", None),
            ("seed=a", "seed=" + "a" * 10**6, "line 2 column 7", None),
            ("seed=a", "seed=a b", "line 2 column 14", None),
            ("b3s23", "b03s23", "line 3 column 7", None),
            ("b3s23", "b3s32", "line 3 column 7", None),
            ("C1", "D2", "line 4 column 11", None),
            ("64 512", "65 512", "line 5 column 10", None),
            ("64 512", "064 512", "line 5 column 10", None),
            ("64 512", "64 63", "line 5 column 13", "the horizon is below the period"),
            ("101 30300", "0 30300", "line 5 column 17", None),
            ("101 30300", "101 100001", "line 5 column 21", None),
            ("@RANGE 3 2\n", "@RANGE\n", "line 6 column 7", None),
            ("@RANGE 10 1", "@RANGES 10 1", "line 7 column 1", None),
            ("@RANGE 3 2\n", "@RANGE 0 0\n", "line 7 column 1", None),
            ("@RANGE 10 1", "@RANGE", "line 7 column 7", None),
            (
                "@RANGE 10 1",
                "@RANGE 5 1",
                "line 7 column 8",
                "the ranges are not in ascending order, or touch",
            ),
            ("@RANGE 10 1", "@RANGE ", "line 7 column 8", None),
            ("@RANGE 10 1", f"@RANGE {2**40} 1", "line 7 column 8", "the number is too large"),
            ("@RANGE 10 1", "@RANGE 10", "line 7 column 10", None),
            ("@RANGE 10 1", "@RANGE 10 0", "line 7 column 11", None),
            ("@RANGE 10 1", "@RANGE 10 1" + " " * 10**6, "line 7 column 13", None),
            ("@RANGE 10 1", f"@RANGE {2**40 - 1} 2", "line 7 column 22", "the number is too large"),
            ("SOUPS 3", "SOUPS 4", "line 8 column 12", "more soups than numbers in the ranges"),
            ("SOUPS 3", "SOUPS 03", "line 8 column 12", ""),
            ("UNSETTLED 0", "UNSETTLED 4", "line 9 column 16", "more unsettled soups than soups"),
            (
                "FOR_GOOD 1",
                "FOR_GOOD 4",
                "line 10 column 15",
                "more soups for good than settled soups",
            ),
            (
                "OBJECTS 6",
                "OBJECTS 7",
                "line 11 column 14",
                "the objects are not the sum of the table",
            ),
            ("OBJECTS 6", "OBJECTS 06", "line 11 column 14", None),
            ("OBJECTS 6", f"OBJECTS {2**64}", "line 11 column 14", "the number is too large"),
            ("6\n\n@CENSUS", "6\n@CENSUS", "line 12 column 1", None),
            ("xp2_7 2", "xP2_7 2", "line 14 column 1", None),
            ("xp2_7 2", "xp2_7", "line 14 column 6", None),
            ("xp2_7 2", "xp2_7 0", "line 14 column 7", ""),
            ("xs4_33 4\n", "x" * 10**6 + " 4\n", "line 15 column 1", None),
            ("xs4_33 4\n", "xp2_7 4\n", "line 15 column 1", "the codes are not in ascending order"),
            ("xs4_33 4\n", "xp2_6 4\n", "line 15 column 1", None),
            ("xs4_33 4\n", f"xs4_33 {2**64}\n", "line 15 column 8", "the number is too large"),
            (
                "xp2_7 3 10",
                "xp2_8 3 10",
                "line 18 column 1",
                "not the code of the same row of the census table",
            ),
            ("xp2_7 3 10", "* 3 10", "line 18 column 1", ""),
            ("xp2_7 3 10", "xp2_7", "line 18 column 6", None),
            ("xp2_7 3 10", "xp2_7 3 3", "line 18 column 9", None),
            ("xp2_7 3 10", "xp2_7 3 11", "line 18 column 9", "the number is in no range"),
            ("xp2_7 3 10", f"xp2_7 3 {2**40}", "line 18 column 9", "the number is in no range"),
            (
                "xp2_7 3 10",
                "xp2_7 10 3",
                "line 18 column 10",
                "the samples are not in ascending order",
            ),
            ("xp2_7 3 10", "xp2_7 3 4 10", "line 18 column 11", "more samples than objects"),
            ("xp2_7 3 10", "xp2_7 3 4 x", "line 18 column 11", ""),
            ("xs4_33 3 4 10\n", "", "line 19 column 1", None),
            ("xs4_33 3 4 10\n", "xs4_33 3 4 10", "line 19 column 14", None),
            ("xs4_33 3 4 10\n", "xs4_33 3 4 10 11\n", "line 19 column 15", ""),
            ("xs4_33 3 4 10\n", "xs4_33 3 4 10\nmore\n", "line 20 column 1", None),
        ]:
            with self.subTest(new=new):
                self.assertEqual(LARGER.count(old), 1)
                said = said_of(LARGER.replace(old, new))
                self.assertEqual(said.partition(":")[0], place)
                if reason is not None:
                    self.assertEqual(said, f"{place}: {reason}" if reason else place)

    def test_what_comes_before_a_fault_is_right(self) -> None:
        """The largest total and the lowest soup number are valid, so only the field after them is a
        fault."""
        most = 2**64 - 1
        self.assertEqual(
            said_of(LARGER.replace("xs4_33 4\n", f"xs4_33 {most} x\n")),
            f"line 15 column {len(f'xs4_33 {most} ') + 1}",
        )
        first = (
            LARGER.replace("@RANGE 3 2", "@RANGE 0 5")
            .replace("SOUPS 3", "SOUPS 6")
            .replace("xp2_7 3 10", "xp2_7 0 9")
        )
        self.assertEqual(said_of(first), "line 18 column 9: the number is in no range")

    def test_the_sum_comes_after_the_table(self) -> None:
        wrong = LARGER.replace("OBJECTS 6", "OBJECTS 7")
        self.assertEqual(fault(wrong.replace("xs4_33 4\n", "xs4_33 x\n")), "line 15 column 8")
        self.assertEqual(fault(wrong.replace("xp2_7 3 10", "xp2_7 x")), "line 11 column 14")

    def test_the_sum_is_below_two_to_the_64(self) -> None:
        for four, place in ((2**64 - 3, "none"), (2**64 - 2, "line 11 column 14")):
            text = LARGER.replace("OBJECTS 6", f"OBJECTS {four + 2}").replace(
                "xs4_33 4\n", f"xs4_33 {four}\n"
            )
            self.assertEqual(fault(text), place)

    def test_lines_go_on_through_the_input(self) -> None:
        self.assertEqual(fault(SMALL + LARGER.replace("C1", "C2")), "line 18 column 11")

    def test_nothing(self) -> None:
        self.assertEqual(fault(""), "line 1 column 1")

    def test_cut(self) -> None:
        """A text that ends within a word such as `@RANGE` is bad where the word begins. Otherwise
        it is bad at the end."""
        self.assertEqual(fault(LARGER[:5]), "line 1 column 1")
        self.assertEqual(fault("@VERSION "), "line 1 column 10")
        self.assertEqual(fault("@VERSION 2"), "line 1 column 11")
        self.assertEqual(fault("@VERSION 2\n"), "line 2 column 1")
        ranges = LARGER[: LARGER.index("@RANGE 10")]
        self.assertEqual(fault(ranges + "@RANG"), "line 7 column 1")
        self.assertEqual(fault(ranges + "@RANGE"), "line 7 column 7")
        self.assertEqual(fault(ranges + "@RANGE "), "line 7 column 8")
        for end in range(len(LARGER)):
            self.assertNotEqual(fault(LARGER[:end]), "none")


class Drawn(unittest.TestCase):
    def test_what_was_written_is_read(self) -> None:
        draw = random.Random("round trips")
        for _ in range(2000):
            haul = any_haul(draw)
            self.assertEqual(read(text_of(haul)), haul)

    def test_changed_bytes(self) -> None:
        """A byte of a haul text is changed, or one is added. If the new text is valid, it is written
        as it was read. Otherwise it is refused at a place. The part before that place is valid by
        itself, or is refused at its end. If other text follows the wrong field, the place stays the
        same.
        """
        draw = random.Random("mutations")
        refused = 0
        for _ in range(4000):
            text = text_of(any_haul(draw))
            at = draw.randrange(len(text))
            byte = draw.choice("0123456789 \nabsx@_=+-.\x00\xff")
            changed = text[:at] + byte + text[at + draw.choice([0, 1]) :]
            place = fault(changed)
            if place == "none":
                self.assertEqual(text_of(read(changed)), changed)
                continue
            refused += 1
            line, column = (int(word) for word in place.split() if word.isdigit())
            lines = changed.split("\n")
            before = sum(len(one) + 1 for one in lines[: line - 1]) + column - 1
            # The number of objects is compared with the sum only after the table.
            if not lines[line - 1].startswith("@NUM_OBJECTS "):
                # The text before the place may be a whole haul.
                self.assertIn(fault(changed[:before]), (place, "none"))
                field_and_after = re.match("[^ \n]*[ \n]", changed[before:])
                if field_and_after:
                    self.assertEqual(fault(changed[:before] + field_and_after[0] + "*\n"), place)
        self.assertGreater(refused, 2000)


if __name__ == "__main__":
    unittest.main()
