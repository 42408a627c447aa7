"""The quick way to separate objects, compared with separation by the definition. Also patterns as
bits of a number, compared with patterns as sets of cells."""

from __future__ import annotations

import random
import unittest
from unittest.mock import patch

from haul.life import bitmaps, clusters, generations
from haul.life.apgcodes import read_wechsler, write_wechsler
from haul.life.bitmaps import (
    CORNER,
    MARGIN,
    MOST_SIDE,
    STRIDE,
    find_move,
    find_room,
    list_cells,
    read_bitmap,
)
from haul.life.cells import Cells, find_corner, move, move_to_corner
from haul.life.generations import read_rule
from haul.life.parts import BITS, Separation, Separator
from haul.life.quick_parts import run_in_room, run_quickly
from haul.life.separations import Separations
from haul.names.objects import find_code_of_name
from haul.tests.test_life import RULES, STILL, example

LIFE = read_rule("b3s23")


def bits_of(cells: Cells) -> int:
    """Returns the bitmap of these cells, which has the cell (0, 0) at (`MARGIN`, `MARGIN`)."""
    return sum(1 << STRIDE * (y + MARGIN) + x + MARGIN for x, y in cells)


def draw_patterns(count: int) -> list[Cells]:
    draw = random.Random("bitmaps")
    found = []
    for _ in range(count):
        width, height = draw.randint(1, 9), draw.randint(1, 9)
        places = [(x, y) for x in range(width) for y in range(height)]
        cells = draw.sample(places, draw.randint(1, len(places)))
        found.append(move_to_corner(frozenset(cells)))
    return found


class Bitmaps(unittest.TestCase):
    def test_texts(self) -> None:
        for cells in draw_patterns(200):
            text = write_wechsler(cells)
            assert text is not None
            self.assertEqual(read_bitmap(text), bits_of(cells))
            self.assertEqual(list_cells(bits_of(cells)), cells)
        for text in ("33", "w33", "z33", "wzx33", "3y3", "y0y51", "33z", "33y0", "1w1x1y01zz1"):
            cells_of_text, bits = read_wechsler(text), read_bitmap(text)
            assert cells_of_text is not None and bits is not None
            self.assertEqual(list_cells(bits), move_to_corner(cells_of_text), text)
        for text in ("", "0", "z", "33y", "33y!", "3!3", "A"):
            self.assertIsNone(read_bitmap(text), text)

    def test_the_largest(self) -> None:
        """A pattern may have at most 56 columns and 56 rows."""
        self.assertEqual(MOST_SIDE, 56)
        wide, high = "1" * 56, "v" + "zv" * 10 + "z1"
        for text in (wide, high):
            self.assertEqual(list_cells(read_bitmap(text) or 0), read_wechsler(text))
        for text in (wide + "1", "0" + wide, high[:-1] + "2", "1yyyy1"):
            self.assertIsNone(read_bitmap(text), text)

    def test_generations(self) -> None:
        for rule in map(read_rule, RULES):
            for cells in draw_patterns(60):
                bits, later = bitmaps.advance(rule, bits_of(cells)), cells
                # A cell that is born above or to the left of the corner isn't lost, since there is
                # a margin.
                later = generations.advance(rule, later)
                self.assertEqual(bits, bits_of(later))

    def test_corners_and_rooms(self) -> None:
        """A room extends three columns or rows beyond each side of a pattern's bounding box."""
        for cells in draw_patterns(60):
            bits = bits_of(cells)
            self.assertEqual(bitmaps.find_corner(bits), CORNER)
            x, y = find_corner(cells)
            self.assertEqual((x, y), (0, 0))
            for shift in (1, STRIDE, 5 * STRIDE + 3):
                self.assertEqual(bitmaps.find_corner(bits << shift), CORNER + shift)
            width, height = (max(side) + 1 for side in zip(*cells, strict=True))
            room = {(x, y) for x in range(-3, width + 3) for y in range(-3, height + 3)}
            self.assertEqual(find_room(bits), bits_of(frozenset(room)))
        # The cell in the first column may be in any row.
        for row in range(MOST_SIDE):
            cells = frozenset([(1, 0), (1, MOST_SIDE - 1), (0, row)])
            self.assertEqual(bitmaps.find_corner(bits_of(cells)), CORNER)
        widest = find_room(read_bitmap("1" * MOST_SIDE) or 0)
        columns = {place % STRIDE for place in range(widest.bit_length()) if widest >> place & 1}
        self.assertEqual(columns, set(range(1, STRIDE - 1)))

    def test_clusters_and_islands(self) -> None:
        for cells in draw_patterns(300):
            bits = bits_of(cells)
            self.assertEqual(bitmaps.is_cluster(bits), clusters.is_cluster(cells))
            phases = [cells, generations.advance(LIFE, cells)]
            self.assertEqual(
                sorted(bitmaps.find_islands(list(map(bits_of, phases)))),
                sorted(map(bits_of, clusters.find_islands(phases))),
            )


class Quick(unittest.TestCase):
    def test_all_objects_of_the_example(self) -> None:
        """The quick way separates all objects of the example. The definition gives the same parts
        for all strict objects and for 1,500 random objects."""
        separator, slow = Separator(LIFE), Separator(LIFE)
        codes = list(example().totals)
        found = {code: separator.separate_quickly(code) for code in codes}
        self.assertNotIn(None, found.values())
        strict = [code for code, one in found.items() if one and one.is_strict()]
        for code in {*strict, *random.Random("quick").sample(codes, 1500)}:
            self.assertEqual(found[code], slow.separate_by_definition(code), code)

    def test_other_rules(self) -> None:
        for rule in RULES:
            separator, slow = Separator(read_rule(rule)), Separator(read_rule(rule))
            quick = 0
            for cells in draw_patterns(300):
                text = write_wechsler(cells)
                for code in (f"xs{len(cells)}_{text}", f"xp2_{text}", f"xq4_{text}"):
                    found = separator.separate_quickly(code)
                    quick += found is not None
                    if found is not None:
                        self.assertEqual(found, slow.separate_by_definition(code), code)
            self.assertGreaterEqual(quick, 300 if rule == STILL else 1)

    def test_what_is_not_found(self) -> None:
        """The quick way gives up on codes that draw nothing or are wrong about what they draw, on
        an object that is too wide, and on an object with eleven islands, two of which aren't
        parts."""
        for code in (
            "xs48_raar0rr0rr0rr0rrw33",
            "xs5_33",
            "xp2_33",
            "xp1_33",
            "xp4_7",
            "xp0_7",
            "xs3_7",
            "xq4_33",
            "xp4_153",
            "xq8_153",
            "xq3_153",
            "xp65_7",
            "ov_s4",
            "xs4_y",
            "xs2_1yyyy1",
        ):
            self.assertIsNone(Separator(LIFE).separate_quickly(code), code)
        # A glider moves by one column and one row in four generations, so after twelve generations
        # it is still in its room.
        bits = read_bitmap("153") or 0
        self.assertIsNotNone(run_in_room(LIFE, bits, 12))
        self.assertIsNone(run_in_room(LIFE, bits, 16))
        # This object, which has two codes here, is two blocks far apart in the same two rows.
        for code in ("xs8_33yy33", "xs8_33yy33z0"):
            self.assertEqual(
                Separator(LIFE).separate_quickly(code), Separator(LIFE).separate_by_definition(code)
            )

    def test_islands_that_are_not_parts(self) -> None:
        """The quick way also separates objects with islands that aren't parts. The first two
        objects have two tables, each of which changes if it is run alone, and one or two blocks.
        The third object has the four islands of a pulsar, and a block. The fourth has a blocker,
        which is a cluster in only two of its eight phases, and a block."""
        for code in (
            "xs16_raarw33",
            "xs20_33wraarw33",
            "xp3_co9nas0san9ocw33zgoldlo0oldlogz1047210127401",
            "xp8_g3jgy066z1ut",
        ):
            found = Separator(LIFE).separate_quickly(code)
            self.assertIsNotNone(found, code)
            self.assertEqual(found, Separator(LIFE).separate_by_definition(code), code)

    def test_the_most(self) -> None:
        """An object with the longest period is separated, and so is an object with ten islands,
        eight of which are blocks."""
        with patch("haul.life.quick_parts.MOST_PERIOD", 2):
            self.assertIsNotNone(Separator(LIFE).separate_quickly("xp2_7"))
        found = Separator(LIFE).separate_quickly("xs44_raar0rr0rr0rr0rr")
        self.assertEqual(found, Separation(("xs12_raar", *["xs4_33"] * 8)))

    def test_clusters_in_some_phases(self) -> None:
        """A blocker is a cluster in two of its eight phases. It is a part whichever phase is the
        first. Coe's p8 is several clusters in each phase, so it isn't a part."""
        blocker = run_in_room(LIFE, read_bitmap("g3jgz1ut") or 0, 8) or []
        for phase in blocker[:-1]:
            run = run_in_room(LIFE, bitmaps.shift_to_corner(phase), 8) or []
            self.assertEqual(Separations(BITS, LIFE, run).run_alone(run[0]), run)
        run = run_quickly(LIFE, find_code_of_name("Coe's p8") or "") or []
        self.assertEqual(len(run), 9)
        self.assertIsNone(Separations(BITS, LIFE, run).run_alone(run[0]))

    def test_moved_islands(self) -> None:
        """Two gliders in a row are parts. A glider and its mirror image don't recur together, so
        they aren't separated."""
        glider = read_wechsler("153")
        assert glider is not None
        pair = glider | move(glider, (12, 0))
        code = f"xq4_{write_wechsler(pair)}"
        self.assertEqual(Separator(LIFE).separate_quickly(code), Separation(("xq4_153", "xq4_153")))
        turned = frozenset((20 - x, y) for x, y in glider)
        code = f"xq4_{write_wechsler(glider | turned)}"
        self.assertIsNone(Separator(LIFE).separate_quickly(code))
        self.assertIsNone(find_move(bits_of(glider), bits_of(turned)))
        self.assertEqual(find_move(bits_of(glider), bits_of(glider) << 5 * STRIDE), 5 * STRIDE)
        self.assertEqual(find_move(bits_of(glider) << 3, bits_of(glider)), -3)


if __name__ == "__main__":
    unittest.main()
