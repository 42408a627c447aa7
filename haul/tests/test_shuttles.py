"""The shuttles and guns that `haul why` names."""

from __future__ import annotations

import unittest
from fractions import Fraction

from haul.fates.guns import GUNS, find_guns
from haul.fates.rest import look_for_rest
from haul.formats.profile import STANDARD
from haul.life.apgcodes import list_orientations
from haul.life.cells import Cells, read_rle_cells
from haul.life.field import Field, pack, unpack_all
from haul.life.generations import read_rule
from haul.tests.called import CENSUS, run

LIFE = read_rule("b3s23")
QUEEN_BEE = "9b2o$9bobo$4b2o6bo7b2o$2obo2bo2bo2bo7b2o$2o2b2o6bo$9bobo$9b2o!"
# Its left block stands two rows lower.
OTHER_BLOCK = "11bo$11bobo$14b2o4b2o$2o12b2o4b2o$2o12b2o$11bobo$11bo!"
AN_EATER = "11bo$11bobo$14b2o4b2o$14b2o4b2o$14b2o$2b2o7bobo$bobo7bo$bo$2o!"
TWO_QUEEN_BEES = (
    "29b2o$9b2o18bobo$9bobo12b2o6bo7b2o$4b2o6bo7b2obo2bo2bo2bo7b2o$2obo2bo2bo2bo7b2o2b2o6bo$"
    "2o2b2o6bo16bobo$9bobo17b2o$9b2o!"
)
TWIN_BEES = "17b2o$2o15bobo7b2o$2o17bo7b2o$17b3o4$17b3o$2o17bo7b2o$2o15bobo7b2o$17b2o!"
# One block is enough on one of the two sides.
THREE_BLOCKS = "17b2o$2o15bobo7b2o$2o17bo7b2o$17b3o4$17b3o$2o17bo$2o15bobo$17b2o!"
COES_P8 = "2o$2o2b2o$5b2o$4bo2bo$7bo2b2o$5bobo2b2o!"


def pack_all(cells: Cells) -> set[int]:
    return set(map(pack, cells))


def name(cells: Cells) -> str | None:
    """Returns the name of the only object of a pattern that falls apart."""
    found = look_for_rest(LIFE, pack_all(cells), STANDARD, [30, 46, 8])
    assert found is not None
    ((_, shuttle),) = found.apart
    return shuttle


class Shuttles(unittest.TestCase):
    def test_what_stands_beside_it(self) -> None:
        for rle, wanted in (
            (QUEEN_BEE, "queen bee shuttle, with blocks"),
            (OTHER_BLOCK, "queen bee shuttle, with blocks"),
            (AN_EATER, "queen bee shuttle, with a block and an eater 1"),
            (TWO_QUEEN_BEES, "2 queen bee shuttles, with blocks"),
            (TWIN_BEES, "twin bees shuttle, with blocks"),
            (THREE_BLOCKS, "twin bees shuttle, with blocks"),
            (COES_P8, None),
        ):
            self.assertEqual(name(read_rle_cells(rle)), wanted, rle)

    def test_in_other_orientations(self) -> None:
        for rle, wanted in ((AN_EATER, "queen bee"), (THREE_BLOCKS, "twin bees")):
            for cells in [*list_orientations(read_rle_cells(rle))][1::3]:
                self.assertTrue((name(cells) or "").startswith(f"{wanted} shuttle, with "))

    def test_the_soups_of_the_reference(self) -> None:
        """Five soups of the reference census leave a shuttle. With its blocks, this is how it stands
        in three of them. In the others it stands as in `QUEEN_BEE`."""
        text = run("why", "17787136", "--soup-seconds=0", "--census", CENSUS)[1]
        told = "falls apart: xp30_w33z8kqrqk8zzzw33 (queen bee shuttle, with blocks)"
        self.assertEqual(text, f"17787136 {told}\n")


class Guns(unittest.TestCase):
    def shoot(self, rle: str, generations: int) -> Cells:
        field = Field(LIFE, pack_all(read_rle_cells(rle)))
        for _ in range(generations):
            field.step()
        return unpack_all(field.live)

    def test_guns_are_found_in_other_orientations_and_phases(self) -> None:
        for gun in GUNS:
            rate = Fraction(5, gun.period)
            for generation in range(3 * gun.period, 4 * gun.period, gun.period // 4 + 1):
                for cells in [*list_orientations(self.shoot(gun.rle, generation))][::3]:
                    self.assertEqual(find_guns(rate, pack_all(cells)), gun.name)

    def test_the_growth_has_to_fit(self) -> None:
        cells = pack_all(self.shoot(GUNS[0].rle, 90))
        for rate in (Fraction(5, 31), Fraction(10, 30), Fraction(5, 60)):
            self.assertIsNone(find_guns(rate, cells))
        both = cells | {cell + pack((0, -50)) for cell in cells}
        self.assertEqual(find_guns(Fraction(5, 15), both), "2 Gosper glider guns")
        self.assertIsNone(find_guns(Fraction(5, 30), both))

    def test_the_cells_have_to_be_there(self) -> None:
        self.assertIsNone(find_guns(Fraction(5, 30), set()))
        cells = pack_all(self.shoot(GUNS[0].rle, 90))
        gun = pack_all(read_rle_cells(GUNS[0].rle)) & cells
        for cell in sorted(gun)[::5]:
            self.assertIsNone(find_guns(Fraction(5, 30), cells - {cell}))

    def test_they_are_told(self) -> None:
        for gun in GUNS:
            words = ("--pattern=-", "--limit=1010", "--soup-seconds=0", "--census", CENSUS)
            output = run("why", *words, text=gun.rle.encode())[1]
            told = f"+5 cells in {gun.period} generations ({gun.name})"
            self.assertEqual(output, f"- linear growth: {told}\n")


if __name__ == "__main__":
    unittest.main()
