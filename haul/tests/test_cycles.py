"""`haul why` on patterns that recur as a whole: the answer is the same in each phase."""

from __future__ import annotations

import unittest

from haul.fates.rest import LONG_PERIOD, Rest, find_cycle, look_for_rest, look_longer_for_rest
from haul.formats.profile import STANDARD
from haul.life.cells import read_rle_cells
from haul.life.field import Field, pack, unpack_all
from haul.life.generations import read_rule
from haul.life.groups import Watched
from haul.tests.called import CENSUS, run
from haul.tests.oscillators import ACHIMS_P144, OSCILLATORS

LIFE = read_rule("b3s23")
PHASES = 5
GLIDER = "bo$2bo$3o!"


def read_cells(rle: str) -> set[int]:
    return set(map(pack, read_rle_cells(rle)))


def list_phases(cells: set[int], period: int) -> list[set[int]]:
    """Returns some phases of an oscillator, evenly spread over its period."""
    field = Field(LIFE, cells)
    found: list[set[int]] = []
    for generation in range(period):
        if generation * PHASES // period == len(found):
            found.append(set(field.live))
        field.step()
    return found


class LongPeriods(unittest.TestCase):
    def test_the_periods_are_right(self) -> None:
        """The periods in the table are those that `advance` and a comparison find."""
        self.assertEqual(len({one.period for one in OSCILLATORS}), 12)
        for one in OSCILLATORS:
            field = Field(LIFE, read_cells(one.rle))
            first = set(field.live)
            for generation in range(1, one.period + 1):
                field.step()
                self.assertEqual(field.live == first, generation == one.period, one.source)

    def test_each_phase_has_the_same_answer(self) -> None:
        for one in OSCILLATORS:
            phases = list_phases(read_cells(one.rle), one.period)
            self.assertEqual(len(phases), PHASES)
            for phase in phases:
                found = look_for_rest(LIFE, phase, STANDARD, [one.period])
                self.assertEqual(found, Rest(periods=[one.period]), one.period)

    def test_groups_of_a_cycle(self) -> None:
        """The groups of a cycle don't depend on the phase in which it begins. A glider beside the
        oscillator would move away, so there are only groups that stay."""
        cells = read_cells(ACHIMS_P144.rle)
        cells |= {cell + pack((60, 0)) for cell in read_cells("3o!")}
        found = []
        for phase in list_phases(cells, 144):
            groups = Watched(Field(LIFE, phase), 144).groups(0)
            found.append({frozenset(cell for cell, _ in group.stays) for group in groups})
        self.assertEqual(len(found[0]), 2)
        self.assertEqual([one == found[0] for one in found], [True] * PHASES)

    def test_the_periods_that_sizes_allow(self) -> None:
        cells = read_cells(ACHIMS_P144.rle)
        self.assertEqual(find_cycle(LIFE, cells, {72, 144, 288}), (144, 0))
        self.assertIsNone(find_cycle(LIFE, cells, {72, 100}))
        self.assertIsNone(find_cycle(LIFE, cells, set()))

    def test_a_pattern_that_moves(self) -> None:
        """A whole pattern may recur in another place. Two gliders are two objects of a census."""
        cells = read_cells(GLIDER)
        cells |= {cell + pack((20, 3)) for cell in cells}
        self.assertEqual(find_cycle(LIFE, cells, set(range(1, LONG_PERIOD))), (4, pack((1, 1))))
        self.assertEqual(look_for_rest(LIFE, cells, STANDARD), Rest())
        groups = Watched(Field(LIFE, cells), 4).groups(pack((1, 1)))
        self.assertEqual(len(groups), 2)

    def test_beside_a_glider(self) -> None:
        """A glider flies away from an oscillator, so the whole pattern doesn't recur. The pieces of
        the oscillator are found together if they are linked for long enough."""
        cells = read_cells(ACHIMS_P144.rle)
        cells |= {cell + pack((60, 0)) for cell in read_cells(GLIDER)}
        for phase in list_phases(cells, 144)[:2]:
            found = look_longer_for_rest(LIFE, phase, STANDARD)
            self.assertEqual(found, Rest(periods=[144]))


class Told(unittest.TestCase):
    """Tests what is printed, with the census program."""

    def why(self, cells: set[int], *words: str) -> str:
        text = "".join(f"{x} {y}\n" for x, y in unpack_all(cells))
        status, output, errors = run(
            "why", "--soup-seconds=0", "--census", CENSUS, "--pattern=-", *words, text=text.encode()
        )
        self.assertEqual((status, errors), (0, ""))
        return output.removeprefix("- ")

    def test_achims_p144(self) -> None:
        """With these limits, it was said to be still active."""
        cells = read_cells(ACHIMS_P144.rle)
        self.assertEqual(self.why(cells), "period 144\n")
        for limit in ("54", "126"):
            found = self.why(cells, "--stride=1", f"--limit={limit}")
            self.assertEqual(found, "period 144\n")

    def test_an_oscillator_and_a_glider(self) -> None:
        cells = read_cells(ACHIMS_P144.rle)
        cells |= {cell + pack((60, 0)) for cell in read_cells(GLIDER)}
        self.assertEqual(self.why(cells, "--limit=54", "--stride=1"), "period 144\n")


if __name__ == "__main__":
    unittest.main()
