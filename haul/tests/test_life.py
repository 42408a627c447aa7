"""The model of Life in haul/life, compared with `census` function by function."""

from __future__ import annotations

import random
import subprocess
import unittest
from collections import Counter
from functools import lru_cache

from haul.formats.haul import Haul
from haul.formats.haul_reader import read_one_haul
from haul.life.apgcodes import find_code, list_orientations, read_wechsler, write_wechsler
from haul.life.cells import Cells, draw_rows, fits_in, move, move_to_corner
from haul.life.clusters import find_islands, is_cluster
from haul.life.generations import MOST_PERIOD, advance, find_recurrence, find_shift, read_rule
from haul.life.soups import make_soup
from haul.patterns.plaintext import SIDE, trim_rows
from haul.tests.called import CENSUS, TOP

# Under this rule, every live cell survives and no cell is born, so each cluster is a still life.
STILL = "bs012345678"
RULES = ["b3s23", "b36s23", "b3678s34678", "b37s0123", STILL]


def asked(calls: list[tuple[list[str], str]]) -> list[str]:
    """Returns what `census` prints for each call. A call consists of arguments and of a text, which
    is empty if the call reads nothing. A shell makes the calls one after another."""
    script = "".join(
        f"\"$0\" {' '.join(words)}" + (f" << 'END'\n{read}\nEND" if read else "") + "\necho =$?\n"
        for words, read in calls
    )
    printed = subprocess.run(
        ["sh", "-c", 'eval "$(cat)"', CENSUS],
        input=script.encode(),
        stdout=subprocess.PIPE,
        check=True,
    ).stdout.decode()
    answers = printed.split("=0\n")
    assert len(answers) == len(calls) + 1 and answers[-1] == "", printed[-200:]
    return answers[:-1]


def drawn_cells(rows: str) -> Cells:
    return frozenset(
        (x, y)
        for y, row in enumerate(rows.splitlines())
        for x, cell in enumerate(row)
        if cell == "O"
    )


def plaintext(cells: Cells) -> str:
    return "\n".join(draw_rows(cells, cells)) if cells else ""


def found(text: str) -> Counter[str]:
    """Returns the objects in the output of `census name`, or no objects if the pattern hadn't
    settled in generation 0."""
    settled, *lines = text.splitlines()
    return (
        Counter({code: int(count) for code, count in map(str.split, lines)})
        if settled == "settled 0"
        else Counter()
    )


@lru_cache
def example() -> Haul:
    with open(TOP / "examples" / "100000.haul", "rb") as stream:
        return read_one_haul(stream)


@lru_cache
def patterns() -> tuple[Cells, ...]:
    """Returns a thousand random patterns, from one cell up to ten by ten."""
    draw = random.Random("patterns")
    found: list[Cells] = []
    while len(found) < 1000:
        width, height, density = (
            draw.randint(1, 10),
            draw.randint(1, 10),
            draw.choice([0.15, 0.4, 0.8]),
        )
        cells = frozenset(
            (x, y) for x in range(width) for y in range(height) if draw.random() < density
        )
        found += [cells] if cells else []
    return tuple(found)


class Drawings(unittest.TestCase):
    def test_each_code_of_the_example(self) -> None:
        """`read_wechsler` draws each code as `census show` does, and `find_code` returns this code
        for the drawn object."""
        codes, rule = list(example().totals), read_rule("b3s23")
        for code, shown in zip(codes, asked([(["show", code], "") for code in codes]), strict=True):
            cells = read_wechsler(code.partition("_")[2])
            assert cells is not None
            self.assertEqual(move_to_corner(cells), move_to_corner(drawn_cells(shown)))
            recurrence = find_recurrence(rule, cells)
            assert recurrence is not None
            self.assertEqual((find_code(recurrence), recurrence.phases[0]), (code, cells))

    def test_texts(self) -> None:
        """`read_wechsler` and `census show` can read what `write_wechsler` writes. Runs of dead
        columns have their shortest form."""
        written = [text for cells in patterns() if (text := write_wechsler(cells)) is not None]
        for cells, text, shown in zip(
            patterns(), written, asked([(["show", text], "") for text in written]), strict=True
        ):
            self.assertEqual(
                (read_wechsler(text), drawn_cells(shown)),
                (move_to_corner(cells), move_to_corner(cells)),
            )
        wide = frozenset([(0, 0), (39, 0), (0, 39)])
        self.assertEqual(
            (
                write_wechsler(wide),
                write_wechsler(wide | {(40, 0)}),
                write_wechsler(wide | {(0, 40)}),
            ),
            ("1yy1zzzzzzzg", None, None),
        )
        for runs, text in ((1, "101"), (2, "1w1"), (3, "1x1"), (4, "1y01"), (38, "1yy1")):
            self.assertEqual(write_wechsler(frozenset([(0, 0), (runs + 1, 0)])), text)

    def test_texts_that_draw_nothing(self) -> None:
        """`read_wechsler` returns `None` for texts that `census show` refuses, and for patterns
        that are larger than what `census run` reads."""
        for text in ("", "0", "z", "y0", "1y", "1A", "_1", "1_", "1y-", "w0zx"):
            self.assertIsNone(read_wechsler(text))
        # A run of 39 dead columns is written `yz`. Between the two live cells there are 998 dead
        # columns in the first text, and 999 in the second.
        row = "1" + "yz" * 25 + "yj"
        self.assertEqual((39 * 25 + 4 + 19, SIDE), (998, 1000))
        self.assertEqual(read_wechsler(row + "1"), frozenset([(0, 0), (999, 0)]))
        self.assertIsNone(read_wechsler(row + "01"))
        self.assertEqual(read_wechsler("z" * 199 + "1" + "z0g"), frozenset([(0, 995), (1, 1004)]))
        self.assertIsNone(read_wechsler("1" + "z" * 200 + "1"))


class Generations(unittest.TestCase):
    def test_drawn_patterns(self) -> None:
        """Each pattern is advanced by one, two or three generations. If the result is moved to the
        corner, it is the pattern that `census run` prints."""
        calls, wanted = [], []
        for place, cells in enumerate(patterns()):
            name, later = RULES[place % len(RULES)], cells
            for _ in range(1 + place % 3):
                later = advance(read_rule(name), later)
            calls.append((["run", f"--rule={name}", str(1 + place % 3)], plaintext(cells)))
            wanted.append(later)
        for printed, later in zip(asked(calls), wanted, strict=True):
            self.assertEqual(drawn_cells(printed), move_to_corner(later) if later else frozenset())

    def test_a_generation_stays_in_its_place(self) -> None:
        """`advance` doesn't move a pattern. A blinker turns around its middle cell. Under B1/S0, a
        single cell survives and its eight neighbours are born. Under B/S, a single cell dies."""
        self.assertEqual(
            advance(read_rule("b3s23"), frozenset([(-1, 7), (0, 7), (1, 7)])),
            {(0, 6), (0, 7), (0, 8)},
        )
        self.assertEqual(
            advance(read_rule("b1s0"), frozenset([(5, 5)])),
            {(x, y) for x in (4, 5, 6) for y in (4, 5, 6)},
        )
        self.assertEqual(advance(read_rule("bs"), frozenset([(5, 5)])), frozenset())

    def test_how_patterns_recur(self) -> None:
        """A single cluster that recurs within eight generations has the code that `census name`
        gives it. For any other pattern, `census name` prints no object or several."""
        most = ["--period=8", "--horizon=8"]
        calls = [
            (["name", "--limit=0", *most, f"--rule={RULES[place % len(RULES)]}"], plaintext(cells))
            for place, cells in enumerate(patterns())
        ]
        recurring = 0
        for place, (cells, text) in enumerate(zip(patterns(), asked(calls), strict=True)):
            recurrence = (
                find_recurrence(read_rule(RULES[place % len(RULES)]), cells, 8)
                if is_cluster(cells)
                else None
            )
            known = {find_code(recurrence): 1} if recurrence is not None else None
            objects = found(text)
            self.assertEqual(known, dict(objects) if objects.total() == 1 else None)
            recurring += known is not None
        self.assertGreater(recurring, 100)

    def test_kinds(self) -> None:
        """Checks the kind, the period, the phases and the shift of a block, a blinker and a
        glider."""
        for code, kind, period, shift in (
            ("33", "s", 1, (0, 0)),
            ("7", "p", 2, (0, 0)),
            ("153", "q", 4, (1, -1)),
        ):
            cells = read_wechsler(code)
            assert cells is not None
            recurrence = find_recurrence(read_rule("b3s23"), cells)
            assert recurrence is not None
            self.assertEqual(
                (recurrence.kind(), recurrence.period, len(recurrence.phases)),
                (kind, period, period),
            )
            later = cells
            for phase in recurrence.phases:
                self.assertEqual(phase, later)
                later = advance(read_rule("b3s23"), later)
            self.assertEqual(
                (later, sorted(abs(way) for way in recurrence.shift)),
                (move(cells, recurrence.shift), sorted(abs(way) for way in shift)),
            )

    def test_the_longest_period(self) -> None:
        """The longest period that a census finds is 64. A pulsar recurs after 3 generations, so it
        is found if `most` is at least 3. A pattern that dies or turns into another object never
        recurs."""
        self.assertEqual(MOST_PERIOD, 64)
        pulsar = read_wechsler("co9nas0san9oczgoldlo0oldlogz1047210127401")
        assert pulsar is not None
        self.assertEqual(
            [
                find_recurrence(read_rule("b3s23"), pulsar, most) is not None
                for most in (1, 2, 3, 4, 64)
            ],
            [False, False, True, True, True],
        )
        self.assertIsNone(find_recurrence(read_rule("b3s23"), drawn_cells("OO\nO.")))
        self.assertIsNone(find_recurrence(read_rule("b3s23"), frozenset([(0, 0)])))
        self.assertIsNone(find_recurrence(read_rule("b3s23"), frozenset()))

    def test_what_outgrows_the_plane(self) -> None:
        """A pattern that is larger than 1,000 by 1,000 cells doesn't count as recurring."""
        row = frozenset((x, 0) for x in range(0, SIDE))
        self.assertTrue(
            fits_in(row, SIDE)
            and not fits_in(row, SIDE - 1)
            and not fits_in(row | {(SIDE, 0)}, SIDE)
        )
        self.assertIsNone(find_recurrence(read_rule(STILL), row | {(SIDE, 0)}))
        self.assertIsNotNone(find_recurrence(read_rule(STILL), row))


class Clusters(unittest.TestCase):
    def test_clusters_and_islands(self) -> None:
        """Under `STILL`, `census name` counts each cluster of a pattern as an object. If a pattern
        is stretched by two, cells that touched are at distance 2, and all other cells are at
        distance 4 or more. So the clusters of the stretched pattern are the islands of the original
        pattern."""
        stretched = [frozenset((2 * x, 2 * y) for x, y in cells) for cells in patterns()]
        # A longer horizon makes no difference under `STILL`, since no pattern changes.
        short = ["--period=1", "--horizon=1"]
        clusters = asked(
            [
                (["name", "--limit=0", *short, f"--rule={STILL}"], plaintext(cells))
                for cells in patterns()
            ]
        )
        islands = asked(
            [
                (["name", "--limit=0", *short, f"--rule={STILL}"], plaintext(cells))
                for cells in stretched
            ]
        )
        for cells, one, other in zip(patterns(), clusters, islands, strict=True):
            self.assertEqual(is_cluster(cells), found(one).total() == 1)
            known = [
                find_recurrence(read_rule(STILL), frozenset((2 * x, 2 * y) for x, y in island))
                for island in find_islands([cells])
            ]
            self.assertEqual(Counter(find_code(one) for one in known if one), found(other))
        self.assertFalse(is_cluster(frozenset()))

    def test_islands_of_several_phases(self) -> None:
        """Cells that touch in a later phase belong to one island. A cell that is alive in two
        phases links its neighbours in both. Two adjacent cells don't touch if they are never alive
        in the same phase. A set without cells in phase 0 isn't an island."""
        a, b, far, between = (0, 0), (3, 0), (9, 9), frozenset([(1, 0), (2, 0)])
        self.assertEqual(find_islands([frozenset([b, a, far])]), [{a}, {b}, {far}])
        self.assertEqual(find_islands([frozenset([a, b, far]), between | {a, b}]), [{a, b}, {far}])
        self.assertEqual(find_islands([frozenset([a, b]), between]), [{a}, {b}])
        self.assertEqual(
            find_islands(
                [frozenset([a, b]), frozenset([a, (1, 0)]), frozenset([(1, 0), (2, 0), b])]
            ),
            [{a, b}],
        )
        self.assertEqual(find_islands([frozenset([a]), frozenset([a, far])]), [{a}])


class Shapes(unittest.TestCase):
    def test_images(self) -> None:
        """`list_orientations` returns the eight orientations in docs/FORMATS.md. The test moves
        them to the corner."""
        wanted = [
            "OOO\nO..",
            "OO\n.O\n.O",
            "..O\nOOO",
            "O.\nO.\nOO",
            "OOO\n..O",
            "O..\nOOO",
            "OO\nO.\nO.",
            ".O\n.O\nOO",
        ]
        images = [move_to_corner(image) for image in list_orientations(drawn_cells("OOO\nO.."))]
        self.assertEqual((set(images), len(images)), (set(map(drawn_cells, wanted)), 8))

    def test_shifts(self) -> None:
        one = frozenset([(2, 5), (3, 7), (6, 6)])
        self.assertEqual(
            [find_shift(one, move(one, shift)) for shift in ((0, 0), (3, -2), (-7, 0))],
            [(0, 0), (3, -2), (-7, 0)],
        )
        self.assertIsNone(find_shift(one, move(one, (1, 1)) | {(9, 9)}))
        self.assertIsNone(find_shift(one, frozenset([(2, 5), (3, 7), (6, 7)])))

    def test_no_text(self) -> None:
        """If no phase of an object fits in 40 by 40 cells, the code of the object is only a
        prefix."""
        large = frozenset((x, 0) for x in range(41))
        recurrence = find_recurrence(read_rule(STILL), large)
        assert recurrence is not None
        self.assertEqual(find_code(recurrence), "ov_s41")


class Soups(unittest.TestCase):
    def test_a_thousand(self) -> None:
        """`make_soup` makes the same soups as `census soup`, for several seeds, and for numbers of
        one to twelve digits."""
        draw = random.Random("soups")
        asks = [
            (
                draw.choice(["", "a", "k_abcdefghijkl", "7"]),
                draw.randrange(10 ** draw.randint(1, 12)),
            )
            for _ in range(1000)
        ]
        calls = [(["soup", f"--seed={seed}", str(number)], "") for seed, number in asks]
        for (seed, number), printed in zip(asks, asked(calls), strict=True):
            self.assertEqual(trim_rows(make_soup(f"{seed}{number}")), printed.splitlines())

    def test_trimmed(self) -> None:
        self.assertEqual(
            (
                trim_rows(["....", "..O.", "....", ".OO.", "...."]),
                trim_rows(["...", "..."]),
                trim_rows([]),
            ),
            ([".O", "..", "OO"], [], []),
        )


if __name__ == "__main__":
    unittest.main()
