"""`haul why`: the fates of soups and patterns, as defined in docs/HAUL-DETAILS.md."""

from __future__ import annotations

import csv
import io
import json
import os
import signal
import tempfile
import unittest
from collections.abc import Iterator
from pathlib import Path
from unittest.mock import patch

from haul.census.children import children
from haul.census.forks import work_apart
from haul.fates import rest
from haul.fates.fate import MOST_LIMIT, Fate, Kind, tell_activity
from haul.fates.growth import (
    GENERATIONS,
    MOST_CYCLE,
    Growth,
    find_cycle_of_sizes,
    is_growing,
    name_engine,
)
from haul.fates.rest import Rest, look_for_rest
from haul.fates.sizes import Size
from haul.formats.profile import STANDARD
from haul.life import field as field_module
from haul.life.cells import Cells
from haul.life.field import Field, pack, unpack_all
from haul.life.generations import advance, read_rule
from haul.life.groups import Watched, split_clusters
from haul.life.soups import make_soup
from haul.patterns.rle import read_rle
from haul.tests.called import CENSUS, census, run

LIFE = read_rule("b3s23")
QUEEN_BEE_SHUTTLE = "9b2o$9bobo$4b2o6bo7b2o$2obo2bo2bo2bo7b2o$2o2b2o6bo$9bobo$9b2o!"
TWIN_BEES_SHUTTLE = "17b2o$2o15bobo7b2o$2o17bo7b2o$17b3o4$17b3o$2o17bo7b2o$2o15bobo7b2o$17b2o!"
COES_P8 = "2o10b$2o2b2o6b$5b2o5b$4bo2bo4b$7bo2b2o$5bobo2b2o!"
GUN = (
    "24bo$22bobo$12b2o6b2o12b2o$11bo3bo4b2o12b2o$2o8bo5bo3b2o$2o8bo3bob2o4bobo$10bo5bo7bo$"
    "11bo3bo$12b2o!"
)
REPLICATOR = "x = 5, y = 5, rule = B36/S23\n2b3o$bo2bo$o3bo$o2bo$3o!"
PULSAR = "2b3o3b3o2$o4bobo4bo$o4bobo4bo$o4bobo4bo$2b3o3b3o2$2b3o3b3o$o4bobo4bo$o4bobo4bo$o4bobo4bo2$2b3o3b3o!"
OCTAGON_2 = "3b2o$2bo2bo$bo4bo$o6bo$o6bo$bo4bo$2bo2bo$3b2o!"
# A glider that flies towards a block.
TO_A_BLOCK = "bo$2bo$3o48$50b2o$50b2o!"


def cells_of(rle: str) -> set[int]:
    rows = read_rle(rle.encode()).rows
    return {pack((x, y)) for y, row in enumerate(rows) for x, c in enumerate(row) if c == "O"}


def cells_of_rows(text: str) -> set[int]:
    return {
        pack((x, y))
        for y, row in enumerate(text.split("\n"))
        for x, c in enumerate(row)
        if c == "O"
    }


def why(*words: str, text: str = "") -> tuple[int, str, str]:
    """Calls `haul why`. There is no bound of time, since many tests may run at once."""
    return run("why", "--soup-seconds=0", *words, "--census", CENSUS, text=text.encode("latin-1"))


def why_pattern(text: str, *words: str) -> str:
    """Returns what is printed about a pattern."""
    status, output, errors = why("--pattern", "-", *words, text=text)
    assert (status, errors) == (0, ""), errors
    return output.removeprefix("- ").removesuffix("\n")


class Fields(unittest.TestCase):
    """Tests `Field`, which runs patterns."""

    def test_as_the_model(self) -> None:
        """`Field` gives the same generations as `advance` under several rules. It also says which
        cells have changed."""
        for rule_text in ("b3s23", "b36s23", "b2s", "b1s012345678", "b3678s34678", "b3s023"):
            rule = read_rule(rule_text)
            for soup in range(3):
                rows = make_soup(f"field{soup}")
                cells: Cells = frozenset(
                    (x - 8, y - 8)
                    for y, row in enumerate(rows)
                    for x, c in enumerate(row)
                    if c == "O"
                )
                field = Field(rule, map(pack, cells))
                for _ in range(20):
                    before = set(field.live)
                    change = field.step()
                    cells = advance(rule, cells)
                    self.assertEqual(unpack_all(field.live), cells)
                    self.assertEqual(set(change.births), field.live - before)
                    self.assertEqual(set(change.deaths), before - field.live)


def plain_groups(cells: set[int], generations: int) -> set[frozenset[tuple[int, int]]]:
    """Returns the groups of a pattern, found directly from the definition. A group is a set of
    cells, each with a generation in which it is alive."""
    field = Field(LIFE, cells)
    live = {(cell, 0) for cell in cells}
    for generation in range(1, generations + 1):
        field.step()
        live |= {(cell, generation) for cell in field.live}
    steps = [pack((x, y)) for x in range(-2, 3) for y in range(-2, 3)]
    groups = set()
    while live:
        reached = [live.pop()]
        group = set(reached)
        while reached:
            cell, generation = reached.pop()
            near = {(cell + step, generation + later) for step in steps for later in (-1, 0, 1)}
            found = near & live
            live -= found
            group |= found
            reached += found
        groups.add(frozenset(group))
    return groups


class Groups(unittest.TestCase):
    def test_by_the_definition(self) -> None:
        for text in ("why1", "why2", "why3"):
            field = Field(LIFE, cells_of_rows("\n".join(make_soup(text))))
            for _ in range(300):
                field.step()
            cells = set(field.live)
            for generations in (0, 1, 12):
                found = {
                    frozenset(
                        (cell, generation)
                        for cell, (first, last) in group.stays
                        for generation in range(first, last + 1)
                    )
                    for group in Watched(Field(LIFE, cells), generations).groups()
                }
                self.assertEqual(found, plain_groups(cells, generations))

    def test_clusters(self) -> None:
        cells = cells_of_rows("O..O.O\n......\n\n.O")
        self.assertEqual(sorted(map(len, split_clusters(cells))), [1, 1, 2])


class WiderRest(unittest.TestCase):
    def test_objects_that_fall_apart(self) -> None:
        for rle, code in (
            (QUEEN_BEE_SHUTTLE, "xp30_w33z8kqrqk8zzzx33"),
            (TWIN_BEES_SHUTTLE, "xp46_033y133zzzckgsxsgkczz0ccy1cc"),
            (COES_P8, "xp8_wgovnz234z33"),
        ):
            found = look_for_rest(LIFE, cells_of(rle), STANDARD)
            self.assertEqual(found and [one.code for one in found.apart], [code])

    def test_objects_that_a_census_knows(self) -> None:
        """Objects that a census knows aren't reported, even if they are several clusters in some
        phases, or are near one another."""
        for rle in ("2o$2o!", "3o!", PULSAR, "bo$2bo$3o!", "2o3b2o$2o3b2o!", "3o4$3o!", "10o!"):
            field = Field(LIFE, cells_of(rle))
            for _ in range(40):
                field.step()
            self.assertEqual(look_for_rest(LIFE, field.live, STANDARD), Rest(), rle)

    def test_two_that_blink_by_themselves(self) -> None:
        """No cells of the two blinkers are near one another in the same generation. But some cells
        of one blinker are near cells that the other has a generation later, so the blinkers are one
        group. The group isn't an object that falls apart, since each of its clusters evolves in the
        same way if it is run by itself."""
        cells = cells_of_rows("OOO.....\n.....O..\n.....O..\n.....O..")
        groups = Watched(Field(LIFE, cells), 2).groups()
        self.assertEqual(len(groups), 1)
        self.assertEqual(len(split_clusters(cells)), 2)
        self.assertEqual(look_for_rest(LIFE, cells, STANDARD), Rest())

    def test_sparks_dont_count(self) -> None:
        """A group that has died when the groups are examined makes no difference."""
        cells = cells_of_rows("OO......O\nOO.......")
        self.assertEqual(look_for_rest(LIFE, cells, STANDARD), Rest())

    def test_what_doesnt_recur(self) -> None:
        self.assertIsNone(look_for_rest(LIFE, cells_of(GUN), STANDARD))

    def test_periods(self) -> None:
        """An object whose period is longer than a census looks for is reported with its period."""
        short = STANDARD._replace(period=2)
        self.assertEqual(look_for_rest(LIFE, cells_of(PULSAR), short), Rest(periods=[3]))
        few = STANDARD._replace(period=4)
        with patch.object(rest, "PERIOD", 4):
            self.assertEqual(look_for_rest(LIFE, cells_of(OCTAGON_2), few), Rest(periods=[5]))
            with patch.object(rest, "LONG_PERIOD", 4):
                self.assertIsNone(look_for_rest(LIFE, cells_of(OCTAGON_2), few))

    def test_many_cells(self) -> None:
        """A pattern that grows too large isn't run any further."""
        rule = read_rule("b1s012345678")
        with patch.object(field_module, "MOST_CELLS", 500):
            self.assertIsNone(look_for_rest(rule, cells_of("o!"), STANDARD))

    def test_meetings(self) -> None:
        """`look_for_rest` finds the generation in which a glider comes near a block, up to
        generation 512. The test runs the glider alone to find this generation, too."""
        for away in (60, 100, 150):
            glider = {cell + pack((-away, -away)) for cell in cells_of("bo$2bo$3o!")}
            block = cells_of("2o$2o!")
            field, near = Field(LIFE, glider), {
                cell + pack((x, y)) for cell in block for x in range(-2, 3) for y in range(-2, 3)
            }
            generation = 0
            while not field.live & near:
                field.step()
                generation += 1
            found = look_for_rest(LIFE, glider | block, STANDARD)
            self.assertEqual(found, Rest(meeting=generation) if generation <= 512 else Rest())

    def test_the_horizon(self) -> None:
        glider = {cell + pack((-150, -150)) for cell in cells_of("bo$2bo$3o!")}
        cells = glider | cells_of("2o$2o!")
        self.assertEqual(look_for_rest(LIFE, cells, STANDARD), Rest())
        found = look_for_rest(LIFE, cells, STANDARD._replace(horizon=1000))
        self.assertIsNotNone(found and found.meeting)


class Growths(unittest.TestCase):
    def sizes(self, step: int, cycle: int) -> list[int]:
        return [
            100 + generation // cycle * step + generation % cycle
            for generation in range(GENERATIONS + MOST_CYCLE + 1)
        ]

    def test_the_least_cycle(self) -> None:
        for step, cycle in ((16, 144), (59, 384), (5, 30), (1, 1), (7, 2880)):
            self.assertEqual(find_cycle_of_sizes(self.sizes(step, cycle)), Growth(step, cycle))

    def test_what_isnt_linear(self) -> None:
        self.assertEqual(find_cycle_of_sizes(self.sizes(0, 30)), Growth(0, 30))
        self.assertIsNone(find_cycle_of_sizes(self.sizes(-3, 30)))
        self.assertIsNone(find_cycle_of_sizes(self.sizes(1, 2881)))
        for changed in (0, GENERATIONS // 2, GENERATIONS):
            sizes = self.sizes(5, 30)
            sizes[changed] += 1
            self.assertIsNone(find_cycle_of_sizes(sizes))
        sizes = self.sizes(5, 30)
        sizes[-1] += 1
        self.assertEqual(find_cycle_of_sizes(sizes), Growth(5, 30))

    def test_engines(self) -> None:
        block_laying, glider_producing = (
            "block-laying switch engine",
            "glider-producing switch engine",
        )
        for cells, generations, name in (
            (16, 144, block_laying),
            (32, 288, block_laying),
            (59, 384, glider_producing),
            (5, 30, None),
        ):
            self.assertEqual(name_engine(Growth(cells, generations), set()), name)


class Hints(unittest.TestCase):
    """Tests the limit that is suggested for a pattern that is still active."""

    def test_larger_limit(self) -> None:
        size = Size(9, 5, 4)
        for limit, more in ((0, 30_300), (20_000, 40_000), (MOST_LIMIT - 1, MOST_LIMIT)):
            told = f"9 cells, 5 by 4; try --limit {more}"
            self.assertEqual(tell_activity(size, limit, False).why, told)
        self.assertEqual(tell_activity(size, MOST_LIMIT, False).why, "9 cells, 5 by 4")

    def test_none_for_a_pattern_that_grows(self) -> None:
        self.assertEqual(tell_activity(Size(9, 5, 4), 0, True).why, "9 cells, 5 by 4")

    def test_growth(self) -> None:
        """A population that falls now and then may grow, but one that stops doesn't."""
        grows = [generation**2 // 1000 + generation % 7 for generation in range(800, 2400)]
        # It stops in the last of the parts, or just before the last but one.
        late, early = ([*grows[:end], *[grows[end]] * (1600 - end)] for end in (1210, 1190))
        for populations, expected in (
            (grows, True),
            (late, True),
            (early, False),
            (grows[::-1], False),
            ([5] * 16, False),
            ([generation % 100 for generation in range(800)], False),
        ):
            self.assertEqual(is_growing(populations), expected)


class Told(unittest.TestCase):
    """Tests what is printed, with the census program."""

    def test_each_kind(self) -> None:
        limit = ["--limit", "1010"]
        cases: list[tuple[str, list[str], str]] = [
            ("OO\nOO\n", [], "settled 0"),
            (
                QUEEN_BEE_SHUTTLE,
                limit,
                "falls apart: xp30_w33z8kqrqk8zzzx33 (queen bee shuttle, with blocks)",
            ),
            (PULSAR, [*limit, "--period=2"], "period 3"),
            (TO_A_BLOCK, ["--limit=0"], "collides soon: generation 21"),
            (GUN, limit, "linear growth: +5 cells in 30 generations (Gosper glider gun)"),
            (REPLICATOR, limit, "still active: 1,216 cells, 337 by 337; try --limit 30300"),
        ]
        for text, words, told in cases:
            found = why_pattern(text, *words)
            if told.startswith("still active"):
                self.assertRegex(
                    found, r"^still active: [\d,]+ cells, [\d,]+ by [\d,]+; try --limit 30300$"
                )
            elif told.startswith("collides"):
                self.assertRegex(found, r"^collides soon: generation \d+$")
            else:
                self.assertEqual(found, told)

    def test_a_pattern_that_grows_is_not_taken_apart(self) -> None:
        with patch("haul.fates.inquiry.look_for_rest") as looked:
            told = why_pattern(GUN, "--limit=1010")
        self.assertEqual(told, "linear growth: +5 cells in 30 generations (Gosper glider gun)")
        looked.assert_not_called()

    def test_it_settles_after_the_limit(self) -> None:
        """A blocker is one cluster in two of its eight phases, and two clusters in the others. With
        a limit of 0, it settles in generation 0 if it begins in one of those two phases, otherwise
        after the limit."""
        blocker = census("show", "xp8_g3jgz1ut").decode()
        field, texts = Field(LIFE, cells_of_rows(blocker)), set()
        for _ in range(8):
            cells = unpack_all(field.live)
            rows = "".join(f"{x} {y}\n" for x, y in cells)
            texts.add(why_pattern(rows, "--limit=0"))
            field.step()
        self.assertEqual(texts, {"settled 0", "settles after 0"})

    def test_a_pattern_that_dies(self) -> None:
        self.assertEqual(look_for_rest(LIFE, set(), STANDARD), Rest())
        self.assertEqual(why_pattern("OO\n", "--limit=5", "--stride=7"), "settles after 5")

    def test_several_objects(self) -> None:
        shuttle = cells_of(QUEEN_BEE_SHUTTLE)
        both = shuttle | {cell + pack((0, 40)) for cell in shuttle}
        both |= {cell + pack((40, 0)) for cell in cells_of(COES_P8)}
        text = "".join(f"{x} {y}\n" for x, y in unpack_all(both))
        self.assertEqual(
            why_pattern(text, "--limit=101"),
            "falls apart: 2 xp30_w33z8kqrqk8zzzx33 (queen bee shuttle, with blocks), "
            "xp8_wgovnz234z33 (Coe's p8)",
        )

    def test_formats_of_a_pattern(self) -> None:
        gliders = "bo$2bo$3o!", ".O.\n..O\nOOO\n", "1 0\n2 1\n0 2\n1 2\n2 2\n"
        self.assertEqual({why_pattern(text) for text in gliders}, {"settled 0"})
        # The rule in a header is used, unless another rule is given. A blinker dies under B3/S,
        # where no cell survives.
        header = "x = 3, y = 1, rule = B3/S\n3o!"
        self.assertEqual(why_pattern(header), "settled 101")
        self.assertEqual(why_pattern(header, "--rule=b3s23"), "settled 0")

    def test_soups(self) -> None:
        status, output, errors = why("603", "1", "--limit", "7070")
        self.assertEqual((status, errors), (0, ""))
        first, second = output.splitlines()
        self.assertRegex(
            first, r"^603 still active: [\d,]+ cells, [\d,]+ by [\d,]+; try --limit 30300$"
        )
        self.assertRegex(second, r"^1 settled \d+$")
        self.assertEqual(why("+1")[1].split()[0], "1")

    def test_an_engine(self) -> None:
        self.assertEqual(
            why("33569")[1],
            "33569 linear growth: +59 cells in 384 generations (glider-producing switch engine)\n",
        )

    def test_csv_and_json(self) -> None:
        words = ["--seed=a", "--rule=b36s23", "--limit=101", "5"]
        heads, row = csv.reader(io.StringIO(why("--csv", *words)[1]))
        self.assertEqual(heads, ["soup", "kind", "why", "seed", "rule", "profile"])
        self.assertEqual(row[0], "5")
        self.assertEqual(row[3:], ["a", "b36s23", "64,512,101,101"])
        known = json.loads(why("--json", *words)[1])
        self.assertEqual(
            known,
            {
                "seed": "a",
                "rule": "b36s23",
                "profile": [64, 512, 101, 101],
                "fates": [{"soup": 5, "kind": row[1], "why": row[2]}],
            },
        )
        output = why("--csv", "--pattern=-", text="OO\nOO\n")[1]
        self.assertEqual(
            output.splitlines(),
            ["pattern,kind,why,rule,profile", '-,settled,0,b3s23,"64,512,101,30300"'],
        )


class Files(unittest.TestCase):
    """Tests files of report lines."""

    JOB = "rule=b3s23 profile=64,512,101,101 seed="

    def file(self, *lines: str) -> str:
        folder = tempfile.TemporaryDirectory()
        self.addCleanup(folder.cleanup)
        path = Path(folder.name) / "x.late"
        path.write_text("".join(f"{line}\n" for line in lines))
        return str(path)

    def lines(self, *soups: int) -> Iterator[str]:
        for soup in soups:
            yield f"report 2 {self.JOB} worker=1 soup={soup} unsettled"

    def test_unsettled_soups_of_a_file(self) -> None:
        settled = f"report 2 {self.JOB} worker=1 soup=9 at=101 good=yes"
        name = self.file(*self.lines(2, 1), settled)
        status, output, errors = why(name)
        self.assertEqual((status, errors), (0, ""))
        self.assertEqual([line.split()[0] for line in output.splitlines()], ["1", "2"])
        self.assertEqual(output, why("1", "2", "--limit=101")[1])
        self.assertEqual(why("--most=1", name)[1], why("1", "--limit=101")[1])
        self.assertEqual(why("--most=0", name)[1], "")

    def test_the_first_twenty(self) -> None:
        found = Fate(Kind.ACTIVE, "")
        with patch("haul.fates.explain.Fates.find", return_value=found):
            name = self.file(*self.lines(*range(25)))
            self.assertEqual(len(why(name)[1].splitlines()), 20)
            self.assertEqual(len(why("--most=22", name)[1].splitlines()), 22)

    def test_a_soup_that_has_settled(self) -> None:
        settled = census("work", "--worker=1", "--limit=101", "--count=40").decode().splitlines()
        soup = next(int(line.split("soup=")[1].split()[0]) for line in settled if " at=" in line)
        name = self.file(*self.lines(soup))
        status, output, errors = why(name)
        self.assertEqual(
            (status, errors),
            (0, f"haul: {name}: soup {soup} isn't unsettled: its line is wrong\n"),
        )
        self.assertRegex(output, rf"^{soup} settled \d+\n$")
        status, output, errors = run("soups", "--unsettled", "--why", "--census", CENSUS, name)
        self.assertEqual(
            (status, errors), (0, f"haul: soup {soup} isn't unsettled: its line is wrong\n")
        )
        self.assertTrue(output.endswith("  settled\n"))

    def test_bad_lines(self) -> None:
        name = self.file("nothing", *self.lines(1))
        status, output, errors = why(name)
        self.assertEqual((status, errors), (0, f"haul: {name}: line 1: bad line at 0\n"))
        self.assertEqual(output, why("1", "--limit=101")[1])
        self.assertEqual(why(self.file()), (0, "", ""))
        # Without any report line, the file is refused in one line.
        status, output, errors = why(self.file("nothing", "more"))
        self.assertEqual((status, output, errors.count("\n")), (3, "", 1))
        self.assertTrue(
            errors.endswith("no report lines, which `census work` and `haul search` write\n")
        )
        # A damaged report line is still one.
        lines = [line.replace("unsettled", "unsettle") for line in self.lines(1)]
        status, output, errors = why(self.file(*lines))
        self.assertEqual((status, output), (0, ""))
        self.assertRegex(errors, r": line 1: bad line at \d+\n$")

    def test_a_column_of_soups(self) -> None:
        text = "".join(f"{line}\n" for line in self.lines(1, 2)).encode()
        words = ("soups", "--unsettled", "--why", "--census", CENSUS)
        status, output, errors = run(*words, text=text)
        self.assertEqual((status, errors), (0, ""))
        head, *rows = output.splitlines()[2:]
        self.assertEqual(head.split(), ["soup", "generation", "population", "growth", "kind"])
        kinds = [
            line.split(" ", 1)[1].split(":")[0]
            for line in why("1", "2", "--limit=101")[1].splitlines()
        ]
        self.assertEqual([" ".join(row.split()[4:]) for row in rows], kinds)
        known = json.loads(run(*words, "--json", text=text)[1])["growth"]
        self.assertEqual([one["kind"] for one in known], kinds)


class Refused(unittest.TestCase):
    def test_arguments(self) -> None:
        cases: list[tuple[list[str], str]] = [
            ([], "a soup, a FILE, --pattern or --keep is needed"),
            ([""], "an empty path"),
            (["--pattern=", "1"], "an empty path"),
            (["--pattern=-", "1"], "--pattern doesn't go with soups or a FILE"),
            (["--pattern=-", "--seed=a"], "--pattern doesn't go with --seed"),
            (["x.late", "1"], "a FILE doesn't go with soups or another FILE"),
            (["x.late", "y.late"], "a FILE doesn't go with soups or another FILE"),
            (["--seed=a", "x.late"], "a FILE has a seed, a rule and a profile"),
            (["--limit=9", "x.late"], "a FILE has a seed, a rule and a profile"),
            (["--most=3", "1"], "--most needs a FILE"),
            (["--horizon=3", "1"], "the horizon is below the period"),
            (["1099511627776"], "1099511627776 is not in 0 to 1099511627775"),
            (["--limit=100001", "1"], "100001 is not in 0 to 100000"),
        ]
        for words, line in cases:
            status, output, errors = run("why", *words)
            self.assertEqual((status, output), (2, ""), words)
            self.assertIn(line, errors)

    def test_limits(self) -> None:
        line = "haul: the limit 88481 is above 88480, the most for `haul why`\n"
        self.assertEqual(why("--limit=88481", "1"), (3, "", line))
        self.assertEqual(why("--limit=88481", "--pattern=-", text="OO"), (3, "", line))
        report = "report 2 rule=b3s23 profile=64,512,101,88481 seed= worker=1 soup=1 unsettled\n"
        self.assertEqual(why("-", text=report), (3, "", line))
        words = ("soups", "--unsettled", "--why", "--census", CENSUS)
        with patch("haul.views.soup_lists.measure_growths", return_value=iter([(1, 2, 3)])):
            self.assertEqual(run(*words, text=report.encode()), (3, "", line))

    def test_large_patterns(self) -> None:
        line = "haul: pattern larger than 1000 by 1000\n"
        self.assertEqual(why("--pattern=-", text="0 0\n1000 0\n"), (3, "", line))
        self.assertEqual(why("--pattern=-", text="0 -1\n0 999\n"), (3, "", line))
        self.assertEqual(why("--pattern=-", text="." * 1001), (3, "", line))
        status, _, errors = why("--pattern=-", text="1001o!")
        self.assertEqual((status, "1000th column" in errors), (3, True))
        self.assertEqual(why("--pattern=-", text="-1 0\n998 999\n")[:2], (0, "- settled 101\n"))

    def test_bad_patterns(self) -> None:
        self.assertEqual(
            why("--pattern=-", text="1 2\n1\n"),
            (3, "", "haul: bad coordinates at line 2 column 2\n"),
        )
        self.assertEqual(why("--pattern=/nowhere/x")[0], 5)
        self.assertEqual(why("/nowhere/x.late")[0], 5)

    def test_another_program(self) -> None:
        with tempfile.TemporaryDirectory() as folder:
            path = Path(folder) / "stub"
            for script in (
                "echo x",
                "[ $1 = name ] && echo unsettled || echo x",
                "case $* in name*) echo unsettled ;; *coord*) printf '1 0\\n2 0\\n0 1\\n1 1\\n1 2\\n' ;; *) echo 1 1 ;; esac",
            ):
                path.write_text(f"#!/bin/sh\n{script}\n")
                path.chmod(0o755)
                status, _, errors = run("why", "--census", str(path), "1")
                self.assertEqual((status, errors), (2, f"haul: no census at {path}\n"), script)


class Processes(unittest.TestCase):
    def test_results(self) -> None:
        self.assertEqual(work_apart(lambda: (os.getppid(), [1])), (os.getpid(), [1]))
        self.assertEqual(len(work_apart(lambda: "x" * 10**6)), 10**6)

    def test_faults(self) -> None:
        def fail() -> None:
            raise MemoryError

        self.assertRaises(MemoryError, work_apart, fail)
        with self.assertRaises(OSError):
            work_apart(lambda: os.kill(os.getpid(), signal.SIGKILL))
        with self.assertRaises(OSError), patch("os.fork", side_effect=OSError):
            work_apart(lambda: 1)
        self.assertEqual(children.running, [])


if __name__ == "__main__":
    unittest.main()
