"""Parts of objects, totals by parts, names, and labels that are made from parts."""

from __future__ import annotations

import csv
import json
import os
import random
import re
import signal
import subprocess
import tempfile
import unittest
from importlib.resources import files
from pathlib import Path
from unittest.mock import patch

from haul.census.children import children
from haul.census.forks import work_apart
from haul.fates.rest import look_for_rest
from haul.formats.profile import STANDARD
from haul.formats.tables import BadTable
from haul.hauls import by_parts
from haul.hauls.by_parts import Objects
from haul.life.bitmaps import read_bitmap
from haul.life.clusters import is_cluster
from haul.life.field import pack
from haul.life.generations import read_rule
from haul.life.parts import BITS, SETS, Separation, Separator, read_object
from haul.life.separations import MOST_ISLANDS, Pattern, Patterns, Separations
from haul.names.labels import describe_parts, find_label, make_plural, mark_label
from haul.names.objects import find_code_of_name, load_names, parse_names
from haul.tests import plain_parts
from haul.tests.called import CENSUS, QUIET, census, run
from haul.tests.test_life import STILL, example
from haul.tests.test_tables import haul

# The objects without a name among the twenty most frequent ones. Their codes show what they are:
# `7` is a column of three cells, `111` a row of three, `33` two columns of two, and `2552` and
# `8kk8` rings of six.
FREQUENT = {
    "xp2_1110s": "2 blinkers",
    "xp2_70ggg07": "3 blinkers",
    "xp2_33ws": "blinker and block",
    "xp2_1118kk8": "blinker and beehive",
    "xs8_330oo": "2 blocks",
    "xs10_25520oo": "block and beehive",
}
LIGHT = "xp2_s01110szw222"
# What objects without a name are labelled with.
NAMELESS, UNSURE = "still life of 12 cells", "oscillator of period 12, not separated"
PULSAR = "xp3_co9nas0san9oczgoldlo0oldlogz1047210127401"
FOLDER = Path(__file__).resolve().parent


def parts(code: str, rule: str = "b3s23") -> Separation:
    return Separator(read_rule(rule)).separate(code)


def strict(code: str) -> Separation:
    return Separation((code,))


def unknown(code: str) -> Separation:
    return Separation((code,), is_separated=False)


# Objects that are several clusters in each phase, so `census` doesn't name them.
FALL_APART = ("queen bee shuttle", "twin bees shuttle", "Coe's p8")


def read_pictures(text: str) -> dict[str, str]:
    """Returns the pictures by name. A line with a name begins with `!`."""
    found = (picture.partition("\n") for picture in text.split("!")[1:])
    return {name: rows for name, _, rows in found}


class Names(unittest.TestCase):
    def test_each_picture_has_the_code(self) -> None:
        """For the picture of each name, `census` prints the code in names.tsv, except for the names
        in `FALL_APART`. In their pictures, `census` finds no object, but `look_for_rest` finds the
        code."""
        pictures = read_pictures((FOLDER / "pictures.txt").read_text())
        names = load_names()
        self.assertEqual(list(pictures), list(names.shown.values()))
        for code, name in names.shown.items():
            with self.subTest(name=name):
                named = subprocess.run(
                    [CENSUS, "name"],
                    input=pictures[name].encode(),
                    stdout=subprocess.PIPE,
                    check=True,
                ).stdout
                settled, *objects = named.decode().splitlines()
                if name in FALL_APART:
                    self.assertEqual((settled, objects), ("unsettled", []))
                    rows = pictures[name].splitlines()
                    live = {
                        pack((x, y))
                        for y, row in enumerate(rows)
                        for x, cell in enumerate(row)
                        if cell == "O"
                    }
                    found = look_for_rest(read_rule("b3s23"), live, STANDARD)
                    self.assertEqual(found and [one.code for one in found.apart], [code])
                    continue
                self.assertTrue(settled.startswith("settled "))
                self.assertEqual(objects, [f"{code} 1"])

    def test_names_abbreviations_and_other_names_are_found(self) -> None:
        for name, code in (
            ("LWSS", "xq4_6frc"),
            ("fishhook", "xs7_178c"),
            ("Twin Hat", "xs17_2ege1ege2"),
            ("twinhat", "xs17_2ege1ege2"),
            ("half bakery", "xs14_g88m952z121"),
            ("prodigal", None),
        ):
            self.assertEqual(find_code_of_name(name), code)

    def test_a_damaged_file_is_refused(self) -> None:
        right = files("haul.names").joinpath("names.tsv").read_bytes()
        for text, why in (
            (b"", "line 1: the table is empty"),
            (right[:-1], f"line {right.count(10)}: no line feed at the end"),
            (right.replace(b"name", b"nome", 1), "line 1: the heads aren't code name also"),
            (right.replace(b"\ttumbler", b" tumbler"), "line 3: not 3 fields"),
            (right.replace(b"tumbler", b"t\xc3\xbcmbler"), "line 3: a byte that isn't ASCII"),
            (right.replace(b"tumbler", b""), "line 3: an empty name, or one of another object"),
            (right.replace(b"tumbler", b"lwss"), "an empty name, or one of another object"),
            (right.replace(b"xp14_", b"xp11_"), "line 3: not a code after the one before it"),
            (right.replace(b"xp14_", b"XP14_"), "line 3: not a code after the one before it"),
        ):
            with self.subTest(why=why), self.assertRaises(BadTable) as bad:
                parse_names(text)
            self.assertIn(why, str(bad.exception))

    def test_plurals(self) -> None:
        for one, more in (
            ("block", "blocks"),
            ("loaf", "loaves"),
            ("half-bakery", "half-bakeries"),
            ("block on table", "blocks on table"),
            ("beehive with tail", "beehives with tail"),
            ("moose antlers", "moose antlers"),
            ("eater 1", "eater 1"),
            ("unix", "unix"),
            ("Kok's galaxy", "Kok's galaxies"),
            ("block and dock", "block and docks"),
        ):
            self.assertEqual(make_plural(one), more)


class Parts(unittest.TestCase):
    def test_pseudo_objects(self) -> None:
        """A bi-block is two blocks, and a traffic light is four blinkers. If a block is beside a
        pulsar, both are parts."""
        pulsar = PULSAR
        for code, wanted in (
            ("xs8_rr", ["xs4_33"] * 2),
            (LIGHT, ["xp2_7"] * 4),
            ("xp2_70ggg07", ["xp2_7"] * 3),
            ("xs10_25520oo", ["xs4_33", "xs6_696"]),
            ("xp3_co9nas0san9ocw33zgoldlo0oldlogz1047210127401", [pulsar, "xs4_33"]),
        ):
            self.assertEqual(parts(code), Separation(tuple(wanted)))

    def test_strict_objects(self) -> None:
        """These objects have only one part: objects with one island, such as a beacon and a
        pentadecathlon; two tables, each of which is unstable by itself; and a pulsar, whose four
        islands aren't parts."""
        for code in (
            "xs4_33",
            "xq4_153",
            "xs12_raar",
            "xp2_318c",
            "xp15_4r4z4r4",
            "xs14_69bqic",
            "xp3_co9nas0san9oczgoldlo0oldlogz1047210127401",
        ):
            self.assertEqual(parts(code), strict(code))

    def test_what_is_not_separated(self) -> None:
        """An object isn't separated if it can't be drawn, doesn't recur as its prefix says, or is
        larger than 1,000 by 1,000 cells."""
        for code in (
            "ov_p12",
            "ov_s400",
            "zz_1",
            "xs4_y",
            "xs5_33",
            "xp2_33",
            "xs3_7",
            "xp3_7",
            "xq4_33",
            "xq3_153",
            "xp1_33",
            "xs4",
            "xs0_0",
            "xp65_7",
            "xp2_1" + "yz" * 30 + "1",
            "yl12_33",
            "xs4_33_",
        ):
            self.assertEqual(parts(code), unknown(code), code)
        self.assertFalse(unknown("ov_p12").is_strict())
        self.assertTrue(strict("xs4_33").is_strict() and not parts("xs8_rr").is_strict())

    def test_many_islands(self) -> None:
        """Under a rule in which no cell is born or dies, each cell of a row with gaps of one cell
        is a part of its own, however many cells there are. For more than `MOST_ISLANDS` islands,
        only the separation into single islands is tried."""
        for count in (MOST_ISLANDS, MOST_ISLANDS + 1, 30):
            row = "0".join("1" * count)
            self.assertEqual(parts(f"xs{count}_{row}", STILL), Separation(("xs1_1",) * count))
        # Six bi-blocks in a row are twelve blocks. Two stacked tables are one part, which has two
        # islands. With eight blocks beside the tables, there are ten islands, and the object is
        # separated. With nine blocks, there are eleven islands, and the object isn't separated.
        self.assertEqual(parts("xs48_" + "rr0" * 6), Separation(("xs4_33",) * 12))
        for blocks, wanted in ((8, Separation(("xs12_raar", *["xs4_33"] * 8))), (9, None)):
            code = f"xs{12 + 4 * blocks}_raar" + "0rr" * (blocks // 2) + "w33" * (blocks % 2)
            self.assertIsNotNone(read_object(read_rule("b3s23"), code))
            self.assertEqual(parts(code), wanted or unknown(code))
            by_definition = Separator(read_rule("b3s23")).separate_by_definition(code)
            self.assertEqual(by_definition, wanted or unknown(code))

    def test_a_part_that_falls_apart(self) -> None:
        """A blocker is one cluster in two of its eight phases, but not in the phase that is drawn.
        The object of this test is a blocker beside a block, and both are its parts."""
        self.assertFalse(is_cluster(read_object(read_rule("b3s23"), "xp8_g3jgz1ut").phases[0]))  # type: ignore[union-attr]
        self.assertEqual(parts("xp8_g3jgy066z1ut"), Separation(("xp8_g3jgz1ut", "xs4_33")))

    def test_the_longest_period(self) -> None:
        for most, is_separated in ((2, False), (3, True)):
            with patch("haul.life.parts.MOST_PERIOD", most), patch(
                "haul.life.quick_parts.MOST_PERIOD", most
            ):
                self.assertEqual(
                    parts("xp3_co9nas0san9oczgoldlo0oldlogz1047210127401").is_separated,
                    is_separated,
                )

    def test_each_condition_of_a_separation(self) -> None:
        """Checks the conditions with a bi-block, as a set of cells and as bits."""
        found = read_object(read_rule("b3s23"), "xs8_rr")
        assert found is not None
        (cells,) = found.phases
        self.assert_conditions(SETS, cells, frozenset([min(cells)]), frozenset([(9, 9)]))
        bits = read_bitmap("rr") or 0
        self.assert_conditions(BITS, bits, bits & -bits, 1 << 9)

    def assert_conditions(
        self, patterns: Patterns[Pattern], two: Pattern, corner: Pattern, far: Pattern
    ) -> None:
        """Checks which runs of the two blocks of `two` are accepted. `corner` is a cell of `two`,
        and `far` is a cell elsewhere."""
        life = read_rule("b3s23")
        blocks = Separations(patterns, life, [two, two])
        one, other = blocks.islands
        self.assertEqual((one | other, one & other), (two, one & far))
        # A block does the same by itself, and so do both blocks. If the object lacks one cell of a
        # block, the other three cells become four, one of which isn't in the object.
        for part in (one, other, two):
            self.assertEqual(blocks.run_alone(part), [part, part])
        three = one ^ corner if one & corner else other ^ corner
        lacking = Separations(patterns, life, [two ^ corner, two ^ corner])
        self.assertIsNone(lacking.run_alone(three))
        # Two cells that die don't recur with the object, and two cells far apart, under a rule in
        # which nothing changes, are no cluster.
        self.assertIsNone(blocks.run_alone(corner | far))
        still = read_rule(STILL)
        self.assertIsNone(Separations(patterns, still, [two | far] * 2).run_alone(corner | far))
        # In a separation, each cell of the object is in exactly one block.
        self.assertTrue(blocks.is_separation([[one, one], [other, other]]))
        for wrong in ([one], [one, one], [one | corner, other | corner], [one, other | far]):
            self.assertFalse(blocks.is_separation([[block, block] for block in wrong]))

    def test_codes_that_are_not_canonical(self) -> None:
        """A part has its canonical code, whatever code the haul has. An object that isn't what its
        code says keeps that code."""
        self.assertEqual(
            (parts("xp2_111").parts, parts("xs6_4a4w").parts), (("xp2_7",), ("xs6_4a4w",))
        )

    def test_the_object_of_a_code(self) -> None:
        """The phases of the object begin with the drawing of its code. Each further phase is the
        next generation."""
        found = read_object(read_rule("b3s23"), "xp2_7")
        assert found is not None
        self.assertEqual(found.phases, [{(0, 0), (0, 1), (0, 2)}, {(-1, 1), (0, 1), (1, 1)}])

    def test_by_brute_force(self) -> None:
        """Compares the parts of objects with parts found by brute force. The test takes random
        objects of the example with short codes (others take too long), and all objects of small
        censuses under two other rules."""
        draw = random.Random("objects")
        tried = [("b3s23", draw.sample([code for code in example().totals if len(code) < 22], 250))]
        for rule, count in (("b36s23", 800), ("b3678s34678", 3000)):
            text = census("take", "--count", str(count), "--rule", rule, "--limit", "505").decode()
            tried.append(
                (
                    rule,
                    [
                        row.split()[0]
                        for row in text.partition("TABLE\n")[2].partition("\n\n")[0].splitlines()
                    ],
                )
            )
        for rule, codes in tried:
            separator, plain = Separator(read_rule(rule)), plain_parts.rule_of(rule)
            self.assertGreater(len(codes), 10)
            for code in codes:
                found = separator.separate(code)
                self.assertEqual(
                    (list(found.parts), found.is_strict(), found.is_separated),
                    plain_parts.parts_of(plain, code),
                    code,
                )

    def test_the_example(self) -> None:
        """The expected totals by parts of 100,000 soups were computed by brute force from the
        definition."""
        objects = Objects(example(), QUIET)
        by_parts = objects.by_parts()
        self.assertEqual((len(by_parts.totals), by_parts.objects()), (82, 2_188_270))
        self.assertEqual(
            [by_parts.totals[code] for code in ("xs4_33", "xp2_7", "xs6_696", "xq4_153")],
            [674_989, 627_443, 357_895, 192_915],
        )
        self.assertEqual(sum(one.is_strict() for one in objects.known.values()), 79)
        self.assertTrue(all(one.is_separated for one in objects.known.values()))
        self.assertEqual(
            (by_parts.soups, by_parts.unsettled, by_parts.for_good, by_parts.job),
            (example().soups, example().unsettled, example().for_good, example().job),
        )


class Labels(unittest.TestCase):
    def test_the_most_frequent(self) -> None:
        self.assertEqual(
            {code: find_label(code, parts(code), "b3s23") for code in FREQUENT}, FREQUENT
        )

    def test_what_has_a_name_is_called_by_it(self) -> None:
        for code, label in (
            ("xs8_rr", "bi-block"),
            (LIGHT, "traffic light"),
            ("xs4_33", "block"),
            ("xs12_256o8a6", "still life of 12 cells"),
            ("xs4_y", "still life of 4 cells"),
            ("xp3_y", "oscillator of period 3"),
            ("xq7_y", "spaceship of period 7"),
            ("yl144_1", ""),
        ):
            self.assertEqual(find_label(code, parts(code), "b3s23"), label)

    def test_words(self) -> None:
        """Oscillators come first and still lifes last. Among parts of a kind, those with the lower
        period or fewer cells come first."""
        for codes, words in (
            (("xs10_178kk8", "xs4_33", "xp2_7"), "blinker, block and beehive with tail"),
            (("xs4_33", "xs4_252", "xs4_33"), "tub and 2 blocks"),
            (("xs12_256o8a6",) * 3, "3 xs12_256o8a6"),
            (
                ("xp15_4r4z4r4", "xp2_7", "xp2_7", "xq4_153"),
                "2 blinkers, pentadecathlon and glider",
            ),
        ):
            self.assertEqual(describe_parts(codes, "b3s23"), words)

    def test_what_is_not_separated_is_marked(self) -> None:
        self.assertEqual(
            [mark_label(label, unknown("x")) for label in ("block", "")],
            ["block, not separated", "not separated"],
        )
        self.assertEqual([mark_label(label, strict("x")) for label in ("block", "")], ["block", ""])


# Strict objects, two objects of two blocks, an object of three blinkers, and an object whose parts
# aren't known.
CODES = {
    "xs4_33": 50,
    "xs8_rr": 10,
    "xs8_330oo": 7,
    "xp2_70ggg07": 4,
    "xp2_7": 3,
    "xs12_256o8a6": 2,
    "ov_p12": 1,
}
SAMPLED = {
    "xs4_33": [7, 8, 9],
    "xs8_rr": [3, 8],
    "xs8_330oo": [4, 20, 30],
    "xp2_70ggg07": [1],
    "xp2_7": [0, 1, 2],
    "xs12_256o8a6": [5],
    "ov_p12": [6],
}


def sampled(rule: str, totals: dict[str, int]) -> str:
    """Returns the text of a haul with the samples in `SAMPLED`."""
    head, _, _ = haul(rule, 100, totals).partition("@SAMPLE_SOUPIDS\n")
    return (
        head
        + "@SAMPLE_SOUPIDS\n"
        + "".join(
            f"{code} {' '.join(map(str, SAMPLED[code][: totals[code]]))}\n"
            for code in sorted(totals)
        )
    )


class Tables(unittest.TestCase):
    TEXT = sampled("b3s23", CODES).encode()

    def rows(self, *words: str) -> list[list[str]]:
        whole = [] if {"--parts", "--strict"} & {*words} else ["--whole"]
        status, output, errors = run("table", *whole, *words, text=self.TEXT)
        self.assertEqual((status, errors), (0, ""))
        return [re.split("  +", row.strip()) for row in output.splitlines()[1:]]

    def test_labels(self) -> None:
        self.assertEqual(
            [(row[1], row[6]) for row in self.rows()],
            [
                ("xs4_33", "block"),
                ("xs8_rr", "bi-block"),
                ("xs8_330oo", "2 blocks"),
                ("xp2_70ggg07", "3 blinkers"),
                ("xp2_7", "blinker"),
                ("xs12_256o8a6", "still life of 12 cells"),
                ("ov_p12", "oscillator of period 12, not separated"),
            ],
        )

    def test_strict(self) -> None:
        """`--strict` shows only objects of a single part, and objects that aren't separated, which
        are marked `not separated`. Each has its rank among all objects."""
        strict = [
            ["1", "xs4_33", "block"],
            ["5", "xp2_7", "blinker"],
            ["6", "xs12_256o8a6", "still life of 12 cells"],
            ["7", "ov_p12", "oscillator of period 12, not separated"],
        ]
        self.assertEqual([[row[0], row[1], row[6]] for row in self.rows("--strict")], strict)
        self.assertEqual(
            [row[1] for row in self.rows("--strict", "--rare", "--top", "3")],
            ["ov_p12", "xs12_256o8a6", "xp2_7"],
        )
        self.assertEqual(
            [row[1] for row in self.rows("--strict", "--kind", "s")], ["xs4_33", "xs12_256o8a6"]
        )

    def test_by_parts(self) -> None:
        """There are 50 blocks and two more in each of 17 objects, and 3 blinkers and three more in
        each of 4 objects. The samples of a part are the three lowest numbers."""
        self.assertEqual(
            self.rows("--parts"),
            [
                ["1", "xs4_33", "84", "840000.00", "1.10", "1.10", "1.10", "3,4,7", "block"],
                ["2", "xp2_7", "15", "150000.00", "1.20", "1.20", "1.20", "0,1,2", "blinker"],
                ["3", "xs12_256o8a6", "2", "20000.00", "390625", "345594", "443266", "5", NAMELESS],
                ["4", "ov_p12", "1", "10000.00", "none", "27108504", "none", "6", UNSURE],
            ],
        )
        self.assertEqual(
            [row[1] for row in self.rows("--parts", "--rare", "--kind", "p")], ["ov_p12", "xp2_7"]
        )

    def test_csv(self) -> None:
        heads = ("code", "label", "parts", "strict", "separated", "by_parts")
        for words, wanted in (
            (
                ["--csv", "--whole"],
                [
                    ["xs4_33", "block", "xs4_33", "yes", "yes", "no"],
                    ["xs8_rr", "bi-block", "xs4_33 xs4_33", "no", "yes", "no"],
                    ["xs8_330oo", "2 blocks", "xs4_33 xs4_33", "no", "yes", "no"],
                    ["xp2_70ggg07", "3 blinkers", "xp2_7 xp2_7 xp2_7", "no", "yes", "no"],
                    ["xp2_7", "blinker", "xp2_7", "yes", "yes", "no"],
                    ["xs12_256o8a6", NAMELESS, "xs12_256o8a6", "yes", "yes", "no"],
                    ["ov_p12", "oscillator of period 12", "ov_p12", "no", "no", "no"],
                ],
            ),
            (["--csv", "--parts", "--top=1"], [["xs4_33", "block", "xs4_33", "yes", "yes", "yes"]]),
        ):
            rows = csv.DictReader(run("table", *words, text=self.TEXT)[1].splitlines())
            self.assertEqual([[row[head] for head in heads] for row in rows], wanted)

    def test_json(self) -> None:
        told = json.loads(run("table", "--json", "--whole", text=self.TEXT)[1])
        self.assertEqual((told["by_parts"], told["total"]), (False, 77))
        self.assertEqual(
            {
                one["code"]: (one["label"], one["parts"], one["strict"], one["separated"])
                for one in told["objects"]
            },
            {
                "xs4_33": ("block", ["xs4_33"], True, True),
                "xs8_rr": ("bi-block", ["xs4_33"] * 2, False, True),
                "xs8_330oo": ("2 blocks", ["xs4_33"] * 2, False, True),
                "xp2_70ggg07": ("3 blinkers", ["xp2_7"] * 3, False, True),
                "xp2_7": ("blinker", ["xp2_7"], True, True),
                "xs12_256o8a6": (NAMELESS, ["xs12_256o8a6"], True, True),
                "ov_p12": ("oscillator of period 12", ["ov_p12"], False, False),
            },
        )
        told = json.loads(run("table", "--json", "--parts", text=self.TEXT)[1])
        self.assertEqual(
            (told["by_parts"], told["total"], told["not_separated"]), (True, 102, ["ov_p12"])
        )
        self.assertEqual(
            {code: told["parts"][code] for code in ("xs8_rr", "xp2_7", "ov_p12")},
            {"xs8_rr": ["xs4_33", "xs4_33"], "xp2_7": ["xp2_7"], "ov_p12": ["ov_p12"]},
        )
        self.assertEqual(
            (len(told["parts"]), [(one["code"], one["total"]) for one in told["objects"]]),
            (7, [("xs4_33", 84), ("xp2_7", 15), ("xs12_256o8a6", 2), ("ov_p12", 1)]),
        )

    def test_not_both(self) -> None:
        status, output, errors = run("table", "--strict", "--parts", text=self.TEXT)
        self.assertEqual((status, output), (2, ""))
        self.assertIn("not allowed with argument", errors)

    def test_an_enormous_code(self) -> None:
        """A table has a row for each object of a haul, even if one of the objects has an enormous
        code."""
        code = "xp2_1" + "yz" * 30 + "1"
        with tempfile.TemporaryDirectory() as folder:
            Path(folder, "a").write_text(haul("b3s23", 100, {code: 2, "xs4_33": 1}))
            for words in (
                ["table", "--csv"],
                ["table", "--csv", "--parts"],
                ["compare", "--csv", f"{folder}/a"],
            ):
                status, output, errors = run(*words, f"{folder}/a")
                self.assertEqual((status, errors), (0, ""))
                self.assertEqual(
                    [row["code"] for row in csv.DictReader(output.splitlines())], [code, "xs4_33"]
                )
            status, output, errors = run("page", "--play=0", f"{folder}/a")
        self.assertEqual((status, errors, output.count("<td>can't be drawn</td>")), (0, "", 1))


class SideBySide(unittest.TestCase):
    def setUp(self) -> None:
        self.folder = tempfile.TemporaryDirectory()
        self.addCleanup(self.folder.cleanup)
        Path(self.folder.name, "a").write_text(sampled("b3s23", CODES))
        Path(self.folder.name, "b").write_text(sampled("b3s123", {"xs8_rr": 5, "xs4_33": 1}))
        self.names = [f"{self.folder.name}/{name}" for name in "ab"]

    def test_each_under_its_own_rule(self) -> None:
        rows = {
            row["code"]: row
            for row in csv.DictReader(
                run("compare", "--csv", "--whole", *self.names)[1].splitlines()
            )
        }
        self.assertEqual(
            [
                rows["xs8_rr"][head]
                for head in ("total_a", "parts_a", "total_b", "parts_b", "by_parts")
            ],
            ["10", "xs4_33 xs4_33", "5", "xs4_33 xs4_33", "no"],
        )
        self.assertEqual(
            [rows["xp2_70ggg07"][head] for head in ("parts_a", "parts_b")],
            ["xp2_7 xp2_7 xp2_7", ""],
        )
        told = json.loads(run("compare", "--json", "--whole", *self.names)[1])
        self.assertFalse(told["by_parts"])
        self.assertEqual(
            [one["parts"].get("xs8_rr") for one in told["hauls"]], [["xs4_33"] * 2] * 2
        )
        self.assertEqual([one["not_separated"] for one in told["hauls"]], [["ov_p12"], []])

    def test_other_parts_under_another_rule(self) -> None:
        """In Life, each of the two tables of a table on table would die by itself. Under `bs123`,
        no cell is born, and a table is a still life. The code `xs6_9f` draws a table that is turned
        on its side: the first column has only its first and fourth cell alive, and the second
        column has four live cells."""
        for name, rule in zip(self.names, ("b3s23", "bs123"), strict=True):
            Path(name).write_text(haul(rule, 100, {"xs12_raar": 4}))
        told = json.loads(run("compare", "--json", "--whole", *self.names)[1])
        self.assertEqual(
            [one["parts"] for one in told["hauls"]],
            [{"xs12_raar": ["xs12_raar"]}, {"xs12_raar": ["xs6_9f"] * 2}],
        )
        told = json.loads(run("compare", "--json", "--parts", *self.names)[1])
        self.assertEqual(
            {one["code"]: one["totals"] for one in told["objects"]},
            {"xs6_9f": [0, 8], "xs12_raar": [4, 0]},
        )

    def test_by_parts(self) -> None:
        lines = run("compare", "--parts", *self.names)[1].splitlines()
        self.assertEqual(lines[1], "A: 100 soups, 1 unsettled, 2 for good, 102 objects by parts")
        self.assertEqual(lines[3], "B: 100 soups, 1 unsettled, 2 for good, 11 objects by parts")
        self.assertEqual(
            [[*line.split()[:3], line.split(None, 6)[-1]] for line in lines[5:-1]],
            [
                ["xs4_33", "84", "11", "block"],
                ["xp2_7", "15", "0", "blinker"],
                ["xs12_256o8a6", "2", "0", NAMELESS],
                ["ov_p12", "1", "0", "not separated"],
            ],
        )
        told = json.loads(run("compare", "--parts", "--json", *self.names)[1])
        self.assertEqual(
            (
                told["by_parts"],
                [one["total"] for one in told["hauls"]],
                len(told["hauls"][0]["parts"]),
            ),
            (True, [102, 11], 7),
        )
        rows = list(csv.DictReader(run("compare", "--parts", "--csv", *self.names)[1].splitlines()))
        self.assertEqual(
            [(row["code"], row["total_a"], row["total_b"], row["by_parts"]) for row in rows][:2],
            [("xs4_33", "84", "11", "yes"), ("xp2_7", "15", "0", "yes")],
        )

    def test_names_come_last(self) -> None:
        rows = [
            [line.split()[0], line.split(None, 6)[-1]]
            for line in run("compare", "--whole", *self.names)[1].splitlines()[5:-1]
        ]
        self.assertEqual(
            rows,
            [
                ["xs4_33", "block"],
                ["xs8_rr", "bi-block"],
                ["xs8_330oo", "2 blocks"],
                ["xp2_70ggg07", "3 blinkers"],
                ["xp2_7", "blinker"],
                ["xs12_256o8a6", NAMELESS],
                ["ov_p12", "not separated"],
            ],
        )


class Once(unittest.TestCase):
    def test_each_object_is_separated_once(self) -> None:
        objects = Objects(example(), QUIET)
        codes = sorted(example().totals)[:20]
        with patch.object(
            Separator, "separate", autospec=True, side_effect=Separator.separate
        ) as separated:
            objects.separate_all(codes)
            objects.separate_all(codes[5:])
        self.assertEqual(separated.call_count, 20)


class Many(unittest.TestCase):
    """Many objects are separated in several processes."""

    CODES = sorted(example().totals)[:300]

    def separate(self) -> dict[str, Separation]:
        with patch.multiple(by_parts, MANY_OBJECTS=300, OBJECTS_IN_A_SHARE=70):
            return Objects(example(), QUIET).separate_all(self.CODES)

    def assert_right(self, found: dict[str, Separation]) -> None:
        self.assertEqual(found, Objects(example(), QUIET).separate_all(self.CODES))
        self.assertEqual(list(found), self.CODES)
        self.assertEqual(children.running, [])

    def test_processes(self) -> None:
        with patch.object(by_parts, "work_apart", side_effect=work_apart) as worked:
            self.assert_right(self.separate())
        self.assertEqual(worked.call_count, 5)

    def test_few_objects(self) -> None:
        with patch.object(by_parts, "work_apart", side_effect=work_apart) as worked:
            with patch.multiple(by_parts, MANY_OBJECTS=301, OBJECTS_IN_A_SHARE=70):
                self.assert_right(Objects(example(), QUIET).separate_all(self.CODES))
        self.assertEqual(worked.call_count, 0)

    def test_no_process(self) -> None:
        """If no other process can be started, or if the other processes are killed, this process
        does the work."""
        with patch("os.fork", side_effect=OSError):
            self.assert_right(self.separate())
        parent, separate = os.getpid(), Separator.separate

        def end(separator: Separator, code: str) -> Separation:
            if os.getpid() != parent:
                os.kill(os.getpid(), signal.SIGKILL)
            return separate(separator, code)

        with patch.object(Separator, "separate", end):
            self.assert_right(self.separate())

    def test_no_memory(self) -> None:
        with patch.object(Separator, "separate", side_effect=MemoryError):
            self.assertRaises(MemoryError, self.separate)
        self.assertEqual(children.running, [])


if __name__ == "__main__":
    unittest.main()
