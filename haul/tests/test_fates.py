"""Unsettled soups counted by their fates: `haul why --keep` and `--kinds`, and `--lives`."""

from __future__ import annotations

import io
import json
import random
import signal
import subprocess
import sys
import time
import unittest
from collections.abc import Iterator
from pathlib import Path
from tempfile import TemporaryDirectory
from unittest.mock import patch

from haul.fates.explain import Fates
from haul.fates.fate import Fate, Kind
from haul.fates.reference import find_fate_name, load_fates
from haul.fates.rows import FateRow, count_fates, is_missing, name_fate, read_fate
from haul.formats.haul_reader import read_one_haul
from haul.formats.late_file import Late, LateLine, read_late
from haul.tests.called import CENSUS, HAUL, TOP, census, run
from haul.views.fate_rows import format_compared_fates

# Soups of the empty seed that are unsettled, with their fates: both kinds of switch engines.
UNSETTLED = {33569: "+59 cells in 384 generations (glider-producing switch engine)"}
UNSETTLED[223932] = "+16 cells in 144 generations (block-laying switch engine)"
TEXTS = {
    "linear growth: +16 cells in 144 generations (block-laying switch engine)": (
        "block-laying switch engine (16 cells in 144 generations)"
    ),
    "linear growth: +40 cells in 288 generations": ("linear growth, 40 cells in 288 generations"),
    "falls apart: 2 xp30_w33z8kqrqk8zzzx33 (queen bee shuttle, with a block and an eater 1)": (
        "queen bee shuttle, with a block and an eater 1"
    ),
    "falls apart: xp8_1 (one), 2 xp8_2, xp8_1 (one)": "one and xp8_2 in pieces",
    "falls apart: xp46_1 (twin bees shuttle), period 100": "twin bees shuttle and period 100",
    "period 100, 144": "period 100, 144",
    "settles after 30300": "settles after the limit",
    "collides soon: generation 30512": "objects collide soon",
    "still active: 12 cells, 3 by 4; try --limit 60600": "active",
    "not decided: no answer in 60 seconds": "not decided",
    "settled 1818": "settled after all",
}


class Rows(unittest.TestCase):
    def test_what_fates_are_counted_as(self) -> None:
        for text, name in TEXTS.items():
            fate = read_fate(text)
            assert fate is not None
            self.assertEqual((fate.text(), name_fate(fate)), (text, name))
        for text in ("", "settled", "period: 3", "falls apart 3", "something: else"):
            self.assertIsNone(read_fate(text))

    def test_counts_agree_with_the_haul(self) -> None:
        fates = [read_fate(text) for text in ("settles after 9", "period 100", "settles after 12")]
        rows = [FateRow("settles after the limit", 2), FateRow("period 100", 1)]
        self.assertEqual(count_fates(fates, 3), rows)
        self.assertEqual(count_fates([*fates, None], 5), [*rows, FateRow("not found yet", 2)])
        self.assertEqual(count_fates([], 0), [])

    def test_a_late_soup_has_no_fate(self) -> None:
        self.assertTrue(is_missing(LateLine(5, None, b"")))
        self.assertFalse(is_missing(LateLine(5, 12000, b"")))

    def test_each_haul_has_its_own_number_of_soups(self) -> None:
        hauls = [
            read_one_haul(io.BytesIO(census("take", "--count", count))) for count in ("2", "4")
        ]
        lines = list(format_compared_fates([[FateRow("period 100", 1)]] * 2, hauls, None))
        self.assertEqual(lines[-1].split(), ["1", "2.00", "1", "4.00", "period", "100"])


class OfTheReference(unittest.TestCase):
    def test_each_unsettled_soup_has_a_fate(self) -> None:
        late = (TOP / "reference" / "late.tsv").read_text().splitlines()[1:]
        unsettled = [int(line.split()[0]) for line in late if line.endswith("unsettled")]
        self.assertEqual(list(load_fates()), unsettled)
        self.assertEqual(len(unsettled), 1177)

    def test_drawn_fates_are_found_again(self) -> None:
        drawn = random.Random("fates").sample(sorted(load_fates()), 4)
        _, output, _ = run("why", "--census", CENSUS, *map(str, drawn))
        self.assertEqual(output.splitlines(), [f"{soup} {load_fates()[soup]}" for soup in drawn])

    def test_what_rarity_says(self) -> None:
        fates = load_fates().values()
        for name in ("queen bee shuttle", "switch engine", "Gosper glider gun"):
            count = sum(name in fate for fate in fates)
            line = run("rarity", name.upper())[1].splitlines()[-1]
            soups = "soup" if count == 1 else "soups"
            self.assertTrue(
                line.startswith(f"{name}: {count} unsettled {soups} of 100000000"), line
            )
        self.assertEqual(find_fate_name("Block-laying switch-engine"), "block-laying switch engine")
        self.assertIsNone(find_fate_name("block"))


class Kept(unittest.TestCase):
    def setUp(self) -> None:
        room = TemporaryDirectory()
        self.addCleanup(room.cleanup)
        self.file = Path(room.name, "mine.haul")
        self.late = Path(room.name, "mine.haul.late")
        ranges = ",".join(f"{soup}+1" for soup in UNSETTLED)
        self.file.write_bytes(census("take", "--count=0", f"--also={ranges}"))
        lines = census("work", "--worker=1", "--count=0", f"--also={ranges}").splitlines()
        late = read_late([b"# late 12000 since 0 left-out 0\n", *(line + b"\n" for line in lines)])
        covered = Late(12000, [(soup, 1) for soup in UNSETTLED], late.job, 0, late.lines)
        self.late.write_bytes(b"".join(covered.write()))

    def call(self, *words: str, status: int = 0) -> str:
        ended, output, errors = run(*words)
        self.assertEqual(ended, status, errors)
        return output or errors

    def keep(self, *words: str, status: int = 0) -> str:
        return self.call("why", "--census", CENSUS, "--keep", str(self.late), *words, status=status)

    def test_fates_are_kept_and_counted(self) -> None:
        """Fates are found once. `why`, `table`, `compare` and `page` use what is kept."""
        lives = ["--lives", str(self.late)]
        before = self.call("table", "--top", "1", *lives, str(self.file)).splitlines()
        self.assertEqual([line.split()[0] for line in before[-3:]], ["soups", "2", "`haul"])
        rows = [f"1 {name_fate(Fate(Kind.GROWS, why))}" for why in UNSETTLED.values()]
        self.assertEqual(self.keep().splitlines(), sorted(rows))
        text = self.late.read_bytes()
        with patch("haul.fates.explain.Fates.find", side_effect=AssertionError):
            self.assertEqual(self.keep().splitlines(), sorted(rows))
            self.assertEqual(self.late.read_bytes(), text)
            said = self.call("why", str(self.late)).splitlines()
            self.assertEqual(said, [f"{k} linear growth: {why}" for k, why in UNSETTLED.items()])
            # Without --most, the kinds of all soups are counted.
            with patch("haul.cli.why_command.USUAL_MOST", 1):
                counted = self.call("why", "--kinds", "--csv", str(self.late)).splitlines()
            self.assertEqual(
                counted, ["soups,fate", *(row.replace(" ", ",", 1) for row in sorted(rows))]
            )
            facts = json.loads(self.call("table", "--json", *lives, str(self.file)))["fates"]
            self.assertEqual([(one["soups"], one["one_in"]) for one in facts], [(1, 2), (1, 2)])
            both = [str(self.file), str(self.file), *lives, *lives]
            compared = self.call("compare", "--least", "99", *both).splitlines()
            self.assertIn("block-laying switch engine (16 cells in 144 generations)", compared[-2])
            page = self.call("page", "--census", CENSUS, "--play", "0", *lives, str(self.file))
            self.assertIn("<td>1</td><td>2.00<small>", page)

    def test_what_was_not_decided_is_tried_again(self) -> None:
        undecided = Fate(Kind.UNDECIDED, "no answer in 1 second")
        with patch("haul.fates.explain.Fates.find", return_value=undecided):
            self.assertEqual(self.keep("--soup-seconds", "1"), "2 not decided\n")
        settles = Fate(Kind.SETTLES, "after 30300")
        with patch("haul.fates.explain.Fates.find", return_value=settles):
            self.assertEqual(self.keep(), "2 settles after the limit\n")
        settled = Fate(Kind.SETTLED, "101")
        with patch("haul.fates.explain.Fates.find", return_value=settled):
            self.assertEqual(self.keep(), "2 settles after the limit\n")

    def test_fates_are_kept_while_others_are_found(self) -> None:
        def find_all(_: Fates, soups: list[int]) -> Iterator[Fate]:
            for number, _soup in enumerate(soups):
                self.assertEqual(self.late.read_bytes().count(b"# fate"), number)
                yield Fate(Kind.SETTLES, "after 30300")

        with patch("haul.search.fate_keeper.SECONDS_BETWEEN_WRITING", 0), patch(
            "haul.fates.explain.Fates.find_all", find_all
        ):
            self.assertEqual(self.keep(), "2 settles after the limit\n")

    def test_what_is_refused(self) -> None:
        self.assertIn("not the FILE.late", self.call("why", "--keep", str(self.file), status=3))
        lines = self.late.read_bytes().splitlines(keepends=True)
        self.late.write_bytes(b"".join(lines[:-1]))
        self.keep(status=3)
        self.assertEqual(self.late.read_bytes(), b"".join(lines[:-1]))
        for words in (["33569"], ["--seed", "x"], ["--pattern", "x"], ["--most", "2"]):
            self.keep(*words, status=2)
        table = ["table", "--csv", "--lives", str(self.late), str(self.file)]
        self.call(*table, status=2)
        self.call("compare", *["--lives", "x"] * 3, "a", "b", status=2)

    def test_a_call_that_is_killed_loses_nothing(self) -> None:
        """At any time, FILE.late is whole. The next call finds what is missing."""
        words = [sys.executable, HAUL, "why", "--census", CENSUS, "--keep", str(self.late)]
        for seconds in (0.2, 0.5, 1.0):
            call = subprocess.Popen(words, stdout=subprocess.DEVNULL, start_new_session=True)
            time.sleep(seconds)
            call.send_signal(signal.SIGKILL)
            call.wait()
            lines = self.late.read_bytes().splitlines(keepends=True)
            self.assertEqual(len(read_late(lines).lines), 2)
        self.assertEqual(len(self.keep().splitlines()), 2)


if __name__ == "__main__":
    unittest.main()
