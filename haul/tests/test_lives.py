"""`haul page --lives`: the section about the longest-lived and the unsettled soups."""

from __future__ import annotations

import json
import re
import subprocess
import tempfile
import unittest
from pathlib import Path
from unittest.mock import patch

from haul.fates.fate import Fate, Kind
from haul.formats.late_file import Late
from haul.page.lives import choose_step, count_bars
from haul.tests.called import CENSUS, census, run

# Soups 603 and 636 are unsettled under this limit.
JOB = ("--limit=3030", "--first=600", "--count=40")
NAME = "rule=b3s23 profile=64,512,101,3030 seed="
DATA = re.compile(r'"lives": (\[.*?\]), "soups": \[', re.DOTALL)


def list_late(generation: int) -> list[str]:
    """Returns the report lines of soups that settle in `generation` or later, and of unsettled
    soups."""
    return [
        line
        for line in census("work", "--worker=1", *JOB).decode().splitlines()
        if line.endswith(" unsettled") or int(line.split("at=")[1].split()[0]) >= generation
    ]


class Pages(unittest.TestCase):
    def setUp(self) -> None:
        folder = tempfile.TemporaryDirectory()
        self.addCleanup(folder.cleanup)
        self.late, self.haul = Path(folder.name) / "x.late", Path(folder.name) / "x"
        self.haul.write_bytes(census("take", *JOB))

    def page(
        self, *lines: str, header: str = "# late 1000 since 600 left-out 0"
    ) -> tuple[int, str, str]:
        self.late.write_text("".join(f"{line}\n" for line in (header, *lines)))
        words = ["--lives", str(self.late), str(self.haul)]
        return run("page", "--census", CENSUS, "--play=0", *words)

    def test_the_section(self) -> None:
        lines = list_late(1000)
        status, output, errors = self.page(*lines)
        self.assertEqual((status, errors), (0, ""))
        settled = [line for line in lines if "at=" in line]
        self.assertIn(
            f"{len(settled)} soups from number 600 on settled in generation 1,000 or later, and 2 "
            "soups had not settled by generation 3,030.",
            output,
        )
        found = DATA.search(output)
        assert found
        lives = json.loads(found[1])
        self.assertEqual([life["soup"] for life in lives[-2:]], [603, 636])
        self.assertEqual([life["end"] for life in lives[-2:]], [[0], [0]])
        generations = [life["end"][0] for life in lives[:-2]]
        self.assertEqual(generations, sorted(generations, reverse=True))
        for life in lives[:-2]:
            soup = census("soup", str(life["soup"]))
            named = self.named(soup)
            self.assertEqual(life["end"][0], named)
            self.assertIn(f'<a href="#life={life["soup"]}">Soup {life["soup"]}</a>', output)
        self.assertIn("Still active: 2 unsettled soups", output)

    def named(self, soup: bytes) -> int:
        """Returns the exact generation in which a soup settles."""
        text = subprocess.run(
            [CENSUS, "name", "--stride=1", "--limit=3030"],
            input=soup,
            capture_output=True,
            check=True,
        ).stdout
        return int(text.split()[1])

    def test_without_it(self) -> None:
        status, output, _ = run("page", "--census", CENSUS, "--play=0", str(self.haul))
        self.assertEqual(status, 0)
        self.assertNotIn('id="lives"', output)
        self.assertIn('"lives": []', output)

    def test_wrong_lines(self) -> None:
        """A line that is wrong about its soup is reported, and the page shows what the soup really
        does."""
        lines = list_late(1000)
        settled = next(line for line in lines if "at=" in line)
        soup = int(settled.split("soup=")[1].split()[0])
        # One unsettled soup is left out, since the page would refuse another number of them.
        unsettled = next(line for line in lines if line.endswith(" unsettled"))
        wrong = [
            f"report 2 {NAME} worker=1 soup={soup} unsettled" if line == settled else line
            for line in lines
            if line != unsettled
        ]
        status, output, errors = self.page(*wrong)
        self.assertEqual(status, 0)
        self.assertEqual(
            errors, f"haul: {self.late}: soup {soup} isn't unsettled: its line is wrong\n"
        )
        self.assertIn("Settled after all: 1 unsettled soup", output)
        wrong = [
            re.sub("at=[0-9]+", "at=3030", line) if line == settled else line for line in lines
        ]
        self.assertEqual(
            self.page(*wrong)[::2],
            (0, f"haul: {self.late}: soup {soup} doesn't settle at 3030: its line is wrong\n"),
        )

    def test_soups_that_the_haul_does_not_have(self) -> None:
        lines = list_late(1000)
        other = f"report 2 {NAME} worker=1 soup=900 unsettled"
        self.assertEqual(self.page(*lines, other), self.page(*lines))

    def test_the_first_twenty(self) -> None:
        lines = [f"report 2 {NAME} worker=1 soup={soup} unsettled" for soup in range(600, 630)]
        # The haul has fewer unsettled soups.
        fits = patch.object(Late, "find_lost_unsettled", return_value=None)
        fits.start()
        self.addCleanup(fits.stop)
        with patch("haul.fates.explain.Fates.find", return_value=Fate(Kind.GROWS, "+1 cell")):
            output = self.page(*lines, header="# late 100001 since 600 left-out 7")[1]
        self.assertIn("Linear growth: 20 unsettled soups", output)
        self.assertIn("From number 600 on, 30 soups had not settled by generation 3,030.", output)
        self.assertIn("The first 20 of these are shown.", output)
        self.assertIn("7 further soups of both kinds were left out.", output)
        with patch("haul.fates.explain.Fates.find", return_value=Fate(Kind.GROWS, "+1 cell")):
            one = self.page(*lines, header="# late 100001 since 600 left-out 1")[1]
        self.assertIn("1 further soup of both kinds was left out.", one)
        self.assertNotIn("lifespans", output.partition("</style>")[2])

    def test_refused(self) -> None:
        instead = "; leave out --lives, or restore the file"
        for line, header, why in (
            ("x", "# late 1000 since 600 left-out 0", f"line 2: bad line at 0{instead}"),
            ("x", "# late", f"line 1: not a header{instead}"),
            (
                f"report 2 {NAME}b worker=1 soup=603 unsettled",
                "# late 1000 since 600 left-out 0",
                "of a census with another seed, rule or profile",
            ),
        ):
            told = f"haul: {self.late}: {why}\n"
            self.assertEqual(self.page(line, header=header), (3, "", told))
        for words in (
            ["--lives=", "x"],
            ["--lives=y", "x", "z"],
            ["--lives=-"],
            ["--lives=-", "-"],
        ):
            self.assertEqual(run("page", *words)[0], 2, words)
        self.assertEqual(
            run("page", "--lives=/nowhere/x", "--census", CENSUS, str(self.haul))[0], 5
        )


class Bars(unittest.TestCase):
    def test_steps(self) -> None:
        for first, last, step in (
            (0, 0, 100),
            (0, 2399, 100),
            (0, 2400, 200),
            (12000, 40000, 2000),
        ):
            self.assertEqual(choose_step([first, last]), step)
        self.assertEqual(choose_step([0, 10**6]), 10_000)

    def test_counts(self) -> None:
        self.assertEqual(count_bars([150, 199, 450], 100), [(100, 2), (200, 0), (300, 0), (400, 1)])


if __name__ == "__main__":
    unittest.main()
