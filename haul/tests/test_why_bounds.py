"""`haul why` on patterns that take too much time, memory or cells."""

from __future__ import annotations

import csv
import io
import json
import tempfile
import time
import unittest
from pathlib import Path
from unittest.mock import patch

from haul.census.bounded import BoundedCensus, Bounds, Undecided
from haul.census.children import children
from haul.cli.why_command import MORE_TIME
from haul.fates import inquiry, sizes
from haul.fates.sizes import Size, Sizes
from haul.tests.called import CENSUS, census_of, make_client, run

THREE = b"0 0\n1 0\n2 0\n"
ROW_OF_THREE = b"OOO\n"


def why_three(*words: str, census: str = CENSUS) -> tuple[int, str, str]:
    """Explains a row of three cells."""
    return run("why", "--pattern=-", "--census", census, *words, text=THREE)


class WithStub(unittest.TestCase):
    """Tests with other programs in place of `census`."""

    def stub(self, script: str) -> str:
        folder = tempfile.TemporaryDirectory()
        self.addCleanup(folder.cleanup)
        path = Path(folder.name) / "stub"
        path.write_text(f"#!/bin/sh\n{script}\n")
        path.chmod(0o755)
        return str(path)


class Time(WithStub):
    def test_the_program_takes_too_long(self) -> None:
        """Each call of the program is bounded, also if it prints a part of its answer in time."""
        answers = (
            "case $* in name*) echo unsettled;; *sizes*) echo 30300 3 0 0 2 0; exec sleep 60;; esac"
        )
        for script in ("exec sleep 60", answers, "echo unsettled; exec sleep 60"):
            begin = time.monotonic()
            status, output, errors = why_three("--soup-seconds=1", census=self.stub(script))
            self.assertEqual(
                (status, output, errors),
                (0, "- not decided: no answer in 1 second\n", f"haul: {MORE_TIME}\n"),
            )
            self.assertLess(time.monotonic() - begin, 10)
            self.assertEqual(children.running, [])

    def test_work_in_a_process(self) -> None:
        self.assertEqual(Bounds(60).work(lambda: "done"), "done")
        self.assertIsNone(Bounds(0).work(lambda: None))
        begin = time.monotonic()
        with self.assertRaisesRegex(Undecided, "^no answer in 1 second$"):
            Bounds(1).work(lambda: time.sleep(60))
        self.assertLess(time.monotonic() - begin, 10)

    def test_what_is_left(self) -> None:
        self.assertIsNone(Bounds(0).left())
        bounds = Bounds(5)
        self.assertLessEqual(bounds.left() or 0, 5)
        bounds.begin -= 5
        with self.assertRaisesRegex(Undecided, "^no answer in 5 seconds$"):
            bounds.left()

    def test_the_option(self) -> None:
        for value in ("-1", "86401", "x"):
            status, output, _ = why_three(f"--soup-seconds={value}")
            self.assertEqual((status, output), (2, ""))
        self.assertEqual(why_three("--soup-seconds=0")[:2], (0, "- settled 0\n"))


class Memory(WithStub):
    def test_the_limit(self) -> None:
        census = make_client(self.stub("sleep 0.2; ulimit -v"))
        self.assertEqual(BoundedCensus(census, Bounds(60)).ask([], b""), b"1048576\n")

    def test_a_program_without_memory(self) -> None:
        told = (0, "- not decided: no answer with 1 GiB of memory\n", "")
        self.assertEqual(why_three(census=self.stub("echo out of memory >&2; exit 4")), told)

    def test_a_process_without_memory(self) -> None:
        with self.assertRaisesRegex(Undecided, "^no answer with 1 GiB of memory$"):
            Bounds(60).work(lambda: len(bytearray(2**30 + 2**26)))
        self.assertEqual(Bounds(60).work(lambda: len(bytearray(2**28))), 2**28)


class Cells(WithStub):
    def test_an_explosive_rule(self) -> None:
        """The generation that is named has a million cells, and the one before has fewer."""
        status, output, errors = why_three("--rule=b1s1", "--limit=20")
        self.assertEqual((status, errors), (0, ""))
        self.assertRegex(output, r"^- not decided: 1000000 cells in generation [0-9]+\n$")
        generation = int(output.split()[-1])
        self.assertLess(self.count_cells(generation - 1), 1_000_000)
        self.assertGreaterEqual(self.count_cells(generation), 1_000_000)

    def count_cells(self, generation: int) -> int:
        words = ("run", str(generation), f"--sizes={generation}", "--rule=b1s1")
        return int(census_of(ROW_OF_THREE, *words).split()[1])

    def test_while_it_is_named(self) -> None:
        """If `census name` takes longer than a second, the sizes are looked at meanwhile. The
        answer doesn't depend on where they begin."""
        with patch.object(sizes, "MOST_CELLS", 50_000), patch.object(sizes, "MANY_CELLS", 2000):
            with patch.object(inquiry, "SECONDS_BEFORE_SIZES", 0.01):
                long = why_three("--rule=b1s1")[1]
            self.assertEqual(long, why_three("--rule=b1s1", "--limit=20")[1])
        self.assertRegex(long, r"^- not decided: 50000 cells in generation 2\d\d\n$")

    def test_as_if_each_generation_was_looked_at(self) -> None:
        """Looking ahead finds a generation with too many cells if there is one, and never one after
        the last."""
        counts = [
            int(line.split()[1])
            for line in census_of(
                ROW_OF_THREE, "run", "300", "--sizes=0", "--rule=b1s1"
            ).splitlines()
        ]
        for most in (1000, 20_000, 50_000):
            large = [generation for generation, cells in enumerate(counts) if cells >= most]
            just = [generation for generation in large if counts[generation - 1] < most]
            for last in (large[0] - 1, just[-1], 300):
                found = self.find(most, last)
                self.assertEqual(found is None, last < large[0])
                self.assertIn(found, [None, *just])

    def find(self, most: int, last: int) -> int | None:
        census = BoundedCensus(make_client(), Bounds(60))
        try:
            with patch.object(sizes, "MOST_CELLS", most), patch.object(sizes, "MANY_CELLS", 500):
                Sizes(census, "b1s1", ROW_OF_THREE).between(0, last)
        except Undecided as why:
            return int(str(why).split()[-1])
        return None

    def test_sizes(self) -> None:
        census = BoundedCensus(make_client(), Bounds(60))
        found = Sizes(census, "b3s23", b"O\nOO\n").between(0, 1)
        self.assertEqual(found, [Size(3, 2, 2), Size(4, 2, 2)])
        self.assertEqual(Sizes(census, "b3s23", b"O\n").between(0, 1), [(1, 1, 1), (0, 0, 0)])

    def test_forms(self) -> None:
        with patch.object(sizes, "MOST_CELLS", 2):
            rule = ("--rule=b1s1", "--limit=20")
            row = list(csv.DictReader(io.StringIO(why_three("--csv", *rule)[1])))[0]
            known = json.loads(why_three("--json", *rule)[1])["fates"][0]
        for one in (row, known):
            self.assertEqual(one["kind"], "not decided")
            self.assertEqual(one["why"], "2 cells in generation 20")

    def test_in_a_list_of_soups(self) -> None:
        line = b"report 2 rule=b1s1 profile=64,512,101,20 seed= worker=1 soup=1 unsettled\n"
        words = ("soups", "--unsettled", "--why", "--census", CENSUS)
        with patch.object(sizes, "MOST_CELLS", 1000):
            status, output, errors = run(*words, text=line)
        self.assertEqual((status, errors), (0, ""))
        self.assertTrue(output.endswith("  not decided\n"), output)


if __name__ == "__main__":
    unittest.main()
