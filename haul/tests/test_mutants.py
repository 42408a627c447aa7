"""Sixty of the changes that `haul/tests/mutate` makes. A test must notice each of them."""

from __future__ import annotations

import subprocess
import sys
import unittest

from haul.tests.called import TOP
from haul.tests.mutation.places import load_equal
from haul.tests.mutation.runs import Trial, find_failing_tests


class Sixty(unittest.TestCase):
    def test_each_is_seen(self) -> None:
        ended = subprocess.run(
            [sys.executable, str(TOP / "haul" / "tests" / "mutate"), "--some"],
            capture_output=True,
            check=False,
        )
        self.assertEqual(
            (ended.returncode, ended.stdout.decode()),
            (0, "60 passed, 0 failed\n"),
            ended.stderr.decode(),
        )

    def test_the_lines_with_equal_changes(self) -> None:
        """Each line that is listed in equal.txt is a line of its file."""
        for file, lines in load_equal().items():
            there = {line.strip() for line in (TOP / "haul" / file).read_text().splitlines()}
            self.assertEqual(lines.keys() - there, set(), file)

    def test_a_test_that_fails_anyway(self) -> None:
        """A test that fails without a change would seem to notice every change."""
        text = (TOP / "haul" / "plurals.py").read_text()
        tests = {"haul.tests.test_layers.Layers.test_imports_go_down": 1.0, "haul.tests.none": 1.0}
        found = find_failing_tests(Trial("plurals.py", text, tests), 1)
        self.assertEqual(found, ["haul.tests.none"])


if __name__ == "__main__":
    unittest.main()
