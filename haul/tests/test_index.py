"""`haul index`, and `haul check` of an index. An index lists the pieces of a census. Each piece is a
haul with a single range of soups."""

from __future__ import annotations

import io
import re
import tempfile
import unittest
from collections.abc import Iterator
from hashlib import sha256
from pathlib import Path
from unittest.mock import patch

from haul.cli.main import main
from haul.formats.haul import Range
from haul.tests.called import CENSUS, TOP, census, run

LINES = """\
@INDEX 1
@ROOT seed=
@RULE b3s23
@SYMMETRY C1
@PROFILE 64 512 101 30300

"""


class Indexes(unittest.TestCase):
    def setUp(self) -> None:
        folder = tempfile.TemporaryDirectory()
        self.addCleanup(folder.cleanup)
        self.folder = Path(folder.name)
        self.texts = {
            first: census("take", "--first", str(first), "--count", "5") for first in (0, 5, 20)
        }
        for first, text in self.texts.items():
            (self.folder / f"{first}.haul").write_bytes(text)
        rows = (f"{first} 5 {sha256(text).hexdigest()}\n" for first, text in self.texts.items())
        self.index = LINES + "".join(rows)
        (self.folder / "index").write_text(self.index)

    def called(self, *words: str) -> tuple[int, str, str]:
        return run(*words, cwd=str(self.folder))

    def check(self, *words: str) -> tuple[int, str, str]:
        return self.called("check", "--census", CENSUS, *words)

    def refused(self, *words: str) -> str:
        status, output, errors = self.called(*words)
        self.assertEqual((status, output, errors.count("\n")), (3, "", 1))
        return errors.removeprefix("haul: ").removesuffix("\n")

    def test_an_index(self) -> None:
        """The index doesn't depend on the order of the hauls."""
        for names in (["0.haul", "5.haul", "20.haul"], ["20.haul", "0.haul", "5.haul"]):
            self.assertEqual(self.called("index", *names), (0, self.index, ""))

    def test_what_is_no_part(self) -> None:
        (self.folder / "two").write_text(self.called("join", "0.haul", "20.haul")[1])
        (self.folder / "none").write_bytes(census("take", "--count", "0"))
        (self.folder / "other").write_bytes(census("take", "--count", "3", "--seed", "x"))
        (self.folder / "across").write_bytes(census("take", "--first", "4", "--count", "3"))
        missing = self.texts[5].decode().replace("@NUM_SOUPS 5", "@NUM_SOUPS 4")
        missing = re.sub("@NUM_FOR_GOOD .*", "@NUM_FOR_GOOD 0", missing)
        (self.folder / "missing").write_text(missing)
        for name, why in (
            ("two", "haul with several ranges"),
            ("none", "haul without a soup"),
            ("other", "other job"),
            ("across", "haul that shares a soup with another one"),
            ("0.haul", "haul that shares a soup with another one"),
            ("missing", "haul with missing soups"),
            (
                "index",
                "bad haul at line 1 column 1: this looks like an index, which `haul check` reads",
            ),
        ):
            with self.subTest(name=name):
                self.assertEqual(self.refused("index", "0.haul", name), f"{name}: {why}")

    def test_all_pieces_are_taken(self) -> None:
        self.assertEqual(self.check("index"), (0, "0+5: right\n5+5: right\n20+5: right\n", ""))

    def test_another_digest(self) -> None:
        digest = sha256(self.texts[5]).hexdigest()
        (self.folder / "index").write_text(self.index.replace(digest, "0" * 64))
        self.assertEqual(
            self.check("index"), (7, "0+5: right\n5+5: other digest\n20+5: right\n", "")
        )
        self.assertEqual(self.check("index", "5.haul"), (7, "5+5: other digest\n", ""))

    def test_hauls_are_compared_without_running_a_soup(self) -> None:
        words = ["check", "--census", "/bin/false", "index", "20.haul", "0.haul"]
        self.assertEqual(self.called(*words), (0, "20+5: right\n0+5: right\n", ""))

    def test_another_haul_is_refused(self) -> None:
        (self.folder / "other").write_bytes(census("take", "--first", "5", "--count", "4"))
        self.assertEqual(
            self.refused("check", "index", "0.haul", "other"),
            "other: its seed, rule, profile and soups are those of no piece",
        )

    def test_a_choice(self) -> None:
        status, output, errors = self.check("index", "--random", "2", "--choice", "x")
        first, *pieces = output.splitlines()
        self.assertEqual((status, errors, len(pieces)), (0, "", 2))
        self.assertEqual(
            first,
            "choice x: 2 of 3 pieces; if 1 was wrong, a choice like this would miss it with probability 0.3333",
        )
        names = ["0+5", "5+5", "20+5"]
        lowest = sorted(names, key=lambda name: sha256(f"x {name}".encode()).digest())[:2]
        self.assertEqual(pieces, [f"{name}: right" for name in names if name in lowest])
        self.assertEqual(self.check("index", "--random", "2", "--choice", "x")[1], output)

    def test_a_choice_is_written_at_once(self) -> None:
        """The line about the choice is written before any soup is run."""
        done: list[str] = []

        class Output(io.StringIO):
            def flush(self) -> None:
                done.append(self.getvalue())

        def retake(*_: object) -> Iterator[tuple[Range, bool]]:
            done.append("runs")
            yield (0, 5), True

        words = ["check", "--census", CENSUS, str(self.folder / "index"), "--random", "1"]
        with patch("haul.cli.check_commands.retake_pieces", retake):
            main(words, io.BytesIO(), Output(), io.StringIO())
        self.assertRegex(done[0], "^choice [^:]*: 1 of 3 pieces[^\n]*\n$")
        self.assertEqual(done[1], "runs")

    def test_options_that_do_not_go_together(self) -> None:
        for words in (
            ["index", "--samples"],
            ["index", "0.haul", "--random", "1"],
            ["index", "--random", "4"],
        ):
            status, output, _ = self.check(*words)
            self.assertEqual((status, output), (2, ""), words)

    def test_damaged_indexes(self) -> None:
        digest = sha256(self.texts[20]).hexdigest()
        descend = "the pieces are not in ascending order, or share a soup"
        for right, wrong, place in (
            ("@INDEX 1", "@INDEX 2", "line 1 column 8"),
            ("@RULE b3s23", "@RULE b3s32", "line 3 column 7"),
            ("C1\n", "C2\n", "line 4 column 11"),
            ("\n\n", "\n", "line 6 column 1"),
            ("20 5 ", "9 5 ", f"line 9 column 1: {descend}"),
            ("20 5 ", "-20 5 ", "line 9 column 1"),
            ("20 5 ", "20 0 ", "line 9 column 4"),
            ("20 5 ", f"{2**40} 5 ", "line 9 column 1: the number is too large"),
            ("20 5 ", f"20 {2**40} ", "line 9 column 4: the number is too large"),
            (digest, digest[1:], "line 9 column 6"),
            (digest, digest.upper(), "line 9 column 6"),
            (digest, digest[:-1] + "\u00fc", "line 9 column 6"),
            (digest + "\n", digest, "line 9 column 70"),
            (digest, digest + " 1", "line 9 column 71"),
        ):
            with self.subTest(wrong=wrong):
                self.assertIn(right, self.index)
                (self.folder / "index").write_text(self.index.replace(right, wrong, 1))
                self.assertEqual(self.refused("check", "index"), f"index: bad index at {place}")
        (self.folder / "index").write_text(LINES)
        self.assertEqual(self.refused("check", "index"), "index: bad index at line 7 column 1")

    def test_the_reference(self) -> None:
        """The index of the reference has 100 pieces, each with a million soups."""
        lines = (TOP / "reference" / "index").read_text().splitlines()[6:]
        self.assertEqual(
            [line.split()[:2] for line in lines],
            [[str(piece * 10**6), "1000000"] for piece in range(100)],
        )


if __name__ == "__main__":
    unittest.main()
