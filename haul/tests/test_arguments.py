"""The forms in which arguments may be written."""

from __future__ import annotations

import argparse
import unittest
from pathlib import Path
from tempfile import TemporaryDirectory

from haul.cli.parser import parse_arguments
from haul.cli.values import read_count, read_object, read_within
from haul.tests.called import CENSUS, census, run, taken


class Numbers(unittest.TestCase):
    def test_forms(self) -> None:
        for text, number in (
            ("0", 0),
            ("0010", 10),
            ("1_000", 1000),
            ("12_3_4", 1234),
            ("1e6", 1_000_000),
            ("25e0", 25),
            ("1_0e03", 10_000),
        ):
            self.assertEqual(read_count(text), number)
            self.assertEqual(read_within(0, 10**6)(text), number)
        for text in (
            "",
            "_1",
            "1_",
            "1__0",
            "1e",
            "e6",
            "1e-3",
            "1.5e3",
            "1e6e6",
            "1e100",
            "+1",
            "\u0663",
        ):
            with self.assertRaisesRegex(argparse.ArgumentTypeError, " is no number$"):
                read_count(text)
        with self.assertRaisesRegex(argparse.ArgumentTypeError, "^1e7 is not in 0 to 1000000$"):
            read_within(0, 10**6)("1e7")

    def test_in_a_call(self) -> None:
        asked = parse_arguments(["search", "--until=1e6", "--batch", "1_000", "--limit=1e3", "x"])
        self.assertEqual((asked.until, asked.batch, asked.limit), (1_000_000, 1000, 1000))


class Words(unittest.TestCase):
    def test_help_and_version(self) -> None:
        for words, same in (
            (["help"], ["--help"]),
            (["help", "table"], ["table", "--help"]),
            (["version"], ["--version"]),
        ):
            status, output, errors = run(*words)
            self.assertEqual((status, errors), (0, ""))
            self.assertEqual(output, run(*same)[1])
        for words in (["help", "nothing"], ["help", "table", "page"], ["version", "1"]):
            self.assertEqual(run(*words)[:2], (2, ""), words)

    def test_what_to_use_instead(self) -> None:
        for words in (["--count", "5"], ["--count=5"]):
            status, output, errors = run("search", *words, "x.haul")
            self.assertEqual((status, output), (2, ""))
            self.assertIn("; --until N ends a search when the haul has N soups\n", errors)
        for words in (["table", "--count=5"], ["search", "--nothing", "x.haul"]):
            self.assertNotIn("; --until", run(*words)[2])


class Orders(unittest.TestCase):
    """Options may stand between other arguments."""

    def test_soups(self) -> None:
        asked = parse_arguments(["why", "5", "--seed", "x", "6"])
        self.assertEqual((asked.soups, asked.seed), ([5, 6], "x"))
        both = run("why", "5", "--limit", "101", "6", "--census", CENSUS)
        self.assertEqual(both, run("why", "--limit=101", "--census", CENSUS, "5", "6"))
        self.assertEqual(both[0], 0)

    def test_files(self) -> None:
        with TemporaryDirectory() as folder:
            name, index = str(Path(folder, "0.haul")), str(Path(folder, "index"))
            Path(name).write_bytes(taken(8))
            Path(index).write_text(run("index", name)[1])
            told = "--random draws pieces of the index, so no haul can be given beside it"
            self.assertIn(told, run("check", index, "--random", "1", name)[2])
            self.assertEqual(run("check", index, "--workers=1", name)[:2], (0, "0+8: right\n"))
            other = str(Path(folder, "8.haul"))
            Path(other).write_bytes(census("take", "--first=8", "--count=8"))
            self.assertEqual(
                run("compare", name, "--rare", other), run("compare", "--rare", name, other)
            )

    def test_after_two_hyphens(self) -> None:
        self.assertEqual(parse_arguments(["soups", "--", "-x"]).files, ["-x"])
        self.assertEqual(parse_arguments(["table", "--top=3", "--", "--top"]).file, "--top")
        asked = parse_arguments(["compare", "--rare", "a", "--", "-b", "c"])
        self.assertEqual((asked.a, asked.b, asked.more), ("a", "-b", ["c"]))


class Addresses(unittest.TestCase):
    def test_of_an_object(self) -> None:
        page = "catagolue.hatsya.com/object/xs4_33"
        for text in (page, f"https://{page}", f"https://{page}/b3s23", f"http://{page}/b3s23/"):
            self.assertEqual(read_object(text), "xs4_33")
        self.assertEqual(run("rarity", f"https://{page}/b3s23"), run("rarity", "block"))
        status, output, errors = run("rarity", f"https://{page}/b36s23")
        self.assertEqual((status, output), (2, ""))
        self.assertIn("the rule is b36s23, and the reference has b3s23", errors)


if __name__ == "__main__":
    unittest.main()
