"""Soups, given by the names of Catagolue's samples."""

from __future__ import annotations

import unittest
from pathlib import Path
from tempfile import TemporaryDirectory

from haul.life.catagolue_soups import BadSample, read_sample
from haul.patterns.rle import read_rle
from haul.tests.called import census, run


def said_of(*names: str) -> str:
    """Returns the message about the first name that is refused, or `nothing` if all names are
    read."""
    try:
        for name in names:
            read_sample(name)
    except BadSample as bad:
        return str(bad)
    return "nothing"


class Soups(unittest.TestCase):
    def test_a_sample(self) -> None:
        """The name of a sample is a seed followed by a number. It makes no difference where the
        number begins, and the symmetry before the seed may be missing."""
        for seed, number in (
            ("k_abcdef", "12345"),
            ("k_abcdef1", "2345"),
            ("k_abcdef12345", "0"),
            ("", "7"),
            ("~!", "1"),
        ):
            soup = census("soup", f"--seed={seed}", number).decode().splitlines()
            for name in (f"C1/{seed}{number}", f"{seed}{number}"):
                self.assertEqual(read_sample(name).rows(), soup)
        self.assertEqual(
            run("soup", "k_abcdef12345"),
            (0, census("soup", "--seed=k_abcdef", "12345").decode(), ""),
        )

    def test_the_rule_behind_it(self) -> None:
        """The address of a sample's page is read, too. A rule other than Life is reported."""
        soup = census("soup", "--seed=k_a", "1").decode()
        page = "https://catagolue.hatsya.com/hashsoup/C1/k_a1"
        for name, rule in (
            ("C1/k_a1/b3s23", None),
            (page, None),
            (f"{page}/b3s23", None),
            (f"{page}/b3s23/", None),
            (page.removeprefix("https://"), None),
            (page.replace("https", "http"), None),
            (f"{page}/b36s23", "b36s23"),
            ("C1/k_a1/b36s23", "b36s23"),
        ):
            told = f"haul: {name}: the rule is --rule {rule}\n" if rule else ""
            self.assertEqual(run("soup", name), (0, soup, told))
        sign = "https://catagolue.hatsya.com/hashsoup/C1/%7E%211"
        self.assertEqual(run("soup", sign), (0, census("soup", "--seed=~!", "1").decode(), ""))

    def test_several(self) -> None:
        """Several samples in plaintext would be one pattern, so they are refused without
        `--separate` or `--rle`."""
        status, printed, told = run("soup", "C1/b2", "a1")
        self.assertEqual((status, printed), (2, ""))
        self.assertIn("several samples need --separate FOLDER or --rle", told)

    def test_rle(self) -> None:
        """With `--rle`, the output may contain several samples, since each begins with its name and
        its rule."""
        status, printed, told = run("soup", "--rle", "C1/b2/b36s23", "a1")
        self.assertEqual((status, told), (0, ""))
        first, second = printed.split("#N a1\n")
        self.assertTrue(first.startswith("#N C1/b2/b36s23\nx = "))
        for text, rule, seed, number in (
            (first, "B36/S23", "b", "2"),
            (second, "B3/S23", "a", "1"),
        ):
            self.assertIn(f", rule = {rule}\n", text)
            rows = read_rle(text.encode()).rows
            soup = census("soup", f"--seed={seed}", number).decode().splitlines()
            self.assertEqual([row.rstrip(".") for row in rows], [row.rstrip(".") for row in soup])

    def test_separate_files(self) -> None:
        with TemporaryDirectory() as folder:
            soups = str(Path(folder, "soups"))
            self.assertEqual(run("soup", "--separate", soups, "C1/b2", "a1"), (0, "", ""))
            for name, words in (("b2", ("--seed=b", "2")), ("a1", ("--seed=a", "1"))):
                self.assertEqual(Path(soups, f"{name}.cells").read_bytes(), census("soup", *words))
            # A file that already exists isn't overwritten.
            Path(soups, "a1.cells").write_text("mine")
            self.assertEqual(
                run("soup", "--separate", soups, "a1"),
                (3, "", f"haul: {soups}/a1.cells: the file exists\n"),
            )
            self.assertEqual(Path(soups, "a1.cells").read_text(), "mine")
            self.assertEqual(run("soup", "--separate", soups, "--rle", "a1"), (0, "", ""))
            self.assertTrue(Path(soups, "a1.rle").read_text().startswith("#N a1\nx = "))

    def test_other_symmetries(self) -> None:
        """A sample with another symmetry is refused, and the message names this symmetry. If one
        sample is refused, the samples before it aren't printed, either."""
        for name, symmetry in (
            ("D8_1/k_a1", "D8_1"),
            ("C2_4/k_a1", "C2_4"),
            ("/a1", ""),
            ("c1/a1", "c1"),
            ("G1/a b", "G1"),
        ):
            self.assertEqual(said_of("a1", name), f"{name}: the symmetry is {symmetry}, and not C1")
        self.assertEqual(
            run("soup", "--rle", "a1", "D8_1/a1"),
            (3, "", "haul: D8_1/a1: the symmetry is D8_1, and not C1\n"),
        )

    def test_what_is_no_sample(self) -> None:
        for name in ("k_abcdefghijkl", "", "C1/", "a b1", "C1/a/1", "\u00e91", "\u0663", "a1\n"):
            self.assertEqual(said_of(name), f"{name}: not a sample, such as C1/k_abcdef12345")

    def test_an_object(self) -> None:
        """The address of an object's page isn't that of a sample's page."""
        page = "catagolue.hatsya.com/object/xs4_33"
        for name in (page, f"https://{page}/b3s23", f"http://{page}/b36s23/"):
            told = f"{name}: an object, and not a soup; `haul rarity xs4_33` says how rare it is"
            self.assertEqual(said_of(name), told)

    def test_none(self) -> None:
        self.assertEqual(run("soup")[0], 2)


if __name__ == "__main__":
    unittest.main()
