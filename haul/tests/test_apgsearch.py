"""Hauls of apgsearch: how they are read, counted, compared, shown and checked. Also texts that
aren't hauls."""

from __future__ import annotations

import csv
import json
import unittest
from pathlib import Path
from tempfile import TemporaryDirectory

from haul.tests.called import TOP, census, run

HEAD = """\
@VERSION v5.4-ll2.2
@MD5 5a105e8b9d40e1329780d62ea2265d8a
@ROOT k_abc
@RULE b3s23
@SYMMETRY C1
@NUM_SOUPS 100
@NUM_OBJECTS 1384
"""
TABLE = """
@CENSUS TABLE
xp2_7 716
xs4_33 665
yl144_1_16_afb5f3db909e60548f086e22ee3353ac 1
PATHOLOGICAL 2

@SAMPLE_SOUPIDS
xp2_7 0 1 2
xs4_33 1 2 3
PATHOLOGICAL 4
"""
TEXT = HEAD + TABLE
GROWTH = "yl144_1_16_afb5f3db909e60548f086e22ee3353ac"


class Apgsearch(unittest.TestCase):
    def setUp(self) -> None:
        folder = TemporaryDirectory()
        self.addCleanup(folder.cleanup)
        self.folder = Path(folder.name)
        self.file = self.write("a.txt", TEXT)

    def write(self, name: str, text: str) -> str:
        path = self.folder / name
        path.write_bytes(text.encode("latin-1"))
        return str(path)

    def refused(self, *words: str) -> str:
        """Returns the reason that a refused call gives after the name of the file."""
        status, printed, told = run(*words)
        self.assertEqual((status, printed), (3, ""), words)
        self.assertEqual(told.count("\n"), 1, told)
        return told.removeprefix(f"haul: {words[-1]}: ").removesuffix("\n")

    def test_table(self) -> None:
        """`haul table` prints the totals unchanged, since apgsearch counts parts. Objects that
        `census` doesn't count have no rarity."""
        status, printed, told = run("table", "--csv", self.file)
        self.assertEqual((status, told), (0, ""))
        rows = {row["code"]: row for row in csv.DictReader(printed.splitlines())}
        self.assertEqual(list(rows), ["xp2_7", "xs4_33", "PATHOLOGICAL", GROWTH])
        self.assertEqual(rows["xp2_7"]["total"], "716")
        self.assertEqual(rows["xp2_7"]["label"], "blinker")
        self.assertEqual(rows["xp2_7"]["samples"], "0 1 2")
        self.assertTrue(rows["xs4_33"]["one_in"].startswith("1.09"))
        self.assertEqual((rows["PATHOLOGICAL"]["one_in"], rows[GROWTH]["one_in_low"]), ("", ""))
        lines = run("table", self.file)[1].splitlines()
        self.assertEqual(lines[3].split()[4:7], ["-", "-", "-"])
        facts = json.loads(run("table", "--json", self.file)[1])
        self.assertEqual((facts["symmetry"], facts["apgsearch"]), ("C1", "v5.4-ll2.2"))
        self.assertEqual(
            (facts["unsettled"], facts["ranges"], facts["profile"]), (None, None, None)
        )

    def test_variations(self) -> None:
        """`haul table` prints the same if the file has carriage returns, blank lines, unknown
        lines, the rule in another notation, or no line feed at its end."""
        printed = run("table", self.file)
        for name, text in (
            ("returns", TEXT.replace("\n", "\r\n")),
            ("blank", "\n\n" + TEXT.replace("\n", "\n\n")),
            ("unknown", TEXT.replace("@RULE", "@PAYOSHA256 0a1b x\n@RULE") + "@END\n"),
            ("named", TEXT.replace("b3s23", "B3/S23")),
            ("no end", TEXT.removesuffix("\n")),
        ):
            with self.subTest(name):
                self.assertEqual(run("table", self.write(name, text)), printed)

    def test_compare(self) -> None:
        """A haul of apgsearch can be compared with a haul of `census`. A star marks a rate that
        differs significantly from the rate in the first haul."""
        own = self.folder / "own"
        own.write_bytes(census("take", "--count", "100"))
        status, printed, told = run("compare", str(own), self.file)
        self.assertEqual((status, told), (0, ""))
        lines = printed.splitlines()
        self.assertEqual(lines[2], "B: seed=k_abc rule=b3s23 apgsearch=v5.4-ll2.2 symmetry=C1")
        self.assertEqual(lines[3], "B: 100 soups, 1384 objects by parts")
        rows = csv.DictReader(run("compare", "--csv", str(own), self.file)[1].splitlines())
        glider = next(row for row in rows if row["code"] == "xq4_153")
        self.assertEqual((glider["differs_b"], glider["unsettled_b"]), ("*", ""))
        # Soups with a symmetry aren't covered by the reference.
        other = self.write("other", TEXT.replace("C1", "D2_+1"))
        self.assertNotIn("one_in", run("compare", self.file, other)[1])
        self.assertIn("symmetry=D2_+1", run("compare", self.file, other)[1])

    def test_page(self) -> None:
        status, printed, told = run("page", self.file)
        self.assertEqual((status, told), (0, ""))
        self.assertIn("apgsearch v5.4-ll2.2 counted the objects", printed)
        self.assertNotIn("formally verified program <code>census</code> counted", printed)
        self.assertIn("haul check --totals all.haul", printed)
        ours = "The counts of a haul of apgsearch are apgsearch's."
        self.assertIn(ours, printed)
        self.assertNotIn(ours, run("page", "--play=0", text=census("take", "--count=2"))[1])

    def test_what_it_cant_be_used_for(self) -> None:
        parts = (
            "the totals of apgsearch are by parts already, so --whole and --strict are only for hauls "
            "of census"
        )
        ours = str(TOP / "examples" / "100000.haul")
        for words in (["table", "--whole"], ["table", "--strict"], ["compare", "--whole", ours]):
            self.assertEqual(self.refused(*words, self.file), parts)
        self.assertEqual(
            self.refused("join", self.file),
            "bad haul at line 1 column 10: this looks like a haul of apgsearch, which `haul table` and "
            "`haul check` read",
        )
        self.assertEqual(
            self.refused("index", self.file),
            "a haul of apgsearch, which doesn't name its soups",
        )
        self.assertEqual(
            self.refused("check", self.file),
            "a haul of apgsearch doesn't name its soups: --samples runs its sample soups, and "
            "--totals takes a census of as many soups",
        )
        other = self.write("other", TEXT.replace("C1", "G1"))
        for option in ("--samples", "--totals"):
            self.assertEqual(
                self.refused("check", option, other),
                "the symmetry is G1, and census runs C1 only",
            )

    def test_samples(self) -> None:
        """`haul check --samples` runs the sample soups of the codes that it can check, and lists
        the other codes, with the reason."""
        status, printed, told = run("check", "--samples", self.file)
        self.assertEqual((status, printed), (0, "right\n"))
        self.assertEqual(
            told,
            f"haul: {self.file}: not checked, since census doesn't count such objects: "
            f"PATHOLOGICAL {GROWTH}\n",
        )
        large = self.write("large", TEXT.replace("PATHOLOGICAL", "ov_p12"))
        self.assertEqual(
            run("check", "--samples", large)[2],
            f"haul: {large}: not checked, since census doesn't count such objects: {GROWTH}\n"
            f"haul: {large}: not checked, since such a code doesn't draw its object: ov_p12\n",
        )
        wrong = self.write("wrong", TEXT.replace("xs4_33 1", "xs4_33 0"))
        status, printed, _ = run("check", "--samples", wrong)
        self.assertEqual((status, printed), (7, "xs4_33: soup 0 leaves no such part\n"))

    def test_totals(self) -> None:
        """`check --totals` runs as many soups as the haul has, and reports which totals differ."""
        haul = census("take", "--seed=k_abc", "--count", "100")
        (self.folder / "own").write_bytes(haul)
        rows = csv.DictReader(run("table", "--csv", str(self.folder / "own"))[1].splitlines())
        totals = {row["code"]: int(row["total"]) for row in rows}
        same = (
            HEAD
            + "@CENSUS TABLE\n"
            + "".join(f"{code} {total}\n" for code, total in totals.items())
        )
        same = same.replace("1384", str(sum(totals.values())))
        self.assertEqual(run("check", "--totals", self.write("same", same)), (0, "right\n", ""))
        status, printed, _ = run("check", "--totals", self.file)
        self.assertEqual(status, 7)
        lines = printed.splitlines()
        self.assertIn("PATHOLOGICAL: 2, and 0 here (census has no such code)", lines)
        self.assertIn(f"{GROWTH}: 1, and 0 here (linear growth isn't counted here)", lines)
        self.assertIn(f"xs4_33: 665, and {totals['xs4_33']} here", lines)
        # With `--first 1`, other soups are run, so the totals differ.
        status, printed, _ = run("check", "--totals", "--first", "1", self.write("same", same))
        self.assertEqual(status, 7)
        # In the next call, the number of the last soup is the highest that is allowed. In the call
        # after that, it is too high by one.
        status, _, told = run("check", "--totals", "--first", str(2**40 - 100), self.file)
        self.assertEqual((status, told), (7, ""))
        status, printed, told = run("check", "--totals", "--first", str(2**40 - 99), self.file)
        self.assertEqual(printed, "")
        self.assertIn("census can't run so many soups", told)
        lacking = self.write(
            "lacking", TEXT.replace("xs4_33 665\n", "").replace("xs4_33 1 2 3\n", "")
        )
        self.assertIn(
            f"xs4_33: 0, and {totals['xs4_33']} here",
            run("check", "--totals", lacking)[1].splitlines(),
        )
        shuttle = self.write("shuttle", TEXT.replace(GROWTH, "xp30_w33z8kqrqk8zzzx33"))
        self.assertIn(
            "xp30_w33z8kqrqk8zzzx33: 1, and 0 here (it is several clusters in every phase)",
            run("check", "--totals", shuttle)[1],
        )

    def test_the_sum(self) -> None:
        """`haul` reports that the totals don't add up to the number of objects."""
        text = TEXT.replace("xp2_7 716", "xp2_7 717")
        path = self.write("sum", text)
        status, _, told = run("table", path)
        self.assertEqual(status, 0)
        self.assertEqual(
            told,
            f"haul: {path}: @NUM_OBJECTS is 1384, and the objects of the table are 1385\n",
        )

    def test_damage(self) -> None:
        """For each kind of damage, `haul` prints a single error message, and nothing else."""
        for name, old, new, why in (
            ("twice", "xs4_33 665", "xp2_7 665", "line 11 column 1: this was said before"),
            ("negative", "xs4_33 665", "xs4_33 -5", "line 11 column 8: no number"),
            ("none", "xs4_33 665", "xs4_33 0", "line 11 column 8: a row of the table is"),
            ("no total", "xs4_33 665", "xs4_33", "line 11 column 7"),
            ("more", "xs4_33 665", "xs4_33 665 7", "line 11 column 12: a row of the table is"),
            ("word", "PATHOLOGICAL 2", f"{'x' * 1001} 2", "line 13 column 1"),
            ("huge", "xs4_33 665", f"xs4_33 {2**64}", "line 11 column 8: the number is too large"),
            ("huger", "xs4_33 665", f"xs4_33 {'9' * 5000}", "line 11 column 8"),
            ("sample", "xs4_33 1 2", "xs4_33 a 2", "line 17 column 8: no number"),
            ("far", "xs4_33 1 2", f"xs4_33 {2**40} 2", "line 17 column 8: the number is too large"),
            ("other", "PATHOLOGICAL 4", "xq4_153 4", "line 18 column 1: the census table doesn't"),
            ("byte", "xs4_33 665", "xs4_33\xe9 665", "line 11 column 7: a byte that isn't"),
            ("rule", "@RULE b3s23", "@RULE b2n3s23", "line 4 column 7: only rules such as b3s23"),
            ("soups", "@NUM_SOUPS 100", "@NUM_SOUPS many", "line 6 column 12: no number"),
            ("root", "@ROOT k_abc\n", "", "line 8 column 1: no line @ROOT before the table"),
            ("again", "@RULE b3s23", "@RULE b3s23\n@RULE b3s23", "line 5 column 1: this was said"),
            ("text", "@RULE b3s23", "@RULE b3s23\nhello", "line 5 column 1"),
        ):
            with self.subTest(name):
                self.assertIn(old, TEXT)
                told = self.refused("table", self.write(name, TEXT.replace(old, new, 1)))
                self.assertTrue(told.startswith(f"bad haul at {why}"), told)
        twice = TEXT.replace("@NUM_SOUPS 100", "@NUM_SOUPS many").replace("xs4_33 665", "xs4_33 0")
        told = self.refused("table", self.write("two faults", twice))
        self.assertTrue(told.startswith("bad haul at line 6 column 12: no number"), told)
        short = self.refused("table", self.write("short", HEAD))
        self.assertEqual(short, "bad haul at line 8 column 1: no line @CENSUS")
        for text in (TEXT + "x" * 2**21, HEAD + "@MORES" + " x" * (2**19 - 3) + "\n" + TABLE):
            long = self.refused("table", self.write("long", text))
            self.assertIn(" column 1048576: the line is too long", long)

    def test_limits(self) -> None:
        """`haul table` accepts words and lines of the greatest allowed length, and the largest
        allowed numbers."""
        for text in (
            TEXT.replace("PATHOLOGICAL", "z" * 1000),
            TEXT.replace("xs4_33 1 2", f"xs4_33 1 {2**40 - 1}"),
            TEXT.replace("xs4_33 665", f"xs4_33 {2**64 - 1}"),
            HEAD + "@MORE" + " x" * (2**19 - 3) + "\n" + TABLE,
        ):
            self.assertEqual(run("table", self.write("limit", text))[0], 0)

    def test_what_texts_look_like(self) -> None:
        """If a text isn't a haul, but looks like a text in another known format, the message names
        this format. `haul soups` expects report lines, and says so if it is given a haul."""
        own = census("take", "--count", "1").decode()
        for name, text, form in (
            ("lines", census("work", "--worker=1", "--count=1").decode(), "report lines"),
            ("returns", own.replace("\n", "\r\n"), "a haul whose lines end in CR LF"),
            ("gzip", "\x1f\x8b\x08", "a compressed file"),
            ("page", "<!doctype html>\n", "a page of HTML"),
            ("rle", "#N glider\nx = 3, y = 3\nbo$2bo$3o!\n", "a pattern in RLE"),
            ("header", "x = 3, y = 3\nbo$2bo$3o!\n", "a pattern in RLE"),
            ("cells", "!glider\n.O.\n", "a pattern in plaintext"),
            ("json", '{"a": 1}', "JSON"),
        ):
            with self.subTest(name):
                told = self.refused("table", self.write(name, text))
                self.assertIn(f": this looks like {form}", told)
        self.assertEqual(
            self.refused("table", self.write("nothing", "hello\n")),
            "bad haul at line 1 column 1",
        )
        self.assertEqual(
            self.refused("soups", self.write("haul", own)),
            "no report lines: this looks like a haul, which `haul table` and `haul check` read; "
            "the report lines of a search are in FILE.late",
        )

    def test_rules(self) -> None:
        """A rule may be given by its name or in Golly's notation. A message then gives the form
        that `census` accepts."""
        glider = self.write("glider", ".O\n..O\nOOO\n")
        for given, rule, shown in (
            ("HighLife", "b36s23", "B36/S23"),
            ("B36/S23", "b36s23", "B36/S23"),
            ("23/36", "b36s23", "B36/S23"),
            ("b36s23", "b36s23", "B36/S23"),
        ):
            status, printed, told = run("rle", "--rule", given, glider)
            self.assertEqual(status, 0)
            self.assertIn(f"rule = {shown}", printed)
            self.assertEqual(
                told, "" if given == rule else f"haul: rule {given} is --rule {rule}\n"
            )
        self.assertEqual(run("rle", "--rule", "Nolife", glider)[0], 2)

    def test_usage(self) -> None:
        for words in (
            ["check", "--first", "1", self.file],
            ["check", "--samples", "--totals", self.file],
            ["check", "--totals", "--first", "-1", self.file],
        ):
            self.assertEqual(run(*words)[0], 2, words)
        own = self.folder / "own"
        own.write_bytes(census("take", "--count", "1"))
        self.assertEqual(
            self.refused("check", "--totals", str(own)), "--totals is for hauls of apgsearch"
        )


if __name__ == "__main__":
    unittest.main()
