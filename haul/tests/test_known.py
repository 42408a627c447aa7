"""Lists of known codes (`haul known`), and `--want`."""

from __future__ import annotations

import csv
import io
import json
import subprocess
import sys
import unittest
from unittest.mock import patch

from haul.formats.haul import Job
from haul.formats.profile import STANDARD
from haul.known.wanted import BadWant, read_want
from haul.search.finds import Find, show_fields
from haul.tests.called import CENSUS, HAUL, taken
from haul.tests.test_names import UserData

LIST = b'"code","count"\n"xs4_33","123"\n"xp3_co9nas0san9oczgoldlo0oldlogz1047210127401",7\nxs6_696 5\n'
APGSEARCH = (
    b"@VERSION v5.4-ll2.2\n@MD5 \n@ROOT k_abc\n@RULE b3s23\n@SYMMETRY D2_+1\n@NUM_SOUPS 10\n"
    b"@NUM_OBJECTS 4\n\n@CENSUS TABLE\nxs4_33 3\nxq4_153 1\n\n@SAMPLE_SOUPIDS\nxs4_33 1\nxq4_153 2\n"
)


class Known(UserData):
    def known(self, *words: str, status: int = 0) -> tuple[str, str]:
        return self.haul("known", *words, status=status)

    def test_lists_are_added_and_removed(self) -> None:
        codes, theirs = self.write("codes.csv", LIST), self.write("theirs", APGSEARCH)
        ours = self.write("ours", taken(40))
        output, _ = self.known("--add", codes, theirs, ours)
        added = [line.partition(": ")[2] for line in output.splitlines()]
        self.assertEqual(added[:2], ["3 codes under b3s23, C1", "2 codes under b3s23, D2_+1"])
        output, _ = self.haul("rarity", "block", "loafer")
        blocks = json.loads(self.haul("table", "--json", "--no-data", ours)[0])["objects"][0]
        self.assertIn(f"; 123 in codes.csv, 3 in theirs, {blocks['total']} in ours\n", output)
        self.assertRegex(output, r"less than one in 27100000 \(95 %\); not among [0-9]+ codes\n$")
        listed, _ = self.known()
        self.assertEqual(listed.splitlines()[0], f"3 codes under b3s23, C1, from {codes}")
        self.known("--add", codes, "--rule", "HighLife", "--symmetry", "D8_1")
        self.assertIn(f"3 codes under b36s23, D8_1, from {codes}\n", self.known("--list")[0])
        self.assertNotIn("codes.csv", self.haul("rarity", "block")[0])
        for file in (codes, theirs, ours):
            self.assertEqual(self.known("--remove", file)[0], f"{file}: removed\n")
        self.assertEqual(self.known(), ("", ""))
        self.assertNotIn("among", self.haul("rarity", "block")[0])
        self.known("--remove", codes, status=3)
        # SQLite gives the number of a removed list to a new one.
        self.known("--add", codes)
        self.assertIn("; 123 in codes.csv\n", self.haul("rarity", "block")[0])

    def test_what_is_refused(self) -> None:
        for text, why in (
            (b"", "no line with a code and a count"),
            (b"xs4_33,12\nhello there\n", "line 2: not a code and a count"),
            (b"xs4_33,-1\n", "line 1: not a code and a count"),
            (b"xs4_33,9223372036854775808\n", "line 1: not a code and a count"),
            (b"@VERSION 2\n@ROOT x\n", "bad haul at line 2 column 7"),
            (b"\xff\xfe\n\x00", "line 2: not a code and a count"),
        ):
            path = self.write("list", text)
            _, errors = self.known("--add", path, status=3)
            self.assertEqual(errors.partition(f"{path}: ")[2].partition("\n")[0][: len(why)], why)
        path = self.write("list", LIST)
        with patch("haul.cli.known_command.MOST_BYTES", len(LIST) - 1):
            _, errors = self.known("--add", path, status=3)
        self.assertEqual(errors, f"haul: {path}: longer than {len(LIST) - 1} bytes\n")
        self.assertFalse((self.data / "known.sqlite").exists())

    def test_a_damaged_database(self) -> None:
        self.data.mkdir()
        (self.data / "known.sqlite").write_bytes(b"no database" * 999)
        for words in (["known"], ["rarity", "block"]):
            _, errors = self.haul(*words, status=3)
            self.assertEqual(errors, f"haul: {self.data}/known.sqlite: file is not a database\n")

    def test_columns(self) -> None:
        """A table, a page and the finds have a column. Whole objects are looked up by parts."""
        self.known("--add", self.write("codes.csv", LIST))
        haul = self.write("haul", taken(400))
        rows = list(csv.DictReader(io.StringIO(self.haul("table", "--csv", haul)[0])))
        known = {row["code"]: row["known"] for row in rows}
        self.assertEqual(
            (known["xs4_33"], known["xp2_7"]), ("123 in codes.csv", "not among 3 codes")
        )
        rows = list(csv.DictReader(io.StringIO(self.haul("table", "--csv", "--whole", haul)[0])))
        known = {row["code"]: row["known"] for row in rows}
        self.assertEqual(known["xs8_330oo"], "123 in codes.csv")
        self.assertEqual(known["xs10_25520oo"], "all parts are known")
        self.assertEqual(known["xp2_33ws"], "not among 3 codes: xp2_7")
        lines = self.haul("table", "--top", "2", haul)[0].splitlines()
        self.assertEqual([line.split()[7] for line in lines], ["known", "123", "none"])
        self.assertNotIn("known", self.haul("table", "--no-data", haul)[0])
        page, _ = self.haul("page", "--census", CENSUS, "--play", "0", haul)
        self.assertIn('"known":"123 in codes.csv"', page)
        fields = show_fields("b3s23", Find("xs6_696", 5).fields(Job("", "b3s23", STANDARD)))
        self.assertEqual((len(fields), fields[-1]), (7, "5 in codes.csv"))
        late = ["", "settled", "-", "5", "-", "-"]
        self.assertEqual(show_fields("b3s23", late), [*late, "-"])

    def test_a_list_without_counts(self) -> None:
        # Some programs write a byte order mark.
        self.known("--add", self.write("codes", b"\xef\xbb\xbfxs4_33\n"))
        self.assertIn("; in codes\n", self.haul("rarity", "block")[0])
        lines = self.haul("table", "--top", "1", self.write("haul", taken(40)))[0].splitlines()
        self.assertEqual([line.split()[7] for line in lines], ["known", "yes"])

    def test_names_of_finds(self) -> None:
        """A name that the user has added is shown under its rule only."""
        self.add(self.write("table", b"xs14_39e0e96\tThing\n"))
        fields = Find("xs14_39e0e96", 5).fields(Job("", "b3s23", STANDARD))
        self.assertEqual(show_fields("b3s23", fields)[2], "Thing")
        self.assertEqual(show_fields("b36s23", fields)[2], "still life of 14 cells")


class Wanted(UserData):
    def search(self, *words: str, status: int = 0) -> tuple[str, str]:
        """Runs a search. Returns what it prints to both streams."""
        call = [sys.executable, HAUL, "search", "--census", CENSUS, str(self.files / "haul")]
        ended = subprocess.run([*call, *words], capture_output=True, text=True, check=False)
        self.assertEqual(ended.returncode, status, ended.stderr)
        return ended.stdout, ended.stderr

    def test_what_is_wanted(self) -> None:
        codes = "ov_p70 xp2_1 xp3_1 xp64_1 xq4_153 xs4_33 xs99_1".split()
        for text, wanted in (
            ("p3+", "ov_p70 xp3_1 xp64_1"),
            ("pq", "ov_p70 xp2_1 xp3_1 xp64_1 xq4_153"),
            ("p2-3", "xp2_1 xp3_1"),
            ("p3", "xp3_1"),
            ("s rarer 5000000", "xs99_1"),
            ("s and rarer 2", "xs99_1"),
            ("rarer 1", " ".join(codes)),
            ("p64+", "ov_p70 xp64_1"),
        ):
            want = read_want(text)
            with self.subTest(text):
                found = [code for code in codes if want.has(code, "b3s23")]
                self.assertEqual(found, wanted.split())
        for text in (
            "",
            "and",
            "pp",
            "p3 q4",
            "p3-",
            "rarer",
            "rarer 0",
            "rarer x",
            "Unknown",
            "z",
        ):
            with self.assertRaises(BadWant):
                read_want(text)

    def test_a_table(self) -> None:
        haul = self.write("haul", taken(400))
        words = ["table", "--csv", haul, "--want", "q", "--want", "s and rarer 1000"]
        codes = [line.split(",")[1] for line in self.haul(*words)[0].splitlines()[1:]]
        self.assertIn("xq4_153", codes)
        self.assertTrue(all(code[1] in "qs" for code in codes) and "xs4_33" not in codes)
        _, errors = self.haul("table", haul, "--want", "unknown", status=3)
        self.assertIn("`unknown` needs a list of codes under b3s23", errors)
        self.haul("known", "--add", self.write("codes.csv", LIST))
        lines = self.haul("table", haul, "--want", "unknown")[0].splitlines()
        self.assertNotIn("block", [line.split()[-1] for line in lines])
        self.haul("table", haul, "--want", "nothing", status=2)

    def test_a_search(self) -> None:
        """With `--want`, the finds are what is wanted, however common it is. A search that goes on
        says from which soup this holds."""
        output, errors = self.search("--seed", "", "--until", "40", "--want", "q4")
        self.assertEqual(
            [line.split("\t")[1:4] for line in output.splitlines()], [["xq4_153", "glider", "1"]]
        )
        self.assertEqual(errors, "")
        output, errors = self.search("--until", "80", "--want", "q4", "--want", "p3")
        self.assertEqual(
            [line.split("\t")[2:4] for line in output.splitlines()], [["pulsar", "62"]]
        )
        self.assertEqual(
            errors, "haul: from soup 40 on, finds are new objects that are: q4 or p3\n"
        )
        _, errors = self.search("--want", "unknown", status=3)
        self.assertIn("`unknown` needs a list of codes under b3s23", errors)
        self.search("--want", "q4", "--rarer", "9", status=2)
        (self.files / "haul").unlink()
        self.haul("known", "--add", self.write("codes.csv", LIST))
        words = ["--until", "2", "--rule", "b36s23"]
        _, errors = self.search(*words, "--want", "unknown", status=3)
        self.assertIn("`unknown` needs a list of codes under b36s23", errors)
        _, errors = self.search("--rule", "b36s23", "--want", "rarer 9", status=3)
        self.assertIn("`rarer` needs Life", errors)


if __name__ == "__main__":
    unittest.main()
