"""Patterns in RLE: they are turned into plaintext, written from plaintext, and refused if they are
wrong."""

from __future__ import annotations

import os
import random
import shutil
import subprocess
import sys
import tempfile
import time
import unittest
from pathlib import Path

from haul.formats.syntax import RULE
from haul.patterns.rle import BadRle, format_rle, read_rle
from haul.patterns.rules import RULES, find_named_rule, parse_rule
from haul.tests.called import CENSUS, HAUL, census, run

# LifeWiki's RLE of the glider gun that is also in examples/glider-gun.cells.
GUN = """\
#N Gosper glider gun
#C This was the first gun discovered.
x = 36, y = 9, rule = B3/S23
24bo11b$22bobo11b$12b2o6b2o12b2o$11bo3bo4b2o12b2o$2o8bo5bo3b2o14b$2o8b
o3bob2o4bobo11b$10bo5bo7bo11b$11bo3bo20b$12b2o!
"""
GLIDER = ".O.\n..O\nOOO\n"
HEAD = "x = 3, y = 3\n"


def cells(text: str) -> tuple[int, str, str]:
    return run("cells", text=text.encode("latin-1"))


def life(words: list[str], pattern: str) -> str:
    return subprocess.run(
        [CENSUS, *words], input=pattern.encode(), stdout=subprocess.PIPE, check=True
    ).stdout.decode()


def boxed(rows: list[str]) -> list[str]:
    """Returns the part of the rows that is in the bounding box of the live cells."""
    live = [y for y, row in enumerate(rows) if "O" in row]
    left = min((rows[y].index("O") for y in live), default=0)
    right = max((rows[y].rindex("O") for y in live), default=-1)
    return [row[left : right + 1] for row in rows[live[0] : live[-1] + 1]] if live else []


def drawn_rows(draw: random.Random, most: int) -> list[str]:
    """Returns random rows with one of three densities. The bounding box of the live cells is the
    whole rectangle."""
    width, height, density = (
        draw.randint(1, most),
        draw.randint(1, most),
        draw.choice([0.02, 0.3, 0.9]),
    )
    rows = [
        "".join("O" if draw.random() < density else "." for _ in range(width))
        for _ in range(height)
    ]
    # The first and the last cell make the bounding box as wide and as high as the rows.
    return (
        ["O" + "." * (width - 1), *rows[1:-1], "." * (width - 1) + "O"]
        if height > 1
        else ["O" + rows[0][1:-1] + "O" if width > 1 else "O"]
    )


class Reading(unittest.TestCase):
    def test_the_gun(self) -> None:
        status, output, errors = cells(GUN)
        self.assertEqual((status, errors), (0, ""))
        known = (Path(HAUL).parents[1] / "examples" / "glider-gun.cells").read_text()
        self.assertEqual(life(["run", "0"], output), life(["run", "0"], known))
        # The gun has 36 cells. After 30 generations, it has these cells and a glider.
        self.assertEqual((output.count("O"), life(["run", "30"], output).count("O")), (36, 41))

    def test_what_may_stand_there(self) -> None:
        for text in (
            HEAD + "bo$2bo$3o!",
            HEAD + "bob$2bo$3o$!",
            HEAD + "bo$\n2bo$\n3o\n!\n",
            HEAD + "1bo1$02b1o$3o!",
            HEAD + "b o $ 2b\to $ 3o !",
            HEAD + "bo$2\nbo$3o!",
            "x=3,y=3\r\nbo$2bo$3o!\r\n",
            "x = 900000, y = 0\nbo$2bo$3o!",
            HEAD + "bo$2bo$3o!5Q what follows $9999o",
            "#N glider\n#C o!\nx = 3, y = 3, rule = B3/S23\n#C o\nbo$2bo$\n#o\n3o!",
            "bo$2bo$3o!",
            HEAD + "bo$2bo$3o99999999999b$!",
            HEAD + "bo$2bo$3o100000000000$!",
            "\n\nx = 3, y = 3\n\nbo$2bo$3o!",
            "  x  =  3 ,  y  =  3 , rule = 23/3 \nbo$2bo$3o!",
            HEAD + "bo$" + "0" * 5000 + "2bo$3o!",
        ):
            with self.subTest(text=text[:60]):
                self.assertEqual(cells(text), (0, GLIDER, ""))

    def test_no_cell(self) -> None:
        for text in ("", "\n", "!", HEAD + "!", HEAD + "9b$!", HEAD + "9" * 10000 + "b$!"):
            with self.subTest(text=text[:20]):
                status, output, errors = cells(text)
                self.assertEqual((status, output.strip("\n"), errors), (0, "", ""))

    def test_rules(self) -> None:
        for said, option in (
            ("B36/S23", "b36s23"),
            ("b36/s23", "b36s23"),
            ("b63s32", "b36s23"),
            ("23/36", "b36s23"),
            ("B2/S", "b2s"),
            ("/2", "b2s"),
            ("B/S012345678", "bs012345678"),
        ):
            with self.subTest(said=said):
                text = f"x = 3, y = 3, rule = {said}\nbo$2bo$3o!"
                self.assertEqual(
                    cells(text), (0, GLIDER, f"haul: rule {said} is --rule {option}\n")
                )
        for said, option in (
            ("HighLife", "b36s23"),
            ("DayNight", "b3678s34678"),
            ("Day & Night", "b3678s34678"),
            ("Seeds", "b2s"),
            ("34 Life", "b34s34"),
            ("Life without Death", "b3s012345678"),
            ("2x2", "b36s125"),
            ("Live Free or Die", "b2s0"),
            ("Maze", "b3s12345"),
        ):
            with self.subTest(said=said):
                text = f"x = 3, y = 3, rule = {said}\nbo$2bo$3o!"
                self.assertEqual((read_rle(text.encode())[1], parse_rule(said)), (said, option))
        self.assertEqual(
            cells("x = 3, y = 3, rule = HighLife\nbo$2bo$3o!"),
            (0, GLIDER, "haul: rule HighLife is --rule b36s23\n"),
        )
        for said in ("Life", "LIFE", "Conway's Life"):
            self.assertEqual(parse_rule(said), "b3s23")
        for said in ("B3/S23", "b3/s23", "B3S23", "23/3", "32/3", "B33/S23", "Life"):
            with self.subTest(said=said):
                self.assertEqual(cells(f"x = 3, y = 3, rule = {said}\nbo$2bo$3o!"), (0, GLIDER, ""))

    def test_limits(self) -> None:
        self.assertEqual(cells(HEAD + "1000o!"), (0, "O" * 1000 + "\n", ""))
        self.assertEqual(cells(HEAD + "999bo!"), (0, "." * 999 + "O\n", ""))
        self.assertEqual(cells(HEAD + "999$o!"), (0, ".\n" * 999 + "O\n", ""))

    def test_plaintext(self) -> None:
        text = "!Name: Glider\r\n!\r\n.O\r\n..O\r\nOOO\r\n!the end"
        self.assertEqual(cells(text), (0, ".O\n..O\nOOO\n", ""))
        self.assertEqual(life(["run", "4"], cells(text)[1]), GLIDER)
        self.assertEqual(cells("!a\n.O.\n.Q.\n"), (3, "", "haul: bad byte at line 3 column 2\n"))
        self.assertEqual(cells("!\n" + "O" * 1000), (0, "O" * 1000 + "\n", ""))
        self.assertEqual(cells("." * 1001), (3, "", "haul: pattern larger than 1000 by 1000\n"))
        self.assertEqual(cells(".\n" * 1000 + "\n\n"), (0, ".\n" * 1000 + "\n\n", ""))
        self.assertEqual(cells(".\n" * 1001), (3, "", "haul: pattern larger than 1000 by 1000\n"))


class NamedRules(unittest.TestCase):
    def test_each_can_be_run(self) -> None:
        """Each named rule is a valid value of `--rule`, and is also found by its name in capital
        letters."""
        for name, option in RULES.items():
            self.assertTrue(RULE.fullmatch(option.encode()), option)
            self.assertEqual(find_named_rule(name.upper()), option)
        self.assertIsNone(find_named_rule("LifeHistory"))


class OtherForms(unittest.TestCase):
    """Tests patterns of Golly that have more than two states, or that are on a bounded grid."""

    HISTORY = "states A, C and E are read as live cells, and B, D and F as dead cells\n"

    def test_history(self) -> None:
        """The states of LifeHistory are 1 (alive), 2 (history), 3 (marked alive), 4 (marked dead), 5
        (alive at first) and 6 (a boundary), which are written as A to F."""
        rows = "A.B$2CD$EF.2A!"
        for rule in ("LifeHistory", "B3/S23History", "lifehistory"):
            told = (0, "O....\nOO...\nO..OO\n", f"haul: {self.HISTORY}")
            self.assertEqual(cells(f"x = 5, y = 3, rule = {rule}\n{rows}"), told)
        text = "x = 3, y = 1, rule = B36/S23History\n3A!"
        note = "haul: rule B36/S23 is --rule b36s23\n"
        self.assertEqual(cells(text), (0, "OOO\n", f"{note}haul: {self.HISTORY}"))
        status, output, errors = run("why", "--pattern=-", "--census", CENSUS, text=text.encode())
        self.assertEqual((status, output, errors), (0, "- settled 0\n", f"haul: {self.HISTORY}"))

    def test_bounded_grids(self) -> None:
        for grid in (":T100,100", ":P10,20", ":K30*,20", ":T0,40"):
            text = f"x = 3, y = 1, rule = B3/S23{grid}\n3o!".encode()
            self.assertEqual(run("cells", "--plane", text=text), (0, "OOO\n", ""))
            words = ("why", "--pattern=-", "--plane", "--census", CENSUS)
            self.assertEqual(run(*words, text=text), (0, "- settled 0\n", ""))
        self.assertIn("--plane needs --pattern", run("why", "--plane", "1")[2])


NO_RULE = "a rule that is neither B/S, S/B nor a known name"


class Refused(unittest.TestCase):
    FAULTS = [
        (HEAD + "bo$2bqA$3o!", 2, 6, "a third state"),
        (HEAD + "bo$2bA$3o!", 2, 6, "a third state"),
        (HEAD + "bo$\n2b?$3o!", 3, 3, "not b, o, $ or !"),
        (HEAD + "bo$2bo$3o", 2, 10, "no ! at the end"),
        (HEAD + "bo$2bo$3o\n", 3, 1, "no ! at the end"),
        (HEAD + "bo$2", 2, 5, "no ! at the end"),
        (HEAD + "3!", 2, 2, "not b, o, $ or !"),
        (HEAD + "1 2o!", 2, 3, "not b, o, $ or !"),
        (HEAD + "bo$0o!", 2, 4, "a count of 0"),
        ("#C x\n" + HEAD + "1001o!", 3, 1, "a cell past the 1000th column or row"),
        (HEAD + "1000bo!", 2, 6, "a cell past the 1000th column or row"),
        (HEAD + "1000$o!", 2, 6, "a cell past the 1000th column or row"),
        (HEAD + "100000000000o!", 2, 1, "a cell past the 1000th column or row"),
        (HEAD + "100000000000$100000000000o!", 2, 14, "a cell past the 1000th column or row"),
        (
            "x = 3, y = 3, rule = B3/S23:T100,100\no!",
            1,
            28,
            "a bounded grid, which --plane reads as the plane",
        ),
        ("x = 3, y = 3, rule = LifeHistory\nG!", 2, 1, "a third state"),
        ("x = 3, y = 3, rule = LifeHistory\npA!", 2, 1, "a third state"),
        ("x = 3, y = 3, rule = WorldHistory\nA!", 1, 22, NO_RULE),
        ("x = 3, y = 3, rule = B03/S23\no!", 1, 22, "birth on zero neighbours"),
        ("x = 3, y = 3, rule = 23/03\no!", 1, 22, "birth on zero neighbours"),
        (
            "x = 3, y = 3, rule = WireWorld\no!",
            1,
            22,
            "a rule that is neither B/S, S/B nor a known name",
        ),
        (
            "x = 3, y = 3, rule = B2-a/S12\no!",
            1,
            22,
            "a rule that is neither B/S, S/B nor a known name",
        ),
        ("x = 3\no!", 1, 1, "not a header"),
        (
            "x = 3, y = 3, rule = B3/S9\no!",
            1,
            22,
            "a rule that is neither B/S, S/B nor a known name",
        ),
        ("x = 3, y = 3, z = 3\no!", 1, 1, "not a header"),
        ("hello", 1, 1, "not b, o, $ or !"),
        (HEAD + HEAD + "o!", 2, 1, "not b, o, $ or !"),
        (HEAD + "\xff!", 2, 1, "not b, o, $ or !"),
        ("\n?", 2, 1, "not b, o, $ or !"),
        ("\n\nx = 3\no!", 3, 1, "not a header"),
    ]

    def test_each_fault(self) -> None:
        for text, line, column, why in self.FAULTS:
            with self.subTest(text=text[:60]):
                self.assertEqual(
                    cells(text), (3, "", f"haul: bad RLE at line {line} column {column}: {why}\n")
                )

    def test_a_file_is_named(self) -> None:
        with tempfile.TemporaryDirectory() as folder:
            name = os.path.join(folder, "a.rle")
            Path(name).write_text(HEAD + "o?")
            self.assertEqual(
                run("cells", name),
                (3, "", f"haul: {name}: bad RLE at line 2 column 2: not b, o, $ or !\n"),
            )
            Path(name).write_text("?")
            self.assertEqual(
                run("rle", name), (3, "", f"haul: {name}: bad byte at line 1 column 1\n")
            )

    def test_large_counts_take_no_time(self) -> None:
        began = time.monotonic()
        with self.assertRaises(BadRle):
            read_rle((HEAD + "99999999999$" * 1000 + "99999999999o!").encode())
        self.assertLess(time.monotonic() - began, 1)

    def test_how_long_a_pattern_may_be(self) -> None:
        comment = b"!" + b"x" * (2**24 - 1)
        for command in ("cells", "rle"):
            self.assertEqual(run(command, text=comment)[0], 0)
            self.assertEqual(
                run(command, text=comment + b"x"),
                (5, "", "haul: pattern longer than 16777216 bytes\n"),
            )
        with tempfile.TemporaryDirectory() as folder:
            name = os.path.join(folder, "long")
            Path(name).write_bytes(comment + b"x")
            self.assertEqual(
                run("cells", name), (5, "", f"haul: {name}: pattern longer than 16777216 bytes\n")
            )
        self.assertEqual(
            run("cells", "-", text=comment + b"x"),
            (5, "", "haul: pattern longer than 16777216 bytes\n"),
        )

    def test_an_input_without_end(self) -> None:
        with open("/dev/zero", "rb") as zeros:
            for command in ("cells", "rle"):
                ended = subprocess.run(
                    [sys.executable, HAUL, command], stdin=zeros, capture_output=True, check=False
                )
                self.assertEqual(
                    (ended.returncode, ended.stderr),
                    (5, b"haul: pattern longer than 16777216 bytes\n"),
                )


class Writing(unittest.TestCase):
    def test_a_glider(self) -> None:
        """The RLE of a glider is the same as on LifeWiki."""
        self.assertEqual(
            run("rle", text=GLIDER.encode()), (0, "x = 3, y = 3, rule = B3/S23\nbo$2bo$3o!\n", "")
        )
        self.assertEqual(
            run("rle", "--rule", "b36s23", text=b"!a\n.*\r\n..*.\n***\n\n"),
            (0, "x = 3, y = 3, rule = B36/S23\nbo$2bo$3o!\n", ""),
        )

    def test_nothing(self) -> None:
        for text in (b"", b"!a\n", b"...\n...\n"):
            self.assertEqual(run("rle", text=text), (0, "x = 0, y = 0, rule = B3/S23\n!\n", ""))

    def test_the_gun(self) -> None:
        """Lines have at most 70 characters, and no run is split."""
        lines = run("rle", text=cells(GUN)[1].encode())[1].splitlines()
        self.assertEqual(lines[0], "x = 36, y = 9, rule = B3/S23")
        self.assertEqual(
            lines[1], "24bo$22bobo$12b2o6b2o12b2o$11bo3bo4b2o12b2o$2o8bo5bo3b2o$2o8bo3bob2o4b"
        )
        self.assertEqual(lines[2], "obo$10bo5bo7bo$11bo3bo$12b2o!")

    def test_rules(self) -> None:
        for word in ("B3S23x", "b3", "b9s", "", "b3/23", "Nolife"):
            with self.subTest(word=word):
                status, output, errors = run("rle", "--rule", word, text=b"O")
                self.assertEqual((status, output), (2, ""))
                self.assertIn("is no rule", errors)

    def test_round_trips(self) -> None:
        draw = random.Random("patterns")
        for most in (1, 2, 3, 12, 40, 200) * 20:
            rows = drawn_rows(draw, most)
            rule = draw.choice(["b3s23", "b36s23", "bs", "b2s"])
            lines = format_rle(rows, rule)
            self.assertTrue(all(len(line) <= 70 for line in lines))
            again, said, _ = read_rle("\n".join(lines).encode())
            self.assertEqual((again, parse_rule(said or "")), (rows, rule))
        wide = ["O" * 1000] * 999 + ["." * 999 + "O"]
        self.assertEqual(read_rle("\n".join(format_rle(wide, "b3s23")).encode())[0], wide)


@unittest.skipUnless(shutil.which("bgolly"), "there is no bgolly")
class Golly(unittest.TestCase):
    """Golly reads what `haul` writes, and `haul` reads what Golly writes."""

    def by_golly(self, rle: str, generations: int) -> str:
        with tempfile.TemporaryDirectory() as folder:
            Path(folder, "in.rle").write_text(rle, encoding="latin-1")
            words = [
                "bgolly",
                "-a",
                "QuickLife",
                "-m",
                str(generations),
                "-i",
                str(max(generations, 1)),
                "-o",
                "out.rle",
                "in.rle",
            ]
            subprocess.run(
                words, cwd=folder, stdout=subprocess.DEVNULL, stderr=subprocess.DEVNULL, check=True
            )
            return Path(folder, "out.rle").read_text()

    def test_drawn_patterns(self) -> None:
        draw = random.Random("for Golly")
        for rule in ("b3s23", "b36s23", "b3s12345", "b3s23", "b3678s34678"):
            rows = drawn_rows(draw, 60)
            written = "\n".join(format_rle(rows, rule)) + "\n"
            status, output, errors = cells(self.by_golly(written, 12))
            self.assertEqual(
                (status, errors),
                (
                    0,
                    ""
                    if rule == "b3s23"
                    else f"haul: rule {'B' + rule[1:].replace('s', '/S')} is --rule {rule}\n",
                ),
            )
            self.assertEqual(
                life(["run", "0"], output), life(["run", "12", "--rule", rule], "\n".join(rows))
            )

    def test_patterns_of_golly(self) -> None:
        """If Golly reads and writes one of its patterns, `haul` reads the same pattern from both
        texts, apart from dead rows and columns at the sides. A third of the patterns is tested,
        except for texts that are too long or refused."""
        tried = 0
        for file in sorted(Path("/usr/share/golly/Patterns").rglob("*.rle"))[::3]:
            text = file.read_bytes()
            if len(text) > 50000:
                continue
            try:
                rows, rule, _ = read_rle(text)
            except BadRle:
                continue
            with self.subTest(file=file.name):
                known, said, _ = read_rle(self.by_golly(text.decode("latin-1"), 0).encode())
                self.assertEqual(
                    (boxed(known), parse_rule(said or "")),
                    (boxed(rows), parse_rule(rule or "b3/s23")),
                )
                tried += 1
        self.assertGreater(tried, 20)

    def test_objects(self) -> None:
        for (
            code
        ) in "xs4_33 xq4_153 xp15_4r4z4r4 xp3_co9nas0san9oczgoldlo0oldlogz1047210127401".split():
            shown = census("show", code)
            written = run("rle", text=shown)[1]
            self.assertEqual(
                life(["run", "0"], cells(self.by_golly(written, 1))[1]),
                life(["run", "1"], shown.decode()),
            )


if __name__ == "__main__":
    unittest.main()
