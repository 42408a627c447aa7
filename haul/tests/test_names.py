"""Names that the user adds with `haul names`, and famous patterns."""

from __future__ import annotations

import errno
import gzip
import io
import os
import re
import subprocess
import sys
import tarfile
import tempfile
import unittest
import zipfile
from contextlib import ExitStack
from pathlib import Path
from unittest.mock import patch

from haul.formats.tables import BadTable
from haul.names.famous import find_famous, load_famous, parse_famous
from haul.names.objects import find_name, find_other_names
from haul.names.user_names import load_user_names
from haul.tests.called import CENSUS, TOP, census_of, run

GLIDER = b"#N My glider\nx = 3, y = 3, rule = B3/S23\n3o$2bo$bo!\n"
BLOCK = b"!Name: Square\nOO\nOO\n"
# A predecessor, which isn't an object in its first generation.
ROW = b"!Name: Row of four\nOOOO\n"
NAMED = {
    "g.rle": GLIDER,
    "deep/b.cells": BLOCK,
    "row.cells": ROW,
    "nameless.cells": b"OO\nOO\n",
    # Under Life, this isn't an object.
    "dot.rle": b"#N Dot\nx = 1, y = 1, rule = B36/S023\no!\n",
    "table.tsv": b'xs6_696\tHive\nxs5_253,"Ship of one"\nno line\n',
}


class UserData(unittest.TestCase):
    """A test with a folder for the user's data, and another one for files."""

    def setUp(self) -> None:
        stack = ExitStack()
        self.addCleanup(stack.close)
        room = stack.enter_context(tempfile.TemporaryDirectory())
        self.data, self.files = Path(room, "data"), Path(room, "files")
        self.files.mkdir()
        stack.enter_context(patch.dict(os.environ, HAUL_DATA=str(self.data)))

    def write(self, name: str, text: bytes) -> str:
        path = self.files / name
        path.parent.mkdir(parents=True, exist_ok=True)
        path.write_bytes(text)
        return str(path)

    def haul(self, *words: str, status: int = 0) -> tuple[str, str]:
        """Calls `haul`, whose status has to be `status`. Returns what it prints to both streams."""
        ended, output, errors = run(*words)
        self.assertEqual(ended, status, errors)
        return output, errors

    def add(self, *files: str, status: int = 0) -> tuple[str, str]:
        return self.haul("names", "--census", CENSUS, "--verbose", "--add", *files, status=status)


class Added(UserData):
    def write_all(self) -> None:
        for name, text in NAMED.items():
            self.write(name, text)

    def test_a_folder(self) -> None:
        self.write_all()
        output, errors = self.add(str(self.files))
        self.assertEqual(output, f"{self.files}: 5 names; 3 files or lines passed over\n")
        self.assertEqual(
            sorted(errors.replace(f"{self.files}/", "").splitlines()),
            [
                "haul: Row of four: not one object in its first generation",
                "haul: nameless.cells: no name",
                "haul: table.tsv: line 3: not a code and a name",
            ],
        )
        listed, _ = self.haul("names", "--list")
        self.assertEqual(
            [line.split("\t")[:3] for line in listed.splitlines()],
            [
                ["b36s023", "xs1_1", "Dot"],
                ["b3s23", "xq4_153", "My glider"],
                ["b3s23", "xs4_33", "Square"],
                ["b3s23", "xs5_253", "Ship of one"],
                ["b3s23", "xs6_696", "Hive"],
            ],
        )
        counted, _ = self.haul("names")
        self.assertEqual(
            counted.splitlines()[1:],
            [f"1 name under b36s023 from {self.files}", f"4 names under b3s23 from {self.files}"],
        )
        removed, _ = self.haul("names", "--remove", str(self.files))
        self.assertEqual(removed, f"{self.files}: 5 names removed\n")
        self.assertEqual(self.haul("names", "--list"), ("", ""))
        _, errors = self.haul("names", "--remove", str(self.files), status=3)
        self.assertEqual(errors, f"haul: {self.files}: no names are from this file\n")

    def test_archives_and_a_packed_file(self) -> None:
        zipped, tarred = io.BytesIO(), io.BytesIO()
        with zipfile.ZipFile(zipped, "w") as file:
            file.writestr("../../g.rle", GLIDER)
            file.writestr("row.cells", ROW)
        with tarfile.open(fileobj=tarred, mode="w:gz") as packed:
            for name, text in (("/etc/b.cells", BLOCK), ("link", None)):
                head = tarfile.TarInfo(name)
                head.size = len(text or b"")
                head.type = tarfile.REGTYPE if text else tarfile.SYMTYPE
                packed.addfile(head, io.BytesIO(text or b""))
        files = [
            self.write("all.zip", zipped.getvalue()),
            self.write("all.tar.gz", tarred.getvalue()),
            self.write("one.rle.gz", gzip.compress(GLIDER.replace(b"My", b"Your"))),
        ]
        output, _ = self.add(*files)
        self.assertEqual(
            [line.partition(": ")[2] for line in output.splitlines()],
            [
                "1 name; 1 file or line passed over",
                "1 name; 0 files or lines passed over",
                "1 name; 0 files or lines passed over",
            ],
        )
        self.assertEqual(find_other_names("xq4_153"), ("My glider", "Your glider"))

    def test_a_large_archive(self) -> None:
        """The bytes of all files in an archive count together."""
        zipped = io.BytesIO()
        with zipfile.ZipFile(zipped, "w") as file:
            for k in range(4):
                file.writestr(f"{k}.cells", BLOCK)
        with patch("haul.collections.pattern_files.MOST_UNPACKED", 2 * len(BLOCK)):
            output, errors = self.add(self.write("all.zip", zipped.getvalue()))
        # Both files give the block the same name.
        self.assertEqual(output.partition(": ")[2], "1 name; 1 file or line passed over\n")
        self.assertIn("2.cells: the archive is too large", errors)

    def test_a_folder_with_the_ending_of_an_archive(self) -> None:
        output, _ = self.add(self.write("all.tar.d/b.cells", BLOCK))
        self.assertEqual(output.partition(": ")[2], "1 name; 0 files or lines passed over\n")

    def test_a_folder_that_cannot_be_read(self) -> None:
        """Its names are kept. If it is in another folder, it is passed over."""
        refused, scandir = str(self.files), os.scandir

        def refuse(path: str) -> object:
            if path == refused:
                raise PermissionError(errno.EACCES, "Permission denied", path)
            return scandir(path)

        self.write("deep/b.cells", BLOCK)
        self.add(str(self.files))
        with patch("os.scandir", refuse):
            _, errors = self.add(str(self.files), status=5)
            self.assertEqual(errors, f"haul: {refused}: Permission denied\n")
            self.assertEqual(len(self.haul("names", "--list")[0].splitlines()), 1)
            refused = str(self.files / "deep")
            output, errors = self.add(str(self.files))
        self.assertEqual(output.partition(": ")[2], "0 names; 1 file or line passed over\n")
        self.assertEqual(errors, f"haul: {refused}: Permission denied\n")

    def test_a_name_that_is_there_twice(self) -> None:
        output, _ = self.add(self.write("table", b"xs4_33\tFour\nxs4_33\tFour\n"))
        self.assertEqual(output.partition(": ")[2], "1 name; 0 files or lines passed over\n")

    def test_a_file_whose_name_begins_another(self) -> None:
        """A file that is added again replaces only its own names."""
        table, other = self.write("table", b"xs4_33\tFour\n"), self.write("table.old", BLOCK)
        self.add(other, table)
        self.add(table)
        self.assertEqual(find_other_names("xs4_33"), ("Four", "Square"))

    def test_our_names_go_first(self) -> None:
        """Without a name of ours, the first name in the table is shown. A name of two objects is
        ambiguous, and is found for neither. A name under another rule isn't found under Life."""
        table = self.write(
            "table", b"xs4_33\tSquare\nxs14_39e0eic\tThing\nxs14_39e0e96\tthing\nxs4_33\tblock\n"
        )
        self.add(table)
        self.assertEqual((find_name("xs4_33"), find_other_names("xs4_33")), ("block", ("Square",)))
        self.assertEqual(find_name("xs14_39e0eic"), "Thing")
        self.assertIsNone(find_name("xs14_39e0eic", "b36s23"))
        output, _ = self.haul("rarity", "square")
        self.assertTrue(output.startswith("xs4_33 (block): "))
        _, errors = self.haul("rarity", "thing", status=2)
        self.assertEqual(
            errors,
            "haul: thing is the name of several objects: give the code, xs14_39e0e96 or xs14_39e0eic\n",
        )
        counted, _ = self.haul("names")
        self.assertEqual(counted.splitlines()[-1], "1 name belongs to several codes")
        output, _ = self.haul("rarity", "--no-data", "xs14_39e0eic")
        self.assertTrue(output.startswith("xs14_39e0eic: one in "))
        with patch.dict(os.environ, HAUL_DATA=""):
            self.assertIsNone(find_name("xs14_39e0eic"))
            self.haul("names", "--add", table, status=3)

    def test_hostile_files(self) -> None:
        """Nothing is unpacked, no link to a folder is followed, and no name has control
        characters."""
        bomb = io.BytesIO()
        with zipfile.ZipFile(bomb, "w", zipfile.ZIP_DEFLATED) as file:
            file.writestr("big", b"!Name: big\n" + b"." * 2**25)
        self.write("bomb.zip", bomb.getvalue())
        head = tarfile.TarInfo("huge")
        head.size = 2**40
        self.write("huge.tar", head.tobuf() + bytes(2**20))
        self.write("cut.zip", bomb.getvalue()[:-9])
        self.write("cut.tar.gz", gzip.compress(b"x" * 600)[:-9])
        self.write("line.cells", b"!Name: long\n" + b"." * 10**7)
        self.write("binary", bytes(range(256)) * 100)
        self.write("bell.cells", b"!Name: a\x1b[31m\x07b\nOO\nOO\n")
        self.write("long.cells", b"!Name: " + b"x" * 81 + b"\nOO\nOO\n")
        self.write("html.cells", b"!Name: <b onclick=alert(1)>\nOO\nOO\n")
        (self.files / "circle").symlink_to(self.files)
        (self.files / "dead").symlink_to("nothing")
        os.mkfifo(self.files / "pipe")
        output, _ = self.add(str(self.files))
        self.assertEqual(output.partition(": ")[2], "1 name; 10 files or lines passed over\n")
        self.assertEqual(find_other_names("xs4_33"), ("<b onclick=alert(1)>",))

    def test_a_table_that_was_edited_wrongly(self) -> None:
        self.add(self.write("b.cells", BLOCK))
        table = self.data / "names" / "b3s23.tsv"
        table.write_text(table.read_text() + "xs4_33 with blanks\n")
        load_user_names.cache_clear()
        _, errors = self.haul("rarity", "xs14_39e0eic", status=3)
        self.assertEqual(
            errors,
            f"haul: {table}: bad table at line 3: not a code, a name and a file with tabs between them\n",
        )
        table.write_bytes(b"code\tname\tfile\nxs4_33\t\xff\tx\n")
        _, errors = self.haul("rarity", "xs14_39e0eic", status=3)
        self.assertEqual(errors, f"haul: {table}: bad table at line 1: it isn't UTF-8\n")

    def test_two_writers(self) -> None:
        """Calls at the same time lose nothing."""
        files = [self.write(f"{k}", b"xs%d_0\tname %d\n" % (k, k)) for k in range(1, 9)]
        calls = [
            subprocess.Popen(
                [sys.executable, TOP / "bin/haul", "names", "--census", CENSUS, "--add", file],
                stdout=subprocess.DEVNULL,
            )
            for file in files
        ]
        self.assertEqual([call.wait() for call in calls], [0] * len(files))
        listed, _ = self.haul("names", "--list")
        self.assertEqual(len(listed.splitlines()), len(files))


class FamousPatterns(unittest.TestCase):
    def test_they_do_what_the_file_says(self) -> None:
        """`census` finds that only constellations are at rest at once, and how many cells others have
        when they have settled."""
        for pattern in load_famous().values():
            text = "".join(f"{row}\n" for row in pattern.rows()).encode()
            with self.subTest(name=pattern.name):
                named = census_of(text, "name", "--limit=0").decode().split()
                self.assertEqual(named[0] == "settled", pattern.kind == "constellation")
                settles = re.search(r"in generation (\d+) with (\d+) cells", pattern.about)
                if settles and int(settles[1]) < 6000:
                    sizes = census_of(text, "run", f"--sizes={settles[1]}", settles[1])
                    self.assertEqual(sizes.decode().split()[1], settles[2])

    def test_what_rarity_says(self) -> None:
        status, output, _ = run("rarity", "acorn", "1x39 infinite growth")
        self.assertEqual(status, 0)
        self.assertEqual(
            output,
            "acorn: a methuselah of 7 cells, which settles in generation 5206 with 633 cells; it isn't "
            "an object, so a census counts what it leaves\n"
            "one-cell-thick infinite growth: a row of cells, which grows by 64 cells every 288 "
            "generations; it never settles, so a census counts its soup as unsettled; `haul why` "
            "recognises it\n",
        )

    def test_drawings(self) -> None:
        """A name or a code can be given in place of a file. A file of this name goes first."""
        self.assertEqual(run("cells", "acorn")[1], ".O.....\n...O...\nOO..OOO\n")
        self.assertEqual(
            run("rle", "glider")[1], "#N glider\nx = 3, y = 3, rule = B3/S23\n3o$2bo$bo!\n"
        )
        self.assertEqual(run("cells", "xs4_33")[1], "OO\nOO\n")
        with tempfile.TemporaryDirectory() as room:
            Path(room, "acorn").write_text("O\n")
            self.assertEqual(run("cells", "acorn", cwd=room)[1], "O\n")
        status, _, errors = run("cells", "acorns and more")
        self.assertEqual(
            (status, errors), (5, "haul: acorns and more: No such file or directory\n")
        )

    def test_a_damaged_file(self) -> None:
        head = b"name\talso\tkind\tabout\trle\n"
        for row in (b"block\t\tgrowth\tx\to!\n", b"a\t\tnone\tx\to!\n", b"a\ta\tgrowth\tx\to!\n"):
            with self.assertRaises(BadTable):
                parse_famous(head + row)
        self.assertIsNone(find_famous("block"))


if __name__ == "__main__":
    unittest.main()
