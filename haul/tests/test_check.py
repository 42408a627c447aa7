"""`haul check` of several files, and of files that are chosen at random."""

from __future__ import annotations

import io
import os
import re
import subprocess
import sys
import tempfile
import unittest
from contextlib import redirect_stderr
from itertools import combinations
from pathlib import Path
from unittest.mock import patch

from haul.cli.parser import parse_arguments
from haul.hauls.file_choice import FileChoice, compute_chance_to_miss, count_wrong_files
from haul.tests.called import CENSUS, HAUL, census, drop_summaries, run
from haul.tests.searching import QUICK
from haul.tests.test_killed import APGSEARCH

MISSING = "haul with missing soups, which can't be taken again; --samples runs its sample soups"


class WhatIsSaid(unittest.TestCase):
    """Standard error says what was run. Long lists of differences are cut."""

    def check(self, text: str, *words: str) -> tuple[int, list[str], str]:
        """Returns the status, the lines of the output, and what is on standard error."""
        ended = subprocess.run(
            [sys.executable, HAUL, "check", "--census", CENSUS, *words],
            input=text.encode(),
            capture_output=True,
            check=False,
        )
        return ended.returncode, ended.stdout.decode().splitlines(), ended.stderr.decode()

    def test_what_was_run(self) -> None:
        text = census("take", "--count=40", "--also=100+2", "--rule=b36s23").decode()
        status, output, errors = self.check(text)
        self.assertEqual((status, output), (0, ["right"]))
        self.assertRegex(
            errors, r"^haul: 42 soups in 2 ranges run under b36s23 in [0-9]+\.[0-9] s\n$"
        )
        samples = {number for line in text.splitlines()[-5:] for number in line.split()[1:]}
        self.assertLess(len(samples), 42)
        status, output, errors = self.check(text, "--samples")
        self.assertEqual((status, output), (0, ["right"]))
        self.assertRegex(errors, r"^haul: [0-9]+ sample soups run under b36s23 in [0-9.]+ s\n$")

    def test_what_was_run_of_other_hauls(self) -> None:
        """A haul of apgsearch, and a haul that is compared with an index."""
        text = census("take", "--count=8").decode()
        index = run("index", text=text.encode())[1]
        with tempfile.TemporaryDirectory() as folder:
            for name, some in (("haul", text), ("index", index), ("apgsearch", APGSEARCH)):
                Path(folder, name).write_text(some)
            for words, told in (
                (["--samples", f"{folder}/apgsearch"], "3 sample soups"),
                (["--totals", f"{folder}/apgsearch"], "10 soups"),
                (
                    [f"{folder}/index", f"{folder}/haul"],
                    "1 haul compared with the index, and no soup",
                ),
            ):
                self.assertIn(f"{told} run under b3s23 in ", self.check("", *words)[2])

    def test_workers(self) -> None:
        """Without `--workers`, there are as many as processors. A census has at most sixteen."""
        with tempfile.TemporaryDirectory() as folder:
            program, calls = Path(folder, "census"), Path(folder, "calls")
            program.write_text(f'#!/bin/sh\necho "$@" >> {calls}\nexec {CENSUS} "$@"\n')
            program.chmod(0o755)
            none: list[str] = []
            for words, processors, wanted in (
                (none, 3, 3),
                (none, 40, 16),
                (["--workers=2"], 40, 2),
                (["--workers=1024"], 3, 16),
            ):
                with patch("os.sched_getaffinity", return_value=range(processors)):
                    text = census("take", "--count=2")
                    run("check", "--census", str(program), *words, text=text)
                self.assertIn(f"--workers={wanted} ", calls.read_text().splitlines()[-1] + " ")

    def test_another_seed(self) -> None:
        """The first line says that nothing resembles the seed, and the list ends after twenty."""
        text = census("take", "--count=400").decode().replace("seed=", "seed=x")
        status, output, _ = self.check(text)
        self.assertEqual((status, len(output)), (7, 21))
        self.assertRegex(
            output[0],
            "^nothing here resembles a census of these soups of the seed 'x': "
            "[0-9] of 1[0-9]{2} rows of samples are right$",
        )
        self.assertRegex(output[20], r"^\.\. and 2[0-9]{2} more differences$")
        # With `--samples`, each wrong sample is a difference.
        self.assertRegex(
            self.check(text, "--samples")[1][20], r"^\.\. and [0-9]+ more differences$"
        )

    def test_a_small_difference(self) -> None:
        text = census("take", "--count=400").decode().replace("xp2_7 ", "xp2_7 9", 1)
        total = sum(
            int(line.split()[1]) for line in text.split("TABLE\n")[1].split("\n\n")[0].splitlines()
        )
        text = re.sub("OBJECTS [0-9]+", f"OBJECTS {total}", text)
        status, output, _ = self.check(text)
        self.assertEqual((status, len(output)), (7, 2))
        self.assertNotIn("resembles", output[0])


class Several(unittest.TestCase):
    """Checks several files: four correct hauls, an incorrect one, a text that isn't a haul, and a
    haul with missing soups."""

    def setUp(self) -> None:
        folder = tempfile.TemporaryDirectory()
        self.addCleanup(folder.cleanup)
        self.addCleanup(os.chdir, os.getcwd())
        os.chdir(folder.name)
        for first in range(4):
            Path(f"{first}.haul").write_bytes(
                census("take", "--first", str(5 * first), "--count", "5", *QUICK)
            )
        text = Path("3.haul").read_text()
        Path("wrong.haul").write_text(text.replace("UNSETTLED 5", "UNSETTLED 4"))
        Path("bad.haul").write_text(text[:20])
        Path("few.haul").write_text(
            text.replace("SOUPS 5", "SOUPS 4").replace("UNSETTLED 5", "UNSETTLED 4")
        )

    def test_lines_begin_with_the_name(self) -> None:
        wrong = "wrong.haul: line 8: is @NUM_UNSETTLED 4, should be @NUM_UNSETTLED 5\n"
        for names, status, output, errors in (
            ("0 1", 0, "0.haul: right\n1.haul: right\n", ""),
            ("0 wrong 1", 7, f"0.haul: right\n{wrong}1.haul: right\n", ""),
            ("bad 1", 3, "1.haul: right\n", "haul: bad.haul: bad haul at line 2 column 7\n"),
            ("few 1", 3, "1.haul: right\n", f"haul: few.haul: {MISSING}\n"),
            ("bad wrong", 7, wrong, "haul: bad.haul: bad haul at line 2 column 7\n"),
            ("wrong bad", 7, wrong, "haul: bad.haul: bad haul at line 2 column 7\n"),
        ):
            with self.subTest(names=names):
                self.assertEqual(
                    run("check", *(f"{name}.haul" for name in names.split())),
                    (status, output, errors),
                )

    def test_one_file_has_no_name(self) -> None:
        self.assertEqual(run("check", "0.haul"), (0, "right\n", ""))
        self.assertEqual(run("check", "few.haul"), (3, "", f"haul: few.haul: {MISSING}\n"))

    def test_standard_input_is_one_of_them(self) -> None:
        self.assertEqual(
            run("check", "-", "1.haul", text=Path("0.haul").read_bytes()),
            (0, "-: right\n1.haul: right\n", ""),
        )
        self.assertEqual(
            run("check", "-", "1.haul", text=b"x"),
            (3, "1.haul: right\n", "haul: bad haul at line 1 column 1\n"),
        )

    def test_a_file_that_cant_be_read(self) -> None:
        self.assertEqual(
            run("check", "0.haul", "none", "1.haul"),
            (5, "0.haul: right\n", "haul: none: No such file or directory\n"),
        )

    def test_a_name_that_isnt_utf_8(self) -> None:
        name = b"\xff.haul"
        Path(os.fsdecode(name)).write_bytes(Path("0.haul").read_bytes())
        none: list[str] = []
        for words in (none, ["--random=2", "--choice=x"]):
            ended = subprocess.run(
                [sys.executable, HAUL, "check", *words, "1.haul", name],
                capture_output=True,
                check=False,
            )
            self.assertEqual(
                (ended.returncode, ended.stdout.splitlines()[len(words) // 2 :]),
                (0, [b"1.haul: right", name + b": right"]),
            )
            self.assertEqual(drop_summaries(ended.stderr.decode()), "")

    def test_a_name_that_forges_a_line(self) -> None:
        """Control characters of a name are escaped on standard output, too."""
        name = "a\nwrong.haul: right\x1b[2K"
        Path(name).write_bytes(Path("0.haul").read_bytes())
        self.assertEqual(
            run("check", name, "1.haul")[:2],
            (0, "a\\x0awrong.haul: right\\x1b[2K: right\n1.haul: right\n"),
        )

    def test_samples(self) -> None:
        self.assertEqual(
            run("check", "--samples", "0.haul", "few.haul"),
            (0, "0.haul: right\nfew.haul: right\n", ""),
        )

    def test_some_that_are_drawn(self) -> None:
        names = [f"{number}.haul" for number in range(4)]
        status, output, errors = run("check", "--random", "2", *names)
        first, *lines = output.splitlines()
        found = re.fullmatch(
            r"choice ([a-z0-9]{12}): 2 of 4 files; if 1 was wrong, a choice like this would miss it with probability 0\.5000",
            first,
        )
        assert found
        self.assertEqual((status, errors, len(lines)), (0, "", 2))
        for order in (names, names[::-1]):
            again = run("check", "--random", "2", "--choice", found[1], *order)
            self.assertEqual(
                (again[0], sorted(again[1].splitlines())), (0, sorted(output.splitlines()))
            )
        self.assertEqual(
            run("check", "--random", "1", "--choice", "x", "wrong.haul"),
            (
                7,
                "choice x: 1 of 1 file; if 1 was wrong, a choice like this would miss it with probability 0.0000\n"
                "wrong.haul: line 8: is @NUM_UNSETTLED 4, should be @NUM_UNSETTLED 5\n",
                "",
            ),
        )


class Choices(unittest.TestCase):
    NAMES = [f"parts/{number}.haul" for number in range(250)]

    def test_it_can_be_repeated(self) -> None:
        """The chosen files are in the order in which the files were given. Which files are chosen
        doesn't depend on that order."""
        chosen = FileChoice(self.NAMES, 20, "x").choose()
        self.assertEqual(len(set(chosen)), 20)
        self.assertEqual(chosen, sorted(chosen, key=self.NAMES.index))
        self.assertEqual(set(FileChoice(self.NAMES[::-1], 20, "x").choose()), set(chosen))
        self.assertNotEqual(FileChoice(self.NAMES, 20, "y").choose(), chosen)
        # The file with the lowest digest is chosen. This command prints the digests:
        # for n in a b c; do printf 'x %s' $n | sha256sum; done
        self.assertEqual(FileChoice(["a", "b", "c"], 1, "x").choose(), ["b"])

    def test_each_file_is_as_likely(self) -> None:
        counts = dict.fromkeys("abcd", 0)
        for number in range(4000):
            for name in FileChoice(list("abcd"), 2, str(number)).choose():
                counts[name] += 1
        for count in counts.values():
            self.assertLess(abs(count - 2000), 200)

    def test_choices_differ(self) -> None:
        self.assertEqual(len({FileChoice(self.NAMES, 1, None).choice for _ in range(100)}), 100)

    def test_a_name_that_is_given_twice(self) -> None:
        self.assertEqual(FileChoice(["a", "a"], 2, "x").choose(), ["a", "a"])

    def test_the_chance_to_miss(self) -> None:
        """All choices are equally likely, so the chance to miss all wrong files is the share of the
        choices that have no wrong file."""
        self.assertEqual(
            [count_wrong_files(files) for files in (1, 99, 100, 101, 1000)], [1, 1, 1, 2, 10]
        )
        for files, number in ((1, 0), (1, 1), (5, 2), (101, 2), (150, 2)):
            choices = list(combinations(range(files), number))
            missed = sum(
                all(file >= count_wrong_files(files) for file in choice) for choice in choices
            )
            self.assertAlmostEqual(compute_chance_to_miss(files, number), missed / len(choices))
        self.assertEqual(f"{compute_chance_to_miss(1000, 300):.4f}", "0.0277")
        self.assertIn(
            "if 3 were wrong, a choice like this would miss them all with probability 0.7",
            FileChoice(self.NAMES, 20, "x").text(),
        )

    def test_words(self) -> None:
        for words, line in (
            (["--random=3", "a", "b"], "--random 3 is more than the 2 files"),
            (["--random=1"], "--random 1 is more"),
            (["--choice=x", "a"], "--choice needs --random"),
            (["--random=1", "--choice=", "a"], "no choice"),
            (["--random=x", "a"], "x is no number"),
        ):
            with redirect_stderr(io.StringIO()) as said, self.assertRaises(SystemExit) as ended:
                parse_arguments(["check", *words])
            self.assertEqual(ended.exception.code, 2)
            self.assertIn(line, said.getvalue())


if __name__ == "__main__":
    unittest.main()
