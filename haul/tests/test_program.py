"""`haul check`, `join`, `compare` and `page` with hauls of the census program, and how `haul` finds
that program. The tests call the built program without the launcher."""

from __future__ import annotations

import io
import os
import random
import subprocess
import sys
import tempfile
import unittest
from html import escape
from pathlib import Path
from typing import IO

from haul.census.children import NoCensus
from haul.census.client import Census
from haul.census.command_lines import format_soup_commands, list_take_arguments, split_ranges
from haul.census.locate import find_beside
from haul.formats.field_reader import BadHaul
from haul.formats.haul import Job, Range
from haul.formats.haul_reader import read_one_haul
from haul.formats.profile import Profile
from haul.hauls.by_parts import Objects
from haul.hauls.check import list_differences, retake
from haul.tests import plain_parts
from haul.tests.called import CENSUS, QUIET, census, run
from haul.tests.made import QUICK_JOB, make_haul
from haul.tests.pages import before_table, data_of, page, table_of
from haul.views.compare import Comparison


class Kept(Census):
    """A client of the census program that remembers what each call of `take` printed."""

    def __init__(self) -> None:
        super().__init__(CENSUS, QUIET)
        self.known: dict[tuple[str, ...], bytes] = {}

    def take(self, job: Job, ranges: list[Range], out: IO[bytes]) -> None:
        asked = tuple(list_take_arguments(job, ranges, 1, False))
        if asked not in self.known:
            self.known[asked] = census(*asked)
        out.write(self.known[asked])


def said_of(kept: Kept, text: bytes) -> list[str] | None:
    """Returns what `haul check` says about a text, or `None` if the text is refused."""
    try:
        haul = read_one_haul(io.BytesIO(text))
    except BadHaul:
        return None
    return list(list_differences(haul, retake(kept, haul))) if haul.soups == haul.size() else None


def says_right(kept: Kept, text: bytes) -> bool:
    return said_of(kept, text) == []


def is_printed(kept: Kept, text: bytes) -> bool:
    """Checks whether `take` prints this text for the job and the set of soups in the text."""
    haul = read_one_haul(io.BytesIO(text))
    again = io.BytesIO()
    kept.take(haul.job, haul.ranges, again)
    return again.getvalue() == text


class Checking(unittest.TestCase):
    # With these small numbers, even the census of a changed haul is quick, under any rule.
    WORDS = ["--seed=a", "--count=30", "--period=4", "--horizon=8", "--stride=10", "--limit=30"]

    def test_right(self) -> None:
        self.assertEqual(run("check", text=census("take", *self.WORDS)), (0, "right\n", ""))
        self.assertEqual(
            run("check", "--samples", text=census("take", *self.WORDS)), (0, "right\n", "")
        )

    def test_each_byte_changed(self) -> None:
        kept, text = Kept(), census("take", *self.WORDS)
        self.assertTrue(says_right(kept, text))
        draw = random.Random("bytes")
        for at, byte in enumerate(text):
            # One of the three new bytes is a digit, since most other bytes are invalid anywhere.
            digit = draw.choice([b for b in b"0123456789" if b != byte])
            for other in (
                digit,
                *draw.sample([b for b in range(256) if b not in (byte, digit)], 2),
            ):
                changed = text[:at] + bytes([other]) + text[at + 1 :]
                if says_right(kept, changed):
                    self.assertTrue(is_printed(kept, changed), changed)

    def test_each_byte_changed_after_the_ranges(self) -> None:
        """The text is refused, or only the line with the change is reported."""
        kept, text = Kept(), census("take", "--count", "40")
        draw = random.Random("bytes after the ranges")
        told = 0
        for at in range(text.index(b"@NUM_SOUPS"), len(text)):
            for other in {
                draw.choice(b"0123456789"),
                draw.choice(b" \n@axz_\xff"),
                draw.randrange(256),
            } - {text[at]}:
                said = said_of(kept, text[:at] + bytes([other]) + text[at + 1 :])
                if said is not None:
                    self.assertEqual(
                        [line.partition(": is ")[0] for line in said],
                        [f"line {text[:at].count(10) + 1}"],
                    )
                    told += 1
        self.assertGreater(told, 30)

    def test_two_bytes_changed(self) -> None:
        kept, text = Kept(), census("take", *self.WORDS)
        draw = random.Random("pairs of bytes")
        digits = [at for at, byte in enumerate(text) if chr(byte).isdigit()]
        lawful = 0
        for _ in range(3000):
            changed = bytearray(text)
            for at in (
                draw.sample(digits, 2) if draw.random() < 0.8 else draw.sample(range(len(text)), 2)
            ):
                changed[at] = draw.choice(b"0123456789")
            if bytes(changed) == text:
                continue
            try:
                read_one_haul(io.BytesIO(changed))
                lawful += 1
            except BadHaul:
                continue
            if says_right(kept, bytes(changed)):
                self.assertTrue(is_printed(kept, bytes(changed)), changed)
        self.assertGreater(lawful, 20)

    def test_what_should_be_otherwise(self) -> None:
        text = census("take", "--count", "40").decode()
        changed = (
            text.replace("xp2_7 111", "xp2_7 112")
            .replace("xp2_7e 1\n", "")
            .replace("xp2_7e 37\n", "")
        )
        changed = changed.replace("xs4_33 277\n", "xs4_32 1\nxs4_33 276\n").replace(
            "xs4_33 0 1 2", "xs4_32 5\nxs4_33 0 1 3"
        )
        changed = changed.replace("FOR_GOOD 14", "FOR_GOOD 13")
        status, output, errors = run("check", text=changed.encode())
        place = {line: number for number, line in enumerate(changed.splitlines(), 1)}
        self.assertEqual((status, errors), (7, ""))
        self.assertEqual(
            output.splitlines(),
            [
                "line 9: is @NUM_FOR_GOOD 13, should be @NUM_FOR_GOOD 14",
                f"line {place['xp2_7 112']}: is xp2_7 112, should be xp2_7 111",
                "missing: xp2_7e 1",
                f"line {place['xs4_32 1']}: xs4_32, should not be there",
                f"line {place['xs4_33 276']}: is xs4_33 276, should be xs4_33 277",
                f"line {place['xs4_33 0 1 3']}: is xs4_33 0 1 3, should be xs4_33 0 1 2",
            ],
        )

    def test_samples(self) -> None:
        text = census("take", "--count", "40").decode()
        changed = text.replace("xp2_7e 37", "xp2_7e 3")
        line = changed.splitlines().index("xp2_7e 3") + 1
        self.assertEqual(
            run("check", "--samples", text=changed.encode()),
            (7, f"line {line}: soup 3 leaves no xp2_7e\n", ""),
        )

    def test_missing_soups(self) -> None:
        lines = b"".join(census("work", "--count", "2", "--worker", "1").splitlines(True)[:1])
        text = subprocess.run(
            [CENSUS, "gather", "--count", "2"], input=lines, capture_output=True, check=False
        ).stdout
        self.assertEqual(
            run("check", text=text),
            (
                3,
                "",
                "haul: haul with missing soups, which can't be taken again; --samples runs its sample "
                "soups\n",
            ),
        )
        self.assertEqual(run("check", "--samples", text=text), (0, "right\n", ""))

    def test_a_second_haul(self) -> None:
        text = census("take", "--count", "0")
        self.assertEqual(
            run("check", text=text + text),
            (
                3,
                "",
                "haul: bad haul at line 15 column 1: more than one haul, which `haul join` adds up\n",
            ),
        )
        self.assertEqual(
            run("check", text=text + b"x"), (3, "", "haul: bad haul at line 15 column 1\n")
        )

    def test_a_haul_that_is_taken_again_in_pieces(self) -> None:
        """There are more ranges than `haul` passes to one call of `census take`."""
        job = Job("", "b3s23", Profile(1, 1, 1, 0))
        parts = b""
        for start in (0, 2000):
            ranges = [(3 * k, 1) for k in range(start, start + 2000)]
            parts += census(*list_take_arguments(job, ranges, 1, False))
        status, joined, _ = run("join", text=parts)
        self.assertEqual((status, joined.count("@RANGE")), (0, 4000))
        self.assertEqual(run("check", text=joined.encode()), (0, "right\n", ""))
        wrong = joined.replace("UNSETTLED 4000", "UNSETTLED 3999")
        self.assertEqual(
            run("check", text=wrong.encode()),
            (7, "line 4007: is @NUM_UNSETTLED 3999, should be @NUM_UNSETTLED 4000\n", ""),
        )

    def test_pieces(self) -> None:
        self.assertEqual(
            list(split_ranges([(5, 7), (20, 2)], 4)), [[(5, 4)], [(9, 3), (20, 1)], [(21, 1)]]
        )
        self.assertEqual(list(split_ranges([])), [[]])


class Joining(unittest.TestCase):
    def test_four_parts(self) -> None:
        with tempfile.TemporaryDirectory() as folder:
            names = []
            for part in (2, 0, 3, 1):
                names.append(os.path.join(folder, f"{part}.haul"))
                Path(names[-1]).write_bytes(
                    census("take", "--first", str(10 * part), "--count", "10")
                )
            whole = census("take", "--count", "40").decode()
            self.assertEqual(run("join", *names), (0, whole, ""))
            self.assertEqual(
                run("join", text=b"".join(Path(name).read_bytes() for name in names)),
                (0, whole, ""),
            )
            Path(names[1]).write_bytes(b"@VERSION 3\n")
            self.assertEqual(
                run("join", *names), (3, "", f"haul: {names[1]}: bad haul at line 1 column 10\n")
            )

    def test_gathered_parts(self) -> None:
        parts = b""
        for part in range(4):
            where = ["--first", str(10 * part), "--count", "10"]
            lines = census("work", "--worker", "1", *where)
            parts += subprocess.run(
                [CENSUS, "gather", *where], input=lines, stdout=subprocess.PIPE, check=True
            ).stdout
        self.assertEqual(run("join", text=parts), (0, census("take", "--count", "40").decode(), ""))

    def test_nothing(self) -> None:
        self.assertEqual(
            run("join"),
            (3, "", "haul: bad haul at line 1 column 1: this looks like an empty text\n"),
        )

    def test_no_file(self) -> None:
        self.assertEqual(
            run("join", "/nowhere/a"), (5, "", "haul: /nowhere/a: No such file or directory\n")
        )


class Comparing(unittest.TestCase):
    def test_two_rules(self) -> None:
        with tempfile.TemporaryDirectory() as folder:
            for name, rule in (("a", "b3s23"), ("b", "b36s23")):
                Path(folder, name).write_bytes(census("take", "--count", "40", "--rule", rule))
            status, output, errors = run("compare", "--whole", f"{folder}/a", f"{folder}/b")
        lines = output.splitlines()
        self.assertEqual(
            (status, errors, lines[0], lines[2]),
            (
                0,
                "",
                "A: seed= rule=b3s23 profile=64,512,101,30300",
                "B: seed= rule=b36s23 profile=64,512,101,30300",
            ),
        )
        heads = lines[4].split()
        self.assertTrue(all(len(line.split()) >= len(heads) for line in lines[5:-1]))
        block = next(line.split() for line in lines if line.startswith("xs4_33 "))
        self.assertEqual((block[1], block[-1]), ("277", "block"))
        self.assertEqual(block[3], f"{277 / 40 * 1_000_000:.2f}")
        self.assertTrue(lines[-1].startswith("in A alone: "))

    def test_one_soup(self) -> None:
        status, output, errors = run(
            "compare", "--whole", "-", "/dev/null", text=census("take", "--count", "1")
        )
        self.assertEqual(
            (status, output, errors),
            (
                3,
                "",
                "haul: /dev/null: bad haul at line 1 column 1: this looks like an empty text\n",
            ),
        )
        haul = make_haul({"xs4_33": 1}, job=QUICK_JOB)
        self.assertEqual(
            list(Comparison([haul, haul], [Objects(haul, QUIET)] * 2, ["xs4_33"]).text(None))[1],
            "A: 1 soup, 0 unsettled, 0 for good, 1 object",
        )


class Finding(unittest.TestCase):
    """Tests which census program is called if `--census` isn't given."""

    def setUp(self) -> None:
        self.folder = tempfile.TemporaryDirectory()
        self.addCleanup(self.folder.cleanup)
        self.top = Path(self.folder.name).resolve()
        (self.top / "bin").mkdir()
        self.addCleanup(setattr, sys, "argv", sys.argv)
        sys.argv = [str(self.top / "bin" / "haul")]

    def put(self, name: str, text: str, mode: int = 0o755) -> str:
        place = self.top / name
        place.parent.mkdir(parents=True, exist_ok=True)
        place.write_text(text)
        place.chmod(mode)
        return str(place)

    def test_none(self) -> None:
        self.assertIsNone(find_beside())
        self.put("bin/census", "#!/bin/sh\n", 0o644)
        self.assertIsNone(find_beside())

    def test_one_that_is_installed(self) -> None:
        starter = self.put("bin/census", "#!/bin/sh\nexit 70\n")
        self.assertEqual(find_beside(), starter)

    def test_one_for_this_processor(self) -> None:
        starter = self.put("bin/census", "#!/bin/sh\nexit 70\n")
        self.put("libexec/gokzerd/processor.sh", "program=$libexec/census-v3\n")
        self.assertEqual(find_beside(), str(self.top / "libexec" / "gokzerd" / "census-v3"))
        self.put("libexec/gokzerd/processor.sh", "exit 1\n")
        with self.assertRaisesRegex(NoCensus, f"^no census at {starter}$"):
            find_beside()

    def test_one_of_a_checkout(self) -> None:
        """In a checkout, `haul` first calls the launcher bin/census, which builds the program."""
        starter = self.put("bin/census", f'#!/bin/sh\necho "$@" >> "{self.top}/asked"\n')
        self.put("bin/built.bash", "")
        built = str(self.top / "crates" / "census" / "out" / "census")
        self.assertEqual(find_beside(), built)
        self.assertEqual((self.top / "asked").read_text(), "--version\n")
        self.put("bin/census", "#!/bin/sh\nexit 70\n")
        with self.assertRaisesRegex(NoCensus, f"^no census at {starter}$"):
            find_beside()


class Pages(unittest.TestCase):
    HOSTILE = [
        "$(touch${IFS}x)",
        "`touch${IFS}x`",
        "'",
        '"',
        "-x",
        "</script>",
        "<b>&amp;",
        "a'b\"c\\",
        "!!",
        "--rule=b1s",
    ]

    def test_hostile_seeds(self) -> None:
        """A shell runs the commands that the page shows for a soup, and they print what the program
        prints for this soup."""
        with tempfile.TemporaryDirectory() as folder:
            os.symlink(CENSUS, os.path.join(folder, "census"))
            for seed in self.HOSTILE:
                with self.subTest(seed=seed):
                    words = [f"--seed={seed}", "--count=10", "--rule=b36s23", "--limit=303"]
                    shown = page(read_one_haul(io.BytesIO(census("take", *words))), 0)
                    (of_haul,), (soups,) = data_of(shown)["hauls"], data_of(shown)["soups"]
                    number = next(iter(soups))
                    told = subprocess.run(
                        ["bash", "-c", number.join(of_haul["commands"])],
                        cwd=folder,
                        capture_output=True,
                        check=False,
                        env={"PATH": folder + os.pathsep + os.environ["PATH"]},
                    )
                    soup = census("soup", f"--seed={seed}", number)
                    wanted = subprocess.run(
                        [CENSUS, "name", "--rule=b36s23", "--limit=303"],
                        input=soup,
                        stdout=subprocess.PIPE,
                        check=True,
                    )
                    self.assertEqual((told.stdout, told.stderr), (wanted.stdout, b""))
                    self.assertEqual(os.listdir(folder), ["census"])
                    self.assertEqual(
                        (shown.count("</script>"), before_table(shown).count("<b>")), (2, 0)
                    )
                    self.assertIn(f'<code class="seed">{escape(seed)}</code>', shown)

    def test_all_is_there(self) -> None:
        """The table has each part that is found by brute force from the definition, and the data
        also have each object. The rarity of a pond is one in 6.17, since 16,203,883 soups of the
        reference have a pond."""
        haul = read_one_haul(io.BytesIO(census("take", "--count", "40")))
        shown, plain = page(haul), plain_parts.rule_of("b3s23")
        rows = table_of(shown).rows
        parts = {part for code in haul.totals for part in plain_parts.parts_of(plain, code)[0]}
        self.assertEqual({row.cells[1].split()[-1] for row in rows}, parts)
        self.assertEqual((len(rows), sum(len(row.paths) for row in rows)), (14, 14))
        self.assertEqual(
            {one["code"] for one in data_of(shown)["objects"]}, parts | haul.totals.keys()
        )
        self.assertNotIn("traffic light xp2_s01110szw222", [row.cells[1] for row in rows])
        self.assertEqual(
            [row.cells[4:] for row in rows if row.cells[1] == "pond xs8_6996"],
            [["6", "one in 6.1795 %: 6.17 to 6.17", "1 17 18"]],
        )

    def test_options_of_a_sample(self) -> None:
        """In the commands for a sample soup of Life, `census name` has an option for each number of
        the profile that isn't standard, and no other options."""
        for profile, words in (
            (Profile(64, 512, 101, 30300), ""),
            (Profile(64, 512, 100, 30300), " --stride=100"),
            (Profile(64, 512, 102, 30300), " --stride=102"),
            (Profile(63, 512, 101, 30300), " --period=63"),
            (Profile(64, 511, 101, 30300), " --horizon=511"),
            (Profile(64, 512, 101, 30299), " --limit=30299"),
            (Profile(1, 2, 3, 4), " --period=1 --horizon=2 --stride=3 --limit=4"),
        ):
            with self.subTest(profile=profile):
                self.assertEqual(
                    format_soup_commands(Job("a", "b3s23", profile)),
                    ("census soup --seed=a ", f" | census name{words}"),
                )

    def test_codes_that_name_nothing(self) -> None:
        """A haul may be valid although some of its codes can't be drawn. The page has a row for
        each of these codes, too."""
        codes = ["xs4_33", "xs4_y", "yl3_1", "zz_"]
        haul = make_haul(
            {code: 1 for code in codes}, job=Job("", "b3s23", Profile(64, 512, 101, 30300))
        )
        self.assertEqual(
            [row.cells[0] for row in table_of(page(haul)).rows],
            ["block: 2 by 2, 4 cells"] + ["can't be drawn"] * 3,
        )

    def test_no_object(self) -> None:
        shown = page(read_one_haul(io.BytesIO(census("take", "--count", "0"))))
        self.assertEqual(
            (table_of(shown).rows, data_of(shown)["objects"], data_of(shown)["soups"]),
            ([], [], [{}]),
        )


if __name__ == "__main__":
    unittest.main()
