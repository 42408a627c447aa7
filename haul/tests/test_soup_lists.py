"""`haul soups`: what it prints about all soups of report lines together, and about single soups."""

from __future__ import annotations

import csv
import io
import json
import os
import tempfile
import unittest
from collections.abc import Iterator
from contextlib import contextmanager
from pathlib import Path
from unittest.mock import Mock, call, patch

from haul.formats.haul import Job
from haul.formats.profile import Profile
from haul.formats.report_files import Reports
from haul.formats.report_lines import Report
from haul.life.cells import Cells
from haul.life.generations import Rule, advance, read_rule
from haul.life.soups import make_soup
from haul.tests.called import CENSUS, census, run
from haul.views.settling import Settling
from haul.views.soup_lists import Longest

JOB = "rule=b3s23 profile=64,512,101,30300 seed=abc"
JOB_LINE = "seed=abc rule=b3s23 profile=64,512,101,30300"
# Report lines of five settled soups and an unsettled one, in both versions of the format.
LINES = [
    f"report 2 {JOB} worker=1 soup=7 at=499 good=yes xs4_33*2",
    f"report 2 {JOB} worker=1 soup=3 at=1200 good=no xp2_7*3 xq4_153*1 xs4_33*1",
    f"report 1 {JOB} worker=2 soup=9 unsettled",
    f"report 1 {JOB} worker=2 soup=10 at=0",
    f"report 2 {JOB} worker=1 soup=5 at=700 good=yes xp2_7*1",
    f"report 1 {JOB} worker=3 soup=11 at=500 xp2_7*1 xs4_33*1",
]
# Under this profile the last checkpoint is generation 20.
SHORT = ["--seed=a", "--period=1", "--horizon=1", "--stride=10", "--limit=25"]


def text_of(lines: list[str]) -> bytes:
    return "".join(f"{line}\n" for line in lines).encode("latin-1")


def rows(*words: str, lines: list[str] | bytes = LINES) -> list[list[str]]:
    """Returns the rows of the printed table up to the column before `seed`, without the heads."""
    status, output, errors = run(
        "soups", "--csv", *words, text=lines if isinstance(lines, bytes) else text_of(lines)
    )
    assert (status, errors) == (0, ""), errors
    heads, *table = csv.reader(io.StringIO(output))
    return [row[: heads.index("seed")] for row in table]


@contextmanager
def program(script: str) -> Iterator[str]:
    """Yields the path of a program that takes the place of `census`."""
    with tempfile.TemporaryDirectory() as folder:
        path = Path(folder) / "census"
        path.write_text(f"#!/bin/sh\n{script}\n")
        path.chmod(0o755)
        yield str(path)


class Together(unittest.TestCase):
    def test_for_a_reader(self) -> None:
        """The quartiles of five checkpoints are the second, third and fourth in ascending order."""
        self.assertEqual(
            run("soups", text=text_of(LINES)),
            (
                0,
                f"""\
{JOB_LINE}
6 soups, 1 unsettled, 2 for good, 2 unmarked
settled at: first quartile 499, median 500, third quartile 700, mean 579.80
from    to  settled
   0   499        2  {"#" * 50}
 500   999        2  {"#" * 50}
1000  1499        1  {"#" * 25}
""",
                "",
            ),
        )

    def test_csv(self) -> None:
        status, output, errors = run("soups", "--csv", text=text_of(LINES))
        self.assertEqual((status, errors), (0, ""))
        facts = 'abc,b3s23,"64,512,101,30300",6,1,2,2,499,500,700,579.8'
        self.assertEqual(
            output.splitlines(),
            [
                "from,to,settled,seed,rule,profile,soups,unsettled,for_good,unmarked,first_quartile,median,third_quartile,mean",
                f"0,499,2,{facts}",
                f"500,999,2,{facts}",
                f"1000,1499,1,{facts}",
            ],
        )

    def test_json(self) -> None:
        told = json.loads(run("soups", "--json", text=text_of(LINES))[1])
        bars = [
            {"from": 0, "to": 499, "settled": 2},
            {"from": 500, "to": 999, "settled": 2},
            {"from": 1000, "to": 1499, "settled": 1},
        ]
        self.assertEqual(
            told,
            {
                "seed": "abc",
                "rule": "b3s23",
                "profile": [64, 512, 101, 30300],
                "soups": 6,
                "unsettled": 1,
                "for_good": 2,
                "unmarked": 2,
                "quartiles": [499, 500, 700],
                "mean": 579.8,
                "bars": bars,
            },
        )

    def test_quartiles(self) -> None:
        """The quartiles are the checkpoints at a quarter, a half and three quarters of the
        ascending list, with each place rounded up."""
        for number, quartiles in (
            (1, [1, 1, 1]),
            (2, [1, 1, 2]),
            (3, [1, 2, 3]),
            (4, [1, 2, 3]),
            (5, [2, 3, 4]),
            (6, [2, 3, 5]),
            (7, [2, 4, 6]),
            (8, [2, 4, 6]),
        ):
            settling = Settling()
            for checkpoint in range(number, 0, -1):
                settling.add(
                    Report(Job("", "b3s23", Profile(1, 1, 1, 0)), checkpoint, checkpoint, None, {})
                )
            self.assertEqual(settling.quartiles(), quartiles, number)

    def test_no_soup(self) -> None:
        self.assertEqual(
            run("soups"),
            (
                0,
                "0 soups, 0 unsettled, 0 for good\nno soup has settled\nfrom   to  settled\n   0  499        0\n",
                "",
            ),
        )
        told = json.loads(run("soups", "--json")[1])
        self.assertEqual(
            (told["seed"], told["profile"], told["quartiles"], told["mean"]),
            (None, None, None, None),
        )
        self.assertEqual(run("soups", "--csv")[1].splitlines()[1:], ["0,499,0,,,,0,0,0,0,,,,"])
        for words in (
            ["--longest=3"],
            ["--longest=3", "--exact"],
            ["--unsettled"],
            ["--code=xp2_7"],
        ):
            self.assertEqual(rows(*words, "--census", CENSUS, lines=[]), [])

    def test_one_soup(self) -> None:
        output = run("soups", text=text_of(LINES[2:3]))[1]
        self.assertIn("1 soup, 1 unsettled, 0 for good\nno soup has settled\n", output)

    def test_small_bars(self) -> None:
        """A bar that stands for at least one soup has at least one character."""
        lines = [
            f"report 2 {JOB} worker=1 soup={soup} at={0 if soup else 700} good=yes"
            for soup in range(101)
        ]
        self.assertTrue(
            run("soups", text=text_of(lines))[1].endswith(
                f"\n   0  499      100  {'#' * 50}\n 500  999        1  #\n"
            )
        )


class Lines(unittest.TestCase):
    def test_what_is_skipped(self) -> None:
        """A bad line, or a line of another job, is reported with its file and its line number. A
        soup that occurs again is skipped without a message."""
        with tempfile.TemporaryDirectory() as folder:
            one, other = os.path.join(folder, "one"), os.path.join(folder, "other")
            Path(one).write_bytes(
                text_of(
                    [
                        "report 3",
                        LINES[0],
                        LINES[0].replace("yes", "no"),
                        LINES[1].replace("seed=abc", "seed=abd"),
                    ]
                )
            )
            Path(other).write_bytes(
                text_of([LINES[1], LINES[0], "", LINES[4].replace("30300", "30301")])
                + f"{LINES[2]}x".encode()
            )
            status, output, errors = run(
                "soups", one, "-", other, text=text_of([LINES[4], "x"]) + LINES[3].encode()
            )
        self.assertEqual(
            (status, output.splitlines()[:3]),
            (
                0,
                [
                    JOB_LINE,
                    "4 soups, 0 unsettled, 2 for good, 1 unmarked",
                    "settled at: first quartile 0, median 499, third quartile 700, mean 599.75",
                ],
            ),
        )
        unsettled = len(f"report 1 {JOB} worker=2 soup=9 ")
        self.assertEqual(
            errors.splitlines(),
            [
                f"haul: {one}: line 1: bad line at 7",
                f"haul: {one}: line 4: other job",
                "haul: line 2: bad line at 0",
                f"haul: {other}: line 3: bad line at 0",
                f"haul: {other}: line 4: other job",
                f"haul: {other}: line 5: bad line at {unsettled}",
            ],
        )

    def test_each_part_of_a_job(self) -> None:
        for right, wrong in (
            ("seed=abc", "seed="),
            ("b3s23", "b36s23"),
            ("=64,", "=63,"),
            ("512", "511"),
            (",101", ",100"),
            ("30300", "30200"),
        ):
            lines = [LINES[0], LINES[1].replace(right, wrong)]
            self.assertEqual(run("soups", text=text_of(lines))[2], "haul: line 2: other job\n")

    def test_progress(self) -> None:
        """The progress line is updated after every ten thousand lines of all inputs together."""
        terminal = Mock()
        reports, inputs = Reports(terminal), [
            text_of(LINES[:1] * number) for number in (6_000, 6_000, 7_999)
        ]
        self.assertEqual(
            [report.soup for lines in inputs for report in reports.read(io.BytesIO(lines), "")], [7]
        )
        self.assertEqual(terminal.show_progress.call_args_list, [call("10000 lines")])

    def test_a_file_that_is_not_there(self) -> None:
        self.assertEqual(
            run("soups", "/nowhere/lines"),
            (5, "", "haul: /nowhere/lines: No such file or directory\n"),
        )

    def test_lines_of_work(self) -> None:
        """`haul soups` and the haul of the same soups agree on the numbers of soups, of unsettled
        soups, and of soups that settled for good."""
        haul = census("take", "--count=300", "--seed=b").decode().splitlines()
        told = json.loads(
            run("soups", "--json", text=census("work", "--count=300", "--seed=b", "--worker=2"))[1]
        )
        self.assertEqual(
            [
                f"@NUM_SOUPS {told['soups']}",
                f"@NUM_UNSETTLED {told['unsettled']}",
                f"@NUM_FOR_GOOD {told['for_good']}",
            ],
            haul[6:9],
        )


class OfACode(unittest.TestCase):
    def test_who_left_it(self) -> None:
        self.assertEqual(
            run("soups", "--code=xp2_7", text=text_of(LINES)),
            (
                0,
                f"""\
{JOB_LINE}
6 soups, 1 unsettled, 2 for good, 2 unmarked
xp2_7 (blinker): 5 objects in 3 soups
soup  objects
   3        3
   5        1
  11        1
""",
                "",
            ),
        )
        for name in ("xp2_7", "blinker", "Blinker"):
            self.assertEqual(rows(f"--code={name}"), [["3", "3"], ["5", "1"], ["11", "1"]])
        self.assertEqual(
            run("soups", "--code=xs4_a", text=text_of(LINES))[1].splitlines()[2],
            "xs4_a: 0 objects in 0 soups",
        )
        told = json.loads(run("soups", "--json", "--code=xq4_153", text=text_of(LINES))[1])
        self.assertEqual(
            (told["code"], told["objects"], told["leaving"]),
            ("xq4_153", 1, [{"soup": 3, "objects": 1}]),
        )

    def test_large_counts(self) -> None:
        line = f"report 2 {JOB} worker=1 soup=0 at=0 good=yes xs4_a*{2**64 - 1}"
        self.assertEqual(
            json.loads(run("soups", "--json", "--code=xs4_a", text=text_of([line]))[1])["leaving"],
            [{"soup": 0, "objects": str(2**64 - 1)}],
        )

    def test_the_total_of_a_haul(self) -> None:
        haul = census("take", "--count=300").decode().splitlines()
        told = json.loads(
            run(
                "soups", "--json", "--code=xp2_7", text=census("work", "--count=300", "--worker=1")
            )[1]
        )
        self.assertIn(f"xp2_7 {told['objects']}", haul)
        self.assertIn(" ".join(["xp2_7", *(str(one["soup"]) for one in told["leaving"][:3])]), haul)

    def test_what_is_no_code(self) -> None:
        for code in ("", "XS4_33", "xs4 33", "blinkr", "x_" + "a" * 400):
            self.assertEqual(run("soups", f"--code={code}")[0], 2)


class TheLongest(unittest.TestCase):
    def test_by_checkpoints(self) -> None:
        self.assertEqual(
            run("soups", "--longest=2", text=text_of(LINES))[1].splitlines()[2:],
            ["soup  checkpoint  objects", "   3        1200        5", "   5         700        1"],
        )
        self.assertEqual(
            rows("--longest=9"),
            [
                ["3", "1200", "5"],
                ["5", "700", "1"],
                ["11", "500", "2"],
                ["7", "499", "2"],
                ["10", "0", "0"],
            ],
        )
        self.assertEqual(rows("--longest=0"), [])
        lines = [
            f"report 2 {JOB} worker=1 soup={soup} at={at} good=yes" for soup, at in ((4, 0), (9, 1))
        ]
        self.assertEqual(rows("--longest=2", lines=lines), [["9", "1", "0"], ["4", "0", "0"]])

    def test_equal_checkpoints(self) -> None:
        """Among soups with equal checkpoints, the soup with the lower number comes first, in
        whichever order the lines are read."""
        lines = [
            f"report 2 {JOB} worker=1 soup={soup} at={at} good=yes"
            for soup, at in ((4, 7), (9, 5), (2, 5), (6, 5), (1, 3), (8, 5))
        ]
        for most, soups in ((1, "4"), (2, "42"), (3, "426"), (5, "42689"), (6, "426891")):
            self.assertEqual(
                [row[0] for row in rows(f"--longest={most}", lines=lines)], list(soups)
            )
            self.assertEqual(
                [row[0] for row in rows(f"--longest={most}", lines=lines[::-1])], list(soups)
            )

    def test_few_are_kept(self) -> None:
        """However many soups there are, only soups that may be listed are kept."""
        longest = Longest(3, None)
        for soup in range(999):
            longest.add(Report(Job("", "b3s23", Profile(1, 1, 1, 0)), soup, soup // 2, None, {}))
        self.assertEqual(longest.kept, {498: [(996, 0), (997, 0)], 499: [(998, 0)]})

    def test_exact(self) -> None:
        """The generations are those of a census with a checkpoint in every generation. They also
        decide the order of soups with equal checkpoints."""
        lines = census("work", "--count=60", "--worker=1", "--seed=c")
        each = {
            line.split()[6][5:]: int(line.split()[7][3:])
            for line in census("work", "--count=60", "--worker=1", "--seed=c", "--stride=1")
            .decode()
            .splitlines()
        }
        for most in (1, 2, 5, 60):
            table = rows(f"--longest={most}", "--exact", "--census", CENSUS, lines=lines)
            soups = sorted(each, key=lambda soup: (-each[soup], int(soup)))[:most]
            self.assertEqual(
                [row[:2] for row in table], [[soup, str(each[soup])] for soup in soups]
            )
        self.assertTrue(all(int(row[1]) <= int(row[2]) < int(row[1]) + 101 for row in table))

    def test_an_exact_generation_that_is_not_there(self) -> None:
        """`haul soups` trusts report lines. If a line says that a soup settles, and the soup
        doesn't, then no exact generation is shown."""
        line = "report 2 rule=b3s23 profile=1,1,1,0 seed= worker=1 soup=0 at=0 good=yes xs4_33*1"
        output = run("soups", "--longest=1", "--exact", "--census", CENSUS, text=text_of([line]))[1]
        self.assertEqual(
            output.splitlines()[2:],
            ["soup  generation  checkpoint  objects", "   0           -           0        1"],
        )
        self.assertEqual(
            rows("--longest=1", "--exact", "--census", CENSUS, lines=[line]), [["0", "", "0", "1"]]
        )

    def test_exact_alone(self) -> None:
        status, output, errors = run("soups", "--exact")
        self.assertEqual((status, output), (2, ""))
        self.assertTrue(errors.endswith("--exact needs --longest\n"))

    def test_another_answer(self) -> None:
        for answer in ("settled 01", "settled", "Settled 1", "xs4_33 1", ""):
            with program(f"echo '{answer}'") as path:
                self.assertEqual(
                    run("soups", "--longest=1", "--exact", "--census", path, text=text_of(LINES)),
                    (2, "", f"haul: no census at {path}\n"),
                )


def life(rule: Rule, cells: Cells, generations: int) -> Cells:
    for _ in range(generations):
        cells = advance(rule, cells)
    return cells


def population(seed: str, soup: int, rule: str, generations: int) -> int:
    cells = frozenset(
        (x, y)
        for y, row in enumerate(make_soup(f"{seed}{soup}"))
        for x, cell in enumerate(row)
        if cell == "O"
    )
    return len(life(read_rule(rule), cells, generations))


class UnsettledSoups(unittest.TestCase):
    def test_populations(self) -> None:
        """After the number of the soup, the columns are the last checkpoint, the population there,
        and the growth of the population in the thousand generations before. Here the last
        checkpoint is generation 20, so the growth is measured from generation 0."""
        for rule in ("b3s23", "b36s23"):
            lines = census("work", "--count=12", "--worker=1", f"--rule={rule}", *SHORT)
            soups = [
                int(line.split()[6][5:])
                for line in lines.decode().splitlines()
                if line.endswith("unsettled")
            ]
            self.assertGreater(len(soups), 3)
            wanted = []
            for soup in soups:
                before, after = population("a", soup, rule, 0), population("a", soup, rule, 20)
                wanted.append([str(soup), "20", str(after), str(after - before)])
            self.assertEqual(
                rows(
                    "--unsettled",
                    "--census",
                    CENSUS,
                    lines=b"".join(reversed(lines.splitlines(True))),
                ),
                wanted,
            )

    def test_a_thousand_generations(self) -> None:
        """The program is called for the population at the last checkpoint and a thousand
        generations earlier. The growth may be negative."""
        line = "report 2 rule=b36s23 profile=1,1,7,1010 seed=a worker=1 soup=0 unsettled"
        script = (
            'case "$*" in "run --rule=b36s23 --sizes=8 8") echo 8 4 0 0 4 0 ;; '
            '"run --rule=b36s23 --sizes=1008 1008") echo 1008 2 0 0 3 0 ;; *) exit 5 ;; esac; '
            'cat > "$0.read"'
        )
        with program(script) as path:
            self.assertEqual(
                run("soups", "--unsettled", "--census", path, text=text_of([line]))[1].splitlines()[
                    2:
                ],
                ["soup  generation  population  growth", "   0        1008           2      -2"],
            )
            self.assertEqual(Path(f"{path}.read").read_text().splitlines(), make_soup("a0"))

    def test_nothing_lives(self) -> None:
        line = "report 2 rule=b3s23 profile=1,1,1,0 seed=a worker=1 soup=0 unsettled"
        with program("echo 0 0") as path:
            output = run("soups", "--unsettled", "--census", path, text=text_of([line]))[1]
        self.assertEqual(output.splitlines()[3].split(), ["0", "0", "0", "0"])

    def test_what_takes_too_much(self) -> None:
        """If the program runs out of memory or time, the population and the growth aren't known."""
        line = "report 2 rule=b3s23 profile=1,1,1,7 seed=a worker=1 soup=0 unsettled"
        for script in ("echo 'census: out of memory' >&2; exit 4", "exec sleep 60"):
            with program(script) as path, patch("haul.census.soup_runs.SOUP_SECONDS", 1):
                words = ("soups", "--unsettled", "--census", path)
                status, output, errors = run(*words, text=text_of([line]))
                self.assertEqual((status, errors), (0, ""))
                self.assertEqual(output.splitlines()[3].split(), ["0", "7", "-", "-"])
                known = json.loads(run(*words, "--json", text=text_of([line]))[1])["growth"]
            told = {"soup": 0, "generation": 7, "population": None, "growth": None}
            self.assertEqual(known, [told])

    def test_census_fails(self) -> None:
        with program("echo 'census: write failed' >&2; exit 5") as path:
            self.assertEqual(
                run("soups", "--unsettled", "--census", path, text=text_of(LINES)),
                (5, "", "haul: write failed\n"),
            )
        for printed in ("O", "7 1 0 0 1 0", "0 x"):
            with program(f"echo {printed}") as path:
                line = "report 2 rule=b3s23 profile=1,1,1,0 seed=a worker=1 soup=0 unsettled"
                told = (2, "", f"haul: no census at {path}\n")
                self.assertEqual(
                    run("soups", "--unsettled", "--census", path, text=text_of([line])), told
                )

    def test_no_program(self) -> None:
        self.assertEqual(
            run("soups", "--unsettled", "--census", "/nowhere", text=text_of(LINES)),
            (2, "", "haul: no census at /nowhere\n"),
        )
        self.assertEqual(rows("--unsettled", "--census", "/nowhere", lines=LINES[:2]), [])


if __name__ == "__main__":
    unittest.main()
