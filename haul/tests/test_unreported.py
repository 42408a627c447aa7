"""`haul search`: unreported finds are kept in FILE.finds for the next search."""

from __future__ import annotations

import os
import signal
import subprocess
import sys
import time
from pathlib import Path
from unittest.mock import Mock, patch

from haul.hauls.join import Joining
from haul.search import unreported
from haul.search.finds_file import FindsFile
from haul.search.side_file import SideFile
from haul.tests.called import CENSUS, HAUL, census
from haul.tests.searching import CLOCK, CLOCK_SOUP, QUICK, Searches

# The 700 soups from 23000 on leave three finds. The second find is a clock.
WORDS = ["--seed=", "--first=23000", "--rarer=10000"]
HEADER = "rule=b3s23 profile=64,512,101,30300 seed="


class UnreportedFinds(Searches):
    def setUp(self) -> None:
        super().setUp()
        self.finds = self.folder / "mine.haul.finds"

    def told(self, output: str) -> list[str]:
        """Returns the codes of the printed finds."""
        return [line.split("\t")[1] for line in output.splitlines()]

    def to_device(self, *words: str) -> tuple[int, str]:
        """Runs a search whose output is a full device."""
        with open("/dev/full", "wb") as full:
            ended = subprocess.run(
                [sys.executable, HAUL, "search", "--census", CENSUS, *words, "mine.haul"],
                cwd=self.folder,
                stdout=full,
                stderr=subprocess.PIPE,
                check=False,
            )
        return ended.returncode, ended.stderr.decode()


class NotPrinted(UnreportedFinds):
    def test_a_full_device(self) -> None:
        """If the finds can't be printed, the soups are in the file, and the next search prints the
        finds first."""
        status, errors = self.to_device(*WORDS, "--until=700")
        self.assertEqual(status, 5)
        self.assertEqual(
            errors,
            "haul: not all finds are told: 3 finds to print\nhaul: No space left on device\n",
        )
        self.assertEqual(self.soups(), 700)
        self.assertEqual(len(self.finds.read_text().splitlines()), 4)
        program = self.stub('printf "%s\\t" "$@" >> said; echo >> said', "finder")
        words = ["--until=1000", "--rarer=10000", "--finds", program]
        status, output, errors = self.search(*words)
        self.assertEqual((status, errors), (0, ""))
        self.assertEqual(self.told(output), ["xs12_330f96", CLOCK, "xs20_3lkkl3z32w23"])
        said = (self.folder / "said").read_text().replace("\t\n", "\n")
        self.assertEqual(said, output)
        self.assert_right()
        self.assertFalse(self.finds.exists())
        self.assertEqual(self.search(*words), (0, "", ""))

    def test_a_search_that_runs_no_soup(self) -> None:
        """Even a search that runs no soup prints the finds that an earlier one couldn't print."""
        self.to_device(*WORDS, "--until=700")
        output = self.search("--until=700")[1]
        self.assertEqual(len(self.told(output)), 3)
        self.assertFalse(self.finds.exists())

    def test_nobody_reads(self) -> None:
        with self.start(*WORDS, "--until=700") as program:
            assert program.stdout and program.stderr
            program.stdout.close()
            program.wait(60)
            self.assertEqual((program.returncode, program.stderr.read()), (5, b""))
        self.assertIn(CLOCK, self.told(self.search("--until=700", "--rarer=10000")[1]))

    def test_a_call_that_does_not_end(self) -> None:
        """If a search is killed while the call for a find still runs, the next search reports this
        find again, and also the finds that waited for their calls."""
        program = self.stub("sleep 1000", "finder")
        with self.start(*WORDS, "--until=700", "--finds", program) as running:
            assert running.stdout
            lines = [running.stdout.readline().decode() for _ in range(3)]
            running.kill()
            running.communicate(timeout=60)
        self.assert_nothing_runs()
        again = self.search("--until=700", "--rarer=10000")[1]
        self.assertEqual(sorted(self.told(again)), sorted(self.told("".join(lines))))


class AfterAKill(UnreportedFinds):
    """FILE.finds says which objects haven't been examined."""

    def header(self, since: int, left_out: int = 0, job: str = HEADER) -> str:
        return f"# finds since {since} left-out {left_out} {job}\n"

    def setUp(self) -> None:
        super().setUp()
        self.file.write_bytes(census("take", "--first=23000", "--count=700"))

    def test_objects_that_were_not_looked_at(self) -> None:
        self.finds.write_text(self.header(CLOCK_SOUP))
        output = self.search("--until=700", "--rarer=10000")[1]
        self.assertEqual(self.told(output), [CLOCK, "xs20_3lkkl3z32w23"])
        self.assert_left("mine.haul", "mine.haul.lock")
        self.finds.write_text(self.header(CLOCK_SOUP + 1))
        output = self.search("--until=700", "--rarer=10000")[1]
        self.assertEqual(self.told(output), ["xs20_3lkkl3z32w23"])

    def test_finds_of_other_soups_are_dropped(self) -> None:
        lines = [f"t\tcode{soup}\t-\t{soup}\tcommand\t-\n" for soup in (22999, 23000, 23699, 23700)]
        self.finds.write_text(self.header(2**40) + "".join(lines))
        self.assertEqual(self.search("--until=700")[1], "".join(lines[1:3]))

    def test_some_were_left_out(self) -> None:
        for left_out, were in ((3, "3 finds were"), (1, "1 find was")):
            with self.subTest(left_out=left_out):
                self.finds.write_text(self.header(2**40, left_out))
                told = f"haul: mine.haul.finds: {were} left out\n"
                self.assertEqual(self.search("--until=700"), (0, "", told))

    def test_no_more_than_these(self) -> None:
        self.file.unlink()
        with patch.object(unreported, "MOST_LINES", 2):
            with self.start(*WORDS, "--late=0", "--until=5", is_forked=True) as program:
                assert program.stdout
                program.stdout.close()
                program.wait(60)
        header, *lines = self.finds.read_text().splitlines()
        self.assertEqual(len(lines), 2)
        self.assertRegex(header, r"^# finds 2 since \d+ left-out [1-9]\d* ")

    def test_files_that_cant_be_used(self) -> None:
        for text, why in (
            ("x\n", "line 1: not a header"),
            (self.header(0, job=HEADER.replace("64,", "65,")), "line 1: not a header"),
            (self.header(0) + "x\n", "line 2: not a find"),
            (self.header(0) + "t\tx\t-\t1\tcommand\t-", "line 2: not a find"),
            (self.header(0, job=HEADER + "b"), "other job"),
        ):
            self.finds.write_text(text)
            told = f"haul: mine.haul.finds: {why}, so it is now mine.haul.finds.bad, and the search begins a new one\n"
            self.assertEqual(self.search("--until=700"), (0, "", told))
            self.assertEqual((self.folder / "mine.haul.finds.bad").read_text(), text)
            (self.folder / "mine.haul.finds.bad").unlink()
            self.assert_right()

    def test_killed_at_drawn_moments(self) -> None:
        """Each find is reported at least once, even if searches are killed."""
        self.file.unlink()
        told: set[str] = set()
        for seconds in (0.4, 0.6, 0.8, 1.0, 1.2):
            with self.start(*WORDS[:2], "--rarer=10000", "--batch=40", "--until=1000") as program:
                time.sleep(seconds)
                program.kill()
                output, _ = program.communicate()
            told |= set(self.told(output.decode()))
        told |= set(self.told(self.search(*WORDS[:2], "--rarer=10000", "--until=1000")[1]))
        self.assertEqual(told, {"xs12_330f96", CLOCK, "xs20_3lkkl3z32w23"})
        self.assert_right()


class Forgetting(UnreportedFinds):
    def test_what_is_reported_later(self) -> None:
        """A find that is reported is removed within a second, even if as many others were reported
        before and came in between."""
        self.file.write_bytes(census("take", "--count=1", *QUICK))
        haul = self.haul()
        joining = Joining()
        joining.add(haul)
        finds = [["t", f"code{soup}", "-", str(soup), "command", "-"] for soup in range(4)]
        finder, reporter = Mock(queue=[], is_silent=False), Mock()
        file = FindsFile(
            SideFile(str(self.file), "mine.haul", "finds", self.fail),
            *(haul.job, joining, finder, reporter),
        )

        def left(*soups: int) -> None:
            reporter.list_unreported.return_value = [finds[soup] for soup in soups]
            reporter.count_unreported.return_value = len(soups)

        def kept() -> list[str]:
            return self.told(self.finds.read_text().partition("\n")[2])

        left(0, 1)
        file.write()
        file.note_written()
        left(1)
        with patch("time.monotonic", side_effect=[100.0, 100.02]):
            file.forget_reported()
        self.assertEqual(kept(), ["code1"])
        # The next batch has a late soup. The file has it before it is reported, and says that the
        # batch hasn't been examined.
        file.file.write(file.write_beside([(7, [("xs4_33", 8)])], [finds[2]]).write())
        self.assertEqual(kept(), ["code1", "code2"])
        self.assertIn("# finds 2 since 7 ", self.finds.read_text())
        left(1, 2)
        file.note_written()
        left(2)
        for now, codes in ((100.39, ["code1", "code2"]), (100.4, ["code2"])):
            with patch("time.monotonic", return_value=now):
                file.forget_reported()
            self.assertEqual(kept(), codes)


class Launcher(Searches):
    """A launcher that is building the program is ended together with `haul`."""

    def test_it_ends(self) -> None:
        for number in (signal.SIGKILL, signal.SIGTERM):
            top = Path(self.folder) / number.name
            (top / "bin").mkdir(parents=True)
            for name in ("haul", "census", "built.bash"):
                (top / "bin" / name).write_text("")
            launcher = top / "bin" / "census"
            launcher.write_text("#!/bin/sh\nsetsid sleep 78.5 &\nsleep 78.5\n")
            launcher.chmod(0o755)
            (top / "bin" / "haul").write_text(
                f"import sys\nsys.path.insert(0, {str(Path(HAUL).parents[1])!r})\n"
                "from haul.cli.process import main\nmain()\n"
            )
            program = subprocess.Popen(
                [sys.executable, str(top / "bin" / "haul"), "search", "x"], cwd=self.folder
            )
            for _ in range(1000):
                if len(self.running_here()) >= 5:
                    break
                time.sleep(0.01)
            self.assertGreaterEqual(len(self.running_here()), 5)
            os.kill(program.pid, number)
            program.wait(60)
            self.assert_nothing_runs()
