"""`haul search` under difficult conditions: unusual programs, changes to its files, and too little
memory. Also unusual arguments, and bad report lines."""

from __future__ import annotations

import fcntl
import io
import os
import signal
import subprocess
import sys
import time
from collections.abc import Callable
from unittest.mock import patch

from haul.formats import report_files
from haul.tests.called import CENSUS, HAUL, census, run
from haul.tests.searching import QUICK, Searches


class Programs(Searches):
    """Tests unusual programs, and that no process that they have started is left running."""

    def test_finds_in_another_session(self) -> None:
        program = self.stub("cd ..; setsid -f sleep 77.5 < /dev/null > /dev/null 2>&1", "finder")
        self.file.write_bytes(census("take", "--first=23000", "--count=1"))
        status, told, errors = self.search("--until", "500", "--rarer", "10000", "--finds", program)
        self.assertEqual((status, errors), (0, ""))
        self.assertNotEqual(told, "")
        self.assertEqual(self.sleeping("77.5"), [])

    def test_census_that_does_not_become_the_program(self) -> None:
        """If `haul` is killed while a wrapper script waits for the census program, the script and
        the program end, too."""
        program = self.stub(f'"{CENSUS}" "$@"; true', "wrapper")
        running = self.start("--batch", "16000000", "--workers=1", program=program)
        for _ in range(1000):
            if len(self.running_here()) >= 4:
                break
            time.sleep(0.01)
        self.assertGreaterEqual(len(self.running_here()), 4)
        running.kill()
        running.communicate()
        self.assert_nothing_runs()

    def sleeping(self, seconds: str) -> list[str]:
        found = subprocess.run(
            ["ps", "-eo", "args"], stdout=subprocess.PIPE, check=True, text=True
        ).stdout.splitlines()
        return [line for line in found if line == f"sleep {seconds}"]

    def test_without_a_path(self) -> None:
        """A search works even if Python doesn't know the path of its interpreter, as may happen
        without a `PATH`."""
        ended = subprocess.run(
            [sys.executable, "-c", WITHOUT_EXECUTABLE, HAUL, CENSUS, str(self.file), *QUICK],
            stdout=subprocess.PIPE,
            stderr=subprocess.PIPE,
            check=False,
        )
        self.assertEqual((ended.returncode, ended.stderr), (0, b""))
        self.assertEqual(self.soups(), 30)

    def test_floods(self) -> None:
        for stream, redirection in (("output", ""), ("error", ">&2")):
            program = self.stub(
                f'[ "$1" = --version ] && real "$@"; yes 0123456789 {redirection}', "flood"
            )
            status, _, errors = self.search("--until", "30", "--batch", "10", program=program)
            self.assertEqual(
                (status, errors), (5, f"haul: census wrote too much to its standard {stream}\n")
            )
            self.assert_nothing_runs()


WITHOUT_EXECUTABLE = """
import runpy, sys
sys.executable, (haul, census, file, *words) = "", sys.argv[1:]
sys.argv = [haul, "search", "--until=30", "--census", census, *words, file]
runpy.run_path(haul, run_name="__main__")"""


class Files(Searches):
    """Tests what other programs may do to FILE and to its lock."""

    def test_lock_that_is_held_for_a_moment(self) -> None:
        with open(f"{self.file}.lock", "w", encoding="ascii") as lock:
            fcntl.flock(lock, fcntl.LOCK_EX)
            running = self.start("--until", "30", *QUICK)
            time.sleep(0.8)
            fcntl.flock(lock, fcntl.LOCK_UN)
            _, errors = running.communicate(timeout=60)
        self.assertEqual((running.returncode, errors), (0, b""))

    def test_changed_by_another_program(self) -> None:
        """If another program removes or replaces FILE, the search leaves FILE as it is, and writes
        its haul to a file beside it."""
        other = census("take", "--seed=other", "--count=3")
        changes: list[tuple[Callable[[], object], str]] = [
            (self.file.unlink, "mine.haul.mine"),
            (lambda: self.file.write_bytes(other), "mine.haul.mine.2"),
        ]
        for change, name in changes:
            self.file.write_bytes(census("take", "--seed=a", "--count=20"))
            running = self.start("--batch", "10")
            self.wait_for(40)
            change()
            _, errors = running.communicate(timeout=60)
            self.assertEqual(
                (running.returncode, errors.decode()),
                (
                    5,
                    "haul: mine.haul: changed by another program, so the haul of this search is in "
                    f"{name}\n",
                ),
            )
            self.assertEqual(run("check", text=(self.folder / name).read_bytes())[1], "right\n")
        self.assertEqual(self.file.read_bytes(), other)


class Arguments(Searches):
    """Tests numbers with a plus sign, and arguments with control characters."""

    def test_numbers_as_for_census(self) -> None:
        words = ["--seed=", "--first", "+5", "--limit", "+700"]
        self.assertEqual(self.search(*words, "--late=never", "--until", "30"), (0, "", ""))
        self.assertEqual(self.file.read_bytes(), census("take", *words, "--count", "30"))
        self.assertEqual(self.search("--first", "++5")[0], 2)

    def test_no_control_characters(self) -> None:
        for words in (
            ("soup", "\x1b[31mx/1\nfoo"),
            ("table", "a\x1b[31m\nb"),
            ("table", "--kind", "\x1b[31m"),
        ):
            status, printed, errors = run(*words)
            self.assertNotEqual(status, 0)
            self.assertEqual(printed, "")
            self.assertNotIn("\x1b", errors)
            self.assertIn("x1b[31m", errors)
            self.assertNotIn("\nfoo", errors)


class Reports(Searches):
    """Tests report lines: many bad lines, and the longest input."""

    def test_counts_lines_after_a_thousand(self) -> None:
        line = census("work", "--count=1", "--worker=1")
        status, printed, errors = run("soups", text=line + b"x\n" * 1500)
        self.assertEqual(status, 0)
        self.assertIn("\n1 soup,", printed)
        told = errors.splitlines()
        self.assertEqual(told[999], "haul: line 1001: bad line at 0")
        self.assertEqual(told[1000:], ["haul: 500 more lines are skipped"])

    def test_longest_input(self) -> None:
        line = census("work", "--count=1", "--worker=1")
        with patch.object(report_files, "INPUT_LIMIT", len(line)):
            self.assertEqual(len(list(report_files.split_lines(io.BytesIO(line)))), 1)
            with self.assertRaisesRegex(OSError, "input longer than"):
                list(report_files.split_lines(io.BytesIO(line + b"\n")))

    def test_rest_of_a_long_line(self) -> None:
        """The rest of a line that is too long is skipped, but counts for the length of the
        input."""
        text = io.BytesIO(b"0123456789\nx\n")
        with patch.object(report_files, "LINE_LIMIT", 3):
            self.assertEqual(list(report_files.split_lines(text)), [b"0123", b"x"])
            with patch.object(report_files, "INPUT_LIMIT", 6):
                with self.assertRaisesRegex(OSError, "input longer than"):
                    list(report_files.split_lines(io.BytesIO(b"0123456789")))


class Memory(Searches):
    """If there is no memory, the thread that does the work may silently never begin."""

    def test_thread_that_does_not_begin(self) -> None:
        script = (
            "import sys, _thread\n_thread.start_new_thread = lambda *words: 1\n"
            "import haul.cli.process as process\nprocess.SECONDS_TO_BEGIN = 0.5\nprocess.main()\n"
        )
        ended = subprocess.run(
            [sys.executable, "-c", script, "--version"],
            stdout=subprocess.PIPE,
            stderr=subprocess.PIPE,
            cwd=os.path.dirname(os.path.dirname(HAUL)),
            timeout=30,
            check=False,
        )
        self.assertEqual((ended.returncode, ended.stderr), (4, b"haul: out of memory\n"))

    def test_signal_before_it_begins(self) -> None:
        script = (
            "import os, sys, _thread\n_thread.start_new_thread = lambda *words: 1\n"
            "import haul.cli.process as process\nprocess.main()\n"
        )
        with subprocess.Popen(
            [sys.executable, "-c", script, "--version"],
            cwd=os.path.dirname(os.path.dirname(HAUL)),
        ) as running:
            time.sleep(1)
            running.send_signal(signal.SIGTERM)
            self.assertEqual(running.wait(5), -signal.SIGTERM)
