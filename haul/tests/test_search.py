"""Tests of `haul search`: which soups it takes, what it refuses, and whether FILE is a correct haul
whatever happens."""

from __future__ import annotations

import errno
import io
import os
import random
import signal
import subprocess
import sys
import time
import unittest
from contextlib import redirect_stderr
from pathlib import Path
from unittest.mock import patch

from haul.census.background import BackgroundProgram, BackgroundTake, StreamWaiter
from haul.census.client import count_processors
from haul.census.launcher import CENSUS as LAUNCH_CENSUS
from haul.cli.parser import parse_arguments
from haul.formats.haul import NUMBER_LIMIT, Haul
from haul.formats.haul_reader import read_one_haul
from haul.search.haul_file import Beside, CantUseFile, Displaced, HaulFile
from haul.search.side_file import SideFile
from haul.search.stopping import Stopping
from haul.tests.called import CENSUS, TOP, census, run
from haul.tests.searching import QUICK, Searches


class Soups(Searches):
    """Tests which soups are taken."""

    def test_begins_with_a_random_seed(self) -> None:
        seeds = set()
        for _ in range(2):
            self.assertEqual(self.search("--until", "30", "--late=never", *QUICK), (0, "", ""))
            self.assertRegex(self.haul().job.seed, "^h_[A-Za-z0-9]{12}$")
            seeds.add(self.haul().job.seed)
            self.assertEqual(self.haul().ranges, [(0, 30)])
            self.assert_right()
            self.assert_left("mine.haul", "mine.haul.lock")
            self.file.unlink()
        self.assertEqual(len(seeds), 2)

    def test_begins_as_it_is_told(self) -> None:
        self.assertEqual(self.search("--seed", "", "--first", "7", "--until", "30"), (0, "", ""))
        self.assertEqual(self.file.read_bytes(), census("take", "--first", "7", "--count", "30"))
        self.file.unlink()
        words = "--seed=-a --rule=b36s23 --period=3 --horizon=20 --stride=50 --limit=500".split()
        self.assertEqual(
            self.search(*words, "--until", "30", "--batch", "11", "--workers", "2")[0], 0
        )
        self.assertEqual(self.file.read_bytes(), census("take", *words, "--count", "30"))

    def test_goes_on(self) -> None:
        """A search may continue with batches of another size. It ends with exactly as many soups as
        requested."""
        for until, size in ((10, 100), (50, 7), (51, 1), (200, 40)):
            self.assertEqual(
                self.search("--seed=a", "--until", str(until), "--batch", str(size))[0], 0
            )
            self.assertEqual(
                self.file.read_bytes(), census("take", "--seed=a", "--count", str(until))
            )

    def test_goes_on_without_words(self) -> None:
        words = ["--seed=b", "--rule=b36s23", "--stride=50", "--limit=500"]
        self.file.write_bytes(census("take", *words, "--count", "5"))
        self.assertEqual(self.search("--until", "20")[0], 0)
        self.assertEqual(self.file.read_bytes(), census("take", *words, "--count", "20"))

    def test_gaps_stay(self) -> None:
        self.file.write_bytes(census("take", "--first", "3", "--count", "4", "--also", "20+5"))
        self.assertEqual(self.search("--until", "15", "--first", "3")[0], 0)
        self.assertEqual(
            self.file.read_bytes(),
            census("take", "--first", "3", "--count", "4", "--also", "20+11"),
        )

    def test_an_empty_haul(self) -> None:
        self.assertEqual(self.search("--seed=a", "--until", "0")[0], 0)
        self.assertEqual(self.file.read_bytes(), census("take", "--seed=a", "--count", "0"))
        self.assertEqual(self.search("--first", "9", "--until", "2")[0], 0)
        self.assertEqual(
            self.file.read_bytes(), census("take", "--seed=a", "--first", "9", "--count", "2")
        )

    def test_as_many_as_there_are_or_fewer(self) -> None:
        """If FILE has as many soups as requested, or more, the search ends at once and doesn't call
        the census program."""
        self.file.write_bytes(census("take", "--count", "20"))
        before = self.file.stat()
        for until in ("20", "19", "0"):
            self.assertEqual(self.search("--until", until, program="/nowhere/census"), (0, "", ""))
        self.assertEqual(
            (self.file.stat().st_ino, self.file.stat().st_mtime_ns),
            (before.st_ino, before.st_mtime_ns),
        )

    def test_the_last_soup(self) -> None:
        for _ in range(2):
            self.assertEqual(
                self.search("--seed=a", "--first", str(NUMBER_LIMIT - 25), "--batch", "10", *QUICK)[
                    0
                ],
                0,
            )
            self.assertEqual(
                self.file.read_bytes(),
                census(
                    "take", "--seed=a", "--first", str(NUMBER_LIMIT - 25), "--count", "25", *QUICK
                ),
            )
        self.file.unlink()
        (self.folder / "mine.haul.late").unlink()
        self.assertEqual(self.search("--seed=a", "--first", str(NUMBER_LIMIT)), (0, "", ""))
        self.assertEqual(self.file.read_bytes(), census("take", "--seed=a", "--count", "0"))

    def test_how_the_program_is_called(self) -> None:
        """By default, there are as many workers as processors."""
        program = self.stub('echo "$@" >> calls; real "$@"')
        with patch("os.sched_getaffinity", return_value=range(5)):
            self.search("--seed=a", "--until", "7", "--batch", "4", *QUICK, program=program)
        with patch("os.sched_getaffinity", return_value=range(100)) as asked:
            self.assertEqual(count_processors(), 100)
        asked.assert_called_once_with(0)
        job = "--seed=a --rule=b3s23 --period=1 --horizon=1 --stride=1 --limit=0"
        self.assertEqual(
            (self.folder / "calls").read_text().splitlines(),
            [
                f"take {job} --first={first} --count={count} --workers=5 --progress"
                " --report-from=12000"
                for first, count in ((0, 4), (4, 3))
            ],
        )

    def test_the_usual_batch(self) -> None:
        """Without --batch, a batch has 100,000 soups. The stub fails at once, so no soup is run."""
        program = self.stub('echo "$@" > calls; exit 5')
        self.assertEqual(self.search("--seed=a", program=program)[0], 5)
        self.assertIn(" --first=0 --count=100000 ", (self.folder / "calls").read_text())

    def test_rights_and_links(self) -> None:
        """The file keeps its permissions, and a link to it stays a link."""
        self.file.write_bytes(census("take", "--count", "5", *QUICK))
        self.file.chmod(0o640)
        (self.folder / "link").symlink_to("mine.haul")
        self.assertEqual(self.search("--until", "9", file="link")[0], 0)
        self.assertEqual((self.soups(), self.file.stat().st_mode & 0o777), (9, 0o640))
        self.assertTrue((self.folder / "link").is_symlink())
        self.assert_left("link", "mine.haul", "mine.haul.late", "mine.haul.lock")


class Refusals(Searches):
    """Tests what is refused. The file isn't changed."""

    def refused(self, status: int, line: str, *words: str, file: str = "mine.haul") -> None:
        before = self.file.read_bytes() if self.file.exists() else None
        ended = self.search("--until", "50", *words, file=file)
        self.assertEqual(ended, (status, "", f"haul: {line}\n"))
        self.assertEqual(self.file.read_bytes() if self.file.exists() else None, before)

    def test_no_haul(self) -> None:
        for text, line in (
            (b"", "bad haul at line 1 column 1: this looks like an empty text"),
            (b"x\n", "bad haul at line 1 column 1"),
            (
                2 * census("take", "--count", "0"),
                "bad haul at line 15 column 1: more than one haul, which `haul join` adds up",
            ),
        ):
            self.file.write_bytes(text)
            self.refused(3, f"mine.haul: {line}")

    def test_missing_soups(self) -> None:
        lines = census("work", "--count", "2", "--worker", "1").splitlines(True)[0]
        self.file.write_bytes(
            subprocess.run(
                [CENSUS, "gather", "--count", "2"], input=lines, capture_output=True, check=False
            ).stdout
        )
        self.refused(3, "mine.haul: haul with missing soups")

    def test_another_job(self) -> None:
        self.file.write_bytes(census("take", "--seed=a", "--first=3", "--count=2"))
        for word, line in (
            ("--seed=b", "the seed is a, and not b"),
            ("--seed=", "the seed is a, and not "),
            ("--rule=b36s23", "the rule is b3s23, and not b36s23"),
            ("--period=4", "the period is 64, and not 4"),
            ("--horizon=100", "the horizon is 512, and not 100"),
            ("--stride=1", "the stride is 101, and not 1"),
            ("--limit=0", "the limit is 30300, and not 0"),
            ("--first=0", "the first soup is 3, and not 0"),
        ):
            self.refused(3, f"mine.haul: {line}", word)
        same = [
            "--seed=a",
            "--rule=b3s23",
            "--period=64",
            "--horizon=512",
            "--stride=101",
            "--limit=30300",
            "--first=3",
        ]
        self.assertEqual(self.search(*same, "--until", "4")[0], 0)
        self.assert_right()

    def test_no_regular_file(self) -> None:
        os.mkfifo(self.folder / "pipe")
        for name in ("/dev/null", "pipe"):
            self.refused(3, f"{name}: not a regular file", file=name)
        self.refused(3, ".: this is a folder; give the name of a file in it", file=".")
        self.assert_left("pipe")
        self.refused(5, "none/mine.haul.lock: No such file or directory", file="none/mine.haul")
        self.assertFalse(os.path.exists("/dev/null.lock"))

    def test_an_option_that_was_renamed(self) -> None:
        for words in (["--part=7", "x"], ["x", "--part", "7"]):
            errors = run("search", *words)[2]
            self.assertIn("unrecognized arguments: --part", errors)
            self.assertIn("; the number of soups in a batch is --batch\n", errors)

    def test_words(self) -> None:
        for words, line in (
            (["-"], "FILE is the name of a file"),
            ([""], "an empty path"),
            (["--batch=0", "x"], "0 is not in 1 to 16777216"),
            (["--batch=16777217", "x"], "16777217 is not in 1 to 16777216"),
            (["--workers=1025", "x"], "1025 is not in 1 to 1024"),
            (["--workers=0", "x"], "0 is not in 1 to 1024"),
            (["--late=100002", "x"], "100002 is not in 0 to 100001"),
            (["--late=Never", "x"], "Never is no number"),
            (["--seed=a b", "x"], "no seed"),
            (["--seed=" + 65 * "a", "x"], "no seed"),
            (["--first=1099511627777", "x"], "is not in 0 to 1099511627776"),
            (["--period=0", "x"], "0 is not in 1 to 64"),
            (["--horizon=4097", "x"], "4097 is not in 0 to 4096"),
            (["--horizon=63", "x"], "the horizon is below the period"),
            (["--stride=0", "x"], "0 is not in 1 to 10000"),
            (["--limit=100001", "x"], "100001 is not in 0 to 100000"),
            (["--until=x", "x"], "x is no number"),
            (["--until=1"], "required: FILE"),
        ):
            with redirect_stderr(io.StringIO()) as said, self.assertRaises(SystemExit) as ended:
                parse_arguments(["search", *words])
            self.assertEqual(ended.exception.code, 2)
            self.assertIn(line, said.getvalue())
        self.assertEqual(run("search", "-")[0], 2)

    def test_a_second_search(self) -> None:
        (self.folder / "link").symlink_to("mine.haul")
        with self.start("--seed=a", "--batch", "20") as first:
            self.wait_for(20)
            for name in ("mine.haul", "link"):
                with self.start(file=name) as second:
                    errors = second.communicate(timeout=60)[1]
                self.assertEqual(
                    (second.returncode, errors.decode()),
                    (3, f"haul: {name}: another search keeps this file\n"),
                )
            first.send_signal(signal.SIGINT)
            self.assertEqual(first.wait(60), 0)
        self.assert_right()
        # The lock file remains, but is no longer locked.
        self.assertEqual(self.search("--until", "1")[0], 0)

    def test_no_program(self) -> None:
        for program, line in (
            ("/nowhere/census", "no census at /nowhere/census"),
            (str(self.folder), f"no census at {self.folder}"),
            ("/bin/true", "no census at /bin/true"),
            (self.stub("echo x"), f"no census at {self.folder}/stub"),
            (
                self.stub("exec 1>&- 2>&-; sleep 0.2", "closes"),
                f"no census at {self.folder}/closes",
            ),
        ):
            self.assertEqual(self.search("--seed=a", program=program), (2, "", f"haul: {line}\n"))
        self.assertFalse(self.file.exists())

    def test_a_program_that_cant_be_started(self) -> None:
        """A text file that doesn't name an interpreter counts as no program, and so does a loop of
        links."""
        text, loop = self.folder / "text", self.folder / "loop"
        text.write_text("x\n")
        text.chmod(0o755)
        loop.symlink_to("loop")
        for program in (text, loop):
            self.assertEqual(
                self.search("--seed=a", program=str(program)),
                (2, "", f"haul: no census at {program}\n"),
            )
        self.assertFalse(self.file.exists())


class Faults(Searches):
    """FILE is a correct haul, whatever fails."""

    def test_a_program_that_fails(self) -> None:
        """The search passes on the program's message, or says how the program ended. The earlier
        batches are in the file."""
        for how, status, line in (
            ("echo census: because >&2; exit 4", 4, "because"),
            ("exit 70", 5, "census ended with status 70"),
            ("kill -9 $$", 5, "census was ended by signal 9"),
            (
                "printf '\\r3 of 9 soups, 5 a second' >&2; kill -9 $$",
                5,
                "census was ended by signal 9",
            ),
            ("printf '\\r3 of 9 soups\\rcensus: why\\n' >&2; exit 5", 5, "why"),
        ):
            self.file.unlink(missing_ok=True)
            program = self.stub(f'case "$*" in *--first=40*) {how} ;; *) real "$@" ;; esac')
            self.assertEqual(
                self.search("--seed=a", "--batch", "20", program=program),
                (status, "", f"haul: {line}\n"),
            )
            self.assertEqual(self.soups(), 40)
            self.assert_right()
            self.assert_nothing_runs()

    def test_a_wrong_answer(self) -> None:
        """A haul other than the requested one isn't added."""
        for answer in (
            "real take --count 20 --seed a",
            "real take --count 20 --seed b --first 20",
            "real take --count 19 --seed a --first 20",
        ):
            self.file.unlink(missing_ok=True)
            program = self.stub(f'case "$*" in *--first=20*) {answer} ;; *) real "$@" ;; esac')
            self.assertEqual(
                self.search("--seed=a", "--batch", "20", program=program),
                (2, "", f"haul: no census at {program}\n"),
            )
            self.assertEqual(self.soups(), 20)
            self.assert_right()

    def test_what_the_program_leaves_running(self) -> None:
        program = self.stub(f'sleep 1000 & "{CENSUS}" "$@"')
        self.assertEqual(
            self.search("--seed=a", "--until", "40", "--batch", "20", program=program)[0], 0
        )
        self.assert_right()
        self.assert_nothing_runs()

    def test_a_full_disk(self) -> None:
        """A limit on the size of files stands in for a full disk. The new text is longer than the
        limit."""
        self.assertEqual(self.search("--seed=a", "--until", "5")[0], 0)
        before = self.file.read_bytes()
        limit = len(before) + 1000
        self.assertEqual(
            self.search("--until", "400", "--batch", "395", most_bytes=limit),
            (5, "", "haul: mine.haul.new: File too large\n"),
        )
        self.assertEqual(self.file.read_bytes(), before)
        self.assert_left("mine.haul", "mine.haul.late", "mine.haul.lock")
        # A FILE.new that an earlier search has left behind makes no difference.
        (self.folder / "mine.haul.new").write_text("x" * 100000)
        self.assertEqual(self.search("--until", "400")[0], 0)
        self.assert_right()
        self.assert_left("mine.haul", "mine.haul.late", "mine.haul.lock")

    def test_a_folder_that_refuses_new_files(self) -> None:
        (self.folder / "mine.haul.new").mkdir()
        status, _, errors = self.search("--seed=a", "--until", "5")
        self.assertEqual((status, errors), (5, "haul: mine.haul.new: Is a directory\n"))
        self.assertFalse(self.file.exists())

    def test_nobody_reads(self) -> None:
        """If nobody reads the finds, the search ends, and the batch whose find couldn't be printed
        is in the file."""
        with self.start("--seed=", "--first=23473", "--batch=20", "--rarer=10000") as program:
            assert program.stdout
            program.stdout.close()
            program.wait(60)
            assert program.stderr
            self.assertEqual(program.stderr.read(), b"")
        self.assertEqual(program.returncode, 5)
        self.assertGreaterEqual(self.soups(), 20)
        self.assert_right()
        self.assert_nothing_runs()

    def test_killed_at_drawn_moments(self) -> None:
        """The search is killed at random moments, while it writes the file again and again."""
        draw = random.Random("kills")
        for _ in range(8):
            soups = self.soups()
            with self.start(
                "--seed=a", "--until", "100000", "--batch", str(draw.choice([5, 20, 50]))
            ) as program:
                self.wait_for(soups + 1)
                time.sleep(draw.uniform(0, 0.1))
                program.kill()
            self.assertEqual(program.returncode, -signal.SIGKILL)
            self.assert_nothing_runs()
            self.assert_right()
        soups = self.soups() + 30
        self.assertEqual(self.search("--until", str(soups))[0], 0)
        self.assertEqual(
            self.file.read_bytes(), census("take", "--seed=a", "--count", str(soups), "--workers=4")
        )


class Signals(Searches):
    """After a signal, at most the running batch is lost, and no process is left running."""

    # With this program, the batch from soup 40 on takes a long time.
    SLOW = 'case "$*" in *--first=40*) echo census >&2; touch slow; exec sleep 1000 ;; *) real "$@" ;; esac'

    def slow(self) -> subprocess.Popen[bytes]:
        """Starts a search whose third batch takes a long time, and waits until this batch runs."""
        program = self.start("--seed=a", "--batch", "20", program=self.stub(self.SLOW))
        self.wait_for(20)
        while not (self.folder / "slow").exists():
            time.sleep(0.02)
        return program

    def test_the_first_interrupt(self) -> None:
        """After the first Ctrl-C, the running batch is finished."""
        with self.start("--seed=a", "--batch", "300") as program:
            self.wait_for(300)
            os.killpg(program.pid, signal.SIGINT)
            output, errors = program.communicate(timeout=60)
        self.assertEqual((program.returncode, output), (0, b""))
        self.assertRegex(
            errors.decode(),
            r"^haul: stops after this batch, in about 0:00:\d\d; Ctrl-C again drops the batch\n$",
        )
        self.assertEqual(self.soups() % 300, 0)
        self.assertGreaterEqual(self.soups(), 600)
        self.assert_right()
        self.assert_left("mine.haul", "mine.haul.late", "mine.haul.lock")

    def test_signals_that_drop_the_batch(self) -> None:
        for numbers in (
            [signal.SIGTERM],
            [signal.SIGHUP],
            [signal.SIGINT, signal.SIGINT],
            [signal.SIGINT, signal.SIGTERM],
        ):
            with self.subTest(numbers=numbers):
                self.file.unlink(missing_ok=True)
                (self.folder / "slow").unlink(missing_ok=True)
                with self.slow() as program:
                    for number in numbers:
                        os.killpg(program.pid, number)
                        time.sleep(0.3)
                    output, errors = program.communicate(timeout=60)
                self.assertEqual((program.returncode, output), (-numbers[-1], b""))
                self.assertEqual(len(errors.splitlines()), len(numbers) - 1)
                # Before the search ends, it writes the finished batches that aren't in FILE yet.
                self.assertEqual(self.soups(), 40)
                self.assert_right()
                self.assert_nothing_runs()

    def test_a_kill(self) -> None:
        with self.slow() as program:
            program.kill()
        self.assert_nothing_runs()
        self.assert_right()

    def test_a_signal_that_is_ignored(self) -> None:
        """A signal that is ignored, as under `nohup`, doesn't end the search."""
        program = self.stub('kill -HUP $(cut -d " " -f 4 /proc/$$/stat); sleep 0.3; real "$@"')
        self.has_nohup = True
        self.assertEqual(self.search("--seed=a", "--until", "20", program=program)[0], 0)
        self.assert_right()


class Programs(Searches):
    """Tests programs that run in their own sessions."""

    def test_streams_that_are_closed_early(self) -> None:
        """If the program closes its streams before it ends, `is_ended` waits only for a moment."""
        running = BackgroundProgram(
            StreamWaiter(), LAUNCH_CENSUS, [self.stub("exec 1>&-; exec sleep 1000")], None
        )
        while running.open:
            running.waiter.wait(1)
        began = time.monotonic()
        self.assertFalse(running.is_ended())
        self.assertLess(time.monotonic() - began, 1)
        running.end()
        self.assert_nothing_runs()

    def test_what_holds_one_stream(self) -> None:
        """When the program has ended, the processes that it has left running are killed, even if
        one stream is already closed."""
        for closed in ("1", "2"):
            running = BackgroundTake(
                StreamWaiter(), [self.stub(f"exec {closed}>&-; sleep 1000 & exit 0")]
            )
            until = time.monotonic() + 20
            while not running.is_ended() and time.monotonic() < until:
                running.waiter.wait(0.1)
            self.assertTrue(running.is_ended())
            self.assert_nothing_runs()

    def test_lines_of_progress(self) -> None:
        """The number of soups is read from the last complete progress line."""
        take = BackgroundTake(StreamWaiter(), [self.stub("exec sleep 1000")])
        for piece, soups in (
            (b"", 0),
            (b"\r3 of 90 so", 0),
            (b"ups, 5 a second", 3),
            (b"", 3),
            (b"\r14 of 90 soups\r25 of 90 soups  \r26 of", 25),
            (b" 90 soups", 26),
        ):
            take.complained += piece
            self.assertEqual(take.soups(), soups)
        take.end()
        self.assert_nothing_runs()


class Stops(unittest.TestCase):
    """Tests `Stopping`, which notes whether work must finish its running part or end at once."""

    def test_what_is_noted(self) -> None:
        interrupt, term = signal.SIGINT, signal.SIGTERM
        for numbers, finishes, number in (
            ([interrupt], True, None),
            ([interrupt, interrupt], True, interrupt),
            ([term], False, term),
            ([interrupt, term], True, term),
            ([term, interrupt, interrupt], False, term),
        ):
            stopping = Stopping()
            self.assertEqual([stopping.came(each) for each in numbers], [True] * len(numbers))
            self.assertEqual((stopping.finishes, stopping.number), (finishes, number))
            stopping.hear()
            stopping.hear()

    def test_work_that_doesnt_end(self) -> None:
        """After ten seconds another signal ends the program, unless the file is being replaced."""
        with patch("time.monotonic", return_value=100.0) as now:
            stopping = Stopping()
            stopping.came(signal.SIGTERM)
            for at, is_writing, may_go_on in (
                (109.9, False, True),
                (110.0, True, True),
                (110.0, False, False),
            ):
                now.return_value, stopping.is_writing = at, is_writing
                self.assertEqual(stopping.came(signal.SIGTERM), may_go_on)

    def test_it_is_ended(self) -> None:
        script = (
            f"import os, sys, time; sys.path.insert(0, {str(TOP)!r})\nfrom haul.search import stopping\nfrom haul.census.children import children\nfrom haul.cli.process import run_heeding_signals\n"
            "stopping.SECONDS_TO_END = 0.5\n"
            "def work():\n    children.heed(stopping.Stopping()); print('begun', flush=True); time.sleep(1000)\nrun_heeding_signals(work)"
        )
        with subprocess.Popen([sys.executable, "-c", script], stdout=subprocess.PIPE) as program:
            assert program.stdout
            program.stdout.readline()
            program.terminate()
            time.sleep(1)
            self.assertIsNone(program.poll())
            program.terminate()
            self.assertEqual(program.wait(60), -signal.SIGTERM)


class Keeping(Searches):
    """Tests how a file is locked and replaced, also if it is named by a link."""

    def test_one_lock_for_two_names(self) -> None:
        (self.folder / "link").symlink_to(self.file)
        haul_file = HaulFile(str(self.file))
        with self.assertRaisesRegex(CantUseFile, "^.*/link: another search keeps this file$"):
            HaulFile(str(self.folder / "link"))
        os.close(haul_file.lock)
        os.close(HaulFile(str(self.folder / "link")).lock)

    def test_a_link_to_a_link(self) -> None:
        """If FILE is a link to a link, the search locks the file to which the links lead. The lock
        is in the folder of this file."""
        (self.folder / "far").mkdir()
        (self.folder / "far" / "link").symlink_to("../near")
        (self.folder / "near").symlink_to("mine.haul")
        haul_file = HaulFile(str(self.file))
        with self.assertRaisesRegex(CantUseFile, "^.*/far/link: another search keeps this file$"):
            HaulFile(str(self.folder / "far" / "link"))
        os.close(haul_file.lock)
        self.assertEqual(self.search("--until", "3", file="far/link", *QUICK)[0], 0)
        self.assertEqual(self.soups(), 3)
        self.assert_left("far", "mine.haul", "mine.haul.late", "mine.haul.lock", "near")
        self.assertEqual(os.listdir(self.folder / "far"), ["link"])

    def test_steps_of_a_replacement(self) -> None:
        """The new text is on disk before it gets the name of the file. Afterwards the folder is
        written to disk, too."""
        self.file.write_bytes(census("take", "--count", "3"))
        haul_file = HaulFile(str(self.file))
        haul = haul_file.read()
        assert haul is not None
        steps: list[str] = []
        replace, fsync = os.replace, os.fsync

        def noted_fsync(number: int) -> None:
            path = os.readlink(f"/proc/self/fd/{number}")
            steps.append(os.path.basename(path))
            if os.path.isfile(path):
                self.assertEqual(Path(path).read_bytes(), self.file.read_bytes())
            fsync(number)

        def noted_replace(old: str, new: str) -> None:
            steps.append("replace")
            replace(old, new)

        with patch("os.fsync", noted_fsync), patch("os.replace", noted_replace):
            haul_file.write(haul)
        self.assertEqual(steps, ["mine.haul.new", "replace", self.folder.name])
        self.assertEqual(self.file.read_bytes(), census("take", "--count", "3"))
        os.close(haul_file.lock)

    def test_a_change_while_the_file_is_written(self) -> None:
        """If another program changes FILE while the new text is written, FILE is left as it is."""
        haul_file = HaulFile(str(self.file))
        self.addCleanup(os.close, haul_file.lock)
        haul_file.write(haul_of_three())
        late = SideFile(haul_file.path, haul_file.name, "late", self.fail)

        def change() -> list[bytes]:
            self.file.write_text("other")
            return [b"late\n"]

        with self.assertRaises(Displaced):
            haul_file.write(haul_of_three(), [Beside(late, change, True)])
        self.assertEqual(self.file.read_text(), "other")
        self.assertFalse((self.folder / "mine.haul.new").exists())

    def test_rights_of_a_new_file(self) -> None:
        """Everyone may read and write a new file, unless the mask says otherwise."""
        mask = os.umask(0)
        try:
            haul_file = HaulFile(str(self.file))
            haul_file.write(haul_of_three())
        finally:
            os.umask(mask)
        for name in ("mine.haul", "mine.haul.lock"):
            self.assertEqual((self.folder / name).stat().st_mode & 0o777, 0o666, name)
        os.close(haul_file.lock)

    def test_a_folder_that_cant_be_synced(self) -> None:
        """Some file systems can't sync a folder and answer `EINVAL`, which isn't a fault. Any other
        error is a fault."""
        haul_file = HaulFile(str(self.file))
        fsync = os.fsync
        for number, is_fault in ((errno.EINVAL, False), (errno.EIO, True)):

            def refused(of: int, number: int = number) -> None:
                if os.path.isdir(os.readlink(f"/proc/self/fd/{of}")):
                    raise OSError(number, os.strerror(number))
                fsync(of)

            with patch("os.fsync", refused):
                if is_fault:
                    with self.assertRaises(OSError):
                        haul_file.write(haul_of_three())
                else:
                    haul_file.write(haul_of_three())
            self.assertEqual(self.file.read_bytes(), census("take", "--count", "3"))
        os.close(haul_file.lock)


def haul_of_three() -> Haul:
    return read_one_haul(io.BytesIO(census("take", "--count", "3")))


if __name__ == "__main__":
    unittest.main()
