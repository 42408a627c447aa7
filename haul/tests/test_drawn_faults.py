"""`haul search` with random faults. Whatever fails, FILE is a correct haul, no find is lost, a file
of another program isn't overwritten, and no process is left running."""

from __future__ import annotations

import errno
import os
import random
import signal
import subprocess
import sys
import time
from collections.abc import Sequence
from pathlib import Path
from unittest.mock import patch

from haul.census import background
from haul.tests.called import CENSUS, HAUL, TOP, census, run
from haul.tests.failing import failing_calls
from haul.tests.searching import CLOCK, Searches

# The 700 soups from 23000 on leave these three finds.
WORDS = ["--seed=", "--first=23000", "--rarer=10000", "--batch=350"]
FINDS = {"xs12_330f96", CLOCK, "xs20_3lkkl3z32w23"}
# The errors with which calls fail. `None` means that the process is killed instead.
ERRORS = (errno.EIO, errno.ENOSPC, errno.EMFILE, errno.ENOMEM, None, None, None)
# A search of two batches makes about `MOST_CALLS` calls that can fail. The share of the trials that
# reach the drawn call must be at least `SHARE_MADE`.
MOST_CALLS, SHARE_MADE = 220, 0.5


class DrawnFaults(Searches):
    def setUp(self) -> None:
        super().setUp()
        self.failed = self.folder / "failed"
        # A program for `--finds` that writes the code of each find to the file `said`.
        self.finder = self.stub('echo "$2" >> said', "finder")
        self.made = self.trials = 0

    def clear(self) -> None:
        for path in self.folder.glob("mine.haul*"):
            path.unlink()
        for name in ("failed", "said"):
            (self.folder / name).unlink(missing_ok=True)

    def wait_for_file(self, path: Path) -> None:
        for _ in range(6000):
            if path.exists():
                return
            time.sleep(0.01)
        self.fail(f"{path.name} isn't made")

    def count_trial(self) -> None:
        self.trials += 1
        self.made += self.failed.exists()

    def assert_most_are_made(self) -> None:
        self.assertGreaterEqual(self.made, self.trials * SHARE_MADE)

    def codes(self, output: str) -> set[str]:
        return {line.split("\t")[1] for line in output.splitlines()}

    def assert_ended(self, status: int | None, errors: str) -> None:
        """Checks that a search has succeeded, was killed, or has failed with status 4 or 5 and a
        line about the fault. Also checks that no process is left running."""
        self.assertIn(status, (0, 4, 5, -signal.SIGKILL), errors)
        self.assertNotIn("Traceback", errors)
        for line in errors.splitlines():
            self.assertTrue(line.startswith("haul: "), errors)
        self.assertTrue(errors or status not in (4, 5))
        self.assert_nothing_runs()

    def assert_complete(self, words: Sequence[str], output: str, errors: str) -> None:
        """Runs the search again. Then checks that each find has been printed. For each find, the
        program for finds must have been called, or a line must say why it wasn't."""
        if self.file.exists():
            self.assert_right()
        status, again, complaints = self.search(*words)
        self.assertEqual((status, complaints), (0, ""), errors)
        self.assertEqual(self.soups(), 700)
        self.assert_right()
        self.assertEqual(self.codes(output) | self.codes(again), FINDS, errors)
        said = set((self.folder / "said").read_text().split())
        refused = errors.count(f"haul: {self.finder}: ")
        self.assertGreaterEqual(len(said & FINDS) + refused, len(FINDS), errors)
        self.assertFalse((self.folder / "mine.haul.finds").exists())


class Calls(DrawnFaults):
    """Searches in which a call of the operating system fails, or this call and all later ones fail,
    or `haul` is killed when it makes the call."""

    def words(self) -> list[str]:
        return [*WORDS, "--until=700", "--finds", self.finder]

    def try_call(
        self, draw: random.Random, most: int, error: int | None, begins: Path | None = None
    ) -> None:
        number, is_single = draw.randint(1, most), draw.random() < 0.5
        with self.subTest(number=number, error=error, is_single=is_single):
            with failing_calls(number, error, is_single, self.failed, begins):
                status, output, errors = self.search(*self.words())
            self.count_trial()
            self.assert_ended(status, errors)
            self.assert_complete(self.words(), output, errors)

    def test_of_a_new_search(self) -> None:
        draw = random.Random("calls of a new search")
        for _ in range(6):
            self.clear()
            self.try_call(draw, MOST_CALLS, draw.choice(ERRORS))
        # `haul` is killed when FILE has just been made, and the finds aren't printed yet.
        for _ in range(4):
            self.clear()
            self.try_call(draw, 20, None, self.file)
        self.assert_most_are_made()

    def test_of_a_search_with_finds_that_were_not_told(self) -> None:
        """Calls fail in a search that reads, writes and removes FILE.finds."""
        draw = random.Random("calls with FILE.finds")
        with open("/dev/full", "wb") as full:
            words = [sys.executable, HAUL, "search", "--census", CENSUS, *WORDS, "--until=700"]
            ended = subprocess.run(
                [*words, "mine.haul"],
                cwd=self.folder,
                stdout=full,
                stderr=subprocess.PIPE,
                check=False,
            )
        self.assertEqual(ended.returncode, 5)
        kept = {path: path.read_bytes() for path in self.folder.glob("mine.haul*")}
        self.assertIn(self.folder / "mine.haul.finds", kept)
        for _ in range(6):
            self.clear()
            for path, data in kept.items():
                path.write_bytes(data)
            self.try_call(draw, 60, draw.choice(ERRORS))
        self.assert_most_are_made()

    def test_beside_a_file_of_another_program(self) -> None:
        """Another program changes FILE, so the search writes its haul to FILE.mine. If FILE.mine
        exists afterwards, it is a correct haul, even if `haul` was killed while writing it."""
        draw = random.Random("calls with FILE.mine")
        other, begins = census("take", "--seed=other", "--count=3"), self.folder / "begins"
        for _ in range(6):
            self.clear()
            begins.unlink(missing_ok=True)
            number, error, is_single = draw.randint(1, 40), draw.choice(ERRORS), draw.random() < 0.5
            with self.subTest(number=number, error=error, is_single=is_single):
                with failing_calls(number, error, is_single, self.failed, begins):
                    running = self.start("--seed=a", "--batch=10", "--late=0", is_forked=True)
                    self.wait_for(20)
                    begins.touch()
                    self.file.write_bytes(other)
                    _, errors = running.communicate(timeout=60)
                self.count_trial()
                self.assertIn(running.returncode, (5, -signal.SIGKILL))
                self.assert_ended(running.returncode, errors.decode())
                self.assertEqual(self.file.read_bytes(), other)
                self.assert_mine_is_right()
        self.assert_most_are_made()

    def assert_mine_is_right(self) -> None:
        """Checks that each FILE.mine is a correct haul."""
        for path in self.folder.glob("mine.haul.mine*"):
            if not path.name.endswith((".late", ".finds", ".new")):
                self.assertEqual(run("check", text=path.read_bytes())[1], "right\n")

    def test_files_that_cant_grow(self) -> None:
        """A limit on the size of files stands in for a full disk. Another program changes FILE
        during the search."""
        draw = random.Random("files")
        other = census("take", "--seed=other", "--count=3")
        for _ in range(3):
            self.clear()
            limit = draw.randint(len(other), 8000)
            running = self.start("--seed=a", "--batch=40", most_bytes=limit)
            self.wait_for(40)
            self.file.write_bytes(other)
            _, errors = running.communicate(timeout=60)
            self.assert_ended(running.returncode, errors.decode())
            self.assertEqual(running.returncode, 5)
            if b"changed by another program" in errors:
                self.assertEqual(self.file.read_bytes(), other)
            self.assert_mine_is_right()


class Memory(DrawnFaults):
    """`haul` and each program that it starts may use only a limited amount of memory."""

    def test_any_limit(self) -> None:
        draw = random.Random("memory")
        statuses = set()
        for _ in range(7):
            self.clear()
            megabytes = draw.randint(16, 120)
            with self.subTest(megabytes=megabytes):
                words = (*WORDS, "--until=700", "--finds", self.finder)
                running = self.start(*words, most_memory=megabytes * 2**20)
                output, errors = running.communicate(timeout=60)
                self.assert_ended(running.returncode, errors.decode())
                self.assert_complete(words, output.decode(), errors.decode())
                statuses.add(running.returncode)
        self.assertGreaterEqual(statuses, {0, 4})


class Descendants(DrawnFaults):
    """The program for finds starts processes in several ways, and a signal ends `haul`."""

    WAYS = (
        "setsid -f sleep 79.5 < /dev/null > /dev/null 2>&1",
        "(setsid sleep 79.5 &) & exit",
        "nohup sleep 79.5 > /dev/null 2>&1 &",
        "(trap '' TERM HUP; sleep 79.5) & disown",
        "setsid sh -c 'setsid sleep 79.5 & setsid sleep 79.5' &",
    )

    def test_none_is_left(self) -> None:
        draw = random.Random("descendants")
        for way in self.WAYS:
            self.clear()
            ends = draw.choice(["", "sleep 79.5"])
            number = draw.choice([signal.SIGKILL, signal.SIGTERM])
            program = self.stub("\n".join(["echo x >> said", way, ends]), "leaves")
            with self.subTest(way=way, ends=ends, number=number):
                running = self.start(*WORDS, "--until=700", "--finds", program, is_forked=True)
                self.wait_for_file(self.folder / "said")
                time.sleep(draw.uniform(0, 0.1))
                running.send_signal(number)
                running.communicate(timeout=60)
                self.assert_nothing_runs()
                self.assert_right()


class Floods(DrawnFaults):
    """A census program prints more than it may, or exactly as much as it may."""

    def test_at_the_limit(self) -> None:
        draw = random.Random("floods")
        for stream, redirection in (("output", ""), ("error", ">&2")):
            for more in (0, 1, draw.randint(2, 10_000)):
                limit = draw.randint(2_000, 100_000)
                prints = f"head -c {limit + more} /dev/zero | tr '\\0' x {redirection}"
                program = self.stub(f'[ "$1" = --version ] && real "$@"; {prints}; exit 5', "flood")
                with self.subTest(stream=stream, limit=limit, more=more), patch.multiple(
                    background, MOST_COMPLAINED=limit, BYTES_OF_A_SOUP=0, MOST_PRINTED=limit
                ), patch.object(background.BackgroundProgram, "most_complained", limit):
                    status, _, errors = self.search("--until=20", program=program)
                flood = f"haul: census wrote too much to its standard {stream}\n"
                if more:
                    self.assertEqual((status, errors), (5, flood))
                else:
                    self.assertEqual(status, 5)
                    self.assertNotEqual(errors, flood)
                self.assert_nothing_runs()
                self.assertFalse(self.file.exists())


class Threads(DrawnFaults):
    """The thread that does the work begins late, and a signal comes at any time."""

    SCRIPT = (
        "import sys, time, _thread\nseconds = float(sys.argv.pop(1))\n"
        "start = _thread.start_new_thread\n"
        "def start_late(do, words):\n"
        "    def do_late():\n        time.sleep(seconds)\n        do()\n"
        "    open('begins', 'w').close()\n"
        "    return start(do_late, words)\n"
        "_thread.start_new_thread = start_late\n"
        "from haul.cli.process import main\nmain()\n"
    )

    def start_late(self, seconds: float) -> subprocess.Popen[bytes]:
        words = ["search", "--census", CENSUS, "--seed=a", "--batch=20", str(self.file)]
        return subprocess.Popen(
            [sys.executable, "-c", self.SCRIPT, str(seconds), *words],
            cwd=self.folder,
            env={**os.environ, "PYTHONPATH": str(TOP)},
            stdin=subprocess.DEVNULL,
            stdout=subprocess.PIPE,
            stderr=subprocess.PIPE,
            # Tests that run under `nohup` ignore this signal, and the program would inherit that.
            preexec_fn=lambda: signal.signal(signal.SIGHUP, signal.SIG_DFL),
        )

    def test_a_signal_at_any_time(self) -> None:
        draw = random.Random("threads")
        begins = self.folder / "begins"
        # In the first trial, the signal comes before the thread begins.
        times = [(1.0, 0.0), *((draw.uniform(0, 0.3), draw.uniform(0, 0.6)) for _ in range(3))]
        for late, before in times:
            self.clear()
            begins.unlink(missing_ok=True)
            number = draw.choice([signal.SIGTERM, signal.SIGHUP])
            with self.subTest(late=late, before=before, number=number):
                running = self.start_late(late)
                self.wait_for_file(begins)
                time.sleep(before)
                running.send_signal(number)
                _, errors = running.communicate(timeout=60)
                self.assertEqual((running.returncode, errors), (-number, b""))
                self.assert_nothing_runs()
                if self.file.exists():
                    self.assert_right()
