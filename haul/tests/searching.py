"""Code that the tests of `haul search` share. It runs searches in a folder, and checks the files
and the processes that they leave."""

from __future__ import annotations

import os
import resource
import signal
import subprocess
import sys
import tempfile
import time
import unittest
from contextlib import suppress
from dataclasses import replace
from pathlib import Path
from typing import Any, TextIO

from haul.census.client import Census
from haul.census.command_lines import list_take_arguments
from haul.formats.haul import Haul
from haul.formats.haul_reader import read_one_haul
from haul.search.batches import Plan
from haul.search.haul_file import HaulFile
from haul.search.resume import SearchFiles
from haul.search.search import Search
from haul.search.side_file import SideFile
from haul.search.stopping import Stopping
from haul.search.unreported import Unreported
from haul.terminal import Terminal
from haul.tests.called import CENSUS, HAUL, as_haul, census

# A soup of the empty seed that leaves a clock, and the code of the clock. The first 100,000 soups
# leave two clocks.
CLOCK_SOUP, CLOCK = 23473, "xp2_2a54"
PLAN = Plan(next=0, until=None, batch_size=10, workers=1, finds=None, rarer=10_000)
# A profile under which a soup takes hardly any time.
QUICK = ["--period=1", "--horizon=1", "--stride=1", "--limit=0"]


def of_take(haul: Haul) -> bytes:
    """Returns what `census take` prints for the soups of a haul."""
    return census(*list_take_arguments(haul.job, haul.ranges, 4, False))


class Searches(unittest.TestCase):
    """The base class of tests of searches. Each test has a folder of its own."""

    def setUp(self) -> None:
        folder = tempfile.TemporaryDirectory(ignore_cleanup_errors=True)
        self.addCleanup(folder.cleanup)
        self.folder = Path(folder.name)
        self.file = self.folder / "mine.haul"

    # Whether SIGHUP is ignored in the searches.
    has_nohup = False

    def start(
        self,
        *words: str,
        program: str = CENSUS,
        file: str = "mine.haul",
        most_bytes: int | None = None,
        most_memory: int | None = None,
        is_forked: bool = False,
    ) -> subprocess.Popen[bytes]:
        """Starts a search in a session of its own. The search can't write a file that is longer
        than `most_bytes`, and each of its processes may use at most `most_memory` bytes. If
        `is_forked` is set, the search is forked from this process instead of starting Python."""
        words = ("search", *words, "--census", program, file)
        become = as_haul(*words)

        def prepare() -> None:
            # Tests that run in the background, or under `nohup`, ignore signals, and the program
            # would inherit that.
            signal.signal(signal.SIGINT, signal.SIG_DFL)
            signal.signal(signal.SIGHUP, signal.SIG_IGN if self.has_nohup else signal.SIG_DFL)
            if most_bytes is not None:
                resource.setrlimit(resource.RLIMIT_FSIZE, (most_bytes, most_bytes))
            if most_memory is not None:
                resource.setrlimit(resource.RLIMIT_AS, (most_memory, most_memory))
            if is_forked:
                become()

        return subprocess.Popen(
            [sys.executable, HAUL, *words],
            cwd=self.folder,
            stdin=subprocess.DEVNULL,
            stdout=subprocess.PIPE,
            stderr=subprocess.PIPE,
            start_new_session=True,
            preexec_fn=prepare,
        )

    def search(
        self,
        *words: str,
        program: str = CENSUS,
        file: str = "mine.haul",
        most_bytes: int | None = None,
    ) -> tuple[int, str, str]:
        """Runs a search. Returns its status and what it prints to standard output and standard
        error."""
        with self.start(
            *words, program=program, file=file, most_bytes=most_bytes, is_forked=most_bytes is None
        ) as running:
            output, errors = running.communicate(timeout=120)
        return running.returncode, output.decode(), errors.decode()

    def make_search(
        self,
        haul: Haul,
        stopping: Stopping | None = None,
        output: TextIO = sys.stdout,
        errors: TextIO | None = None,
        **plan: Any,
    ) -> Search:
        """Returns a search in this process that continues with a haul, keeps no late soups, and has
        no finds of an earlier search to report. `plan` has fields of its plan."""
        haul_file = HaulFile(str(self.file))
        self.addCleanup(os.close, haul_file.lock)
        client = Census(CENSUS, Terminal(errors or sys.stderr))
        late_file, finds_file = (
            SideFile(haul_file.path, haul_file.name, suffix, client.terminal.complain)
            for suffix in ("late", "finds")
        )
        files = SearchFiles(haul_file, haul, late_file, None, finds_file, Unreported(haul.job))
        return Search(replace(PLAN, **plan), files, client, stopping or Stopping(), output)

    def stub(self, script: str, name: str = "stub") -> str:
        """Writes a shell script and returns the path of the script. In the script, `real` replaces
        the shell by the census program."""
        path = self.folder / name
        path.write_text(f'#!/bin/bash\nreal() {{ exec "{CENSUS}" "$@"; }}\n{script}\n')
        path.chmod(0o755)
        return str(path)

    def haul(self) -> Haul:
        with self.file.open("rb") as file:
            return read_one_haul(file)

    def soups(self) -> int:
        """Returns the number of soups in the file."""
        return self.haul().soups if self.file.exists() else 0

    def wait_for(self, soups: int) -> None:
        """Waits until the file has at least `soups` soups."""
        for _ in range(3000):
            if self.soups() >= soups:
                return
            time.sleep(0.02)
        self.fail(f"the file has {self.soups()} soups")

    def assert_right(self) -> None:
        """Checks that the file is what `census take` prints for its soups."""
        self.assertEqual(self.file.read_bytes(), of_take(self.haul()))

    def assert_left(self, *names: str) -> None:
        """Checks that the folder has these files and no others."""
        self.assertEqual(sorted(os.listdir(self.folder)), sorted(names))

    def running_here(self) -> list[int]:
        """Returns the processes that run in the folder of the test."""
        found = []
        for process in Path("/proc").glob("[0-9]*"):
            with suppress(OSError):
                state = (process / "stat").read_text().rpartition(")")[2].split()[0]
                if state not in "ZX" and os.readlink(process / "cwd") == str(self.folder.resolve()):
                    found.append(int(process.name))
        return found

    def assert_nothing_runs(self) -> None:
        for _ in range(1000):
            if not self.running_here():
                return
            time.sleep(0.02)
        self.fail(f"left running: {self.running_here()}")
