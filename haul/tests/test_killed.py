"""However `haul` ends, everything that it has started ends, too, and no find is lost."""

from __future__ import annotations

import os
import random
import signal
import subprocess
import sys
import time
from pathlib import Path

from haul.tests.called import HAUL, census, run
from haul.tests.searching import CLOCK, Searches

# The 700 soups from 23000 on leave three finds.
WORDS = ["--seed=", "--first=23000", "--rarer=10000", "--until=700", "--late=never"]
FINDS = ["xs12_330f96", CLOCK, "xs20_3lkkl3z32w23"]
# The signals that tell a search to end at once, the call of the `--finds` program during which they
# come, and how many seconds after it has begun.
MOMENTS = (
    ([signal.SIGTERM], 1, 0.0),
    ([signal.SIGTERM], 3, 0.2),
    ([signal.SIGHUP], 2, 0.1),
    ([signal.SIGINT, signal.SIGINT], 1, 0.2),
    ([signal.SIGINT, signal.SIGINT], 3, 0.0),
)
# An invented haul of apgsearch. Its seeds make the soups of its samples.
APGSEARCH = """@VERSION v5.4-ll2.2
@MD5 5a105e8b9d40e1329780d62ea2265d8a
@ROOT k_abcdef
@RULE b3s23
@SYMMETRY C1
@NUM_SOUPS 10
@NUM_OBJECTS 3

@CENSUS TABLE
xs4_33 2
xp2_7 1

@SAMPLE_SOUPIDS
xs4_33 1 2
xp2_7 3
"""


class OpenCalls(Searches):
    """A find leaves FILE.finds only when its run of the `--finds` program has ended."""

    def read(self, name: str) -> list[str]:
        path = self.folder / name
        return path.read_text().split() if path.exists() else []

    def test_a_signal_during_each_call(self) -> None:
        """Whichever call a signal interrupts, at its beginning or later, the next search makes this
        call and the later ones, and no other."""
        slow = self.stub("echo $2 >> begun; sleep 0.6; echo $2 >> ended", "slow")
        quick = self.stub("echo $2 >> again", "quick")
        for numbers, call, seconds in MOMENTS:
            with self.subTest(numbers=numbers, call=call):
                for path in self.folder.glob("[!sq]*"):
                    path.unlink()
                with self.start(*WORDS, "--finds", slow) as search:
                    while len(self.read("begun")) < call:
                        time.sleep(0.01)
                    time.sleep(seconds)
                    for number in numbers:
                        search.send_signal(number)
                        time.sleep(0.05)
                    search.communicate(timeout=60)
                self.assertEqual(search.returncode, -numbers[-1])
                self.assertEqual(self.read("ended"), FINDS[: call - 1])
                self.search(*WORDS, "--finds", quick)
                self.assertEqual(self.read("again"), FINDS[call - 1 :])
                self.assertFalse((self.folder / "mine.haul.finds").exists())
        self.assert_nothing_runs()

    def test_a_kill_after_a_second(self) -> None:
        """What was reported more than a second before a kill isn't reported again."""
        program = self.stub('[[ $* == *first=23700* ]] && sleep 77; real "$@"')
        quick = self.stub("echo $2 >> said", "quick")
        words = [*WORDS[:3], "--late=never", "--batch=700", "--finds", quick]
        with self.start(*words, "--until=1400", program=program) as search:
            while len(self.read("said")) < len(FINDS):
                time.sleep(0.01)
            for _ in range(1000):
                if not (self.folder / "mine.haul.finds").exists():
                    break
                time.sleep(0.01)
            search.kill()
            search.communicate(timeout=60)
        self.assertEqual(self.search(*words, "--until=700"), (0, "", ""))
        self.assertEqual(self.read("said"), FINDS)
        self.assert_nothing_runs()

    def test_a_call_that_ends_with_the_search(self) -> None:
        """A program that has ended by itself isn't called again, even if it ends while the search
        does."""
        program = self.stub("echo $2 >> begun; kill -TERM $(cat search); sleep 0.01", "ends")
        with self.start(*WORDS, "--finds", program) as search:
            (self.folder / "search").write_text(str(search.pid))
            search.communicate(timeout=60)
        begun = self.read("begun")
        quick = self.stub("echo $2 >> again", "quick")
        self.search(*WORDS, "--finds", quick)
        self.assertEqual(sorted({*begun, *self.read("again")}), sorted(FINDS))
        self.assertLessEqual(len(begun) + len(self.read("again")), len(FINDS) + 1)


class Orphans(Searches):
    """Nothing is left running if `haul` is killed."""

    def fill(self, folder: Path) -> None:
        folder.mkdir()
        (folder / "haul").write_bytes(census("take", "--count=40"))
        (folder / "index").write_text(run("index", str(folder / "haul"))[1])
        (folder / "apgsearch").write_text(APGSEARCH)
        (folder / "lines").write_bytes(census("work", "--worker=1", "--count=4", "--limit=100"))
        (folder / "pattern").write_text(".O.\n..O\nOOO\n")
        # It starts a program in the background, which would outlive it, and another in a session of
        # its own.
        (folder / "census").write_text("#!/bin/sh\nsleep 77 &\nsetsid sleep 77 &\nsleep 77\n")
        (folder / "census").chmod(0o755)

    def test_each_command(self) -> None:
        """Kills each command that runs `census`, at drawn moments."""
        draw = random.Random("kill")
        commands = (
            ["check", "haul"],
            ["check", "index"],
            ["check", "--samples", "haul"],
            ["check", "--samples", "apgsearch"],
            ["check", "--totals", "apgsearch"],
            ["page", "haul"],
            ["soups", "--longest=3", "--exact", "lines"],
            ["soups", "--unsettled", "lines"],
            ["why", "lines"],
            ["why", "--pattern", "pattern"],
            ["search", "mine.haul"],
        )
        for place in range(len(commands)):
            self.fill(self.folder / str(place))
        for _ in range(5):
            running = [
                subprocess.Popen(
                    [sys.executable, HAUL, *words, "--census", "./census"],
                    cwd=self.folder / str(place),
                    stdin=subprocess.DEVNULL,
                    stdout=subprocess.DEVNULL,
                    stderr=subprocess.DEVNULL,
                )
                for place, words in enumerate(commands)
            ]
            time.sleep(0.3)
            for program in running:
                time.sleep(draw.uniform(0, 0.2))
                program.kill()
            for program in running:
                program.wait()
            self.assert_nothing_runs()

    def running_here(self) -> list[int]:
        """Returns the processes that run in the folder of the test or below it."""
        folder = self.folder.resolve()
        found = []
        for process in Path("/proc").glob("[0-9]*"):
            try:
                state = (process / "stat").read_text().rpartition(")")[2].split()[0]
                where = Path(os.readlink(process / "cwd"))
            except OSError:
                continue
            if state not in "ZX" and folder in (where, *where.parents):
                found.append(int(process.name))
        return found

    def test_a_program_that_stops_the_launcher(self) -> None:
        """If the program of `--finds` stops the launcher, both still end when `haul` is killed, or
        is told to end."""
        program = self.stub("kill -STOP $PPID; touch runs; sleep 77 & sleep 77", "stops")
        for number in (signal.SIGKILL, signal.SIGTERM):
            (self.folder / "runs").unlink(missing_ok=True)
            (self.folder / "mine.haul").unlink(missing_ok=True)
            with self.start(*WORDS, "--finds", program) as search:
                while not (self.folder / "runs").exists():
                    time.sleep(0.01)
                search.send_signal(number)
                search.communicate(timeout=60)
            self.assert_nothing_runs()
