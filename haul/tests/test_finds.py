"""Finds: which parts a search reports, how it reports them, and the calls of the `--finds` program.
Also the status line, and when the file is written."""

from __future__ import annotations

import io
import os
import pty
import signal
import subprocess
import sys
import time
import unittest
from collections import deque
from contextlib import redirect_stderr, suppress
from fcntl import ioctl
from struct import pack
from termios import TIOCSWINSZ
from unittest.mock import Mock, patch

from haul.census.background import StreamWaiter
from haul.census.children import list_starter_words
from haul.census.command_lines import format_find_command
from haul.census.launcher import FIND
from haul.formats.haul import Haul, Job
from haul.formats.haul_reader import read_one_haul
from haul.formats.profile import STANDARD, Profile
from haul.life.generations import read_rule
from haul.life.parts import Separator
from haul.rarity.reference import SOUPS, find_occurrence, load_reference
from haul.search.batches import Batch, Taken
from haul.search.finds import Find, Finder, Unread, list_common_parts
from haul.search.finds_program import FindsProgram
from haul.search.haul_file import Beside
from haul.search.search import Dropped
from haul.search.status_line import Status, StatusLine, format_duration, format_short
from haul.search.stopping import Stopping
from haul.terminal import Terminal
from haul.tests.called import CENSUS, HAUL, TOP, census
from haul.tests.made import make_haul
from haul.tests.searching import CLOCK, CLOCK_SOUP, Searches

LIFE, OTHER_RULE, OTHER_PROFILE = (
    Job("a", "b3s23", STANDARD),
    Job("a", "b36s23", STANDARD),
    Job("a", "b3s23", Profile(4, 8, 10, 30)),
)
# The bi-block is two blocks. Under Life the bipole isn't common, but blinkers and blocks are.
RARER = 10_000
RARE = [f"--rarer={RARER}"]
BIPOLE, BLINKER, BLOCK, BI_BLOCK = "xp2_31ago", "xp2_7", "xs4_33", "xs8_rr"


def haul_of(job: Job, *codes: str) -> Haul:
    return make_haul(
        {code: 1 for code in sorted(codes)},
        [(0, 100)] if codes else [],
        job=job,
        soups=100 if codes else 0,
        samples={code: [0] for code in sorted(codes)},
    )


def found(finder: Finder, *batches: list[tuple[str, int]]) -> list[Find]:
    """Returns the finds that are reported after these batches."""
    for batch in batches:
        finder.add(batch)
    finds: list[Find] = []
    while not finder.is_done():
        finds += finder.step()
    return finds


class Common(unittest.TestCase):
    def test_the_limit(self) -> None:
        """A part is common if at least one in `rarer` soups of the reference has it."""
        reference = load_reference()
        for rarer, some in ((10_000, 37), (1_000_000, 100), (SOUPS, 971)):
            common = list_common_parts(rarer)
            self.assertGreaterEqual(len(common), some)
            for code, entry in reference.items():
                self.assertEqual(code in common, entry.soups >= SOUPS / rarer)
        self.assertEqual(list_common_parts(1), frozenset())

    def test_rarity(self) -> None:
        """Under Life with the standard profile, the sixth field is the rarity in the reference.
        Otherwise it is `-`."""
        self.assertEqual(Find(BIPOLE, 1).fields(LIFE)[5], find_occurrence(BIPOLE).describe())
        self.assertEqual(Find("xs99_0", 1).fields(LIFE)[5], "none in 100000000")
        for job in (OTHER_PROFILE, OTHER_RULE):
            self.assertEqual(Find(BIPOLE, 1).fields(job)[5], "-")


class Finds(unittest.TestCase):
    def test_what_is_common(self) -> None:
        self.assertEqual(
            found(Finder(LIFE, haul_of(LIFE), RARER), [(BLOCK, 5), (BIPOLE, 6), (BI_BLOCK, 1)]),
            [Find(BIPOLE, 6)],
        )

    def test_it_is_told_once(self) -> None:
        self.assertEqual(
            found(
                Finder(LIFE, haul_of(LIFE), RARER), [(BIPOLE, 9), (BLOCK, 3)], [], [(BIPOLE, 10)]
            ),
            [Find(BIPOLE, 9)],
        )

    def test_in_the_order_of_soups(self) -> None:
        self.assertEqual(
            found(
                Finder(OTHER_RULE, haul_of(OTHER_RULE, BI_BLOCK), RARER),
                [(BLINKER, 9), ("xs6_696", 3), (BLOCK, 1)],
            ),
            [Find("xs6_696", 3), Find(BLINKER, 9)],
        )

    def test_parts_of_objects_that_were_there(self) -> None:
        """A blinker isn't a find if the file already has a blinker, or has a traffic light, which
        has blinkers as parts."""
        for there in ("xp2_s01110szw222", BLINKER):
            finder = Finder(OTHER_RULE, haul_of(OTHER_RULE, BLOCK, there), RARER)
            self.assertEqual(
                found(finder, [(BLINKER, 9), ("xs6_696", 10)], [(BLINKER, 11)]),
                [Find("xs6_696", 10)],
            )

    def test_a_new_object_of_known_parts(self) -> None:
        self.assertEqual(
            found(Finder(OTHER_RULE, haul_of(OTHER_RULE, BLOCK), RARER), [(BI_BLOCK, 9)]), []
        )

    def test_parts_of_a_new_object(self) -> None:
        """The soup of a find is the lowest soup that left the part."""
        finder = Finder(OTHER_RULE, haul_of(OTHER_RULE, "xs6_696"), RARER)
        self.assertEqual(
            found(finder, [(BI_BLOCK, 9), (BLOCK, 20)], [(BLOCK, 30)]), [Find(BLOCK, 9)]
        )

    def test_the_part_that_begins_a_haul(self) -> None:
        """Under a rule other than Life, or a profile other than the standard one, the finds of the
        first batch aren't reported. In later batches, the parts of the first batch are known."""
        for job, finds in ((LIFE, [Find(BIPOLE, 5)]), (OTHER_RULE, []), (OTHER_PROFILE, [])):
            finder = Finder(job, haul_of(job), RARER)
            self.assertEqual(found(finder, [(BIPOLE, 5)]), finds)
            self.assertEqual(
                found(finder, [(BIPOLE, 9), ("xp3_695qc8zx33", 11)]), [Find("xp3_695qc8zx33", 11)]
            )

    def test_a_haul_without_objects(self) -> None:
        """The haul has soups but no objects. These soups count as the first batch, so the finds of
        the next batch are reported."""
        self.assertEqual(
            found(
                Finder(
                    OTHER_PROFILE,
                    make_haul(ranges=[(0, 9)], job=OTHER_PROFILE, unsettled=9),
                    RARER,
                ),
                [(BIPOLE, 9)],
            ),
            [Find(BIPOLE, 9)],
        )

    def test_what_is_common_under_another_profile(self) -> None:
        self.assertEqual(
            found(
                Finder(OTHER_PROFILE, haul_of(OTHER_PROFILE, BIPOLE), RARER),
                [(BLOCK, 100), (BI_BLOCK, 101)],
            ),
            [],
        )

    def test_objects_are_separated_only_if_need_be(self) -> None:
        finder = Finder(LIFE, haul_of(LIFE, BIPOLE, "xp2_s01110szw222", BI_BLOCK), RARER)
        with patch.object(
            finder.separator, "separate", wraps=finder.separator.separate
        ) as separated:
            self.assertEqual(found(finder, [(BIPOLE, 200), (BLOCK, 201)]), [])
            self.assertEqual(separated.call_count, 2)
            # An oscillator of period 3 can't be a part of any of the three objects in the file. A
            # still life of seven cells may be a part of each of them.
            self.assertEqual(found(finder, [("xp3_695qc8zx33", 11)]), [Find("xp3_695qc8zx33", 11)])
            self.assertEqual(separated.call_count, 3)
            finder.add([("xs7_2552", 11)])
            self.assertEqual(finder.left(), 1)
            self.assertEqual(finder.step(), [])
            self.assertEqual(finder.left(), 2)
            self.assertEqual(found(finder), [Find("xs7_2552", 11)])
            self.assertEqual(separated.call_count, 7)

    def test_how_many_are_left(self) -> None:
        """Objects of the file are counted only after the objects of the batch are separated."""
        finder = Finder(LIFE, haul_of(LIFE, BI_BLOCK), RARER)
        self.assertEqual(finder.left(), 0)
        finder.add([("xs7_2552", 11), (BIPOLE, 12)])
        self.assertEqual(finder.left(), 2)
        self.assertEqual(finder.step(), [])
        self.assertEqual(finder.left(), 1)

    def test_which_objects_can_have_a_part(self) -> None:
        """`Unread.holders` finds an object with several parts by each of these parts. The test
        tries all such objects of 100,000 soups, and further pairs of kinds."""
        with open(TOP / "examples" / "100000.haul", "rb") as file:
            haul = read_one_haul(file)
        separator = Separator(read_rule("b3s23"))
        several = 0
        for code in haul.totals:
            parts = separator.separate(code).parts
            for part in parts if len(parts) > 1 else ():
                self.assertEqual(Unread([code]).holders([part]), [{code}])
                several += 1
        self.assertGreater(several, 4000)
        for whole, part, can in (
            ("xs8_0", "xs7_0", True),
            ("xs8_0", "xs8_1", False),
            ("xs8_0", "xp2_0", False),
            ("xp4_0", "xs99_0", True),
            ("xp4_0", "xp2_0", True),
            ("xp4_0", "xp4_1", True),
            ("xp4_0", "xp3_0", False),
            ("xp4_0", "xq4_0", False),
            ("xq4_0", "xq4_1", True),
            ("xq8_0", "xq4_0", True),
            ("xq4_0", "xs4_0", False),
            ("xq4_0", "xp2_0", False),
            ("what", "xs4_0", False),
            ("xs4_0", "what", False),
        ):
            self.assertEqual(Unread([whole]).holding([part]), int(can), (whole, part))
        unread = Unread(["xs4_33", "what"])
        self.assertTrue(
            "xs4_33" in unread
            and "what" in unread
            and "xs4_0" not in unread
            and "xp2_7" not in unread
        )

    def test_what_is_remembered_is_bounded(self) -> None:
        with patch("haul.search.finds.MOST_KNOWN", 3):
            finder = Finder(LIFE, haul_of(LIFE), RARER)
            self.assertEqual(
                len(
                    found(
                        finder,
                        [
                            (code, 1)
                            for code in (BIPOLE, "xp3_695qc8zx33", "xs8_rr", "xs6_696", "xp2_318c")
                            + ("xs8_330oo", "xs10_25520oo", "xp2_33ws")
                        ],
                    )
                ),
                2,
            )
            self.assertLessEqual(finder.separator.count_known(), 6)


class Fields(Searches):
    def test_fields(self) -> None:
        time_, *fields = Find(BIPOLE, 17).fields(LIFE)
        self.assertRegex(time_, r"^\d{4}-\d\d-\d\dT\d\d:\d\d:\d\dZ$")
        self.assertEqual(
            fields,
            [
                BIPOLE,
                "bipole",
                "17",
                "census soup --seed a 17 | census name --rule b3s23",
                find_occurrence(BIPOLE).describe(),
            ],
        )
        self.assertEqual(Find("xs99_0", 1).fields(LIFE)[2], "still life of 99 cells")

    def test_commands_are_for_a_shell(self) -> None:
        """The command of a find, run by a shell, prints what its soup leaves."""
        (self.folder / "census").symlink_to(CENSUS)
        for seed in ("", "a", "-a", "a'b", "$(x)", '`x`;"\\'):
            for job, words in (
                (Job(seed, "b3s23", STANDARD), ""),
                (
                    Job(seed, "b36s23", Profile(4, 8, 10, 300)),
                    "--rule=b36s23 --period=4 --horizon=8 --stride=10 --limit=300",
                ),
            ):
                shown = subprocess.run(
                    ["bash", "-c", format_find_command(job, 7)],
                    env=os.environ | {"PATH": f"{self.folder}:{os.environ['PATH']}"},
                    capture_output=True,
                    check=True,
                )
                soup = census("soup", f"--seed={seed}", "7")
                self.assertEqual(
                    shown.stdout,
                    subprocess.run(
                        [CENSUS, "name", *words.split()],
                        input=soup,
                        capture_output=True,
                        check=True,
                    ).stdout,
                )

    def test_a_search_tells_them(self) -> None:
        words = ["--seed=", "--first", str(CLOCK_SOUP - 20), "--batch", "10", *RARE]
        self.assertEqual(self.search(*words, "--until", "20"), (0, "", ""))
        status, output, errors = self.search("--until", "40", "--batch", "10", *RARE)
        time_, *fields = output.removesuffix("\n").split("\t")
        self.assertEqual(
            (status, errors, fields),
            (
                0,
                "",
                [
                    CLOCK,
                    "clock",
                    str(CLOCK_SOUP),
                    f"census soup --seed '' {CLOCK_SOUP} | census name --rule b3s23",
                    find_occurrence(CLOCK).describe(),
                ],
            ),
        )
        self.assertLess(
            abs(
                time.time()
                - time.mktime(time.strptime(time_, "%Y-%m-%dT%H:%M:%SZ"))
                + time.timezone
            ),
            60,
        )

    def test_rarer_needs_life(self) -> None:
        words = [*RARE, "--rule=b36s23", "--until=1"]
        told = "haul: mine.haul: --rarer needs Life, since the reference has no soups of b36s23\n"
        self.assertEqual(self.search(*words), (3, "", told))
        self.assertFalse(self.file.exists())

    def test_it_is_told_after_it_is_in_the_file(self) -> None:
        with self.start("--seed=", "--first", str(CLOCK_SOUP), "--until", "1", *RARE) as program:
            assert program.stdout
            self.assertIn(CLOCK, program.stdout.readline().decode())
            self.assertIn(CLOCK, self.haul().totals)
            program.communicate(timeout=60)

    def test_it_is_not_told_if_it_is_not_in_the_file(self) -> None:
        words = ["--seed=", "--first", str(CLOCK_SOUP), "--until", "1", *RARE]
        self.assertEqual(
            self.search(*words, most_bytes=100), (5, "", "haul: mine.haul.new: File too large\n")
        )
        self.assert_left("mine.haul.lock")


class Calls(Searches):
    """Tests the calls of the `--finds` program."""

    ONE = ["--seed=", "--first", str(CLOCK_SOUP), "--until", "1", *RARE]

    def test_its_arguments(self) -> None:
        program = self.stub('for word; do echo "$word" >> said; done')
        status, output, errors = self.search(*self.ONE, "--finds", program)
        self.assertEqual((status, errors), (0, ""))
        self.assertEqual(
            (self.folder / "said").read_text().splitlines(), output.strip("\n").split("\t")
        )

    def test_it_is_called_for_each(self) -> None:
        """The program is called for each find, one call at a time. Under this rule there are many
        finds."""
        program = self.stub(
            '[[ ! -e runs ]] || echo two >> said; touch runs; sleep 0.05; rm runs; echo "$2" >> said'
        )
        self.search("--seed=a", "--rule=b36s23", "--until", "10", "--batch", "10")
        status, output, _ = self.search("--until", "60", "--finds", program)
        self.assertEqual(status, 0)
        codes = [line.split("\t")[1] for line in output.splitlines()]
        self.assertGreater(len(codes), 1)
        self.assertEqual((self.folder / "said").read_text().splitlines(), codes)

    def test_its_streams_are_closed(self) -> None:
        program = self.stub(
            "ls /proc/self/fd > /dev/null; [[ ! -e /proc/$$/fd/0 && ! -e /proc/$$/fd/1 ]] && touch closed; echo told >&2"
        )
        status, output, errors = self.search(*self.ONE, "--finds", program)
        self.assertEqual((status, len(output.splitlines()), errors), (0, 1, "told\n"))
        self.assertTrue((self.folder / "closed").exists())

    def test_it_fails(self) -> None:
        """If a call fails, a single line says why."""
        for name, line in (
            (self.stub("exit 1"), "ended with status 1"),
            (self.stub("kill -9 $$", "dies"), "was ended by signal 9"),
            ("./nowhere", "No such file or directory"),
            (str(self.folder), "Permission denied"),
        ):
            self.file.unlink(missing_ok=True)
            status, output, errors = self.search(*self.ONE, "--finds", name)
            self.assertEqual(
                (status, len(output.splitlines()), errors), (0, 1, f"haul: {name}: {line}\n")
            )
            self.assert_right()

    def test_it_cant_be_started(self) -> None:
        """If a call can't be started, the message has the system's reason, if there is one. Then
        the next call is made."""
        said: list[str] = []
        calls = FindsProgram(StreamWaiter(), "program", said.append)
        calls.add(["a"])
        calls.add(["b"])
        with patch(
            "haul.search.finds_program.BackgroundProgram",
            side_effect=[OSError(24, "Too many open files"), OSError()],
        ):
            calls.step()
            calls.step()
        self.assertEqual(
            (said, calls.is_done()),
            (["program: Too many open files", "program: can't be started"], True),
        )

    def test_what_is_left_is_told(self) -> None:
        """A line says what remains to be done if reporting takes over five seconds."""
        program = self.stub("sleep 5.5; touch done")
        self.assertEqual(
            self.search(*self.ONE, "--finds", program)[::2],
            (0, f"haul: finds are still told: 1 call of {program}; Ctrl-C twice stops that\n"),
        )
        self.assertTrue((self.folder / "done").exists())

    def test_what_it_leaves_running(self) -> None:
        """Processes that the program leaves running are killed, even if they ignore signals."""
        self.search(
            *self.ONE, "--finds", self.stub("trap '' HUP INT USR1 TERM; sleep 1000 & exit 0")
        )
        self.assert_nothing_runs()

    def test_it_takes_long(self) -> None:
        """A call that takes too long is ended, and the next call is made."""
        said: list[str] = []
        calls = FindsProgram(
            StreamWaiter(),
            self.stub(
                f"cd {self.folder}; echo $1 >> said; [[ $1 == b ]] || {{ sleep 1000 & sleep 1000; }}"
            ),
            said.append,
        )
        for word in "ab":
            calls.add([word])
        with patch("haul.search.finds_program.MOST_SECONDS", 4.0):
            began = time.monotonic()
            while not calls.is_done():
                calls.step()
                calls.waiter.wait(0.02)
        self.assertEqual(said, [f"{calls.program}: ended after 4 seconds"])
        self.assertGreaterEqual(time.monotonic() - began, 4)
        self.assertEqual((self.folder / "said").read_text().split(), ["a", "b"])
        self.assert_nothing_runs()

    def test_an_interrupt_before_it_has_its_session(self) -> None:
        """A Ctrl-C for `haul` that comes before the program has its own session is dropped. After
        that, SIGINT ends the program as usual."""

        def interrupted() -> None:
            signal.signal(signal.SIGINT, signal.SIG_DFL)
            signal.pthread_sigmask(signal.SIG_BLOCK, {signal.SIGINT})
            os.kill(os.getpid(), signal.SIGINT)

        program = self.stub("echo $1 >> said; kill -INT $$; echo late >> said")
        ended = subprocess.run(
            [*list_starter_words(FIND), program, "once"],
            cwd=self.folder,
            stdout=subprocess.PIPE,
            check=False,
            start_new_session=True,
            preexec_fn=interrupted,
        )
        self.assertEqual(
            (ended.stdout, (self.folder / "said").read_text()),
            (b"was ended by signal 2\n", "once\n"),
        )

    def test_how_long_it_may_take(self) -> None:
        """A call may take a minute, according to a clock that the test sets."""
        said: list[str] = []
        calls = FindsProgram(StreamWaiter(), self.stub("sleep 1000"), said.append)
        calls.add([])
        with patch(
            "haul.search.finds_program.time",
            Mock(monotonic=Mock(side_effect=[1000.0, 1059.9, 1060.0])),
        ):
            calls.step()
            calls.step()
            self.assertEqual((said, calls.is_done()), ([], False))
            calls.step()
        self.assertEqual(
            (said, calls.is_done()), ([f"{calls.program}: ended after 60 seconds"], True)
        )
        self.assert_nothing_runs()

    def test_signals_while_it_runs(self) -> None:
        """The first Ctrl-C doesn't end the program. A second Ctrl-C ends it, and so does a signal
        that ends `haul`."""
        program = self.stub("touch runs; sleep 1000 & sleep 1000")
        for numbers in ([signal.SIGINT, signal.SIGINT], [signal.SIGTERM], [signal.SIGKILL]):
            for name in ("runs", "mine.haul"):
                (self.folder / name).unlink(missing_ok=True)
            with self.start(*self.ONE, "--finds", program) as search:
                while not (self.folder / "runs").exists():
                    time.sleep(0.02)
                for number in numbers:
                    self.assertIsNone(search.poll())
                    os.killpg(search.pid, number)
                    time.sleep(0.3)
                errors = search.communicate(timeout=60)[1].decode()
            self.assertEqual(search.returncode, -numbers[-1])
            self.assertEqual(
                errors,
                {
                    signal.SIGINT: f"haul: finds are still told: 1 call of {program}; Ctrl-C again stops that\nhaul: not all finds are told: 1 call of {program}\n",
                    signal.SIGTERM: f"haul: not all finds are told: 1 call of {program}\n",
                    signal.SIGKILL: "",
                }[numbers[-1]],
            )
            self.assert_nothing_runs()
            self.assert_right()


class StatusLines(Searches):
    """Tests the status line."""

    STATUS = Status(1234567, 20000, 30, 4, 1, 10.0, 40000)

    def test_text(self) -> None:
        self.assertEqual(
            self.STATUS.text(),
            "1,234,567 soups, 2,000 per second, 30 objects, 4 codes, 1 find, running for 0:00:10, 0:00:20 left",
        )
        self.assertEqual(
            Status(1, 0, 1, 1, 0, 0.0, 5).text(),
            "1 soup, 0 per second, 1 object, 1 code, 0 finds, running for 0:00:00, ? left",
        )
        self.assertEqual(
            Status(10, 10, 1, 1, 0, 10.0, 5).text(),
            "10 soups, 1 per second, 1 object, 1 code, 0 finds, running for 0:00:10, 0:00:05 left",
        )
        self.assertTrue(Status(1, 0, 1, 1, 0, 0.0, None).text().endswith("running for 0:00:00"))

    def test_a_search_that_goes_on(self) -> None:
        """The rate counts only the soups that this search has run."""
        with patch("time.monotonic", return_value=1000.0) as now:
            search = self.make_search(
                haul_of(LIFE, BLOCK, BIPOLE), next=100, until=200, batch_size=30
            )
            haul = make_haul(
                {BLINKER: 7, BLOCK: 1},
                [(100, 30)],
                job=LIFE,
                samples={BLINKER: [100], BLOCK: [101]},
            )
            search.add(Taken(haul, None))
            running = Batch(130, 30, Mock(**{"soups.return_value": 10}), 1)
            search.batches.queue.append(running)
            now.return_value = 1010.0
            self.assertEqual(search.status(), Status(140, 40, 10, 3, 0, 10.0, 60))
            search.batches.queue.clear()
            self.assertEqual(search.status(), Status(130, 30, 10, 3, 0, 10.0, 70))

    def test_a_search_with_more_than_is_asked_for(self) -> None:
        search = self.make_search(haul_of(LIFE, BLOCK), next=100, until=50, batch_size=30)
        self.assertEqual(search.status().left, 0)

    def test_when_the_batch_ends(self) -> None:
        """The time to the end of the batch is estimated from the rate of the search, unless the
        rate is 0."""
        said = io.StringIO()
        with patch("time.monotonic", return_value=1000.0) as now:
            search = self.make_search(haul_of(LIFE), errors=said, batch_size=30)
            now.return_value = 1010.0
            for soups, when in ((0, ""), (1, ", in about 0:04:50"), (10, ", in about 0:00:20")):
                running = Batch(0, 30, Mock(**{"soups.return_value": soups}), 1)
                search.batches.queue = deque([running])
                said.truncate(0)
                said.seek(0)
                search.say_that_it_finishes()
                self.assertEqual(
                    said.getvalue(),
                    f"haul: stops after this batch{when}; Ctrl-C again drops the batch\n",
                )

    def test_durations(self) -> None:
        for seconds, text in (
            (0.9, "0:00:00"),
            (59, "0:00:59"),
            (3600 + 62, "1:01:02"),
            (86400, "24:00:00"),
            (10**6, "277:46:40"),
        ):
            self.assertEqual(format_duration(seconds), text)

    def test_short_numbers(self) -> None:
        for number, text in (
            (0, "0"),
            (999, "999"),
            (1000, "1k"),
            (12345, "12.3k"),
            (999499, "999k"),
            (999500, "1M"),
            (10**6, "1M"),
            (12345678901, "12.3G"),
            (2**63, "9.22E"),
        ):
            self.assertEqual(format_short(number), text)
        week = Status(12345678901, 12000000000, 250123456789, 1234567, 123, 626400.0, 10**9)
        self.assertEqual(
            week.short_text(),
            "12.3G soups 19.2k/s 250G objects 1.23M codes 123 finds 174:00:00 14:30:00 left",
        )

    def test_a_line_per_minute(self) -> None:
        with patch("time.monotonic", return_value=100.0) as now, redirect_stderr(
            io.StringIO()
        ) as said:
            line = StatusLine(Terminal(sys.stderr))
            self.assertEqual((line.is_due(), line.seconds_left()), (False, 60.0))
            now.return_value = 160.0
            self.assertTrue(line.is_due())
            line.show(self.STATUS)
            self.assertFalse(line.is_due())
        self.assertEqual(said.getvalue(), f"haul: {self.STATUS.text()}\n")

    def shown(self, status: Status, columns: int) -> str:
        """Returns what is shown on a terminal with `columns` columns. 0 means that the terminal
        doesn't say how many it has."""
        ours, its = pty.openpty()
        ioctl(its, TIOCSWINSZ, pack("HHHH", 0, columns, 0, 0))
        with open(its, "w") as errors:
            StatusLine(Terminal(errors)).show(status)
            said = os.read(ours, 65536).decode()
        os.close(ours)
        self.assertTrue(said.startswith("\r\x1b[K"))
        return said.removeprefix("\r\x1b[K")

    def test_where_a_line_is_short(self) -> None:
        """The short line is shown if the long one would fill the terminal. The short line is cut if
        necessary."""
        by_length = {
            len(status.text()): status
            for status in (
                Status(10**size, 0, 10**other, 1, 0, 0.0, None)
                for size in range(9)
                for other in range(9)
            )
        }
        # A terminal that doesn't say its width is taken to have 80 columns.
        for columns in (0, 80):
            self.assertEqual(self.shown(by_length[79], columns), by_length[79].text())
            self.assertEqual(self.shown(by_length[80], columns), by_length[80].short_text())
        with patch("os.get_terminal_size", side_effect=OSError):
            self.assertEqual(self.shown(by_length[79], 100), by_length[79].text())
            self.assertEqual(self.shown(by_length[80], 100), by_length[80].short_text())
        self.assertEqual(self.shown(self.STATUS, 20), self.STATUS.short_text()[:19])

    def test_a_line_per_second(self) -> None:
        """On a terminal, the line is updated every second."""
        ours, its = pty.openpty()
        with open(its, "w") as errors, patch("sys.stderr", errors), patch(
            "time.monotonic", return_value=100.0
        ) as now:
            line = StatusLine(Terminal(sys.stderr))
            for at, is_due, left in (
                (100.0, False, 1.0),
                (100.75, False, 0.25),
                (101.0, True, 0.0),
                (102.0, True, 0.0),
            ):
                now.return_value = at
                self.assertEqual((line.is_due(), line.seconds_left()), (is_due, left))
            line.show(self.STATUS)
            self.assertEqual((line.is_due(), line.seconds_left()), (False, 1.0))
        os.close(ours)

    def test_on_a_terminal(self) -> None:
        """On a terminal, a single line is updated in place, no wider than the terminal, and erased
        at the end."""
        ours, its = pty.openpty()
        program = self.stub('sleep 0.1; real "$@"')
        with subprocess.Popen(
            [
                sys.executable,
                HAUL,
                "search",
                "--seed=a",
                "--limit=500",
                "--until=150",
                "--batch=10",
                "--workers=4",
                "--census",
                program,
                "mine.haul",
            ],
            cwd=self.folder,
            stdin=subprocess.DEVNULL,
            stdout=subprocess.DEVNULL,
            stderr=its,
        ):
            os.close(its)
            said = b""
            with suppress(OSError):
                while piece := os.read(ours, 65536):
                    said += piece
        os.close(ours)
        *lines, last = said.decode().split("\r\x1b[K")
        self.assertRegex(last, r"^(haul: .* no fate yet; to find out: .*\.late\r\n)?$")
        lines = [line for line in lines if line]
        self.assertGreater(len(lines), 0)
        for line in lines:
            self.assertLessEqual(len(line), 79)
            self.assertRegex(
                line,
                r"^\d[\d.k]* soups \d[\d.k]*/s \d[\d.k]* objects \d+ codes \d+ finds? 0:00:\d\d 0:00:\d\d left$",
            )


class Pace(Searches):
    """Tests when the file is written."""

    def test_a_fiftieth_of_the_time(self) -> None:
        with patch("time.monotonic", return_value=1000.0) as now:
            search = self.make_search(haul_of(LIFE))
            self.assertTrue(search.may_keep())
            search.writing, search.latest_writing = 1.0, 1.0
            for at, may in ((1099.0, False), (1100.0, True)):
                now.return_value = at
                self.assertEqual(search.may_keep(), may)
            # Writing must begin early enough to end within ten minutes after the file was last
            # written.
            search.writing, search.unkept, search.kept_at = 500.0, [(0, [])], 1200.0
            for at, must in ((1798.9, False), (1799.0, True)):
                now.return_value = at
                self.assertEqual((search.must_keep(), search.may_keep()), (must, must))
            search.unkept = []
            self.assertFalse(search.must_keep())

    def test_how_long_writing_took(self) -> None:
        """The times of all writings are added up. While the file is written, no signal ends the
        program."""
        with patch("time.monotonic", return_value=1000.0) as now:
            stopping = Stopping()
            search = self.make_search(haul_of(LIFE), stopping)

            def slow_write(_haul: Haul, _beside: object) -> None:
                self.assertTrue(stopping.is_writing)
                now.return_value += 2

            with patch.object(search.haul_file, "write", slow_write):
                for writing in (2.0, 4.0):
                    search.unkept = [(0, [])]
                    search.keep()
                    self.assertEqual(
                        (search.writing, search.latest_writing, search.unkept, stopping.is_writing),
                        (writing, 2.0, [], False),
                    )
            for at, may in ((1299.0, False), (1300.0, True)):
                now.return_value = at
                self.assertEqual(search.may_keep(), may)
            with patch.object(search.haul_file, "write", side_effect=OSError), self.assertRaises(
                OSError
            ):
                search.unkept = [(0, [])]
                search.keep()
            self.assertFalse(stopping.is_writing)

    def test_how_long_it_waits(self) -> None:
        """The search waits for streams for up to half a second, or until the status is due if that
        is sooner. If there are objects to examine, the search examines them for a fiftieth of a
        second, and doesn't wait. After SIGTERM, it examines them for a second."""
        stopping = Stopping()
        said, told = io.StringIO(), io.StringIO()
        with patch("time.monotonic", return_value=1000.0) as now:
            search = self.make_search(haul_of(LIFE), stopping, output=told, errors=said)
            with patch.object(search, "find_for") as find_for, patch.object(
                search.waiter, "wait"
            ) as wait:
                for at, seconds in ((1000.0, 0.5), (1059.75, 0.25)):
                    now.return_value = at
                    search.wait_until(Mock(side_effect=[False, True]))
                    self.assertEqual((wait.call_args.args, find_for.call_count), ((seconds,), 0))
                search.finder.add([(BIPOLE, 1)])
                search.wait_until(Mock(side_effect=[False, True]))
                self.assertEqual((wait.call_args.args, find_for.call_args.args), ((0,), (0.02,)))
                stopping.came(signal.SIGTERM)
                search.report_rest()
                self.assertEqual(
                    (find_for.call_args.args, said.getvalue()),
                    ((1.0,), "haul: not all finds are told: 1 object to look at\n"),
                )
            search.find_for(0.0)
            self.assertEqual(told.getvalue(), "")
            search.find_for(0.001)
            self.assertIn(BIPOLE, told.getvalue())
            self.assertEqual(search.status().finds, 1)

    def test_when_it_says_what_is_left(self) -> None:
        """If reporting the last finds takes five seconds, a single line says what remains to be
        done."""
        with patch("time.monotonic", return_value=1000.0) as now, redirect_stderr(
            io.StringIO()
        ) as said:
            search = self.make_search(haul_of(LIFE))
            search.finder.add([(BIPOLE, 1), (CLOCK, 2)])
            looked: list[tuple[float, int]] = []

            def find_for(_seconds: float) -> None:
                looked.append((now.return_value, said.getvalue().count("\n")))
                now.return_value += 2.5
                if len(looked) == 4:
                    search.finder.queue.clear()

            with patch.object(search, "find_for", find_for):
                search.report_rest()
        self.assertEqual(looked[:4], [(1000.0, 0), (1002.5, 0), (1005.0, 1), (1007.5, 1)])
        self.assertEqual(
            said.getvalue(),
            "haul: finds are still told: 2 objects to look at; Ctrl-C twice stops that\n",
        )

    def test_a_signal_while_batches_wait(self) -> None:
        """After SIGTERM, the batches that wait to be written are written, and the running batch is
        dropped."""
        stopping = Stopping()
        search = self.make_search(haul_of(LIFE), stopping)
        begin = search.batches.begin

        def begin_the_last(workers: int) -> bool:
            if search.batches.next == 30:
                stopping.came(signal.SIGTERM)
            return begin(workers)

        with patch.object(search, "may_keep", return_value=False), patch.object(
            search.batches, "begin", begin_the_last
        ), self.assertRaises(Dropped):
            search.run()
        self.assertEqual(self.soups(), 30)
        self.assert_right()
        self.assert_nothing_runs()

    def test_batches_that_wait_in_memory(self) -> None:
        """Batches that wait in memory are written together, at the latest when the search ends."""
        search = self.make_search(haul_of(LIFE), until=60, workers=2)
        written: list[int] = []
        write = search.haul_file.write

        def slow_write(haul: Haul, beside: list[Beside]) -> None:
            written.append(haul.soups)
            write(haul, beside)
            time.sleep(0.3)

        with patch.object(search.haul_file, "write", slow_write):
            search.run()
        self.assertEqual((written[0], written[-1]), (10, 60))
        self.assertLessEqual(len(written), 3)
        self.assert_right()


if __name__ == "__main__":
    unittest.main()
