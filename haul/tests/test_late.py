"""Tests of `haul search` with FILE.late, which keeps late and unsettled soups, and of searches that
run several batches at once."""

from __future__ import annotations

import hashlib
import os
import random
import re
import signal
import time
from collections.abc import Callable
from unittest.mock import patch

from haul.formats import late_file
from haul.search.batches import share_workers
from haul.tests.called import CENSUS, census, run
from haul.tests.searching import QUICK, Searches

# Under this profile, many soups are unsettled.
SHORT = ["--limit=808"]
JOB = "rule=b3s23 profile=64,512,101,808 seed=a"
WORKER = re.compile(rb" worker=[0-9]+ ")


class LateSearches(Searches):
    def setUp(self) -> None:
        super().setUp()
        self.late = self.folder / "mine.haul.late"

    def lines_of_work(self, count: int, late: int, *words: str, first: int = 0) -> list[bytes]:
        """Returns the lines of late and unsettled soups that `census work` prints, without their
        `worker` fields."""
        job = words or ("--seed=a", *SHORT)
        lines = census("work", "--worker=1", f"--first={first}", f"--count={count}", *job)
        return [
            WORKER.sub(b" ", line)
            for line in lines.splitlines()
            if line.endswith(b" unsettled") or int(line.split(b"at=")[1].split()[0]) >= late
        ]

    def kept(self) -> tuple[str, list[bytes]]:
        """Returns the header of FILE.late, and its lines without their `worker` fields."""
        header, *lines = self.late.read_bytes().splitlines()
        return header.decode(), [WORKER.sub(b" ", line) for line in lines]

    def assert_kept(self, late: int, count: int, since: int = 0) -> None:
        header, lines = self.kept()
        wanted = self.lines_of_work(count - since, late, first=since)
        self.assertEqual(lines, wanted)
        unsettled = sum(line.endswith(b" unsettled") for line in wanted)
        self.assertEqual(
            header.split(" sha256 ")[0],
            f"# late 2 from {late} soups {since}+{count - since} left-out 0 unsettled {unsettled} "
            f"lines {len(wanted)}",
        )


class Kept(LateSearches):
    def test_exactly_those(self) -> None:
        """FILE.late has the lines of exactly the late and unsettled soups, for batches of any size
        and for any number of workers."""
        for until, size, workers in ((70, 100, 1), (100, 7, 2), (101, 1, 3), (160, 25, 17)):
            words = ["--batch", str(size), "--workers", str(workers), "--late=404", "--seed=a"]
            self.assertEqual(self.search(*words, *SHORT, "--until", str(until))[0], 0)
            self.assert_kept(404, until)
            self.assert_right()
        self.assert_left("mine.haul", "mine.haul.late", "mine.haul.lock")

    def test_generations(self) -> None:
        """Without `--late`, the generation is the one in FILE.late, or the default if there is no
        FILE.late. A higher generation drops lines, and a lower one is refused."""
        self.search("--seed=a", *SHORT, "--until=30")
        self.assert_kept(12000, 30)
        told = "haul: mine.haul.late: has soups from generation 12000 on, and not from 11999\n"
        self.assertEqual(self.search("--late=11999", "--until=40"), (3, "", told))
        self.assert_kept(12000, 30)
        self.assertEqual(self.search("--late=never", "--until=30"), (0, "", ""))
        self.assertFalse(self.late.exists())
        self.search("--late=303", "--until=60")
        self.assert_kept(303, 60, 30)
        self.search("--until=80")
        self.assert_kept(303, 80, 30)
        self.search("--late=707", "--until=80")
        self.assert_kept(707, 80, 30)
        self.search("--late=100001", "--until=90")
        self.assert_kept(100001, 90, 30)

    def test_a_lower_generation_without_a_soup(self) -> None:
        """If FILE.late covers no soup of FILE, it may begin anew at a lower generation."""
        self.search("--seed=a", *SHORT, "--late=606", "--until=30")
        self.file.unlink()
        self.assertEqual(self.search("--seed=a", *SHORT, "--late=303", "--until=40")[::2], (0, ""))
        self.assert_kept(303, 40)

    def test_a_file_from_before(self) -> None:
        """If FILE is older than FILE.late, FILE.late has no lines about the soups that FILE already
        had."""
        self.file.write_bytes(census("take", "--seed=a", *SHORT, "--count=40"))
        self.search("--until=70", "--late=505")
        self.assert_kept(505, 70, 40)

    def test_it_is_there_without_a_line(self) -> None:
        self.search("--seed=a", "--until=5")
        nothing = hashlib.sha256().hexdigest()
        self.assertEqual(
            self.late.read_text(),
            "# late 2 from 12000 soups 0+5 left-out 0 unsettled 0 lines 0 "
            f"sha256 {nothing} rule=b3s23 profile=64,512,101,30300 seed=a\n",
        )

    def test_the_lowest_numbers_are_kept(self) -> None:
        with patch.object(late_file, "MOST_LINES", 5), patch(
            "haul.search.late_soups.MOST_LINES", 5
        ), patch("haul.census.background.MOST_REPORTS", 5):
            for until in (40, 80):
                self.search("--seed=a", *SHORT, "--late=0", "--batch=40", f"--until={until}")
                header, lines = self.kept()
                self.assertIn(f"# late 2 from 0 soups 0+{until} left-out {until - 5} ", header)
                self.assertIn(" lines 5 ", header)
                self.assertEqual(lines, self.lines_of_work(5, 0))
            self.assert_right()

    def test_a_kill_between_the_files(self) -> None:
        """If FILE.late has lines of soups that aren't in FILE, these lines are dropped. They are
        written again when the soups are run."""
        self.search("--seed=a", *SHORT, "--late=505", "--until=60")
        earlier = self.file.read_bytes()
        self.search("--until=100")
        later = self.late.read_bytes()
        self.file.write_bytes(earlier)
        self.assertEqual(self.search("--until=60"), (0, "", ""))
        self.assert_kept(505, 60)
        self.late.write_bytes(later)
        self.search("--until=100")
        self.assert_kept(505, 100)
        # The same holds if there is no FILE yet.
        self.file.unlink()
        self.assertEqual(self.search("--seed=a", *SHORT, "--until=30")[::2], (0, ""))
        self.assert_kept(505, 30)

    def test_a_full_disk(self) -> None:
        """The new FILE would fit on the disk, but the new FILE.late doesn't. Neither file is
        changed."""
        self.search("--seed=a", *QUICK, "--late=0", "--until=10")
        before = self.file.read_bytes(), self.late.read_bytes()
        status, _, errors = self.search("--until=4000", "--batch=3990", most_bytes=20_000)
        self.assertEqual((status, errors), (5, "haul: mine.haul.late.new: File too large\n"))
        self.assertEqual((self.file.read_bytes(), self.late.read_bytes()), before)
        self.assert_left("mine.haul", "mine.haul.late", "mine.haul.lock")
        self.assertEqual(self.search("--until=60")[0], 0)
        self.assert_right()

    def test_beside_a_file_of_another_program(self) -> None:
        other = census("take", "--seed=other", "--count=3")
        self.search("--seed=a", *SHORT, "--late=505", "--until=20")
        kept = self.late.read_bytes()
        (self.folder / "mine.haul.mine.late").write_text("mine")
        with self.start("--batch=10") as running:
            self.wait_for(40)
            self.file.write_bytes(other)
            _, errors = running.communicate(timeout=60)
        self.assertEqual(running.returncode, 5)
        self.assertIn(b"the haul of this search is in mine.haul.mine.2\n", errors)
        self.assertEqual(self.file.read_bytes(), other)
        self.assertEqual((self.folder / "mine.haul.mine.late").read_text(), "mine")
        lines = kept.partition(b"\n")[2]
        self.assertTrue(self.late.read_bytes().partition(b"\n")[2].startswith(lines))
        self.file = self.folder / "mine.haul.mine.2"
        self.late = self.folder / "mine.haul.mine.2.late"
        self.assert_right()
        self.assert_kept(505, self.soups())

    def test_drawn_faults(self) -> None:
        """After each signal that ends a search, the next search continues. At the end, both files
        are correct."""
        draw = random.Random("late")
        for trial in range(12):
            soups = self.soups()
            words = ["--seed=a", *SHORT, "--late=404", "--batch", str(draw.choice([5, 20, 60]))]
            with self.start(*words, "--until=100000") as program:
                self.wait_for(soups + 1)
                time.sleep(draw.uniform(0, 0.15))
                program.send_signal(draw.choice([signal.SIGKILL, signal.SIGTERM]))
                program.communicate()
            self.assert_nothing_runs()
        until = self.soups() + 5
        self.assertEqual(self.search("--until", str(until))[0], 0)
        self.assert_kept(404, until)
        self.assert_right()


class Told(LateSearches):
    """Late soups are reported in the same way as finds."""

    def test_fields(self) -> None:
        words = ["--seed=a", *SHORT, "--late=606", "--until=60", "--rarer=1"]
        status, output, errors = self.search(*words, "--batch=30")
        self.assertEqual((status, errors), (0, ""))
        lines = self.lines_of_work(60, 606)
        soups = [int(line.split(b"soup=")[1].split()[0]) for line in lines]
        settled = [int(line.partition(b" at=")[2].split(b" ")[0] or -1) for line in lines]
        latest = max(at for soup, at in zip(soups, settled) if soup < 30)
        wanted: list[list[str]] = []
        for soup, at in zip(soups, settled):
            is_latest = at > (-1 if soup < 30 else latest)
            name = f"checkpoint {at}" + (", the latest so far" if is_latest else "")
            fields = ["unsettled", "-"] if at < 0 else ["settled", name]
            command = (
                f"census soup --seed a {soup} | census name --rule b3s23 --period 64 --horizon 512 "
                "--stride 101 --limit 808"
            )
            wanted.append([*fields, str(soup), command, "-"])
        told = [line.split("\t")[1:] for line in output.splitlines()]
        self.assertEqual(
            [fields for fields in told if fields[0] in ("settled", "unsettled")], wanted
        )

    def test_the_program_for_finds(self) -> None:
        program = self.stub('printf "%s\\t" "$@" >> said; echo >> said', "finder")
        words = ["--seed=a", *SHORT, "--late=100001", "--until=30", "--rarer=1"]
        output = self.search(*words, "--finds", program)[1]
        said = (self.folder / "said").read_text().replace("\t\n", "\n")
        self.assertIn("\tunsettled\t-\t", said)
        self.assertEqual(said, output)

    def test_under_another_rule(self) -> None:
        """Under a rule other than Life, unsettled soups are kept, but are reported only if `--late`
        is given."""
        words = ["--seed=a", "--rule=b2s", "--limit=0"]
        self.assertEqual(self.search(*words, "--until=20"), (0, "", ""))
        header, lines = self.kept()
        self.assertIn("# late 2 from 100001 soups 0+20 left-out 0 unsettled 20 lines 20 ", header)
        self.assertEqual(len(lines), 20)
        status, output, _ = self.search("--late=100001", "--until=40")
        self.assertEqual((status, output.count("\tunsettled\t-\t")), (0, 20))


class OtherFiles(LateSearches):
    """A FILE.late that can't be used is renamed, and the search goes on with a new one."""

    def line(self, soup: int, job: str = JOB, how: str = "unsettled") -> str:
        return f"report 2 {job} worker=1 soup={soup} {how}\n"

    def test_each_fault(self) -> None:
        header = "# late 505 since 0 left-out 0\n"
        other = JOB.replace("seed=a", "seed=b")
        for text, why in (
            ("", "line 1: not a header"),
            ("# late 505 since 0\n", "line 1: not a header"),
            (header.replace("505", "100002"), "line 1: not a header"),
            (header + "x\n", "line 2: bad line at 0"),
            (header + self.line(3)[:-1], "line 2: no line feed"),
            (header + self.line(3, other), "other job"),
            (header + "# fate 3 x\n", "line 2: not the fate of the soup above"),
            (header + self.line(3) + self.line(4, other), "line 3: other job"),
            (header + self.line(4) + self.line(3), "line 3: not in order"),
            (header + self.line(4) + self.line(4), "line 3: not in order"),
            (
                header.replace("since 0", "since 5") + self.line(4),
                "line 2: not a soup that is covered",
            ),
            (header + self.line(4, how="at=404 good=no"), "line 2: not late"),
            (header + self.line(2), "soup 2 isn't in the haul"),
        ):
            self.file.write_bytes(census("take", "--seed=a", "--first=3", "--count=7", *SHORT))
            self.late.write_text(text)
            status, _, errors = self.search("--until=10", "--late=606")
            told = f"haul: mine.haul.late: {why}, so it is now mine.haul.late.bad, and the search begins a new one\n"
            self.assertEqual((status, errors), (0, told))
            self.assertEqual((self.folder / "mine.haul.late.bad").read_text(), text)
            (self.folder / "mine.haul.late.bad").unlink()
            self.assertIn("# late 2 from 606 soups 10+3 left-out 0 ", self.kept()[0])
            self.assert_right()

    def test_no_file_is_replaced(self) -> None:
        (self.folder / "mine.haul.late.bad").write_text("x")
        self.late.mkdir()
        status, _, errors = self.search("--seed=a", "--until=3")
        self.assertEqual(status, 0)
        self.assertIn("not a regular file, so it is now mine.haul.late.bad.2", errors)
        self.assertEqual((self.folder / "mine.haul.late.bad").read_text(), "x")

    def test_changed_while_a_search_runs(self) -> None:
        with self.start("--seed=a", *SHORT, "--late=404", "--batch=20") as running:
            self.wait_for(20)
            self.late.write_text("mine")
            self.wait_for(self.soups() + 20)
            running.send_signal(signal.SIGINT)
            _, errors = running.communicate(timeout=60)
        self.assertIn(
            b"haul: mine.haul.late: changed by another program, so it is now mine.haul.late.bad",
            errors,
        )
        self.assertEqual((self.folder / "mine.haul.late.bad").read_text(), "mine")
        self.assert_kept(404, self.soups())


class Reports(LateSearches):
    """Tests how a search reads the report lines that the census program prints about a batch."""

    def test_wrong_lines(self) -> None:
        """The search refuses a census program that prints a line about a soup of another batch,
        about a soup that isn't late, or about another job; prints a line twice; prints a malformed
        line; or leaves lines out."""
        line = f"report 2 {JOB} worker=1"
        for said in (
            f"echo '{line} soup=900 unsettled' >&2",
            f"echo '{line} soup=1 at=101 good=no' >&2",
            f"echo '{line.replace('seed=a', 'seed=b')} soup=1 at=808 good=no' >&2",
            f"for k in 1 2; do echo '{line} soup=1 at=808 good=no' >&2; done",
            "echo 'report 2 x' >&2",
        ):
            program = self.stub(f'{said}; real "$@"')
            status, _, errors = self.search(
                "--seed=a", *SHORT, "--late=808", "--until=3", program=program
            )
            self.assertEqual((status, errors), (2, f"haul: no census at {program}\n"), said)
        program = self.stub('real "$@" 2> /dev/null')
        self.assertEqual(self.search("--seed=a", *SHORT, "--until=60", program=program)[0], 2)
        self.assertFalse(self.file.exists())

    def test_progress_and_lines(self) -> None:
        """The part of a line before the last carriage return is progress. Anything that is neither
        progress nor a report is a complaint."""
        program = self.stub(
            "printf '\\r3 of 9 soups\\r      \\rreport ' >&2; sleep 0.1; "
            f"printf '2 {JOB} worker=9 soup=1 at=808 good=no\\n\\r5 of 9 soups\\rcensus: why\\n' >&2; exit 5"
        )
        self.assertEqual(
            self.search("--seed=a", *SHORT, "--late=0", program=program), (5, "", "haul: why\n")
        )

    def test_too_many(self) -> None:
        program = self.stub("yes 'report 2 x soup=1 ' >&2")
        with patch("haul.census.background.MOST_PRINTED", 10_000):
            status, _, errors = self.search("--seed=a", "--until=3", program=program)
        line = "haul: census wrote too much to its standard error\n"
        self.assertEqual((status, errors), (5, line))
        self.assert_nothing_runs()


class ManyWorkers(Searches):
    """With more than sixteen workers, several batches run at once."""

    def test_shares(self) -> None:
        for workers in (1, 16, 17, 32, 33, 40, 1024):
            shares = share_workers(workers)
            self.assertEqual(sum(shares), workers)
            self.assertLessEqual(max(shares), 16)
            self.assertEqual(len(shares), -(-workers // 16))

    def calls(self) -> list[str]:
        return (self.folder / "calls").read_text().splitlines()

    def test_forty(self) -> None:
        program = self.stub('echo "$@" >> calls; real "$@"')
        words = ["--seed=a", "--until=100", "--batch=9", "--late=never", *QUICK]
        self.assertEqual(self.search(*words, "--workers=40", program=program), (0, "", ""))
        self.assert_right()
        workers = [int(call.split("--workers=")[1].split()[0]) for call in self.calls()]
        self.assertEqual((len(workers), set(workers)), (12, {13, 14}))
        self.assert_nothing_runs()

    def test_they_run_at_once_and_are_added_in_order(self) -> None:
        """The first batch waits until four later batches have ended: the two that run beside it,
        and two more."""
        program = self.stub(
            "case $* in *--first=0*) until [ $(ls -d done* | wc -l) -ge 4 ]; do sleep 0.05; done;; esac; "
            f'"{CENSUS}" "$@"; touch done$RANDOM'
        )
        words = ["--seed=a", "--until=200", "--batch=10", "--workers=40", "--late=never", *QUICK]
        self.assertEqual(self.search(*words, program=program)[0], 0)
        self.assert_right()

    def test_one_that_fails(self) -> None:
        """The batches before the failed one are in the file."""
        program = self.stub('case $* in *--first=20*) echo why >&2; exit 5;; *) real "$@";; esac')
        words = ["--seed=a", "--until=200", "--batch=10", "--workers=40", "--late=never", *QUICK]
        self.assertEqual(self.search(*words, program=program), (5, "", "haul: why\n"))
        self.assertEqual(self.soups(), 20)
        self.assert_right()
        self.assert_nothing_runs()

    def stopped(self, change: Callable[[int], None]) -> tuple[int, str]:
        """Stops a search while three batches run. Returns its status and its error output."""
        program = self.stub('sleep 1; real "$@"')
        words = ["--seed=a", "--batch=10", "--workers=40", "--late=never", *QUICK]
        with self.start(*words, program=program) as running:
            for _ in range(1000):
                if len(self.running_here()) >= 4:
                    break
                time.sleep(0.01)
            change(running.pid)
            _, errors = running.communicate(timeout=60)
        self.assert_nothing_runs()
        return running.returncode, errors.decode()

    def test_an_interrupt(self) -> None:
        status, errors = self.stopped(lambda pid: os.kill(pid, signal.SIGINT))
        self.assertEqual(status, 0)
        self.assertRegex(
            errors, r"^haul: stops after these 3 batches.*; Ctrl-C again drops them\n$"
        )
        self.assertEqual(self.soups(), 30)
        self.assert_right()

    def test_for_real(self) -> None:
        for workers in ("17", "33"):
            self.file.unlink(missing_ok=True)
            words = ["--seed=a", "--until=300", "--batch=50", "--workers", workers, "--late=never"]
            self.assertEqual(self.search(*words)[0], 0)
            self.assert_right()


class Comments(LateSearches):
    def test_soups_skips_them(self) -> None:
        self.search("--seed=a", *SHORT, "--late=505", "--until=40")
        text = self.late.read_bytes()
        status, output, errors = run("soups", text=text)
        self.assertEqual((status, errors), (0, ""))
        self.assertEqual(run("soups", text=text.partition(b"\n")[2])[1], output)
