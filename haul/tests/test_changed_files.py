"""`haul search`: a FILE.late or FILE.finds that lost lines, or that is of another FILE or of an
earlier one, isn't believed."""

from __future__ import annotations

import random
import re
from collections.abc import Iterator
from unittest.mock import patch

from haul.cli.late_files import read_haul_beside
from haul.formats.haul import NUMBER_LIMIT, Haul
from haul.formats.late_file import BadLate, read_late
from haul.search.unreported import BadFinds, Unreported, read_unreported
from haul.tests.called import census, run
from haul.tests.searching import Searches

# Under this profile, many soups are unsettled.
SHORT = ["--seed=a", "--limit=808"]


def list_changes(text: bytes, draw: random.Random) -> Iterator[bytes]:
    """Yields texts in which a line is deleted, doubled or cut, or in which two lines are exchanged,
    and one that is cut at its end."""
    lines = text.splitlines(keepends=True)
    for _ in range(20):
        place, other = sorted(draw.sample(range(1, len(lines)), 2))
        line = lines[place]
        cut = line[: draw.randrange(len(line) - 1)] + b"\n"
        exchanged = [*lines]
        exchanged[place], exchanged[other] = exchanged[other], exchanged[place]
        for changed in (
            [*lines[:place], *lines[place + 1 :]],
            [*lines[:place], line, *lines[place:]],
            [*lines[:place], cut, *lines[place + 1 :]],
            exchanged,
        ):
            yield b"".join(changed)
        yield text[: draw.randrange(1, len(text))]


class ChangedLate(Searches):
    def setUp(self) -> None:
        super().setUp()
        self.late = self.folder / "mine.haul.late"

    def find_fault(self, text: bytes, haul: Haul) -> str | None:
        """Returns why a text isn't believed as the FILE.late of a haul."""
        try:
            return read_late(text.splitlines(keepends=True)).find_misfit(haul)
        except BadLate as bad:
            return str(bad)

    def assert_refused(self, text: bytes, why: str) -> None:
        """Checks that the next search renames a FILE.late with this text, says why, and begins a
        new one that covers only the soups from then on."""
        self.late.write_bytes(text)
        soups = self.soups()
        status, _, errors = self.search(f"--until={soups + 5}", "--late=606")
        told = f"haul: mine.haul.late: {why}, so it is now mine.haul.late.bad, and the search begins a new one\n"
        self.assertEqual((status, errors), (0, told))
        bad = self.folder / "mine.haul.late.bad"
        self.assertEqual(bad.read_bytes(), text)
        bad.unlink()
        self.assertIn(f"from 606 soups {soups}+5 ".encode(), self.late.read_bytes())

    def test_each_change_is_noticed(self) -> None:
        self.search(*SHORT, "--late=606", "--until=40")
        text, haul = self.late.read_bytes(), self.haul()
        self.assertIsNone(self.find_fault(text, haul))
        for changed in list_changes(text, random.Random("late")):
            self.assertIsNotNone(self.find_fault(changed, haul))

    def test_a_lost_line(self) -> None:
        self.search(*SHORT, "--late=606", "--until=40")
        head, first, *others = self.late.read_bytes().splitlines(keepends=True)
        count = len(others) + 1
        self.assert_refused(
            b"".join([head, *others]), f"{count} lines announced, and {count - 1} there"
        )

    def test_an_old_copy(self) -> None:
        self.search(*SHORT, "--late=606", "--until=20")
        old = self.late.read_bytes()
        self.search("--until=60")
        self.assert_refused(old, "covers soups up to 19, and not up to 59")

    def test_one_of_another_seed(self) -> None:
        self.search("--seed=b", "--limit=808", "--late=100001", "--until=5")
        other = self.late.read_bytes()
        self.file.unlink()
        self.late.unlink()
        self.search(*SHORT, "--late=606", "--until=20")
        self.assert_refused(other, "other job")

    def test_version_1(self) -> None:
        """A file of version 1 goes on, unless it lacks an unsettled soup."""
        self.search(*SHORT, "--late=606", "--until=40")
        head, *lines = self.late.read_bytes().splitlines(keepends=True)
        old = b"# late 606 since 0 left-out 0\n"
        self.late.write_bytes(old + b"".join(lines))
        self.assertEqual(self.search("--until=40"), (0, "", ""))
        self.assertEqual(self.late.read_bytes(), head + b"".join(lines))
        unsettled = [line for line in lines if line.endswith(b" unsettled\n")]
        lines.remove(unsettled[0])
        count = len(unsettled) - 1
        soups = f"{count} unsettled soup" + "s" * (count != 1)
        self.assert_refused(old + b"".join(lines), f"has {soups}, and the haul {count + 1}")

    def test_a_haul_that_was_joined_in(self) -> None:
        """The file doesn't claim to cover soups that another program has added to FILE."""
        self.search(*SHORT, "--late=606", "--until=20")
        other = self.folder / "other.haul"
        other.write_bytes(census("take", *SHORT, "--first=500", "--count=10"))
        joined = run("join", str(self.file), str(other))[1]
        self.file.write_text(joined)
        self.assertEqual(self.search("--until=35")[::2], (0, ""))
        self.assertIn(b" soups 0+20,510+5 ", self.late.read_bytes())

    def test_fates_are_kept(self) -> None:
        """A line that says what became of an unsettled soup stays below the line of this soup."""
        self.search(*SHORT, "--late=100001", "--until=40")
        late = read_late(self.late.read_bytes().splitlines(keepends=True))
        line = late.lines[0]
        text = self.late.read_bytes()
        fate = b"# fate %d linear growth\n" % line.soup
        # In version 1, nothing says how many lines there are.
        lines = text.partition(b"\n")[2].replace(line.text + b"\n", line.text + b"\n" + fate)
        self.late.write_bytes(b"# late 100001 since 0 left-out 0\n" + lines)
        self.assertEqual(self.search("--until=60")[::2], (0, ""))
        kept = self.late.read_bytes()
        self.assertIn(line.text + b"\n" + fate, kept)
        self.assertEqual(read_late(kept.splitlines(keepends=True)).lines[0].fate, b"linear growth")
        self.assertIsNotNone(self.find_fault(kept.replace(b"linear", b"cubic"), self.haul()))


class ReadLate(Searches):
    """Other commands say that a FILE.late lost lines, and don't rename it."""

    def setUp(self) -> None:
        super().setUp()
        self.late = self.folder / "mine.haul.late"
        self.search(*SHORT, "--late=100001", "--until=40")
        self.text = self.late.read_bytes()
        self.count = self.text.count(b"\n") - 1

    def complaint(self, *words: str) -> tuple[int, str]:
        status, _, errors = run(*words, cwd=str(self.folder))
        return status, errors

    def test_a_search_that_is_running(self) -> None:
        """If the search goes on between the reading of FILE and of FILE.late, nothing is wrong."""

        def read_and_go_on(name: str) -> Haul | None:
            haul = read_haul_beside(name)
            self.search("--until=60")
            return haul

        with patch("haul.cli.late_files.read_haul_beside", read_and_go_on):
            self.assertEqual(self.complaint("soups", "mine.haul.late"), (0, ""))
        self.assertEqual(self.soups(), 60)

    def test_lost_lines(self) -> None:
        self.late.write_bytes(self.text.rpartition(b"report ")[0])
        lost = f"haul: mine.haul.late: {self.count} lines announced, and {self.count - 1} there"
        self.assertEqual(
            self.complaint("soups", "mine.haul.late"), (0, f"{lost}, so soups may be missing\n")
        )
        self.assertEqual(
            self.complaint("page", "--lives", "mine.haul.late", "mine.haul"),
            (3, f"{lost}; leave out --lives, or restore the file\n"),
        )

    def test_an_old_copy(self) -> None:
        self.search("--until=60")
        self.late.write_bytes(self.text)
        self.assertEqual(
            self.complaint("soups", "mine.haul.late"),
            (
                0,
                "haul: mine.haul.late: covers soups up to 39, and not up to 59, so soups may be "
                "missing\n",
            ),
        )
        self.assertEqual(
            self.complaint("page", "--lives", "mine.haul.late", "mine.haul"),
            (0, "haul: mine.haul.late: covers only 40 of the 60 soups\n"),
        )

    def test_nothing_is_wrong(self) -> None:
        self.assertEqual(self.complaint("soups", "mine.haul.late"), (0, ""))
        self.assertEqual(self.complaint("page", "--lives", "mine.haul.late", "mine.haul"), (0, ""))


class ChangedFinds(Searches):
    def setUp(self) -> None:
        super().setUp()
        self.finds = self.folder / "mine.haul.finds"
        self.search(*SHORT, "--until=40")
        haul = self.haul()
        finds = [
            ["now", f"xp2_{soup}", "-", str(soup), "command", "-"] for soup in (3, 7, 8, 20, 39)
        ]
        self.text = b"".join(Unreported(haul.job, haul.ranges, NUMBER_LIMIT, finds).write())
        self.told = ["\t".join(fields) for fields in finds]

    def find_fault(self, text: bytes, haul: Haul) -> str | None:
        """Returns why a text isn't believed as the FILE.finds of a haul."""
        try:
            return read_unreported(text.splitlines(keepends=True)).find_misfit(haul)
        except BadFinds as bad:
            return str(bad)

    def assert_refused(self, text: bytes, why: str) -> None:
        self.finds.write_bytes(text)
        told = f"haul: mine.haul.finds: {why}, so it is now mine.haul.finds.bad, and the search begins a new one\n"
        self.assertEqual(self.search(f"--until={self.soups()}"), (0, "", told))
        self.assertEqual((self.folder / "mine.haul.finds.bad").read_bytes(), text)
        (self.folder / "mine.haul.finds.bad").unlink()

    def test_each_change_is_noticed(self) -> None:
        haul = self.haul()
        self.assertIsNone(self.find_fault(self.text, haul))
        for changed in list_changes(self.text, random.Random("finds")):
            self.assertIsNotNone(self.find_fault(changed, haul))

    def test_what_fits_is_told(self) -> None:
        self.finds.write_bytes(self.text)
        status, output, errors = self.search("--until=40")
        self.assertEqual((status, output.splitlines(), errors), (0, self.told, ""))

    def test_a_lost_line(self) -> None:
        lines = self.text.splitlines(keepends=True)
        self.assert_refused(b"".join([*lines[:2], *lines[3:]]), "5 lines announced, and 4 there")

    def test_another_haul(self) -> None:
        """FILE has been replaced by a haul of other soups of the same census."""
        for first, count in ((40, 40), (0, 60), (1, 39)):
            words = [*SHORT, f"--first={first}", f"--count={count}"]
            self.file.write_bytes(census("take", *words))
            (self.folder / "mine.haul.late").unlink(missing_ok=True)
            self.assert_refused(self.text, "the finds of other soups")

    def test_a_kill_between_the_files(self) -> None:
        """If FILE.finds is on the disk and FILE isn't, the finds of the soups in FILE are told."""
        self.file.write_bytes(census("take", *SHORT, "--count=20"))
        self.finds.write_bytes(self.text)
        status, output, _ = self.search("--until=20")
        self.assertEqual((status, output.splitlines()), (0, self.told[:3]))

    def test_version_1(self) -> None:
        old = re.sub(rb" 2 (since .*?) soups .*(?= rule=)", rb" \1", self.text, count=1)
        self.assertIn(b"# finds since 1099511627776 left-out 0 rule=b3s23 ", old)
        self.finds.write_bytes(old)
        self.assertEqual(self.search("--until=40")[1].splitlines(), self.told)
