"""Report lines: what is read from them, and where a bad line is wrong."""

from __future__ import annotations

import io
import random
import re
import subprocess
import unittest

from haul.formats.haul import Job
from haul.formats.profile import Profile
from haul.formats.report_files import split_lines
from haul.formats.report_lines import BadLine, Report, read_report_line
from haul.tests.called import CENSUS

# The beginning of a line, 57 bytes long, as in docs/FORMATS.md.
START = "report 1 rule=b3s23 profile=1,1,1,0 seed= worker=1 soup=0"
SMALL_JOB = Job("", "b3s23", Profile(1, 1, 1, 0))
# The report line of soup 101 of the empty seed.
WHOLE = "report 2 rule=b3s23 profile=64,512,101,30300 seed= worker=3 soup=101 at=202 good=yes xp2_7*1 xs4_33*3 xs5_253*1 xs7_2596*1"
# The largest number of bytes that a line may have.
MOST = 16_777_216


def fault(line: str | bytes) -> int | None:
    """Returns the place at which a line is wrong, or `None` if it is a report line."""
    try:
        read_report_line(line if isinstance(line, bytes) else line.encode("latin-1"))
    except BadLine as bad:
        return int(str(bad).removeprefix("bad line at "))
    return None


class Reading(unittest.TestCase):
    def test_version_2(self) -> None:
        counts = {"xp2_7": 1, "xs4_33": 3, "xs5_253": 1, "xs7_2596": 1}
        self.assertEqual(
            read_report_line(WHOLE.encode()),
            Report(Job("", "b3s23", Profile(64, 512, 101, 30300)), 101, 202, True, counts),
        )
        self.assertEqual(read_report_line(WHOLE.replace("yes", "no").encode()).for_good, False)
        self.assertEqual(read_report_line(WHOLE.encode()).objects(), 6)

    def test_version_1(self) -> None:
        self.assertEqual(
            read_report_line(f"{START} at=0".encode()), Report(SMALL_JOB, 0, 0, None, {})
        )
        self.assertEqual(
            read_report_line(f"{START} at=5 a*2".encode()), Report(SMALL_JOB, 0, 5, None, {"a": 2})
        )

    def test_unsettled(self) -> None:
        for version in "12":
            line = START.replace("report 1", f"report {version}") + " unsettled"
            self.assertEqual(read_report_line(line.encode()), Report(SMALL_JOB, 0, None, None, {}))

    def test_the_largest_numbers(self) -> None:
        most = f"report 1 rule=b12345678s012345678 profile=64,4096,10000,100000 seed={'~' * 64} worker=16 soup={2**40 - 1} at=100000 {'_' * 400}*{2**64 - 1}"
        self.assertIsNone(fault(most))
        for right, wrong in (
            ("=64,", "=65,"),
            ("4096", "4097"),
            ("10000,1", "10001,1"),
            ("100000 s", "100001 s"),
            ("~ ", "~~ "),
            ("=16", "=17"),
            (str(2**40 - 1), str(2**40)),
            ("at=100000", "at=100001"),
            ("_*", "__*"),
            (str(2**64 - 1), str(2**64)),
        ):
            changed = most.replace(right, wrong)
            first = next(
                place for place, (one, other) in enumerate(zip(most, changed)) if one != other
            )
            self.assertEqual(fault(changed), changed.rindex(" ", 0, first) + 1, changed)

    def test_the_smallest_numbers(self) -> None:
        for right, wrong in (
            ("=1,", "=0,"),
            (",1,1,", ",0,1,"),
            (",1,0", ",0,0"),
            ("er=1", "er=0"),
        ):
            changed = f"{START} unsettled".replace(right, wrong, 1)
            self.assertEqual(
                fault(changed), changed.rindex(" ", 0, changed.index(wrong)) + 1, changed
            )

    def test_a_horizon_below_the_period(self) -> None:
        self.assertIsNone(fault(f"{START} unsettled".replace("1,1,1,0", "4,4,1,0")))
        self.assertEqual(fault(f"{START} unsettled".replace("1,1,1,0", "4,3,1,0")), 20)


class Faults(unittest.TestCase):
    def test_what_follows(self) -> None:
        """These are the cases in the table of docs/FORMATS.md, and further cases."""
        for after, place in (
            ("", 57),
            (" unsettled x", 68),
            (" unsettled ", 68),
            (" at=0 ", 63),
            (" at=0 xs4_33*0", 63),
            (" at=0 xs4_33*1 xs4_33*1", 72),
            (" at=0 b*1 a*1", 67),
            (" at=0 a*1 b*1", None),
            (" at=0 a*01", 63),
            (" at=0 a*", 63),
            (" at=0 A*1", 63),
            (" at=0 *1", 63),
            (" at=0 a*1*1", 63),
            (" at=0 good=yes", 63),
            (" at=00", 58),
            (" at=", 58),
            (" At=0", 58),
            ("  at=0", 58),
            (" ", 58),
            (" at=0\r", 58),
            (" at=0 a*1\n", 63),
            (" at=0\ta*1", 58),
        ):
            self.assertEqual(fault(START + after), place, after)

    def test_what_is_changed(self) -> None:
        for right, wrong, place in (
            ("er=1", "er=01", 42),
            ("er=1", "er=17", 42),
            ("soup=0", "soup=1099511627776", 51),
            ("rt 1", "rt 3", 7),
            ("rt 1", "rt 01", 7),
            ("b3s", "b36s", None),
            ("b3s", "B3/S", 9),
            ("b3s", "b33s", 9),
            ("b3s", "b03s", 9),
            ("rt 1", "rt 2", None),
            ("report", "Report", 0),
            ("report", " report", 0),
            ("seed=", "seed=\x7f", 36),
            ("seed=", "sed=", 36),
            (",0 ", ",00 ", 20),
            (",0 ", " ", 20),
            (",0 ", ",0,0 ", 20),
            ("soup=0", "soup=" + "9" * 5000, 51),
        ):
            self.assertEqual(
                fault(f"{START} unsettled".replace(right, wrong, 1)), place, wrong[:20]
            )

    def test_the_mark(self) -> None:
        second = START.replace("report 1", "report 2")
        for after, place in (
            (" at=0", 62),
            (" at=0 xs4_33*1", 63),
            (" at=0 good=maybe", 63),
            (" at=0 good=yes", None),
            (" at=0 good=no a*1", None),
            (" at=0 good=yes good=yes", 72),
            (" at=0 good=no a*1 a*1", 75),
            (" unsettled good=no", 68),
        ):
            self.assertEqual(fault(second + after), place, after)

    def test_a_line_that_lost_its_end(self) -> None:
        """A line that is cut off is bad where its last field begins, or at its end if its last
        field is valid. If the cut leaves a valid line, no fault is found."""
        for end, place in (
            ("", 0),
            ("repor", 0),
            ("report", 6),
            ("report ", 7),
            ("report 2", 8),
            ("report 2 rule=b3", 9),
            ("report 2 rule=b3s", 17),
            ("report 2 rule=b3s23 profile=64,512,101,", 20),
            ("report 2 rule=b3s23 profile=64,512,101,3", 40),
        ):
            self.assertEqual((WHOLE.startswith(end), fault(end)), (True, place), end)
        for left, bad in (
            (" good=yes xp2_7*1 xs4_33*", 93),
            (" good=yes xp2_7*1 xs4_33", 93),
            (" good=yes xp2_7*1", None),
            (" good=yes", None),
            (" good=ye", 76),
            ("", 75),
        ):
            self.assertEqual(fault(WHOLE.partition(" good")[0] + left), bad, left)

    def test_a_line_that_is_too_long(self) -> None:
        """A line that is too long is bad at the first fault in its first 16,777,216 bytes. If these
        bytes have no fault, the line is bad just after them."""
        start = f"{START} at=0"
        field = f" {'a' * 400}*1"
        fields = "".join(
            field.replace("a" * 8, f"a{number:07}", 1)
            for number in range((MOST - len(start)) // len(field))
        )
        line = start + fields
        line += " b*" + "1" * (MOST - len(line) - len(" b*"))
        self.assertEqual((len(line), fault(line)), (MOST, line.rindex(" ") + 1))
        right = line[: line.rindex(" ")]
        room = MOST - len(right)
        whole = right + " " + "b" * (room - len(" *1")) + "*1"
        self.assertEqual((len(whole), fault(whole)), (MOST, None))
        self.assertEqual(fault(whole + "0"), MOST)
        self.assertEqual(fault(whole.replace("seed=", "seed ", 1) + "0"), 36)
        several = io.BytesIO(f"{whole}\n{whole}0\n{whole}{whole}{whole}\nx\n\ny".encode())
        self.assertEqual(
            [min(len(one), MOST + 1) for one in split_lines(several)],
            [MOST, MOST + 1, MOST + 1, 1, 0, 1],
        )


class BesideGather(unittest.TestCase):
    def test_changed_lines(self) -> None:
        """`haul` and `census gather` find the same lines bad, at the same places. The set of soups
        is empty, so no soup is run."""
        draw = random.Random("changed lines")
        lines = [
            self.changed(
                draw,
                draw.choice(
                    [
                        WHOLE,
                        WHOLE.replace("report 2", "report 1").replace(" good=yes", ""),
                        f"{START} unsettled",
                    ]
                ).encode(),
            )
            for _ in range(5000)
        ]
        ended = subprocess.run(
            [CENSUS, "gather", "--count=0"],
            input=b"\n".join(lines),
            capture_output=True,
            check=False,
        )
        places = {
            int(number): int(place)
            for number, place in re.findall(
                "^line ([0-9]+): bad line at ([0-9]+)$", ended.stderr.decode(), re.MULTILINE
            )
        }
        self.assertEqual(
            {
                number: place
                for number, line in enumerate(lines, 1)
                if (place := fault(line)) is not None
            },
            places,
        )
        self.assertGreater(len(lines) - len(places), 100)

    def changed(self, draw: random.Random, line: bytes) -> bytes:
        for _ in range(draw.choice([1, 1, 2])):
            at = draw.randrange(len(line))
            new = bytes([draw.choice(b" 0123456789abs_*=,x\xff")])
            line = draw.choice(
                [
                    line[:at] + line[at + 1 :],
                    line[:at] + new + line[at:],
                    line[:at] + new + line[at + 1 :],
                    line[:at] or b"x",
                ]
            )
        return line


if __name__ == "__main__":
    unittest.main()
