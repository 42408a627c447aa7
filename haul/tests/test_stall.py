"""What a search says while no soup ends, and when it gives up."""

from __future__ import annotations

import re
import signal
import time
import unittest
from unittest.mock import Mock, patch

from haul.formats.haul import Job
from haul.formats.profile import STANDARD
from haul.search.stall import Stall, format_bytes
from haul.search.status_line import Status
from haul.tests.searching import Searches

TEXT = (
    "no soup has ended for 2 seconds under b23s3 with --limit 30300; --soup-seconds 0 waits for ever, "
    "and this shows how a soup grows: census soup --seed a 0 | census run 1000 --rule b23s3 --sizes 1"
)


class Stalls(unittest.TestCase):
    def look(self, most: int, *looks: tuple[float, int]) -> Stall:
        """Returns a stall that began at 0 seconds, after these looks: a time and a number of
        soups."""
        clock = Mock(monotonic=Mock(side_effect=[0.0, *(now for now, _ in looks)]))
        with patch("haul.search.stall.time", clock):
            stall = Stall(most)
            for _, soups in looks:
                stall.look(soups)
        return stall

    def test_seconds(self) -> None:
        """The seconds begin anew with each soup. A pause of more than two seconds counts as two."""
        self.assertEqual(self.look(60, (1.5, 0), (3.0, 0)).seconds, 3.0)
        self.assertEqual(self.look(60, (1.5, 0), (3.0, 4)).seconds, 0)
        self.assertEqual(self.look(60, (1.5, 0), (900.0, 0), (901.0, 0)).seconds, 4.5)

    def test_what_follows(self) -> None:
        for seconds, is_long, is_over in (
            (9.5, False, False),
            (10.5, True, False),
            (60, True, True),
        ):
            stall = self.look(60, *((second + 1.0, 0) for second in range(int(seconds))))
            stall.seconds = seconds
            self.assertEqual((stall.is_long(), stall.is_over()), (is_long, is_over))
        self.assertFalse(self.look(0, *((float(second), 0) for second in range(1000))).is_over())

    def test_texts(self) -> None:
        stall = self.look(60, *((second + 1.0, 0) for second in range(12)))
        text = "no soup for 0:00:12, census has 1.3 GB, the search ends after 0:01:00"
        self.assertEqual(stall.text(1_300_000_000), text)
        stall.most = 0
        self.assertEqual(stall.text(12_345_678), "no soup for 0:00:12, census has 12 MB")
        stall.most = 2
        self.assertEqual(stall.last_words(Job("a", "b23s3", STANDARD), 0), TEXT)
        self.assertEqual(
            [format_bytes(size) for size in (0, 999 * 10**6, 10**9)],
            ["0 MB", "999 MB", "1.0 GB"],
        )

    def test_status(self) -> None:
        """The status is about the stall, or about the first batch, while there is nothing else to
        say."""
        status = Status(7, 7, 0, 0, 0, 2.0, 3, stall="no soup for 0:00:12")
        self.assertEqual(status.text(), "no soup for 0:00:12, 7 soups so far")
        self.assertEqual(status.short_text(), "no soup for 0:00:12")
        status = Status(2000, 2000, 0, 0, 0, 2.0, 5000, first_batch=(2000, 100_000))
        self.assertEqual(
            status.text(),
            "first batch: 2,000 of 100,000 soups, 1,000 per second, running for 0:00:02, 0:00:05 left",
        )
        self.assertEqual(
            status.short_text(), "first batch: 2k of 100k soups 1k/s 0:00:02 0:00:05 left"
        )


class StalledSearches(Searches):
    def test_it_ends(self) -> None:
        """The search ends if no soup does. What it had before is kept."""
        words = ["--seed=a", "--rule=b23s3"]
        program = self.stub("sleep 77")
        self.assertEqual(
            self.search(*words, "--soup-seconds=2", program=program), (5, "", f"haul: {TEXT}\n")
        )
        self.assert_nothing_runs()
        self.assert_left("mine.haul.lock", "stub")

    def test_an_interrupt(self) -> None:
        """Ctrl-C says what it waits for. At first, the status is about the first batch."""
        program = self.stub("sleep 77")
        with patch("haul.search.status_line.SECONDS_ELSEWHERE", 0.5):
            with self.start("--seed=a", "--until=5", program=program, is_forked=True) as search:
                time.sleep(1.5)
                for _ in range(2):
                    search.send_signal(signal.SIGINT)
                    time.sleep(0.3)
                errors = search.communicate(timeout=60)[1].decode()
        self.assertRegex(
            errors, "^haul: first batch: 0 of 5 soups, 0 per second, running for 0:00:0"
        )
        waits = (
            r"\nhaul: stops after this batch, which has waited 0:00:0\d for a soup; Ctrl-C again"
        )
        self.assertTrue(re.search(waits, errors), errors)


if __name__ == "__main__":
    unittest.main()
