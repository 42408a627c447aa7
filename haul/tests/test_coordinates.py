"""Coordinates: a pattern given by a line `X Y` for each live cell, which `haul rle` turns into
RLE."""

from __future__ import annotations

import io
import random
import unittest
from unittest.mock import patch

from haul.cli import streams
from haul.patterns.coordinates import is_coordinates
from haul.patterns.rle import format_rle, read_rle
from haul.tests.called import run


def rle(text: str, *words: str) -> tuple[int, str, str]:
    return run("rle", *words, text=text.encode("latin-1"))


class Written(unittest.TestCase):
    def test_a_glider_far_away(self) -> None:
        cells = "-7 -100000\n-6 -99999\n-8 -99998\n-7 -99998\n-6 -99998\n"
        self.assertEqual(
            rle(cells),
            (
                0,
                "#CXRLE Pos=-8,-100000\nx = 3, y = 3, rule = B3/S23\nbo$2bo$3o!\n",
                "",
            ),
        )
        self.assertEqual(
            rle(cells, "--rule=b36s23")[1].splitlines()[1], "x = 3, y = 3, rule = B36/S23"
        )

    def test_as_plaintext(self) -> None:
        """After its first line, the RLE of a pattern in coordinates is the same as the RLE of the
        pattern in plaintext."""
        draw = random.Random("coordinates")
        for _ in range(50):
            width, height = draw.randint(1, 90), draw.randint(1, 40)
            density = draw.choice([0.02, 0.3, 0.9])
            cells = {(draw.randrange(width), draw.randrange(height))} | {
                (x, y) for x in range(width) for y in range(height) if draw.random() < density
            }
            left, top = min(x for x, _ in cells), min(y for _, y in cells)
            width, height = max(x for x, _ in cells) + 1, max(y for _, y in cells) + 1
            rows = [
                "".join("O" if (x, y) in cells else "." for x in range(left, width))
                for y in range(top, height)
            ]
            shuffled = draw.sample(sorted(cells), len(cells))
            status, output, errors = rle("".join(f"{x} {y}\n" for x, y in shuffled))
            first, *lines = output.splitlines()
            self.assertEqual((status, errors, first), (0, "", f"#CXRLE Pos={left},{top}"))
            self.assertEqual(lines, format_rle(rows, "b3s23"))

    def test_without_a_limit(self) -> None:
        """Coordinates may have up to 15 digits. The text may be longer than `PATTERN_LIMIT`, but
        not longer than `INPUT_LIMIT`."""
        status, output, _ = rle("0 0\n999999999999999 -999999999999999\n")
        self.assertEqual(
            (status, output.splitlines()[1]),
            (0, "x = 1000000000000000, y = 1000000000000000, rule = B3/S23"),
        )
        many = "".join(f"{x} 7\n" for x in range(3000))
        with patch.object(streams, "PATTERN_LIMIT", 1000):
            self.assertEqual(rle(many)[1].splitlines()[2], "3000o!")
            self.assertEqual(rle("." * 1001)[0], 5)
        with patch.object(streams, "INPUT_LIMIT", 1000):
            self.assertEqual(rle(many), (5, "", "haul: input longer than 1000 bytes\n"))

    def test_what_is_passed_over(self) -> None:
        """Empty lines and carriage returns are skipped, and a cell may occur twice."""
        self.assertEqual(rle("\n1 2\r\n\r\n1 2\n0 2"), rle("0 2\n1 2\n"))

    def test_no_cell(self) -> None:
        """An empty text isn't read as coordinates, but as plaintext without cells."""
        self.assertEqual(rle(""), (0, "x = 0, y = 0, rule = B3/S23\n!\n", ""))


class Refused(unittest.TestCase):
    def test_places(self) -> None:
        for text, line, column in (
            ("1 2\nx 3\n", 2, 1),
            ("1 2\n3\n", 2, 2),
            ("1 2\n3 \n", 2, 3),
            ("1 2\n3  4\n", 2, 3),
            ("1 2\n3 4 \n", 2, 3),
            ("1 2\n3 4 5\n", 2, 3),
            ("1 2\n-0 4\n", 2, 1),
            ("1 2\n03 4\n", 2, 1),
            ("1 2\n+3 4\n", 2, 1),
            ("1 2\n3 " + "1" * 16 + "\n", 2, 3),
            ("1 2\n" + "1" * 5000 + " 1\n", 2, 1),
            ("1 2\n.OO\n", 2, 1),
        ):
            line_of_error = f"haul: bad coordinates at line {line} column {column}\n"
            self.assertEqual(rle(text), (3, "", line_of_error), text[:20])

    def test_rle_without_a_header_is_none(self) -> None:
        """RLE without a header isn't taken for coordinates, although it may begin with a digit,
        too."""
        self.assertFalse(is_coordinates(b"3o$2bo!"))
        self.assertFalse(is_coordinates(b""))
        self.assertTrue(is_coordinates(b"\n\n-3 5"))
        self.assertEqual(read_rle(b"3o$bo!")[0], ["OOO", ".O."])


class Lines(unittest.TestCase):
    def test_a_line_that_is_cut(self) -> None:
        """No byte of the text is lost, even if the first piece that is read ends within a line."""
        text = b"10 20\n11 20\n12 20\n"
        for limit in range(1, len(text)):
            with patch.object(streams, "PATTERN_LIMIT", limit):
                reader = streams.Streams(io.BytesIO(text), io.StringIO(), io.StringIO())
                with reader.open_pattern(None) as (start, lines):
                    if is_coordinates(start):
                        self.assertEqual(b"".join(lines), text)


if __name__ == "__main__":
    unittest.main()
