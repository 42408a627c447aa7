"""Hauls with a single fault. The place of the fault is known from how the haul was made, and not
from the code that reads hauls."""

from __future__ import annotations

import io
import random
import unittest
from collections.abc import Iterator

from haul.formats.field_reader import BadHaul
from haul.formats.haul import Haul
from haul.formats.haul_reader import read_one_haul
from haul.formats.haul_writer import format_haul
from haul.tests.drawn import any_haul

# A line and a column. Both count from 1.
Place = tuple[int, int]
# None of these is a valid field. With an empty field, a line has two spaces in a row, begins or
# ends with a space, or is empty.
NO_FIELDS = ["", "*", "\x01", "\xff", "@", "-1", "x.y"]


class Fields:
    """The lines of a haul, each split into its fields, and the lines where its sections begin."""

    def __init__(self, haul: Haul) -> None:
        self.lines = [line.split(" ") if line else [] for line in format_haul(haul)]
        self.soups = 5 + max(1, len(haul.ranges))
        self.totals = self.soups + 6
        self.samples = self.totals + len(haul.totals) + 2

    def text(self) -> str:
        return "".join(" ".join(line) + "\n" for line in self.lines)

    def place(self, line: int, field: int) -> Place:
        return line + 1, sum(len(word) + 1 for word in self.lines[line][:field]) + 1

    def with_line(self, line: int, fields: list[str]) -> str:
        return "".join(
            " ".join(fields if k == line else it) + "\n" for k, it in enumerate(self.lines)
        )

    def with_field(self, line: int, field: int, word: str) -> str:
        return self.with_line(
            line, [word if k == field else it for k, it in enumerate(self.lines[line])]
        )


def wrong_fields(haul: Haul, at: Fields) -> Iterator[tuple[str, Place]]:
    """Yields hauls with one fault, and the place of the fault. The fault is a field that would be
    wrong in every haul, a field too many, or a field too few."""
    for line, fields in enumerate(at.lines):
        for field in range(len(fields)):
            for word in NO_FIELDS:
                yield at.with_field(line, field, word), at.place(line, field)
        yield at.with_line(line, [*fields, "*"]), (
            line + 1,
            len(" ".join(fields)) + (2 if fields else 1),
        )
        if len(fields) > 2 and line < at.samples or len(fields) == 2:
            yield at.with_line(line, fields[:-1]), (line + 1, len(" ".join(fields[:-1])) + 1)


def wrong_numbers(haul: Haul, at: Fields) -> Iterator[tuple[int, int, int]]:
    """Yields a line, a field, and a number that is out of range there. Lines and fields count from
    0."""
    period = haul.job.profile[0]
    yield from (
        (4, 1, 0),
        (4, 1, 65),
        (4, 2, period - 1),
        (4, 2, 4097),
        (4, 3, 0),
        (4, 3, 10001),
        (4, 4, 100001),
    )
    yield from (
        (at.soups, 1, haul.size() + 1),
        (at.soups + 1, 1, haul.soups + 1),
        (at.soups + 2, 1, haul.soups - haul.unsettled + 1),
    )
    yield from ((at.soups + 3, 1, haul.objects() + 1), (at.soups + 3, 1, 2**64))
    for line, (first, count) in enumerate(haul.ranges, 5):
        yield from ((line, 1, 2**40), (line, 2, 0), (line, 2, 2**40 - first + 1))
    for line, (first, count) in enumerate(haul.ranges[:-1], 6):
        yield from ((line, 1, first), (line, 1, first + count - 1), (line, 1, first + count))
    for line in range(at.totals, at.totals + len(haul.totals)):
        yield from ((line, 1, 0), (line, 1, 2**64))
    for line, numbers in enumerate(haul.samples.values(), at.samples):
        yield from ((line, 1, haul.ranges[0][0] - 1), (line, len(numbers), sum(haul.ranges[-1])))
        yield from ((line, field, numbers[field - 2]) for field in range(2, len(numbers) + 1))


def wrong_writing(haul: Haul, at: Fields) -> Iterator[tuple[str, Place]]:
    """Yields hauls with a number that is written wrongly or is out of range."""
    for line, field, number in wrong_numbers(haul, at):
        if number >= 0:
            yield at.with_field(line, field, str(number)), at.place(line, field)
    for line, fields in enumerate(at.lines):
        for field, word in enumerate(fields):
            if word.isdigit() and field > 0:
                for other in ("0" + word, "+" + word, word + "x", word + ".0", "9" * 10**3):
                    yield at.with_field(line, field, other), at.place(line, field)


def wrong_lines(haul: Haul, at: Fields) -> Iterator[tuple[str, Place]]:
    """Yields hauls in which a line is left out or occurs twice, two lines have changed places, or
    there is a sample too many."""
    lines = at.text().splitlines(True)
    is_row = range(at.totals, at.totals + len(haul.totals))
    for line in range(len(lines)):
        if line in is_row:
            yield "".join(lines[:line] + lines[line + 1 :]), at.place(at.soups + 3, 1)
        elif len(haul.ranges) < 2 or at.lines[line][:1] != ["@RANGE"]:
            yield "".join(lines[:line] + lines[line + 1 :]), (line + 1, 1)
        is_range = bool(haul.ranges) and at.lines[line][:1] == ["@RANGE"]
        yield "".join(lines[: line + 1] + lines[line:]), (line + 2, 8 if is_range else 1)
    for line in is_row[:-1]:
        yield "".join(lines[:line] + [lines[line + 1], lines[line]] + lines[line + 2 :]), (
            line + 2,
            1,
        )
    for line in range(at.samples, len(lines) - 1):
        yield "".join(lines[:line] + [lines[line + 1], lines[line]] + lines[line + 2 :]), (
            line + 1,
            1,
        )
    for line, (code, numbers) in enumerate(haul.samples.items(), at.samples):
        if len(numbers) == min(3, haul.totals[code]):
            more = [*at.lines[line], str(sum(haul.ranges[-1]) - 1)]
            yield at.with_line(line, more), (line + 1, len(" ".join(at.lines[line])) + 2)


def cut(haul: Haul, at: Fields) -> Iterator[tuple[str, Place]]:
    """Yields inputs that are cut off. If an input ends before a field or after the last field of a
    line, the fault is at the end of the input. If the input ends within a word such as `@RULE` or
    `seed=`, the fault is where the word begins."""
    text = ""
    for line, fields in enumerate(at.lines):
        for field, word in enumerate(fields):
            yield text, at.place(line, field)
            if word.startswith(("@", "seed=")):
                yield text + word[: len(word) // 2 if word[0] == "@" else 3], at.place(line, field)
            text += word + (" " if field < len(fields) - 1 else "")
        yield text, (line + 1, len(" ".join(fields)) + 1)
        text += "\n"


class Faults(unittest.TestCase):
    def test_each_is_told_at_its_place(self) -> None:
        draw = random.Random("faults")
        for _ in range(24):
            haul = any_haul(draw)
            at = Fields(haul)
            for kind in (wrong_fields, wrong_writing, wrong_lines, cut):
                for text, place in kind(haul, at):
                    self.assertEqual(place_of(text), place, (kind.__name__, text))


def place_of(text: str) -> Place | None:
    """Returns the place of the fault that is reported for a text, or `None` if the text is a
    haul."""
    try:
        read_one_haul(io.BytesIO(text.encode("latin-1")))
    except BadHaul as bad:
        line, column = (int(word) for word in str(bad).partition(": ")[0].split() if word.isdigit())
        return line, column
    return None


if __name__ == "__main__":
    unittest.main()
