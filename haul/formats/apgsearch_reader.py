"""Reads hauls of apgsearch in the form that Catagolue shows, as described in docs/FORMATS.md."""

from __future__ import annotations

import re
from collections.abc import Iterator
from dataclasses import replace
from typing import IO

from haul.formats.field_reader import BadHaul
from haul.formats.haul import NUMBER_LIMIT, TOTAL_LIMIT, Haul, Job
from haul.formats.profile import STANDARD
from haul.patterns.rules import parse_rule

# The first bytes of a haul of apgsearch. In a haul of `census`, a digit takes the place of the `v`.
BEGINNING = b"@VERSION v"
# A line with more bytes than this, counting its line feed, is refused.
LINE_LIMIT = 2**20
# A word that is needed, such as a code or a seed, is refused if it has more bytes than this.
WORD_LIMIT = 1000
# The first words of the lines that a haul must have before its tables, and of the lines that begin
# the two tables.
NEEDED = ("@VERSION", "@ROOT", "@RULE", "@SYMMETRY", "@NUM_SOUPS", "@NUM_OBJECTS")
TABLE, SAMPLES = "@CENSUS", "@SAMPLE_SOUPIDS"

PRINTED = re.compile(rb"[ -~]*")
NUMBER = re.compile(r"0|[1-9][0-9]*")

NOT_PRINTED = "a byte that isn't printable ASCII"
NO_NUMBER = "no number, which has decimal digits only"
TOO_LARGE = "the number is too large"
TOO_LONG = "the line is too long"
TWICE = "this was said before"
NO_TOTAL = "a row of the table is a code and a total of at least 1"
OTHER_CODE = "the census table doesn't have this code"
OTHER_RULE = "only rules such as b3s23 are read"


def is_apgsearch_haul(first: bytes) -> bool:
    """Checks whether `first` is the first line of a haul of apgsearch."""
    return first.startswith(BEGINNING)


class Line:
    """A line, given by its number and its words. Each word is stored with the column in which it
    begins."""

    def __init__(self, number: int, text: bytes) -> None:
        self.number = number
        fault = PRINTED.match(text)
        assert fault is not None
        if fault.end() < len(text):
            raise BadHaul(number, fault.end() + 1, NOT_PRINTED)
        self.words = [
            (found[0], found.start() + 1) for found in re.finditer(r"\S+", text.decode("ascii"))
        ]

    def bad_word(self, place: int, why: str) -> BadHaul:
        """Returns the fault that the word at `place` is wrong, or that there is no word at
        `place`."""
        if place < len(self.words):
            return BadHaul(self.number, self.words[place][1], why)
        last, column = self.words[-1]
        return BadHaul(self.number, column + len(last), why)

    def word(self, place: int) -> str:
        if place >= len(self.words) or len(self.words[place][0]) > WORD_LIMIT:
            raise self.bad_word(place, "")
        return self.words[place][0]

    def number_below(self, place: int, limit: int) -> int:
        word = self.word(place)
        if not NUMBER.fullmatch(word):
            raise self.bad_word(place, NO_NUMBER)
        if len(word) > len(str(limit)) or int(word) >= limit:
            raise self.bad_word(place, TOO_LARGE)
        return int(word)


def split_lines(first: bytes, number: int, stream: IO[bytes]) -> Iterator[Line]:
    """Yields the lines that aren't blank. `first` is a line that has already been read, and
    `number` is its number. A line may end in a carriage return and a line feed."""
    text = first
    while text:
        if len(text) > LINE_LIMIT:
            raise BadHaul(number, LINE_LIMIT, TOO_LONG)
        line = Line(number, text.removesuffix(b"\n").removesuffix(b"\r"))
        if line.words:
            yield line
        number, text = number + 1, stream.readline(LINE_LIMIT + 1)


def read_apgsearch_haul(first: bytes, number: int, stream: IO[bytes]) -> Haul:
    """Reads a haul of apgsearch whose first line, `first`, has already been read. `number` is the
    number of that line. Raises `BadHaul` if the haul has a fault."""
    lines = split_lines(first, number, stream)
    said: dict[str, Line] = {}
    for line in lines:
        number = line.number
        name = line.word(0)
        if name == TABLE:
            break
        if not name.startswith("@"):
            raise line.bad_word(0, "")
        if name in NEEDED and name in said:
            raise line.bad_word(0, TWICE)
        said[name] = line
    else:
        raise BadHaul(number + 1, 1, f"no line {TABLE}")
    for name in NEEDED:
        if name not in said:
            raise BadHaul(number, 1, f"no line {name} before the table")
    head = read_head(said)
    totals, samples = read_tables(lines)
    return replace(
        head,
        totals=dict(sorted(totals.items())),
        samples={code: samples.get(code, []) for code in sorted(totals)},
    )


def read_head(said: dict[str, Line]) -> Haul:
    """Returns a haul without objects, from the lines before the tables. They are checked in the
    order in which apgsearch writes them."""
    version, seed = said["@VERSION"].word(1), said["@ROOT"].word(1)
    rule = parse_rule(said["@RULE"].word(1))
    if rule is None:
        raise said["@RULE"].bad_word(1, OTHER_RULE)
    return Haul(
        Job(seed, rule, STANDARD, said["@SYMMETRY"].word(1)),
        soups=said["@NUM_SOUPS"].number_below(1, NUMBER_LIMIT),
        apgsearch=version,
        said_objects=said["@NUM_OBJECTS"].number_below(1, TOTAL_LIMIT),
    )


def read_tables(lines: Iterator[Line]) -> tuple[dict[str, int], dict[str, list[int]]]:
    """Reads the rows of the census table, and the rows of samples if there are any."""
    totals: dict[str, int] = {}
    samples: dict[str, list[int]] = {}
    has_samples = False
    for line in lines:
        code = line.word(0)
        if code.startswith("@"):
            has_samples = has_samples or code == SAMPLES
            continue
        if code in samples or (code in totals and not has_samples):
            raise line.bad_word(0, TWICE)
        if not has_samples:
            totals[code] = read_total(line)
        elif code not in totals:
            raise line.bad_word(0, OTHER_CODE)
        else:
            samples[code] = [
                line.number_below(place, NUMBER_LIMIT) for place in range(1, len(line.words))
            ]
    return totals, samples


def read_total(line: Line) -> int:
    total = line.number_below(1, TOTAL_LIMIT)
    if total == 0 or len(line.words) > 2:
        raise line.bad_word(1 if total == 0 else 2, NO_TOTAL)
    return total
