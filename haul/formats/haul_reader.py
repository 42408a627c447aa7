"""Reads haul texts, byte for byte as described in docs/FORMATS.md.

A haul of `census` is accepted only in the exact form in which `census take` and `census gather`
print it, so writing a haul that has been read gives the same text again.
"""

from __future__ import annotations

import re
from bisect import bisect_right
from collections.abc import Iterator
from typing import IO

from haul.formats.apgsearch_reader import is_apgsearch_haul, read_apgsearch_haul
from haul.formats.field_reader import BadHaul, FieldReader
from haul.formats.haul import (
    MOST_SAMPLES,
    NUMBER_LIMIT,
    TOTAL_LIMIT,
    Haul,
    Job,
    Range,
    count_numbers,
)
from haul.formats.profile import LIMIT, MOST_HORIZON, PERIOD, STRIDE, Profile
from haul.formats.recognition import recognize
from haul.formats.syntax import CODE, DECIMAL, RULE, SEED

# The rows of the two tables: totals and samples.
TOTAL_ROW = re.compile(rb"([a-z0-9_]{1,400}) ([1-9][0-9]{0,19})\n")
SAMPLE_ROW = re.compile(rb"([a-z0-9_]{1,400})((?: (?:0|[1-9][0-9]{0,12})){1,3})\n")

# The reasons for which a text is wrong although its words are well formed.
NOT_THE_SUM = "the objects are not the sum of the table"
MORE_SAMPLES = "more samples than objects"
CODES_DESCEND = "the codes are not in ascending order"
SAMPLES_DESCEND = "the samples are not in ascending order"
OTHER_CODE = "not the code of the same row of the census table"
OUT_OF_RANGE = "the number is in no range"
TOO_LARGE = "the number is too large"
RANGES_DESCEND = "the ranges are not in ascending order, or touch"
MORE_SOUPS = "more soups than numbers in the ranges"
MORE_UNSETTLED = "more unsettled soups than soups"
MORE_FOR_GOOD = "more soups for good than settled soups"
BELOW_PERIOD = "the horizon is below the period"
MORE_HAULS = "more than one haul, which `haul join` adds up"


def read_hauls(stream: IO[bytes]) -> Iterator[Haul]:
    """Yields the hauls of an input, which must have at least one. Raises `BadHaul` at the first
    fault."""
    lines = FieldReader(stream)
    yield read_first_haul(lines)
    while lines.peek():
        yield read_haul(lines)


def read_any_haul(stream: IO[bytes]) -> Haul:
    """Reads an input that consists of a single haul, which may be a haul of apgsearch. Raises
    `BadHaul` for any other input."""
    lines = FieldReader(stream)
    while lines.peek().strip() == b"" != lines.peek():
        lines.skip()
    if is_apgsearch_haul(lines.peek()):
        return read_apgsearch_haul(lines.peek(), lines.number + 1, stream)
    if lines.number > 0:
        raise BadHaul(1, 1)
    return read_only_haul(lines)


def read_one_haul(stream: IO[bytes]) -> Haul:
    """Reads an input that consists of a single haul. Raises `BadHaul` at the first fault."""
    return read_only_haul(FieldReader(stream))


def read_only_haul(lines: FieldReader) -> Haul:
    haul = read_first_haul(lines)
    if lines.peek():
        raise BadHaul(lines.number + 1, 1, MORE_HAULS if lines.peek() == b"@VERSION 2\n" else "")
    return haul


def read_first_haul(lines: FieldReader) -> Haul:
    """Reads the first haul of an input. If the first line is wrong and the text looks like
    something else, such as an index, the fault says so."""
    first = lines.peek()
    try:
        return read_haul(lines)
    except BadHaul as bad:
        form = recognize(first)
        if form is None or bad.line > 1:
            raise
        raise BadHaul(bad.line, bad.column, f"this looks like {form}") from None


def read_haul(lines: FieldReader) -> Haul:
    begins = lines.number + 1
    lines.only_words(b"@VERSION", b"2")
    job = read_job(lines)
    ranges = read_ranges(lines)
    soups = lines.only_number(b"@NUM_SOUPS", count_numbers(ranges), MORE_SOUPS)
    unsettled = lines.only_number(b"@NUM_UNSETTLED", soups, MORE_UNSETTLED)
    for_good = lines.only_number(b"@NUM_FOR_GOOD", soups - unsettled, MORE_FOR_GOOD)
    objects = lines.only_number(b"@NUM_OBJECTS", TOTAL_LIMIT - 1, TOO_LARGE)
    not_the_sum = lines.bad_field(1, NOT_THE_SUM)
    lines.only_words()
    lines.only_words(b"@CENSUS", b"TABLE")
    totals = read_totals(lines)
    if sum(totals.values()) != objects:
        raise not_the_sum
    lines.only_words(b"@SAMPLE_SOUPIDS")
    samples = read_samples(lines, ranges, totals)
    return Haul(
        job,
        ranges=ranges,
        soups=soups,
        unsettled=unsettled,
        for_good=for_good,
        totals=totals,
        samples=samples,
        line=begins,
    )


def read_job(lines: FieldReader) -> Job:
    lines.next_line()
    lines.word(b"@ROOT")
    seed = lines.matched(SEED).removeprefix("seed=")
    lines.end_line()
    lines.next_line()
    lines.word(b"@RULE")
    rule = lines.matched(RULE)
    lines.end_line()
    lines.only_words(b"@SYMMETRY", b"C1")
    lines.next_line()
    lines.word(b"@PROFILE")
    period = lines.number_in(*PERIOD)
    horizon = lines.number_in(period, MOST_HORIZON, too_small=BELOW_PERIOD)
    stride = lines.number_in(*STRIDE)
    limit = lines.number_in(*LIMIT)
    lines.end_line()
    return Job(seed, rule, Profile(period, horizon, stride, limit))


def read_ranges(lines: FieldReader) -> list[Range]:
    """Reads one or more ranges. A single empty range, which begins at 0, stands for the empty
    set."""
    ranges: list[Range] = []
    least = 0
    while not ranges or lines.peek().removesuffix(b"\n").split(b" ")[0] == b"@RANGE":
        lines.next_line()
        lines.word(b"@RANGE")
        first = lines.number_in(least, NUMBER_LIMIT - 1, RANGES_DESCEND, TOO_LARGE)
        count = lines.number_in(0 if first == 0 else 1, NUMBER_LIMIT - first, too_large=TOO_LARGE)
        lines.end_line()
        if count == 0:
            return []
        ranges.append((first, count))
        # At least one number is missing between two ranges.
        least = first + count + 1
    return ranges


def read_totals(lines: FieldReader) -> dict[str, int]:
    """Reads the rows of the census table and the empty line after them."""
    totals: dict[str, int] = {}
    latest = b""
    while lines.peek() != b"\n":
        found = TOTAL_ROW.fullmatch(lines.peek())
        if found is None or found[1] <= latest or int(found[2]) >= TOTAL_LIMIT:
            raise find_fault_of_total(lines, latest)
        lines.skip()
        latest = found[1]
        totals[latest.decode("ascii")] = int(found[2])
    lines.skip()
    return totals


def find_fault_of_total(lines: FieldReader, latest: bytes) -> BadHaul:
    """Returns why the next line can't follow the row of the code `latest`."""
    try:
        lines.next_line()
        if lines.matched(CODE).encode("ascii") <= latest:
            return lines.bad_field(1, CODES_DESCEND)
        lines.number_in(1, TOTAL_LIMIT - 1, too_large=TOO_LARGE)
        lines.end_line()
    except BadHaul as bad:
        return bad
    raise AssertionError("a row without a fault")


def read_samples(
    lines: FieldReader, ranges: list[Range], totals: dict[str, int]
) -> dict[str, list[int]]:
    """Reads a row of samples for each code of the census table. The samples of a row ascend, and
    each is in one of the ranges."""
    firsts = [first for first, _ in ranges]
    samples: dict[str, list[int]] = {}
    for code, total in totals.items():
        most = min(MOST_SAMPLES, total)
        found = SAMPLE_ROW.fullmatch(lines.peek())
        numbers = list(map(int, found[2].split())) if found else []
        is_right = (
            found is not None
            and found[1].decode("ascii") == code
            and len(numbers) <= most
            and numbers == sorted(set(numbers))
        )
        if not is_right or not all(is_in_ranges(number, ranges, firsts) for number in numbers):
            raise find_fault_of_samples(lines, code, total, ranges, firsts)
        lines.skip()
        samples[code] = numbers
    return samples


def find_fault_of_samples(
    lines: FieldReader, code: str, total: int, ranges: list[Range], firsts: list[int]
) -> BadHaul:
    """Returns why the next line isn't a row of samples for this code."""
    try:
        lines.next_line()
        if lines.matched(CODE) != code:
            return lines.bad_field(1, OTHER_CODE)
        least, most = 0, min(MOST_SAMPLES, total)
        for _ in range(most):
            number = lines.number_in(least, NUMBER_LIMIT, SAMPLES_DESCEND, OUT_OF_RANGE)
            if not is_in_ranges(number, ranges, firsts):
                return lines.bad_field(1, OUT_OF_RANGE)
            least = number + 1
        if (
            lines.read < len(lines.fields)
            and most == total
            and DECIMAL.fullmatch(lines.fields[lines.read])
        ):
            return lines.bad_field(0, MORE_SAMPLES)
        lines.end_line()
    except BadHaul as bad:
        return bad
    raise AssertionError("a row without a fault")


def is_in_ranges(number: int, ranges: list[Range], firsts: list[int]) -> bool:
    """Checks whether a number is in one of the ranges. The ranges ascend, and `firsts` has their
    first numbers."""
    place = bisect_right(firsts, number) - 1
    return place >= 0 and number < ranges[place][0] + ranges[place][1]
