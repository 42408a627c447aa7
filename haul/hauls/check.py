"""Checks a haul: either takes its census again and compares the results, or runs only its sample
soups."""

from __future__ import annotations

import tempfile
from collections.abc import Iterator

from haul.census.children import NoCensus
from haul.census.client import Census
from haul.census.command_lines import split_ranges
from haul.formats.field_reader import BadHaul
from haul.formats.haul import Haul, Job, Range
from haul.formats.haul_reader import read_one_haul
from haul.formats.haul_writer import format_header, format_sample_row
from haul.hauls.join import Joining

# The most sample soups in one call of `census`. Several calls run at a time.
SAMPLES_IN_A_CALL = 500
# With fewer sample rows, a haul with many wrong rows may still be nearly right.
LEAST_ROWS = 5


def retake(census: Census, haul: Haul) -> Haul:
    """Takes the census of a haul again on this machine, with the same job and the same set of
    soups, and returns the new haul."""
    joining = Joining()
    for ranges in split_ranges(haul.ranges):
        joining.add(take_set(census, haul.job, ranges))
    return joining.result()


def take_set(census: Census, job: Job, ranges: list[Range]) -> Haul:
    """Returns the haul of a set of soups that is small enough for one call."""
    with tempfile.TemporaryFile() as text:
        census.take(job, ranges, text)
        text.seek(0)
        try:
            haul = read_one_haul(text)
        except BadHaul:
            raise NoCensus.at(census.path) from None
    if (haul.job, haul.ranges, haul.soups) != (job, ranges, haul.size()):
        raise NoCensus.at(census.path)
    return haul


def list_differences(haul: Haul, right: Haul) -> Iterator[str]:
    """Yields a message about each fault of a haul, in the order of its lines. `right` is the
    correct haul."""
    for line, (is_so, should_be) in enumerate(
        zip(format_header(haul), format_header(right), strict=True), haul.line
    ):
        if is_so != should_be:
            yield describe_difference(line, is_so, should_be)
    lines = {code: line for line, code in enumerate(haul.totals, haul.first_total_line())}
    for code in sorted(haul.totals.keys() | right.totals.keys()):
        if code not in haul.totals:
            yield f"missing: {code} {right.totals[code]}"
        elif code not in right.totals:
            yield f"line {lines[code]}: {code}, should not be there"
        elif haul.totals[code] != right.totals[code]:
            yield describe_difference(
                lines[code], f"{code} {haul.totals[code]}", f"{code} {right.totals[code]}"
            )
    for line, (code, numbers) in enumerate(haul.samples.items(), haul.first_sample_line()):
        if code in right.samples and numbers != right.samples[code]:
            yield describe_difference(
                line, format_sample_row(code, numbers), format_sample_row(code, right.samples[code])
            )


def count_right_rows(haul: Haul, right: Haul) -> int:
    return sum(right.samples.get(code) == row for code, row in haul.samples.items())


def resembles_nothing(haul: Haul, right: Haul) -> bool:
    """Checks whether fewer than half of several sample rows are right. Then the haul has another
    seed, another rule or other soups than it says. Rows of frequent objects may still be right,
    since nearly every soup leaves them."""
    rows = len(haul.samples)
    return rows >= LEAST_ROWS and count_right_rows(haul, right) < rows / 2


def count_samples(haul: Haul) -> int:
    """Returns the number of different sample soups."""
    return len({number for row in haul.samples.values() for number in row})


def describe_difference(line: int, is_so: str, should_be: str) -> str:
    return f"line {line}: is {is_so}, should be {should_be}"


def find_wrong_samples(census: Census, haul: Haul) -> Iterator[str]:
    """Yields a message for each sample whose soup leaves no object with the sample's code, in the
    order of the haul."""
    left = find_codes_left(census, haul)
    for line, (code, numbers) in enumerate(haul.samples.items(), haul.first_sample_line()):
        for number in numbers:
            if code not in left[number]:
                yield f"line {line}: soup {number} leaves no {code}"


def find_codes_left(census: Census, haul: Haul) -> dict[int, set[str]]:
    """Returns the codes of the objects that each sample soup leaves."""
    numbers = sorted({number for row in haul.samples.values() for number in row})
    reports = census.ask_in_parts(
        lambda part: census.reports(haul.job, part), numbers, SAMPLES_IN_A_CALL, "soups run"
    )
    # A field with a star is a code and its number of objects.
    return {
        number: {field.partition("*")[0] for field in fields if "*" in field}
        for some in reports
        for number, fields in some.items()
    }
