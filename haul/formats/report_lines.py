"""Reads report lines of versions 1 and 2, as described in docs/FORMATS.md, and finds the fault of a
bad line."""

from __future__ import annotations

import re
from dataclasses import dataclass

from haul.formats.haul import NUMBER_LIMIT, TOTAL_LIMIT, Job
from haul.formats.profile import LIMIT, Profile
from haul.formats.syntax import CODE, RULE, SEED

# A line with more bytes than this is bad, as for `census gather`.
LINE_LIMIT = 2**24
# The smallest and the largest number of a worker and of a soup.
WORKER, SOUP = (1, 16), (0, NUMBER_LIMIT - 1)

NUMBER = rb"(?:0|[1-9][0-9]{0,19})"
PROFILE_TEXT = rb",".join([NUMBER] * 4)
COUNT = CODE.pattern + rb"\*[1-9][0-9]{0,19}"
# A whole line. In version 2, the field after the checkpoint says whether the soup settled for good.
LINE = re.compile(
    rb"report (?:1|(?P<marked>2)) rule=(?P<rule>"
    + RULE.pattern
    + rb") profile=(?P<profile>"
    + PROFILE_TEXT
    + rb") (?P<seed>"
    + SEED.pattern
    + rb") worker=(?P<worker>"
    + NUMBER
    + rb") soup=(?P<soup>"
    + NUMBER
    + rb") (?:unsettled|at=(?P<at>"
    + NUMBER
    + rb")(?(marked) good=(?P<good>yes|no)|)(?P<counts>(?: "
    + COUNT
    + rb")*))"
)

# The fields of a line, one by one.
VERSIONS = (b"1", b"2")
MARKED_VERSION = b"2"
MARKS = (b"good=yes", b"good=no")
UNSETTLED = b"unsettled"
RULE_FIELD = re.compile(rb"rule=" + RULE.pattern)
PROFILE_FIELD = re.compile(rb"profile=(" + PROFILE_TEXT + rb")")
WORKER_FIELD = re.compile(rb"worker=(" + NUMBER + rb")")
SOUP_FIELD = re.compile(rb"soup=(" + NUMBER + rb")")
AT_FIELD = re.compile(rb"at=(" + NUMBER + rb")")
COUNT_FIELD = re.compile(rb"(" + CODE.pattern + rb")\*([1-9][0-9]{0,19})")
VERSION_PLACE, AT_PLACE = 1, 7


class BadLine(Exception):
    """Raised if a line isn't a report line. The place counts bytes from 0. It is where the first
    wrong field begins, or the length of the line if a field is missing."""

    def __init__(self, place: int) -> None:
        super().__init__(f"bad line at {place}")


@dataclass(frozen=True)
class Report:
    """The contents of a report line."""

    job: Job
    soup: int
    # The checkpoint at which the soup has settled, or `None` if it is unsettled.
    settled: int | None
    # Whether the soup settled for good. `None` if it is unsettled, or if the line has version 1,
    # which doesn't say this.
    for_good: bool | None
    # The number of objects of each code that the soup left.
    counts: dict[str, int]

    def objects(self) -> int:
        return sum(self.counts.values())


def read_report_line(line: bytes) -> Report:
    """Reads a line without its line feed. Raises `BadLine` if it isn't a report line."""
    if len(line) > LINE_LIMIT:
        raise BadLine(find_fault(line[:LINE_LIMIT]))
    found = LINE.fullmatch(line)
    report = build_report(found) if found else None
    if report is None:
        raise BadLine(find_fault(line))
    return report


def build_report(found: re.Match[bytes]) -> Report | None:
    """Returns the report in a line that has been matched, or `None` if a number is out of range or
    the codes don't ascend."""
    profile, soup, settled = (
        read_profile(found["profile"]),
        int(found["soup"]),
        int(found["at"]) if found["at"] else None,
    )
    counts = read_counts(found["counts"] or b"")
    is_lawful = (
        is_between(int(found["worker"]), WORKER)
        and is_between(soup, SOUP)
        and is_between(settled or 0, LIMIT)
    )
    if profile is None or counts is None or not is_lawful:
        return None
    job = Job(
        found["seed"].decode("ascii").removeprefix("seed="), found["rule"].decode("ascii"), profile
    )
    return Report(job, soup, settled, found["good"] == b"yes" if found["good"] else None, counts)


def read_profile(text: bytes) -> Profile | None:
    """Reads a profile. Returns `None` if a number is out of range."""
    profile = Profile._make(map(int, text.split(b",")))
    return profile if profile.is_lawful() else None


def read_counts(text: bytes) -> dict[str, int] | None:
    """Returns the number of objects of each code, or `None` if the codes don't ascend or a count is
    too large."""
    pairs = [field.split("*") for field in text.decode("ascii").split()]
    codes = [code for code, _ in pairs]
    counts = {code: int(count) for code, count in pairs}
    return (
        counts
        if len(counts) == len(codes)
        and codes == sorted(codes)
        and max(counts.values(), default=0) < TOTAL_LIMIT
        else None
    )


def is_between(number: int, ends: tuple[int, int]) -> bool:
    least, most = ends
    return least <= number <= most


def find_fault(line: bytes) -> int:
    """Returns where the first wrong field of a bad line begins, or the length of the line if a
    field is missing."""
    fields = line.split(b" ")
    begins = 0
    for place, field in enumerate(fields):
        if not can_follow(fields, place):
            return begins
        begins += len(field) + len(b" ")
    return len(line)


def can_follow(fields: list[bytes], place: int) -> bool:
    """Checks whether the field at `place` is correct, given that all fields before it are."""
    field = fields[place]
    if place < AT_PLACE:
        return is_leading_field(field, place)
    if place == AT_PLACE:
        return field == UNSETTLED or is_number_between(AT_FIELD.fullmatch(field), LIMIT)
    if fields[AT_PLACE] == UNSETTLED:
        return False
    first_count = AT_PLACE + 1
    if fields[VERSION_PLACE] == MARKED_VERSION:
        if place == first_count:
            return field in MARKS
        first_count += 1
    return is_next_count(field, fields[place - 1] if place > first_count else None)


def is_leading_field(field: bytes, place: int) -> bool:
    """Checks whether the field at `place` is correct. The field is one of the first seven, which
    every line has."""
    profile = PROFILE_FIELD.fullmatch(field)
    return bool(
        [
            field == b"report",
            field in VERSIONS,
            RULE_FIELD.fullmatch(field),
            profile and read_profile(profile[1]),
            SEED.fullmatch(field),
            is_number_between(WORKER_FIELD.fullmatch(field), WORKER),
            is_number_between(SOUP_FIELD.fullmatch(field), SOUP),
        ][place]
    )


def is_number_between(found: re.Match[bytes] | None, ends: tuple[int, int]) -> bool:
    return found is not None and is_between(int(found[1]), ends)


def is_next_count(field: bytes, before: bytes | None) -> bool:
    """Checks whether `field` is a code with a count. `before` is the previous code with a count, or
    `None` if `field` is the first one. The codes must ascend."""
    found = COUNT_FIELD.fullmatch(field)
    return (
        found is not None
        and int(found[2]) < TOTAL_LIMIT
        and (before is None or before.split(b"*")[0] < found[1])
    )
