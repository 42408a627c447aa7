"""The parts that the first lines of FILE.late and FILE.finds share: which soups of which census the
file is about, and how many lines follow, with their digest. So a line that is lost, doubled or
changed is noticed, and so is a file that belongs to another FILE or to an earlier one."""

from __future__ import annotations

import re
from collections.abc import Iterable
from hashlib import sha256

from haul.formats.haul import NUMBER_LIMIT, Job, Range
from haul.formats.report_lines import PROFILE_TEXT, read_profile
from haul.formats.syntax import RULE, SEED
from haul.plurals import write_count

NUMBER = rb"(0|[1-9][0-9]{0,15})"
# Ranges of soups: `-` if there are none, or a list such as `0+900,5000+100`.
RANGE = re.compile(rb"(0|[1-9][0-9]{0,12})\+([1-9][0-9]{0,12})")
RANGES = rb"(-|[0-9+,]+)"
LINES = rb"lines " + NUMBER + rb" sha256 ([0-9a-f]{64})"
JOB = rb"rule=(" + RULE.pattern + rb") profile=(" + PROFILE_TEXT + rb") (" + SEED.pattern + rb")"


def format_ranges(ranges: Iterable[Range]) -> str:
    return ",".join(f"{first}+{count}" for first, count in ranges) or "-"


def read_ranges(text: bytes) -> list[Range] | None:
    """Reads ranges that ascend and don't touch. Returns `None` if the text has other ranges."""
    ranges: list[Range] = []
    for piece in text.split(b",") if text != b"-" else []:
        found = RANGE.fullmatch(piece)
        first, count = map(int, found.groups()) if found else (0, 0)
        if not found or first + count > NUMBER_LIMIT or ranges and first <= sum(ranges[-1]):
            return None
        ranges.append((first, count))
    return ranges


def format_lines(count: int, lines: Iterable[bytes]) -> str:
    """Returns the fields for the number of lines, and for the digest of all their texts. The texts
    have no line feeds."""
    digest = sha256()
    for line in lines:
        digest.update(line + b"\n")
    return f"lines {count} sha256 {digest.hexdigest()}"


class AnnouncedLines:
    """The lines that a first line announces, to be compared with those that follow it."""

    def __init__(self, count: bytes, digest: bytes) -> None:
        self.announced, self.announced_digest = int(count), digest.decode("ascii")
        self.digest = sha256()

    def read(self, line: bytes) -> None:
        """Takes note of a line, with its line feed."""
        self.digest.update(line)

    def find_loss(self, count: int) -> str | None:
        """Returns why the lines that were read aren't those that are announced, or `None` if they
        are. `count` is the number of these lines."""
        if count != self.announced:
            return f"{write_count(self.announced, 'line')} announced, and {count} there"
        if self.digest.hexdigest() != self.announced_digest:
            return "lines other than those announced"
        return None


def format_job(job: Job) -> str:
    return f"rule={job.rule} profile={job.profile.format()} seed={job.seed}"


def read_job(rule: bytes, profile: bytes, seed: bytes) -> Job | None:
    """Reads the fields of a job. Returns `None` if a number of the profile is out of range."""
    numbers = read_profile(profile)
    if numbers is None:
        return None
    return Job(seed.decode("ascii").removeprefix("seed="), rule.decode("ascii"), numbers)
