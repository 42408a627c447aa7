"""A plain program that does what `gather` does for lines in any order. It was written from
docs/FORMATS.md and docs/COMMANDS.md.
"""

from __future__ import annotations

import functools
import re
import subprocess
from collections import Counter
from collections.abc import Callable
from typing import NamedTuple

from checks.lib.formats import Range, haul_text, profile_pairs
from checks.lib.plain import Profile
from checks.lib.program import CENSUS


class Job(NamedTuple):
    seed: str
    rule: str
    profile: Profile

    def words(self) -> list[str]:
        return [f"--seed={self.seed}", "--rule", self.rule, *profile_pairs(self.profile)]

    def fields(self) -> list[bytes]:
        profile = ",".join(map(str, self.profile))
        return [
            f"rule={self.rule}".encode(),
            f"profile={profile}".encode(),
            f"seed={self.seed}".encode(),
        ]


def decimal(text: bytes, least: int, most: int) -> int | None:
    """Returns the decimal number in a field, or `None` if it isn't a number from `least` to
    `most`.
    """
    if re.fullmatch(rb"0|[1-9][0-9]*", text) and least <= int(text) <= most:
        return int(text)
    return None


def is_profile(field: bytes) -> bool:
    parts = field.removeprefix(b"profile=").split(b",")
    if not field.startswith(b"profile=") or len(parts) != 4:
        return False
    period = decimal(parts[0], 1, 64)
    rest = [
        decimal(parts[1], period or 1, 4096),
        decimal(parts[2], 1, 10_000),
        decimal(parts[3], 0, 100_000),
    ]
    return period is not None and None not in rest


def is_count(before: list[bytes], field: bytes) -> bool:
    code, star, count = field.partition(b"*")
    codes = [it.partition(b"*")[0] for it in before if b"*" in it]
    lawful = (
        star
        and re.fullmatch(rb"[a-z0-9_]{1,400}", code)
        and decimal(count, 1, 2**64 - 1) is not None
    )
    return bool(lawful) and all(earlier < code for earlier in codes[-1:])


def is_number(field: bytes, name: bytes, least: int, most: int) -> bool:
    return field.startswith(name) and decimal(field.removeprefix(name), least, most) is not None


# The conditions for the first fields of a line.
HEAD: list[Callable[[bytes], bool]] = [
    lambda field: field == b"report",
    lambda field: field in (b"1", b"2"),
    lambda field: re.fullmatch(rb"rule=b1?2?3?4?5?6?7?8?s0?1?2?3?4?5?6?7?8?", field) is not None,
    is_profile,
    lambda field: re.fullmatch(rb"seed=[!-~]{0,64}", field) is not None,
    lambda field: is_number(field, b"worker=", 1, 16),
    lambda field: is_number(field, b"soup=", 0, 2**40 - 1),
]


def may_follow(before: list[bytes], field: bytes) -> bool:
    """Checks whether a field may follow the fields before it, which are valid."""
    place = len(before)
    if place < len(HEAD):
        return HEAD[place](field)
    if place == len(HEAD):
        return field == b"unsettled" or is_number(field, b"at=", 0, 100_000)
    if before[7] == b"unsettled":
        return False
    if place == 8 and before[1] == b"2":
        return field in (b"good=yes", b"good=no")
    return is_count(before[8:], field)


def fault_in(line: bytes) -> int | None:
    """Returns the number of bytes before the first field that is wrong, the length of the line if a
    field is missing, or `None` if the line is valid.
    """
    fields = line.split(b" ")
    place = 0
    for number, field in enumerate(fields):
        if not may_follow(fields[:number], field):
            return place
        place += len(field) + 1
    wanted = 9 if len(fields) >= 8 and fields[1] == b"2" and fields[7] != b"unsettled" else 8
    return len(line) if len(fields) < wanted else None


@functools.cache
def finding_of(job: Job, number: int) -> tuple[bytes, ...]:
    """Returns the finding of a soup: the fields of its report line from the eighth field on."""
    asked = [CENSUS, "work", "--worker", "1", "--first", str(number), "--count", "1", *job.words()]
    line = subprocess.run(asked, stdin=subprocess.DEVNULL, capture_output=True, check=True).stdout
    return tuple(line.removesuffix(b"\n").split(b" ")[7:])


def without_mark(finding: tuple[bytes, ...]) -> tuple[bytes, ...]:
    return tuple(field for field in finding if not field.startswith(b"good="))


class Book:
    """The haul of a job, with the soups of some ranges and a number of workers."""

    def __init__(self, job: Job, ranges: list[Range], workers: int) -> None:
        self.job, self.workers = job, workers
        self.numbers = sorted(first + place for first, count in ranges for place in range(count))
        self.taken: list[tuple[int, int]] = []

    def why_not(self, line: bytes) -> str | None:
        """Accepts a line and returns `None`, or returns why the line is refused."""
        place = fault_in(line)
        if place is not None:
            return f"bad line at {place}"
        fields = line.split(b" ")
        if fields[2:5] != self.job.fields():
            return "other job"
        worker, number = int(fields[5][7:]), int(fields[6][5:])
        finding = finding_of(self.job, number)
        if tuple(fields[7:]) != (finding if fields[1] == b"2" else without_mark(finding)):
            return "disagrees"
        if worker > self.workers:
            return f"unknown worker {worker}"
        if number not in self.numbers:
            return f"out of range {number}"
        for of_worker, known in self.taken:
            if known == number:
                return f"double of {number} by {of_worker}"
        self.taken.append((worker, number))
        return None

    def ranges(self) -> list[Range]:
        """Returns the ranges as they are printed: in ascending order, with at least one number
        missing between two of them.
        """
        firsts = [number for number in self.numbers if number - 1 not in self.numbers]
        lasts = [number for number in self.numbers if number + 1 not in self.numbers]
        return [(first, last + 1 - first) for first, last in zip(firsts, lasts)] or [(0, 0)]

    def text(self) -> str:
        totals: Counter[str] = Counter()
        samples: dict[str, list[int]] = {}
        findings = {number: finding_of(self.job, number) for _, number in self.taken}
        for number in sorted(findings):
            for field in findings[number]:
                if b"*" in field:
                    code, _, count = field.decode().partition("*")
                    totals[code] += int(count)
                    samples.setdefault(code, []).append(number)
        return haul_text(
            self.ranges(),
            len(findings),
            seed=self.job.seed,
            rule=self.job.rule,
            profile=self.job.profile,
            unsettled=sum(finding == (b"unsettled",) for finding in findings.values()),
            for_good=sum(b"good=yes" in finding for finding in findings.values()),
            counts=totals,
            samples=samples,
        ).decode()


def answer(job: Job, ranges: list[Range], workers: int, given: bytes) -> tuple[int, str, str]:
    """Returns the status, the output and the error output that `gather` must give."""
    book, told = Book(job, ranges, workers), []
    lines = given.split(b"\n")
    if not lines[-1]:
        lines.pop()
    for number, line in enumerate(lines, 1):
        wrong = book.why_not(line)
        if wrong:
            told.append(f"line {number}: {wrong}\n")
    missing = len(book.numbers) - len(book.taken)
    if missing:
        told.append(f"census: incomplete, {missing} missing\n")
    return 6 if missing else 0, book.text(), "".join(told)
