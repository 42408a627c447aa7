"""FILE.finds: what a search hasn't reported yet, so that the next search reports it.
docs/FORMATS.md describes the file."""

from __future__ import annotations

import re
from collections.abc import Iterable, Iterator
from dataclasses import dataclass, field

from haul.formats.haul import NUMBER_LIMIT, Haul, Job, Range
from haul.formats.heads import (
    JOB,
    LINES,
    RANGES,
    AnnouncedLines,
    format_job,
    format_lines,
    format_ranges,
    read_job,
    read_ranges,
)
from haul.formats.ranges import intersect, is_in
from haul.plurals import pluralize, write_count
from haul.search.side_file import SideFile

# The most finds that the file keeps.
MOST_LINES = 100_000
SOUP = rb"(0|[1-9][0-9]{0,12})"
LEFT_OUT = rb"([0-9]{1,15})"
HEAD = re.compile(
    rb"# finds 2 since %b left-out %b soups %b %b %b\n" % (SOUP, LEFT_OUT, RANGES, LINES, JOB)
)
# The first line in version 1.
FIRST_VERSION = re.compile(rb"# finds since %b left-out %b %b\n" % (SOUP, LEFT_OUT, JOB))
FIND = re.compile(rb"(?:[ -~]+\t){3}" + SOUP + rb"(?:\t[ -~]+){2}\n")
# The index of the soup's number among the fields of a find.
SOUP_FIELD = 3


class BadFinds(Exception):
    """Raised if a text isn't a FILE.finds. Gives the reason."""


@dataclass
class Unreported:
    """The fields of the finds that weren't reported, and which objects weren't examined."""

    job: Job
    # The soups of the haul beside which the file was written. `None` in version 1, which doesn't
    # say them.
    ranges: list[Range] | None = None
    # An object still has to be examined if the lowest soup that left it is `since` or higher.
    since: int = NUMBER_LIMIT
    finds: list[list[str]] = field(default_factory=list)
    # How many finds an earlier search left out of the file, because there were too many.
    left_out: int = 0

    def is_empty(self) -> bool:
        return self.since == NUMBER_LIMIT and not self.finds

    def write(self) -> Iterator[bytes]:
        """Yields the lines of FILE.finds. The ranges must be known."""
        assert self.ranges is not None
        left_out = self.left_out + max(0, len(self.finds) - MOST_LINES)
        lines = ["\t".join(fields).encode("ascii") for fields in self.finds[:MOST_LINES]]
        head = (
            f"# finds 2 since {self.since} left-out {left_out} soups {format_ranges(self.ranges)} "
            f"{format_lines(len(lines), lines)} {format_job(self.job)}"
        )
        yield head.encode("ascii") + b"\n"
        for line in lines:
            yield line + b"\n"

    def find_misfit(self, haul: Haul) -> str | None:
        """Returns why this can't be the FILE.finds of a haul, or `None` if there is no reason. The
        haul may lack the last soups, since a search that was killed may have written FILE.finds and
        not FILE."""
        if self.job != haul.job:
            return "other job"
        next_soup = sum(haul.ranges[-1]) if haul.ranges else 0
        if self.ranges is not None and intersect(self.ranges, [(0, next_soup)]) != haul.ranges:
            return "the finds of other soups"
        return None


def read_head(line: bytes) -> tuple[Unreported, AnnouncedLines | None] | None:
    """Reads the first line. Returns `None` if it is another line. Version 1 announces no lines."""
    if found := FIRST_VERSION.fullmatch(line):
        job = read_job(*found.groups()[2:])
        return (Unreported(job, None, int(found[1]), [], int(found[2])), None) if job else None
    found = HEAD.fullmatch(line)
    ranges = read_ranges(found[3]) if found else None
    job = read_job(*found.groups()[5:]) if found else None
    if found is None or ranges is None or job is None:
        return None
    unreported = Unreported(job, ranges, int(found[1]), [], int(found[2]))
    return unreported, AnnouncedLines(found[4], found[5])


def read_unreported(text: Iterable[bytes]) -> Unreported:
    """Reads a text, given by its lines with their line feeds. Raises `BadFinds` if it isn't a
    FILE.finds, or if the lines aren't those that the first line announces."""
    lines = iter(text)
    head = read_head(next(lines, b""))
    if head is None:
        raise BadFinds("line 1: not a header")
    unreported, announced = head
    for number, line in enumerate(lines, 2):
        if not FIND.fullmatch(line) or number > MOST_LINES + 1:
            raise BadFinds(f"line {number}: not a find")
        if announced:
            announced.read(line)
        unreported.finds.append(line.decode("ascii").removesuffix("\n").split("\t"))
    loss = announced.find_loss(len(unreported.finds)) if announced else None
    if loss is not None:
        raise BadFinds(loss)
    return unreported


def open_unreported(haul: Haul, kept: SideFile) -> Unreported:
    """Returns what the previous searches haven't reported about the soups of a haul."""
    unreported = kept.read(read_unreported, BadFinds)
    why = unreported.find_misfit(haul) if unreported is not None else None
    if why is not None:
        kept.reject(why)
        unreported = None
    if unreported is None:
        return Unreported(haul.job)
    if unreported.left_out:
        count = write_count(unreported.left_out, "find")
        were = pluralize(unreported.left_out, "was", "were")
        kept.complain(f"{kept.name}: {count} {were} left out")
    finds = [fields for fields in unreported.finds if is_in(int(fields[SOUP_FIELD]), haul.ranges)]
    return Unreported(haul.job, haul.ranges, unreported.since, finds)
