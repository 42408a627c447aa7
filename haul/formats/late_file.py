"""FILE.late of a search: a first line that says what the file covers, and the report lines of late
and unsettled soups in ascending order. docs/FORMATS.md describes the file."""

from __future__ import annotations

import re
from collections.abc import Iterable, Iterator
from dataclasses import dataclass, field, replace

from haul.formats.haul import NUMBER_LIMIT, Haul, Job, Range, count_numbers
from haul.formats.heads import (
    JOB,
    LINES,
    NUMBER,
    RANGES,
    AnnouncedLines,
    format_job,
    format_lines,
    format_ranges,
    read_job,
    read_ranges,
)
from haul.formats.profile import LIMIT
from haul.formats.ranges import add_range, intersect, is_in
from haul.formats.report_lines import BadLine, read_report_line
from haul.plurals import write_count

# If late soups start at this generation, no checkpoint is late, so only unsettled soups are kept.
ONLY_UNSETTLED = LIMIT[1] + 1
# The most lines that are kept. The soups with the lowest numbers are kept.
MOST_LINES = 100_000
BEGINNING = b"# late "
HEAD = re.compile(
    rb"# late 2 from %b soups %b left-out %b unsettled %b %b %b\n"
    % (NUMBER, RANGES, NUMBER, NUMBER, LINES, JOB)
)
# The first line in version 1, which was `# late`, not followed by a version.
FIRST_VERSION = re.compile(rb"# late %b since %b left-out %b\n" % (NUMBER, NUMBER, NUMBER))
# What became of the unsettled soup whose report line is above.
FATE = re.compile(rb"# fate (0|[1-9][0-9]{0,12}) ([ -~]{1,1000})")


class BadLate(Exception):
    """Raised if a text isn't a FILE.late. Gives the reason."""


@dataclass(frozen=True)
class LateLine:
    """The report line of a late or unsettled soup, without its line feed."""

    soup: int
    # The checkpoint at which the soup has settled, or `None` if it is unsettled.
    settled: int | None
    text: bytes
    # What became of an unsettled soup, or `None` if the file doesn't say it.
    fate: bytes | None = None

    def lines(self) -> list[bytes]:
        """Returns the lines of the text about this soup."""
        return [self.text, *([b"# fate %d %b" % (self.soup, self.fate)] if self.fate else [])]


@dataclass
class Late:
    """The late and unsettled soups of a search."""

    # The first generation that is late.
    generation: int
    # The soups that the file covers: ranges in ascending order that don't touch.
    covered: list[Range]
    # `None` if the text doesn't say the job, as in version 1 without a line.
    job: Job | None
    # The number of lines that were left out.
    left_out: int = 0
    lines: list[LateLine] = field(default_factory=list)
    # The latest checkpoint of a settled soup, or -1 if there is none.
    latest: int = -1

    @property
    def since(self) -> int:
        """The first soup that is covered. If none is, the number after the last soup of all."""
        return self.covered[0][0] if self.covered else NUMBER_LIMIT

    def is_late(self, line: LateLine) -> bool:
        return line.settled is None or line.settled >= self.generation

    def count_unsettled(self) -> int:
        return sum(line.settled is None for line in self.lines)

    def add(self, range_: Range, lines: Iterable[LateLine], left_out: int = 0) -> None:
        """Adds the lines of a batch with the soups in `range_`. Its soups must come after all soups
        that are covered. `left_out` is the number of further lines that the batch has left out."""
        add_range(self.covered, range_)
        self.left_out += left_out
        for line in lines:
            self.add_line(line)

    def add_line(self, line: LateLine) -> None:
        """Adds a line. The numbers of the soups must ascend."""
        if line.settled is not None:
            self.latest = max(self.latest, line.settled)
        if len(self.lines) < MOST_LINES:
            self.lines.append(line)
        else:
            self.left_out += 1

    def choose(self, ranges: list[Range], generation: int) -> Late:
        """Returns what the file would be if it covered only the soups in `ranges`, and if soups
        were late from `generation` on."""
        chosen = Late(generation, intersect(self.covered, ranges), self.job, self.left_out)
        for line in self.lines:
            if is_in(line.soup, ranges) and chosen.is_late(line):
                chosen.add_line(line)
        return chosen

    def write(self) -> Iterator[bytes]:
        """Yields the lines of the text, with their line feeds. The job must be known."""
        assert self.job is not None
        lines = [text for line in self.lines for text in line.lines()]
        head = (
            f"# late 2 from {self.generation} soups {format_ranges(self.covered)} "
            f"left-out {self.left_out} unsettled {self.count_unsettled()} "
            f"{format_lines(len(self.lines), lines)} {format_job(self.job)}"
        )
        yield head.encode("ascii") + b"\n"
        for text in lines:
            yield text + b"\n"

    # ---- Beside a haul

    def find_misfit(self, haul: Haul) -> str | None:
        """Returns why this can't be the FILE.late of a haul, or `None` if there is no reason."""
        if self.job not in (None, haul.job):
            return "other job"
        for first, count in haul.ranges:
            covered = intersect(self.covered, [(first, count)])
            if covered and sum(covered[-1]) < first + count:
                return (
                    f"covers soups up to {sum(covered[-1]) - 1}, and not up to {first + count - 1}"
                )
        return self.find_lost_unsettled(haul)

    def find_lost_unsettled(self, haul: Haul) -> str | None:
        """Compares the number of unsettled soups with the haul's. Returns what is wrong, or `None`
        if nothing is. The numbers must be the same if all soups of the haul are covered and no
        line was left out."""
        count = self.choose(haul.ranges, ONLY_UNSETTLED).count_unsettled()
        is_whole = not self.left_out and self.count_uncovered(haul) == 0
        if count > haul.unsettled or is_whole and count < haul.unsettled:
            return f"has {write_count(count, 'unsettled soup')}, and the haul {haul.unsettled}"
        return None

    def count_uncovered(self, haul: Haul) -> int:
        """Returns the number of soups of a haul that aren't covered."""
        return haul.size() - count_numbers(intersect(self.covered, haul.ranges))


@dataclass(frozen=True)
class Head:
    """The first line of a FILE.late."""

    late: Late
    # `None` in version 1, which announces nothing.
    announced: AnnouncedLines | None = None
    unsettled: int = 0

    def find_loss(self) -> str | None:
        """Returns why the lines that follow aren't those that are announced, or `None` if they
        are."""
        loss = self.announced.find_loss(len(self.late.lines)) if self.announced else None
        count = self.late.count_unsettled()
        if self.announced and loss is None and count != self.unsettled:
            return f"{write_count(self.unsettled, 'unsettled soup')} announced, and {count} there"
        return loss


def read_head(line: bytes) -> Head | None:
    """Reads the first line. Returns `None` if it is another line."""
    if found := FIRST_VERSION.fullmatch(line):
        generation, since, left_out = map(int, found.groups())
        if generation > ONLY_UNSETTLED or since > NUMBER_LIMIT:
            return None
        # Version 1 says only where its soups begin.
        covered = [(since, NUMBER_LIMIT - since)] if since < NUMBER_LIMIT else []
        return Head(Late(generation, covered, None, left_out))
    found = HEAD.fullmatch(line)
    ranges = read_ranges(found[2]) if found else None
    job = read_job(*found.groups()[6:]) if found else None
    if found is None or ranges is None or job is None or int(found[1]) > ONLY_UNSETTLED:
        return None
    late = Late(int(found[1]), ranges, job, int(found[3]))
    return Head(late, AnnouncedLines(found[5], found[6]), int(found[4]))


def is_late_file(path: str) -> bool:
    """Checks whether a file begins like a FILE.late."""
    with open(path, "rb") as file:
        return file.read(len(BEGINNING)) == BEGINNING


def read_late(text: Iterable[bytes]) -> Late:
    """Reads a text, given by its lines with their line feeds. The job is that of the first line, or
    of the report lines in version 1. Raises `BadLate` if the text isn't a FILE.late, or if the
    lines aren't those that the first line announces."""
    lines = iter(text)
    head = read_head(next(lines, b""))
    if head is None:
        raise BadLate("line 1: not a header")
    for number, line in enumerate(lines, 2):
        if head.announced:
            head.announced.read(line)
        if not line.endswith(b"\n"):
            raise BadLate(f"line {number}: no line feed")
        fault = add_next_line(head.late, line.removesuffix(b"\n"))
        if fault is not None:
            raise BadLate(f"line {number}: {fault}")
    loss = head.find_loss()
    if loss is not None:
        raise BadLate(loss)
    return head.late


def add_next_line(late: Late, text: bytes) -> str | None:
    """Adds the next line of a text, without its line feed. Returns what is wrong with the line, or
    `None` if nothing is."""
    if fate := FATE.fullmatch(text):
        last = late.lines[-1] if late.lines else None
        if last is None or last.settled is not None or last.soup != int(fate[1]) or last.fate:
            return "not the fate of the soup above"
        late.lines[-1] = replace(last, fate=fate[2])
        return None
    try:
        report = read_report_line(text)
    except BadLine as bad:
        return str(bad)
    line = LateLine(report.soup, report.settled, text)
    if late.job not in (None, report.job):
        return "other job"
    if late.lines and line.soup <= late.lines[-1].soup:
        return "not in order"
    if not is_in(line.soup, late.covered):
        return "not a soup that is covered"
    if not late.is_late(line):
        return "not late"
    if len(late.lines) == MOST_LINES:
        return "too many lines"
    late.job = report.job
    late.add_line(line)
    return None
