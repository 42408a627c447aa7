"""Opens FILE.late, which keeps the late and unsettled soups of a search, and reads the report lines
of such soups in each batch. A soup is late if it settles at a given checkpoint or later."""

from __future__ import annotations

import argparse

from haul.census.background import BackgroundTake
from haul.census.children import NoCensus
from haul.census.command_lines import format_find_command
from haul.formats.haul import Haul, Job
from haul.formats.late_file import MOST_LINES, ONLY_UNSETTLED, BadLate, Late, LateLine, read_late
from haul.formats.ranges import intersect, is_in
from haul.formats.report_lines import BadLine, read_report_line
from haul.patterns.rules import LIFE
from haul.search.finds import format_time
from haul.search.haul_file import CantUseFile
from haul.search.side_file import SideFile

# Stands for `--late never`: neither late nor unsettled soups are kept.
NEVER = -1
# The default of `--late` under Life: the first generation that is late.
USUAL_LATE = 12_000
UNSETTLED, SETTLED = "unsettled", "settled"


def open_late(asked: argparse.Namespace, haul: Haul, next_soup: int, kept: SideFile) -> Late | None:
    """Returns the late and unsettled soups with which a search continues. For `--late never`,
    removes FILE.late and returns `None`. Raises `CantUseFile` if `--late` gives a lower generation
    than FILE.late, and FILE.late covers soups of the haul."""
    if asked.late == NEVER:
        kept.remove()
        return None
    usual = USUAL_LATE if haul.job.rule == LIFE else ONLY_UNSETTLED
    found = kept.read(read_late, BadLate)
    if found is None:
        return Late(usual if asked.late is None else asked.late, [], haul.job)
    generation = found.generation if asked.late is None else asked.late
    why = find_other_file(found, haul, next_soup)
    if why is not None:
        kept.reject(why)
        return Late(generation, [], haul.job)
    # If the file covers no soup of the haul, it may begin anew at a lower generation.
    if generation < found.generation and intersect(found.covered, haul.ranges):
        raise CantUseFile(
            f"{kept.name}: has soups from generation {found.generation} on, and not from {generation}"
        )
    late = found.choose(haul.ranges, generation)
    late.job = haul.job
    if late != found:
        kept.write(late.write())
    return late


def find_other_file(late: Late, haul: Haul, next_soup: int) -> str | None:
    """Returns why FILE.late can't belong to a haul, or `None` if there is no reason. FILE.late may
    have lines about soups after the haul, since a search that was killed may have written them."""
    for line in late.lines:
        if line.soup < next_soup and not is_in(line.soup, haul.ranges):
            return f"soup {line.soup} isn't in the haul"
    return late.find_misfit(haul)


def list_late_finds(job: Job, lines: BatchLines, latest: int) -> list[list[str]]:
    """Returns the fields of a line for each late or unsettled soup of a batch. `latest` is the
    latest checkpoint of the late soups before the batch, or -1 if there are none."""
    now = format_time()
    finds: list[list[str]] = []
    for line in lines.lines:
        kind, name = UNSETTLED, "-"
        if line.settled is not None:
            so_far = ", the latest so far" if line.settled > latest else ""
            kind, name = SETTLED, f"checkpoint {line.settled}{so_far}"
        command = format_find_command(job, line.soup)
        finds.append([now, kind, name, str(line.soup), command, "-"])
    return finds


class BatchLines:
    """The report lines of a batch that has ended."""

    def __init__(self, call: BackgroundTake, haul: Haul, generation: int, path: str) -> None:
        """Reads the lines of a call whose haul is `haul`. Raises `NoCensus`, with the path of the
        program, if they aren't the lines of the haul's late and unsettled soups."""
        lines = sorted(call.reports)[:MOST_LINES]
        read = [read_line(text, haul.job, generation) for _, text in lines]
        self.lines = [line for line in read if line is not None]
        # The number of lines that were left out.
        self.left_out = call.reported - len(lines)
        soups = {line.soup for line in self.lines}
        unsettled = sum(line.settled is None for line in self.lines)
        ((first, count),) = haul.ranges
        if (
            len(soups) < len(lines)
            or any(not first <= soup < first + count for soup in soups)
            or (not self.left_out and unsettled != haul.unsettled)
        ):
            raise NoCensus.at(path)


def read_line(text: bytes, job: Job, generation: int) -> LateLine | None:
    """Reads a report line of a batch. Returns `None` if it isn't the line of a late or unsettled
    soup of the job."""
    try:
        report = read_report_line(text)
    except BadLine:
        return None
    line = LateLine(report.soup, report.settled, text)
    is_late = line.settled is None or line.settled >= generation
    return line if report.job == job and is_late else None
