"""The lists of `haul soups`. Each list keeps some facts from the reports, and makes a table of
them."""

from __future__ import annotations

from dataclasses import dataclass, field

from haul.census.client import Census
from haul.census.soup_runs import find_exact_generations, measure_growths
from haul.fates.explain import Fates
from haul.fates.fate import Kind, describe_wrong_line
from haul.formats.haul import Job
from haul.formats.report_lines import Report
from haul.names.objects import find_name
from haul.plurals import pluralize
from haul.views.layout import make_exact
from haul.views.settling import Settling
from haul.views.soup_table import Row, SoupTable, describe_settling


class SoupList:
    """The base of all lists. It lists no soups: its table only has statistics of all soups
    together."""

    def add(self, report: Report) -> None:
        """Keeps what the list needs from a report."""

    def table(self, _job: Job | None, settling: Settling) -> SoupTable:
        """Returns the table of the added reports. `_job` is the job of the reports, or `None` if
        there are no reports."""
        return SoupTable(
            "bars",
            ["from", "to", "settled"],
            [list(bar) for bar in settling.bars()],
            describe_settling(settling),
            has_bars=True,
        )


@dataclass
class Longest(SoupList):
    """The soups that settled last."""

    most: int
    # The program that finds exact generations, or `None` if checkpoints are enough.
    census: Census | None
    # For each checkpoint, the soups that settled there: the number of each soup, and its number of
    # objects. All soups of a checkpoint are kept, because exact generations may decide between
    # them.
    kept: dict[int, list[tuple[int, int]]] = field(default_factory=dict)
    count: int = 0

    def add(self, report: Report) -> None:
        if report.settled is None:
            return
        self.kept.setdefault(report.settled, []).append((report.soup, report.objects()))
        self.count += 1
        first = min(self.kept)
        if self.count - len(self.kept[first]) >= self.most:
            self.count -= len(self.kept.pop(first))

    def table(self, job: Job | None, _settling: Settling) -> SoupTable:
        """Returns the table by descending generation. Among soups with the same generation, lower
        soup numbers come first."""
        rows: list[Row] = [
            [soup, checkpoint, objects]
            for checkpoint, soups in self.kept.items()
            for soup, objects in soups
        ]
        heads = ["soup", "checkpoint", "objects"]
        if self.census and job:
            heads = ["soup", "generation", "checkpoint", "objects"]
            generations = find_exact_generations(
                self.census, job, [soup for soups in self.kept.values() for soup, _ in soups]
            )
            rows = [
                [soup, generation, *rest]
                for (soup, *rest), generation in zip(rows, generations, strict=True)
            ]
        rows.sort(key=lambda row: (-int(row[1] or 0), row[0]))
        return SoupTable("longest", heads, rows[: self.most])


@dataclass
class Unsettled(SoupList):
    """The unsettled soups, each with its population at the last checkpoint and its growth in up to
    1,000 generations before that checkpoint."""

    census: Census
    # Whether the table has the kind of each soup's fate.
    says_why: bool = False
    soups: list[int] = field(default_factory=list)

    def add(self, report: Report) -> None:
        if report.settled is None:
            self.soups.append(report.soup)

    def table(self, job: Job | None, _settling: Settling) -> SoupTable:
        rows: list[Row] = []
        heads = ["soup", "generation", "population", "growth"]
        if job:
            soups = sorted(self.soups)
            rows = [
                [soup, *growth]
                for soup, growth in zip(
                    soups, measure_growths(self.census, job, soups), strict=True
                )
            ]
        if not self.says_why:
            return SoupTable("growth", heads, rows)
        if job:
            fates = Fates(self.census, job).find_all(soups)
            for soup, row, fate in zip(soups, rows, fates, strict=True):
                row.append(fate.kind.value)
                if fate.kind is Kind.SETTLED:
                    self.census.terminal.complain(describe_wrong_line(soup))
        return SoupTable("growth", [*heads, "kind"], rows)


@dataclass
class Leaving(SoupList):
    """The soups that left objects of a code, each with the number of such objects."""

    code: str
    objects: dict[int, int] = field(default_factory=dict)

    def add(self, report: Report) -> None:
        if self.code in report.counts:
            self.objects[report.soup] = report.counts[self.code]

    def table(self, _job: Job | None, _settling: Settling) -> SoupTable:
        total, soups = sum(self.objects.values()), len(self.objects)
        name = find_name(self.code)
        called = self.code if name is None else f"{self.code} ({name})"
        title = (
            f"{called}: {total} {pluralize(total, 'object')} in {soups} {pluralize(soups, 'soup')}"
        )
        rows: list[Row] = [[soup, number] for soup, number in sorted(self.objects.items())]
        return SoupTable(
            "leaving",
            ["soup", "objects"],
            rows,
            title,
            {"code": self.code, "objects": make_exact(total)},
        )
