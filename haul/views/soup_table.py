"""The output of `haul soups`: facts about all soups together, and a table."""

from __future__ import annotations

from collections.abc import Iterator
from dataclasses import dataclass, field

from haul.formats.haul import Job
from haul.plurals import pluralize
from haul.views.haul_facts import describe_job
from haul.views.layout import align_columns, format_csv, format_figure, format_json, make_exact
from haul.views.settling import Settling

# The columns of CSV that follow the columns of each table.
FACTS = [
    "seed",
    "rule",
    "profile",
    "soups",
    "unsettled",
    "for_good",
    "unmarked",
    "first_quartile",
    "median",
    "third_quartile",
    "mean",
]
# The length of the longest bar, in characters.
LONGEST_BAR = 50


# A row of integers, of which the last may be a word instead. An unknown number is `None`.
Row = list[int | str | None]


@dataclass
class SoupTable:
    """A table of integers, whose last column may have words."""

    # The name of the list of rows in JSON.
    name: str
    heads: list[str]
    rows: list[Row]
    # A line before the table, or an empty text if there is none.
    title: str = ""
    # Further fields of the JSON object.
    facts: dict[str, object] = field(default_factory=dict)
    # Whether the text has a bar for the last number of each row.
    has_bars: bool = False

    def text(self, job: Job | None, settling: Settling) -> Iterator[str]:
        """Yields the lines for a reader."""
        yield from [describe_job(job)] if job else []
        yield describe_settled_soups(settling)
        yield from [self.title] if self.title else []
        rows = [["-" if cell is None else str(cell) for cell in row] for row in self.rows]
        bars = [[bar] for bar in self.bars()] if self.has_bars else [[]] * len(rows)
        shown = [row + bar for row, bar in zip(rows, bars, strict=True)]
        heads = self.heads + [""] * self.has_bars
        yield from align_columns([heads, *shown], self.columns_of_text(), 0, None)

    def columns_of_text(self) -> set[int]:
        """Returns the columns that aren't numbers: the column of bars, and the last column if it
        has words."""
        last = len(self.heads) - 1
        return {last + 1} | (
            {last} if any(isinstance(row[last], str) for row in self.rows) else set()
        )

    def bars(self) -> list[str]:
        """Returns a bar for each row. The longest has `LONGEST_BAR` characters. A bar is empty only
        if the row's number is 0."""
        numbers = [int(row[-1] or 0) for row in self.rows]
        most = max(numbers)
        return ["#" * -(-number * LONGEST_BAR // most) if number else "" for number in numbers]

    def csv(self, job: Job | None, settling: Settling) -> Iterator[str]:
        facts = list_csv_settling(job, settling)
        rows = (["" if cell is None else str(cell) for cell in row] + facts for row in self.rows)
        yield from format_csv([self.heads + FACTS])
        yield from format_csv(rows)

    def json(self, job: Job | None, settling: Settling) -> Iterator[str]:
        rows = (
            [make_exact(cell) if isinstance(cell, int) else cell for cell in row]
            for row in self.rows
        )
        return format_json(
            list_json_facts(job, settling) | self.facts,
            (dict(zip(self.heads, row, strict=True)) for row in rows),
            self.name,
        )


def describe_settled_soups(settling: Settling) -> str:
    soups = settling.soups()
    line = f"{soups} {pluralize(soups, 'soup')}, {settling.unsettled} unsettled"
    line += f", {settling.for_good} for good"
    return f"{line}, {settling.unmarked} unmarked" if settling.unmarked else line


def describe_settling(settling: Settling) -> str:
    quartiles, mean = settling.quartiles(), settling.mean()
    if quartiles is None or mean is None:
        return "no soup has settled"
    first, median, third = quartiles
    quarters = f"first quartile {first}, median {median}, third quartile {third}"
    return f"settled at: {quarters}, mean {format_figure(mean)}"


def list_csv_settling(job: Job | None, settling: Settling) -> list[str]:
    of_job = [job.seed, job.rule, job.profile.format()] if job else [""] * 3
    numbers = [settling.soups(), settling.unsettled, settling.for_good, settling.unmarked]
    quartiles, mean = settling.quartiles(), settling.mean()
    return [
        *of_job,
        *map(str, numbers),
        *(map(str, quartiles) if quartiles else [""] * 3),
        "" if mean is None else str(mean),
    ]


def list_json_facts(job: Job | None, settling: Settling) -> dict[str, object]:
    return {
        "seed": job.seed if job else None,
        "rule": job.rule if job else None,
        "profile": list(job.profile) if job else None,
        "soups": settling.soups(),
        "unsettled": settling.unsettled,
        "for_good": settling.for_good,
        "unmarked": settling.unmarked,
        "quartiles": settling.quartiles(),
        "mean": settling.mean(),
    }
