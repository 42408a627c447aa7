"""The output of `haul why`: the fate of each soup, or of a pattern."""

from __future__ import annotations

from collections.abc import Iterator, Sequence
from dataclasses import dataclass

from haul.fates.fate import Fate
from haul.fates.rows import FateRow
from haul.formats.haul import Job
from haul.terminal import escape_controls
from haul.views.layout import format_csv, format_json


@dataclass(frozen=True)
class KindTable:
    """The number of soups with each fate."""

    rows: Sequence[FateRow]

    def text(self) -> Iterator[str]:
        for row in self.rows:
            yield f"{row.soups} {row.name}"

    def csv(self) -> Iterator[str]:
        yield from format_csv(
            [["soups", "fate"], *([str(row.soups), row.name] for row in self.rows)]
        )

    def json(self) -> Iterator[str]:
        return format_json(
            {}, ({"fate": row.name, "soups": row.soups} for row in self.rows), "fates"
        )


@dataclass(frozen=True)
class FateTable:
    """A table of soups, or of a single pattern, with their fates."""

    # The job of the soups or of the pattern, or `None` if there are no soups.
    job: Job | None
    # Each soup's number, or the name of the pattern's file, with its fate.
    fates: Sequence[tuple[int | str, Fate]]
    is_of_pattern: bool = False

    def subject(self) -> str:
        return "pattern" if self.is_of_pattern else "soup"

    def text(self) -> Iterator[str]:
        for subject, fate in self.fates:
            yield f"{escape_controls(str(subject))} {fate.text()}"

    def csv(self) -> Iterator[str]:
        facts = list(self.facts().items())
        yield from format_csv([[self.subject(), "kind", "why", *(name for name, _ in facts)]])
        for subject, fate in self.fates:
            row = [str(subject), fate.kind.value, fate.why]
            yield from format_csv([row + ["" if fact is None else fact for _, fact in facts]])

    def json(self) -> Iterator[str]:
        return format_json(
            {
                **self.facts(),
                "profile": list(self.job.profile) if self.job else None,
            },
            (
                {self.subject(): subject, "kind": fate.kind.value, "why": fate.why}
                for subject, fate in self.fates
            ),
            "fates",
        )

    def facts(self) -> dict[str, str | None]:
        """Returns the facts of the job. The job of a pattern has no seed."""
        seed = {} if self.is_of_pattern else {"seed": self.job.seed if self.job else None}
        return {
            **seed,
            "rule": self.job.rule if self.job else None,
            "profile": self.job.profile.format() if self.job else None,
        }
