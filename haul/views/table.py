"""The table of one haul, with the rate of each object."""

from __future__ import annotations

from collections.abc import Iterator
from dataclasses import dataclass, field

from haul.fates.rows import FateRow
from haul.formats.haul import Haul
from haul.hauls.by_parts import Objects
from haul.known.lookup import describe_known, load_known
from haul.known.wanted import Want, is_wanted
from haul.life.parts import Separation
from haul.names.labels import find_label, mark_label
from haul.patterns.codes import read_kind
from haul.patterns.rules import LIFE
from haul.rarity.counted import find_occurrence_of_counted
from haul.rarity.occurrence import Occurrence
from haul.views.fate_rows import list_fate_facts
from haul.views.haul_facts import list_haul_facts, list_part_facts
from haul.views.layout import (
    align_columns,
    format_csv,
    format_figure,
    format_json,
    format_truth,
    make_exact,
)
from haul.views.rarity import RARITY_HEADS, list_rarity_facts, list_rarity_values, list_rarity_words
from haul.views.rates import bound_rarity, compute_rate

BEFORE_RARITY = ["rank", "code", "total", "per_million"]
AT_MOST = ["one_in_at_most"]
AFTER_RARITY = ["samples", "label"]
# The columns of CSV that the text output doesn't have.
MORE_HEADS = ["parts", "strict", "separated", "by_parts"]
CODE = 1


@dataclass
class TableRow:
    """A row of the table, which is about one code."""

    rank: int
    code: str
    total: int
    per_million: float
    # The upper bound that follows from the haul: at most one in this many soups has the object.
    one_in_at_most: int
    samples: list[int]
    separation: Separation
    # Whether the row has the rarity in the reference, and the rarity itself, which is `None` if
    # `census` doesn't count such objects.
    has_rarity: bool = False
    occurrence: Occurrence | None = None
    # The rule of the haul, and what the user's lists of known codes say, or `None` without lists.
    rule: str = LIFE
    known: str | None = None

    def label(self) -> str:
        return find_label(self.code, self.separation, self.rule)

    def words(self) -> list[str]:
        samples = ",".join(map(str, self.samples))
        label = mark_label(self.label(), self.separation) or "-"
        return [
            str(self.rank),
            self.code,
            str(self.total),
            format_figure(self.per_million),
            *self.rarity_words(),
            *self.known_words(),
            samples,
            label,
        ]

    def known_words(self) -> list[str]:
        """Returns the column `known` if there is one, as a single word: the first number of what
        the lists say, or `none`."""
        if self.known is None:
            return []
        first = self.known.split()[0]
        return ["none" if first == "not" else first if first.isdecimal() else "yes"]

    def rarity_words(self) -> list[str]:
        if not self.has_rarity:
            return [str(self.one_in_at_most)]
        return list_rarity_words(self.occurrence)

    def csv_row(self, by_parts: bool) -> list[str]:
        samples = " ".join(map(str, self.samples))
        row = [
            str(self.rank),
            self.code,
            str(self.total),
            str(self.per_million),
            *(
                list_rarity_values(self.occurrence)
                if self.has_rarity
                else [str(self.one_in_at_most)]
            ),
            *([] if self.known is None else [self.known]),
            samples,
            self.label(),
        ]
        separation = self.separation
        return [
            *row,
            " ".join(separation.parts),
            format_truth(separation.is_strict()),
            format_truth(separation.is_separated),
            format_truth(by_parts),
        ]

    def json_object(self) -> dict[str, object]:
        return {
            "rank": self.rank,
            "code": self.code,
            "total": make_exact(self.total),
            "per_million": self.per_million,
            **(
                list_rarity_facts(self.occurrence)
                if self.has_rarity
                else {"one_in_at_most": self.one_in_at_most}
            ),
            **({} if self.known is None else {"known": self.known}),
            "samples": self.samples,
            "label": self.label() or None,
            "parts": list(self.separation.parts),
            "strict": self.separation.is_strict(),
            "separated": self.separation.is_separated,
        }


@dataclass
class RowChoice:
    """Which rows of a table are shown, and in which order."""

    # The letters of the kinds, or `None` for all kinds.
    kind: str | None = None
    # The smallest and the largest period. The latter is `None` if there is no upper limit.
    period: tuple[int, int | None] | None = None
    # Whether pseudo-objects are left out. Objects that couldn't be separated are shown.
    strict: bool = False
    rare: bool = False
    top: int | None = None
    # What an object has to be one of, or nothing.
    wants: list[Want] = field(default_factory=list)

    def has(self, code: str, rule: str) -> bool:
        """Checks whether an object is wanted, and has a chosen kind and period."""
        if self.wants and not is_wanted(self.wants, code, rule):
            return False
        known = read_kind(code)
        if known is None:
            return self.kind is None and self.period is None
        least, most = self.period or (0, None)
        is_period = least <= known.period() and (most is None or known.period() <= most)
        return is_period and (self.kind is None or known.letter in self.kind)


def choose_rows(
    haul: Haul, objects: Objects, choice: RowChoice, has_rarity: bool
) -> list[TableRow]:
    """Returns the chosen rows of a haul's table, by descending total, or with the rarest first. The
    rank of each row is its rank among all rows. If `has_rarity` is set, each row has its rarity in
    the reference."""
    codes = sorted(haul.totals, key=lambda code: (-haul.totals[code], code))
    ranks = [(rank, code) for rank, code in enumerate(codes, 1) if choice.has(code, haul.job.rule)]
    if choice.strict:
        separations = objects.separate_all(code for _, code in ranks)
        ranks = [
            (rank, code)
            for rank, code in ranks
            if separations[code].is_strict() or not separations[code].is_separated
        ]
    shown = (ranks[::-1] if choice.rare else ranks)[: choice.top]
    separations = objects.separate_all(code for _, code in shown)
    rows = [make_row(haul, rank, code, separations[code]) for rank, code in shown]
    known = load_known(haul.job.rule)
    for row in rows:
        row.rule = haul.job.rule
        row.known = None if known is None else describe_known(known, row.separation.parts)
        if has_rarity:
            row.has_rarity, row.occurrence = True, find_occurrence_of_counted(row.code)
    return rows


def make_row(haul: Haul, rank: int, code: str, separation: Separation) -> TableRow:
    total = haul.totals[code]
    return TableRow(
        rank,
        code,
        total,
        compute_rate(total, haul.soups),
        bound_rarity(haul.soups, total),
        haul.samples[code],
        separation,
    )


def list_heads(lines: list[TableRow], has_rarity: bool) -> list[str]:
    known = ["known"] if any(line.known is not None for line in lines) else []
    return [*BEFORE_RARITY, *(RARITY_HEADS if has_rarity else AT_MOST), *known, *AFTER_RARITY]


def format_table_text(lines: list[TableRow], has_rarity: bool, width: int | None) -> Iterator[str]:
    """Yields the lines for a reader. Each value is a single word, except for the label in the last
    column. Only the samples may be empty, in a haul of apgsearch."""
    heads = list_heads(lines, has_rarity)
    texts = {CODE, *(heads.index(head) for head in AFTER_RARITY)}
    return align_columns([heads] + [line.words() for line in lines], texts, CODE, width)


def format_table_csv(lines: list[TableRow], has_rarity: bool, by_parts: bool) -> Iterator[str]:
    return format_csv(
        [list_heads(lines, has_rarity) + MORE_HEADS] + [line.csv_row(by_parts) for line in lines]
    )


def format_table_json(
    haul: Haul, lines: list[TableRow], by_parts: Objects | None, fates: list[FateRow] | None
) -> Iterator[str]:
    """Yields the lines of a JSON object. If totals are by parts, it also has the parts of each
    object of the haul. If `fates` is given, it also has the fates of unsettled soups."""
    facts = list_haul_facts(haul) | {"by_parts": by_parts is not None}
    if fates is not None:
        facts["fates"] = list_fate_facts(fates, haul.soups)
    return format_json(
        facts | list_part_facts(by_parts) if by_parts else facts,
        (line.json_object() for line in lines),
    )
