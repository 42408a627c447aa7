"""Compares hauls side by side: how often each haul has each code, with confidence intervals."""

from __future__ import annotations

from collections.abc import Iterable, Iterator, Sequence
from dataclasses import dataclass
from itertools import chain

from haul.formats.haul import Haul
from haul.hauls.by_parts import Objects
from haul.life.parts import Separation
from haul.names.labels import describe_kind, find_name_or_parts, mark_label
from haul.rarity.counted import find_occurrence_of_counted
from haul.rarity.occurrence import Occurrence
from haul.rarity.reference import find_dispersion, is_covered
from haul.statistics.equal_rates import STARRED_BELOW, compute_p_value
from haul.statistics.intervals import find_dispersed_interval, find_interval
from haul.views.haul_facts import (
    describe_lettered_job,
    describe_soups,
    list_csv_facts,
    list_haul_facts,
    list_part_facts,
)
from haul.views.layout import (
    align_columns,
    format_csv,
    format_figure,
    format_json,
    format_truth,
    make_exact,
)
from haul.views.rarity import RARITY_HEADS, list_rarity_facts, list_rarity_values, list_rarity_words
from haul.views.rates import MILLION, compute_rate

# The hauls are named by these letters, so there can't be more hauls than letters.
LETTERS = "ABCDEFGHIJKLMNOP"
MOST_HAULS = len(LETTERS)
UNITS = {"million": MILLION, "soup": 1}
# The columns that each row of CSV has about each haul. The text output has these facts before its
# table.
FACTS = ("seed", "rule", "profile", "soups", "unsettled", "for_good", "objects")
EXPLAINED = "intervals: 95 %"
SINGLY = "~: as if objects came singly"
STARRED = f"*: differs from A (p < {STARRED_BELOW})"


def letter_hauls(hauls: list[Haul]) -> Iterator[tuple[str, Haul]]:
    """Yields the hauls, each with its letter: A for the first, B for the second, and so on."""
    return zip(LETTERS[: len(hauls)], hauls, strict=True)


def rank_codes(hauls: list[Haul], least: int, rare: bool = False) -> list[str]:
    """Returns the codes of which at least one haul has `least` or more objects, by descending rate.
    The rate of a code is its highest rate in any haul. If `rare` is set, the rarest codes come
    first, and codes that all hauls have are left out."""
    codes = [
        code
        for code in set().union(*(haul.totals for haul in hauls))
        if any(haul.totals.get(code, 0) >= least for haul in hauls)
    ]
    rates = {
        code: max(compute_rate(haul.totals.get(code, 0), haul.soups) for haul in hauls)
        for code in codes
    }
    codes.sort(key=lambda code: (-rates[code], code))
    return (
        [code for code in reversed(codes) if not all(code in haul.totals for haul in hauls)]
        if rare
        else codes
    )


@dataclass
class Cell:
    """The count of one code in one haul, with its statistics."""

    total: int
    # The number of objects per million soups, or per soup.
    rate: float
    # The ends of the rate's interval, or `None` if the haul has no soups.
    ends: tuple[float, float] | None
    # The variance of the number of objects in a soup, divided by the mean of that number. It is
    # `None` if it isn't known.
    dispersion: float | None
    # The rate divided by the rate in the first haul. It is `None` in the first haul itself, and if
    # the first haul has no such object.
    ratio: float | None = None
    # The probability that two hauls with equal rates differ at least as much as this haul and the
    # first one do. It is `None` in the first haul itself, and if it can't be computed.
    p_value: float | None = None

    @property
    def differs(self) -> bool:
        return self.p_value is not None and self.p_value < STARRED_BELOW


@dataclass
class Comparison:
    """A comparison of hauls, with one row for each code in `codes`."""

    # If objects are counted by parts, these hauls have the counts of parts, and `objects` has the
    # original hauls.
    hauls: list[Haul]
    objects: list[Objects]
    codes: list[str]
    by_parts: bool = False
    # The unit of rates: per `million` soups or per `soup`.
    per: str = "million"
    # Whether the text has intervals. CSV and JSON always have them.
    has_intervals: bool = True

    def letters(self) -> list[str]:
        return [letter.lower() for letter, _ in letter_hauls(self.hauls)]

    def cells(self, code: str) -> list[Cell]:
        cells = [self.cell(code, haul) for haul in self.hauls]
        first, of_first = cells[0], self.hauls[0]
        for cell, haul in zip(cells[1:], self.hauls[1:], strict=True):
            if first.rate:
                cell.ratio = (
                    cell.total * of_first.soups / (haul.soups * first.total) if haul.soups else 0.0
                )
            if first.dispersion is not None and cell.dispersion is not None:
                cell.p_value = compute_p_value(
                    first.total / first.dispersion,
                    of_first.soups,
                    cell.total / cell.dispersion,
                    haul.soups,
                )
        return cells

    def cell(self, code: str, haul: Haul) -> Cell:
        total, unit = haul.totals.get(code, 0), UNITS[self.per]
        dispersion = find_dispersion(code) if self.is_referred(haul) else None
        ends = None
        if haul.soups:
            low, high = (
                find_interval(total)
                if dispersion is None
                else find_dispersed_interval(total, dispersion)
            )
            ends = low * unit / haul.soups, high * unit / haul.soups
        return Cell(total, compute_rate(total, haul.soups, unit), ends, dispersion)

    def is_referred(self, haul: Haul) -> bool:
        """Checks whether the reference has the dispersions for a haul. It has them for Life with
        the standard profile, if objects are counted by parts."""
        return self.by_parts and is_covered(haul.job)

    def has_rarity(self) -> bool:
        """Checks whether each row has the rarity of its object in the reference."""
        return all(map(self.is_referred, self.hauls))

    def text(self, width: int | None) -> Iterator[str]:
        """Yields the lines for a reader. If `width` is the width of a terminal, long codes are cut
        to fit."""
        for letter, haul in letter_hauls(self.hauls):
            yield describe_lettered_job(letter, haul)
            yield describe_soups(letter, haul, self.by_parts)
        heads = self.heads()
        # All columns between the code and the name have numbers.
        texts = {0, len(heads) - 1}
        yield from align_columns([heads, *map(self.row, self.codes)], texts, 0, width)
        yield self.alone_line()
        if self.has_intervals:
            yield self.explanation()

    def explanation(self) -> str:
        referred = list(map(self.is_referred, self.hauls))
        words = [EXPLAINED] + [SINGLY] * (not all(referred))
        return "; ".join(words + [STARRED] * (referred[0] and any(referred[1:])))

    def heads(self) -> list[str]:
        letters = self.letters()
        heads = [
            [f"total_{letter}", f"per_{self.per}_{letter}", f"interval_{letter}"]
            for letter in letters
        ]
        return [
            "code",
            *self.arranged(heads),
            *(f"{letter}_to_a" for letter in letters[1:]),
            *(RARITY_HEADS if self.has_rarity() else []),
            "name",
        ]

    def row(self, code: str) -> list[str]:
        cells = self.cells(code)
        shown = [
            [str(cell.total), format_figure(cell.rate), format_interval(cell)] for cell in cells
        ]
        ratios = [f"{cell.ratio:.2f}" if cell.ratio is not None else "-" for cell in cells[1:]]
        label = (
            self.name_or_parts(code) or mark_label("", self.separate(code)) or describe_kind(code)
        )
        rarity = list_rarity_words(self.occurrence(code)) if self.has_rarity() else []
        return [code, *self.arranged(shown), *ratios, *rarity, label or "-"]

    def occurrence(self, code: str) -> Occurrence | None:
        """Returns how often a code occurs in the reference, or `None` if `census` doesn't count
        such objects."""
        return find_occurrence_of_counted(code)

    def label(self, code: str) -> str:
        return self.name_or_parts(code) or describe_kind(code)

    def name_or_parts(self, code: str) -> str:
        objects = self.first_with(code)
        return find_name_or_parts(code, objects.separate(code), objects.haul.job.rule)

    def separate(self, code: str) -> Separation:
        """Returns the parts of an object under the rule of the first haul that has the object."""
        return self.first_with(code).separate(code)

    def first_with(self, code: str) -> Objects:
        return next(
            objects
            for objects, haul in zip(self.objects, self.hauls, strict=True)
            if code in haul.totals
        )

    def arranged(self, shown: list[list[str]]) -> Iterable[str]:
        """Arranges the values of all hauls in columns: haul by haul if there are intervals,
        otherwise all totals before all rates."""
        return chain(*shown) if self.has_intervals else chain(*list(zip(*shown, strict=True))[:-1])

    def alone(self, haul: Haul) -> list[str]:
        """Returns the codes that only this haul has."""
        others = [other for other in self.hauls if other is not haul]
        return [
            code
            for code in self.codes
            if code in haul.totals and not any(code in other.totals for other in others)
        ]

    def alone_line(self) -> str:
        return "; ".join(
            f"in {letter} alone: {' '.join(self.alone(haul)) or 'none'}"
            for letter, haul in letter_hauls(self.hauls)
        )

    def csv(self) -> Iterator[str]:
        """Yields the lines of CSV, which has everything that the text output has. A missing value
        is empty."""
        heads = ["code", "name", "alone"]
        for letter in self.letters():
            heads += [
                f"{name}_{letter}"
                for name in (
                    *FACTS,
                    "total",
                    f"per_{self.per}",
                    "low",
                    "high",
                    "ratio",
                    "differs",
                    "parts",
                )
            ]
        heads += ["by_parts", *self.p_heads(), *(RARITY_HEADS if self.has_rarity() else [])]
        return format_csv([heads, *map(self.csv_row, self.codes)])

    def p_heads(self) -> list[str]:
        """Returns the heads of the columns of p-values: `p` if there are two hauls, otherwise one
        head for each haul except A."""
        letters = self.letters()[1:]
        return ["p"] if len(letters) == 1 else [f"p_{letter}" for letter in letters]

    def csv_row(self, code: str) -> list[str]:
        having = [letter for letter, haul in letter_hauls(self.hauls) if code in haul.totals]
        row = [code, self.label(code), having[0] if len(having) == 1 else ""]
        cells = self.cells(code)
        for haul, objects, cell in zip(self.hauls, self.objects, cells, strict=True):
            low, high = map(str, cell.ends) if cell.ends else ("", "")
            ratio = "" if cell.ratio is None else str(cell.ratio)
            facts = list_csv_facts(haul)
            row += [
                *facts,
                str(cell.total),
                str(cell.rate),
                low,
                high,
                ratio,
                "*" if cell.differs else "",
            ]
            row.append(" ".join(objects.separate(code).parts) if code in haul.totals else "")
        p_values = ["" if cell.p_value is None else str(cell.p_value) for cell in cells[1:]]
        rarity = list_rarity_values(self.occurrence(code)) if self.has_rarity() else []
        return [*row, format_truth(self.by_parts), *p_values, *rarity]

    def json(self, fates: Sequence[list[dict[str, object]]] = ()) -> Iterator[str]:
        """Yields the lines of a JSON object that contains a JSON object for each code. `fates` has
        the fates of the unsettled soups of each haul, or nothing."""
        hauls: list[dict[str, object]] = [
            {
                "haul": letter,
                **list_haul_facts(haul),
                "alone": self.alone(haul),
                **list_part_facts(objects),
            }
            for (letter, haul), objects in zip(letter_hauls(self.hauls), self.objects, strict=True)
        ]
        for facts, rows in zip(hauls, fates):
            facts["fates"] = rows
        return format_json(
            {"per": self.per, "by_parts": self.by_parts, "hauls": hauls},
            map(self.json_object, self.codes),
        )

    def json_object(self, code: str) -> dict[str, object]:
        cells = self.cells(code)
        return {
            "code": code,
            "name": self.label(code) or None,
            "totals": [make_exact(cell.total) for cell in cells],
            "rates": [cell.rate for cell in cells],
            "intervals": [list(cell.ends) if cell.ends else None for cell in cells],
            "ratios": [cell.ratio for cell in cells],
            "differs": [cell.differs for cell in cells],
            "p_values": [cell.p_value for cell in cells],
            **(list_rarity_facts(self.occurrence(code)) if self.has_rarity() else {}),
        }


def format_interval(cell: Cell) -> str:
    if cell.ends is None:
        return "-"
    ends = "..".join(map(format_figure, cell.ends))
    return ("~" if cell.dispersion is None else "") + ends + ("*" if cell.differs else "")
