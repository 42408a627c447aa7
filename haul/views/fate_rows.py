"""The rows about unsettled soups, below the objects of a table."""

from __future__ import annotations

from collections.abc import Iterator

from haul.fates.rows import NOT_FOUND, FateRow
from haul.formats.haul import Haul
from haul.rarity.occurrence import Occurrence
from haul.views.compare import letter_hauls
from haul.views.layout import align_columns
from haul.views.rarity import list_rarity_facts, list_rarity_words

HEADS = ["soups", "one_in", "one_in_low", "one_in_high", "unsettled soups"]


def format_fate_rows(rows: list[FateRow], soups: int, width: int | None) -> Iterator[str]:
    """Yields the rows for a reader: the number of soups with a fate, one soup in how many has it, the
    95 % interval of that number, and the fate. `soups` is the number of soups of the census."""
    words = [
        [str(row.soups), *list_rarity_words(Occurrence(row.soups, soups)), row.name] for row in rows
    ]
    last = len(HEADS) - 1
    yield ""
    yield from align_columns([HEADS, *words], {last}, last, width)
    if any(row.name == NOT_FOUND for row in rows):
        yield "`haul why --keep FILE.late` finds what became of the others."


def format_compared_fates(
    fates: list[list[FateRow]], hauls: list[Haul], width: int | None
) -> Iterator[str]:
    """Yields the rows of the first hauls for a reader: the number of soups with a fate in each haul,
    and one soup in how many that is."""
    counts = [{row.name: row.soups for row in rows} for rows in fates]
    names = dict.fromkeys(row.name for rows in fates for row in rows)
    letters = [letter.lower() for letter, _ in letter_hauls(hauls[: len(fates)])]
    heads = [head for letter in letters for head in (f"soups_{letter}", f"one_in_{letter}")]
    words: list[list[str]] = []
    for name in names:
        had = [
            Occurrence(count.get(name, 0), haul.soups)
            for count, haul in zip(counts, hauls, strict=False)
        ]
        words.append([word for one in had for word in (str(one.having), list_rarity_words(one)[0])])
        words[-1].append(name)
    yield ""
    yield from align_columns([[*heads, HEADS[-1]], *words], {len(heads)}, len(heads), width)


def list_fate_facts(rows: list[FateRow], soups: int) -> list[dict[str, object]]:
    """Returns the rows for JSON."""
    return [
        {"fate": row.name, "soups": row.soups, **list_rarity_facts(Occurrence(row.soups, soups))}
        for row in rows
    ]
