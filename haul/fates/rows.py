"""The unsettled soups of a census, counted by what became of them."""

from __future__ import annotations

import re
from collections import Counter
from collections.abc import Iterable
from dataclasses import dataclass

from haul.fates.fate import Fate, Kind
from haul.formats.late_file import Late, LateLine

# An engine or a gun, behind what it gains in a cycle: `+59 cells in 384 generations (gun)`.
GROWTH = re.compile(r"\+(?P<rate>[^()]+?)(?: \((?P<engine>.+)\))?")
# A count, a code and a name in the explanation of what falls apart. The count and the name may be
# missing.
PIECE = re.compile(r"(?:[0-9]+ )?(?P<code>\w+)(?: \((?P<name>.+)\))?")
NOT_FOUND = "not found yet"
# What is said of the kinds of fates that aren't told apart any further.
NAMES = {
    Kind.SETTLES: "settles after the limit",
    Kind.COLLIDES: "objects collide soon",
    Kind.ACTIVE: "active",
    Kind.UNDECIDED: "not decided",
    Kind.SETTLED: "settled after all",
}


@dataclass(frozen=True)
class FateRow:
    """The soups with one fate."""

    name: str
    soups: int


def read_fate(text: str) -> Fate | None:
    """Returns the fate with this text, or `None` if no fate has it."""
    for kind in Kind:
        why = text.removeprefix(kind.value)
        for between in (": ", " "):
            if why != text and why.startswith(between):
                fate = Fate(kind, why.removeprefix(between))
                if fate.text() == text:
                    return fate
    return None


def name_fate(fate: Fate) -> str:
    """Returns what soups with the same fate are counted as, such as `block-laying switch engine (16
    cells in 144 generations)`."""
    if fate.kind is Kind.GROWS and (growth := GROWTH.fullmatch(fate.why)):
        rate = growth["rate"]
        return f"{growth['engine']} ({rate})" if growth["engine"] else f"linear growth, {rate}"
    if fate.kind is Kind.PERIOD:
        return f"period {fate.why}"
    if fate.kind is Kind.FALLS_APART:
        return " and ".join(dict.fromkeys(map(name_piece, split_pieces(fate.why))))
    return NAMES.get(fate.kind, fate.kind.value)


def split_pieces(why: str) -> list[str]:
    """Splits the explanation of what falls apart at its commas, except for those in parentheses."""
    return re.split(r", (?![^(]*\))", why)


def name_piece(piece: str) -> str:
    found = PIECE.fullmatch(piece)
    # A period of an object that isn't named is a piece, too.
    return piece if found is None else found["name"] or f"{found['code']} in pieces"


def count_fates(fates: Iterable[Fate | None], unsettled: int) -> list[FateRow]:
    """Returns a row for each fate, the most frequent first. A last row has the soups of a census with
    `unsettled` unsettled soups whose fates weren't found."""
    known = Counter(name_fate(fate) for fate in fates if fate is not None)
    rows = sorted(known.items(), key=lambda row: (-row[1], row[0]))
    left = unsettled - sum(known.values())
    return [FateRow(*row) for row in rows] + ([FateRow(NOT_FOUND, left)] if left > 0 else [])


def find_kept_fate(line: LateLine) -> Fate | None:
    """Returns the fate in a FILE.late, or `None` if there is none that `haul` can read."""
    return None if line.fate is None else read_fate(line.fate.decode("ascii"))


def is_missing(line: LateLine) -> bool:
    """Checks whether a soup is unsettled and has no fate, or none that was decided."""
    if line.settled is not None:
        return False
    fate = find_kept_fate(line)
    return fate is None or fate.kind is Kind.UNDECIDED


def count_kept_fates(late: Late, unsettled: int) -> list[FateRow]:
    """Returns the rows of a FILE.late, for a haul with `unsettled` unsettled soups."""
    return count_fates(map(find_kept_fate, late.lines), unsettled)
