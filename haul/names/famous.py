"""Famous patterns that a census doesn't count as an object, from the file patterns.tsv.

The patterns were drawn from memory, and `haul/tests` checks that each does what the file says.
"""

from __future__ import annotations

from dataclasses import dataclass
from functools import cache
from importlib.resources import files

from haul.formats.tables import BadTable, read_table
from haul.names.objects import BETWEEN, load_names
from haul.names.spelling import simplify
from haul.patterns.plaintext import Rows
from haul.patterns.rle import read_rle

FILE = "patterns.tsv"
HEADS = ["name", "also", "kind", "about", "rle"]
# Why a census has no row of a pattern, by the kind of pattern.
WHY = {
    "constellation": "a census counts these objects one by one",
    "methuselah": "it isn't an object, so a census counts what it leaves",
    "growth": "it never settles, so a census counts its soup as unsettled; `haul why` recognises it",
    "long period": "its period is above 64, so a census counts its soup as unsettled; `haul why` "
    "recognises it",
    "pieces": "it is several clusters in every phase, so a census counts its soup as unsettled; "
    "`haul why` recognises it",
}


@dataclass(frozen=True)
class FamousPattern:
    """A row of the file."""

    name: str
    others: tuple[str, ...]
    kind: str
    about: str
    rle: str

    def rows(self) -> Rows:
        return read_rle(self.rle.encode("ascii"), False).rows

    def describe(self) -> str:
        """Returns what the pattern is, and why a census has no row of it."""
        return f"{self.about}; {WHY[self.kind]}"


@cache
def load_famous() -> dict[str, FamousPattern]:
    """Returns the patterns by all their names, in the form that `simplify` returns. Raises
    `BadTable` if the file is damaged."""
    return parse_famous(files("haul.names").joinpath(FILE).read_bytes())


def parse_famous(text: bytes) -> dict[str, FamousPattern]:
    found: dict[str, FamousPattern] = {}
    for number, (name, also, kind, about, rle) in enumerate(read_table(FILE, text, HEADS), 2):
        others = tuple(also.split(BETWEEN)) if also else ()
        pattern = FamousPattern(name, others, kind, about, rle)
        for one in map(simplify, (name, *others)):
            if not one or one in found or one in load_names().codes or kind not in WHY:
                raise BadTable(FILE, number, "a name that isn't new, or an unknown kind")
            found[one] = pattern
    return found


def find_famous(name: str) -> FamousPattern | None:
    """Returns the pattern with this name, or `None` if there is none."""
    return load_famous().get(simplify(name))
