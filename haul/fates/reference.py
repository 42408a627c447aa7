"""What became of the unsettled soups of the reference census, from the file reference/fates.tsv."""

from __future__ import annotations

from functools import cache

from haul.fates.growth import ENGINES
from haul.fates.guns import GUNS
from haul.fates.rows import read_fate
from haul.fates.shuttles import SHUTTLES
from haul.formats.tables import BadTable, read_table
from haul.names.spelling import simplify
from haul.rarity.occurrence import Occurrence
from haul.rarity.reference import SOUPS, read_reference

FILE = "fates.tsv"
HEADS = ["soup", "fate"]
# What fates name, and what is said of both engines.
ENGINE = "switch engine"
NAMES = [*ENGINES.values(), ENGINE, *(gun.name for gun in GUNS), *(one.name for one in SHUTTLES)]


@cache
def load_fates() -> dict[int, str]:
    """Returns the text of the fate of each unsettled soup. Raises `BadTable` if the file is
    damaged."""
    fates: dict[int, str] = {}
    for number, (soup, fate) in enumerate(read_table(FILE, read_reference(FILE), HEADS), 2):
        if not soup.isdecimal() or int(soup) in fates or read_fate(fate) is None:
            raise BadTable(FILE, number, "not a soup and its fate")
        fates[int(soup)] = fate
    return fates


def find_fate_name(name: str) -> str | None:
    """Returns the name as it is in fates, or `None` if fates don't name it."""
    return next((one for one in NAMES if simplify(one) == simplify(name)), None)


def count_fates_with(name: str) -> Occurrence:
    """Returns how many soups of the reference are unsettled because of what has this name."""
    return Occurrence(sum(name in fate for fate in load_fates().values()), SOUPS)
