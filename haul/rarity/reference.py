"""The reference: a census of soups of Life with the standard profile, in the folder reference/.

reference/README.md says how it was made and how to check it.
"""

from __future__ import annotations

from dataclasses import dataclass
from functools import cache
from hashlib import sha256
from importlib.resources import files
from pathlib import Path

from haul.formats.haul import Job
from haul.formats.profile import STANDARD
from haul.formats.tables import BadTable, read_table
from haul.patterns.rules import LIFE
from haul.rarity.occurrence import Occurrence

FILE = "parts.tsv"
HEADS = ["code", "total", "soups", "sum_of_squares", "samples"]
# The number of soups of the reference.
SOUPS = 100_000_000
# The SHA-256 of the table, so that a changed digit doesn't go unnoticed.
DIGEST = "ec1175e92f017a496bd5884bd95b6e0bb70dcfe76f5d134a51f04095f6542149"


@dataclass(frozen=True)
class Entry:
    """The row of a part in the reference."""

    # The number of such parts in each soup, summed over all soups. For `squares`, each number is
    # squared before the sum is taken.
    total: int
    squares: int
    # The number of soups that have the part.
    soups: int

    def dispersion(self) -> float:
        """Returns the variance of the part's number in a soup divided by the mean, but at least
        1."""
        return max(1.0, self.squares / self.total - self.total / SOUPS)


Reference = dict[str, Entry]
NONE = Entry(0, 0, 0)


def is_covered(job: Job) -> bool:
    """Checks whether the reference has the rarity of the objects of a job."""
    return job == Job(job.seed, LIFE, STANDARD)


@cache
def load_reference() -> Reference:
    """Returns the table, with an entry for each part. Raises `BadTable` if it is damaged."""
    return parse_reference(read_reference())


def read_reference(name: str = FILE) -> bytes:
    """Reads a table from the package if `haul` is packed, otherwise from the checkout."""
    packed = files("haul").joinpath("reference").joinpath(name)
    if packed.is_file():
        return packed.read_bytes()
    return (Path(__file__).resolve().parents[2] / "reference" / name).read_bytes()


def parse_reference(text: bytes) -> Reference:
    if sha256(text).hexdigest() != DIGEST:
        raise BadTable(FILE, 1, "the table isn't that of the reference, by its SHA-256")
    return {
        code: Entry(int(total), int(squares), int(soups))
        for code, total, soups, squares, _ in read_table(FILE, text, HEADS)
    }


def find_occurrence(code: str) -> Occurrence:
    """Returns how often a part occurs in the soups of the reference."""
    return Occurrence(load_reference().get(code, NONE).soups, SOUPS)


def find_dispersion(code: str) -> float:
    """Returns the dispersion of a part, or 1 if the reference doesn't have the part."""
    entry = load_reference().get(code)
    return 1.0 if entry is None else entry.dispersion()
