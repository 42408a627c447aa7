"""A random choice of files to check, which anyone can repeat, and the probability that it misses
all wrong files."""

from __future__ import annotations

import secrets
import string
from hashlib import sha256
from math import comb

from haul.plurals import pluralize, write_count

CHOICE_LENGTH = 12
# The probability is computed for the case that one file in this many is wrong.
FILES_FOR_ONE_WRONG = 100


class FileChoice:
    """A choice of `number` files, or of `number` pieces of an index: those with the lowest SHA-256
    digests of the text `choice`, a space and the name."""

    def __init__(
        self, files: list[str], number: int, choice: str | None, thing: str = "file"
    ) -> None:
        """Prepares a choice among the files, of which there must be at least `number`. If `choice`
        is `None`, a random text is drawn. `thing` is the noun for a file in messages."""
        self.files = files
        self.thing = thing
        self.number = number
        self.choice = choice or "".join(
            secrets.choice(string.ascii_lowercase + string.digits) for _ in range(CHOICE_LENGTH)
        )

    def choose(self) -> list[str]:
        """Returns the chosen files in the order in which they were given."""
        places = sorted(
            range(len(self.files)), key=lambda place: (self.digest(self.files[place]), place)
        )
        return [self.files[place] for place in sorted(places[: self.number])]

    def digest(self, name: str) -> bytes:
        return sha256(f"{self.choice} {name}".encode("utf-8", "surrogateescape")).digest()

    def text(self) -> str:
        """Returns a line that says how many files are chosen, and how likely such a choice is to
        miss all wrong files."""
        files = len(self.files)
        wrong, chance = count_wrong_files(files), compute_chance_to_miss(files, self.number)
        return (
            f"choice {self.choice}: {self.number} of {write_count(files, self.thing)}; "
            f"if {wrong} {pluralize(wrong, 'was', 'were')} wrong, a choice like this would miss "
            f"{pluralize(wrong, 'it', 'them all')} with probability {chance:.4f}"
        )


def count_wrong_files(files: int) -> int:
    """Returns how many files are wrong if one in `FILES_FOR_ONE_WRONG` is, rounded up."""
    return -(-files // FILES_FOR_ONE_WRONG)


def compute_chance_to_miss(files: int, number: int) -> float:
    """Returns the probability that none of `number` chosen files is wrong, if
    `count_wrong_files(files)` of the files are (hypergeometric distribution)."""
    return comb(files - count_wrong_files(files), number) / comb(files, number)
