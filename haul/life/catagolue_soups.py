"""The soups of Catagolue's samples, such as `C1/k_abcdef12345`.

A sample is a symmetry and the text from which the soup is made: the seed, which apgsearch calls
root, followed by the number. It doesn't matter where the seed ends and the number begins. A rule
may follow the text, as in the address of a sample's page.
"""

from __future__ import annotations

import re
from dataclasses import dataclass
from urllib.parse import unquote

from haul.formats.haul import SYMMETRY
from haul.life.soups import make_soup
from haul.patterns.codes import read_object_address
from haul.patterns.plaintext import Rows, trim_rows
from haul.patterns.rules import LIFE, parse_rule

# The address of a sample's page, up to the sample.
ADDRESS = re.compile(r"(?:https?://)?[^/]*catagolue[^/]*/hashsoup/")
SAMPLE = re.compile(r"(?:([!-.0-~]*)/)?([!-.0-~]*[0-9])")


class BadSample(Exception):
    """Raised if a name isn't the name of a sample that can be shown."""


@dataclass(frozen=True)
class Sample:
    """A sample of Catagolue."""

    # The name as it was given.
    name: str
    # The text from which the soup is made.
    text: str
    # The rule as a value of `--rule`, or `None` if none was given.
    rule: str | None

    def rows(self) -> Rows:
        """Returns the rows of the soup, as `census soup` prints them."""
        return trim_rows(make_soup(self.text))

    def rule_or_life(self) -> str:
        return self.rule or LIFE


def read_sample(name: str) -> Sample:
    """Reads the name of a sample, or the address of its page. Raises `BadSample` if the sample
    can't be shown."""
    known = read_object_address(name)
    if known is not None:
        raise BadSample(
            f"{name}: an object, and not a soup; `haul rarity {known[0]}` says how rare it is"
        )
    address = ADDRESS.match(name)
    words = unquote(name[address.end() :]).rstrip("/") if address else name
    sample, rule = split_rule(words)
    found = SAMPLE.fullmatch(sample)
    symmetry = found[1] if found else sample.partition("/")[0] if "/" in sample else None
    if symmetry not in (None, SYMMETRY):
        raise BadSample(f"{name}: the symmetry is {symmetry}, and not {SYMMETRY}")
    if found is None:
        raise BadSample(f"{name}: not a sample, such as C1/k_abcdef12345")
    return Sample(name, found[2], rule)


def split_rule(words: str) -> tuple[str, str | None]:
    """Splits a sample from the rule that may follow it. A rule is the third of three words between
    slashes. Returns the sample, and the rule or `None`."""
    parts = words.split("/")
    rule = parse_rule(parts[2]) if len(parts) == 3 else None
    return ("/".join(parts[:2]), rule) if rule is not None else (words, None)
