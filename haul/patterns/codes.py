"""Reads what a code says about its object."""

from __future__ import annotations

import re
from typing import NamedTuple

# A prefix, such as `xs4`, `xp2` or `xq4`. If an object is too large to be drawn by its code, the
# prefix begins with `ov_` instead of `x`, and is the whole code.
PREFIX = re.compile(r"(?:x|ov_)([spq])([0-9]+)")
DRAWN_CODE = re.compile(r"x[spq][0-9]+_([0-9a-z]+)")

# The address of an object's page on Catagolue. A rule may follow the code.
ADDRESS = re.compile(r"(?:https?://)?[^/]*catagolue[^/]*/object/([A-Za-z0-9_]+)(?:/([^/]*)/?)?")


class Kind(NamedTuple):
    """What the prefix of a code says."""

    # `s`, `p` or `q`.
    letter: str
    # The number of cells of a still life, or the period of anything else.
    number: int

    def period(self) -> int:
        return 1 if self.letter == "s" else self.number


def read_kind(code: str) -> Kind | None:
    """Returns the kind in a code's prefix, or `None` if the code has no such prefix."""
    found = PREFIX.match(code)
    return Kind(found[1], int(found[2])) if found else None


def read_drawing(code: str) -> str | None:
    """Returns the part of a code that draws its object, or `None` if the code has no such part."""
    found = DRAWN_CODE.fullmatch(code)
    return found[1] if found else None


def is_large(code: str) -> bool:
    """Checks whether an object is too large to be drawn by its code."""
    return code.startswith("ov_")


def read_object_address(text: str) -> tuple[str, str | None] | None:
    """Returns the code and the rule in the address of an object's page on Catagolue. The rule is
    `None` if it is missing. Returns `None` if the text isn't such an address."""
    found = ADDRESS.fullmatch(text)
    return (found[1], found[2] or None) if found else None
