"""Soups: the 16x16 patterns that are made from a seed and a number."""

from __future__ import annotations

from hashlib import sha256

from haul.patterns.plaintext import Rows

LIVE_AND_DEAD = str.maketrans("01", ".O")
# The number of columns and rows of a soup.
SOUP_SIDE = 16


def make_soup(text: str) -> Rows:
    """Returns the rows of the soup made from `text`, which is a seed followed by a number. The rows
    are the bits of the text's SHA-256, two bytes per row, high bits first."""
    bits = format(
        int.from_bytes(sha256(text.encode("ascii")).digest(), "big"), f"0{SOUP_SIDE * SOUP_SIDE}b"
    ).translate(LIVE_AND_DEAD)
    return [bits[start : start + SOUP_SIDE] for start in range(0, len(bits), SOUP_SIDE)]
