"""Known patterns, their texts, and soups."""

from __future__ import annotations

import hashlib
from collections.abc import Iterator

from checks.lib.plain import Cells, to_corner

# The number of columns and rows of a soup.
SOUP_SIDE = 16


def drawing(*rows: str) -> Cells:
    return frozenset(
        (x, y) for y, row in enumerate(rows) for x, cell in enumerate(row) if cell == "O"
    )


def plaintext(cells: Cells) -> str:
    """Returns the text of a pattern, with columns from x = 0 and rows from y = 0. All rows have the
    same length.
    """
    if not cells:
        return ""
    width, height = max(x for x, _ in cells) + 1, max(y for _, y in cells) + 1
    rows = [bytearray(b"." * width + b"\n") for _ in range(height)]
    for x, y in cells:
        rows[y][x] = ord("O")
    return b"".join(rows).decode()


def moved(cells: Cells, right: int, down: int) -> Cells:
    return frozenset((x + right, y + down) for x, y in cells)


def quarter_turns(cells: Cells) -> Iterator[Cells]:
    for _ in range(4):
        yield cells
        cells = to_corner((-y, x) for x, y in cells)


def soup(number: int, seed: str = "") -> Cells:
    """Returns the cells of a soup: the bits of the digest of its seed and number."""
    digest = hashlib.sha256(f"{seed}{number}".encode()).digest()

    def lives(x: int, y: int) -> bool:
        return bool(digest[2 * y + x // 8] >> (7 - x % 8) & 1)

    return frozenset((x, y) for y in range(SOUP_SIDE) for x in range(SOUP_SIDE) if lives(x, y))


BLOCK = drawing("OO", "OO")
BLINKER = drawing("OOO")
GLIDER = drawing(".O.", "..O", "OOO")
R_PENTOMINO = drawing(".OO", "OO.", ".O.")
SPACESHIPS = [
    GLIDER,
    drawing(".O..O", "O....", "O...O", "OOOO."),
    drawing("...O..", ".O...O", "O.....", "O....O", "OOOOO."),
    drawing("...OO..", ".O....O", "O......", "O.....O", "OOOOOO."),
]
# These two patterns grow without end. The first lays blocks, and the second flies at half the speed
# of light.
SWITCH_ENGINE = drawing("......O.", "....O.OO", "....O.O.", "....O...", "..O.....", "O.O.....")
PUFFER = drawing(
    ".OOO......O.....O......OOO.",
    "O..O.....OOO...OOO.....O..O",
    "...O....OO.O...O.OO....O...",
    "...O...................O...",
    "...O..O.............O..O...",
    "...O..OO...........OO..O...",
    "..O...OO...........OO...O..",
)
RABBITS = drawing("O...OOO", "OOO..O.", ".O.....")
