"""Small patterns as the bits of a number. A generation is then a few operations on that number,
which take a tenth of the time that sets of cells take.

Bit `STRIDE * y + x` is the cell (x, y). A pattern that is read is moved so that its bounding box
begins at the cell (`MARGIN`, `MARGIN`). Its *room* in all generations is this box with `MARGIN - 1`
more columns and rows on each side:

    . . . . . . . . . .     Two cells (O) in their room (r), if the margin were three. No room has
    . r r r r r r . . .     cells in the first or in the last column. So the last cell of a row and
    . r r r r r r . . .     the first cell of the next row, whose bits are adjacent, are never taken
    . r r O O r r . . .     for neighbours.
    . r r r r r r . . .
    . r r r r r r . . .
"""

from __future__ import annotations

from functools import cache

from haul.life.apgcodes import ROWS_OF_COLUMN, read_columns
from haul.life.cells import Cells
from haul.life.generations import Rule

STRIDE, MARGIN = 64, 4
# The most columns and rows of a pattern, so that the last column isn't in its room.
MOST_SIDE = STRIDE - 2 * MARGIN
CORNER = MARGIN * STRIDE + MARGIN
ROW = (1 << STRIDE) - 1
# Shifts by these numbers of rows, one after another, join 64 rows into one.
HALVES = (32, 16, 8, 4, 2, 1)
# The live cells of the column that a character stands for, as bits.
COLUMNS = {
    character: sum(1 << STRIDE * row for row in rows) for character, rows in ROWS_OF_COLUMN.items()
}


def read_bitmap(text: str) -> int | None:
    """Reads a pattern in extended Wechsler format. Returns `None` if the text isn't in this format,
    or if the pattern has no live cells, has a live cell after the first `MOST_SIDE` columns, or is
    more than `MOST_SIDE` rows high."""
    columns = read_columns(text)
    if not columns:
        return None
    above, below = columns[0][1], columns[-1][1]
    if below - above >= MOST_SIDE or max(x for x, _, _ in columns) >= MOST_SIDE:
        return None
    bits = 0
    for x, top, character in columns:
        bits |= COLUMNS[character] << STRIDE * (top - above) + x
    bits = shift_to_corner(bits)
    return bits if bits >> STRIDE * (MARGIN + MOST_SIDE) == 0 else None


def list_cells(bits: int) -> Cells:
    """Returns the cells of a pattern, moved so that the bounding box begins at (0, 0) instead of
    (`MARGIN`, `MARGIN`)."""
    return frozenset(
        [
            (place % STRIDE - MARGIN, place // STRIDE - MARGIN)
            for place, digit in enumerate(bin(bits)[:1:-1])
            if digit == "1"
        ]
    )


def find_corner(bits: int) -> int:
    """Returns the place of the bit for the top left corner of a pattern's bounding box."""
    top = find_lowest(bits) // STRIDE * STRIDE
    return top + find_lowest(join_rows(bits))


def find_lowest(bits: int) -> int:
    """Returns the place of the lowest 1 of a number."""
    return (bits & -bits).bit_length() - 1


def join_rows(bits: int) -> int:
    """Returns the columns that have a live cell, as the bits of one row."""
    for rows in HALVES:
        bits |= bits >> STRIDE * rows
    return bits & ROW


def shift(bits: int, move: int) -> int:
    return bits << move if move >= 0 else bits >> -move


def shift_to_corner(bits: int) -> int:
    return bits >> find_corner(bits) << CORNER


def find_move(one: int, other: int) -> int | None:
    """Returns the number of bits by which the pattern `one` must be shifted to become `other`, or
    `None` if no shift does that."""
    if one == other:
        return 0
    if one.bit_count() != other.bit_count():
        return None
    move = find_corner(other) - find_corner(one)
    return move if shift(one, move) == other else None


def find_room(bits: int) -> int:
    """Returns the room of a pattern whose bounding box begins at (`MARGIN`, `MARGIN`)."""
    columns = join_rows(bits).bit_length() - MARGIN
    return make_room(columns, -(-bits.bit_length() // STRIDE) - MARGIN)


@cache
def make_room(columns: int, rows: int) -> int:
    more = 2 * (MARGIN - 1)
    row = (1 << columns + more) - 1 << 1
    return sum(row << STRIDE * y for y in range(1, rows + more + 1))


def advance(rule: Rule, bits: int) -> int:
    """Returns the next generation of a pattern whose cells are all in a room. The next generation
    may have cells in the columns and rows next to the room.

    Each bit of the numbers below is about the neighbours of one cell. The bits at the cell's place
    in `ones`, `twos`, `fours` and `eights` are the binary digits of its number of live neighbours.
    """
    beside, both = bits << 1 ^ bits >> 1, bits << 1 & bits >> 1
    # The number of live cells in each row of three: a cell and the two cells beside it.
    row_ones, row_twos = beside ^ bits, both | beside & bits
    above, below = row_ones << STRIDE, row_ones >> STRIDE
    odd = above ^ below
    ones, twos_of_ones = odd ^ beside, above & below | odd & beside
    above, below = row_twos << STRIDE, row_twos >> STRIDE
    one, other = above ^ below, both ^ twos_of_ones
    twos = one ^ other
    first, second, third = above & below, both & twos_of_ones, one & other
    fours, eights = first ^ second ^ third, first & second | (first ^ second) & third
    digits = (ones, twos, fours, eights)
    return select(digits, rule.births) & ~bits | select(digits, rule.survivals) & bits


def select(digits: tuple[int, ...], counts: frozenset[int]) -> int:
    """Returns the places at which the number with these binary digits is one of the counts. If 0 is
    a count, the result is a negative number: all its bits from some place on are 1."""
    found = 0
    for count in counts:
        places = -1
        for power, digit in enumerate(digits):
            places &= digit if count >> power & 1 else ~digit
        found |= places
    return found


def grow(bits: int) -> int:
    """Returns the cells of a pattern and their neighbours."""
    bits |= bits << 1 | bits >> 1
    return bits | bits << STRIDE | bits >> STRIDE


def find_islands(phases: list[int]) -> list[int]:
    """Returns the islands of an object, as `find_islands` in haul/life/clusters.py defines them.
    Each island is given by its cells in phase 0."""
    left, islands = phases[0], []
    while left:
        reached, before = left & -left, 0
        while reached != before:
            before = reached
            for phase in phases:
                reached |= grow(reached & phase) & phase
        islands.append(reached & phases[0])
        left &= ~reached
    return islands


def is_cluster(bits: int) -> bool:
    """Checks whether all live cells are connected by steps of at most two columns and two rows."""
    reached, before = bits & -bits, 0
    while reached != before:
        before = reached
        reached |= grow(grow(reached)) & bits
    return reached == bits
