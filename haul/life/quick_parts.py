"""The generations of small objects, with each pattern as the bits of a number. Objects that are
large, leave their room (see haul/life/bitmaps.py) or don't recur as their codes say have none."""

from __future__ import annotations

from haul.life.bitmaps import advance, find_move, find_room, read_bitmap
from haul.life.generations import MOST_PERIOD, Rule
from haul.patterns.codes import Kind, read_drawing, read_kind


def run_quickly(rule: Rule, code: str) -> list[int] | None:
    """Returns the object of a code in each generation from 0 to its period, or `None` if these
    can't be found with bits."""
    text, kind = read_drawing(code), read_kind(code)
    bits = read_bitmap(text) if text is not None else None
    if bits is None or kind is None or not 1 <= kind.period() <= MOST_PERIOD:
        return None
    generations = run_in_room(rule, bits, kind.period())
    return generations if generations and is_of_kind(generations, kind) else None


def run_in_room(rule: Rule, bits: int, last: int) -> list[int] | None:
    """Returns generations 0 to `last` of a pattern, or `None` if it dies or leaves its room."""
    outside, generations = ~find_room(bits), [bits]
    for _ in range(last):
        bits = advance(rule, bits)
        if not bits or bits & outside:
            return None
        generations.append(bits)
    return generations


def is_of_kind(generations: list[int], kind: Kind) -> bool:
    """Checks whether a pattern recurs in the last of these generations but not earlier, and is of
    this kind."""
    first, *between, last = generations
    move = find_move(first, last)
    if move is None or any(find_move(first, phase) is not None for phase in between):
        return False
    if move:
        return kind.letter == "q"
    if between:
        return kind.letter == "p"
    return kind.letter == "s" and kind.number == first.bit_count()
