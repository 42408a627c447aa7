"""Sets of soup numbers, as ranges in ascending order that don't touch."""

from __future__ import annotations

from bisect import bisect_right

from haul.formats.haul import Range


def is_in(number: int, ranges: list[Range]) -> bool:
    # The last range that begins at `number` or before.
    place = bisect_right(ranges, number, key=lambda range_: range_[0])
    return place > 0 and number < sum(ranges[place - 1])


def intersect(some: list[Range], others: list[Range]) -> list[Range]:
    """Returns the numbers that are in both sets."""
    both: list[Range] = []
    one = other = 0
    while one < len(some) and other < len(others):
        first = max(some[one][0], others[other][0])
        ends = sum(some[one]), sum(others[other])
        if first < min(ends):
            both.append((first, min(ends) - first))
        if ends[0] <= ends[1]:
            one += 1
        else:
            other += 1
    return both


def add_range(ranges: list[Range], range_: Range) -> None:
    """Adds a range to a set in place. The range must come after all numbers of the set."""
    first, count = range_
    if ranges and sum(ranges[-1]) == first:
        ranges[-1] = (ranges[-1][0], ranges[-1][1] + count)
    else:
        ranges.append(range_)
