"""A plain program that follows the definitions. It uses sets of cells, and none of the census's
shortcuts.

It was written from docs/PROFILE.md and docs/FORMATS.md, and is deliberately independent of `haul/`
and of the crates.
"""

from __future__ import annotations

from collections import Counter
from collections.abc import Iterable, Iterator
from typing import NamedTuple

# A cell is a pair (x, y), and a pattern is a set of cells.
Cell = tuple[int, int]
Cells = frozenset[Cell]

DIGITS = "0123456789abcdefghijklmnopqrstuvwxyz"
# The most columns and rows of a pattern that has an extended Wechsler text.
MOST_SIDE = 40
# The number of rows of a strip.
STRIP = 5


class Rule(NamedTuple):
    """The numbers of live neighbours with which a cell is born, and with which it survives."""

    births: frozenset[int]
    survivals: frozenset[int]


class Profile(NamedTuple):
    """The numbers that define when a pattern counts as at rest, and in which generations that is
    tested.
    """

    period: int
    horizon: int
    stride: int
    limit: int


def rule_named(text: str) -> Rule:
    births, survivals = text[1:].split("s")
    return Rule(frozenset(map(int, births)), frozenset(map(int, survivals)))


# ---- Generations

# The offsets to the eight neighbours of a cell.
NEIGHBOURS = [(dx, dy) for dx in (-1, 0, 1) for dy in (-1, 0, 1) if dx or dy]


def next_of(rule: Rule, cells: Cells) -> Cells:
    live_neighbours = Counter([(x + dx, y + dy) for x, y in cells for dx, dy in NEIGHBOURS])
    born = {
        cell for cell, live in live_neighbours.items() if live in rule.births and cell not in cells
    }
    return frozenset(born | {cell for cell in cells if live_neighbours[cell] in rule.survivals})


def later(rule: Rule, cells: Cells, generations: int) -> Cells:
    for _ in range(generations):
        cells = next_of(rule, cells)
    return cells


def to_corner(cells: Iterable[Cell]) -> Cells:
    """Moves a pattern so that its bounding box begins at (0, 0)."""
    there = frozenset(cells)
    west, north = min((x for x, _ in there), default=0), min((y for _, y in there), default=0)
    return frozenset((x - west, y - north) for x, y in there)


def clusters_of(cells: Cells) -> list[Cells]:
    """Returns the sets of cells that are connected by steps of at most two cells in any
    direction.
    """
    left, clusters = set(cells), []
    while left:
        cluster, edge = set(), [left.pop()]
        while edge:
            x, y = edge.pop()
            cluster.add((x, y))
            near = {(x + dx, y + dy) for dx in range(-2, 3) for dy in range(-2, 3)} & left
            left -= near
            edge += near
        clusters.append(frozenset(cluster))
    return clusters


def phases_of(rule: Rule, cells: Cells, period: int) -> tuple[list[Cells], Cells] | None:
    """Returns all phases, and the first generation after them, which is the pattern again, possibly
    displaced. Returns `None` if the pattern doesn't recur within `period` generations.
    """
    phases, shape = [cells], to_corner(cells)
    for _ in range(period):
        following = next_of(rule, phases[-1])
        if not following:
            return None
        if to_corner(following) == shape:
            return phases, following
        phases.append(following)
    return None


# ---- Codes


def run_text(length: int) -> str:
    """Returns the text of a run of empty columns."""
    return ["", "0", "w", "x"][length] if length < 4 else "y" + DIGITS[length - 4]


def strip_text(columns: list[int]) -> str:
    while columns and columns[-1] == 0:
        columns.pop()
    text, empty = "", 0
    for value in columns:
        if value == 0:
            empty += 1
        else:
            text += run_text(empty) + DIGITS[value]
            empty = 0
    return text


def wechsler(cells: Cells) -> str | None:
    """Returns the extended Wechsler text of a pattern whose bounding box begins at (0, 0), or
    `None` if the box has more than 40 columns or more than 40 rows.
    """
    width, height = max(x for x, _ in cells) + 1, max(y for _, y in cells) + 1
    if width > MOST_SIDE or height > MOST_SIDE:
        return None
    strips = []
    for top in range(0, height, STRIP):
        strips.append(
            strip_text(
                [sum(1 << k for k in range(STRIP) if (x, top + k) in cells) for x in range(width)]
            )
        )
    return "z".join(strips)


def orientations(cells: Cells) -> Iterator[Cells]:
    for right, down in ((1, 1), (-1, 1), (1, -1), (-1, -1)):
        yield to_corner((right * x, down * y) for x, y in cells)
        yield to_corner((right * y, down * x) for x, y in cells)


def code_of(phases: list[Cells], again: Cells) -> str:
    period = len(phases)
    if again != phases[0]:
        kind, number = "q", period
    elif period > 1:
        kind, number = "p", period
    else:
        kind, number = "s", len(phases[0])
    texts = [
        text
        for phase in phases
        for image in orientations(phase)
        if (text := wechsler(image)) is not None
    ]
    if not texts:
        return f"ov_{kind}{number}"
    return f"x{kind}{number}_{min(texts, key=lambda text: (len(text), text))}"


# ---- Findings


def objects_at_rest(rule: Rule, period: int, horizon: int, cells: Cells) -> Counter[str] | None:
    """Returns the number of objects of each code, or `None` if the pattern isn't at rest."""
    clusters = clusters_of(cells)
    codes: Counter[str] = Counter()
    for cluster in clusters:
        found = phases_of(rule, cluster, period)
        if found is None:
            return None
        codes[code_of(*found)] += 1
    whole, parts = cells, clusters
    for generation in range(horizon + 1):
        if frozenset(cell for part in parts for cell in part) != whole or sum(
            map(len, parts)
        ) != len(whole):
            return None
        if generation < horizon:
            whole, parts = next_of(rule, whole), [next_of(rule, part) for part in parts]
    return codes


def finding(rule: Rule, profile: Profile, cells: Cells) -> str:
    """Returns what `census name` must print."""
    for generation in range(profile.limit + 1):
        if generation % profile.stride == 0:
            objects = objects_at_rest(rule, profile.period, profile.horizon, cells)
            if objects is not None:
                return f"settled {generation}\n" + "".join(
                    f"{code} {objects[code]}\n" for code in sorted(objects)
                )
        cells = next_of(rule, cells)
    return "unsettled\n"
