"""Separation of objects into parts by brute force, written only from the definition in
docs/PROFILE.md. It shares no code with the program."""

from __future__ import annotations

import re
from collections import defaultdict
from collections.abc import Callable, Iterator
from itertools import groupby

Cell = tuple[int, int]
Cells = frozenset[Cell]
Rule = tuple[frozenset[int], frozenset[int]]

DIGITS = "0123456789abcdefghijklmnopqrstuvwxyz"
ORIENTATIONS: list[Callable[[int, int], tuple[int, int]]] = [
    lambda x, y: (x, y),
    lambda x, y: (-y, x),
    lambda x, y: (-x, -y),
    lambda x, y: (y, -x),
    lambda x, y: (-x, y),
    lambda x, y: (x, -y),
    lambda x, y: (y, x),
    lambda x, y: (-y, -x),
]


def rule_of(text: str) -> Rule:
    births, survivals = text[1:].split("s")
    return frozenset(map(int, births)), frozenset(map(int, survivals))


def next_of(rule: Rule, cells: Cells) -> Cells:
    births, survivals = rule
    live: dict[Cell, int] = defaultdict(int)
    for x, y in cells:
        for dx in (-1, 0, 1):
            for dy in (-1, 0, 1):
                if (dx, dy) != (0, 0):
                    live[x + dx, y + dy] += 1
    born = {cell for cell, count in live.items() if cell not in cells and count in births}
    return frozenset(born | {cell for cell in cells if live.get(cell, 0) in survivals})


def drawing_of(text: str) -> Cells:
    cells, x, strip, place = set(), 0, 0, 0
    while place < len(text):
        character = text[place]
        if character == "z":
            strip, x = strip + 1, 0
        elif character in "wx":
            x += {"w": 2, "x": 3}[character]
        elif character == "y":
            place += 1
            x += 4 + DIGITS.index(text[place])
        else:
            cells |= {(x, 5 * strip + k) for k in range(5) if DIGITS.index(character) >> k & 1}
            x += 1
        place += 1
    return frozenset(cells)


def corner(cells: Cells) -> Cells:
    left, top = min(x for x, _ in cells), min(y for _, y in cells)
    return frozenset((x - left, y - top) for x, y in cells)


def text_of(cells: Cells) -> str | None:
    cells = corner(cells)
    width, height = max(x for x, _ in cells) + 1, max(y for _, y in cells) + 1
    if width > 40 or height > 40:
        return None
    strips = []
    for top in range(0, height, 5):
        columns = [sum(1 << k for k in range(5) if (x, top + k) in cells) for x in range(width)]
        while columns and columns[-1] == 0:
            columns.pop()
        strip = ""
        for value, run in groupby(columns):
            length = len(list(run))
            strip += (
                DIGITS[value] * length
                if value
                else "?0wx"[length]
                if length < 4
                else "y" + DIGITS[length - 4]
            )
        strips.append(strip)
    return "z".join(strips)


def recurring(rule: Rule, cells: Cells) -> tuple[int, Cell, list[Cells]] | None:
    """Returns the period, the displacement and the phases of a pattern, or `None` if it doesn't
    recur within 64 generations."""
    phases = [cells]
    for period in range(1, 65):
        later = next_of(rule, phases[-1])
        if not later:
            return None
        shift = min(later)[0] - min(cells)[0], min(later)[1] - min(cells)[1]
        if frozenset((x + shift[0], y + shift[1]) for x, y in cells) == later:
            return period, shift, phases
        phases.append(later)
    return None


def code_of(rule: Rule, cells: Cells) -> str:
    found = recurring(rule, cells)
    assert found is not None
    period, shift, phases = found
    kind = f"q{period}" if shift != (0, 0) else f"s{len(cells)}" if period == 1 else f"p{period}"
    texts = [
        text
        for phase in phases
        for turn in ORIENTATIONS
        if (text := text_of(frozenset(turn(x, y) for x, y in phase))) is not None
    ]
    return f"x{kind}_" + min(texts, key=lambda text: (len(text), text)) if texts else f"ov_{kind}"


def islands_of(phases: list[Cells]) -> list[Cells]:
    above: dict[Cell, Cell] = {cell: cell for phase in phases for cell in phase}

    def top(cell: Cell) -> Cell:
        while above[cell] != cell:
            cell = above[cell]
        return cell

    for phase in phases:
        for x, y in phase:
            for dx in (-1, 0, 1):
                for dy in (-1, 0, 1):
                    if (x + dx, y + dy) in phase:
                        above[top((x, y))] = top((x + dx, y + dy))
    classes: dict[Cell, set[Cell]] = defaultdict(set)
    for cell in phases[0]:
        classes[top(cell)].add(cell)
    return [frozenset(cells) for cells in classes.values()]


def is_cluster(cells: Cells) -> bool:
    left = set(cells)
    edge = [left.pop()] if left else []
    while edge:
        x, y = edge.pop()
        near = {(x + dx, y + dy) for dx in range(-2, 3) for dy in range(-2, 3)} & left
        left -= near
        edge += near
    return bool(cells) and not left


def partitions(things: list[int]) -> Iterator[list[list[int]]]:
    if not things:
        yield []
        return
    for blocks in partitions(things[1:]):
        yield [[things[0]], *blocks]
        for k in range(len(blocks)):
            yield [*blocks[:k], [things[0], *blocks[k]], *blocks[k + 1 :]]


def parts_of(rule: Rule, code: str) -> tuple[list[str], bool, bool]:
    """Returns the parts of an object, whether the object is strict, and whether it has been
    separated. A strict object has been separated and has only one part."""
    itself = [code], False, False
    match = re.fullmatch("x([spq])([0-9]+)_([0-9a-z]+)", code)
    found = recurring(rule, drawing_of(match[3])) if match else None
    if match is None or found is None:
        return itself
    period, shift, phases = found
    kind = "q" if shift != (0, 0) else "s" if period == 1 else "p"
    if (kind, len(phases[0]) if kind == "s" else period) != (match[1], int(match[2])):
        return itself
    object_ = [*phases, next_of(rule, phases[-1])]
    islands = islands_of(phases)
    runs: dict[tuple[int, ...], list[Cells]] = {}

    def run(block: list[int]) -> list[Cells]:
        key = tuple(sorted(block))
        if key not in runs:
            runs[key] = [frozenset().union(*(islands[k] for k in key))]
            for _ in range(period):
                runs[key].append(next_of(rule, runs[key][-1]))
        return runs[key]

    def is_separation(blocks: list[list[int]]) -> bool:
        ran = [run(block) for block in blocks]
        moved = [frozenset((x + shift[0], y + shift[1]) for x, y in one[0]) for one in ran]
        return len(blocks) == 1 or (
            all(
                one[period] == there and any(map(is_cluster, one[:period]))
                for one, there in zip(ran, moved, strict=True)
            )
            and all(
                sum(len(one[g]) for one in ran) == len(object_[g])
                and frozenset().union(*(one[g] for one in ran)) == object_[g]
                for g in range(period + 1)
            )
        )

    tried = (
        partitions(list(range(len(islands))))
        if len(islands) <= 10
        else iter([[[k] for k in range(len(islands))]])
    )
    separations = [blocks for blocks in tried if is_separation(blocks)]
    if not separations:
        return itself
    most = max(map(len, separations))
    best = min(
        sorted(code_of(rule, run(block)[0]) for block in blocks)
        for blocks in separations
        if len(blocks) == most
    )
    return best, most == 1, True
