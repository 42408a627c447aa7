"""Calls of `run`, `name`, `soup` and `show` with many or few of something, for `counts`."""

from __future__ import annotations

import itertools
import random
from collections import Counter
from collections.abc import Iterator

from checks.lib.calls import Call
from checks.lib.formats import ALL_LIVE, LIFE, STANDARD, profile_words
from checks.lib.patterns import BLINKER, BLOCK, GLIDER, PUFFER, R_PENTOMINO, moved, plaintext, soup
from checks.lib.plain import (
    Cells,
    Profile,
    code_of,
    finding,
    later,
    objects_at_rest,
    rule_named,
    to_corner,
)

# The number of columns and rows of a cluster.
Shape = tuple[int, int]

RULE = rule_named(LIFE)


# Seeds of `confined`, found by a search. The pattern of the first seed recurs after one generation,
# the pattern of the second after two, and so on.
SEEDS = [
    int(seed)
    for seed in (
        "0 40 98 112 586 397 3082 808 256 2136 8134 1489 1516 469 7347 5930 6646 42 951 2587 17404 "
        "4775 22653 43 7149 4146 4153 10957 13961 12775 53678 27554 1734 11903 35520 1751 6957 4563 "
        "7784 1184 33156 6390 15975 20525 56081 7876 71 23951 89461 9205 11027 43467 15434 34446 "
        "23549 56929 52756 1592 45988 24648 118836 5146 23506 69043 56079 20810 45068 18374 41018 "
        "30456 73561 93938 "
    ).split()
]


def numbers(most: int, dense: int = 300) -> list[int]:
    """Returns `most` and some of the numbers below it. Up to `dense`, these are all numbers. Above
    `dense`, they are the powers of two, three times these, round numbers, numbers that repeat a
    digit (such as 777), and the neighbours of all these.
    """
    special = {2**k for k in range(41)} | {
        digit * 10**k for digit in range(1, 10) for k in range(13)
    }
    special |= {int(str(digit) * k) for digit in range(1, 10) for k in range(1, 13)} | {
        3 * 2**k for k in range(39)
    }
    near = {number + more for number in special for more in (-1, 0, 1)}
    return sorted(number for number in near | set(range(dense + 1)) | {most} if 0 <= number <= most)


def tiled(kind: Cells, count: int, side: int) -> list[str]:
    """Returns the rows of a text with `count` copies of a shape in square tiles."""
    across = 1000 // side
    rows = [["."] * min(count, across) * side for _ in range(side * -(-count // across))]
    for place in range(count):
        for x, y in kind:
            rows[side * (place // across) + y][side * (place % across) + x] = "O"
    return ["".join(row) for row in rows]


def text(rows: list[str]) -> bytes:
    return "".join(f"{row}\n" for row in rows).encode()


def drawn(cells: Cells) -> bytes:
    """Returns the text of a pattern, with columns from x = 0 and rows from y = 0."""
    return plaintext(cells).encode()


def generations() -> Iterator[Call]:
    """Yields calls of `run` with a blinker and with a glider for 0 to 100,000 generations, and with
    both, far apart, for up to 1,000.
    """
    phases = [later(RULE, GLIDER, k) for k in range(4)]
    for count in numbers(100_000):
        blinker = later(RULE, BLINKER, count % 2)
        after = moved(phases[count % 4], count // 4, count // 4)
        yield Call(
            f"run, {count} generations of a blinker",
            ["run", str(count)],
            drawn(BLINKER),
            drawn(to_corner(blinker)),
        )
        yield Call(
            f"run, {count} generations of a glider",
            ["run", str(count)],
            drawn(GLIDER),
            drawn(to_corner(after)),
        )
        if count <= 1000:
            yield Call(
                f"run, {count} generations of a glider below a blinker",
                ["run", str(count)],
                drawn(BLINKER | moved(GLIDER, 0, 300)),
                drawn(to_corner(blinker | moved(after, 0, 300))),
            )


def live_cells() -> Iterator[Call]:
    """Yields calls of `run 0` with patterns of 0 to 1,000,000 live cells, in full rows of 1,000 and
    a last row with the rest.
    """
    for count in numbers(10**6):
        rows = ["O" * 1000] * (count // 1000) + ["O" * (count % 1000)] * (count % 1000 > 0)
        shown = [row.ljust(min(count, 1000), ".") for row in rows]
        yield Call(f"run, {count} cells", ["run", "0"], text(rows), text(shown))


def places() -> Iterator[Call]:
    """Yields calls of `run` for one generation, with a block and a blinker that is 6 to 996 cells
    further right or further down.
    """
    for far in numbers(996, 996):
        if far < 6:
            continue
        for right, down in ((far, 1), (1, far)):
            cells = BLOCK | moved(BLINKER, right, down)
            yield Call(
                f"run, a blinker {right} and {down} cells away",
                ["run", "1"],
                drawn(cells),
                drawn(to_corner(later(RULE, cells, 1))),
            )


def rules() -> Iterator[Call]:
    """Yields calls of `run` with random patterns under random rules."""
    draw = random.Random("rules")
    for _ in range(400):
        rule = (
            "b"
            + "".join(d for d in "12345678" if draw.random() < 0.5)
            + "s"
            + "".join(d for d in "012345678" if draw.random() < 0.5)
        )
        cells = frozenset((draw.randrange(20), draw.randrange(20)) for _ in range(80))
        count = draw.randint(1, 12)
        corner = to_corner(cells)
        after = later(rule_named(rule), corner, count)
        yield Call(
            f"run, rule {rule}",
            ["run", str(count), "--rule", rule],
            drawn(corner),
            drawn(to_corner(after)),
        )


def clusters() -> Iterator[Call]:
    """Yields calls of `name` with 0 to 40,000 blocks, and with 0 to 5,000 blinkers."""
    for count in numbers(40_000):
        said = b"settled 0\n" + b"xs4_33 %d\n" % count * (count > 0)
        yield Call(
            f"name, {count} blocks", ["name", "--limit=0"], text(tiled(BLOCK, count, 5)), said
        )
    for count in numbers(5000):
        said = b"settled 0\n" + b"xp2_7 %d\n" % count * (count > 0)
        yield Call(
            f"name, {count} blinkers",
            ["name", "--limit=0"],
            text(tiled(moved(BLINKER, 1, 1), count, 7)),
            said,
        )


def members() -> Iterator[Call]:
    """Yields calls of `name` with one cluster of up to 1,000,000 cells, of which none dies."""
    for count in numbers(1600):
        cells = frozenset((place % 40, place // 40) for place in range(count))
        said = f"settled 0\n{code_of([cells], cells)} 1\n" if cells else "settled 0\n"
        yield Call(
            f"name, a cluster of {count} cells", ["name", *ALL_LIVE], drawn(cells), said.encode()
        )
    for count in numbers(10**6):
        if count > 1600:
            rows = ["O" * 1000] * (count // 1000) + ["O" * (count % 1000)] * (count % 1000 > 0)
            yield Call(
                f"name, a cluster of {count} cells",
                ["name", *ALL_LIVE],
                text(rows),
                f"settled 0\nov_s{count} 1\n".encode(),
            )


def shelved(shapes: list[Shape]) -> list[str]:
    """Returns full rectangles as rows of a text, with as many side by side as there is room for."""
    rows: list[str] = []
    shelf: list[Shape] = []
    used = 0
    for width, height in [*shapes, (0, 0)]:
        if used + width + 3 > 1000 or width == 0 and shelf:
            top = max(h for _, h in shelf)
            rows += [
                "".join(("O" if y < h else ".") * w + "..." for w, h in shelf) for y in range(top)
            ] + [""] * 3
            shelf, used = [], 0
        shelf.append((width, height))
        used += width + 3
    return rows


def kinds() -> Iterator[Call]:
    """Yields calls of `name` with 0 to 465 full rectangles, all of different kinds."""
    shapes = sorted(
        ((w, h) for w in range(1, 31) for h in range(1, w + 1)),
        key=lambda shape: (shape[1], shape[0]),
    )
    codes = []
    for width, height in shapes:
        cells = frozenset(itertools.product(range(width), range(height)))
        codes.append(code_of([cells], cells))
    for count in numbers(len(shapes), len(shapes)):
        once = "".join(f"{code} 1\n" for code in sorted(codes[:count]))
        yield Call(
            f"name, {count} kinds",
            ["name", *ALL_LIVE],
            text(shelved(shapes[:count])),
            f"settled 0\n{once}".encode(),
        )


def profiles() -> Iterator[Call]:
    """Yields calls of `name` with seven cells in a row under many horizons, strides and limits,
    with a blinker under a period of 1, so that it never settles, and with four known patterns under
    each period.
    """
    row = frozenset((x, 0) for x in range(7))
    first = next(
        g for g in range(200) if objects_at_rest(RULE, 2, 64, later(RULE, row, g)) is not None
    )
    beehives = "settled %d\nxs6_696 4\n"
    for horizon in numbers(4096):
        if horizon:
            words = ["name", "--period=1", f"--horizon={horizon}", "--stride=1", "--limit=200"]
            yield Call(f"name, horizon {horizon}", words, drawn(row), (beehives % first).encode())
    for stride in numbers(10_000):
        if stride:
            yield Call(
                f"name, stride {stride}",
                ["name", f"--stride={stride}"],
                drawn(row),
                (beehives % (-(-first // stride) * stride)).encode(),
            )
    for limit in numbers(100_000):
        said = beehives % first if first <= limit else "unsettled\n"
        yield Call(
            f"name, limit {limit}",
            ["name", "--stride=1", f"--limit={limit}"],
            drawn(row),
            said.encode(),
        )
        blinks = [
            "name",
            "--period=1",
            "--horizon=1",
            f"--stride={max(1, limit // 300)}",
            f"--limit={limit}",
        ]
        yield Call(f"name, a blinker up to {limit}", blinks, drawn(BLINKER), b"unsettled\n")
    known = [BLINKER, frozenset((x, 0) for x in range(10)), GLIDER, PUFFER]
    for period, cells in itertools.product(range(1, 65), known):
        profile = Profile(period, 64, 50, 50)
        yield Call(
            f"name, {len(cells)} cells under period {period}",
            ["name", *profile_words(profile)],
            drawn(cells),
            finding(RULE, profile, cells).encode(),
        )


def confined(seed: int) -> tuple[str, Cells]:
    """Returns a random rule, and a random pattern that has been run under it for 300 generations.
    Under the rule, a birth needs at least four neighbours, so no pattern leaves its bounding box,
    and each pattern eventually recurs.
    """
    draw = random.Random(seed)
    births = "".join(str(k) for k in range(4, 9) if draw.random() < 0.5)
    rule = f"b{births}s" + "".join(str(k) for k in range(9) if draw.random() < 0.5)
    width, height = draw.randint(4, 9), draw.randint(4, 9)
    cells = frozenset((x, y) for y in range(height) for x in range(width) if draw.random() < 0.5)
    return rule, later(rule_named(rule), cells, 300)


def periods() -> Iterator[Call]:
    """Yields calls of `name` with an object of each period. The profile's period is the same, one
    less, or 64, which some of the objects exceed.
    """
    for period, seed in enumerate(SEEDS, 1):
        rule, cells = confined(seed)
        for most in sorted({max(1, period - 1), period, 64}):
            if most <= 64:
                profile = Profile(most, 64, 1, 0)
                said = finding(rule_named(rule), profile, cells)
                assert said.startswith("settled 0\nx") == (period <= most)
                words = ["name", f"--rule={rule}", *profile_words(profile)]
                yield Call(
                    f"name, an object of period {period} under {most}",
                    words,
                    drawn(cells),
                    said.encode(),
                )


def fleet() -> list[Cells]:
    """Returns gliders that fly away, in the four directions, from the middle of a pattern of the
    largest size.
    """
    spots = [
        (120 + 24 * row + 12 * step, 120 + 24 * row - 12 * step)
        for row in range(4)
        for step in range(-9, 10)
    ]
    first = [[(right + 2 - x, down + 2 - y) for x, y in GLIDER] for right, down in spots]
    mirrors = [(across, upright) for upright in (False, True) for across in (False, True)]
    return [
        frozenset((999 - x if across else x, 999 - y if upright else y) for x, y in glider)
        for glider in first
        for across, upright in mirrors
    ]


def spaceships() -> Iterator[Call]:
    """Yields calls of `name` with 0 to 2,500 gliders that fly side by side, and with 0 to 304 that
    fly away from an R-pentomino.
    """
    for count in numbers(2500):
        said = b"settled 0\n" + b"xq4_153 %d\n" % count * (count > 0)
        yield Call(
            f"name, {count} gliders",
            ["name", "--limit=0"],
            text(tiled(moved(GLIDER, 1, 1), count, 20)),
            said,
        )
    # What an R-pentomino leaves after 1103 generations, according to LifeWiki.
    left = Counter(
        {
            "xs4_33": 8,
            "xp2_7": 4,
            "xs6_696": 4,
            "xq4_153": 6,
            "xs5_253": 1,
            "xs6_356": 1,
            "xs7_2596": 1,
        }
    )
    pentomino = moved(R_PENTOMINO, 499, 499)
    gliders = fleet()
    for count in numbers(len(gliders)):
        objects = left + Counter({"xq4_153": count})
        settled = f"settled {-(-1103 // STANDARD.stride) * STANDARD.stride}\n" + "".join(
            f"{code} {objects[code]}\n" for code in sorted(objects)
        )
        yield Call(
            f"name, an R-pentomino and {count} gliders",
            ["name"],
            drawn(pentomino.union(*gliders[:count])),
            settled.encode(),
        )


def soups_by_number() -> Iterator[Call]:
    """Yields calls of `soup`, which must print the cells that the digest of the seed and the number
    gives, in their bounding box.
    """
    draw = random.Random("seeds")
    seeds = ["".join(chr(draw.randint(33, 126)) for _ in range(length)) for length in range(65)]
    for seed, number in [("", number) for number in numbers(2**40 - 1)] + [
        (seed, draw.randrange(2**40)) for seed in seeds
    ]:
        yield Call(
            f"soup {number} of {len(seed)} bytes of seed",
            ["soup", str(number), f"--seed={seed}"],
            b"",
            drawn(to_corner(soup(number, seed))),
        )


def codes() -> Iterator[Call]:
    """Yields calls of `show` with codes of 2 to 10,002 bytes. All bytes except two stand for
    columns or strips without live cells.
    """
    for length in numbers(10_002):
        if length < 2:
            continue
        long = b"census: code too long\n"
        for name, code in (
            ("columns", "33" + "0" * (length - 2)),
            ("strips", "33" + "z" * (length - 2)),
            ("strips before", "z" * (length - 2) + "33"),
        ):
            yield Call(
                f"show, {length} bytes, {name}",
                ["show", code],
                b"",
                b"OO\nOO\n" if length <= 10_000 else b"",
                b"" if length <= 10_000 else long,
                0 if length <= 10_000 else 3,
            )
