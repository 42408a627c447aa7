"""Hauls, and the pages that `haul page` makes of them, for the checks in a browser. Also the
counter of these checks.
"""

from __future__ import annotations

import re
import subprocess
from collections.abc import Iterator
from pathlib import Path

from checks.haul.browser import Driver
from checks.lib.count import Count
from checks.lib.formats import STANDARD, haul_text
from checks.lib.patterns import drawing
from checks.lib.plain import Cells
from checks.lib.program import CENSUS, TOP

count = Count()
HAUL = TOP / "bin" / "haul"
WIDTHS = (390, 900, 1400)
PULSAR = "xp3_co9nas0san9oczgoldlo0oldlogz1047210127401"
# A valid haul that no census gives: three objects of each code. By parts, these are 3 + 2 * 3 + 4 *
# 3 blinkers, 3 + 2 * 3 blocks, three boats, three tumblers and three beehives.
CODES = [
    "xp14_j9d0d9j",
    "xp2_1110s",
    "xp2_7",
    "xp2_s01110szw222",
    "xs10_25520oo",
    "xs5_253",
    "xs8_rr",
]


def census(*words: str, pattern: bytes = b"") -> bytes:
    return subprocess.run(
        [CENSUS, *words], input=pattern, stdout=subprocess.PIPE, check=True
    ).stdout


def page_of(path: Path, *hauls: bytes, more: tuple[str, ...] = ()) -> Path:
    """Writes the page of some hauls to a file, and returns the path."""
    names = [f"{path}.{place}" for place in range(len(hauls))]
    for name, haul in zip(names, hauls, strict=True):
        Path(name).write_bytes(haul)
    with path.open("wb") as file:
        subprocess.run([HAUL, "page", f"--census={CENSUS}", *more, *names], stdout=file, check=True)
    return path


def haul_of(
    codes: list[str],
    soups: int,
    rule: str = "b3s23",
    counts: dict[str, int] | None = None,
    seed: str = "",
) -> bytes:
    counts = counts or dict.fromkeys(codes, 3)
    samples = {code: [3 * k, 3 * k + 1, 3 * k + 2][: counts[code]] for k, code in enumerate(codes)}
    return haul_text(
        [(0, soups)], soups, seed=seed, rule=rule, profile=STANDARD, counts=counts, samples=samples
    )


def rows_of(haul: bytes, table: str) -> Iterator[list[str]]:
    for line in haul.decode().partition(f"{table}\n")[2].partition("\n\n")[0].splitlines():
        yield line.split()


def in_order(code: str) -> tuple[str, int, str]:
    """Returns the sort key of codes that are equally frequent. The number of cells and the period
    are compared as numbers.
    """
    kind, number, rest = re.fullmatch(r"(\D*)(\d*)(.*)", code).groups()  # type: ignore[union-attr]
    return kind, int(number or 0), rest


def drawn(code: str, generation: int = 0) -> Cells:
    """Returns the cells of an object after `generation` generations, moved to the corner."""
    return drawing(
        *census("run", str(generation), pattern=census("show", code)).decode().splitlines()
    )


def go_to(driver: Driver, address: str) -> None:
    """Follows a link within the page."""
    driver.execute_script("location.hash = arguments[0]", address)


def boxed(pattern: bytes) -> bytes:
    return census("run", "0", pattern=pattern)
