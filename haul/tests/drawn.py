"""Random hauls, the same in each run of the tests. They are in the format of a haul, but a census
of their soups would give other totals and samples."""

from __future__ import annotations

import random

from haul.formats.haul import MOST_SAMPLES, Haul, Job, Range
from haul.formats.haul_writer import format_haul
from haul.formats.profile import Profile

ALPHABET = "0123456789abcdefghijklmnopqrstuvwxyz_"


def drawn_job(draw: random.Random) -> Job:
    seed = "".join(chr(draw.randint(33, 126)) for _ in range(draw.choice([0, 1, 5, 64])))
    births = "".join(str(n) for n in range(1, 9) if draw.random() < 0.3)
    survivals = "".join(str(n) for n in range(9) if draw.random() < 0.3)
    period = draw.randint(1, 64)
    return Job(
        seed,
        f"b{births}s{survivals}",
        Profile(
            period, draw.randint(period, 4096), draw.randint(1, 10000), draw.randint(0, 100000)
        ),
    )


def drawn_ranges(draw: random.Random, first: int = 0) -> list[Range]:
    ranges: list[Range] = []
    for _ in range(draw.randint(0, 4)):
        first += draw.choice([1, 2, 1000])
        count = draw.randint(1, 50)
        ranges.append((first, count))
        first += count
    return ranges


def drawn_haul(
    draw: random.Random, job: Job, ranges: list[Range], is_complete: bool = False
) -> Haul:
    numbers = [first + k for first, count in ranges for k in range(count)]
    soups = len(numbers) if is_complete else draw.randint(0, len(numbers))
    unsettled = draw.randint(0, soups)
    codes = (
        sorted(
            {
                "".join(draw.choice(ALPHABET) for _ in range(draw.randint(1, 12)))
                for _ in range(draw.randint(0, 12))
            }
        )
        if numbers
        else []
    )
    totals = {code: draw.choice([1, 2, 3, draw.randint(1, 10**9)]) for code in codes}
    samples = {
        code: sorted(
            draw.sample(
                numbers, min(len(numbers), draw.randint(1, min(MOST_SAMPLES, totals[code])))
            )
        )
        for code in codes
    }
    return Haul(
        job,
        ranges=ranges,
        soups=soups,
        unsettled=unsettled,
        for_good=draw.randint(0, soups - unsettled),
        totals=totals,
        samples=samples,
    )


def any_haul(draw: random.Random) -> Haul:
    return drawn_haul(draw, drawn_job(draw), drawn_ranges(draw))


def text_of(haul: Haul) -> str:
    return "".join(f"{line}\n" for line in format_haul(haul))
