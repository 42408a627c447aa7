"""Writes haul texts."""

from __future__ import annotations

from collections.abc import Iterator

from haul.formats.haul import Haul, Job


def format_job(job: Job) -> list[str]:
    """Returns the lines that identify the census."""
    return [
        f"@ROOT seed={job.seed}",
        f"@RULE {job.rule}",
        "@SYMMETRY C1",
        "@PROFILE " + " ".join(map(str, job.profile)),
    ]


def format_header(haul: Haul) -> list[str]:
    """Returns the lines before the first row of the census table."""
    return [
        "@VERSION 2",
        *format_job(haul.job),
        *(f"@RANGE {first} {count}" for first, count in haul.ranges or [(0, 0)]),
        f"@NUM_SOUPS {haul.soups}",
        f"@NUM_UNSETTLED {haul.unsettled}",
        f"@NUM_FOR_GOOD {haul.for_good}",
        f"@NUM_OBJECTS {haul.objects()}",
        "",
        "@CENSUS TABLE",
    ]


def format_haul(haul: Haul) -> Iterator[str]:
    """Yields the lines of a haul's text, without their line feeds."""
    yield from format_header(haul)
    for code, total in haul.totals.items():
        yield f"{code} {total}"
    yield ""
    yield "@SAMPLE_SOUPIDS"
    for code, numbers in haul.samples.items():
        yield format_sample_row(code, numbers)


def format_sample_row(code: str, numbers: list[int]) -> str:
    return " ".join([code, *map(str, numbers)])
