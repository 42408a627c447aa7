"""The facts about a haul that are shown with its table."""

from __future__ import annotations

from haul.formats.haul import Haul, Job
from haul.hauls.by_parts import Objects
from haul.plurals import pluralize
from haul.views.layout import make_exact


def describe_job(job: Job) -> str:
    return f"seed={job.seed} rule={job.rule} profile={job.profile.format()}"


def describe_lettered_job(letter: str, haul: Haul) -> str:
    job = haul.job
    if haul.apgsearch:
        how = f"apgsearch={haul.apgsearch} symmetry={job.symmetry}"
        return f"{letter}: seed={job.seed} rule={job.rule} {how}"
    return f"{letter}: {describe_job(job)}"


def describe_soups(letter: str, haul: Haul, by_parts: bool = False) -> str:
    soups, objects = pluralize(haul.soups, "soup"), pluralize(haul.objects(), "object")
    ends = "" if haul.apgsearch else f"{haul.unsettled} unsettled, {haul.for_good} for good, "
    line = f"{letter}: {haul.soups} {soups}, {ends}{haul.objects()} {objects}"
    return f"{line} by parts" if by_parts else line


def list_haul_facts(haul: Haul) -> dict[str, object]:
    """Returns the facts about a haul as fields of JSON."""
    return {
        "seed": haul.job.seed,
        "rule": haul.job.rule,
        **({"symmetry": haul.job.symmetry, "apgsearch": haul.apgsearch} if haul.apgsearch else {}),
        "profile": None if haul.apgsearch else list(haul.job.profile),
        "ranges": None if haul.apgsearch else [list(range_) for range_ in haul.ranges],
        "soups": haul.soups,
        "unsettled": None if haul.apgsearch else haul.unsettled,
        "for_good": None if haul.apgsearch else haul.for_good,
        "total": make_exact(haul.objects()),
    }


def list_csv_facts(haul: Haul) -> list[str]:
    """Returns the facts about a haul as values of CSV. Facts that a haul of apgsearch doesn't have
    are empty."""
    job = haul.job
    if haul.apgsearch:
        return [job.seed, job.rule, "", str(haul.soups), "", "", str(haul.objects())]
    return [
        job.seed,
        job.rule,
        job.profile.format(),
        *map(str, [haul.soups, haul.unsettled, haul.for_good, haul.objects()]),
    ]


def list_part_facts(objects: Objects) -> dict[str, object]:
    """Returns, as fields of JSON, the parts of each object of a haul, and the objects that aren't
    separated."""
    separations = objects.separate_all(objects.haul.totals)
    return {
        "parts": {code: list(separation.parts) for code, separation in separations.items()},
        "not_separated": [
            code for code, separation in separations.items() if not separation.is_separated
        ],
    }
