"""Hauls that tests make by hand."""

from __future__ import annotations

from dataclasses import replace
from typing import Any

from haul.formats.haul import Haul, Job, Range
from haul.formats.profile import STANDARD, Profile

# A profile under which a soup takes hardly any time.
QUICK_PROFILE = Profile(1, 1, 1, 0)
QUICK_JOB = Job("", "b3s23", QUICK_PROFILE)
STANDARD_JOB = Job("a", "b3s23", STANDARD)


def make_haul(
    totals: dict[str, int] | None = None,
    ranges: list[Range] | None = None,
    profile: Profile | None = None,
    *,
    job: Job = STANDARD_JOB,
    **changes: Any,
) -> Haul:
    """Returns a haul of soup 0, or of other ranges, that lacks no soup and has no unsettled soup.
    The first soup is the only sample of each code. If a profile is given, it replaces that of the
    job. `changes` has other fields of the haul."""
    totals, ranges = dict(sorted((totals or {}).items())), [(0, 1)] if ranges is None else ranges
    fields: dict[str, Any] = {
        "soups": sum(count for _, count in ranges),
        "unsettled": 0,
        "for_good": 0,
        "samples": {code: [ranges[0][0]] for code in totals},
    }
    job = job if profile is None else replace(job, profile=profile)
    return Haul(job, ranges=ranges, totals=totals, **(fields | changes))
