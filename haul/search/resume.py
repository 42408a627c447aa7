"""Opens the files of a search. If FILE exists, the search goes on after its last soup, and the
arguments must agree with its haul. Otherwise, the arguments begin a haul."""

from __future__ import annotations

import argparse
import secrets
import string
from collections.abc import Callable
from dataclasses import dataclass

from haul.formats.haul import Haul, Job
from haul.formats.late_file import Late
from haul.formats.profile import STANDARD, Profile
from haul.known.wanted import find_fault_of_wants
from haul.patterns.rules import LIFE
from haul.rarity.reference import is_covered
from haul.search.haul_file import HaulFile
from haul.search.late_soups import open_late
from haul.search.side_file import SideFile
from haul.search.unreported import Unreported, open_unreported

# Seeds are drawn from 62^12 texts, so two people won't draw the same one and take the same soups.
SEED_BEGINS, SEED_LENGTH = "h_", 12
# The default for how rare a find has to be: fewer than one in this many soups of the reference.
USUAL_RARER = 1_000_000


class Disagrees(Exception):
    """Raised if an argument contradicts the haul in the file."""


@dataclass
class SearchFiles:
    """The files of a search, and their contents when it begins."""

    haul_file: HaulFile
    haul: Haul
    # FILE.late, and its soups (`None` if the search keeps no late soups).
    late_file: SideFile
    late: Late | None
    # FILE.finds, and what the previous search hadn't reported.
    finds_file: SideFile
    unreported: Unreported


def open_files(asked: argparse.Namespace, complain: Callable[[str], None]) -> SearchFiles:
    """Locks and reads the files of a search. Problems with FILE.late and FILE.finds are passed to
    `complain` as lines. Raises `CantUseFile` if FILE can't be used, and `Disagrees`."""
    haul_file = HaulFile(asked.file)
    haul = haul_file.read()
    if haul is None:
        haul = begin_haul(asked)
    refuse_other_jobs(asked, haul)
    late_file, finds_file = (
        SideFile(haul_file.path, haul_file.name, suffix, complain) for suffix in ("late", "finds")
    )
    late = open_late(asked, haul, find_next_soup(asked, haul), late_file)
    unreported = open_unreported(haul, finds_file)
    return SearchFiles(haul_file, haul, late_file, late, finds_file, unreported)


def begin_haul(asked: argparse.Namespace) -> Haul:
    """Returns a haul without soups for the job in the arguments. If they don't give a seed, one is
    drawn."""
    seed = asked.seed
    if seed is None:
        seed = SEED_BEGINS + "".join(
            secrets.choice(string.ascii_letters + string.digits) for _ in range(SEED_LENGTH)
        )
    numbers = zip(list_profile_numbers(asked), STANDARD, strict=True)
    profile = Profile._make(usual if said is None else said for said, usual in numbers)
    return Haul(Job(seed, asked.rule or LIFE, profile))


def refuse_other_jobs(asked: argparse.Namespace, haul: Haul) -> None:
    """Raises `Disagrees` if an argument is for another census than the haul's, or if `--rarer` is
    given and the rule isn't Life."""
    said = (asked.seed, asked.rule, *list_profile_numbers(asked), asked.first)
    first = haul.ranges[0][0] if haul.ranges else asked.first
    there = (haul.job.seed, haul.job.rule, *haul.job.profile, first)
    if asked.rarer is not None and haul.job.rule != LIFE:
        raise Disagrees(
            f"{asked.file}: --rarer needs Life, since the reference has no soups of {haul.job.rule}"
        )
    fault = find_fault_of_wants(asked.want or [], haul.job.rule, is_covered(haul.job))
    if fault is not None:
        raise Disagrees(f"{asked.file}: {fault}")
    for name, wanted, is_so in zip(
        ("seed", "rule", *Profile._fields, "first soup"), said, there, strict=True
    ):
        if wanted is not None and wanted != is_so:
            raise Disagrees(f"{asked.file}: the {name} is {is_so}, and not {wanted}")


def list_profile_numbers(asked: argparse.Namespace) -> list[int | None]:
    """Returns the four numbers of the profile, with `None` for each number that isn't given."""
    return [getattr(asked, name) for name in Profile._fields]


def find_next_soup(asked: argparse.Namespace, haul: Haul) -> int:
    """Returns the number of the next soup, which is the number after the last range. If there are
    no ranges, returns the first soup in the arguments, or 0."""
    return sum(haul.ranges[-1]) if haul.ranges else asked.first or 0
