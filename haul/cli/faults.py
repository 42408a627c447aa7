"""Finds arguments of a command that don't go together."""

from __future__ import annotations

import argparse

from haul.formats.index import is_index
from haul.formats.profile import STANDARD
from haul.plurals import write_count


def find_fault_of_search(asked: argparse.Namespace) -> str | None:
    if asked.file == "-":
        return "FILE is the name of a file, since the haul is kept in it"
    if asked.want and asked.rarer is not None:
        return "--rarer doesn't go with --want, which can have `rarer N`"
    return "the horizon is below the period" if is_horizon_low(asked) else None


def find_fault_of_check(asked: argparse.Namespace) -> str | None:
    if asked.choice is not None and asked.random is None:
        return "--choice needs --random"
    if asked.first is not None and not asked.totals:
        return "--first needs --totals"
    if asked.samples and asked.totals:
        return "--samples doesn't go with --totals"
    if asked.files and is_index(asked.files[0]):
        return find_fault_of_index_check(asked)
    if asked.random is not None and asked.random > len(asked.files):
        return f"--random {asked.random} is more than the {write_count(len(asked.files), 'file')}"
    return None


def find_fault_of_index_check(asked: argparse.Namespace) -> str | None:
    if asked.samples or asked.totals:
        option = "--samples" if asked.samples else "--totals"
        return f"{option} needs hauls, and {asked.files[0]} is an index, which has no samples"
    if asked.random is not None and len(asked.files) > 1:
        return "--random draws pieces of the index, so no haul can be given beside it"
    return None


def find_fault_of_compare(asked: argparse.Namespace) -> str | None:
    if asked.lives and len(asked.lives) > len((asked.a, asked.b, *asked.more)):
        return "--lives is given at most once for each haul"
    if asked.lives and asked.csv:
        return "--lives doesn't go with --csv, whose rows are objects; `haul why --kinds --csv` has the fates"
    return None


def find_fault_of_table(asked: argparse.Namespace) -> str | None:
    if asked.lives is not None and asked.csv:
        return "--lives doesn't go with --csv, whose rows are objects; `haul why --kinds --csv` has the fates"
    if asked.lives == "-" and asked.file in (None, "-"):
        return "the haul and --lives can't both be standard input"
    return None


def find_fault_of_page(asked: argparse.Namespace) -> str | None:
    if asked.lives is not None and len(asked.files) > 1:
        return "--lives needs one haul"
    if asked.lives == "-" and not set(asked.files) - {"-"}:
        return "the haul and --lives can't both be standard input"
    return None


def find_fault_of_soups(asked: argparse.Namespace) -> str | None:
    if asked.why and not asked.unsettled:
        return "--why needs --unsettled"
    return "--exact needs --longest" if asked.exact and asked.longest is None else None


def find_fault_of_why(asked: argparse.Namespace) -> str | None:
    files = [word for word in asked.soups if isinstance(word, str)]
    job = [asked.seed, asked.rule, *(getattr(asked, name) for name in STANDARD._fields)]
    has_job = any(value is not None for value in job)
    faults = {
        "a soup, a FILE, --pattern or --keep is needed": not asked.soups
        and asked.pattern is None
        and asked.keep is None,
        "--keep FILE.late goes with --soup-seconds, --csv, --json, --workers and --census only": (
            asked.keep is not None
            and (bool(asked.soups) or has_job or (asked.pattern, asked.most) != (None, None))
        ),
        "--kinds doesn't go with --pattern": asked.kinds and asked.pattern is not None,
        "--pattern doesn't go with soups or a FILE": bool(asked.soups)
        and asked.pattern is not None,
        "--plane needs --pattern": asked.plane and asked.pattern is None,
        "--pattern doesn't go with --seed": asked.pattern is not None and asked.seed is not None,
        "a FILE doesn't go with soups or another FILE": bool(files) and len(asked.soups) > 1,
        "a FILE has a seed, a rule and a profile": bool(files) and has_job,
        "--most needs a FILE": asked.most is not None and not files,
        "the horizon is below the period": is_horizon_low(asked),
    }
    return next((fault for fault, is_there in faults.items() if is_there), None)


def is_horizon_low(asked: argparse.Namespace) -> bool:
    """Checks whether the horizon is below the period, and at least one of the two was given."""
    period = asked.period or STANDARD.period
    horizon = STANDARD.horizon if asked.horizon is None else asked.horizon
    return (asked.period, asked.horizon) != (None, None) and horizon < period
