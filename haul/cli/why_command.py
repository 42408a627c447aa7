"""The command `why`: its entry in the table of commands, and the functions that run it."""

from __future__ import annotations

import argparse
import os
from collections.abc import Iterator
from contextlib import suppress

from haul.census.bounded import SOUP_SECONDS
from haul.census.client import Census
from haul.cli.arguments import Argument, Command, flag, option
from haul.cli.faults import find_fault_of_why
from haul.cli.late_files import warn_of_lost_lines
from haul.cli.shared_options import CENSUS, FORMS, PLANE, WORKERS, list_profile_options
from haul.cli.statuses import DONE
from haul.cli.streams import Refused, Streams, format_place
from haul.cli.values import (
    read_count,
    read_path,
    read_rule_value,
    read_seed,
    read_subject,
    read_within,
)
from haul.fates.explain import Fates, TooLate
from haul.fates.fate import Fate, Kind, describe_wrong_line
from haul.fates.rows import count_fates, count_kept_fates, find_kept_fate
from haul.formats.haul import Job
from haul.formats.late_file import BadLate, is_late_file, read_late
from haul.formats.profile import STANDARD, Profile
from haul.formats.recognition import describe_other_form
from haul.formats.report_files import Reports
from haul.patterns.coordinates import BadCoordinates, is_coordinates, read_coordinates
from haul.patterns.plaintext import SIDE, BadPlaintext, Rows, is_plaintext, read_plaintext
from haul.patterns.rle import WITHOUT_HISTORY, BadRle, read_rle
from haul.patterns.rules import LIFE, parse_rule
from haul.search.fate_keeper import FateKeeper
from haul.search.haul_file import CantUseFile
from haul.views.why import FateTable, KindTable

# The most soups of a file that are explained, unless `--most` is given.
USUAL_MOST = 20
MORE_TIME = "--soup-seconds N gives a soup or a pattern more time, and 0 any time"
# The most seconds that a soup may get, which are a day.
MOST_SECONDS = 86_400


def run_why(asked: argparse.Namespace, streams: Streams) -> int:
    census = Census(asked.census, streams.terminal, asked.workers)
    if asked.keep is not None:
        return keep_fates(asked, streams, census)
    try:
        table = (
            explain_pattern(asked, streams, census)
            if asked.pattern is not None
            else explain_file(asked, streams, census)
            if isinstance(asked.soups[0], str)
            else explain_soups(asked, census)
        )
    except TooLate as why:
        raise Refused(str(why)) from None
    kinds = KindTable(count_fates((fate for _, fate in table.fates), len(table.fates)))
    write_table(kinds if asked.kinds else table, asked, streams)
    if any(fate.is_late() for _, fate in table.fates):
        streams.terminal.complain(MORE_TIME)
    return DONE


def keep_fates(asked: argparse.Namespace, streams: Streams, census: Census) -> int:
    """Finds the fates that a FILE.late doesn't have, keeps them there, and counts all of them."""
    try:
        keeper = FateKeeper(asked.keep, streams.terminal.complain)
    except (CantUseFile, BadLate) as why:
        place = "" if str(why).startswith(asked.keep[: -len(".late")]) else format_place(asked.keep)
        raise Refused(f"{place}{why}") from None
    late = keeper.late
    try:
        if late.job is not None:
            for soup, fate in keeper.find_missing(Fates(census, late.job, asked.soup_seconds)):
                if fate.kind is Kind.SETTLED:
                    wrong = describe_wrong_line(soup)
                    streams.terminal.complain(f"{format_place(asked.keep)}{wrong}")
    except TooLate as why:
        raise Refused(str(why)) from None
    finally:
        keeper.end()
    rows = count_kept_fates(late, late.count_unsettled())
    write_table(KindTable(rows), asked, streams)
    return DONE


def write_table(table: FateTable | KindTable, asked: argparse.Namespace, streams: Streams) -> None:
    streams.write_lines(table.csv() if asked.csv else table.json() if asked.json else table.text())


def explain_soups(asked: argparse.Namespace, census: Census) -> FateTable:
    job = Job(asked.seed or "", asked.rule or LIFE, read_profile(asked))
    fates = Fates(census, job, asked.soup_seconds)
    return FateTable(job, list(zip(asked.soups, fates.find_all(asked.soups), strict=True)))


def explain_file(asked: argparse.Namespace, streams: Streams, census: Census) -> FateTable:
    """Explains the unsettled soups with the lowest numbers in a file of report lines."""
    (name,) = asked.soups
    warn_of_lost_lines(name, streams)
    reports = Reports(streams.terminal)
    unsettled = [
        report.soup for report in streams.read_reports(reports, name) if report.settled is None
    ]
    reports.tell_skipped()
    if reports.job is None:
        return FateTable(None, [])
    usual = None if asked.kinds else USUAL_MOST
    soups = sorted(unsettled)[: usual if asked.most is None else asked.most]
    kept = read_kept_fates(name)
    missing = [soup for soup in soups if soup not in kept]
    fates = Fates(census, reports.job, asked.soup_seconds).find_all(missing)
    kept.update(zip(missing, fates, strict=True))
    found = [(soup, kept[soup]) for soup in soups]
    for soup, fate in found:
        if fate.kind is Kind.SETTLED:
            streams.terminal.complain(f"{format_place(name)}{describe_wrong_line(soup)}")
    return FateTable(reports.job, found)


def read_kept_fates(name: str) -> dict[int, Fate]:
    """Returns the fates that a FILE.late has. Any other file has none."""
    if not os.path.isfile(name) or not is_late_file(name):
        return {}
    with suppress(BadLate), open(name, "rb") as stream:
        lines = [(line.soup, find_kept_fate(line)) for line in read_late(stream).lines]
        return {soup: fate for soup, fate in lines if fate is not None}
    return {}


def explain_pattern(asked: argparse.Namespace, streams: Streams, census: Census) -> FateTable:
    rows, rule = read_any_pattern(asked.pattern, streams, asked.plane)
    job = Job("", asked.rule or rule or LIFE, read_profile(asked))
    pattern = "".join(f"{row}\n" for row in rows).encode("ascii")
    fate = Fates(census, job, asked.soup_seconds).find(pattern)
    return FateTable(job, [(asked.pattern, fate)], is_of_pattern=True)


def read_any_pattern(name: str, streams: Streams, is_plane: bool) -> tuple[Rows, str | None]:
    """Reads a pattern in plaintext, RLE or coordinates. Returns its rows and its rule. The rule is
    `None` if the text has no rule."""
    text = b""
    try:
        with streams.open_pattern(name) as (text, lines):
            if is_coordinates(text):
                return draw_columns(lines), None
            if is_plaintext(text):
                return read_plaintext(text), None
            read = read_rle(text, is_plane)
            if read.has_history:
                streams.terminal.complain(f"{format_place(name)}{WITHOUT_HISTORY}")
            return read.rows, None if read.rule is None else parse_rule(read.rule)
    except (BadPlaintext, BadRle, BadCoordinates) as bad:
        other = describe_other_form(text, "rle", "plaintext", "coordinates")
        raise Refused(f"{format_place(name)}{bad}{other}") from None


def draw_columns(lines: Iterator[bytes]) -> Rows:
    """Draws a pattern from its coordinates. Raises `BadPlaintext` if it is too large."""
    rows = read_coordinates(lines)
    left, right = min(min(row) for row in rows.values()), max(max(row) for row in rows.values())
    top, bottom = min(rows), max(rows)
    if right - left >= SIDE or bottom - top >= SIDE:
        raise BadPlaintext(f"pattern larger than {SIDE} by {SIDE}")
    return [
        "".join("O" if x in rows.get(y, ()) else "." for x in range(left, right + 1))
        for y in range(top, bottom + 1)
    ]


def read_profile(asked: argparse.Namespace) -> Profile:
    numbers = zip((getattr(asked, name) for name in Profile._fields), STANDARD, strict=True)
    return Profile._make(usual if said is None else said for said, usual in numbers)


WHY = Command(
    "why",
    "say why soups are unsettled, or why a pattern is",
    "Each soup has a line with its fate and\nwhat explains it. These are the fates: the soup "
    "`settled`; an object `falls apart`; an object has\na `period` that is too long; the soup "
    "`settles after` the limit; the population has `linear\ngrowth`; the soup `collides soon`, "
    "because two of its objects do; it is `still active`; or its\nfate is `not decided`. Soups are "
    "given by their numbers, or by a FILE of report lines, such as\nthe FILE.late of `haul search`.\n\n"
    "examples:\n  haul why 33569\n  haul why --most 5 mine.haul.late\n  haul why --pattern gun.rle",
    (
        option("--seed", "SEED", "the seed of the soups (default: the empty seed)", read_seed),
        option(
            "--rule", "RULE", "the rule, such as b36s23 (default: b3s23, Life)", read_rule_value
        ),
        *list_profile_options("the profile's"),
        option(
            "--pattern",
            "FILE",
            "explain a pattern, in plaintext, RLE or coordinates (`-`: standard input)",
            read_path,
        ),
        PLANE,
        option(
            "--keep",
            "FILE.late",
            "find the fates of all unsettled soups in the FILE.late of a search, keep them in that "
            "file, and count them",
            read_path,
        ),
        flag("--kinds", "count the fates of all soups instead of printing a line for each soup"),
        option(
            "--most",
            "N",
            f"explain the first N unsettled soups of FILE (default: {USUAL_MOST}, or all with --kinds)",
            read_count,
        ),
        option(
            "--soup-seconds",
            "N",
            f"give up on a soup or a pattern after N seconds, 0 to {MOST_SECONDS} (default: "
            f"{SOUP_SECONDS}; 0: never)",
            read_within(0, MOST_SECONDS),
            SOUP_SECONDS,
        ),
        FORMS,
        WORKERS,
        CENSUS,
        Argument(
            "soups",
            "the number of a soup, or a file of report lines",
            "SOUP|FILE",
            read_subject,
            repeats="*",
        ),
    ),
    run_why,
    find_fault_of_why,
)
