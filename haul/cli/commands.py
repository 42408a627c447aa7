"""Runs the commands `join`, `compare`, `table`, `rarity`, `page`, `soups` and `search`."""

from __future__ import annotations

import argparse
import shlex
from contextlib import suppress

from haul.census.children import children
from haul.census.client import Census
from haul.cli.late_files import read_late_soups, warn_of_lost_lines
from haul.cli.statuses import DONE, USAGE
from haul.cli.streams import Refused, Streams, format_place
from haul.cli.values import describe_unknown, find_code
from haul.fates.explain import TooLate
from haul.fates.reference import find_fate_name
from haul.fates.rows import FateRow, count_kept_fates, is_missing
from haul.formats.field_reader import BadHaul
from haul.formats.haul import Haul
from haul.formats.haul_reader import read_hauls
from haul.formats.haul_writer import format_haul
from haul.formats.late_file import Late
from haul.formats.report_files import Reports
from haul.hauls.by_parts import Objects
from haul.hauls.join import CantJoin, Joining
from haul.known.wanted import describe_wants, find_fault_of_wants
from haul.life.generations import read_rule
from haul.life.parts import Separator
from haul.names.famous import find_famous
from haul.names.objects import find_code_of_name, load_names
from haul.page.document import make_page
from haul.page.lives import Lives, find_lives
from haul.patterns.rules import LIFE
from haul.plurals import pluralize, write_count
from haul.rarity.reference import is_covered
from haul.search.batches import Plan
from haul.search.haul_file import CantUseFile
from haul.search.resume import USUAL_RARER, Disagrees, find_next_soup, open_files
from haul.search.search import Dropped, Search
from haul.search.stopping import Stopping
from haul.terminal import Terminal, find_output_width
from haul.views.compare import Comparison, rank_codes
from haul.views.fate_rows import format_compared_fates, format_fate_rows, list_fate_facts
from haul.views.rarity import describe_fate, describe_rarity
from haul.views.settling import Settling
from haul.views.soup_lists import Leaving, Longest, SoupList, Unsettled
from haul.views.table import (
    RowChoice,
    choose_rows,
    format_table_csv,
    format_table_json,
    format_table_text,
)


def run_join(asked: argparse.Namespace, streams: Streams) -> int:
    joining = Joining()
    bad: str | None = None
    for done, name in enumerate(asked.files or [None], 1):
        with streams.open_input(name) as stream:
            try:
                for haul in read_hauls(stream):
                    joining.add(haul, format_place(name))
            except BadHaul as fault:
                # Only the first fault is reported. The remaining files aren't read.
                bad = f"{format_place(name)}{fault}"
                break
        streams.terminal.show_progress(f"{done} of {len(asked.files or [None])} files")
    streams.terminal.show_progress("")
    if bad is not None:
        raise Refused(bad)
    try:
        joined = joining.result()
    except CantJoin as why:
        raise Refused(str(why)) from None
    streams.write_lines(format_haul(joined))
    return DONE


def run_compare(asked: argparse.Namespace, streams: Streams) -> int:
    by_parts = not asked.whole
    objects = [
        Objects(read_counted_haul(streams, name, by_parts), streams.terminal)
        for name in (asked.a, asked.b, *asked.more)
    ]
    hauls = [one.by_parts() if by_parts else one.haul for one in objects]
    codes = rank_codes(hauls, asked.least, asked.rare)
    has_intervals = len(hauls) > 2 or asked.intervals or asked.per is not None or asked.rare
    comparison = Comparison(hauls, objects, codes, by_parts, asked.per or "million", has_intervals)
    fates = [
        count_kept_fates(read_late_soups(name, streams, one.haul), one.haul.unsettled)
        for name, one in zip(asked.lives or [], objects)
    ]
    width, soups = find_output_width(streams.stdout), [haul.soups for haul in hauls]
    streams.write_lines(
        comparison.csv()
        if asked.csv
        else comparison.json([list_fate_facts(*one) for one in zip(fates, soups)])
        if asked.json
        else comparison.text(width)
    )
    if fates and not asked.json:
        streams.write_lines(format_compared_fates(fates, hauls, width))
    return DONE


def read_counted_haul(streams: Streams, name: str | None, counts_parts: bool) -> Haul:
    """Reads a haul. Raises `Refused` for a haul of apgsearch unless `counts_parts` is set, since
    the totals of apgsearch are by parts already."""
    haul = streams.read_haul(name)
    if haul.apgsearch and not counts_parts:
        raise Refused(
            f"{format_place(name)}the totals of apgsearch are by parts already, so --whole and "
            "--strict are only for hauls of census"
        )
    return haul


def run_table(asked: argparse.Namespace, streams: Streams) -> int:
    counts_parts = not (asked.whole or asked.strict)
    objects = Objects(read_counted_haul(streams, asked.file, counts_parts), streams.terminal)
    haul = objects.by_parts() if counts_parts else objects.haul
    has_rarity = counts_parts and is_covered(haul.job)
    wants = asked.want or []
    fault = find_fault_of_wants(wants, haul.job.rule, is_covered(haul.job))
    if fault is not None:
        raise Refused(f"{format_place(asked.file)}{fault}")
    lines = choose_rows(
        haul,
        objects,
        RowChoice(asked.kind, asked.period, asked.strict, asked.rare, asked.top, wants),
        has_rarity,
    )
    by_parts = objects if counts_parts else None
    width = find_output_width(streams.stdout)
    fates: list[FateRow] = []
    if asked.lives is not None:
        late = read_late_soups(asked.lives, streams, objects.haul)
        fates = count_kept_fates(late, haul.unsettled)
    streams.write_lines(
        format_table_csv(lines, has_rarity, counts_parts)
        if asked.csv
        else format_table_json(haul, lines, by_parts, fates if asked.lives else None)
        if asked.json
        else format_table_text(lines, has_rarity, width)
    )
    if fates and not asked.json:
        streams.write_lines(format_fate_rows(fates, haul.soups, width))
    return DONE


def run_rarity(asked: argparse.Namespace, streams: Streams) -> int:
    separator = Separator(read_rule(LIFE))
    status = DONE
    for text in asked.objects:
        code, famous = find_code_of_name(text) or find_code(text), find_famous(text)
        fate = find_fate_name(text)
        if famous is not None:
            streams.write_lines([f"{famous.name}: {famous.describe()}"])
        elif code is None and fate is None:
            streams.terminal.complain(describe_unknown(text))
            status = USAGE
        elif code is not None:
            streams.write_lines(describe_rarity(separator, code))
        if fate is not None:
            streams.write_lines([describe_fate(fate)])
    return status


def run_page(asked: argparse.Namespace, streams: Streams) -> int:
    hauls = [streams.read_haul(name) for name in asked.files or [None]]
    census = Census(asked.census, streams.terminal, asked.workers)
    lives = None if asked.lives is None else read_lives(asked.lives, streams, census, hauls[0])
    streams.stdout.writelines(make_page(census, hauls, asked.least, asked.play, lives=lives))
    return DONE


def read_lives(name: str, streams: Streams, census: Census, haul: Haul) -> Lives:
    """Reads a file of late soups, and returns what a page shows about them."""
    try:
        lives, wrong = find_lives(census, haul, read_late_soups(name, streams, haul))
    except TooLate as why:
        raise Refused(str(why)) from None
    for line in wrong:
        streams.terminal.complain(f"{format_place(name)}{line}")
    return lives


def run_soups(asked: argparse.Namespace, streams: Streams) -> int:
    reports, settling, soups = (
        Reports(streams.terminal),
        Settling(),
        choose_soup_list(asked, streams.terminal),
    )
    for name in asked.files or [None]:
        warn_of_lost_lines(name, streams)
        for report in streams.read_reports(reports, name):
            settling.add(report)
            soups.add(report)
    reports.tell_skipped()
    streams.terminal.show_progress("")
    try:
        table = soups.table(reports.job, settling)
    except TooLate as why:
        raise Refused(str(why)) from None
    form = table.csv if asked.csv else table.json if asked.json else table.text
    streams.write_lines(form(reports.job, settling))
    return DONE


def choose_soup_list(asked: argparse.Namespace, terminal: Terminal) -> SoupList:
    """Returns the list of soups that the arguments ask for."""
    if asked.longest is not None:
        return Longest(
            asked.longest, Census(asked.census, terminal, asked.workers) if asked.exact else None
        )
    if asked.unsettled:
        return Unsettled(Census(asked.census, terminal, asked.workers), asked.why)
    return Leaving(asked.code) if asked.code is not None else SoupList()


def tell_missing_fates(late: Late, name: str, streams: Streams) -> None:
    """Says on a terminal how many unsettled soups have no fate yet, and how it is found."""
    missing = sum(map(is_missing, late.lines))
    if missing and streams.terminal.is_interactive():
        soups = write_count(missing, "unsettled soup")
        verb = pluralize(missing, "has", "have")
        streams.terminal.complain(
            f"{soups} {verb} no fate yet; to find out: haul why --keep {shlex.quote(name)}"
        )


def run_search(asked: argparse.Namespace, streams: Streams) -> int:
    try:
        files = open_files(asked, streams.terminal.complain)
        # The names are loaded now, since the file of this program may be replaced while the search
        # is running.
        load_names()
        census = Census(asked.census, streams.terminal, asked.workers)
        next_soup, wants = find_next_soup(asked, files.haul), asked.want or []
        if wants and files.haul.soups:
            streams.terminal.complain(
                f"from soup {next_soup} on, finds are new objects that are: {describe_wants(wants)}"
            )
        plan = Plan(
            next_soup,
            asked.until,
            asked.batch,
            census.workers,
            asked.finds,
            USUAL_RARER if asked.rarer is None else asked.rarer,
            None if files.late is None else files.late.generation,
            files.haul.job.rule == LIFE or asked.late is not None,
            asked.soup_seconds,
            wants,
        )
        stopping = Stopping()
        search = Search(plan, files, census, stopping, streams.stdout)
        children.heed(stopping)
        with suppress(Dropped):
            search.run()
        if files.late is not None:
            tell_missing_fates(files.late, f"{asked.file}.late", streams)
    except (CantUseFile, Disagrees, CantJoin) as why:
        raise Refused(str(why)) from None
    return DONE
