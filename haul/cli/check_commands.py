"""Runs `haul index`, and `haul check` on hauls or on an index."""

from __future__ import annotations

import argparse
import time
from collections.abc import Iterator
from itertools import islice

from haul.census.client import Census
from haul.cli.statuses import DONE, NOT_RIGHT, REFUSED, USAGE
from haul.cli.streams import Refused, Streams, format_place
from haul.formats.field_reader import BadHaul
from haul.formats.haul import Haul, Job, Range
from haul.formats.index import Index, compute_digest, format_index, is_index, name_piece, read_index
from haul.hauls.apgsearch_check import ApgsearchCheck, CantCheck
from haul.hauls.check import (
    count_right_rows,
    count_samples,
    find_wrong_samples,
    list_differences,
    resembles_nothing,
    retake,
)
from haul.hauls.file_choice import FileChoice
from haul.hauls.indexing import CantIndex, Indexing
from haul.plurals import write_count
from haul.terminal import escape_controls

RIGHT = "right"
# The most differences that are listed.
MOST_LINES = 20


def run_check(asked: argparse.Namespace, streams: Streams) -> int:
    if asked.files and is_index(asked.files[0]):
        return run_index_check(asked, streams)
    if len(asked.files) <= 1 and asked.random is None:
        lines = check_haul(asked, streams, asked.files[0] if asked.files else None)
        streams.write_lines(lines)
        return DONE if lines == [RIGHT] else NOT_RIGHT
    files = asked.files
    if asked.random is not None:
        choice = FileChoice(files, asked.random, asked.choice)
        streams.write_lines([choice.text()])
        streams.stdout.flush()
        files = choice.choose()
    return find_worst_status([check_one_file(asked, streams, name) for name in files])


def check_one_file(asked: argparse.Namespace, streams: Streams, name: str) -> int:
    """Checks one of several files, and returns the exit status for this file. Each line of output
    begins with the name of the file."""
    try:
        lines = check_haul(asked, streams, name)
    except Refused as why:
        place = format_place(name)
        streams.terminal.complain(str(why) if str(why).startswith(place) else f"{place}{why}")
        return REFUSED
    # The name of a file can't end a line, or a file could forge the line of another.
    streams.write_lines(f"{escape_controls(name)}: {line}" for line in lines)
    streams.stdout.flush()
    return DONE if lines == [RIGHT] else NOT_RIGHT


def find_worst_status(statuses: list[int]) -> int:
    """Returns the exit status for several files, given the status for each file. A wrong haul takes
    precedence over a refused text."""
    return max(statuses, default=DONE)


def check_haul(asked: argparse.Namespace, streams: Streams, name: str | None) -> list[str]:
    """Returns the lines that `haul check` prints about a haul."""
    haul = streams.read_haul(name)
    if haul.apgsearch:
        return check_apgsearch_haul(asked, streams, haul, name)
    if asked.totals:
        raise Refused(f"{format_place(name)}--totals is for hauls of apgsearch")
    census = Census(asked.census, streams.terminal, asked.workers)
    began = time.monotonic()
    if asked.samples:
        wrong = shorten(find_wrong_samples(census, haul))
        soups = write_count(count_samples(haul), "sample soup")
    elif haul.soups != haul.size():
        raise Refused(
            f"{format_place(name)}haul with missing soups, which can't be taken again; --samples "
            "runs its sample soups"
        )
    else:
        wrong = shorten(list_all_differences(haul, retake(census, haul)))
        soups = describe_soups(haul)
    streams.terminal.complain(f"{format_place(name)}{describe_run(soups, haul.job, began)}")
    return wrong or [RIGHT]


def describe_soups(haul: Haul) -> str:
    ranges = write_count(len(haul.ranges), "range")
    return f"{write_count(haul.size(), 'soup')} in {ranges}"


def describe_run(soups: str, job: Job, began: float) -> str:
    """Returns what was run under which rule, and how many seconds that took. `began` is when it
    began, in seconds."""
    return f"{soups} run under {job.rule} in {time.monotonic() - began:.1f} s"


def list_all_differences(haul: Haul, right: Haul) -> Iterator[str]:
    """Yields the differences. If nothing resembles the right haul, a line before them says so."""
    if resembles_nothing(haul, right):
        yield (
            f"nothing here resembles a census of these soups of the seed '{haul.job.seed}': "
            f"{count_right_rows(haul, right)} of {write_count(len(haul.samples), 'row')} of samples "
            "are right"
        )
    yield from list_differences(haul, right)


def shorten(lines: Iterator[str]) -> list[str]:
    """Returns the first `MOST_LINES` lines. If there are more, the last line says how many."""
    first = list(islice(lines, MOST_LINES))
    more = sum(1 for _ in lines)
    return first + ([f".. and {write_count(more, 'more difference')}"] if more else [])


def check_apgsearch_haul(
    asked: argparse.Namespace, streams: Streams, haul: Haul, name: str | None
) -> list[str]:
    """Checks either the samples or the totals of a haul of apgsearch, and returns the lines that
    `haul check` prints about the haul."""
    if not asked.samples and not asked.totals:
        raise Refused(
            f"{format_place(name)}a haul of apgsearch doesn't name its soups: --samples runs its "
            "sample soups, and --totals takes a census of as many soups"
        )
    try:
        check = ApgsearchCheck(Census(asked.census, streams.terminal, asked.workers), haul)
        began = time.monotonic()
        if asked.totals:
            wrong = shorten(check.find_other_totals(asked.first or 0))
            soups = write_count(haul.soups, "soup")
        else:
            for reason, codes in check.list_unchecked().items():
                streams.terminal.complain(
                    f"{format_place(name)}not checked, since {reason}: {' '.join(codes)}"
                )
            wrong = shorten(check.find_wrong_samples())
            soups = write_count(count_samples(check.choose_known()), "sample soup")
    except CantCheck as why:
        raise Refused(f"{format_place(name)}{why}") from None
    streams.terminal.complain(f"{format_place(name)}{describe_run(soups, haul.job, began)}")
    return wrong or [RIGHT]


def run_index(asked: argparse.Namespace, streams: Streams) -> int:
    indexing = Indexing()
    for name in asked.files or [None]:
        try:
            indexing.add(streams.read_haul(name))
        except CantIndex as why:
            raise Refused(f"{format_place(name)}{why}") from None
    streams.write_lines(format_index(indexing.result()))
    return DONE


def run_index_check(asked: argparse.Namespace, streams: Streams) -> int:
    """Checks the pieces of an index. If hauls are given after the index, checks their digests
    instead."""
    name, *hauls = asked.files
    with streams.open_input(name) as stream:
        try:
            index = read_index(stream)
        except BadHaul as bad:
            raise Refused(f"{format_place(name)}{bad}") from None
    if hauls:
        began = time.monotonic()
        # All hauls are read before the first line is printed.
        compared = list(compare_hauls(streams, index, hauls))
        what = f"{write_count(len(hauls), 'haul')} compared with the index, and no soup"
        streams.terminal.complain(describe_run(what, index.job, began))
        return report(compared, streams)
    pieces = list(index.pieces)
    if asked.random is not None:
        if asked.random > len(pieces):
            streams.terminal.complain(
                f"--random {asked.random} is more than the {write_count(len(pieces), 'piece')}"
            )
            return USAGE
        choice = FileChoice(list(map(name_piece, pieces)), asked.random, asked.choice, "piece")
        streams.write_lines([choice.text()])
        streams.stdout.flush()
        chosen = set(choice.choose())
        pieces = [piece for piece in pieces if name_piece(piece) in chosen]
    return report(retake_pieces(asked, streams, index, pieces), streams)


def report(found: Iterator[tuple[Range, bool]] | list[tuple[Range, bool]], streams: Streams) -> int:
    """Writes a line for each piece as soon as it has been checked, and returns the status."""
    status = DONE
    for piece, is_right in found:
        streams.write_lines([f"{name_piece(piece)}: {'right' if is_right else 'other digest'}"])
        streams.stdout.flush()
        status = status if is_right else NOT_RIGHT
    return status


def compare_hauls(streams: Streams, index: Index, names: list[str]) -> Iterator[tuple[Range, bool]]:
    """Yields, for each haul, its piece of the index, and whether its digest is the one in the
    index."""
    for name in names:
        haul = streams.read_haul(name)
        if haul.job != index.job or len(haul.ranges) != 1 or haul.ranges[0] not in index.pieces:
            raise Refused(
                f"{format_place(name)}its seed, rule, profile and soups are those of no piece"
            )
        piece = haul.ranges[0]
        yield piece, compute_digest(haul) == index.pieces[piece]


def retake_pieces(
    asked: argparse.Namespace, streams: Streams, index: Index, pieces: list[Range]
) -> Iterator[tuple[Range, bool]]:
    """Takes the census of each piece again. Yields the piece, and whether the digest of the new haul
    is the one in the index."""
    census = Census(asked.census, streams.terminal, asked.workers)
    for piece in pieces:
        began = time.monotonic()
        right = retake(census, Haul(index.job, ranges=[piece]))
        streams.terminal.complain(
            f"{name_piece(piece)}: {describe_run(describe_soups(right), index.job, began)}"
        )
        yield piece, compute_digest(right) == index.pieces[piece]
