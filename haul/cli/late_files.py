"""FILE.late of a search, for the commands that read it."""

from __future__ import annotations

import os
from contextlib import suppress
from itertools import chain

from haul.cli.streams import Refused, Streams, format_place
from haul.formats.field_reader import BadHaul
from haul.formats.haul import Haul
from haul.formats.haul_reader import read_one_haul
from haul.formats.late_file import BadLate, Late, is_late_file, read_late
from haul.formats.recognition import describe_other_form

SUFFIX = ".late"
# What can be done if a page can't show the file.
INSTEAD = "; leave out --lives, or restore the file"


def read_late_soups(name: str, streams: Streams, haul: Haul) -> Late:
    """Reads the FILE.late of a haul, without the soups that aren't in the haul. Raises `Refused` if
    lines are lost, or if it isn't of this haul. Complains if it doesn't cover the whole haul."""
    first = b""
    try:
        with streams.open_input(name) as stream:
            first = stream.readline()
            late = read_late(chain([first] if first else [], stream))
    except BadLate as bad:
        other = describe_other_form(first, "late") or INSTEAD
        raise Refused(f"{format_place(name)}{bad}{other}") from None
    if late.job not in (None, haul.job):
        raise Refused(f"{format_place(name)}of a census with another seed, rule or profile")
    late = late.choose(haul.ranges, late.generation)
    lost = late.find_lost_unsettled(haul)
    if lost is not None:
        raise Refused(f"{format_place(name)}{lost}{INSTEAD}")
    uncovered = late.count_uncovered(haul)
    if uncovered:
        streams.terminal.complain(
            f"{format_place(name)}covers only {haul.size() - uncovered} of the {haul.size()} soups"
        )
    return late


def warn_of_lost_lines(name: str | None, streams: Streams) -> None:
    """Complains if a file is the FILE.late of a search, and if its lines aren't those that its first
    line announces, or if it doesn't fit the haul beside it."""
    if name is None or not os.path.isfile(name) or not is_late_file(name):
        return
    # A search that is running replaces FILE.late before FILE. So if FILE is read first, FILE.late
    # covers at least as many soups.
    haul = read_haul_beside(name)
    try:
        with open(name, "rb") as stream:
            late = read_late(stream)
    except BadLate as bad:
        why: str | None = str(bad)
    else:
        why = late.find_misfit(haul) if haul is not None else None
    if why is not None:
        streams.terminal.complain(f"{format_place(name)}{why}, so soups may be missing")


def read_haul_beside(name: str) -> Haul | None:
    """Returns the haul in FILE, given the path of FILE.late. Returns `None` if there is none."""
    file = name.removesuffix(SUFFIX)
    if file == name or not os.path.isfile(file):
        return None
    with suppress(BadHaul), open(file, "rb") as stream:
        return read_one_haul(stream)
    return None
