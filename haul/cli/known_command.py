"""Runs `haul known`: the lists of known codes that the user has added."""

from __future__ import annotations

import argparse
from collections.abc import Iterator

from haul.cli.names_command import name_source, need_folder
from haul.cli.statuses import DONE
from haul.cli.streams import Refused, Streams, format_place
from haul.known.database import add_list, list_lists, remove_list
from haul.known.reading import MOST_BYTES, BadList, read_list
from haul.plurals import write_count
from haul.terminal import escape_controls
from haul.user_data import find_folder


def find_fault_of_known(asked: argparse.Namespace) -> str | None:
    if (asked.rule is not None or asked.symmetry is not None) and not asked.add:
        return "--rule and --symmetry are only for --add"
    return None


def run_known(asked: argparse.Namespace, streams: Streams) -> int:
    if asked.add:
        streams.write_lines(add_lists(asked, streams))
    elif asked.remove:
        streams.write_lines(remove_lists(asked.remove))
    else:
        streams.write_lines(describe_lists())
    return DONE


def add_lists(asked: argparse.Namespace, streams: Streams) -> Iterator[str]:
    """Adds the lists in files, and yields a line about each."""
    folder = need_folder()
    for path in asked.add:
        with streams.open_input(path) as stream:
            text = stream.read(MOST_BYTES + 1)
        if len(text) > MOST_BYTES:
            raise Refused(f"{format_place(path)}longer than {MOST_BYTES} bytes")
        try:
            source = name_source(path)
            found = read_list(source, text, asked.rule or "b3s23", asked.symmetry, streams.terminal)
        except BadList as bad:
            raise Refused(f"{format_place(path)}{bad}") from None
        folder.mkdir(parents=True, exist_ok=True)
        add_list(folder, [found])
        codes = write_count(len(found.counts), "code")
        yield f"{escape_controls(path)}: {codes} under {found.rule}, {found.symmetry}"


def remove_lists(files: list[str]) -> Iterator[str]:
    folder = need_folder()
    for file in files:
        if not (folder.is_dir() and remove_list(folder, name_source(file))):
            raise Refused(f"{file}: no list is from this file")
        yield f"{escape_controls(file)}: removed"


def describe_lists() -> Iterator[str]:
    """Yields a line for each list: the number of codes, the rule, the symmetry and the file."""
    folder = find_folder()
    for one in list_lists(folder) if folder else []:
        codes = write_count(one.codes, "code")
        yield f"{codes} under {one.rule}, {one.symmetry}, from {one.file}"
