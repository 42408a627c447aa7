"""Runs `haul names`: the names that the user has added."""

from __future__ import annotations

import argparse
import os
from collections import Counter
from collections.abc import Iterator
from pathlib import Path

from haul.census.client import Census
from haul.cli.statuses import DONE
from haul.cli.streams import Refused, Streams
from haul.collections.naming import Namings, find_namings
from haul.collections.pattern_files import PassedOver, read_collection
from haul.names.objects import load_names
from haul.names.spelling import simplify
from haul.names.user_names import ENDING, Naming, find_tables, read_namings, write_namings
from haul.plurals import pluralize, write_count
from haul.terminal import escape_controls
from haul.user_data import find_folder, locked

NO_FOLDER = "there is no folder for names, since HAUL_DATA is empty"


def find_fault_of_names(asked: argparse.Namespace) -> str | None:
    if asked.verbose and not asked.add:
        return "--verbose is only for --add"
    return None


def run_names(asked: argparse.Namespace, streams: Streams) -> int:
    if asked.add:
        streams.write_lines(add_names(asked, streams))
    elif asked.remove:
        streams.write_lines(remove_names(asked.remove))
    else:
        streams.write_lines(list_names() if asked.list else count_names())
    return DONE


def need_folder() -> Path:
    folder = find_folder()
    if folder is None:
        raise Refused(NO_FOLDER)
    return folder


def add_names(asked: argparse.Namespace, streams: Streams) -> Iterator[str]:
    """Adds the names in files, one file after the other, and yields a line about each. A file that
    was added before is read anew."""
    folder, census = need_folder(), Census(asked.census, streams.terminal, asked.workers)

    def report(one: PassedOver) -> None:
        if asked.verbose:
            streams.terminal.complain(f"{one.place}: {one.why}")

    for path in asked.add:
        namings = Namings(name_source(path), report)
        find_namings(census, read_collection(path), namings)
        with locked(folder):
            keep_others(namings.file)
            for rule, found in namings.found.items():
                table = folder / "names" / f"{rule}{ENDING}"
                before = read_namings(table) if table.exists() else []
                write_namings(table, [*before, *found])
        names = sum(len(set(found)) for found in namings.found.values())
        over = write_count(namings.passed_over, "file or line", "files or lines")
        more = "" if asked.verbose or not namings.passed_over else " (--verbose lists them)"
        yield f"{escape_controls(path)}: {write_count(names, 'name')}; {over} passed over{more}"


def name_source(path: str) -> str:
    """Returns the name of a file as it is in a table."""
    return escape_controls(os.fsencode(os.path.abspath(path)).decode("utf-8", "backslashreplace"))


def keep_others(file: str) -> int:
    """Removes the names that are from a file, and returns how many these were. The folder must be
    locked."""
    removed = 0
    for table in find_tables().values():
        namings = read_namings(table)
        others = [naming for naming in namings if naming.file != file]
        removed += len(namings) - len(others)
        if not others:
            table.unlink()
        elif len(others) < len(namings):
            write_namings(table, others)
    return removed


def remove_names(files: list[str]) -> Iterator[str]:
    with locked(need_folder()):
        for file in files:
            removed = keep_others(name_source(file)) or keep_others(file)
            if not removed:
                raise Refused(f"{file}: no names are from this file")
            yield f"{escape_controls(file)}: {write_count(removed, 'name')} removed"


def list_namings() -> Iterator[tuple[str, Naming]]:
    for rule, table in find_tables().items():
        for naming in read_namings(table):
            yield rule, naming


def list_names() -> Iterator[str]:
    """Yields a line for each name that the user has added: the rule, the code, the name and the
    file, with tabs between them."""
    for rule, naming in list_namings():
        yield "\t".join(map(escape_controls, (rule, *naming)))


def count_names() -> Iterator[str]:
    """Yields how many names there are: those of `haul`, and those of each file and rule."""
    own = load_names().shown
    yield f"{write_count(len(own), 'name')} of haul"
    counts = Counter((naming.file, rule) for rule, naming in list_namings())
    for (file, rule), number in sorted(counts.items()):
        yield f"{write_count(number, 'name')} under {rule} from {escape_controls(file)}"
    objects: dict[tuple[str, str], set[str]] = {}
    for rule, naming in list_namings():
        objects.setdefault((rule, simplify(naming.name)), set()).add(naming.code)
    ambiguous = sum(len(codes) > 1 for codes in objects.values())
    if ambiguous:
        verb = pluralize(ambiguous, "belongs", "belong")
        yield f"{write_count(ambiguous, 'name')} {verb} to several codes"
