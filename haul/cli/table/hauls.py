"""The entries of `check`, `join` and `index` in the table of commands."""

from __future__ import annotations

from haul.cli import commands
from haul.cli.arguments import Argument, Command, flag, option
from haul.cli.check_commands import run_check, run_index
from haul.cli.faults import find_fault_of_check
from haul.cli.shared_options import CENSUS, WORKERS
from haul.cli.values import read_as_census, read_count, read_word
from haul.formats.haul import NUMBER_LIMIT

CHECK = Command(
    "check",
    "take the census of a haul again, and compare",
    "Prints `right` if they are equal,\nor a line for each difference; then the status is 7. If "
    "there are several files, each line\nbegins with the name of its file. A check takes as much "
    "work as the census did.\n\n"
    "If the first file is an index, which `haul index` writes, the census of each piece is taken\n"
    "again and its digest is compared. With hauls after the index, their digests are compared, and\n"
    "no soup is run. Each piece is a line, `FIRST+COUNT: right` or `FIRST+COUNT: other digest`.\n\n"
    "examples:\n  census take --count 400 | haul check\n"
    "  haul check --random 30 pieces/*.haul\n  haul check reference/index --random 2",
    (
        WORKERS,
        flag(
            "--samples",
            "run only the soups that are listed under @SAMPLE_SOUPIDS, and check that each leaves its "
            "object; this says nothing about the totals",
        ),
        flag(
            "--totals",
            "for a haul of apgsearch: take the census of as many soups of its seed, and list the codes "
            "whose totals by parts are others",
        ),
        option(
            "--first",
            "N",
            "with --totals: the number of the first soup (default: 0)",
            read_as_census(0, NUMBER_LIMIT),
        ),
        option(
            "--random",
            "N",
            "check N of the files, or of the pieces of an index, drawn at random. The first line names the choice, and says how "
            "likely such a choice is to miss every wrong file if one file in a hundred is wrong",
            read_count,
        ),
        option(
            "--choice",
            "SEED",
            "with --random: repeat the choice that an earlier call printed",
            read_word,
        ),
        CENSUS,
        Argument("files", "the hauls (default: standard input)", "file", repeats="*"),
    ),
    run_check,
    find_fault_of_check,
)


JOIN = Command(
    "join",
    "add up hauls of one job whose sets of soups don't overlap",
    "If all of them are right, the\nresult is exactly what `census take` prints for all their "
    "soups.\n\nexample:\n  haul join pieces/*.haul > all.haul",
    (Argument("files", "the hauls (default: standard input, one after another)", repeats="*"),),
    commands.run_join,
)


INDEX = Command(
    "index",
    "write an index of hauls of one job, by which others can check a large census in pieces",
    "It\nhas a line for each haul: its first soup, its number of soups, and the SHA-256 of its text. "
    "Each\nhaul must have one range and no missing soups, and no two may share a soup.\n\n"
    "example:\n  haul index pieces/*.haul > index",
    (Argument("files", "the hauls (default: standard input)", "file", repeats="*"),),
    run_index,
)
