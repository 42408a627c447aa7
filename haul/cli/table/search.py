"""The entry of `search` in the table of commands."""

from __future__ import annotations

from dataclasses import replace

from haul.census.command_lines import NUMBERS_IN_A_CALL
from haul.cli import commands
from haul.cli.arguments import Argument, Command, option
from haul.cli.faults import find_fault_of_search
from haul.cli.shared_options import CENSUS, NO_DATA, WANT, WORKERS, list_profile_options
from haul.cli.values import (
    read_as_census,
    read_count,
    read_late,
    read_path,
    read_rule_value,
    read_seed,
    read_within,
)
from haul.formats.haul import NUMBER_LIMIT
from haul.rarity.reference import SOUPS as REFERENCE_SOUPS

SEARCH = Command(
    "search",
    "run soups until it is stopped, and keep their haul in FILE",
    "FILE always\nhas a whole haul, even if this program is killed. If FILE exists, the search goes "
    "on after\nits last soup. Otherwise FILE is made, with a random seed unless --seed is given.\n"
    "FILE.late keeps the report lines of long-lived and unsettled soups, and FILE.finds the finds "
    "that\naren't printed yet.\n\n"
    "The search runs one batch of soups after another, each in one call of `census take`.\nCtrl-C "
    "finishes the running batch, so nothing is lost. A second Ctrl-C drops it.\n\n"
    "A find is an object that is new in FILE and rare: under Life, fewer than one soup in a\n"
    "million of the reference census has it. Each find is printed as a line of six values with\n"
    "tabs between them: the time, the code, the name or kind, the soup, a command that shows what\n"
    "the soup leaves, and how rare the object is. On a terminal, the line begins with `!` if\n"
    "the reference doesn't have the object.\n\n"
    "examples:\n  haul search mine.haul\n  haul search --rule b36s23 --until 1000000 highlife.haul\n"
    "  haul search --finds ./tell-me mine.haul",
    (
        option("--until", "N", "end when the haul has N soups (default: no limit)", read_count),
        option(
            "--batch",
            "N",
            "run N soups per batch, 1 to 16777216 (default: 100000). If a batch is dropped, the next "
            "search runs it again",
            read_within(1, NUMBERS_IN_A_CALL),
            100_000,
        ),
        WORKERS,
        option(
            "--soup-seconds",
            "S",
            "end after S seconds without a soup, or never if S is 0 (default: 60). Under some rules, "
            "soups grow without end",
            read_count,
            60,
        ),
        option(
            "--late",
            "GENERATION",
            "keep the report lines of soups that settle in this generation or later, and of unsettled "
            "soups, in FILE.late, 0 to 100001, or `never` (default: that of FILE.late, or else 12000 "
            "under Life, and 100001 under another rule, which keeps unsettled soups only)",
            read_late,
        ),
        option(
            "--rarer",
            "N",
            "print new objects that fewer than one soup in N of the reference has (default: "
            "1000000); only under Life",
            read_within(1, REFERENCE_SOUPS),
        ),
        replace(
            WANT, help=f"print new objects that fit WHAT, instead of rare ones. WHAT is {WANT.help}"
        ),
        option(
            "--finds",
            "PROGRAM",
            "call PROGRAM for each find, with its six values as arguments; "
            "a call is ended after 60 seconds",
            read_path,
        ),
        option(
            "--seed",
            "SEED",
            "begin FILE with this seed; '' is the empty seed (default: a random seed)",
            read_seed,
        ),
        option(
            "--first", "N", "begin FILE with soup N (default: 0)", read_as_census(0, NUMBER_LIMIT)
        ),
        option(
            "--rule",
            "RULE",
            "begin FILE with this rule, such as b36s23 (default: b3s23, Life)",
            read_rule_value,
        ),
        *list_profile_options("begin FILE with this"),
        CENSUS,
        NO_DATA,
        Argument("file", "the file that keeps the haul", "FILE", read_path),
    ),
    commands.run_search,
    find_fault_of_search,
)
