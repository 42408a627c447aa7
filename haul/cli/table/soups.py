"""The entries of `soup`, `soups`, `cells` and `rle` in the table of commands."""

from __future__ import annotations

from haul.cli import commands
from haul.cli.arguments import Argument, Command, Exclusive, flag, option
from haul.cli.faults import find_fault_of_soups
from haul.cli.pattern_commands import find_fault_of_soup, run_cells, run_rle, run_soup
from haul.cli.shared_options import CENSUS, FORMS, NO_DATA, PLANE, WORKERS
from haul.cli.values import read_code, read_count, read_path, read_rule_value
from haul.patterns.rules import LIFE

SOUP = Command(
    "soup",
    "print the soup of a sample on Catagolue",
    "The sample is C1/k_abcdef12345, or the part after\nthe slash, or the address of its page. A rule "
    "behind it, as in C1/k_abcdef12345/b36s23, is told\non standard error.\n\n"
    "examples:\n  haul soup C1/k_abcdef12345 | census name\n"
    "  haul soup https://catagolue.hatsya.com/hashsoup/C1/k_abcdef12345/b3s23\n"
    "  haul soup --separate soups C1/k_abcdef12345 C1/k_abcdef12346",
    (
        flag("--rle", "print RLE, with the sample and its rule"),
        option(
            "--separate",
            "FOLDER",
            "write each soup to a file in FOLDER, which is made if it isn't there; "
            "the file has the name of the sample",
            read_path,
        ),
        Argument("samples", "the sample", "ID", repeats="+"),
    ),
    run_soup,
    find_fault_of_soup,
)


SOUPS = Command(
    "soups",
    "list what report lines say about their soups",
    "Without --longest, --unsettled or\n--code, it prints when the soups settled: the quartiles and "
    "the mean of the checkpoints, and a\nbar for every 500 generations. The lines, which `census work` "
    "prints, aren't checked;\n`census gather` does that. A bad line, and a line of another job than "
    "the first, is\nreported and skipped. Each soup counts once.\n\n"
    "examples:\n  census work --count 200 --worker 1 | haul soups\n"
    "  haul soups --longest 10 --exact pieces/*.lines\n  haul soups --code xp2_7e pieces/*.lines",
    (
        Exclusive(
            (
                option("--longest", "N", "list the N soups that settled last", read_count),
                flag(
                    "--unsettled",
                    "list the unsettled soups, each with its population at the last checkpoint, and "
                    "how much that grew over 1,000 generations",
                ),
                option(
                    "--code",
                    "CODE",
                    "list the soups that left an object of this code or name, and how many they left",
                    read_code,
                ),
            )
        ),
        flag(
            "--why",
            "with --unsettled: also say what became of each soup, as `haul why` does",
        ),
        flag("--exact", "with --longest: find the exact generations, as `--stride 1` does"),
        FORMS,
        WORKERS,
        CENSUS,
        NO_DATA,
        Argument("files", "the lines (default: standard input)", "file", repeats="*"),
    ),
    commands.run_soups,
    find_fault_of_soups,
)

CELLS = Command(
    "cells",
    "print a pattern in RLE as plaintext, which `census run` and `census name` read",
    "If the\nrule in the header isn't Life, the option that `census` needs is written to standard "
    "error.\nPlaintext passes through without its comments.\n\n"
    "example:\n  haul cells gun.rle | census run 30",
    (
        PLANE,
        NO_DATA,
        Argument("file", "the pattern, or its name or code (default: standard input)", repeats="?"),
    ),
    run_cells,
)

RLE = Command(
    "rle",
    "print a plaintext pattern as RLE, which Golly and LifeWiki read",
    "Coordinates, which\n`census run --coordinates` prints, are read too. They may be those of a pattern of any size.\n\n"
    "examples:\n  census show xq4_153 | haul rle > glider.rle\n"
    "  census soup 7778 | census run 14948 --coordinates | haul rle > ash.rle",
    (
        option(
            "--rule",
            "RULE",
            "the rule of the header, such as b36s23 (default: b3s23, Life)",
            read_rule_value,
            LIFE,
        ),
        NO_DATA,
        Argument("file", "the pattern, or its name or code (default: standard input)", repeats="?"),
    ),
    run_rle,
)
