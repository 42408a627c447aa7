"""The entries of `compare`, `table`, `rarity` and `page` in the table of commands."""

from __future__ import annotations

from dataclasses import replace

from haul.cli import commands
from haul.cli.arguments import Argument, Command, Exclusive, flag, option
from haul.cli.faults import find_fault_of_compare, find_fault_of_page, find_fault_of_table
from haul.cli.shared_options import CENSUS, FORMS, NO_DATA, WANT, WORKERS
from haul.cli.values import read_count, read_kinds, read_object, read_path, read_periods
from haul.page.sides import MOST_SIDES
from haul.views.compare import MOST_HAULS

COMPARE = Command(
    "compare",
    "set hauls side by side",
    "Each code has a line, with the highest rate first: its name or\nparts, its total in each haul, "
    "its number per million soups, and how many times as frequent\nit is as in A. With --intervals, "
    "--per or --rare, or with more than two hauls, each rate has\nits 95 % interval. By parts, under "
    "Life with the standard profile, the interval allows for soups\nthat leave several objects of a "
    "kind, and a * marks a rate that differs from that of A\n(p < 0.001). Other intervals begin with "
    "~ and are too narrow for such objects.\n\n"
    "examples:\n  haul compare --least 10 life.haul highlife.haul\n"
    "  haul compare --csv life.haul highlife.haul seeds.haul > all.csv",
    (
        option(
            "--least",
            "N",
            "leave out codes with fewer than N objects in each haul (default: 1)",
            read_count,
            1,
        ),
        flag("--intervals", "print intervals, also for two hauls"),
        Argument(
            "--per",
            "print rates per `million` soups or per `soup` (default: million)",
            "UNIT",
            choices=("million", "soup"),
        ),
        flag("--rare", "begin with the rarest code, and leave out codes that all hauls have"),
        Argument(
            "--lives",
            "also count the unsettled soups by their fates, which `haul why --keep` has put into "
            "FILE.late; at most once for each haul, in the same order, and not with --csv",
            "FILE.late",
            read_path,
            is_list=True,
        ),
        Exclusive(
            (
                flag(
                    "--parts",
                    "count each object by its parts, under the rule of its haul (default)",
                ),
                flag("--whole", "count objects as the hauls do, pseudo-objects among them"),
            )
        ),
        FORMS,
        NO_DATA,
        Argument("a", "a haul (`-`: standard input)", "A"),
        Argument("b", "another haul (`-`: standard input)", "B"),
        Argument(
            "more",
            f"more hauls, up to {MOST_HAULS} in all",
            "C",
            default=[],
            repeats="*",
            most_hauls=MOST_HAULS,
            other_hauls=len("AB"),
        ),
    ),
    commands.run_compare,
    find_fault_of_compare,
)


TABLE = Command(
    "table",
    "print the table of a haul, with how often each object occurs",
    "Each code has\na line, the most frequent first: its rank, its total, its number per million "
    "soups, how\nrare it is, its samples, and its name or parts. By parts, under Life with the "
    "standard profile,\n`one_in` is N if one soup in N of the reference census has it, and its 95 % "
    "interval follows.\nOtherwise `one_in_at_most` is N if at most one soup in N of the haul has "
    "it.\n\n"
    "examples:\n  haul table --top 20 all.haul\n  haul table --strict --rare all.haul",
    (
        option("--top", "N", "print only the first N lines", read_count),
        flag("--rare", "begin with the rarest code"),
        option(
            "--kind",
            "KINDS",
            "print only still lifes `s`, oscillators `p` or spaceships `q`, or several kinds, such as `pq`",
            read_kinds,
        ),
        option(
            "--period",
            "N",
            "print only objects of period N, or of periods such as `3+` or `3-8`; still lifes have "
            "period 1",
            read_periods,
        ),
        replace(WANT, help=f"print only objects that fit WHAT, which is {WANT.help}"),
        option(
            "--lives",
            "FILE.late",
            "also count the unsettled soups by their fates, which `haul why --keep` has put into "
            "FILE.late; not with --csv",
            read_path,
        ),
        Exclusive(
            (
                flag(
                    "--strict",
                    "count objects as --whole does, and leave out pseudo-objects; objects that can't "
                    "be separated stay, and are marked",
                ),
                flag("--parts", "count each object by its parts (default)"),
                flag("--whole", "count objects as the haul does, pseudo-objects among them"),
            )
        ),
        FORMS,
        NO_DATA,
        Argument("file", "the haul (default: standard input)", repeats="?"),
    ),
    commands.run_table,
    find_fault_of_table,
)


RARITY = Command(
    "rarity",
    "print how rare objects are, by the reference census",
    "The reference is a census of\n100,000,000 soups of Life with the standard profile. Each object "
    "has a line: one soup in how\nmany has it, with the interval of 95 %, and how many there are in "
    "all soups. A pseudo-object,\nwhich is made of smaller objects, has a line, and one for each of "
    "them. No haul and no built\n`census` is needed.\n\n"
    "examples:\n  haul rarity loafer 'octagon 2' block\n  haul rarity xs8_rr",
    (
        NO_DATA,
        Argument(
            "objects", "a code, or a name such as `loafer`", "NAME|CODE", read_object, repeats="+"
        ),
    ),
    commands.run_rarity,
)


PAGE = Command(
    "page",
    "make a page of a haul, or of several, with pictures of its objects and soups",
    "The page is one\nfile of HTML, which loads no other file. With two to eight hauls, it compares "
    "them.\n\nexamples:\n  haul page < all.haul > all.html\n"
    "  haul page life.haul highlife.haul > both.html",
    (
        option(
            "--least",
            "N",
            "leave out objects that have a total below N in each haul (default: 1)",
            read_count,
            1,
        ),
        option(
            "--play",
            "N",
            "ask `census` when the sample soups of the first N objects settle, so that they play "
            "until then; parts come first (default: 500)",
            read_count,
            500,
        ),
        option(
            "--lives",
            "FILE.late",
            "also show the longest-lived and the unsettled soups in FILE.late, which `haul search` "
            "keeps; with one haul only",
            read_path,
        ),
        WORKERS,
        CENSUS,
        NO_DATA,
        Argument(
            "files",
            "the hauls (default: standard input)",
            "file",
            repeats="*",
            most_hauls=MOST_SIDES,
        ),
    ),
    commands.run_page,
    find_fault_of_page,
)
