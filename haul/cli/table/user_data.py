"""The entries of `names` and `known` in the table of commands."""

from __future__ import annotations

from dataclasses import replace

from haul.cli.arguments import Argument, Command, Exclusive, flag, option
from haul.cli.known_command import find_fault_of_known, run_known
from haul.cli.names_command import find_fault_of_names, run_names
from haul.cli.shared_options import CENSUS, WORKERS
from haul.cli.values import read_path, read_rule_value, read_word

NAMES = Command(
    "names",
    "add names of objects from files that you have",
    "A file is a pattern in RLE with a line\n`#N NAME`, or in plaintext with a line `!Name: NAME`; a folder or an "
    "archive (.zip, .tar.gz) of\nsuch files; or a table with a code and a name in each line. "
    "Without an option, the command prints\nhow many names there are.\n\n`census name` "
    "finds the code of each pattern. What isn't one object in its first generation is\npassed over. "
    "The names are kept in HAUL_DATA, by default ~/.local/share/haul, in a table for each\nrule. "
    "If an object has a name that comes with `haul`, that name is still the one that is shown.\n\n"
    "examples:\n  haul names --add patterns.zip\n  haul names",
    (
        Exclusive(
            (
                Argument("--add", "add the names in FILE", "FILE", read_path, repeats="+"),
                Argument(
                    "--remove",
                    "remove the names that are from FILE",
                    "FILE",
                    read_path,
                    repeats="+",
                ),
                flag("--list", "list the names that were added"),
            )
        ),
        flag("--verbose", "with --add: also list what is passed over, and why"),
        replace(
            WORKERS,
            help=WORKERS.help.replace("run soups with W workers", "run `census` W times at once"),
        ),
        CENSUS,
    ),
    run_names,
    find_fault_of_names,
)


KNOWN = Command(
    "known",
    "add lists of codes that are known elsewhere",
    "A file is a list with a code and a count in\neach line, a haul of apgsearch, or a haul of `census`, which is counted by parts.\n\n"
    "Then `rarity`, `table`, `page` and the finds of `search` say whether the lists have an\nobject, "
    "and how many of it. Without an option, the command prints which lists there are.\n\n"
    "examples:\n  haul known --add C1.csv\n  haul known",
    (
        Exclusive(
            (
                Argument("--add", "add the list in FILE", "FILE", read_path, repeats="+"),
                Argument(
                    "--remove", "remove the list that is from FILE", "FILE", read_path, repeats="+"
                ),
                flag("--list", "list the lists, as without an option"),
            )
        ),
        option(
            "--rule",
            "RULE",
            "with --add: the rule of a list of codes, such as b36s23 (default: b3s23, Life); a haul has its own",
            read_rule_value,
        ),
        option(
            "--symmetry",
            "SYMMETRY",
            "with --add: the symmetry of a list of codes, which is only shown (default: C1)",
            read_word,
        ),
    ),
    run_known,
    find_fault_of_known,
)
