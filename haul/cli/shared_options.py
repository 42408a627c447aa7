"""Options that several commands share."""

from __future__ import annotations

from haul.census.client import MOST_WORKERS
from haul.cli.arguments import Argument, Exclusive, flag, option
from haul.cli.values import read_as_census, read_path, read_want_value, read_within
from haul.formats.profile import LIMIT, MOST_HORIZON, PERIOD, STANDARD, STRIDE, Profile

CENSUS = option(
    "--census",
    "PATH",
    "the census program (default: the one beside this program, or on the PATH)",
    read_path,
)
PLANE = flag("--plane", "read RLE with a rule on a bounded grid as a pattern on the plane")
NO_DATA = flag("--no-data", "use only the names that come with `haul`, and no lists of known codes")
WANT = Argument(
    "--want",
    "kinds such as `p3+`, `pq` or `s`, `rarer N`, `unknown` (in no list of `haul known`), or several of them joined by "
    "`and`; may be given several times, for alternatives",
    "WHAT",
    read_want_value,
    is_list=True,
)
WORKERS = option(
    "--workers",
    "W",
    f"run soups with W workers, 1 to {MOST_WORKERS} (default: one per processor)",
    read_within(1, MOST_WORKERS),
)
FORMS = Exclusive(
    (
        flag("--csv", "print comma-separated values, for a spreadsheet"),
        flag("--json", "print JSON, for a program"),
    )
)


def list_profile_options(before: str) -> tuple[Argument, ...]:
    """Returns the options for the four numbers of a profile. The help of each option begins with
    `before` and the name of the number."""

    def describe_least(name: str, least: int) -> str:
        return "from the period" if name == "horizon" else str(least)

    ranges = (PERIOD, (0, MOST_HORIZON), STRIDE, LIMIT)
    return tuple(
        option(
            f"--{name}",
            "N",
            f"{before} {name}, {describe_least(name, least)} to {most} (default: {standard})",
            read_as_census(least, most),
        )
        for name, (least, most), standard in zip(Profile._fields, ranges, STANDARD, strict=True)
    )
