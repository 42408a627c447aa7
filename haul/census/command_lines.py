"""Command lines of `census`: arguments for calls, and commands that a reader can copy into a
shell."""

from __future__ import annotations

import shlex
from collections.abc import Iterator

from haul.formats.haul import Haul, Job, Range
from haul.formats.profile import STANDARD
from haul.patterns.rules import LIFE

# The most soups that `census` takes in one call.
NUMBERS_IN_A_CALL = 2**24
# The most workers of one call.
WORKERS_OF_A_CALL = 16
# The most ranges in one call: on Linux an argument has at most 131,071 bytes, and a range takes at
# most 23, with its comma.
RANGES_IN_A_CALL = 2000
# The most ranges in a command to copy. With more ranges, it would be too long to copy.
RANGES_TO_COPY = 12

# ---- Arguments of calls


def list_take_arguments(
    job: Job, ranges: list[Range], workers: int, has_progress: bool, late: int | None = None
) -> list[str]:
    """Returns the arguments for taking a set of soups that is small enough for one call. If `late`
    is given, the call also writes the report lines of soups that settle in that generation or
    later, and of unsettled soups. More than `WORKERS_OF_A_CALL` workers count as that many."""
    options = [f"--workers={min(workers, WORKERS_OF_A_CALL)}"]
    options += ["--progress"] if has_progress else []
    options += [f"--report-from={late}"] if late is not None else []
    return ["take", *list_set_options(job, ranges), *options]


def list_work_arguments(job: Job, ranges: list[Range]) -> list[str]:
    """Returns the arguments for the report lines of a set of soups that is small enough for one
    call."""
    return ["work", "--worker=1", *list_set_options(job, ranges)]


def list_name_arguments(job: Job) -> list[str]:
    """Returns the arguments for naming what a pattern becomes. The job's seed isn't used."""
    return ["name", *list_pattern_options(job)]


def list_coordinates_arguments(rule: str, generations: int) -> list[str]:
    """Returns the arguments for the live cells of a pattern after `generations` generations."""
    return ["run", f"--rule={rule}", "--coordinates", str(generations)]


def list_sizes_arguments(rule: str, first: int, last: int) -> list[str]:
    """Returns the arguments for the population and the bounding box of a pattern in each generation
    from `first` to `last`."""
    return ["run", f"--rule={rule}", f"--sizes={first}", str(last)]


def list_set_options(job: Job, ranges: list[Range]) -> list[str]:
    """Returns the options for a job and a set of soups."""
    (first, count), *more = ranges or [(0, 0)]
    options = [f"--seed={job.seed}", *list_pattern_options(job)]
    options += [f"--first={first}", f"--count={count}"]
    if more:
        options.append("--also=" + ",".join(f"{first}+{count}" for first, count in more))
    return options


def list_pattern_options(job: Job) -> list[str]:
    profile = [f"{option}={number}" for option, number in job.profile.list_options()]
    return [f"--rule={job.rule}", *profile]


def split_ranges(ranges: list[Range], numbers: int = NUMBERS_IN_A_CALL) -> Iterator[list[Range]]:
    """Splits ranges into sets that are small enough for one call, with at most `numbers` soups
    each, and yields the sets."""
    piece: list[Range] = []
    room = numbers
    for first, count in ranges:
        while count > 0:
            if room == 0 or len(piece) == RANGES_IN_A_CALL:
                yield piece
                piece, room = [], numbers
            taken = min(count, room)
            piece.append((first, taken))
            first, count, room = first + taken, count - taken, room - taken
    if piece or not ranges:
        yield piece


# ---- Commands to copy


def format_find_command(job: Job, soup: int) -> str:
    """Returns the command that runs the soup of a find and names what it leaves. If the profile
    isn't the standard one, the command has the whole profile."""
    profile: list[str] = []
    if job.profile != STANDARD:
        for option, number in job.profile.list_options():
            profile += [option, str(number)]
    name = shlex.join(["census", "name", "--rule", job.rule, *profile])
    return f"{format_soup_command(job, soup)} | {name}"


def format_soup_command(job: Job, soup: int) -> str:
    """Returns the command that prints a soup."""
    # A value that begins with a hyphen has to be attached to its option.
    seed = ["--seed", job.seed] if not job.seed.startswith("-") else [f"--seed={job.seed}"]
    return shlex.join(["census", "soup", *seed, str(soup)])


def format_soup_commands(job: Job) -> tuple[str, str]:
    """Returns the command that shows what becomes of a soup, as the texts before and after the
    soup's number."""
    before = ["census soup", *list_quoted_seed(job), ""]
    after = [" | census name", *list_changed_options(job)]
    return " ".join(before), " ".join(after)


def format_unsettled_command(haul: Haul) -> str:
    """Returns the command that lists the unsettled soups of a haul. It has calls of `census work`,
    each for a range or a piece of a range. If more than `RANGES_TO_COPY` calls are needed, `..`
    stands for the others."""
    options = [*list_quoted_seed(haul.job), *list_changed_options(haul.job)]
    ranges = [range_ for piece in split_ranges(haul.ranges) for range_ in piece]
    calls = [
        " ".join(["census work", *options, f"--first={first} --count={count} --worker=1"])
        for first, count in ranges[:RANGES_TO_COPY]
    ]
    if len(ranges) > RANGES_TO_COPY:
        calls.append("..")
    before = calls[0] if len(calls) == 1 else f"{{ {'; '.join(calls)}; }}"
    return f"{before} | haul soups --unsettled"


def list_quoted_seed(job: Job) -> list[str]:
    """Returns the option for the seed, quoted for a shell, or no option if the seed is empty."""
    return [f"--seed={shlex.quote(job.seed)}"] if job.seed else []


def list_changed_options(job: Job) -> list[str]:
    """Returns those options for the rule and the profile that differ from the defaults."""
    rule = [f"--rule={job.rule}"] if job.rule != LIFE else []
    return rule + [f"{option}={number}" for option, number in job.profile.list_changed_options()]
