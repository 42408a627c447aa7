"""The output of `haul rarity`: the N for which an object occurs in one of N soups of the
reference."""

from __future__ import annotations

from collections import Counter
from collections.abc import Iterator

from haul.fates.reference import count_fates_with
from haul.known.lookup import load_known
from haul.life.parts import Separator
from haul.names.labels import NOT_SEPARATED, describe_parts
from haul.names.objects import find_name
from haul.patterns.rules import LIFE
from haul.plurals import pluralize
from haul.rarity.code_faults import find_code_fault
from haul.rarity.counted import find_occurrence_of_counted
from haul.rarity.occurrence import Occurrence, format_one_in
from haul.rarity.reference import NONE, SOUPS, load_reference

# The columns of rarity: N if one of N soups has the object, and the ends of the 95 % interval of N.
RARITY_HEADS = ["one_in", "one_in_low", "one_in_high"]
ROUNDED = 3
NOT_COUNTED = "no object that `census` counts, so the reference can't have it"


def describe_rarity(separator: Separator, code: str) -> Iterator[str]:
    """Yields the lines about an object. A pseudo-object has a line of its own, and a line for each
    code among its parts. If something is wrong with the code, the only line says what."""
    fault = find_code_fault(code)
    if fault is not None:
        yield f"{name_object(code)}: {fault}"
        return
    separation = separator.separate(code)
    if len(separation.parts) == 1:
        unsure = "" if separation.is_separated else f", {NOT_SEPARATED}"
        yield f"{name_object(code)}{unsure}: {describe_part(code)}"
        return
    yield f"{name_object(code)}: a pseudo-object, made of {describe_parts(separation.parts, LIFE)}"
    for part in Counter(separation.parts):
        yield f"  {name_object(part)}: {describe_part(part)}"


def describe_fate(name: str) -> str:
    """Returns a line that says how many soups of the reference are unsettled because of what has
    this name."""
    occurrence = count_fates_with(name)
    soups = f"{occurrence.having} unsettled {pluralize(occurrence.having, 'soup')} of {SOUPS}"
    low, high = occurrence.one_in_low(), occurrence.one_in_high()
    if high is None:
        return f"{name}: {soups}; less than one soup in {round_down(low)} (95 %)"
    interval = f"{format_one_in(low)} to {format_one_in(high)}"
    return f"{name}: {soups}, {occurrence.describe()} (95 %: {interval})"


def name_object(code: str) -> str:
    name = find_name(code)
    return code if name is None else f"{code} ({name})"


def describe_part(code: str) -> str:
    """Returns a text that says how often a part occurs in the reference, with the 95 % interval,
    and, if the user has added lists of known codes, whether they have it."""
    known = load_known(LIFE)
    return describe_part_alone(code) + (f"; {known.describe(code)}" if known else "")


def describe_part_alone(code: str) -> str:
    occurrence, entry = find_occurrence_of_counted(code), load_reference().get(code, NONE)
    if occurrence is None:
        return NOT_COUNTED
    high = occurrence.one_in_high()
    low = occurrence.one_in_low()
    if high is None:
        return f"{occurrence.describe()} soups; less than one in {round_down(low)} (95 %)"
    interval = f"{format_one_in(low)} to {format_one_in(high)}"
    return (
        f"{occurrence.describe()} soups (95 %: {interval}); "
        f"{entry.total} {pluralize(entry.total, 'object')} in {entry.soups} of {SOUPS} soups"
    )


def list_part_words(code: str) -> list[str]:
    """Returns what the reference says about a part, as texts for a page: `one in N`, the 95 %
    interval of N, and the number of such parts with the number of soups that have them. If the
    reference has no such part, the first two texts are `none in ..` and `95 %: less than one in
    ..`, and the third is empty. If `census` doesn't count such objects, the only text says so."""
    occurrence, entry = find_occurrence_of_counted(code), load_reference().get(code, NONE)
    if occurrence is None:
        return [NOT_COUNTED.replace("`", "")]
    one_in, low, high = list_numbers(occurrence)
    assert low is not None
    if one_in is None or high is None:
        return [f"none in {SOUPS:,}", f"95 %: less than one in {round_down(low):,}", ""]
    interval = f"95 %: {separate_thousands(low)} to {separate_thousands(high)}"
    objects = f"{entry.total:,} {pluralize(entry.total, 'object')}"
    return [
        f"one in {separate_thousands(one_in)}",
        interval,
        f"{objects} in {entry.soups:,} of {SOUPS:,} soups",
    ]


def separate_thousands(one_in: float) -> str:
    return f"{one_in:,.0f}" if one_in >= 100 else format_one_in(one_in)


def round_down(number: float) -> int:
    """Rounds a number down to three significant digits. The number must be at least 100."""
    unit = int(10 ** (len(str(int(number))) - ROUNDED))
    return int(number) // unit * unit


def list_rarity_words(occurrence: Occurrence | None) -> list[str]:
    """Returns the three columns of rarity for a reader. If no soup of the reference has the object,
    the first and the third are `none`. If `census` doesn't count such objects, all are `-`."""
    if occurrence is None:
        return ["-"] * len(RARITY_HEADS)
    return [
        "none" if number is None else format_one_in(number) for number in list_numbers(occurrence)
    ]


def list_rarity_values(occurrence: Occurrence | None) -> list[str]:
    """Returns the three columns of rarity for CSV. They are empty if `census` doesn't count such
    objects."""
    if occurrence is None:
        return [""] * len(RARITY_HEADS)
    return ["none" if number is None else str(number) for number in list_numbers(occurrence)]


def list_rarity_facts(occurrence: Occurrence | None) -> dict[str, object]:
    """Returns the three fields of rarity for JSON. They are null if `census` doesn't count such
    objects."""
    if occurrence is None:
        return dict.fromkeys(RARITY_HEADS)
    return dict(zip(RARITY_HEADS, list_numbers(occurrence), strict=True))


def list_numbers(occurrence: Occurrence) -> list[float | None]:
    return [occurrence.one_in(), occurrence.one_in_low(), occurrence.one_in_high()]
