"""Labels of objects: their names, or otherwise their parts in words, or what their codes say."""

from __future__ import annotations

import re
from collections import Counter
from functools import cache

from haul.life.parts import Separation
from haul.names.objects import find_name
from haul.patterns.codes import read_kind
from haul.plurals import write_count

NOT_SEPARATED = "not separated"


def find_label(code: str, separation: Separation, rule: str) -> str:
    """Returns the name of an object, or otherwise its parts in words, or what its code says."""
    return find_name_or_parts(code, separation, rule) or describe_kind(code)


def find_name_or_parts(code: str, separation: Separation, rule: str) -> str:
    """Returns the name of an object. If the object has no name, returns its parts in words if there
    are several, otherwise an empty text."""
    name = find_name(code, rule)
    if name is not None:
        return name
    return describe_parts(separation.parts, rule) if len(separation.parts) > 1 else ""


def describe_kind(code: str) -> str:
    """Returns what a code says of its object, such as `still life of 14 cells` or `oscillator of
    period 3`. Returns an empty text if it isn't the code of an object."""
    known = read_kind(code)
    if known is None:
        return ""
    if known.letter == "s":
        return f"still life of {write_count(known.number, 'cell')}"
    return f"{'oscillator' if known.letter == 'p' else 'spaceship'} of period {known.number}"


def mark_label(label: str, separation: Separation) -> str:
    """Returns a label as it is shown, with a note if the object isn't separated."""
    return (
        label
        if separation.is_separated
        else f"{label}, {NOT_SEPARATED}"
        if label
        else NOT_SEPARATED
    )


@cache
def describe_parts(parts: tuple[str, ...], rule: str) -> str:
    """Returns the parts in words, such as `2 blocks` or `block and beehive`. Oscillators come
    first, then spaceships, both by period. Still lifes come last, by number of cells."""
    counts = Counter(sorted(parts, key=lambda code: (read_kind(code), code)))
    *before, last = (name_several(code, count, rule) for code, count in counts.items())
    return f"{', '.join(before)} and {last}" if before else last


def name_several(code: str, count: int, rule: str) -> str:
    name = find_name(code, rule)
    if count == 1:
        return name or code
    return f"{count} {code if name is None else make_plural(name)}"


def make_plural(name: str) -> str:
    """Returns the plural of a name, such as `half-bakeries`, `loaves` or `blocks on table`. Names
    that end in an `s`, an `x` or a digit don't change."""
    thing, rest = re.fullmatch("(.*?)((?: on | with ).*)?", name).groups(default="")  # type: ignore[union-attr]
    if thing[-1] not in "sx0123456789":
        thing = re.sub("y$", "ie", re.sub("f$", "ve", thing)) + "s"
    return thing + rest
