"""Says what is wrong with a code that no object under Life has."""

from __future__ import annotations

import re

from haul.formats.syntax import CODE
from haul.life.apgcodes import find_code, read_wechsler
from haul.life.generations import MOST_PERIOD, Recurrence, find_recurrence, read_rule
from haul.patterns.codes import Kind, is_large, read_drawing, read_kind
from haul.patterns.rules import LIFE

NOT_A_CODE = "not an apgcode"
NOT_SUCH = "its cells aren't such an object"
# What apgsearch writes about a pattern that doesn't settle. `yl` is linear growth, `zz` is the rest.
OF_UNSETTLED = re.compile(r"yl[0-9]|zz_|PATHOLOGICAL$")
ONLY_IN_APGSEARCH = (
    "a code of apgsearch for a pattern that grows or stays active; a census here counts its soup as "
    "unsettled, and `haul why` says what became of the soup"
)
WORDS = "no one two three four five six seven eight nine ten eleven twelve".split()


def find_code_fault(code: str) -> str | None:
    """Returns why no object has a code, or `None` if nothing is wrong with the code. Of an object
    that is too large to be drawn, or with a period above `MOST_PERIOD`, only the form of the code is
    checked."""
    if OF_UNSETTLED.match(code):
        return ONLY_IN_APGSEARCH
    known, text = read_kind(code), read_drawing(code)
    if known is None or not CODE.fullmatch(code.encode("utf-8", "surrogateescape")):
        return NOT_A_CODE
    if is_large(code):
        return None if re.fullmatch(r"ov_[spq][1-9][0-9]*", code) else NOT_A_CODE
    cells = read_wechsler(text) if text is not None else None
    if cells is None:
        return NOT_A_CODE
    if known.period() > MOST_PERIOD:
        return None
    recurrence = find_recurrence(read_rule(LIFE), cells)
    if recurrence is None or recurrence.kind() != known.letter:
        return NOT_SUCH
    return find_other_number(known, recurrence) or find_other_code(code, recurrence)


def find_other_number(known: Kind, recurrence: Recurrence) -> str | None:
    cells = len(recurrence.phases[0])
    if known.letter == "s":
        if known.number == cells:
            return None
        noun = "cell" if cells == 1 else "cells"
        return f"{NOT_A_CODE}: {spell(cells)} {noun}, not {spell(known.number)}"
    if known.number == recurrence.period:
        return None
    return f"{NOT_A_CODE}: period {recurrence.period}, not {known.number}"


def find_other_code(code: str, recurrence: Recurrence) -> str | None:
    canonical = find_code(recurrence)
    return None if canonical == code else f"not canonical: the same object is {canonical}"


def spell(number: int) -> str:
    return WORDS[number] if number < len(WORDS) else str(number)
