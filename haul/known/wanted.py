"""Which objects a user wants to hear of: the texts of `--want`."""

from __future__ import annotations

import re
from dataclasses import dataclass

from haul.known.lookup import load_known
from haul.patterns.codes import read_kind
from haul.patterns.rules import LIFE
from haul.rarity.reference import SOUPS, find_occurrence

# Letters of kinds, with a period, with the periods from one on, or with the periods from one to another.
KINDS = re.compile(
    r"(?P<letters>[spq]{1,3})(?:(?P<least>[0-9]{1,6})(?P<more>\+|-(?P<most>[0-9]{1,6}))?)?"
)
RARER = re.compile(r"[1-9][0-9]{0,8}")


class BadWant(Exception):
    """Raised if a text isn't what can be wanted. Says why."""


@dataclass(frozen=True)
class Want:
    """What an object has to be: all that is given."""

    text: str
    # Letters of kinds, and the smallest and the largest period. `None` means any.
    letters: str | None = None
    least: int = 0
    most: int | None = None
    # Fewer than one in this many soups of the reference has the object.
    rarer: int | None = None
    # None of the user's lists of known codes has the object.
    is_unknown: bool = False

    def has(self, code: str, rule: str) -> bool:
        kind = read_kind(code)
        if self.letters is not None:
            if kind is None or kind.letter not in self.letters or kind.period() < self.least:
                return False
            if self.most is not None and kind.period() > self.most:
                return False
        if self.rarer is not None and find_occurrence(code).having * self.rarer >= SOUPS:
            return False
        known = load_known(rule) if self.is_unknown else None
        return known is None or not known.find(code)


def read_want(text: str) -> Want:
    """Reads a text such as `p3+`, `pq`, `s and rarer 5000000` or `unknown`. Raises `BadWant`."""
    words = [word for word in text.split() if word != "and"]
    letters: str | None = None
    least, most, rarer, is_unknown = 0, None, None, False
    while words:
        word = words.pop(0)
        kinds = KINDS.fullmatch(word)
        if word == "unknown":
            is_unknown = True
        elif word == "rarer" and words and RARER.fullmatch(words[0]) and rarer is None:
            rarer = int(words.pop(0))
        elif kinds and letters is None and len({*kinds["letters"]}) == len(kinds["letters"]):
            letters = kinds["letters"]
            least = int(kinds["least"] or 0)
            most = None if kinds["least"] is None or kinds["more"] == "+" else least
            most = int(kinds["most"]) if kinds["most"] else most
        else:
            raise BadWant(
                f"{word!r} isn't wanted: give kinds such as `p3+`, `pq` or `s`, `rarer N`, or `unknown`"
            )
    if letters is None and rarer is None and not is_unknown:
        raise BadWant("nothing is wanted: give kinds such as `p3+`, `rarer N`, or `unknown`")
    return Want(text, letters, least, most, rarer, is_unknown)


def find_fault_of_wants(wants: list[Want], rule: str, has_rarity: bool) -> str | None:
    """Returns why it can't be known whether objects under a rule are wanted, or `None` if it
    can."""
    if any(want.rarer is not None for want in wants) and not has_rarity:
        needs = "Life" if rule != LIFE else "the standard profile"
        return f"`rarer` needs {needs}, since the reference has no other soups"
    if any(want.is_unknown for want in wants) and load_known(rule) is None:
        return f"`unknown` needs a list of codes under {rule}, which `haul known --add` adds"
    return None


def is_wanted(wants: list[Want], code: str, rule: str) -> bool:
    """Checks whether an object is one of several wanted things."""
    return any(want.has(code, rule) for want in wants)


def describe_wants(wants: list[Want]) -> str:
    return " or ".join(" ".join(want.text.split()) for want in wants)
