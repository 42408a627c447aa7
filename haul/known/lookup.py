"""Looks codes up in the lists of the user's data."""

from __future__ import annotations

from collections.abc import Sequence

from haul.known.database import Known, open_known
from haul.user_data import find_folder


def load_known(rule: str) -> Known | None:
    """Returns the lists under a rule, or `None` if the user has added none."""
    return open_known(rule, find_folder())


def describe_known(known: Known, parts: Sequence[str]) -> str:
    """Returns what the lists say about an object that is made of these parts. Catagolue counts the
    parts of an object, and not the object, so each part is looked up."""
    unknown = [code for code in dict.fromkeys(parts) if not known.find(code)]
    if len(set(parts)) == 1:
        return known.describe(parts[0])
    if not unknown:
        return "all parts are known"
    return f"not among {known.codes} codes: {' '.join(unknown)}"
