"""Numbers with their nouns in singular or plural."""

from __future__ import annotations


def pluralize(number: int, one: str, more: str = "") -> str:
    """Returns the form of a noun for a number. `one` is the singular. `more` is the plural if it
    isn't the singular with an `s`."""
    return one if number == 1 else more or one + "s"


def write_count(number: int, one: str, more: str = "") -> str:
    """Returns a number with its noun: `1 soup`, `2 soups`, `12,345 soups`."""
    return f"{number:,} {pluralize(number, one, more)}"
