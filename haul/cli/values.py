"""Reads the values of options and of other arguments, and refuses invalid values."""

from __future__ import annotations

import argparse
import re
from collections.abc import Callable

from haul.formats.haul import NUMBER_LIMIT
from haul.formats.late_file import ONLY_UNSETTLED
from haul.formats.syntax import CODE, RULE, SEED
from haul.known.wanted import BadWant, Want, read_want
from haul.names.near_names import find_near_names
from haul.names.objects import find_code_of_name, find_codes_of_name
from haul.patterns.codes import read_object_address
from haul.patterns.rules import LIFE, parse_rule
from haul.search.late_soups import NEVER

# Digits, possibly with an underscore between two of them, and a power of ten.
COUNT = re.compile(r"([0-9]+(?:_[0-9]+)*)(?:e([0-9]{1,2}))?")
# Codes of apgsearch with other characters than those of `census`.
OF_APGSEARCH = re.compile("zz_[A-Z0-9_]{1,40}|PATHOLOGICAL")


def read_path(text: str) -> str:
    if not text:
        raise argparse.ArgumentTypeError("an empty path")
    return text


def read_word(text: str) -> str:
    if not text or not text.isprintable():
        raise argparse.ArgumentTypeError("no choice")
    return text


def read_late(text: str) -> int:
    """Reads the value of `--late`: a generation, or `never`."""
    if text == "never":
        return NEVER
    return read_as_census(0, ONLY_UNSETTLED)(text)


def read_within(least: int, most: int) -> Callable[[str], int]:
    """Returns a function that reads a number from `least` to `most`."""

    def read(text: str) -> int:
        number = read_count(text)
        if not least <= number <= most:
            raise argparse.ArgumentTypeError(f"{text} is not in {least} to {most}")
        return number

    return read


def read_as_census(least: int, most: int) -> Callable[[str], int]:
    """Returns a function that reads a number from `least` to `most` in the same way as `census`,
    which accepts a `+` before the number."""
    read = read_within(least, most)
    return lambda text: read(text.removeprefix("+"))


def read_subject(text: str) -> int | str:
    """Reads the number of a soup, or the name of a file if the text isn't a number."""
    if text.removeprefix("+").isascii() and text.removeprefix("+").isdigit():
        return read_as_census(0, NUMBER_LIMIT - 1)(text)
    return read_path(text)


def read_seed(text: str) -> str:
    if not SEED.fullmatch(b"seed=" + text.encode("utf-8", "surrogateescape")):
        raise argparse.ArgumentTypeError("no seed, which is at most 64 bytes, each from ! to ~")
    return text


def read_count(text: str) -> int:
    """Reads a number such as `1000`, `1_000` or `1e3`."""
    found = COUNT.fullmatch(text)
    if found is None:
        raise argparse.ArgumentTypeError(f"{text} is no number")
    return int(found[1] + "0" * int(found[2] or 0))


def read_periods(text: str) -> tuple[int, int | None]:
    """Reads a value such as `3`, `3+` or `3-8`. Returns the smallest and the largest period. The
    largest is `None` for a value such as `3+`."""
    least, between, most = text.partition("-")
    if text.endswith("+"):
        return read_count(text[:-1]), None
    periods = read_count(least), read_count(most if between else least)
    if periods[0] > periods[1]:
        raise argparse.ArgumentTypeError(f"{text}: the first period is the larger one")
    return periods


def read_kinds(text: str) -> str:
    """Reads the letters of kinds: at least one of `s`, `p` and `q`, and none of them twice."""
    if not text or not set(text) <= set("spq") or len(set(text)) < len(text):
        raise argparse.ArgumentTypeError(f"{text!r} isn't made of the letters s, p and q")
    return text


def read_object(text: str) -> str:
    """Reads the code or the name of an object, without looking it up, or the code in the address of
    its page on Catagolue."""
    if not text:
        raise argparse.ArgumentTypeError("an empty name")
    code, rule = read_object_address(text) or (text, None)
    if rule not in (None, LIFE):
        raise argparse.ArgumentTypeError(f"the rule is {rule}, and the reference has {LIFE}")
    return code


def read_code(text: str) -> str:
    """Reads a code or the name of an object, and returns the code."""
    code = find_code_of_name(text) or find_code(text)
    if code is None:
        raise argparse.ArgumentTypeError(describe_unknown(text))
    return code


def find_code(text: str) -> str | None:
    """Returns a text that has the form of a code, or `None` if it has another form."""
    is_code = CODE.fullmatch(text.encode("utf-8", "surrogateescape")) and "_" in text
    return text if is_code or OF_APGSEARCH.fullmatch(text) else None


def describe_unknown(text: str) -> str:
    """Says that a text is neither a code nor a name, and which names look like it, or which objects
    have the name."""
    codes = find_codes_of_name(text)
    if codes:
        return f"{text} is the name of several objects: give the code, {' or '.join(codes)}"
    near = find_near_names(text)
    meant = f"; did you mean {' or '.join(near)}?" if near else ""
    return f"{text} is neither a code such as xs4_33 nor a known name{meant}"


def read_want_value(text: str) -> Want:
    try:
        return read_want(text)
    except BadWant as bad:
        raise argparse.ArgumentTypeError(str(bad)) from None


class RuleValue(str):
    """A rule in the form that `census` accepts, with the text in which it was given."""

    given: str


def read_rule_value(text: str) -> RuleValue:
    """Reads a rule such as `b36s23`, `B36/S23` or `HighLife`."""
    is_usual = RULE.fullmatch(text.encode("utf-8", "surrogateescape"))
    rule = text if is_usual else parse_rule(text)
    if rule is None:
        raise argparse.ArgumentTypeError(f"{text} is no rule, as b3s23, B3/S23 and Life are")
    value = RuleValue(rule)
    value.given = text
    return value
