"""Recognises what a text is, so that a command that can't read it says what to do with it."""

from __future__ import annotations

import re
from typing import NamedTuple


class Form(NamedTuple):
    """A form of texts: how their first line begins, and what they are and what reads them."""

    key: str
    begins: re.Pattern[bytes]
    name: str


# The first form that matches is used.
FORMS = (
    Form("empty", re.compile(rb"\Z"), "an empty text"),
    Form(
        "reports",
        re.compile(rb"report "),
        "report lines, which `census gather`, `haul soups` and `haul why` read",
    ),
    Form(
        "late",
        re.compile(rb"# late "),
        "the late soups of a search, which `haul soups` and `haul why` read",
    ),
    Form(
        "finds",
        re.compile(rb"# finds "),
        "finds that weren't printed, which the next `haul search` prints",
    ),
    Form("index", re.compile(rb"@INDEX "), "an index, which `haul check` reads"),
    Form(
        "apgsearch",
        re.compile(rb"\s*@VERSION v"),
        "a haul of apgsearch, which `haul table` and `haul check` read",
    ),
    Form("haul", re.compile(rb"@VERSION 2\n"), "a haul, which `haul table` and `haul check` read"),
    Form("crlf", re.compile(rb"@VERSION 2\r\n"), "a haul whose lines end in CR LF"),
    Form(
        "compressed",
        re.compile(rb"\x1f\x8b|BZh|\xfd7zXZ\x00|PK\x03\x04|\x28\xb5\x2f\xfd"),
        "a compressed file, which has to be unpacked first",
    ),
    Form("html", re.compile(rb"\s*<(?:!doctype|html|\?xml)", re.IGNORECASE), "a page of HTML"),
    Form(
        "macrocell",
        re.compile(rb"\[M2\]"),
        "a macrocell file, which Golly can open and save as RLE",
    ),
    Form(
        "life",
        re.compile(rb"#Life 1\.0[56]"),
        "a pattern in Life 1.05 or 1.06, which Golly can open and save as RLE",
    ),
    Form(
        "rle",
        re.compile(rb"#[CNOcRrP] |#CXRLE |\s*x\s*=\s*[0-9]|[0-9bo$]*[0-9bo][$!][0-9bo$!]*\r?\n?\Z"),
        "a pattern in RLE, which `haul cells` and `haul why --pattern` read",
    ),
    Form(
        "plaintext",
        re.compile(rb"![^\n]*\n|[.O]+\r?\n"),
        "a pattern in plaintext, which `haul rle` and `haul why --pattern` read",
    ),
    Form(
        "coordinates",
        re.compile(rb"-?[0-9]+ -?[0-9]+\r?\n"),
        "coordinates of cells, which `haul rle` and `haul why --pattern` read",
    ),
    Form("json", re.compile(rb"\s*[\[{]"), "JSON, which other programs read"),
    Form(
        "csv",
        re.compile(rb"[a-z_]+(?:,[a-z_]+){2,}\r?\n"),
        "comma-separated values, which a spreadsheet reads",
    ),
    Form(
        "binary", re.compile(rb"[\x80-\xbf]|[^\n]*[\x00-\x08\x0e-\x1a\x1c-\x1f]"), "a binary file"
    ),
)


def find_form(text: bytes) -> Form | None:
    """Returns the form of a text, of which only the first line counts, or `None` if it isn't
    recognised."""
    first, line_feed, _ = text.partition(b"\n")
    return next((form for form in FORMS if form.begins.match(first + line_feed)), None)


def recognize(first: bytes) -> str | None:
    """Returns what a text with this first line looks like, or `None` if it isn't recognised."""
    form = find_form(first)
    return form.name if form else None


def describe_other_form(text: bytes, *keys: str) -> str:
    """Returns the end of a message about a text that can't be read: what it looks like. Returns an
    empty text if it isn't recognised, or if it is in one of the forms that are read."""
    form = find_form(text)
    return "" if form is None or form.key in keys else f": this looks like {form.name}"
