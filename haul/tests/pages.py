"""Functions that make pages of hauls for tests, and read parts of these pages: mainly the table for
browsers without scripts, and the data of the page's script."""

from __future__ import annotations

import json
import re
from dataclasses import dataclass, field
from html.parser import HTMLParser
from typing import Any

from haul.formats.haul import Haul
from haul.page.document import make_page
from haul.tests.called import make_client


def page(haul: Haul, play: int = 500) -> str:
    """Returns the page of a haul. `play` is the value of `--play`."""
    return "".join(make_page(make_client(), [haul], 1, play))


def compared(*hauls: Haul, least: int = 1, play: int = 0) -> str:
    return "".join(make_page(make_client(), list(hauls), least, play))


def data_of(text: str) -> dict[str, Any]:
    """Returns the data that the script of a page reads."""
    found: dict[str, Any] = json.loads(
        re.findall('<script type="application/json" id="data">(.*?)</script>', text, re.DOTALL)[0]
    )
    return found


def objects_of(text: str) -> dict[str, Any]:
    """Returns the objects in the data of a page, by code."""
    return {one["code"]: one for one in data_of(text)["objects"]}


RATES = ("rarity", "ends", "stars")


def without_rates(one: dict[str, Any]) -> dict[str, Any]:
    """Returns an object of a page without its rarity, its intervals and its stars."""
    return {name: value for name, value in one.items() if name not in RATES}


def before_table(text: str) -> str:
    """Returns the text of a page's body before its table."""
    return text.partition("<noscript>")[0].partition("<body>")[2]


@dataclass
class Row:
    """A row of the table."""

    cells: list[str] = field(default_factory=list)
    links: list[str] = field(default_factory=list)
    paths: list[str] = field(default_factory=list)


class Table(HTMLParser):
    """The table of a page. This reader handles a `noscript` element like a browser without
    scripts."""

    def __init__(self, text: str) -> None:
        super().__init__()
        self.rows: list[Row] = []
        self.heads: list[str] = []
        self.place = ""
        self.feed(text.partition("<noscript>")[2].partition("</noscript>")[0])

    def handle_starttag(self, tag: str, attributes: list[tuple[str, str | None]]) -> None:
        known = dict(attributes)
        if tag in ("thead", "tbody"):
            self.place = tag
        elif tag == "th":
            self.heads.append("")
        elif self.place == "tbody":
            if tag == "tr":
                self.rows.append(Row())
            elif tag == "td":
                self.rows[-1].cells.append("")
            elif tag == "a":
                self.rows[-1].links.append(known["href"] or "")
            elif tag == "path":
                self.rows[-1].paths.append(known["d"] or "")

    def handle_data(self, data: str) -> None:
        # Line feeds occur only between rows.
        if self.place == "thead" and self.heads:
            self.heads[-1] += data
        elif self.place == "tbody" and self.rows and self.rows[-1].cells:
            self.rows[-1].cells[-1] += data.rstrip("\n")


class Tags(HTMLParser):
    """The elements of a page in order, each with the names of its attributes."""

    def __init__(self, text: str) -> None:
        super().__init__()
        self.tags: list[tuple[str, ...]] = []
        self.links: list[str] = []
        self.feed(text)

    def handle_starttag(self, tag: str, attributes: list[tuple[str, str | None]]) -> None:
        self.tags.append((tag, *(name for name, _ in attributes)))
        self.links += [value or "" for name, value in attributes if name == "href"]


def table_of(text: str) -> Table:
    return Table(text)
