"""The table of a page for readers without JavaScript."""

from __future__ import annotations

import re
from collections.abc import Iterator
from html import escape
from urllib.parse import quote

from haul.life.apgcodes import read_wechsler
from haul.life.drawing import draw_picture
from haul.names.labels import find_name_or_parts, mark_label
from haul.names.objects import find_name
from haul.page.data import count_cells
from haul.page.sides import Side, Sides
from haul.patterns.codes import is_large, read_drawing, read_kind
from haul.views.rarity import list_part_words
from haul.views.rates import bound_rarity

KINDS = {"s": "still life", "p": "oscillator of period", "q": "spaceship of period"}
CATAGOLUE = "https://catagolue.hatsya.com"
# A haul of apgsearch may have any text in place of a code or a symmetry. Only a text that could be
# one is part of an address.
LINKED_CODE = re.compile(r"[0-9a-z_]+")
LINKED_SYMMETRY = re.compile(r"[0-9A-Za-z_+-]+")
# The most rows of the table. Browsers are slow with more.
MOST_ROWS = 1000
# The head of the column that shows how often the reference has a part.
IN_REFERENCE = "In the reference"


def write_table(sides: Sides) -> Iterator[str]:
    """Yields the table, row by row. It has the first `MOST_ROWS` parts that are on the page. If the
    reference has the rarity of the parts, the page of a single haul shows the rarity instead of how
    often the haul has a part. The page of several hauls shows the rarity in an additional
    column."""
    is_single = len(sides.all) == 1
    style = "all" if is_single else "all compared"
    heads = ["Picture", "Name and code", "What it is", "Cells"]
    for side in sides.all:
        letter = "" if is_single else f" in {side.letter}"
        often = IN_REFERENCE if is_single and sides.has_rarity else f"How often{letter}"
        heads += [f"Total{letter}", often, f"Sample soups{letter}"]
    if sides.has_rarity and not is_single:
        heads.append(IN_REFERENCE)
    yield f'<p>{describe_omissions(sides)}</p>\n<div class="scroll"><table class="{style}"><thead><tr>'
    yield "".join(f'<th scope="col">{head}</th>' for head in heads) + "</tr></thead><tbody>\n"
    for code in sides.parts[:MOST_ROWS]:
        yield write_row(sides, code)
    yield "</tbody></table></div>\n"


def describe_omissions(sides: Sides) -> str:
    """Returns sentences that say how many kinds of parts are on the page, what is counted, and
    which parts are left out."""
    kinds = len(sides.kinds_of_parts())
    text = (
        f"{len(sides.parts):,} of {kinds:,} kinds, the most frequent first. Parts are counted: a "
        "bi-block is two blocks."
    )
    if kinds > len(sides.parts):
        text += f" Of the other kinds there are fewer than {sides.least:,}."
    if len(sides.parts) > MOST_ROWS:
        text += (
            f" This table has the first {MOST_ROWS:,} of them. <code>haul table</code> lists all "
            "parts of a haul."
        )
    return text


def write_row(sides: Sides, code: str) -> str:
    separation = sides.first_with(code).separate(code)
    rule = sides.first_with(code).haul.job.rule
    label = mark_label(find_name_or_parts(code, separation, rule), separation)
    cells = count_cells(code)
    named = f"<b>{escape(label)}</b> {link_code(code, rule)}" if label else link_code(code, rule)
    columns = [draw_object(code, rule), named, describe_kind(code), "" if cells is None else cells]
    row = "".join(f"<td>{column}</td>" for column in columns)
    reference = write_occurrence(code) if sides.has_rarity else ""
    if len(sides.all) == 1:
        counts = write_counts(sides.all[0], code, reference)
    else:
        counts = "".join(write_counts(side, code) for side in sides.all)
        counts += f'<td class="referred">{reference}</td>' if reference else ""
    place = f' id="{code}"' if is_linked(code) else ""
    return f"<tr{place}>{row}{counts}</tr>\n"


def write_occurrence(code: str) -> str:
    """Returns how often the reference has a part, with the interval if there is one."""
    often, *more = [escape(words) for words in list_part_words(code)]
    return f"{often}<small>{more[0]}</small>" if more else often


def write_counts(side: Side, code: str, reference: str = "") -> str:
    """Returns the table cells with a haul's counts of a part. If `reference` is given, it is shown
    instead of how often the haul has the part."""
    haul = side.by_parts
    if code not in haul.totals:
        return "<td>0</td><td></td><td></td>"
    total = haul.totals[code]
    samples = " ".join(link_soup(side, number) for number in haul.samples[code])
    often = reference or describe_frequency(haul.soups, total)
    return f"<td>{total:,}</td><td>{often}</td><td>{samples}</td>"


def describe_frequency(soups: int, total: int) -> str:
    """Returns how often an object occurs, in the same words as the JavaScript of the page."""
    if not soups:
        return "none"
    if total * 2 <= soups:
        return f"≤ 1 in {bound_rarity(soups, total):,} soups"
    each = total / soups
    return f"{each:,.0f} per soup" if each >= 100 else f"{each:.3g} per soup"


def is_linked(code: str) -> bool:
    """Checks whether the page has links to the object with this code."""
    return LINKED_CODE.fullmatch(code) is not None


def link_soup(side: Side, number: int) -> str:
    """Returns a soup's number as a link to the soup's page on Catagolue. If the symmetry can't be
    part of an address, returns only the number."""
    job = side.haul.job
    if not LINKED_SYMMETRY.fullmatch(job.symmetry):
        return str(number)
    soup = f"{quote(job.symmetry, safe='')}/{quote(job.seed, safe='')}{number}"
    return f'<a href="{CATAGOLUE}/hashsoup/{soup}/{job.rule}">{number}</a>'


def link_code(code: str, rule: str) -> str:
    text = f"<code>{escape(code)}</code>"
    if is_large(code) or not is_linked(code):
        return text
    return f'<a href="{CATAGOLUE}/object/{code}/{rule}">{text}</a>'


def draw_object(code: str, rule: str) -> str:
    """Returns the picture of an object, or why there is none."""
    text = read_drawing(code)
    cells = read_wechsler(text) if text is not None else None
    if cells is not None:
        return draw_picture(cells, find_name(code, rule) or code)
    # A haul may have a code that isn't the code of an object.
    return "too large to draw" if is_large(code) else "can't be drawn"


def describe_kind(code: str) -> str:
    """Returns in words what the prefix of a code says."""
    known = read_kind(code)
    if known is None:
        return "an object"
    return KINDS[known.letter] + ("" if known.letter == "s" else f" {known.period()}")
