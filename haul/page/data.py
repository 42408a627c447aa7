"""The data for the script of a page, as JSON: the hauls, the objects with their parts, and the
sample soups."""

from __future__ import annotations

import json
from base64 import b64encode
from collections.abc import Iterator
from functools import cache

from haul.census.command_lines import format_soup_commands
from haul.formats.haul import Haul
from haul.known.lookup import describe_known, load_known
from haul.life.apgcodes import read_wechsler
from haul.life.bitmaps import read_bitmap
from haul.life.soups import make_soup
from haul.names.labels import find_name_or_parts
from haul.names.objects import find_name, find_other_names
from haul.page.lives import Lives, describe_lives
from haul.page.sides import Side, Sides
from haul.patterns.codes import is_large, read_drawing, read_kind
from haul.patterns.rules import format_rule
from haul.rarity.reference import SOUPS
from haul.statistics.intervals import find_interval
from haul.terminal import Terminal
from haul.views.layout import make_exact
from haul.views.rarity import list_part_words

# These words replace the parts of an object that is strict, and of an object that isn't separated.
STRICT, NOT_SEPARATED = "strict", "not separated"
BITS = str.maketrans(".O", "01")
# The progress line is updated after this many objects.
OBJECTS_BETWEEN_PROGRESS = 500


def describe_objects(sides: Sides, terminal: Terminal) -> list[str]:
    """Returns the data about each object, as JSON. Shows progress on a terminal."""
    texts: list[str] = []
    for code in sides.known:
        if len(texts) % OBJECTS_BETWEEN_PROGRESS == 0:
            terminal.show_progress(f"{len(texts)} of {len(sides.known)} objects described")
        texts.append(dump(describe_object(sides, code)))
    terminal.show_progress("")
    return texts


def write_data(sides: Sides, objects: list[str], lives: Lives | None) -> Iterator[str]:
    """Yields the JSON, piece by piece. `objects` has the JSON of each object. No text in the JSON
    can end the HTML element that contains the JSON."""
    yield f'{{"least": {sides.least}, "play": {sides.play}, "kinds": {len(sides.kinds())}, '
    yield f'"kindsOfParts": {len(sides.kinds_of_parts())}, '
    yield f'"reference": {SOUPS if sides.has_rarity else 0}, "hauls": '
    yield dump([describe_haul(side) for side in sides.all])
    yield ', "intervals": ' + dump(list_intervals(sides))
    yield f', "lives": {dump(list_lives(lives))}'
    yield ', "soups": [' + ",\n".join(
        dump(list_soups(side, sides.known)) for side in sides.all
    ) + "]"
    yield ', "objects": [' + ",\n".join(objects) + "]}"


def list_lives(lives: Lives | None) -> list[dict[str, object]]:
    """Returns the soups of the section *Long lives*, each with its 256 cells."""
    if lives is None:
        return []
    return [
        {**life, "cells": encode_soup(f"{lives.job.seed}{life['soup']}")}
        for life in describe_lives(lives)
    ]


def dump(value: object) -> str:
    return json.dumps(value, separators=(",", ":")).replace("<", "\\u003c")


def describe_haul(side: Side) -> dict[str, object]:
    haul = side.haul
    return {
        "letter": side.letter,
        "option": haul.job.rule,
        "rule": format_rule(haul.job.rule),
        "seed": haul.job.seed,
        "soups": haul.soups,
        "objects": make_exact(haul.objects()),
        "parts": make_exact(side.by_parts.objects()),
        "commands": format_soup_commands(haul.job),
    }


def describe_object(sides: Sides, code: str) -> dict[str, object]:
    """Returns the data about an object. Each list except `also` and `rarity` has a value for each
    haul."""
    separation = sides.first_with(code).separate(code)
    rule = sides.first_with(code).haul.job.rule
    of_objects = [list_counts(side.haul, code) for side in sides.all]
    of_parts = [list_counts(side.by_parts, code) for side in sides.all]
    known: dict[str, object] = {
        "code": code,
        "label": find_name_or_parts(code, separation, rule),
        "made": [describe_parts(side, code) for side in sides.all],
    }
    if find_name(code, rule) is not None:
        known["named"] = 1
    if find_other_names(code, rule):
        known["also"] = list(find_other_names(code, rule))
    lists = load_known(rule)
    if lists is not None:
        known["known"] = describe_known(lists, separation.parts)
    if any(of_objects):
        known["objects"] = of_objects
    if any(of_parts):
        known["parts"] = of_parts
        known |= describe_rates(sides, code)
    cells = count_cells(code)
    return known if cells is None else known | {"cells": cells}


def describe_rates(sides: Sides, code: str) -> dict[str, object]:
    """Returns the data about the rates of a part. If the reference has the rarity of the parts, the
    data includes the part's rarity. If hauls are compared, the data includes the interval of each
    haul's rate, and whether the rate differs significantly from the rate in the first haul."""
    rates: dict[str, object] = {}
    if sides.has_rarity:
        rates["rarity"] = list_part_words(code)
    if len(sides.all) > 1:
        cells = sides.comparison.cells(code)
        rates["ends"] = [cell.ends and [shorten(end) for end in cell.ends] for cell in cells]
        rates["stars"] = [int(cell.differs) for cell in cells]
    return rates


def shorten(number: float) -> float:
    """Returns a number rounded to six significant digits, which is more than a page shows."""
    return float(f"{number:.6g}")


def list_counts(haul: Haul, code: str) -> list[object] | int:
    """Returns the total of a code followed by its samples, or 0 if the haul doesn't have the
    code."""
    return [make_exact(haul.totals[code]), *haul.samples[code]] if code in haul.totals else 0


def describe_parts(side: Side, code: str) -> object:
    """Returns the parts of an object, or a word if the object is strict or isn't separated. Returns
    `None` if the haul doesn't have the object."""
    if not side.has(code):
        return None
    separation = side.separate(code)
    if not separation.is_separated:
        return NOT_SEPARATED
    return STRICT if separation.is_strict() else list(separation.parts)


@cache
def count_cells(code: str) -> int | None:
    """Returns the number of live cells of an object in phase 0, or `None` if its code doesn't
    tell."""
    text, known = read_drawing(code), read_kind(code)
    bits = read_bitmap(text) if text is not None else None
    if bits is not None:
        return bits.bit_count()
    cells = read_wechsler(text) if text is not None else None
    if cells is not None:
        return len(cells)
    return known.number if is_large(code) and known and known.letter == "s" else None


def list_soups(side: Side, codes: list[str]) -> dict[int, list[object]]:
    """Returns a haul's sample soups for these codes, indexed by number. Each entry has the soup's
    256 cells. If `census` was asked about the soup, the entry also has the checkpoint at which the
    soup settled, and the fewest and the most live cells that its objects can have then, since
    `census` doesn't report their phases. If the soup didn't settle, or an object's number of cells
    isn't known, a single zero takes the place of these three numbers."""
    return {
        number: [encode_soup(f"{side.haul.job.seed}{number}"), *describe_end(side, number)]
        for number in side.soups(codes)
    }


def describe_end(side: Side, number: int) -> list[object]:
    if number not in side.ends:
        return []
    known = side.ends[number]
    return [known.generation, known.least, known.most] if known else [0]


def encode_soup(text: str) -> str:
    """Returns the 256 cells of the soup made from `text`, row by row, as bits in base64 without the
    padding."""
    bits = "".join(make_soup(text)).translate(BITS)
    return b64encode(int(bits, 2).to_bytes(len(bits) // 8, "big")).decode("ascii").rstrip("=")


def list_intervals(sides: Sides) -> dict[int, tuple[float, float]]:
    """Returns the interval of each total of objects if the page compares hauls, otherwise no
    intervals. The intervals of parts are in the result of `describe_rates`."""
    if len(sides.all) == 1:
        return {}
    totals = {side.haul.totals.get(code, 0) for side in sides.all for code in sides.known}
    return {total: find_interval(total) for total in sorted(totals)}
