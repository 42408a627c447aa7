"""Names of objects: those of LifeWiki (conwaylife.com/wiki) in the file names.tsv, and those that the
user has added.

The file has only names that are certain. haul/tests/pictures.txt has a picture of each object, and
a test checks that the object in the picture has the code in names.tsv.
"""

from __future__ import annotations

from dataclasses import dataclass
from functools import cache
from importlib.resources import files

from haul.formats.syntax import CODE
from haul.formats.tables import BadTable, read_table
from haul.names.spelling import simplify
from haul.names.user_names import load_user_names
from haul.patterns.rules import LIFE
from haul.user_data import find_folder

FILE = "names.tsv"
HEADS = ["code", "name", "also"]
# The separator between the names in the column `also`.
BETWEEN = "; "


@dataclass(frozen=True)
class Names:
    """The names of objects by code, and the codes by name."""

    # The name that is shown for each code.
    shown: dict[str, str]
    # The other names and abbreviations of each code.
    others: dict[str, tuple[str, ...]]
    # The code of each name. The names are in the form that `simplify` returns.
    codes: dict[str, str]


@cache
def load_names() -> Names:
    """Reads the names from the file. Raises `BadTable` if the file is damaged."""
    return parse_names(files("haul.names").joinpath(FILE).read_bytes())


def parse_names(text: bytes) -> Names:
    names = Names({}, {}, {})
    latest = ""
    for number, (code, name, also) in enumerate(read_table(FILE, text, HEADS), 2):
        if not CODE.fullmatch(code.encode("ascii")) or code <= latest:
            raise BadTable(FILE, number, "not a code after the one before it")
        others = tuple(also.split(BETWEEN)) if also else ()
        for one in (name, *others):
            if not one or simplify(one) in names.codes:
                raise BadTable(FILE, number, "an empty name, or one of another object")
            names.codes[simplify(one)] = code
        names.shown[code], names.others[code] = name, others
        latest = code
    return names


def find_name(code: str, rule: str = LIFE) -> str | None:
    """Returns the name of an object, or `None` if it has no name. A name that the user has added
    counts only under its rule, and only if names.tsv has none."""
    return find_own_name(code) or next(iter(list_user_names(code, rule)), None)


def find_own_name(code: str) -> str | None:
    """Returns the name in names.tsv, or `None` if there is none."""
    return load_names().shown.get(code)


def find_other_names(code: str, rule: str = LIFE) -> tuple[str, ...]:
    """Returns the other names and abbreviations of an object."""
    others = load_names().others.get(code, ())
    known = {simplify(one) for one in (find_name(code, rule) or "", *others)}
    return (*others, *(one for one in list_user_names(code, rule) if simplify(one) not in known))


def list_user_names(code: str, rule: str) -> list[str]:
    return load_user_names(rule, find_folder()).names.get(code, [])


def find_codes_of_name(name: str) -> list[str]:
    """Returns the codes of the objects with this name, of which there are several only if the user
    has added them. Other names and abbreviations count, too. Case, spaces, hyphens, underscores and
    apostrophes don't matter."""
    own = load_names().codes.get(simplify(name))
    return [own] if own else load_user_names(LIFE, find_folder()).codes.get(simplify(name), [])


def find_code_of_name(name: str) -> str | None:
    """Returns the code of the object with this name, or `None` if there is no such object or if
    there are several."""
    codes = find_codes_of_name(name)
    return codes[0] if len(codes) == 1 else None
