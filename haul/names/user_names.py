"""Names that the user has added: a table for each rule, in the folder `names` of the user's data.

Each line has a code, a name and the file that the name is from, with tabs between them. A user may
edit the tables. A code may have several names, and a name may belong to several codes.
"""

from __future__ import annotations

from collections.abc import Iterable
from dataclasses import dataclass, field
from functools import cache
from pathlib import Path
from typing import NamedTuple

from haul.formats.syntax import CODE
from haul.formats.tables import BadTable
from haul.names.spelling import simplify
from haul.user_data import find_folder, replace_text

HEADS = "code\tname\tfile"
ENDING = ".tsv"


class Naming(NamedTuple):
    """A line of a table."""

    code: str
    name: str
    file: str


@dataclass
class UserNames:
    """The names under a rule: by code, and the codes by name."""

    names: dict[str, list[str]] = field(default_factory=dict)
    codes: dict[str, list[str]] = field(default_factory=dict)


def find_tables() -> dict[str, Path]:
    """Returns the paths of the tables by rule."""
    folder = find_folder()
    paths = sorted((folder / "names").glob(f"*{ENDING}")) if folder else []
    return {path.name.removesuffix(ENDING): path for path in paths}


def read_namings(path: Path) -> list[Naming]:
    """Reads a table. Raises `BadTable` if a line isn't right, since the user may have edited it."""
    try:
        lines = path.read_text("utf-8").split("\n")
    except UnicodeDecodeError:
        raise BadTable(str(path), 1, "it isn't UTF-8") from None
    found: list[Naming] = []
    for number, line in enumerate(lines, 1):
        fields = line.split("\t")
        if number == 1 or not line:
            if number == 1 and line != HEADS:
                raise BadTable(str(path), 1, "the heads aren't code name file")
        elif len(fields) != len(Naming._fields) or not is_naming(fields[0], fields[1]):
            raise BadTable(
                str(path), number, "not a code, a name and a file with tabs between them"
            )
        else:
            found.append(Naming(*fields))
    return found


def is_naming(code: str, name: str) -> bool:
    return bool(CODE.fullmatch(code.encode("utf-8"))) and name.strip() != ""


def write_namings(path: Path, namings: Iterable[Naming]) -> None:
    """Replaces a table, without double lines."""
    lines = ["\t".join(naming) for naming in sorted(set(namings))]
    replace_text(path, "".join(f"{line}\n" for line in [HEADS, *lines]))
    load_user_names.cache_clear()


@cache
def load_user_names(rule: str, folder: Path | None) -> UserNames:
    """Reads the names under a rule. `folder` is the folder of the user's data: if it changes, the
    names are read again."""
    found = UserNames()
    path = None if folder is None else folder / "names" / f"{rule}{ENDING}"
    if path is None or not path.is_file():
        return found
    for code, name, _ in read_namings(path):
        names = found.names.setdefault(code, [])
        if name not in names:
            names.append(name)
        codes = found.codes.setdefault(simplify(name), [])
        if code not in codes:
            codes.append(code)
    return found
