"""The lists of known codes that the user has added: a database in the folder of the user's data.

SQLite keeps the database whole if a call is killed, and lets two calls change it in turn.
"""

from __future__ import annotations

import sqlite3
from collections.abc import Iterable, Iterator
from contextlib import closing, contextmanager
from dataclasses import dataclass
from functools import cache
from pathlib import Path

FILE = "known.sqlite"
# How long a call waits until another call has changed the database, in seconds.
SECONDS = 60
TABLES = """
CREATE TABLE IF NOT EXISTS lists (
    id INTEGER PRIMARY KEY, file TEXT NOT NULL, rule TEXT NOT NULL, symmetry TEXT NOT NULL, codes INTEGER NOT NULL
);
CREATE TABLE IF NOT EXISTS counts (
    code TEXT NOT NULL, list INTEGER NOT NULL, count INTEGER, PRIMARY KEY (code, list)
) WITHOUT ROWID;
"""
# Counts are below this, as SQLite's integers are.
MOST_COUNT = 2**63


class BadDatabase(Exception):
    """Raised if the database can't be read or changed. Says why."""


@dataclass(frozen=True)
class List:
    """A list of codes with the number of objects of each, if the list has it."""

    file: str
    rule: str
    symmetry: str
    counts: dict[str, int | None]


@dataclass(frozen=True)
class ListFacts:
    """What is known about a list without its codes."""

    file: str
    rule: str
    symmetry: str
    codes: int


@contextmanager
def opened(folder: Path) -> Iterator[sqlite3.Connection]:
    """Opens the database. What is changed in the context is kept if the context is left normally."""
    path = folder / FILE
    try:
        with closing(sqlite3.connect(path, timeout=SECONDS)) as connection, connection:
            connection.executescript(TABLES)
            connection.execute("BEGIN IMMEDIATE")
            yield connection
        open_known.cache_clear()
    except sqlite3.Error as error:
        raise BadDatabase(f"{path}: {error}") from None


def add_list(folder: Path, added: Iterable[List]) -> None:
    """Adds lists. Lists that are from the same files are replaced."""
    with opened(folder) as connection:
        for one in added:
            delete_lists(connection, one.file)
            given = (one.file, one.rule, one.symmetry, len(one.counts))
            number = connection.execute(
                "INSERT INTO lists (file, rule, symmetry, codes) VALUES (?, ?, ?, ?)", given
            ).lastrowid
            connection.executemany(
                "INSERT INTO counts (code, list, count) VALUES (?, ?, ?)",
                ((code, number, count) for code, count in sorted(one.counts.items())),
            )


def delete_lists(connection: sqlite3.Connection, file: str) -> int:
    found = connection.execute("SELECT id FROM lists WHERE file = ?", (file,)).fetchall()
    for number in found:
        connection.execute("DELETE FROM counts WHERE list = ?", number)
        connection.execute("DELETE FROM lists WHERE id = ?", number)
    return len(found)


def remove_list(folder: Path, file: str) -> bool:
    """Removes the list that is from a file. Returns whether there was one."""
    with opened(folder) as connection:
        return delete_lists(connection, file) > 0


class Known:
    """The lists under a rule, to look codes up in."""

    def __init__(self, connection: sqlite3.Connection, rule: str) -> None:
        self.connection, self.rule = connection, rule
        found = connection.execute(
            "SELECT id, file, codes FROM lists WHERE rule = ? ORDER BY id", (rule,)
        ).fetchall()
        self.files = {number: Path(file).name for number, file, _ in found}
        self.codes = sum(codes for _, _, codes in found)

    def find(self, code: str) -> list[tuple[str, int | None]]:
        """Returns the files of the lists that have a code, each with the number of objects."""
        question = "SELECT list, count FROM counts WHERE code = ?"
        try:
            found = self.connection.execute(question, (code,)).fetchall()
        except sqlite3.Error as error:
            raise BadDatabase(f"{FILE}: {error}") from None
        return [(self.files[number], count) for number, count in found if number in self.files]

    def describe(self, code: str) -> str:
        """Returns a text such as `12345 in all.csv` or `not among 160000 codes`."""
        places = [
            f"in {file}" if count is None else f"{count} in {file}"
            for file, count in self.find(code)
        ]
        return ", ".join(places) or f"not among {self.codes} codes"


@cache
def open_known(rule: str, folder: Path | None) -> Known | None:
    """Returns the lists under a rule, or `None` if there are none. `folder` is the folder of the
    user's data. Raises `BadDatabase` if the database can't be read."""
    path = None if folder is None else folder / FILE
    if path is None or not path.is_file():
        return None
    try:
        connection = sqlite3.connect(f"{path.resolve().as_uri()}?mode=ro", SECONDS, uri=True)
        known = Known(connection, rule)
    except sqlite3.Error as error:
        raise BadDatabase(f"{path}: {error}") from None
    return known if known.files else None


def list_lists(folder: Path) -> list[ListFacts]:
    """Returns what is known about each list, in the order in which they were added."""
    if not (folder / FILE).is_file():
        return []
    with opened(folder) as connection:
        found = connection.execute("SELECT file, rule, symmetry, codes FROM lists ORDER BY id")
        return [ListFacts(*row) for row in found]
