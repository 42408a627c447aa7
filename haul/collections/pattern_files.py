"""Reads collections: files, folders and archives with patterns that have names, or tables of codes and
names. Nothing is unpacked, and no link to a folder is followed.
"""

from __future__ import annotations

import gzip
import os
import re
import stat
import tarfile
import zipfile
import zlib
from collections.abc import Iterable, Iterator
from dataclasses import dataclass
from typing import IO

from haul.formats.recognition import find_form
from haul.formats.syntax import CODE
from haul.patterns.plaintext import BadPlaintext, Rows, read_plaintext
from haul.patterns.rle import BadRle, read_rle
from haul.patterns.rules import LIFE, parse_rule

# The most bytes of a file, and of all files in an archive together.
MOST_BYTES, MOST_UNPACKED = 2**24, 2**28
# The most files in an archive, and the most letters of a name.
MOST_MEMBERS, MOST_LETTERS = 100_000, 80
NAME_OF_RLE = re.compile(rb"^#N[ \t]+([^\r\n]+)", re.MULTILINE)
NAME_OF_PLAINTEXT = re.compile(rb"^!Name:[ \t]*([^\r\n]+)", re.MULTILINE)
# A line of a table: a code and a name, with a tab or a comma between them, and quotes or none.
LINE = re.compile(rb'"?([a-z0-9_]+)"?[\t,][ \t]*"?([^"\t\r\n]+?)"?[ \t]*\r?')


@dataclass(frozen=True)
class NamedPattern:
    """A pattern with its rule and its name."""

    name: str
    rule: str
    rows: Rows


@dataclass(frozen=True)
class NamedCode:
    """A line of a table."""

    name: str
    code: str


@dataclass(frozen=True)
class PassedOver:
    """A file that has no pattern with a name, and the reason."""

    place: str
    why: str


Found = NamedPattern | NamedCode | PassedOver


def read_collection(path: str) -> Iterator[Found]:
    """Yields what is in a file, a folder or an archive. Raises `OSError` if it can't be read."""
    if os.path.isdir(path):
        unread: list[OSError] = []
        for above, folders, names in os.walk(path, onerror=unread.append):
            folders.sort()
            for name in sorted(names):
                yield from read_file(os.path.join(above, name))
        for error in unread:
            if error.filename == path:
                raise error
            yield PassedOver(str(error.filename), str(error.strerror))
    else:
        with open(path, "rb"):
            yield from read_file(path)


def read_file(path: str) -> Iterator[Found]:
    try:
        if not stat.S_ISREG(os.stat(path).st_mode):
            yield PassedOver(path, "not a file")
        elif zipfile.is_zipfile(path):
            yield from read_members(path, list_zip(path))
        elif path.endswith((".tar", ".tgz")) or ".tar." in os.path.basename(path):
            yield from read_members(path, list_tar(path))
        elif path.endswith(".gz"):
            with gzip.open(path) as file:
                yield from read_text(path, file.read(MOST_BYTES + 1))
        else:
            with open(path, "rb") as plain:
                yield from read_text(path, plain.read(MOST_BYTES + 1))
    except (OSError, EOFError, tarfile.TarError, zipfile.BadZipFile, zlib.error) as error:
        yield PassedOver(path, getattr(error, "strerror", None) or str(error) or "it can't be read")
    except (NotImplementedError, RuntimeError) as error:
        # What zipfile raises for an archive with a password, or packed in an unknown way.
        yield PassedOver(path, str(error))


def list_zip(path: str) -> Iterator[tuple[str, IO[bytes]]]:
    with zipfile.ZipFile(path) as archive:
        for member in archive.infolist():
            if not member.is_dir():
                with archive.open(member) as file:
                    yield member.filename, file


def list_tar(path: str) -> Iterator[tuple[str, IO[bytes]]]:
    """Yields the files of an archive. Raises `TarError` at a member that is too large, since it would
    have to be unpacked to find the next one."""
    size = 0
    with tarfile.open(path) as archive:
        for member in archive:
            size += member.size
            if size > MOST_UNPACKED:
                raise tarfile.TarError("the archive is too large, so its other files aren't read")
            file = archive.extractfile(member) if member.isreg() else None
            if file is not None:
                yield member.name, file


def read_members(path: str, members: Iterable[tuple[str, IO[bytes]]]) -> Iterator[Found]:
    """Yields what is in the files of an archive, up to the bounds on its size."""
    unpacked = 0
    for number, (name, file) in enumerate(members):
        place = f"{path}: {name}"
        if number >= MOST_MEMBERS or unpacked >= MOST_UNPACKED:
            yield PassedOver(place, "the archive is too large, so its other files aren't read")
            return
        text = file.read(MOST_BYTES + 1)
        unpacked += len(text)
        yield from read_text(place, text)


def read_text(place: str, text: bytes) -> Iterator[Found]:
    """Yields the pattern in a text, or the lines of a table."""
    if len(text) > MOST_BYTES:
        yield PassedOver(place, f"longer than {MOST_BYTES} bytes")
        return
    form = find_form(text)
    try:
        if form is not None and form.key == "rle":
            read = read_rle(text, False)
            rule = LIFE if read.rule is None else parse_rule(read.rule)
            yield name_pattern(place, NAME_OF_RLE.search(text), rule or LIFE, read.rows)
        elif form is not None and form.key == "plaintext":
            rows = read_plaintext(text)
            yield name_pattern(place, NAME_OF_PLAINTEXT.search(text), LIFE, rows)
        elif is_code_line(text.partition(b"\n")[0]):
            yield from read_code_table(place, text)
        else:
            yield PassedOver(place, "neither RLE, plaintext nor a table of codes and names")
    except (BadPlaintext, BadRle) as bad:
        yield PassedOver(place, str(bad))


def name_pattern(place: str, found: re.Match[bytes] | None, rule: str, rows: Rows) -> Found:
    name = None if found is None else clean_name(found[1])
    if name is None:
        return PassedOver(place, "no name")
    return NamedPattern(name, rule, rows)


def is_code_line(line: bytes) -> bool:
    found = LINE.fullmatch(line)
    return found is not None and bool(CODE.fullmatch(found[1])) and b"_" in found[1]


def read_code_table(place: str, text: bytes) -> Iterator[Found]:
    for number, line in enumerate(text.split(b"\n"), 1):
        found = LINE.fullmatch(line)
        name = clean_name(found[2]) if found and is_code_line(line) else None
        if found and name:
            yield NamedCode(name, found[1].decode("ascii"))
        elif line.strip():
            yield PassedOver(f"{place}: line {number}", "not a code and a name")


def clean_name(text: bytes) -> str | None:
    """Returns a name with single spaces. Returns `None` for one that is empty, too long, or has
    other characters than letters, digits, punctuation and spaces."""
    name = " ".join(text.decode("utf-8", "replace").split())
    is_name = 0 < len(name) <= MOST_LETTERS and name.isprintable() and "\ufffd" not in name
    return name if is_name else None
