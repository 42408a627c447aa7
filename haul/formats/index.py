"""Indexes: the pieces of a census, each with the SHA-256 of its haul, so that anyone can check some
of the pieces."""

from __future__ import annotations

import os
import re
from collections.abc import Iterator
from dataclasses import dataclass
from hashlib import sha256
from typing import IO

from haul.formats.field_reader import BadHaul, FieldReader
from haul.formats.haul import NUMBER_LIMIT, Haul, Job, Range
from haul.formats.haul_reader import TOO_LARGE, read_job
from haul.formats.haul_writer import format_haul, format_job

BEGINNING = b"@INDEX"
DIGEST = re.compile(rb"[0-9a-f]{64}")
PIECES_DESCEND = "the pieces are not in ascending order, or share a soup"


@dataclass
class Index:
    """The pieces of a census in ascending order, each with the SHA-256 of its haul text."""

    job: Job
    pieces: dict[Range, str]


def is_index(path: str) -> bool:
    """Checks whether a file begins like an index."""
    if not os.path.isfile(path):
        return False
    with open(path, "rb") as file:
        return file.read(len(BEGINNING)) == BEGINNING


def name_piece(piece: Range) -> str:
    return f"{piece[0]}+{piece[1]}"


def compute_digest(haul: Haul) -> str:
    """Returns the SHA-256 of a haul's text."""
    digest = sha256()
    for line in format_haul(haul):
        digest.update(f"{line}\n".encode("ascii"))
    return digest.hexdigest()


def format_index(index: Index) -> Iterator[str]:
    """Yields the lines of an index, without their line feeds."""
    yield from ["@INDEX 1", *format_job(index.job), ""]
    for (first, count), digest in index.pieces.items():
        yield f"{first} {count} {digest}"


def read_index(stream: IO[bytes]) -> Index:
    """Reads an index. Raises `BadHaul` at the first fault."""
    lines = FieldReader(stream)
    try:
        lines.only_words(BEGINNING, b"1")
        job = read_job(lines)
        lines.only_words()
        return Index(job, read_pieces(lines))
    except BadHaul as bad:
        raise BadHaul(bad.line, bad.column, bad.why, "index") from None


def read_pieces(lines: FieldReader) -> dict[Range, str]:
    """Reads one or more pieces, up to the end of the input."""
    pieces: dict[Range, str] = {}
    least = 0
    while not pieces or lines.peek():
        lines.next_line()
        first = lines.number_in(least, NUMBER_LIMIT - 1, PIECES_DESCEND, TOO_LARGE)
        count = lines.number_in(1, NUMBER_LIMIT - first, too_large=TOO_LARGE)
        pieces[first, count] = lines.matched(DIGEST)
        lines.end_line()
        least = first + count
    return pieces
