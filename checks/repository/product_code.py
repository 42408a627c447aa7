"""The code of the product, without what is only for the prover."""

from __future__ import annotations

from collections.abc import Iterator
from typing import NamedTuple

from checks.lib.program import TOP
from checks.lib.rust import Token, tokens_of

Code = list[Token]

OPEN, CLOSED = "([{", ")]}"


def closing(tokens: Code, place: int) -> int:
    """Returns the place of the bracket that closes the bracket at `place`."""
    depth = 0
    for end in range(place, len(tokens)):
        depth += (tokens[end] in OPEN) - (tokens[end] in CLOSED)
        if depth == 0:
            return end
    raise ValueError("a bracket isn't closed")


def end_of_item(tokens: Code, place: int) -> int:
    """Returns the end of an item or a field for the prover: the first semicolon or comma outside of
    brackets.
    """
    while tokens[place] not in (";", ","):
        place = closing(tokens, place) + 1 if tokens[place] in OPEN else place + 1
    return place


def code_of(tokens: Code) -> Code:
    """Returns the tokens without attributes, and without those for the prover: ghost items and the
    conditions of contracts.
    """
    code: Code = []
    place = 0
    while place < len(tokens):
        token = tokens[place]
        if token == "#" and tokens[place + 1] in ("[", "!"):
            place = closing(tokens, place + (1 if tokens[place + 1] == "[" else 2)) + 1
        elif token == "ghost":
            place = end_of_item(tokens, place) + 1
        elif token in ("requires", "ensures") and "{" in tokens[place + 1 : place + 3]:
            place = closing(tokens, tokens.index(Token("{"), place)) + 1
        else:
            code.append(token)
            place += 1
    return code


class File(NamedTuple):
    """A file of the code."""

    name: str
    code: Code
    lines: list[str]


def file_of(name: str, source: str) -> File:
    return File(name, code_of(tokens_of(source)), source.splitlines())


def product() -> Iterator[File]:
    """Yields each source file of each crate that isn't a crate of tests."""
    for path in sorted(TOP.glob("crates/*/src/**/*.rt")):
        if not path.relative_to(TOP).parts[1].endswith("_tests"):
            name = path.relative_to(TOP / "crates").as_posix().replace("/src/", "/")
            yield file_of(name, path.read_text())
