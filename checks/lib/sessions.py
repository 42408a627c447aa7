"""Reads the cases in checks/cases/, which are sessions in Markdown. checks/cases/README.md describes
them."""

from __future__ import annotations

import re
import shlex
from collections.abc import Iterator
from dataclasses import dataclass, field
from pathlib import Path

# A case: its heading, and the lines of the block below it.
CASE = re.compile(r"^## ([^\n]+)\n\n```\n(.*?)^```$", re.MULTILINE | re.DOTALL)
# The escapes for bytes in an argument or in a line that ends with ` (esc)`.
ESCAPED = re.compile(rb"\\(x[0-9a-fA-F]{2}|n|\\)")
REPEATED = re.compile(r"\{(.)\*([0-9]+)\}")
TIMES = re.compile(r" ?\(times ([0-9]+)\)$")
COMMAND = "census"


@dataclass
class Case:
    """A call of the program, and what it must do."""

    name: str
    setup: list[str] = field(default_factory=list)
    words: list[bytes] = field(default_factory=list)
    input: bytes = b""
    output: bytes = b""
    errors: bytes = b""
    status: int = 0

    def set_up(self, name: str) -> str:
        """Returns the value of a line of the set-up. For `input closed`, it is `closed`."""
        values = [
            line.removeprefix(f"{name} ") for line in self.setup if line.startswith(f"{name} ")
        ]
        return values[0] if values else ""


def read_cases(folder: Path) -> Iterator[Case]:
    """Yields the cases of all pages in a folder. The name of a case is the name of its page and its
    heading."""
    for page in sorted(folder.glob("*.md")):
        if page.name != "README.md":
            for heading, block in CASE.findall(page.read_text()):
                yield read_case(f"{page.stem}: {heading}", block.splitlines())


def read_case(name: str, lines: list[str]) -> Case:
    case = Case(name)
    for line in lines:
        mark, _, rest = line.partition(" ")
        if mark == "#":
            case.setup.append(rest)
        elif mark == "$":
            case.words = read_words(rest)
        elif mark == "<":
            case.input += read_line(rest)
        elif mark == "!":
            case.errors += read_line(rest)
        elif mark == "?":
            case.status = int(rest)
        else:
            case.output += read_line(line)
    return case


def read_words(command: str) -> list[bytes]:
    """Returns the arguments of a command line, quoted as in a shell. Escapes in them stand for
    bytes."""
    program, *words = shlex.split(repeat(command))
    assert program == COMMAND, command
    return [unescape(word.encode()) for word in words]


def read_line(line: str) -> bytes:
    """Returns the bytes of a line, or of several equal lines, with their line feeds."""
    times = TIMES.search(line)
    text = line[: times.start()] if times else line
    ends = not text.endswith(" (no-eol)")
    text = text.removesuffix(" (no-eol)")
    is_escaped = text.endswith(" (esc)")
    data = repeat(text.removesuffix(" (esc)")).encode()
    data = unescape(data) if is_escaped else data
    return (data + b"\n" * ends) * (int(times[1]) if times else 1)


def repeat(text: str) -> str:
    """Returns a text in which `{O*63}` is replaced by 63 letters, if it ends with ` (rep)`."""
    if not text.endswith(" (rep)"):
        return text
    return REPEATED.sub(lambda found: found[1] * int(found[2]), text.removesuffix(" (rep)"))


def unescape(text: bytes) -> bytes:
    return ESCAPED.sub(lambda found: decode(found[1]), text)


def decode(escaped: bytes) -> bytes:
    if escaped.startswith(b"x"):
        return bytes.fromhex(escaped[1:].decode())
    return b"\n" if escaped == b"n" else b"\\"
