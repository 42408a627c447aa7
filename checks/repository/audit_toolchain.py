"""The definitions of the toolchain, for `audit`: where each one is, and what it is."""

from __future__ import annotations

import re
from collections.abc import Iterable
from dataclasses import dataclass

from checks.repository.audit_definitions import CRATES, HEAD, WORD, Key, Names, toolchain

# The toolchain's names that have the same meaning as in Rust or in mathematics. So do operators,
# such as `◌+◌`, and Rust's types.
NOTATION = set(
    "Bool true false not IsTrue MatchBool List length map take drop zero suc pos negsuc max min nat_eq nat_le nat_lt int_eq int_lt int_le unsigned_abs "
    "Option Some None is_some unwrap_or option_map option_and_then Result Ok Err is_ok is_err is_eq".split()
)


# What definitions are, if the toolchain has no comment on them, or one that needs its context.
GLOSSES = {
    "Appends": "[a value in the clauses](AUDIT.md#the-values-in-the-clauses)",
    "IfErr": "[a word of contracts](READING-SPECS.md#a-contract)",
    "IfOk": "[a word of contracts](READING-SPECS.md#a-contract)",
    "IfSome": "[a word of contracts](READING-SPECS.md#a-contract)",
    "IsDistinct": "no two elements are equal, by the test e",
    "IsErrOf": "the result is this error",
    "IsNumeral": "at least one digit of the radix, and nothing else",
    "IsOkAnd": "[a word of contracts](READING-SPECS.md#a-contract)",
    "IsSomeAnd": "[a word of contracts](READING-SPECS.md#a-contract)",
    "MatchResult": "[a word of contracts](READING-SPECS.md#a-contract)",
    "OnErr": "[a word of contracts](READING-SPECS.md#a-contract)",
    "OnOk": "[a word of contracts](READING-SPECS.md#a-contract)",
    "OnSome": "[a word of contracts](READING-SPECS.md#a-contract)",
    "beq": "whether two Booleans are equal",
    "bytes_eq": "whether two lists of bytes are equal",
    "codes": "the code of each character of a text: its bytes, if it is ASCII",
    "count_by": "how many elements pass the test",
    "decimal": "the decimal digits of a number (only the last 64, if it has more)",
    "enumerate_from": "each element after its place, counted from n",
    "filter": "the elements that pass the test",
    "filter_map": "what f gives for the elements, without those for which it gives `None`",
    "find": "the first element that passes the test, if there is one",
    "flat_map": "the lists that f gives for the elements, joined",
    "int_cmp": "the order of two integers",
    "int_max": "the greater of two integers",
    "int_min": "the smaller of two integers",
    "is_ascii_digit": "whether a byte is one of `0` to `9`",
    "is_ascii_lowercase": "whether a byte is one of `a` to `z`",
    "list_all": "whether each element passes the test",
    "list_any": "whether some element passes the test",
    "nat_cmp": "the order of two natural numbers",
    "ordering_then": "the first ordering or, if that is `Equal`, the second",
    "pointwise": "whether two lists have one length, and E is true at each place",
    "range_with_len": "the n numbers from a on",
    "slice_cmp": "the order of two lists, by the first place at which they differ; a prefix is less",
    "slice_index": "the i-th number of a list, and 0 past its end",
    "slice_split": "the parts of a list between the elements that pass the test",
    "sha256": "the digest of a message under SHA-256 (FIPS 180-4)",
    "string_bytes": "the bytes of a string",
    "sum": "the sum of the elements",
    "sum_by": "the sum of what f gives for the elements",
}


# The libraries from which the toolchain's crates re-export names, and their folders below the
# toolchain's folder.
LIBRARIES = {"lib": "logic/Lib", "mathlib": "antt/port/mathlib/src"}


HANDED_ON = re.compile(r"pub use ((?:Rattle|lib|mathlib)\.[\w.]+)\.\{(.*)\}$")


# The definitions of the libraries may lack `pub`.
PLAIN_HEAD = re.compile(r"^([^\s:(){}.]+)(?: : | \()")


OPERATOR = re.compile(r"[^A-Za-z0-9_']")


@dataclass
class Told:
    """A definition of the toolchain: its file and line, and the comment above it."""

    path: str
    line: int
    says: str


def told_by_toolchain(module: str, name: str) -> Told | None:
    """Finds a name where it is defined, even if the module only re-exports it."""
    crate, _, rest = module.partition(".")
    path = toolchain() / LIBRARIES.get(crate, f"{crate}/specs") / f"{rest.replace('.', '/')}.antt"
    if not path.is_file():
        home = home_of(crate, rest)
        return told_by_toolchain(home, name) if home else None
    lines = path.read_text().splitlines()
    for number, line in enumerate(lines, 1):
        head = HEAD.match(line.strip()) or PLAIN_HEAD.match(line)
        if head and head[1] == name:
            return Told(
                str(path.relative_to(toolchain())),
                number,
                comment_above(lines, number) or f"`{lines[number].strip()}`",
            )
    for line in lines:
        found = HANDED_ON.match(line)
        if found and name in [one.strip() for one in found[2].split(",")]:
            return told_by_toolchain(
                found[1].removeprefix("Rattle.").replace(".specs.", ".", 1), name
            )
    return None


def home_of(crate: str, rest: str) -> str | None:
    """Returns the module that a crate re-exports under this name, or `None` if it doesn't."""
    first, _, more = rest.partition(".")
    everything = toolchain() / crate / "specs" / "Lib.antt"
    for line in everything.read_text().splitlines() if everything.is_file() else []:
        found = re.match(r"pub use Rattle\.(\w+)\.specs\.((?:\w+\.)*(\w+))$", line)
        if found and found[3] == first and found[1] != crate:
            return f"{found[1]}.{found[2]}" + (f".{more}" if more else "")
    return None


def comment_above(lines: list[str], number: int) -> str:
    """Returns the comment above a definition, or above the definitions that it follows without an
    empty line.
    """
    lines, first = [line.strip() for line in lines], number - 1
    while first and lines[first - 1] and not lines[first - 1].startswith("--"):
        first -= 1
    said: list[str] = []
    while first and lines[first - 1].startswith("--"):
        first -= 1
        said.insert(0, lines[first].removeprefix("--").strip())
    return " ".join(said)


def names_of_toolchain(text: str, names: Names) -> set[Key]:
    """Returns the names of the toolchain's definitions in a text."""
    known = {*CRATES[1:], "clap"}
    return {
        key
        for word in WORD.findall(text)
        if (key := names.single.get(word.partition(".")[0]))
        and key[0].partition(".")[0] not in known
    }


def is_meant(key: Key) -> bool:
    """Checks whether the table of the toolchain's definitions has this name. Rust's types are left
    out. Their modules have names that begin with a lower-case letter.
    """
    return (
        key[1] not in NOTATION
        and not OPERATOR.search(key[1])
        and not key[0].partition(".")[2][:1].islower()
    )


def told_rows(keys: Iterable[Key]) -> list[str]:
    """Returns the rows of the table of the toolchain's definitions, sorted by name."""
    found = {
        (told.path, key[1]): told
        for key in keys
        if is_meant(key) and (told := told_by_toolchain(*key))
    }
    return [
        f"| `{name}` | `{path}`:{told.line} | {GLOSSES.get(name, told.says).replace('|', '&#124;')} |"
        for (path, name), told in sorted(found.items(), key=lambda it: (it[0][1].lower(), it[0]))
    ]
