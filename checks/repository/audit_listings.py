"""The contracts and the listings of docs/AUDIT.md, for `audit`."""

from __future__ import annotations

import re

from checks.lib.program import TOP
from checks.repository.audit_definitions import Names

PROGRAM = TOP / "crates" / "census" / "src" / "program.rt"
HEADLINE = TOP / "crates" / "census" / "specs" / "Headline.antt"


def contract(path: str, name: str, clauses: list[str]) -> tuple[int, list[str], Names]:
    """Returns the line of a public function, its lines from its head to its body, and the imports
    of its file. If `clauses` isn't empty, the clauses that it doesn't name are left out.
    """
    text = (TOP / path).read_text()
    lines, names = text.splitlines(), Names()
    for line in lines:
        names.add(line)
    names.add_rust(text, path.split("/")[1])
    own = name.rpartition("::")[2]
    first = next(
        number for number, line in enumerate(lines, 1) if re.match(rf"\s*pub fn {own}\b", line)
    )
    last = next(
        number for number in range(first, len(lines)) if lines[number].strip().startswith("{")
    )
    kept, keeps = [], True
    for line in lines[first - 1 : last]:
        clause = re.match(r"\s*ensures (?:(\w+) )?\{", line)
        keeps = clause[1] in clauses or not clauses if clause else keeps
        if keeps and line.strip() and not line.strip().startswith("//"):
            kept.append(line)
    return first, kept, names


def clauses(name: str, chosen: list[str]) -> list[str]:
    """Returns the head of a function of `program.rt` and the chosen clauses, as a listing."""
    _, lines, _ = contract(str(PROGRAM.relative_to(TOP)), name, chosen)
    return ["```rust", *lines, "```"]


def headline() -> list[str]:
    """Returns the definitions of the formal headline as a listing, without their imports."""
    lines = [
        line
        for line in HEADLINE.read_text().splitlines()
        if not line.startswith(("use ", "pub use "))
    ]
    return ["```", *lines, "```"]
