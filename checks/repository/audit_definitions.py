"""The definitions and types of the crates, for `audit`: where each one is, and which others it
uses.
"""

from __future__ import annotations

import re
import shutil
from dataclasses import dataclass, field
from pathlib import Path

from checks.lib.program import TOP

# The crates from the lowest up, which is the best order for reading. The first is the toolchain's.
CRATES = [
    "clap",
    "memory",
    "plane_core",
    "code_core",
    "survey_core",
    "ranges",
    "haul_core",
    "handover",
    "crew",
    "requests",
    "pattern_commands",
    "commands",
    "arguments",
    "census",
    "laws",
]


HEAD = re.compile(r"^(?:(?:abbrev|unfoldable|pub|record|data)\s+)+([^\s:(){}]+)")


IMPORT = re.compile(
    r"\s*(?:ghost |pub )?use Rattle\.([a-z0-9_]+)\.specs\.([A-Za-z0-9_.-]+)(?:\.\{(.*)\}| as (\w+));?$"
)


# The name of a record's field, where it is declared or gets its value. A definition may have the
# same name.
FIELD = re.compile(r"^(\s+(?:pub )?|.*?[{;] *)[A-Za-z_][A-Za-z0-9_']* (?=[=:] )", re.MULTILINE)


RUST_IMPORT = re.compile(
    r"^(?:pub )?use ([a-z_]+(?:::[a-z_]+)*)::(?:\{(.*)\}|(\w+));$", re.MULTILINE
)


TYPE = re.compile(r"^pub(?:\([a-z]+\))? (?:struct|enum|trait) (\w+)")


WORD = re.compile(r"[A-Za-z_◌][A-Za-z0-9_'◌]*(?:\.[A-Za-z_][A-Za-z0-9_]*)*")


# A module, such as `haul_core.Books` or (for code) `haul_core.book.haul`, and a name in it.
Key = tuple[str, str]


@dataclass
class Definition:
    """A definition in a file of `specs/`, with the comment above it; or a type, whose view may be
    elsewhere in its file.
    """

    path: str
    # The number of its own first line, and the number of all its lines.
    line: int
    lines: int
    text: str
    names: Names
    # What contracts see of a type, if it has a view.
    seen_as: str = ""


@dataclass
class Names:
    """The imports of a file: names, the aliases of whole modules, and re-exported names."""

    single: dict[str, Key] = field(default_factory=dict)
    modules: dict[str, str] = field(default_factory=dict)
    handed_on: list[str] = field(default_factory=list)

    def add(self, line: str) -> None:
        found = IMPORT.match(line)
        if found is None:
            return
        module, own = f"{found[1]}.{found[2]}", ""
        if ".declared." in module:
            # A module of `declared` stands for a type of the code, as do the modules of its
            # variants and its view.
            parts = (
                module.replace(".declared.", ".")
                .removesuffix(".TheVariants")
                .removesuffix(".TheViews")
                .split(".")
            )
            module, own = ".".join(parts[:-1]), parts[-1]
        if found[4]:
            self.modules[found[4]] = module
            self.single |= {found[4]: (module, own)} if own else {}
        for name in filter(None, (name.strip() for name in (found[3] or "").split(","))):
            told, _, other = name.partition(" as ")
            self.single[other or told] = (module, own or told)
            if line.startswith("pub use "):
                self.handed_on.append(other or told)

    def add_rust(self, text: str, crate: str) -> None:
        for path, several, one in RUST_IMPORT.findall(text):
            module = path.replace("::", ".")
            module = (
                f"{crate}.{module.removeprefix('crate.')}"
                if module.startswith("crate.")
                else module
            )
            for name in (several or one).split(","):
                self.single.setdefault(name.strip(), (module, name.strip()))


def toolchain() -> Path:
    """Returns the folder of the toolchain's crates."""
    rt = shutil.which("rt")
    return Path(rt).resolve().parents[1] / "rattle" if rt else Path("/nowhere")


def folder_of(crate: str) -> Path:
    """Returns the folder that has a crate's folders `specs` and `src`."""
    return toolchain() / crate if crate == "clap" else TOP / "crates" / crate


def read_definitions() -> dict[Key, Definition]:
    found: dict[Key, Definition] = {}
    for crate in CRATES:
        folder = folder_of(crate)
        for path in sorted((folder / "specs").rglob("*.antt")):
            if "declared" not in path.parts:
                read_file(path, f"{crate}.{module_of(path, folder / 'specs')}", found)
        for path in sorted((folder / "src").rglob("*.rt")) if crate != "clap" else []:
            # The contents of the root file belong to the crate itself.
            read_types(
                path,
                crate,
                f"{crate}.{module_of(path, folder / 'src')}".removesuffix(".lib"),
                found,
            )
    return found


def module_of(path: Path, folder: Path) -> str:
    return ".".join(path.relative_to(folder).with_suffix("").parts)


def read_file(path: Path, module: str, found: dict[Key, Definition]) -> None:
    names = Names()
    now: Definition | None = None
    comment = 0
    for number, line in enumerate(path.read_text().splitlines(), 1):
        head = HEAD.match(line)
        if line.startswith(("use ", "pub use ")):
            names.add(line)
        elif line.startswith("--"):
            comment, now = comment or number, None
        elif not line.strip():
            comment, now = 0, None
        elif head:
            now = Definition(
                str(path.relative_to(TOP) if path.is_relative_to(TOP) else path),
                number,
                number - (comment or number) + 1,
                line,
                names,
            )
            found[module, head[1]] = now
            comment = 0
        else:
            # The line is an equation, or goes on with a definition. After an empty line, an
            # equation begins with the name that it defines.
            now = now or found.get((module, line.split(" ")[0]))
            if now:
                now.lines, now.text = now.lines + 1, f"{now.text}\n{line}"
    # The names that a module re-exports belong to it, too.
    for name in names.handed_on:
        found[module, name] = Definition("", 0, 0, "", names)


def read_types(path: Path, crate: str, module: str, found: dict[Key, Definition]) -> None:
    """Reads the types of a source file: each from its head to its end, and what contracts see of
    it.
    """
    text = path.read_text()
    lines = text.splitlines()
    names = Names()
    names.add_rust(text, crate)
    for number, line in enumerate(lines, 1):
        head = TYPE.match(line)
        if head:
            own = block(lines, number) if "{" in line else [line]
            kept = [line for line in own if not line.strip().startswith("//")]
            found[module, head[1]] = Definition(
                str(path.relative_to(TOP)), number, len(kept), "\n".join(kept), names
            )
    for number, line in enumerate(lines, 1):
        of_type = re.match(r"impl(?:<[^{]*>)? Model for (\w+)", line)
        if of_type and (module, of_type[1]) in found:
            add_view(found[module, of_type[1]], block(lines, number))


def add_view(of_type: Definition, lines: list[str]) -> None:
    """Replaces a type's text by its view, through which contracts see a value. Leaves out
    invariants and how a value is recovered, which are only for the prover.
    """
    names, kept, keeps = Names(), [], False
    for line in lines[1:-1]:
        names.add(line)
        if line.startswith("    ghost "):
            keeps = line.startswith(("    ghost Value", "    ghost view"))
        if keeps and line.strip():
            kept.append(line)
    value = next((line for line in kept if line.startswith("    ghost Value")), "")
    # A view may have its own name for a type, such as `Range as Numbers`.
    of_type.seen_as = WORD.sub(
        lambda word: names.single.get(word[0], ("", word[0]))[1],
        value.partition("{")[2].rpartition("}")[0].strip(),
    )
    of_type.lines += len(kept)
    of_type.text, of_type.names = "\n".join(kept), names


def block(lines: list[str], first: int) -> list[str]:
    """Returns the lines from line `first` to the next closing brace at the left margin."""
    last = next(number for number in range(first, len(lines)) if lines[number].startswith("}"))
    return lines[first - 1 : last + 1]


def without_fields(text: str) -> str:
    """Removes the names of fields, of which a line may have several."""
    before = ""
    while before != text:
        before, text = text, FIELD.sub(r"\1", text)
    return text


def named(text: str, names: Names, module: str, definitions: dict[Key, Definition]) -> set[Key]:
    """Returns the definitions and types that a text names."""
    found: set[Key] = set()
    for word in WORD.findall(without_fields(text)):
        first, _, rest = word.partition(".")
        for key in (
            names.single.get(word),
            names.single.get(first),
            (module, first),
            (names.modules.get(first, ""), rest.split(".")[0]),
        ):
            # If a module only re-exports the name, continue with the place of the definition.
            while key in definitions and not definitions[key].line:
                key = definitions[key].names.single[key[1]]
            if key in definitions:
                found.add(key)
    return found
