"""Puts the modules of a script together into one script.

A module is a file of JavaScript. It begins with comments and imports, such as `import { cellAt, yOf }
from './cells.js';`, and exports what it defines, as in `export const cellAt = ..`. Other forms of
imports and exports are refused. In the script, each module is a function that is called once, after
those from which it imports. So what a module doesn't export is its own. Comments with types, which
are for readers of the modules, are left out.
"""

from __future__ import annotations

import re
from collections.abc import Callable, Iterator
from posixpath import dirname, join, normpath
from typing import NamedTuple

IMPORT = re.compile(r"^import \{([^{}]*)\} from '([a-z_./]+)';\n", re.MULTILINE)
EXPORT = re.compile(r"^export (?=(?:const|class|function|async function) (\w+))", re.MULTILINE)
TYPES = re.compile(r"^ */\*\*.*?\*/\n", re.MULTILINE | re.DOTALL)
OTHER = re.compile(r"^(?:import|export)\b.*", re.MULTILINE)


class BadModule(Exception):
    """Raised if modules can't be put together. The message says why."""


class Module(NamedTuple):
    path: str
    # The names that are imported from each path.
    imports: dict[str, list[str]]
    exports: list[str]
    # The text without its imports, its types, and the word `export`.
    body: str


def bundle_modules(read: Callable[[str], str], path: str) -> str:
    """Returns the script of the module at `path` and of all modules that it needs. `read` returns
    the text of the module at a path."""
    return "\n".join(map(write_module, order_modules(read, path)))


def order_modules(read: Callable[[str], str], path: str) -> Iterator[Module]:
    """Yields the module at `path` after those that it needs. Each comes once. Raises `BadModule` if
    modules need each other, or if a name is imported that isn't exported."""
    done: dict[str, Module] = {}

    def visit(path: str, before: tuple[str, ...]) -> Iterator[Module]:
        if path in before:
            raise BadModule(f"{' imports '.join([*before[before.index(path) :], path])}")
        if path in done:
            return
        module = read_module(path, read(path))
        for source, names in module.imports.items():
            yield from visit(source, (*before, path))
            unknown = sorted(set(names) - set(done[source].exports))
            if unknown:
                raise BadModule(f"{path} imports {', '.join(unknown)}, which {source} doesn't have")
        done[path] = module
        yield module

    return visit(path, ())


def read_module(path: str, text: str) -> Module:
    imports: dict[str, list[str]] = {}
    for names, source in IMPORT.findall(text):
        imports[normpath(join(dirname(path), source))] = re.findall(r"\w+", names)
    body = EXPORT.sub("", IMPORT.sub("", TYPES.sub("", text)))
    other = OTHER.search(body)
    if other:
        raise BadModule(f"{path}: only plain imports and exports are read: {other[0]}")
    return Module(path, imports, EXPORT.findall(text), body)


def write_module(module: Module) -> str:
    """Returns a module as a function that is called once, and returns what the module exports."""
    imports = "".join(
        f"const {{ {', '.join(names)} }} = {name_module(source)};\n"
        for source, names in module.imports.items()
    )
    exports = f"return {{ {', '.join(module.exports)} }};\n" if module.exports else ""
    return f"const {name_module(module.path)} = (() => {{\n{imports}{module.body}{exports}}})();\n"


def name_module(path: str) -> str:
    """Returns the name of a module in the script. No name in a module begins with `$`."""
    return "$" + re.sub(r"\W", "_", path.removesuffix(".js"))
