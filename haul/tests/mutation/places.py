"""The places in which a module can be changed, and the changes that no test can notice.

If changes of a line are equal to the original, the file equal.txt says so.
"""

from __future__ import annotations

import ast
import re
from collections import Counter
from collections.abc import Iterator
from dataclasses import dataclass
from functools import cache
from pathlib import Path

OPPOSITE = {
    ast.Lt: ast.LtE,
    ast.LtE: ast.Lt,
    ast.Gt: ast.GtE,
    ast.GtE: ast.Gt,
    ast.Eq: ast.NotEq,
    ast.NotEq: ast.Eq,
    ast.In: ast.NotIn,
    ast.NotIn: ast.In,
    ast.Is: ast.IsNot,
    ast.IsNot: ast.Is,
    ast.And: ast.Or,
    ast.Or: ast.And,
    ast.Add: ast.Sub,
    ast.Sub: ast.Add,
}
# The lines of equal.txt: the name of a file, a line of it, or the number of its equal changes and the
# reason.
FILE_LINE, CODE_LINE = re.compile(r"(\S+)"), re.compile(r"    (\S.*)")
NUMBER_LINE = re.compile(r"        ([1-9][0-9]*): \S.*")
EQUAL = Path(__file__).with_name("equal.txt")


@dataclass
class Place:
    """A place where a file is changed: the field of a node, or an entry of the field, and the new
    value."""

    file: str
    line: int
    # The class and the function that contain the place.
    within: str
    words: str
    node: ast.AST
    field: str
    entry: int | None
    new: object

    def __str__(self) -> str:
        return f"{self.file}:{self.line}: {self.within}{self.words}"

    def key(self) -> str:
        return f"{self.file}: {self.within}{self.words}"

    def changed(self, tree: ast.Module) -> str:
        """Returns the text of the file with the change. The tree is restored afterwards."""
        kept = self.change()
        text = ast.unparse(ast.fix_missing_locations(tree))
        setattr(self.node, self.field, kept)
        return text

    def change(self) -> object:
        """Makes the change in the tree, and returns the old value."""
        kept = getattr(self.node, self.field)
        new = self.new
        if self.entry is not None:
            new = [*kept[: self.entry], self.new, *kept[self.entry + 1 :]]
        setattr(self.node, self.field, new)
        return kept


def find_places(file: str, tree: ast.Module) -> Iterator[Place]:
    """Yields each place of a module, in the order of its lines."""
    truths = find_truths(tree)
    shown_in = {
        id(node): whole
        for statement in ast.walk(tree)
        if isinstance(statement, ast.stmt)
        for whole in list_shown_parts(statement)
        for node in ast.walk(whole)
    }
    within = {id(node): name for name, outer in name_nodes(tree, "") for node in ast.walk(outer)}
    signalled = find_signals(tree)
    nodes = [node for node in ast.walk(tree) if hasattr(node, "lineno")]
    nodes = [node for node in nodes if id(node) not in signalled]
    for node in sorted(nodes, key=lambda node: (node.lineno, node.col_offset)):
        for field, entry, new in list_changes(node, id(node) in truths):
            place = Place(file, node.lineno, within.get(id(node), ""), "", node, field, entry, new)
            shown = shown_in.get(id(node), node)
            before = ast.unparse(shown)
            kept = place.change()
            place.words = f"{before} => {ast.unparse(shown)}"
            setattr(node, field, kept)
            yield place


def find_truths(tree: ast.Module) -> set[int]:
    """Returns the ids of the nodes in functions that return a truth value."""
    return {
        id(node)
        for function in ast.walk(tree)
        if isinstance(function, ast.FunctionDef)
        and ast.unparse(function.returns or function) == "bool"
        for node in ast.walk(function)
    }


def find_signals(tree: ast.Module) -> set[int]:
    """Returns the ids of the nodes in calls that send signals. With a changed number, a signal
    could go to unrelated processes: `killpg(1, ..)` sends it to every process."""
    return {
        id(node)
        for call in ast.walk(tree)
        if isinstance(call, ast.Call) and ast.unparse(call.func) in ("os.kill", "os.killpg")
        for node in ast.walk(call)
    }


def list_changes(node: ast.AST, is_truth: bool) -> Iterator[tuple[str, int | None, object]]:
    """Yields the possible changes of a node. A change is a field, the index of an entry of the
    field (or `None`), and the new value."""
    match node:
        case ast.Compare():
            for entry, op in enumerate(node.ops):
                yield "ops", entry, OPPOSITE[type(op)]()
        case ast.Constant() if type(node.value) in (int, float):
            yield "value", None, node.value + 1
        case ast.BoolOp():
            yield "op", None, OPPOSITE[type(node.op)]()
        case ast.BinOp() | ast.AugAssign() if type(node.op) in OPPOSITE:
            yield "op", None, OPPOSITE[type(node.op)]()
        case ast.Slice():
            for side in ("lower", "upper"):
                if getattr(node, side) is not None:
                    yield side, None, None
        case ast.Return() if node.value is not None and ast.unparse(node.value) != "None":
            new = ast.UnaryOp(ast.Not(), node.value) if is_truth else ast.Constant(None)
            yield "value", None, new


def name_nodes(outer: ast.AST, before: str) -> Iterator[tuple[str, ast.AST]]:
    """Yields each class and function in a node, together with its name. A class or function comes
    before those that it contains."""
    for node in ast.iter_child_nodes(outer):
        name = before
        if isinstance(node, (ast.ClassDef, ast.FunctionDef)):
            name = f"{before}{node.name}: "
            yield name, node
        yield from name_nodes(node, name)


def list_shown_parts(statement: ast.stmt) -> list[ast.AST]:
    """Returns the parts of a changed statement that are shown: all of it, or the parts before its
    body."""
    if not hasattr(statement, "body"):
        return [statement]
    parts = [getattr(statement, name, []) for name in ("test", "iter", "items", "subject", "args")]
    return [one for part in parts for one in (part if isinstance(part, list) else [part])]


@cache
def load_equal() -> dict[str, dict[str, int]]:
    """Returns, for each file of equal.txt, the lines with changes that no test can notice, and how
    many such changes each has."""
    equal: dict[str, dict[str, int]] = {}
    file = code = ""
    for line in EQUAL.read_text().splitlines():
        if line.startswith("#") or not line:
            continue
        if found := FILE_LINE.fullmatch(line):
            file = found[1]
            equal[file] = {}
        elif found := NUMBER_LINE.fullmatch(line):
            equal[file][code] = int(found[1])
        elif found := CODE_LINE.fullmatch(line):
            code = found[1]
        else:
            raise ValueError(f"equal.txt: {line}")
    return equal


def find_allowances(file: str, text: str) -> Counter[int]:
    """Returns how many changes of each line of a file may go unnoticed."""
    known = load_equal().get(file, {})
    return Counter(
        {
            line: known[words.strip()]
            for line, words in enumerate(text.splitlines(), 1)
            if words.strip() in known
        }
    )
