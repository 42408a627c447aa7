"""The layers of `haul`. Each folder is a layer, and imports nothing from a higher layer."""

from __future__ import annotations

import ast
import re
import unittest
from collections.abc import Iterator
from pathlib import Path

from haul.tests.called import TOP

ROW = re.compile(r"^\[(\w+)\]\(\.\./haul/\1\) \| ", re.MULTILINE)


def list_layers() -> list[str]:
    """Returns the folders in the table of docs/ARCHITECTURE.md, the lowest layer first."""
    folders = ROW.findall((TOP / "docs" / "ARCHITECTURE.md").read_text())
    return [folder for folder in reversed(folders) if folder != "tests"]


def list_imports(module: Path) -> Iterator[str]:
    """Yields the folders of `haul` from which a module imports."""
    for node in ast.walk(ast.parse(module.read_text())):
        if isinstance(node, ast.ImportFrom) and (node.module or "").startswith("haul."):
            yield (node.module or "").split(".")[1]


class Layers(unittest.TestCase):
    def test_each_folder_is_in_the_table(self) -> None:
        folders = [path.parent.name for path in (TOP / "haul").glob("*/__init__.py")]
        self.assertEqual(sorted(list_layers()), sorted({*folders} - {"tests"}))

    def test_imports_go_down(self) -> None:
        layers = list_layers()
        for place, folder in enumerate(layers):
            for module in (TOP / "haul" / folder).glob("*.py"):
                upward = {*list_imports(module)} & {*layers[place + 1 :]}
                self.assertEqual(upward, set(), module.name)


if __name__ == "__main__":
    unittest.main()
