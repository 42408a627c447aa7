"""The modules of the page's script, and how they are put together."""

from __future__ import annotations

import re
import unittest

from haul.page.document import MAIN
from haul.page.modules import BadModule, Module, bundle_modules, order_modules, read_module
from haul.tests.called import TOP

FOLDER = TOP / "haul" / "page" / "script"
TEXTS = {
    "page.js": """\
/** Starts the page. */
import { box } from './views/box.js';
import {
  one,
  two,
} from './numbers.js';

const all = [one, two]; // no import of a name
box(all);
""",
    "numbers.js": """\
/** @type {number} */
export const one = 1;
export const two = one + 1;
const three = 3;
""",
    "views/box.js": """\
import { two } from '../numbers.js';

/**
 * Makes a box.
 * @type {(some: number[]) => number}
 */
export const box = some => some.length + two;
export class Box {}
export async function wait() {}
""",
}
SCRIPT = """\
const $numbers = (() => {
const one = 1;
const two = one + 1;
const three = 3;
return { one, two };
})();

const $views_box = (() => {
const { two } = $numbers;

const box = some => some.length + two;
class Box {}
async function wait() {}
return { box, Box, wait };
})();

const $page = (() => {
const { box } = $views_box;
const { one, two } = $numbers;

const all = [one, two]; // no import of a name
box(all);
})();
"""


def bundle(texts: dict[str, str], path: str = "a.js") -> str:
    return bundle_modules(texts.__getitem__, path)


class Bundles(unittest.TestCase):
    def test_a_script(self) -> None:
        """Each module comes once, after those that it needs, with its exports and without its
        types."""
        self.assertEqual(bundle(TEXTS, "page.js"), SCRIPT)

    def test_cycles(self) -> None:
        use = "import {{ x }} from './{}.js';\nexport const x = 1;\n"
        texts = {"a.js": use.format("b"), "b.js": use.format("c"), "c.js": use.format("b")}
        for path, why in (
            ("a.js", "b.js imports c.js imports b.js"),
            ("b.js", "b.js imports c.js imports b.js"),
        ):
            with self.assertRaises(BadModule) as caught:
                bundle(texts, path)
            self.assertEqual(str(caught.exception), why)
        with self.assertRaises(BadModule) as caught:
            bundle({"a.js": use.format("a")})
        self.assertEqual(str(caught.exception), "a.js imports a.js")

    def test_names_that_are_not_exported(self) -> None:
        texts = {
            "a.js": "import { x, y, z } from './b.js';\n",
            "b.js": "export const x = 1;\nconst y = 2;\n",
        }
        with self.assertRaises(BadModule) as caught:
            bundle(texts)
        self.assertEqual(str(caught.exception), "a.js imports y, z, which b.js doesn't have")

    def test_other_forms(self) -> None:
        for line in (
            "import x from './b.js';",
            "import * as x from './b.js';",
            "import { x } from 'b';  // elsewhere",
            "import './b.js';",
            "export let x = 1;",
            "export default 1;",
            "export { x };",
            "export const [x] = [1];",
        ):
            with self.assertRaises(BadModule) as caught:
                bundle({"a.js": f"const y = 1;\n{line}\n"})
            self.assertEqual(
                str(caught.exception), f"a.js: only plain imports and exports are read: {line}"
            )


class OfThePage(unittest.TestCase):
    """Tests the modules of the page themselves. What they do is tested in a browser."""

    def modules(self) -> list[Module]:
        return [
            read_module(file.relative_to(FOLDER).as_posix(), file.read_text())
            for file in sorted(FOLDER.rglob("*.js"))
        ]

    def test_all_are_needed(self) -> None:
        ordered = order_modules(lambda path: (FOLDER / path).read_text(), MAIN)
        self.assertEqual(
            sorted(module.path for module in ordered),
            sorted(module.path for module in self.modules()),
        )

    def test_imports_and_exports_are_used(self) -> None:
        """Each name that a module imports occurs in it, and some module imports each name that is
        exported."""
        wanted: set[tuple[str, str]] = set()
        for module in self.modules():
            for source, names in module.imports.items():
                wanted |= {(source, name) for name in names}
                for name in names:
                    self.assertRegex(module.body, rf"\b{re.escape(name)}\b", module.path)
        exported = {(module.path, name) for module in self.modules() for name in module.exports}
        self.assertEqual(exported - wanted, set())

    def test_one_statement_in_a_line(self) -> None:
        """No line has several statements, except for the head of a loop. Lines with a template,
        whose text may look like code, aren't tested."""
        for module in self.modules():
            for line in module.body.splitlines():
                code = re.sub(r"'[^']*'|.*`.*|//.*|\bfor \(.*?;.*?;.*?\)", "", line)
                self.assertNotRegex(code, r";.*\S", f"{module.path}: {line}")


if __name__ == "__main__":
    unittest.main()
