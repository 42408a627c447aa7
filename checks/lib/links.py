"""Checks links in the pages below a folder. Each must lead to a file that exists. If the link names
a heading, an element or a line, the file must have it. Links with a scheme, such as `https:`,
aren't checked.

usage: python3 -m checks.lib.links FOLDER        prints the links that lead nowhere, and fails if
there is one
"""

from __future__ import annotations

import re
import sys
from collections.abc import Iterator
from pathlib import Path
from typing import NamedTuple

FENCE = re.compile(r"^```.*?^```$", re.MULTILINE | re.DOTALL)
CODE = re.compile(r"`[^`\n]+`")
LINK = re.compile(r"\[[^\[\]]*\]\(([^()\s]+)\)")
HEADING = re.compile(r"^#+ (.*)$", re.MULTILINE)
# The scripts of an HTML page aren't searched, since they build the addresses of their links.
SCRIPT = re.compile(r"<script.*?</script>", re.DOTALL)
ADDRESS = re.compile(r'(?:href|src)="([^"]*)"')
ELEMENT = re.compile(r' id="([^"]*)"')


class Link(NamedTuple):
    """A link of a page. `fault` says what is wrong with it, and is empty if the link is right."""

    name: str
    fault: str


def links_below(top: Path) -> Iterator[Link]:
    """Yields the links to files in all pages below a folder, except in folders named `out`."""
    for page in sorted(path for path in top.rglob("*") if path.suffix in (".md", ".html")):
        if "out" not in page.parts:
            for target in targets_in(page):
                yield Link(f"{page.relative_to(top)}: the link {target}", fault_of(page, target))


def targets_in(page: Path) -> list[str]:
    text = page.read_text()
    if page.suffix == ".html":
        found = ADDRESS.findall(SCRIPT.sub("", text))
    else:
        found = LINK.findall(CODE.sub("code", FENCE.sub("", text)))
    return [target for target in found if not re.match(r"(?:\w+:)", target)]


def fault_of(page: Path, target: str) -> str:
    name, _, anchor = target.partition("#")
    path = page.parent / name if name else page
    if not path.exists():
        return "nothing is there"
    if anchor and anchor not in anchors_in(path):
        return "there is no such place in it"
    return ""


def anchors_in(path: Path) -> set[str]:
    """Returns the anchors of a file: the headings of Markdown, the elements of HTML, or the lines
    of any other text.
    """
    text = path.read_text()
    if path.suffix == ".html":
        return set(ELEMENT.findall(SCRIPT.sub("", text)))
    if path.suffix != ".md":
        return {f"L{number}" for number in range(1, text.count("\n") + 1)}
    headings = HEADING.findall(FENCE.sub("", text))
    return {re.sub(r"[^\w\- ]", "", heading.lower()).replace(" ", "-") for heading in headings}


def main() -> None:
    dead = [link for link in links_below(Path(sys.argv[1])) if link.fault]
    for link in dead:
        print(f"{link.name}: {link.fault}")
    sys.exit(1 if dead else 0)


if __name__ == "__main__":
    main()
