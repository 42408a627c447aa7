"""A page about one or several hauls: a single HTML 5 file that loads no other file.

Its script shows the objects and plays soups, with the data in the file. For readers without
JavaScript, there is a table in a `noscript` element.
"""

from __future__ import annotations

import re
from base64 import b64encode
from collections.abc import Iterator
from hashlib import sha256
from html import escape
from importlib.resources import files
from string import Template

from haul.census.client import Census
from haul.formats.haul import Haul
from haul.page.data import describe_objects, write_data
from haul.page.lives import Lives, write_lives
from haul.page.modules import bundle_modules
from haul.page.object_table import write_table
from haul.page.sides import make_sides
from haul.page.summary import write_foot, write_title, write_top

# The module that starts the page's script.
MAIN = "page.js"
# The browser runs no script but the one with this hash, and loads nothing.
POLICY = Template(
    "default-src 'none'; script-src '$hash'; style-src 'unsafe-inline'; img-src data:; "
    "base-uri 'none'; form-action 'none'"
)
# The places of page.html that are filled piece by piece.
PIECES = re.compile(r"\$(?:table|lives|data)_pieces")


def make_page(
    census: Census, hauls: list[Haul], least: int, play: int, lives: Lives | None = None
) -> Iterator[str]:
    """Yields the page, piece by piece. A code is left out if no haul has at least `least` objects
    or parts with it. `census` finds out when the sample soups of the first `play` codes settle.
    Only the page of a single haul may have `lives`, the section *Long lives*."""
    sides = make_sides(hauls, least, play, census.terminal)
    # `census` is called and the objects are described before the first piece is yielded. So if
    # either fails, nothing of the page is written.
    sides.ask(census)
    objects = describe_objects(sides, census.terminal)
    script = write_script()
    before, between, middle, after = map(Template, PIECES.split(read_file("page.html")))
    yield before.substitute(
        policy=POLICY.substitute(hash=hash_script(script)),
        title=escape(write_title(sides)),
        style=read_file("page.css"),
        top=write_top(sides),
    )
    yield from write_lives(lives) if lives is not None else []
    yield between.substitute()
    yield from write_table(sides)
    yield middle.substitute(foot=write_foot(sides))
    yield from write_data(sides, objects, lives)
    yield after.substitute(script=script)


def write_script() -> str:
    """Returns the contents of the page's script element."""
    script = bundle_modules(lambda path: read_file(f"script/{path}"), MAIN)
    return f"\n'use strict';\n{{\n{script}}}\n"


def hash_script(script: str) -> str:
    """Returns a script's hash as the page's policy gives it."""
    return f"sha256-{b64encode(sha256(script.encode()).digest()).decode()}"


def read_file(name: str) -> str:
    """Returns the text of a file in the folder of this module, or below it."""
    return files("haul.page").joinpath(name).read_text("utf-8")
