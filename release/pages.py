"""Adapts pages to their place in a release: each link leads to the new place of its file, or
becomes plain text if the release doesn't have the file.
"""

from __future__ import annotations

import posixpath
import re
from collections.abc import Mapping

# Either code, in which nothing is a link, or a link. A picture counts as a link, too.
PIECE = re.compile(
    r"(?P<code>^```.*?^```$|``.*?``|`[^`\n]*`)|(?P<picture>!?)\[(?P<text>(?:[^\[\]`]|`[^`\n]*`)*)\]\((?P<target>[^()\s]+)\)",
    re.MULTILINE | re.DOTALL,
)


def moved_page(text: str, path: str, places: Mapping[str, str]) -> str:
    """Returns the text of a page of the repository, adapted to its place in a release. `places`
    maps paths in the repository, including the page's own path, to places in the release.
    """

    def moved(found: re.Match[str]) -> str:
        if found["code"] is not None or "://" in found["target"] or found["target"].startswith("#"):
            return found[0]
        target, mark, fragment = found["target"].partition("#")
        place = places.get(posixpath.normpath(posixpath.join(posixpath.dirname(path), target)))
        if place is None:
            return found["text"]
        link = posixpath.relpath(place, posixpath.dirname(places[path]))
        return f"{found['picture']}[{found['text']}]({link}{mark}{fragment})"

    return PIECE.sub(moved, text)
