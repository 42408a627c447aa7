"""How names are compared."""

from __future__ import annotations

import re

# What doesn't matter in a name. The apostrophe may be a curly one.
IGNORED = re.compile("[-_ '\u2018\u2019]")


def simplify(name: str) -> str:
    """Returns a name without what doesn't matter: case, spaces, hyphens, underscores and
    apostrophes."""
    return IGNORED.sub("", name.casefold())
