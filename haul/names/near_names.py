"""Known names that look like a text, for messages about unknown names."""

from __future__ import annotations

import difflib

from haul.names.famous import load_famous
from haul.names.objects import load_names
from haul.names.spelling import simplify

# How many similar names are suggested, and how similar they have to be, from 0 to 1.
MOST_NEAR, LEAST_SIMILARITY = 3, 0.75


def find_near_names(name: str) -> list[str]:
    """Returns at most `MOST_NEAR` names of objects and of famous patterns that look like `name`, the
    most similar one first."""
    names = load_names()
    known = [one for code, shown in names.shown.items() for one in (shown, *names.others[code])]
    known += [one for pattern in load_famous().values() for one in (pattern.name, *pattern.others)]
    spelled = {simplify(one): one for one in known}
    near = difflib.get_close_matches(simplify(name), spelled, MOST_NEAR, LEAST_SIMILARITY)
    return [spelled[one] for one in near]
