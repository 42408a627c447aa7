"""Tools that may be missing: modules of Debian's Python packages."""

from __future__ import annotations

import importlib.util
import os
import sys

from checks.lib.count import Count

# The only Python that can import Debian's packages.
DEBIANS_PYTHON = "/usr/bin/python3"


def has_module(name: str) -> bool:
    """Checks whether a module can be imported.

    If it can't, the script starts anew with `DEBIANS_PYTHON`, and checks again there. So the answer
    is `False` only if that Python is missing or can't import the module either.
    """
    if importlib.util.find_spec(name):
        return True
    if sys.executable != DEBIANS_PYTHON and os.path.exists(DEBIANS_PYTHON):
        os.execv(DEBIANS_PYTHON, [DEBIANS_PYTHON, *sys.argv])
    return False


def need_module(name: str, package: str) -> None:
    """Ends the check if a module of a Debian package isn't installed."""
    if not has_module(name):
        count = Count()
        count.lack("all", package)
        count.end()
