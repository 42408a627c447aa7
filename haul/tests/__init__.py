"""The tests of `haul`. `python3 -m haul.tests` runs them, and `python3 -m unittest discover` finds
them, too. Most tests need the built census program."""

from __future__ import annotations

import os

# The tests don't use what the user has added to `haul`.
os.environ["HAUL_DATA"] = ""
