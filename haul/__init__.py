"""Checks, joins, compares and shows the hauls of `census`. See `bin/haul --help`.

`census`, which is proved, decides whether a haul is right and when a soup has settled, and runs
soups and patterns. Everything else about Life comes from the small model in haul/life/. Like the
rest of `haul`, the model is tested, not proved.
"""

VERSION = "0.3.0"
