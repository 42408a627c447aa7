"""Soups under the rule `STILL`, and the haul of such soups. Under this rule, nothing changes, so
each cluster is an object.
"""

from __future__ import annotations

from collections import Counter
from collections.abc import Mapping

from checks.lib.formats import ONE_CHECKPOINT, STILL, haul_text
from checks.lib.patterns import soup
from checks.lib.plain import objects_at_rest, rule_named


def objects_of_still_soup(number: int) -> dict[str, int]:
    """Returns the number of objects of each code in a soup, according to the plain program of the
    definitions.
    """
    objects = objects_at_rest(
        rule_named(STILL), ONE_CHECKPOINT.period, ONE_CHECKPOINT.horizon, soup(number)
    )
    assert objects is not None
    return dict(objects)


class StillSoups:
    """The haul of soups 0 to `soups - 1` under the rule `STILL`."""

    def __init__(self) -> None:
        self.soups = 0
        self.counts: Counter[str] = Counter()
        self.samples: dict[str, list[int]] = {}

    def add(self, number: int, objects: Mapping[str, int]) -> None:
        """Adds the next soup."""
        assert number == self.soups
        self.soups += 1
        for code, count in objects.items():
            self.counts[code] += count
            self.samples.setdefault(code, []).append(number)

    def haul_text(self) -> bytes:
        return haul_text(
            [(0, self.soups)],
            self.soups,
            rule=STILL,
            for_good=self.soups,
            counts=self.counts,
            samples=self.samples,
        )
