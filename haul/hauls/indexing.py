"""Makes the index of a census from the hauls of its pieces."""

from __future__ import annotations

from haul.formats.haul import Haul, Job, Range
from haul.formats.index import Index, compute_digest


class CantIndex(Exception):
    """Raised if a haul can't be in the index. Gives the reason."""


class Indexing:
    """An index in the making: the hauls that have been added."""

    def __init__(self) -> None:
        self.job: Job | None = None
        self.pieces: dict[Range, str] = {}

    def add(self, haul: Haul) -> None:
        """Adds a haul. Raises `CantIndex` if it has another job than the hauls before it, isn't the
        complete haul of one range, or shares a soup with another haul."""
        if self.job is not None and haul.job != self.job:
            raise CantIndex("other job")
        if haul.apgsearch:
            raise CantIndex("a haul of apgsearch, which doesn't name its soups")
        if len(haul.ranges) != 1:
            raise CantIndex(
                "haul without a soup" if not haul.ranges else "haul with several ranges"
            )
        if haul.soups != haul.size():
            raise CantIndex("haul with missing soups")
        self.job = haul.job
        first, count = piece = haul.ranges[0]
        if any(first < sum(other) and other[0] < first + count for other in self.pieces):
            raise CantIndex("haul that shares a soup with another one")
        self.pieces[piece] = compute_digest(haul)

    def result(self) -> Index:
        """Returns the index of the added hauls. At least one must have been added."""
        assert self.job is not None
        return Index(self.job, dict(sorted(self.pieces.items())))
