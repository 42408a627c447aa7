"""Joins hauls that have the same job and disjoint sets of soups. The result is the haul of the
union.

If each haul is correct, the joined haul is correct, too. The sets are disjoint, so each total is
the sum of the hauls' totals. Each of the three lowest samples of a code in the union is also one of
the three lowest in the haul that it comes from.
"""

from __future__ import annotations

from bisect import bisect_right

from haul.formats.haul import MOST_SAMPLES, TOTAL_LIMIT, Haul, Job, Range


class CantJoin(Exception):
    """Raised if hauls can't be joined. Gives the reason."""


class Joining:
    """The hauls that have been added, joined into one.

    If a haul can't be joined, `add` only notes a message, since a later text may not be a haul at
    all, and then that fault is reported instead.
    """

    def __init__(self) -> None:
        self.job: Job | None = None
        # The set of soups: ranges in ascending order that don't touch.
        self.ranges: list[Range] = []
        self.soups = 0
        self.unsettled = 0
        self.for_good = 0
        self.totals: dict[str, int] = {}
        self.samples: dict[str, list[int]] = {}
        # Messages about the first haul that has another job, the first haul that lacks soups, and
        # the first haul that shares a soup with a haul before it.
        self.other_job: str | None = None
        self.missing: str | None = None
        self.overlap: str | None = None

    def add(self, haul: Haul, place: str = "") -> None:
        """Adds a haul. Messages about the haul begin with `place`, which names its file."""
        if self.job is None:
            self.job = haul.job
        elif haul.job != self.job:
            self.other_job = self.other_job or f"{place}other job at line {haul.line}"
        if haul.soups != haul.size():
            self.missing = self.missing or f"{place}haul with missing soups at line {haul.line}"
        if any(not self.put(range_) for range_ in haul.ranges):
            self.overlap = self.overlap or f"{place}ranges overlap at line {haul.line}"
        self.soups += haul.soups
        self.unsettled += haul.unsettled
        self.for_good += haul.for_good
        for code, total in haul.totals.items():
            self.totals[code] = self.totals.get(code, 0) + total
        for code, numbers in haul.samples.items():
            self.samples[code] = sorted(self.samples.get(code, []) + numbers)[:MOST_SAMPLES]

    def put(self, range_: Range) -> bool:
        """Adds a range to the set and returns `True`, or returns `False` if the set already has a
        number of the range."""
        first, end = range_[0], range_[0] + range_[1]
        place = bisect_right(self.ranges, (first, 0))
        # The range before `place` begins before `first`. The ranges from `place` on begin at
        # `first` or later.
        if (
            place > 0
            and sum(self.ranges[place - 1]) > first
            or place < len(self.ranges)
            and self.ranges[place][0] < end
        ):
            return False
        if place < len(self.ranges) and self.ranges[place][0] == end:
            end = sum(self.ranges.pop(place))
        if place > 0 and sum(self.ranges[place - 1]) == first:
            place -= 1
            first = self.ranges.pop(place)[0]
        self.ranges.insert(place, (first, end - first))
        return True

    def result(self) -> Haul:
        """Returns the joined haul. At least one haul must have been added. Raises `CantJoin` if the
        hauls can't be joined."""
        assert self.job is not None
        for fault in (self.other_job, self.missing, self.overlap):
            if fault is not None:
                raise CantJoin(fault)
        if sum(self.totals.values()) >= TOTAL_LIMIT:
            raise CantJoin("totals too large")
        totals = dict(sorted(self.totals.items()))
        return Haul(
            self.job,
            ranges=self.ranges,
            soups=self.soups,
            unsettled=self.unsettled,
            for_good=self.for_good,
            totals=totals,
            samples={code: self.samples[code] for code in totals},
        )
