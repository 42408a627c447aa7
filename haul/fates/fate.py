"""The fates of soups, and the words for them."""

from __future__ import annotations

from collections import Counter
from dataclasses import dataclass
from enum import Enum

from haul.census.bounded import NO_ANSWER_IN
from haul.fates.growth import GENERATIONS, MOST_CYCLE, Growth
from haul.fates.rest import InPieces, Rest
from haul.fates.sizes import MOST_GENERATIONS, Size
from haul.names.objects import find_own_name
from haul.plurals import write_count

# Linear growth is looked for in this many generations after the limit.
GENERATIONS_OF_SIZES = GENERATIONS + MOST_CYCLE
USUAL_LIMIT, MOST_LIMIT = 30_300, MOST_GENERATIONS - GENERATIONS_OF_SIZES


class Kind(Enum):
    """The kinds of fates, as they are printed."""

    SETTLED = "settled"
    FALLS_APART = "falls apart"
    PERIOD = "period"
    SETTLES = "settles"
    GROWS = "linear growth"
    COLLIDES = "collides soon"
    ACTIVE = "still active"
    UNDECIDED = "not decided"


@dataclass(frozen=True)
class Fate:
    """What becomes of a pattern: the kind of its fate, and an explanation."""

    kind: Kind
    why: str

    def is_late(self) -> bool:
        """Checks whether the fate isn't known because the time was up."""
        return self.kind is Kind.UNDECIDED and self.why.startswith(NO_ANSWER_IN)

    def text(self) -> str:
        """Returns the fate as printed, such as `settled 1818` or
        `collides soon: generation 30512`."""
        between = " " if self.kind in (Kind.SETTLED, Kind.PERIOD, Kind.SETTLES) else ": "
        return f"{self.kind.value}{between}{self.why}"


def tell_settled(checkpoint: int) -> Fate:
    return Fate(Kind.SETTLED, str(checkpoint))


def tell_rest(rest: Rest, limit: int) -> Fate:
    """Returns the fate of a pattern whose groups recur and don't meet."""
    if rest.apart:
        ordered = sorted(
            Counter(rest.apart).items(), key=lambda one: (one[0].code, one[0].shuttle or "")
        )
        objects = [name_object(one, count) for one, count in ordered]
        return Fate(Kind.FALLS_APART, ", ".join([*objects, *map(name_period, list_periods(rest))]))
    if rest.periods:
        return Fate(Kind.PERIOD, ", ".join(map(str, list_periods(rest))))
    return Fate(Kind.SETTLES, f"after {limit}")


def list_periods(rest: Rest) -> list[int]:
    return sorted(set(rest.periods))


def name_period(period: int) -> str:
    return f"{Kind.PERIOD.value} {period}"


def name_object(one: InPieces, count: int) -> str:
    """Returns the code and the name of an object, with the count if there are several."""
    several = f"{count} " if count > 1 else ""
    name = one.shuttle or find_own_name(one.code)
    return f"{several}{one.code}" + (f" ({name})" if name else "")


def tell_growth(growth: Growth, engine: str | None) -> Fate:
    rate = (
        f"+{write_count(growth.cells, 'cell')} in {write_count(growth.generations, 'generation')}"
    )
    return Fate(Kind.GROWS, f"{rate} ({engine})" if engine else rate)


def tell_collision(generation: int) -> Fate:
    return Fate(Kind.COLLIDES, f"generation {generation}")


def tell_activity(size: Size, limit: int, is_growing: bool) -> Fate:
    """Returns the fate of a pattern about which nothing else was found. The explanation suggests a
    limit that may show more, if there is a larger one. A pattern that is growing will hardly
    settle, so none is suggested for it."""
    more = min(max(2 * limit, USUAL_LIMIT), MOST_LIMIT)
    extent = f"{write_count(size.cells, 'cell')}, {size.width:,} by {size.height:,}"
    has_advice = more > limit and not is_growing
    return Fate(Kind.ACTIVE, f"{extent}; try --limit {more}" if has_advice else extent)


def tell_undecided(why: str) -> Fate:
    return Fate(Kind.UNDECIDED, why)


def describe_wrong_line(soup: int) -> str:
    """Returns the message about the report line of a soup that settles, if the line says that it is
    unsettled."""
    return f"soup {soup} isn't unsettled: its line is wrong"
