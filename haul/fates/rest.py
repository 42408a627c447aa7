"""Checks whether a pattern is at rest in a wider sense than in a census. docs/HAUL-DETAILS.md
has the definition."""

from __future__ import annotations

from collections.abc import Iterable
from dataclasses import dataclass, field
from typing import NamedTuple

from haul.fates.meeting import find_meeting
from haul.fates.recurring import Recognition, Recurring, find_recurring
from haul.fates.shuttles import describe_shuttle
from haul.formats.profile import Profile
from haul.life.apgcodes import find_code
from haul.life.field import MOST_CELLS, Field, TooManyCells, find_move, unpack, unpack_all
from haul.life.generations import Recurrence, Rule
from haul.life.groups import Watched, find_period, split_clusters

# The longest period that is recognised while the whole pattern runs, and the longest period of a
# whole pattern, or of a group that is run by itself.
PERIOD, LONG_PERIOD = 64, 1152
# Groups must stay apart for this number of generations, or for the profile's horizon if that is
# larger.
HORIZON = 512


class InPieces(NamedTuple):
    """An object that falls apart: its code, and the name of the shuttle that it is, if any."""

    code: str
    shuttle: str | None = None


@dataclass
class Rest:
    """What was found about a pattern if all its groups recur."""

    # The objects that fall apart.
    apart: list[InPieces] = field(default_factory=list)
    # The periods of other objects that a census doesn't recognise.
    periods: list[int] = field(default_factory=list)
    # The first generation in which two groups meet, counted from the given pattern. It is `None` if
    # no groups meet.
    meeting: int | None = None


def look_for_rest(
    rule: Rule, cells: set[int], profile: Profile, periods: Iterable[int] | None = None
) -> Rest | None:
    """Returns what was found about a pattern, or `None` if one of its groups doesn't recur or there
    are too many cells to tell. `periods` has the periods that the whole pattern may have, if they
    are known."""
    if len(cells) > MOST_CELLS:
        return None
    if not cells:
        return Rest()
    try:
        wanted = range(1, LONG_PERIOD + 1) if periods is None else periods
        cycle = find_cycle(rule, cells, set(wanted))
        if cycle is not None:
            return look_at_cycle(rule, cells, profile, *cycle)
        return look_at_groups(rule, cells, profile, 2 * PERIOD)
    except TooManyCells:
        return None


def look_longer_for_rest(rule: Rule, cells: set[int], profile: Profile) -> Rest | None:
    """Returns the same as `look_for_rest` for a pattern that doesn't recur as a whole. Groups are
    linked for longer, so that the pieces of an object with a long period are found together."""
    try:
        return look_at_groups(rule, cells, profile, PERIOD + LONG_PERIOD)
    except TooManyCells:
        return None


def find_cycle(rule: Rule, cells: set[int], periods: set[int]) -> tuple[int, int] | None:
    """Returns the first of these periods after which the pattern is the same, and its move until
    then, or `None` if there is none."""
    pattern = Field(rule, cells)
    for generation in range(1, max(periods, default=0) + 1):
        pattern.step()
        if generation in periods:
            move = find_move(cells, pattern.live)
            if move is not None:
                return generation, move
    return None


def look_at_cycle(rule: Rule, cells: set[int], profile: Profile, period: int, move: int) -> Rest:
    """Returns what was found about a pattern that is the same, moved by `move`, after `period`
    generations. It doesn't depend on the phase in which the pattern is."""
    recurring: list[Recurring] = []
    for group in Watched(Field(rule, cells), period).groups(move):
        if not group.is_still(0, period):
            phases = group.phases(0, period)
            own, shift = find_period(phases) or (period, move)
            recurring.append(Recurring(phases[:own], shift))
    return describe_all(rule, recurring, profile)


def look_at_groups(rule: Rule, cells: set[int], profile: Profile, last: int) -> Rest | None:
    """Returns what was found about a pattern whose groups are linked for `last` generations."""
    field = Field(rule, cells)
    groups = Watched(field, last).groups()
    recurring: list[Recurring] = []
    for group in groups:
        if not group.is_still(PERIOD, last):
            found = find_recurring(rule, group.phases(PERIOD, last), LONG_PERIOD)
            if found is None:
                return None
            recurring += [found] if found.phases[0] else []
    meeting = find_meeting(field, groups, last, max(HORIZON, profile.horizon))
    return describe_all(rule, recurring, profile, meeting)


def describe_all(
    rule: Rule, recurring: list[Recurring], profile: Profile, meeting: int | None = None
) -> Rest:
    rest = Rest(meeting=meeting)
    for one in recurring:
        if not Recognition(rule, one, profile.period).is_recognised():
            describe(rule, one, rest)
    return rest


def describe(rule: Rule, one: Recurring, rest: Rest) -> None:
    """Adds to `rest` an object that a census doesn't recognise."""
    if one.period() <= PERIOD and all(len(split_clusters(phase)) > 1 for phase in one.phases):
        recurrence = Recurrence(
            one.period(), unpack(one.move), [unpack_all(phase) for phase in one.phases]
        )
        shuttle = None if one.move else describe_shuttle(rule, one.phases)
        rest.apart.append(InPieces(find_code(recurrence), shuttle))
    else:
        rest.periods.append(one.period())
