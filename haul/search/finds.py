"""Finds: parts of objects that a search encounters for the first time.

A part is a find if no earlier object of the haul has a part with its code, and if it isn't common.
Under Life, a part is common if at least one in a given number of soups of the reference has it.
docs/PROFILE.md defines the parts of an object. A batch consists of the soups that one call of
`census take` runs, as in search.py.
"""

from __future__ import annotations

from collections import defaultdict, deque
from collections.abc import Iterable
from dataclasses import dataclass, field
from datetime import datetime, timezone

from haul.census.command_lines import format_find_command
from haul.formats.haul import NUMBER_LIMIT, Haul, Job
from haul.formats.profile import STANDARD
from haul.known.lookup import load_known
from haul.known.wanted import Want, is_wanted
from haul.life.generations import read_rule
from haul.life.parts import Separator
from haul.names.labels import describe_kind
from haul.names.objects import find_name, find_own_name
from haul.patterns.codes import Kind, read_kind
from haul.patterns.rules import LIFE
from haul.rarity.reference import SOUPS, find_occurrence, is_covered, load_reference

# The separator remembers the codes of parts. After this many parts, it forgets them to save memory,
# since a search may go on for weeks.
MOST_KNOWN = 20_000


def format_time() -> str:
    """Returns the current time in UTC."""
    return datetime.now(timezone.utc).strftime("%Y-%m-%dT%H:%M:%SZ")


@dataclass(frozen=True)
class Find:
    """A find: the code of a part, and the number of the first soup that left the part."""

    code: str
    soup: int

    def fields(self, job: Job) -> list[str]:
        """Returns the fields of the line about a find: the time, the code, the name or what the
        code says, the soup, a command that shows the soup, and the rarity of the part in the reference or `-`.
        FILE.finds keeps these, so they have nothing that the user has added."""
        return [
            format_time(),
            self.code,
            find_own_name(self.code) or describe_kind(self.code) or "-",
            str(self.soup),
            format_find_command(job, self.soup),
            find_occurrence(self.code).describe() if is_covered(job) else "-",
        ]


def show_fields(rule: str, fields: list[str]) -> list[str]:
    """Returns the fields of a find as they are printed: with a name that the user has added, and, if
    there are lists of known codes, with a last field that says whether they have the part."""
    code, known = fields[1], load_known(rule)
    if "_" not in code:
        # The line is about a late or an unsettled soup.
        return fields if known is None else [*fields, "-"]
    added = None if find_own_name(code) else find_name(code, rule)
    shown = [*fields[:2], added or fields[2], *fields[3:]]
    return shown if known is None else [*shown, known.describe(code)]


@dataclass
class NewCodes:
    """The codes that were new in a batch, until the finds among their parts are known."""

    # The first soup of the batch.
    first: int
    # The codes that haven't been separated yet, each with the lowest soup that left it.
    codes: deque[tuple[str, int]]
    # The parts of the separated codes, each with its lowest soup.
    parts: dict[str, int] = field(default_factory=dict)

    def add(self, part: str, soup: int) -> None:
        self.parts[part] = min(soup, self.parts.get(part, soup))


class Unread:
    """Objects of the file whose parts aren't known yet, by kind."""

    def __init__(self, codes: Iterable[str]) -> None:
        self.codes: defaultdict[Kind | None, set[str]] = defaultdict(set)
        self.add(codes)

    def add(self, codes: Iterable[str]) -> None:
        for code in codes:
            self.codes[read_kind(code)].add(code)

    def __contains__(self, code: str) -> bool:
        kind = read_kind(code)
        return kind in self.codes and code in self.codes[kind]

    def holders(self, parts: Iterable[str]) -> list[set[str]]:
        """Returns the objects that can have one of these parts and at least one other part: a set
        for each kind that has such objects."""
        kinds = {kind for part in parts if (kind := read_kind(part)) is not None}
        return [
            codes
            for whole, codes in self.codes.items()
            if codes and whole is not None and any(can_hold(whole, kind) for kind in kinds)
        ]

    def holding(self, parts: Iterable[str]) -> int:
        """Returns the number of objects that can have one of these parts and at least one other
        part."""
        return sum(map(len, self.holders(parts)))


def can_hold(whole: Kind, part: Kind) -> bool:
    """Checks whether an object of the kind `whole` can have a part of the kind `part` and at least
    one other part. The period of a part divides the period of the object, a part moves if and only
    if the object does, and a part of a still life has fewer cells than the still life."""
    if whole.letter == "s":
        return part.letter == "s" and part.number < whole.number
    return (part.letter == "q") == (whole.letter == "q") and whole.number % part.period() == 0


def list_common_parts(rarer: int) -> frozenset[str]:
    """Returns the parts that at least one in `rarer` soups of the reference has."""
    return frozenset(
        code for code, entry in load_reference().items() if entry.soups * rarer >= SOUPS
    )


class Finder:
    """Looks for finds in short steps, so that the search can do other things in between.

    An object that was in the file at the start is separated only if a part of a new object looks
    new, and the object in the file might have this part, too. Most parts are themselves objects of
    the file, so they aren't new, and no object of the file has to be separated for them.
    """

    def __init__(
        self,
        job: Job,
        haul: Haul,
        rarer: int,
        first: int = NUMBER_LIMIT,
        wants: list[Want] | None = None,
    ) -> None:
        """Under Life, a part is common if at least one in `rarer` soups of the reference has it. If
        `wants` is given, a part is common if it isn't wanted. An object of the haul hasn't been
        examined yet if the lowest soup that left it is `first` or higher."""
        self.rule, self.wants = job.rule, wants or []
        new = [(code, soups[0]) for code, soups in haul.samples.items() if soups[0] >= first]
        self.separator = Separator(read_rule(job.rule))
        self.common = list_common_parts(rarer) if job.rule == LIFE else frozenset()
        # Except under Life with the standard profile, the finds of the first batch aren't reported,
        # since almost every part in that batch would be a find.
        self.is_silent = (job.rule != LIFE or job.profile != STANDARD) and haul.soups == 0
        # Objects that aren't new, and whose parts aren't known yet.
        self.unread = Unread(haul.totals.keys() - {code for code, _ in new})
        self.known: set[str] = set()
        # One item for each batch with new codes, the oldest first.
        self.queue: deque[NewCodes] = deque()
        self.add_new(new, first)

    def add(self, codes: Iterable[tuple[str, int]], first: int = 0) -> None:
        """Adds the new codes of the next batch, each with its lowest soup. The codes must be in the
        file already. `first` is the first soup of the batch."""
        if self.is_silent:
            self.unread.add(code for code, _ in codes)
            self.is_silent = False
        else:
            self.add_new(list(codes), first)

    def add_new(self, codes: list[tuple[str, int]], first: int) -> None:
        if codes:
            self.queue.append(NewCodes(first, deque(codes)))

    def left(self) -> int:
        """Returns the number of objects that remain to be separated, as far as is known."""
        codes = sum(len(new.codes) for new in self.queue)
        first = self.queue[0].parts if self.queue and not self.queue[0].codes else {}
        return codes + self.unread.holding(filter(self.is_new, first))

    def is_done(self) -> bool:
        return not self.queue

    def step(self) -> list[Find]:
        """Separates at most two objects. Returns the finds of a batch if nothing more has to be
        separated for the batch, otherwise an empty list. The queue mustn't be empty."""
        first = self.queue[0]
        if first.codes:
            code, soup = first.codes.popleft()
            for part in self.parts_of(code):
                first.add(part, soup)
        if first.codes:
            return []
        new = {part: soup for part, soup in first.parts.items() if self.is_new(part)}
        for codes in self.unread.holders(new):
            # The parts that look new may be in one of these objects.
            self.known.update(self.parts_of(codes.pop()))
            return []
        self.known.update(first.parts)
        self.queue.popleft()
        return sorted(
            (Find(part, soup) for part, soup in new.items()),
            key=lambda find: (find.soup, find.code),
        )

    def is_new(self, part: str) -> bool:
        """Checks whether a part is neither common, nor known, nor itself an unread object. An
        unread object with the part's code has this part, since a part can't be separated further.
        In that case, the part isn't new."""
        return not self.is_common(part) and part not in self.known and part not in self.unread

    def is_common(self, part: str) -> bool:
        if self.wants:
            return not is_wanted(self.wants, part, self.rule)
        return part in self.common

    def parts_of(self, code: str) -> tuple[str, ...]:
        if self.separator.count_known() > MOST_KNOWN:
            self.separator.forget()
        return self.separator.separate(code).parts
