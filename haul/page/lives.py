"""The section *Long lives* of a page: the late and the unsettled soups that a search has kept."""

from __future__ import annotations

from collections import Counter
from collections.abc import Iterator
from dataclasses import dataclass, field
from html import escape

from haul.census.client import Census
from haul.census.soup_runs import draw_soup, find_exact_generation
from haul.fates.explain import Fates
from haul.fates.fate import Fate, Kind
from haul.fates.rows import FateRow, count_fates, find_kept_fate
from haul.formats.haul import Haul, Job
from haul.formats.late_file import ONLY_UNSETTLED, Late, LateLine
from haul.formats.report_lines import read_report_line
from haul.life.drawing import draw_path
from haul.life.soups import SOUP_SIDE, make_soup
from haul.plurals import pluralize, write_count
from haul.rarity.occurrence import Occurrence
from haul.views.rarity import list_rarity_words

# At most this many of the longest-lived soups are listed, and at most this many unsettled soups.
MOST_SHOWN = 20
# The chart of lifespans has at most one bar more than `BARS`. `WIDTH` and `HEIGHT` are its size.
BARS, WIDTH, HEIGHT = 24, 640, 100
TIDY_STEPS = (100, 200, 500, 1000, 2000, 5000, 10_000)
KINDS = {
    Kind.FALLS_APART: "An object falls apart",
    Kind.PERIOD: "The period is too long",
    Kind.SETTLES: "Settles after the limit",
    Kind.GROWS: "Linear growth",
    Kind.COLLIDES: "Objects collide soon",
    Kind.ACTIVE: "Still active",
    Kind.UNDECIDED: "Not decided",
    Kind.SETTLED: "Settled after all",
}


@dataclass
class LongLife:
    """A soup that settled late."""

    soup: int
    checkpoint: int
    objects: int
    # The exact generation in which the soup settled, and the number of live cells then. `None` and
    # 0 if the soup doesn't settle, which means that its line in FILE.late is wrong.
    generation: int | None = None
    cells: int = 0


@dataclass
class Lives:
    """The contents of the section *Long lives*."""

    job: Job
    late: Late
    longest: list[LongLife] = field(default_factory=list)
    unsettled: list[tuple[int, Fate]] = field(default_factory=list)
    # The unsettled soups by their fates, and the number of soups of the haul.
    rows: list[FateRow] = field(default_factory=list)
    census_soups: int = 0

    def soups(self) -> list[int]:
        """Returns the soups that can be played, in the order in which they are listed."""
        ordered = [soup for _, soups in self.by_kind() for soup, _ in soups]
        return [*(life.soup for life in self.longest), *ordered]

    def by_kind(self) -> list[tuple[Kind, list[tuple[int, Fate]]]]:
        """Returns the unsettled soups, grouped by the kinds of their fates."""
        groups = [
            (kind, [(soup, fate) for soup, fate in self.unsettled if fate.kind is kind])
            for kind in KINDS
        ]
        return [(kind, soups) for kind, soups in groups if soups]

    def checkpoints(self) -> list[int]:
        return [line.settled for line in self.late.lines if line.settled is not None]

    def count_unsettled(self) -> int:
        return len(self.late.lines) - len(self.checkpoints())


def find_lives(census: Census, haul: Haul, late: Late) -> tuple[Lives, list[str]]:
    """Returns the contents of the section for the late soups of a haul, and messages about wrong
    lines of `late`."""
    lives = Lives(haul.job, late)
    settled = sorted(
        (line for line in late.lines if line.settled is not None),
        key=lambda line: (-(line.settled or 0), line.soup),
    )
    lives.longest = [read_life(line) for line in settled[:MOST_SHOWN]]
    unsettled = [line.soup for line in late.lines if line.settled is None][:MOST_SHOWN]
    fates = Fates(census, haul.job)
    wrong = list(find_exact_ends(fates, lives.longest))
    lives.longest.sort(key=lambda life: (-(life.generation or life.checkpoint), life.soup))
    kept = {line.soup: find_kept_fate(line) for line in late.lines}
    missing = [soup for soup in unsettled if kept[soup] is None]
    found = dict(zip(missing, fates.find_all(missing), strict=True))
    lives.unsettled = [(soup, kept[soup] or found[soup]) for soup in unsettled]
    known = (kept[line.soup] or found.get(line.soup) for line in late.lines)
    lives.rows = count_fates(known, haul.unsettled)
    lives.census_soups = haul.soups
    wrong += [
        f"soup {soup} isn't unsettled: its line is wrong"
        for soup, fate in lives.unsettled
        if fate.kind is Kind.SETTLED
    ]
    return lives, wrong


def read_life(line: LateLine) -> LongLife:
    report = read_report_line(line.text)
    return LongLife(line.soup, line.settled or 0, report.objects())


def find_exact_ends(fates: Fates, lives: list[LongLife]) -> Iterator[str]:
    """Sets the exact generation in which each soup settled, and its number of live cells then.
    Yields a message for each soup whose line in FILE.late is wrong."""
    census, job = fates.census, fates.job

    def find_end(soups: list[int]) -> tuple[int, int] | None:
        generation = find_exact_generation(census, job, soups)
        if generation is None:
            return None
        return generation, fates.count_cells(draw_soup(job, *soups), generation)

    found = census.ask_in_parts(find_end, [life.soup for life in lives], 1, "soups run")
    for life, end in zip(lives, found, strict=True):
        if end is not None:
            life.generation, life.cells = end
        before = life.checkpoint - job.profile.stride
        if life.generation is None or not before < life.generation <= life.checkpoint:
            yield f"soup {life.soup} doesn't settle at {life.checkpoint}: its line is wrong"


# ---- Data for the script


def describe_lives(lives: Lives) -> list[dict[str, object]]:
    """Returns the data about each soup that can be played."""
    known: dict[int, dict[str, object]] = {}
    for life in lives.longest:
        known[life.soup] = {"words": describe_life(life), "end": list_end(life)}
    for soup, fate in lives.unsettled:
        known[soup] = {"words": f"unsettled; {fate.text()}", "end": [0]}
    return [{"soup": soup, **known[soup]} for soup in lives.soups()]


def list_end(life: LongLife) -> list[int]:
    """Returns the generation in which a soup settled, where the player stops, and its number of
    live cells then, as both the fewest and the most. Returns a single zero if the soup doesn't
    settle."""
    return [0] if life.generation is None else [life.generation, life.cells, life.cells]


def describe_life(life: LongLife) -> str:
    exact = f"generation {life.generation:,}" if life.generation is not None else "not settled"
    objects = write_count(life.objects, "object")
    return f"settled in {exact} (checkpoint {life.checkpoint:,}), {objects}"


# ---- The HTML of the section


def write_lives(lives: Lives) -> Iterator[str]:
    """Yields the section, piece by piece."""
    yield '<section id="lives" aria-labelledby="lives-title"><h2 id="lives-title">Long lives</h2>\n'
    yield f"<p>{write_summary(lives)}</p>\n"
    if lives.rows:
        yield from write_fate_rows(lives)
    if lives.checkpoints():
        yield from write_chart(lives.checkpoints())
    if lives.longest:
        title = write_count(len(lives.longest), "longest-lived soup")
        yield from write_list(
            f"The {title}", lives.job, [(life.soup, caption(life)) for life in lives.longest]
        )
    for kind, soups in lives.by_kind():
        yield from write_list(
            f"{KINDS[kind]}: {write_count(len(soups), 'unsettled soup')}",
            lives.job,
            [(soup, escape(fate.text())) for soup, fate in soups],
        )
    yield "</section>\n"


def write_summary(lives: Lives) -> str:
    """Returns a text that says how many soups are late, and how many are unsettled."""
    late, limit = lives.late, lives.job.profile.limit
    from_then = (
        f"{write_count(len(lives.checkpoints()), 'soup')} from number {late.since:,} on settled in "
        f"generation {late.generation:,} or later, and "
        if late.generation < ONLY_UNSETTLED
        else f"From number {late.since:,} on, "
    )
    text = f"{from_then}{write_count(lives.count_unsettled(), 'soup')} had not settled by generation {limit:,}."
    if lives.count_unsettled() > len(lives.unsettled):
        text += f" The first {len(lives.unsettled)} of these are shown."
    if late.left_out:
        were = pluralize(late.left_out, "was", "were")
        text += f" {write_count(late.left_out, 'further soup')} of both kinds {were} left out."
    return text + " What unsettled soups leave isn’t counted among the objects below."


def write_fate_rows(lives: Lives) -> Iterator[str]:
    """Yields a table of the unsettled soups by their fates."""
    yield (
        '<table class="fates"><caption>What became of the unsettled soups</caption><thead><tr>'
        '<th scope="col">Soups</th><th scope="col">One soup in</th><th scope="col">Fate</th></tr>'
        "</thead><tbody>\n"
    )
    for row in lives.rows:
        occurrence = Occurrence(row.soups, lives.census_soups)
        often, low, high = list_rarity_words(occurrence)
        yield (
            f"<tr><td>{row.soups:,}</td><td>{often}<small>95 %: {low} to {high}</small></td>"
            f'<th scope="row">{escape(row.name)}</th></tr>\n'
        )
    yield "</tbody></table>\n"


def caption(life: LongLife) -> str:
    exact = f"{life.generation:,}" if life.generation is not None else "–"
    return f"generation {exact}, {write_count(life.objects, 'object')}"


def write_list(title: str, job: Job, soups: list[tuple[int, str]]) -> Iterator[str]:
    """Yields a list of soups. The link of each soup plays it."""
    yield f'<details open><summary>{title}</summary><ul class="soups">'
    for soup, words in soups:
        address = f"#life={soup}"
        yield (
            f'<li><a class="soup" href="{address}" aria-label="Play soup {soup}">'
            f'{draw_small(f"{job.seed}{soup}")}</a><span><a href="{address}">Soup {soup}</a>'
            f"<small>{words}</small></span></li>\n"
        )
    yield "</ul></details>\n"


def draw_small(text: str) -> str:
    side = SOUP_SIDE + 2
    path = draw_path(make_soup(text))
    return (
        f'<svg class="cells-4" width="72" height="72" viewBox="-1 -1 {side} {side}" '
        f'aria-hidden="true"><path d="{path}"/></svg>'
    )


def write_chart(checkpoints: list[int]) -> Iterator[str]:
    """Yields a chart of the checkpoints at which late soups settled, as bars and as a table."""
    step = choose_step(checkpoints)
    bars = count_bars(checkpoints, step)
    first, last, most = bars[0][0], bars[-1][0] + step, max(count for _, count in bars)
    width = WIDTH / len(bars)
    shapes = "".join(
        f'<rect x="{place * width:.1f}" y="{HEIGHT - height:.1f}" width="{max(1, width - 2):.1f}" '
        f'height="{height:.1f}"><title>{describe_bar(start, step, count)}</title></rect>'
        for place, (start, count) in enumerate(bars)
        if (height := HEIGHT * count / most)
    )
    said = f"When late soups settled: from generation {min(checkpoints):,} to {max(checkpoints):,}"
    yield (
        '<figure class="lifespans"><figcaption>When the late soups settled, by the checkpoint'
        f"</figcaption><p>The highest bar is {write_count(most, 'soup')} in {step:,} generations.</p>"
        f'<svg viewBox="0 0 {WIDTH} {HEIGHT}" preserveAspectRatio="none" role="img" '
        f'aria-label="{said}">{shapes}</svg>'
        f'<div class="ends" aria-hidden="true"><span>generation {first:,}</span>'
        f"<span>{last:,}</span></div>\n"
    )
    rows = "".join(
        f'<tr><th scope="row">{start:,} to {start + step - 1:,}</th><td>{count:,}</td></tr>'
        for start, count in bars
    )
    yield (
        '<details><summary>The same as a table</summary><table class="lifespans"><thead><tr>'
        '<th scope="col">Generations</th><th scope="col">Soups</th></tr></thead>'
        f"<tbody>{rows}</tbody></table></details></figure>\n"
    )


def describe_bar(start: int, step: int, count: int) -> str:
    return f"generations {start:,} to {start + step - 1:,}: {write_count(count, 'soup')}"


def choose_step(checkpoints: list[int]) -> int:
    """Returns the number of generations that a bar covers."""
    extent = max(checkpoints) - min(checkpoints) + 1
    return next((step for step in TIDY_STEPS if step * BARS >= extent), TIDY_STEPS[-1])


def count_bars(checkpoints: list[int], step: int) -> list[tuple[int, int]]:
    """Returns the first generation and the number of soups of each bar."""
    counts = Counter(checkpoint // step for checkpoint in checkpoints)
    return [(bar * step, counts[bar]) for bar in range(min(counts), max(counts) + 1)]
