"""The top of a page: what the page shows (a sentence and tiles about a single haul, or a table of
several hauls) and how to verify it. Also the foot: what made the page."""

from __future__ import annotations

from html import escape
from string import Template

from haul import VERSION
from haul.census.command_lines import format_unsettled_command
from haul.formats.haul import SYMMETRY, Haul, Job
from haul.formats.profile import Profile
from haul.page.sides import Side, Sides
from haul.patterns.rules import LIFE, format_rule
from haul.plurals import pluralize, write_count

# The most ranges that are listed. If there are more, the number of further ranges follows.
MOST_RANGES = 12
NO_NUMBER = "–"
COUNTED = "the formally verified program <code>census</code> counted the objects that they left"

# The explanations in the heads of the table of compared hauls. A head is about all hauls, so its
# explanation can't depend on the profile of a haul.
MEANINGS = {
    "of these strict": "not made of smaller objects",
    "settled for good": "proved to be at rest forever",
}

NOTES = """\
<p>An object is <em>strict</em> if it doesn't consist of smaller objects that would do the same each by itself, as the two blocks of a
bi-block would. If parts are counted, a bi-block is two blocks. The parts are found by a definition of this project, not by apgsearch's code.
Names are those of LifeWiki. A haul doesn't record how many soups contain an object, so only an upper bound is shown: “≤ 1 in 50 soups” means
that at most one soup in 50 has one. The reference, a census of 100,000,000 soups of Life that comes with <code>haul</code>, does record how many
soups contain each part: “one in 50” means one soup in 50, and the range after “95 %” is the confidence interval.</p>
"""
ABOUT = """\
<p>Made by <code>haul page</code> of Gokzerd $version from $hauls. A <em>haul</em> is the text that <code>census take</code> prints: how many of
each object a set of soups left, with up to three sample soups for each. Gokzerd has two programs. <code>census</code> runs the soups and
counts; it is formally verified, so its counts are proved to match a written definition. <code>haul</code> and this page are tested, but not
proved.$apgsearch The commands on this page need both programs on the <code>PATH</code>, on Linux.</p>
"""
APGSEARCH = " The counts of a haul of apgsearch are apgsearch's."


def write_title(sides: Sides) -> str:
    first, *others = (side.haul for side in sides.all)
    if not others:
        where = (
            "in Conway's Game of Life"
            if first.job.rule == LIFE
            else f"under {format_rule(first.job.rule)}"
        )
        return f"A census of {write_count(first.soups, 'soup')} {where}"
    rules = list(dict.fromkeys(format_rule(side.haul.job.rule) for side in sides.all))
    if len(rules) == 1:
        return f"{len(sides.all)} censuses under {rules[0]}, compared"
    *before, last = rules
    return f"Censuses under {', '.join(before)} and {last}, compared"


def write_top(sides: Sides) -> str:
    """Returns the top without the title."""
    is_compared = len(sides.all) > 1
    about = (
        write_comparison(sides)
        if is_compared
        else f"<p>{write_sentence(sides.all[0].haul)}</p>\n{write_tiles(sides.all[0])}\n"
    )
    more = [
        write_verification(sides),
        *(write_unsettled(side, is_compared) for side in sides.all),
        write_definitions(sides),
    ]
    return "".join([about, '<div class="more">', *more, "</div>\n"])


def write_foot(sides: Sides) -> str:
    """Returns the foot: what made the page, what a haul is, and what the commands need."""
    count = len(sides.all)
    return Template(ABOUT).substitute(
        version=VERSION,
        hauls="a haul" if count == 1 else write_count(count, "haul"),
        apgsearch=APGSEARCH if any(side.haul.apgsearch for side in sides.all) else "",
    )


def fold(summary: str, words: str) -> str:
    return f"<details><summary>{summary}</summary>\n{words}</details>\n"


def write_comparison(sides: Sides) -> str:
    """Returns the facts about hauls that are compared, as a table with a row for each haul."""
    first = sides.all[0]
    heads = [
        "Haul",
        *(f"{name}{explain(name)}" for name, _, _ in list_tiles(first)),
        "seed",
        "numbers",
    ]
    rows = [
        [
            write_rule(side),
            *(value for _, value, _ in list_tiles(side)),
            write_seed(side.haul.job),
            "not given" if side.haul.apgsearch else describe_ranges(side.haul),
        ]
        for side in sides.all
    ]
    body = "".join(
        f'<tr><th scope="row">{head}</th>{"".join(f"<td>{cell}</td>" for cell in cells)}</tr>\n'
        for head, *cells in rows
    )
    head = "".join(f'<th scope="col">{name}</th>' for name in heads)
    return (
        "<p>Random soups of 16 by 16 cells ran under each rule until they had settled, and "
        f'{describe_counting(sides)}.</p>\n<div class="scroll" tabindex="0" role="region" aria-label="The hauls">'
        f'<table class="hauls"><thead><tr>{head}</tr></thead><tbody>\n{body}</tbody></table></div>\n'
    )


def describe_counting(sides: Sides) -> str:
    """Returns the end of a sentence. It says which program counted the objects of each haul."""
    others = [side for side in sides.all if side.haul.apgsearch]
    words = [] if len(others) == len(sides.all) else [COUNTED]
    words += [f"{describe_apgsearch(side.haul)} ({side.letter})" for side in others]
    return ", and ".join(words)


def explain(name: str) -> str:
    """Returns an explanation of a fact, or an empty text if the fact needs none."""
    return f"<small>{MEANINGS[name]}</small>" if name in MEANINGS else ""


def write_rule(side: Side) -> str:
    letter = f'<span class="letter" data-haul="{side.letter}">{side.letter}</span>'
    return f"{letter} {format_rule(side.haul.job.rule)}"


def write_seed(job: Job) -> str:
    return f'<code class="seed">{escape(job.seed)}</code>' if job.seed else "empty"


def write_sentence(haul: Haul) -> str:
    seed = f"the seed {write_seed(haul.job)}" if haul.job.seed else "the empty seed"
    numbers = f"of {seed}" if haul.apgsearch else f"(numbers {describe_ranges(haul)} of {seed})"
    counted = describe_apgsearch(haul) if haul.apgsearch else COUNTED
    return (
        f"Random soups of 16 by 16 cells {numbers} ran under the rule <code>{haul.job.rule}</code> "
        f"({format_rule(haul.job.rule)}) until they had settled, and {counted}."
    )


def describe_apgsearch(haul: Haul) -> str:
    """Returns the end of a sentence. It says which version of apgsearch counted the objects of a
    haul."""
    symmetry = (
        "" if haul.job.symmetry == SYMMETRY else f" with the symmetry {escape(haul.job.symmetry)}"
    )
    return f"apgsearch {escape(haul.apgsearch or '')} counted the objects that they left{symmetry}"


def describe_ranges(haul: Haul) -> str:
    said = [
        f"{first} to {first + count - 1}" if count > 1 else f"{first}"
        for first, count in haul.ranges
    ]
    if len(said) > MOST_RANGES:
        said[MOST_RANGES:] = [write_count(len(said) - MOST_RANGES, "more range")]
    return escape(", ".join(said) or "none")


def write_tiles(side: Side) -> str:
    """Returns the facts about a haul as tiles."""
    words = [
        (f"{name}<small>{meaning}</small>" if meaning else name, value)
        for name, value, meaning in list_tiles(side)
    ]
    return (
        '<dl class="tiles">'
        + "".join(f"<div><dt>{name}</dt><dd>{value}</dd></div>" for name, value in words)
        + "</dl>"
    )


def list_tiles(side: Side) -> list[tuple[str, str, str]]:
    """Returns the facts about a haul. Each fact has a name, a value, and an explanation that may be
    empty. All objects of the haul count, whether they are on the page or not."""
    haul = side.haul
    strict = sum(side.separate(code).is_strict() for code in haul.totals)
    return [
        (
            "soups",
            f"{haul.soups:,} <small>of {haul.size():,}</small>"
            if has_missing_soups(haul)
            else f"{haul.soups:,}",
            "",
        ),
        ("objects", f"{haul.objects():,}", ""),
        ("objects per soup", f"{haul.objects() / haul.soups:.2f}" if haul.soups else NO_NUMBER, ""),
        ("distinct objects", f"{len(haul.totals):,}", ""),
        ("of these strict", f"{strict:,}", "not made of smaller objects"),
        *list_end_tiles(haul),
    ]


def list_end_tiles(haul: Haul) -> list[tuple[str, str, str]]:
    """Returns the facts about how the soups ended. A haul of apgsearch doesn't have these facts, so
    their values are dashes."""
    profile, others = haul.job.profile, haul.soups - haul.unsettled - haul.for_good
    if haul.apgsearch:
        return [
            (name, NO_NUMBER, "a haul of apgsearch doesn't say it")
            for name in ("unsettled soups", "settled for good")
        ]
    return [
        ("unsettled soups", f"{haul.unsettled:,}", f"not at rest by generation {profile.limit:,}"),
        (
            "settled for good",
            f"{haul.for_good:,}",
            f"proved to be at rest forever; the other {others:,} for at least "
            f"{write_count(profile.horizon, 'generation')}",
        ),
    ]


def has_missing_soups(haul: Haul) -> bool:
    """Checks whether a haul lacks soups of its set. Returns `False` for a haul of apgsearch, which
    doesn't name its set."""
    return not haul.apgsearch and haul.soups < haul.size()


def write_unsettled(side: Side, is_compared: bool) -> str:
    """Returns the command that lists the unsettled soups of a haul, with a sentence about it, or
    an empty text if no soup is unsettled."""
    haul = side.haul
    if not haul.unsettled:
        return ""
    soups = pluralize(haul.unsettled, "a soup that has", "soups that have")
    them = pluralize(haul.unsettled, "it", "them")
    words = (
        f"<p>What is in {soups} not settled isn't counted. This command runs the census again, and "
        f"lists {them}:</p>\n<pre><code>{escape(format_unsettled_command(haul))}</code></pre>\n"
    )
    letter = f"{side.letter}: " if is_compared else ""
    return fold(letter + write_count(haul.unsettled, "unsettled soup"), words)


def write_verification(sides: Sides) -> str:
    """Returns the instructions for verifying the hauls. A haul with missing soups doesn't say which
    soups are missing, so its census can't be run again."""
    hauls = [side.haul for side in sides.all]
    name, these = (
        ("all.haul", "the haul of this page")
        if len(hauls) == 1
        else ("a.haul", "a haul of this page")
    )
    samples = f"<code>haul check --samples {name}</code>"
    text = (
        f"<p>If {these} is in the file <code>{name}</code>, <code>haul check {name}</code> runs the "
        f"whole census again and compares, and {samples} runs only the sample soups."
    )
    totals = f"<code>haul check --totals {name}</code>"
    by_apgsearch = [side.letter for side in sides.all if side.haul.apgsearch]
    if len(by_apgsearch) == len(hauls):
        text = (
            f"<p>If {these} is in the file <code>{name}</code>, {samples} runs its sample soups, and "
            f"{totals} takes a census of as many soups."
        )
    elif by_apgsearch:
        text += (
            f" For {name_hauls(by_apgsearch, sides)}, which apgsearch made, {totals} takes a census "
            "of as many soups instead."
        )
    missing = [side.letter for side in sides.all if has_missing_soups(side.haul)]
    if missing:
        text += (
            f" Soups are missing from {name_hauls(missing, sides)}, so only {samples} works there."
        )
    others = [side.letter for side in sides.all if side.haul.job.symmetry != SYMMETRY]
    if others:
        text += (
            f" But none of this works for {name_hauls(others, sides)}, since <code>census</code> "
            f"runs the symmetry {SYMMETRY} only."
        )
    return fold("How to verify it", text + "</p>\n")


def name_hauls(letters: list[str], sides: Sides) -> str:
    """Returns how a text refers to the hauls with these letters, such as `the hauls A, C`."""
    if len(sides.all) == 1:
        return "this haul"
    return f"the haul {letters[0]}" if len(letters) == 1 else f"the hauls {', '.join(letters)}"


def write_definitions(sides: Sides) -> str:
    """Returns the definitions by which objects were counted."""
    profiles: dict[Profile, list[str]] = {}
    for side in sides.all:
        if not side.haul.apgsearch:
            profiles.setdefault(side.haul.job.profile, []).append(side.letter)
    words = ""
    for profile, letters in profiles.items():
        which = f"{', '.join(letters)}: " if len(profiles) > 1 else ""
        words += f"<p>{which}{describe_profile(profile)}</p>\n"
    return fold("How objects are counted", words + NOTES)


def describe_profile(profile: Profile) -> str:
    period, horizon, stride, limit = profile
    each = f"{stride:,} generations" if stride > 1 else "generation"
    checkpoints = (
        f"one every {each}, up to generation {limit:,}"
        if limit >= stride
        else "the only one, at generation 0"
    )
    return (
        f"A soup has settled at the first checkpoint ({checkpoints}) at which each of its objects "
        f"recurs within {write_count(period, 'generation')}, and for "
        f"{write_count(horizon, 'generation')} no object meets another. It is settled for good if "
        "it has no spaceship and all its objects recur together within that time."
    )
