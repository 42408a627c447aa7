"""The texts that the program reads and writes, as described in docs/FORMATS.md and
docs/COMMANDS.md: profiles, hauls and report lines.

It is deliberately independent of `haul/`, which reads the same texts.
"""

from __future__ import annotations

from collections.abc import Mapping, Sequence

from checks.lib.plain import Profile

# The first number and the size of a range.
Range = tuple[int, int]

STANDARD = Profile(64, 512, 101, 30300)
# A single checkpoint, at generation 0. Under Life no soup is at rest there.
ONE_CHECKPOINT = Profile(1, 1, 1, 0)
# Two checkpoints.
TWO_CHECKPOINTS = Profile(1, 1, 1, 1)
LIFE = "b3s23"
# A rule under which all cells die, and a rule under which nothing changes.
DEADLY, STILL = "bs", "bs012345678"

# The most samples of a code.
MOST_SAMPLES = 3


def profile_words(profile: Profile) -> list[str]:
    """Returns the options of a profile, each with its value in the same argument."""
    return [f"--{name}={number}" for name, number in profile._asdict().items()]


def profile_pairs(profile: Profile) -> list[str]:
    """Returns the options of a profile, each followed by its value as a separate argument."""
    return [
        word for name, number in profile._asdict().items() for word in (f"--{name}", str(number))
    ]


# Under Life with this profile, no soup settles.
NEVER = profile_words(ONE_CHECKPOINT)
# Under this rule and profile every soup is dead at the second checkpoint.
DEAD = [*profile_words(TWO_CHECKPOINTS), f"--rule={DEADLY}"]
# Under this rule and profile every soup is at rest at generation 0, since nothing changes.
ALL_LIVE = [*profile_words(ONE_CHECKPOINT), f"--rule={STILL}"]


def haul_text(
    ranges: Sequence[Range],
    soups: int,
    *,
    seed: str = "",
    rule: str = LIFE,
    profile: Profile = ONE_CHECKPOINT,
    unsettled: int = 0,
    for_good: int = 0,
    counts: Mapping[str, int] | None = None,
    samples: Mapping[str, Sequence[int]] | None = None,
) -> bytes:
    """Returns the text of a haul. Only the first three samples of a code are written."""
    counts, samples = counts or {}, samples or {}
    return "".join(
        f"{line}\n"
        for line in [
            "@VERSION 2",
            f"@ROOT seed={seed}",
            f"@RULE {rule}",
            "@SYMMETRY C1",
            f"@PROFILE {' '.join(map(str, profile))}",
            *(f"@RANGE {first} {count}" for first, count in ranges),
            f"@NUM_SOUPS {soups}",
            f"@NUM_UNSETTLED {unsettled}",
            f"@NUM_FOR_GOOD {for_good}",
            f"@NUM_OBJECTS {sum(counts.values())}",
            "",
            "@CENSUS TABLE",
            *(f"{code} {counts[code]}" for code in sorted(counts)),
            "",
            "@SAMPLE_SOUPIDS",
            *(
                f"{code} {' '.join(map(str, samples[code][:MOST_SAMPLES]))}"
                for code in sorted(samples)
            ),
        ]
    ).encode()


def report_line(
    number: int,
    worker: int = 1,
    *,
    seed: str = "",
    rule: str = LIFE,
    profile: Profile = ONE_CHECKPOINT,
    version: int = 2,
    found: Sequence[bytes] = (b"unsettled",),
) -> bytes:
    """Returns the report line of a soup, with its line feed. `found` has the fields after the
    soup's number.
    """
    return b"report %d rule=%s profile=%d,%d,%d,%d seed=%s worker=%d soup=%d %s\n" % (
        version,
        rule.encode(),
        *profile,
        seed.encode(),
        worker,
        number,
        b" ".join(found),
    )
