"""Profiles: the four numbers that define when a census considers a soup settled."""

from __future__ import annotations

from typing import NamedTuple

# The smallest and the largest period, stride and limit, and the largest horizon. The smallest
# horizon is the period of the profile.
PERIOD, STRIDE, LIMIT = (1, 64), (1, 10000), (0, 100000)
MOST_HORIZON = 4096


class Profile(NamedTuple):
    """A profile. Its fields are named after the options of `census`."""

    period: int
    horizon: int
    stride: int
    limit: int

    def is_lawful(self) -> bool:
        """Checks whether `census` accepts each of the numbers."""
        bounds = (PERIOD, (self.period, MOST_HORIZON), STRIDE, LIMIT)
        return all(
            least <= number <= most for number, (least, most) in zip(self, bounds, strict=True)
        )

    def format(self) -> str:
        """Returns the numbers with commas between them, as in report lines."""
        return ",".join(map(str, self))

    def list_options(self) -> list[tuple[str, int]]:
        """Returns the options of `census` for this profile, each with its value."""
        return [(f"--{name}", number) for name, number in self._asdict().items()]

    def list_changed_options(self) -> list[tuple[str, int]]:
        """Returns the options whose values differ from the standard profile, each with its
        value."""
        standard = STANDARD.list_options()
        return [option for option in self.list_options() if option not in standard]


STANDARD = Profile(period=64, horizon=512, stride=101, limit=30300)
