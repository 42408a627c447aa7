"""The types of entries in the table of commands: commands and their arguments."""

from __future__ import annotations

import argparse
from collections.abc import Callable, Iterator
from dataclasses import dataclass
from typing import Any, NamedTuple

from haul.cli.streams import Streams


@dataclass(frozen=True)
class Argument:
    """An option such as `--top`, or a positional argument such as `file`."""

    name: str
    help: str
    # The placeholder for the value in the help, or `None` if it is the argument's name. A flag has
    # no value.
    value: str | None = None
    # Reads the value. Raises `argparse.ArgumentTypeError` if it is invalid.
    read: Callable[[str], Any] = str
    default: Any = None
    choices: tuple[str, ...] = ()
    is_flag: bool = False
    # The number of values: `?`, `*` or `+` as in a regular expression, or empty for exactly one.
    repeats: str = ""
    # Whether an option may be given several times. Its value is then the list of all values.
    is_list: bool = False
    # The most hauls that a call may have, or `None` if their number isn't limited. `other_hauls` is
    # the number of hauls that other arguments give.
    most_hauls: int | None = None
    other_hauls: int = 0

    def is_option(self) -> bool:
        return self.name.startswith("-")


def option(
    name: str, value: str, help: str, read: Callable[[str], Any], default: Any = None
) -> Argument:
    """Returns an option that takes a value."""
    return Argument(name, help, value, read, default)


def flag(name: str, help: str) -> Argument:
    """Returns an option that takes no value."""
    return Argument(name, help, is_flag=True)


class Exclusive(NamedTuple):
    """Options of which at most one may be given."""

    arguments: tuple[Argument, ...]


@dataclass(frozen=True)
class Command:
    """A command of `haul`."""

    name: str
    # What the command does, and the rest of its help.
    about: str
    more: str
    groups: tuple[Argument | Exclusive, ...]
    run: Callable[[argparse.Namespace, Streams], int]
    # Returns why the arguments don't go together, or `None` if they do.
    find_fault: Callable[[argparse.Namespace], str | None] = lambda _: None

    def arguments(self) -> Iterator[tuple[Argument, tuple[Argument, ...]]]:
        """Yields each argument, with the arguments that can't be given together with it."""
        for group in self.groups:
            if isinstance(group, Argument):
                yield group, ()
            else:
                for one in group.arguments:
                    yield one, tuple(other for other in group.arguments if other is not one)
