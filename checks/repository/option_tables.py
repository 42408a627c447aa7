"""The commands and options of `census` and `haul`, read from the tables in their code."""

from __future__ import annotations

import re
from collections.abc import Iterator
from dataclasses import dataclass, field

from checks.lib.program import TOP
from haul.cli.arguments import Command as HaulCommand
from haul.cli.command_table import COMMANDS as HAUL_COMMANDS

OPTIONS, COMMANDS = (
    TOP / "crates" / "arguments" / "src" / name for name in ("options.rt", "commands.rt")
)
# Options of `census` that can't be given together.
EXCLUDES = {"coordinates": ("--sizes",), "sizes": ("--coordinates",)}
# The placeholders of values that are files.
FILES = {"PATH", "PROGRAM"}


@dataclass(frozen=True)
class Option:
    """An option, or a positional argument if `flag` is false. `value` is the placeholder for its
    value, or empty if the option takes no value.
    """

    name: str
    value: str
    help: str
    default: str | None = None
    flag: bool = True
    choices: tuple[str, ...] = ()
    is_file: bool = False
    # Whether a positional argument may have several values.
    several: bool = False
    # The options that can't be given together with this one.
    excludes: tuple[str, ...] = ()
    # Whether the option may be left out although it has a value and no default.
    optional: bool = False

    @property
    def is_required(self) -> bool:
        """Checks whether the option must be given."""
        return self.flag and self.value != "" and self.default is None and not self.optional

    @property
    def is_needed(self) -> bool:
        """Checks whether a call without this argument is refused."""
        return self.is_required if self.flag else not self.optional

    @property
    def short(self) -> str:
        """Returns the first words of the help, for a list of options."""
        said = re.sub(r"^with --\w+: ", "", self.help)
        return shell_text(
            re.split(r"[.:;(]|, (?:from|such|also|and|with|up|[0-9]) ?", said, maxsplit=1)[
                0
            ].strip()
        )


def shell_text(text: str) -> str:
    """Returns a text in a form that is safe between single quotes in a shell's file."""
    return text.replace("`", "").replace("'", "’")


@dataclass
class Command:
    """A command with its options and positional arguments."""

    name: str
    about: str
    options: list[Option] = field(default_factory=list)
    # The rest of the help.
    more: str = ""


def lower(text: str) -> str:
    return text[0].lower() + text[1:]


def upper(text: str) -> str:
    return text[0].upper() + text[1:]


# ---- census: the table in Rattle

STRING = r'"((?:[^"\\]|\\.)*)"'


def text_of(literal: str) -> str:
    """Returns the text of a literal. A backslash at the end of a line joins the lines."""
    joined = re.sub(r"\\\n\s*", "", literal)
    return joined.replace("\\n", " ").replace('\\"', '"')


def census_options() -> dict[str, Option]:
    found = {}
    for name, body in re.findall(
        r"pub const (\w+): Parameter = Parameter \{(.*?)\n\};", OPTIONS.read_text(), re.DOTALL
    ):
        parts = {
            key: re.search(pattern, body, re.DOTALL)
            for key, pattern in {
                "name": rf"name: {STRING}",
                "place": rf"Place::Named\({STRING}\)",
                "default": rf"default: Some\({STRING}\)",
                "help": rf"help: {STRING}",
                "optional": r"ValueKind::(Optional\w+)",
            }.items()
        }
        own, place, default, said = (
            match[1] if (match := parts[key]) else None
            for key in ("name", "place", "default", "help")
        )
        assert own and said
        value = own if place is None else place
        found[name] = Option(
            own,
            value,
            " ".join(text_of(said).split()),
            default,
            flag=place is not None,
            optional=parts["optional"] is not None,
            excludes=EXCLUDES.get(own, ()),
        )
    return found


def census_commands() -> list[Command]:
    options, commands = census_options(), []
    for body in re.findall(
        r"pub const \w+: CommandRow = CommandRow \{(.*?)\n\};", COMMANDS.read_text(), re.DOTALL
    ):
        name, about, rows = (
            re.search(pattern, body, re.DOTALL)
            for pattern in (rf"name: {STRING}", rf"about: {STRING}", r"parameters: &\[(.*?)\]")
        )
        assert name and about and rows
        commands.append(
            Command(
                name[1], text_of(about[1]), [options[row] for row in re.findall(r"\w+", rows[1])]
            )
        )
    return commands


# ---- haul: the table in Python


def haul_commands() -> list[Command]:
    return [
        Command(command.name, command.about, list(haul_options(command)), command.more)
        for command in HAUL_COMMANDS
    ]


def haul_options(command: HaulCommand) -> Iterator[Option]:
    for argument, others in command.arguments():
        default = re.search(r" \(default: ([^()]*)\)", argument.help)
        help_ = argument.help.replace(default[0], "") if default else argument.help
        value = "" if argument.is_flag else argument.value or argument.name
        yield Option(
            argument.name.lstrip("-"),
            value,
            help_,
            default[1] if default else None,
            argument.is_option(),
            argument.choices,
            value in FILES or (not argument.is_option() and value != "ID"),
            argument.repeats in ("*", "+"),
            tuple(other.name for other in others),
            optional=argument.is_option() or argument.repeats in ("?", "*"),
        )
