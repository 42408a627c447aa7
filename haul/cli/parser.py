"""Reads the arguments of a call according to the table of commands, and writes the help."""

from __future__ import annotations

import argparse
from typing import Any, NoReturn

from haul import VERSION
from haul.cli.arguments import Argument, Command
from haul.cli.command_table import COMMANDS
from haul.terminal import escape_controls

DESCRIPTION = """\
Searches for rare objects, checks, joins, compares and shows hauls, and converts patterns from and to RLE.
A haul is the text that `census take` prints: how many of each object a set of soups left."""

EXAMPLES = """\
examples:
  haul search mine.haul                           run soups until Ctrl-C, and keep their haul
  census take --count 400 | haul check            is this haul right?
  haul check --samples rare.haul                  do the sample soups leave their objects?
  haul check reference/index --random 2           are two pieces of the reference census right?
  haul index pieces/*.haul > index                an index, by which others can check a census
  haul join pieces/*.haul > all.haul              one haul from the hauls of all pieces of a census
  haul compare life.haul highlife.haul            two hauls side by side
  haul table --strict --rare all.haul             the rarest objects of a haul
  haul rarity loafer block                        how rare are they?
  haul page < all.haul > all.html                 a page with a picture of each object
  haul page life.haul highlife.haul > both.html   a page of two hauls side by side
  haul soup C1/k_abcdef12345 | census name        what a soup of Catagolue leaves
  haul soups --longest 10 pieces/*.lines          the soups in report lines that settled last
  haul why --most 5 mine.haul.late                why are these soups unsettled?
  haul cells gun.rle | census run 30              run a pattern in RLE for 30 generations
  census show xq4_153 | haul rle                  draw an object in RLE for Golly

`haul COMMAND --help` explains a command.

exit status: 0 done, 2 usage, 3 a text is refused, 4 out of memory, 5 a read or write failed, 7 a haul isn't right
"""


# What to use instead of options that a command doesn't have, but that one may expect.
INSTEAD = {
    ("search", "--part"): "the number of soups in a batch is --batch",
    ("search", "--count"): "--until N ends a search when the haul has N soups",
}


def parse_arguments(words: list[str]) -> argparse.Namespace:
    """Reads the arguments of a call. Options and other arguments may be in any order, unless there
    is a `--`. Raises `SystemExit` after writing the help, the version, or why the arguments are
    invalid."""
    parser, commands = make_parsers()
    words = write_as_options(words)
    if words and words[0] in commands:
        command = commands[words[0]]
        # `parse_intermixed_args` doesn't know `--`.
        if "--" in words:
            asked = command.parse_args(words[1:])
        else:
            asked = command.parse_intermixed_args(words[1:])
    else:
        asked = parser.parse_args(words)
    fault = asked.command.find_fault(asked)
    if fault is not None:
        asked.refuse(fault)
    return asked


def write_as_options(words: list[str]) -> list[str]:
    """Returns the arguments with options instead of the words `help` and `version`."""
    if words[:1] == ["help"] and len(words) <= 2:
        return [*words[1:], "--help"]
    return ["--version"] if words == ["version"] else words


class Parser(argparse.ArgumentParser):
    """A parser that escapes control characters of the arguments in its error messages."""

    def error(self, message: str) -> NoReturn:
        instead = describe_instead(self.prog.removeprefix("haul "), message)
        super().error(escape_controls(message + instead))


def describe_instead(command: str, message: str) -> str:
    """Returns what to use instead of an option that `message` doesn't know. Returns an empty text
    if nothing is known about it."""
    unknown = message.partition("unrecognized arguments: ")[2].split()
    hints = (INSTEAD.get((command, word.split("=")[0])) for word in unknown)
    found = next((hint for hint in hints if hint), None)
    return f"; {found}" if found else ""


def make_parsers() -> tuple[Parser, dict[str, Parser]]:
    """Returns the parser of all calls, and the parser of each command."""

    parser = Parser(
        prog="haul",
        description=DESCRIPTION,
        epilog=EXAMPLES,
        formatter_class=argparse.RawDescriptionHelpFormatter,
    )
    parser.add_argument("--version", action="version", version=f"haul {VERSION}")
    parsers = parser.add_subparsers(dest="name", required=True, metavar="COMMAND")
    commands: dict[str, Parser] = {}
    for command in COMMANDS:
        commands[command.name] = parsers.add_parser(
            command.name,
            help=command.about,
            description=f"{command.about[0].upper()}{command.about[1:]}. {command.more}",
            formatter_class=argparse.RawDescriptionHelpFormatter,
        )
        add_arguments(command, commands[command.name])
    return parser, commands


def add_arguments(command: Command, parser: argparse.ArgumentParser) -> None:
    parser.set_defaults(command=command, refuse=parser.error)
    for group in command.groups:
        if isinstance(group, Argument):
            parser.add_argument(group.name, **list_settings(group))
        else:
            exclusive = parser.add_mutually_exclusive_group()
            for argument in group.arguments:
                exclusive.add_argument(argument.name, **list_settings(argument))


def list_settings(argument: Argument) -> dict[str, Any]:
    """Returns the settings of an argument for `argparse`, except for its name."""
    if argument.is_flag:
        return {"action": "store_true", "help": argument.help}
    settings: dict[str, Any] = {
        "metavar": argument.value,
        "help": argument.help,
        "default": argument.default,
        "type": argument.read,
    }
    if argument.choices:
        settings["choices"] = argument.choices
    if argument.is_list:
        settings["action"] = "append"
    if argument.repeats:
        settings["nargs"] = argument.repeats
    if argument.most_hauls is not None:
        settings["action"] = HaulList
        settings["most"], settings["others"] = argument.most_hauls, argument.other_hauls
    return settings


class HaulList(argparse.Action):
    """The action for an argument that is a list of hauls. It stores the names of the hauls, or
    fails if there are too many."""

    def __init__(self, *names: Any, most: int, others: int, **settings: Any) -> None:
        super().__init__(*names, **settings)
        self.most = most
        self.others = others

    def __call__(
        self,
        parser: argparse.ArgumentParser,
        asked: argparse.Namespace,
        words: object,
        option: str | None = None,
    ) -> None:
        assert isinstance(words, list)
        if len(words) + self.others > self.most:
            raise argparse.ArgumentError(self, f"more than {self.most} hauls")
        setattr(asked, self.dest, words)
