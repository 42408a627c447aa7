"""The synopses and the ranges in the help and on the pages are those that `haul` accepts."""

from __future__ import annotations

import contextlib
import io
import re
import unittest
from collections.abc import Iterator
from itertools import combinations

from haul.cli.arguments import Argument
from haul.cli.command_table import COMMANDS
from haul.cli.parser import parse_arguments
from haul.tests.called import TOP

# A value for each placeholder of an option.
VALUES = {"SEED": "a", "RULE": "b3s23", "R": "b3s23", "S": "a", "KINDS": "s", "CODE": "xs4_33"}
VALUES |= {"N": "1", "W": "1", "GENERATION": "1", "UNIT": "soup", "PATH": "x", "PROGRAM": "x"}
VALUES |= {"FILE": "x", "FILE.late": "x", "FOLDER": "x", "WHAT": "p3+", "SYMMETRY": "C1"}
RANGE = re.compile(r"\b(from the period|[0-9]+) to ([0-9]+)\b")
# The positional arguments with which a command accepts each of its options.
POSITIONAL = {
    "search": ["x"],
    "compare": ["a", "b"],
    "rarity": ["block"],
    "soup": ["C1/a0"],
    "why": ["5"],
}


def is_accepted(words: list[str]) -> bool:
    with contextlib.redirect_stderr(io.StringIO()):
        try:
            parse_arguments(words)
        except SystemExit:
            return False
    return True


def list_synopses() -> Iterator[tuple[str, str]]:
    """Yields the name and the arguments of each synopsis in HAUL-COMMANDS."""
    text = (TOP / "docs" / "HAUL-COMMANDS.md").read_text()
    for block in re.findall(r"```\n(haul \w+(?: \[| [A-Z]).*?)```", text, re.DOTALL):
        for line in block.splitlines():
            yield line.split()[1], line.partition(f"haul {line.split()[1]} ")[2]


def read_alternatives(text: str) -> Iterator[list[list[str]]]:
    """Yields each optional group of a synopsis, as its alternatives. An alternative is a list of
    options, the first of which is needed by the others."""
    depth, start = 0, 0
    for place, character in enumerate(text):
        if character == "[":
            start = place if depth == 0 else start
            depth += 1
        elif character == "]":
            depth -= 1
            if depth == 0:
                group = text[start + 1 : place]
                parts = re.split(r" \| ", group)
                yield [re.findall(r"--[\w-]+", part) for part in parts if "--" in part]


class Synopses(unittest.TestCase):
    def options_of(self, command: str) -> dict[str, Argument]:
        (found,) = (one for one in COMMANDS if one.name == command)
        return {one.name: one for one, _ in found.arguments() if one.is_option()}

    def words(self, command: str, options: list[str]) -> list[str]:
        known = self.options_of(command)
        words = [command]
        for name in options:
            argument = known[name]
            words.append(name)
            if not argument.is_flag:
                words.append("64" if name == "--horizon" else VALUES[argument.value or ""])
        return words

    def positional(self, synopsis: str) -> list[str]:
        """Returns values for the arguments that a synopsis names outside of brackets."""
        bare = re.sub(r"\[[^\[\]]*\]", "", re.sub(r"\[[^\[\]]*\]", "", synopsis))
        words = re.sub(r"--[\w-]+ [A-Z]+(?:\.late)?", "", bare).split()
        given = {"NAME|CODE": "block", "ID": "C1/a0", "SOUP": "5"}
        named = [given.get(word, "x") for word in words if word != ".."]
        return named + ["x"] * ("[FILE" in synopsis)

    def test_each_option_of_the_page(self) -> None:
        """A command accepts every pair of options in its synopsis, unless they are alternatives."""
        for command, synopsis in list_synopses():
            known = self.options_of(command)
            bare = re.findall(r"--[\w-]+ [A-Z]+(?![^\[]*\])", re.sub(r"\[[^\[\]]*\]", "", synopsis))
            needed = [option.split()[0] for option in bare]
            groups = [group for group in read_alternatives(synopsis) if group]
            self.assertLessEqual(
                {name for group in groups for one in group for name in one}, {*known}
            )
            after = self.positional(synopsis)
            for group in groups:
                for one, other in combinations(group, 2):
                    words = self.words(command, [*needed, one[0], other[0]])
                    self.assertFalse(is_accepted([*words, *after]), words)
            for one_group, other_group in combinations(groups, 2):
                for one in one_group:
                    for other in other_group:
                        words = self.words(command, [*needed, *one, *other])
                        self.assertTrue(is_accepted([*words, *after]), words)

    def test_each_option_is_on_the_page(self) -> None:
        """The synopses of a command name each of its options, except `--census`, `--no-data`, the numbers of a
        profile and, in `search`, those of a table."""
        named: dict[str, set[str]] = {}
        for command, synopsis in list_synopses():
            named.setdefault(command, set()).update(re.findall(r"--[\w-]+", synopsis))
        left_out = {
            "--census",
            "--workers",
            "--no-data",
            "--period",
            "--horizon",
            "--stride",
            "--limit",
        }
        for one in COMMANDS:
            if one.name != "search":
                known = {*self.options_of(one.name)}
                self.assertLessEqual(known - left_out, named[one.name], one.name)

    def test_ranges(self) -> None:
        """Each range in the help begins and ends where the command begins and ends to refuse."""
        seen = 0
        for one in COMMANDS:
            for name, argument in self.options_of(one.name).items():
                found = RANGE.search(argument.help)
                if found is None or argument.is_flag:
                    continue
                seen += 1
                least = 1 if found[1] == "from the period" else int(found[1])
                before = [one.name, "--period=1"] if name == "--horizon" else [one.name]
                before += ["--totals"] if name == "--first" and one.name == "check" else []
                for value, wanted in (
                    (least, True),
                    (int(found[2]), True),
                    (least - 1, False),
                    (int(found[2]) + 1, False),
                ):
                    words = [*before, f"{name}={value}", *POSITIONAL.get(one.name, [])]
                    self.assertEqual(is_accepted(words), wanted, words)
        self.assertGreaterEqual(seen, 14)


if __name__ == "__main__":
    unittest.main()
