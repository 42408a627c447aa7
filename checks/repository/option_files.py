"""The files that are made from the tables of commands and options: completions, and lists of
options.
"""

from __future__ import annotations

import re
import textwrap
from collections.abc import Iterator
from dataclasses import replace

from checks.repository.option_tables import Command, Option, lower, shell_text, upper

WARNING = "# Made by `checks/repository/options --write` from the tables of commands and options: don't edit it."


def bash(program: str, commands: list[Command]) -> str:
    names = " ".join(command.name for command in commands)
    helps = program == "census"
    options = {
        option.name: option for command in commands for option in command.options if option.flag
    }
    lines = [
        f"# Completion of {program} for bash.",
        WARNING,
        "",
        f"_{program}() {{",
        "    local word=${COMP_WORDS[COMP_CWORD]} before=${COMP_WORDS[COMP_CWORD - 1]} options=''",
        "    COMPREPLY=()",
        "    if [[ $COMP_CWORD == 1 ]]; then",
        f"        mapfile -t COMPREPLY < <(compgen -W '{names}{' help' if helps else ''} --help --version' -- \"$word\")",
        "        return",
        "    fi",
        "    # After an option that takes a value, only its values are proposed.",
        "    case $before in",
        "        =) return ;;",
    ]
    free = [
        f"--{name}"
        for name, option in options.items()
        if option.value and not option.choices and not option.is_file
    ]
    lines.append(f"        {' | '.join(free)}) return ;;")
    for name, option in options.items():
        if option.choices:
            lines += [
                f"        --{name})",
                f"            mapfile -t COMPREPLY < <(compgen -W '{' '.join(option.choices)}' -- \"$word\")",
                "            return",
                "            ;;",
            ]
    files = [f"--{name}" for name, option in options.items() if option.is_file]
    if files:
        lines += [
            f"        {' | '.join(files)})",
            '            mapfile -t COMPREPLY < <(compgen -f -- "$word")',
            "            return",
            "            ;;",
        ]
    lines += ["    esac", "    case ${COMP_WORDS[1]} in"]
    for command in commands:
        own = " ".join(f"--{option.name}" for option in command.options if option.flag)
        lines.append(f"        {command.name}) options='{own}{' ' if own else ''}--help' ;;")
    lines += [f"        help) options='{names}' ;;"] if helps else []
    lines.append("    esac")
    proposed = 'mapfile -t COMPREPLY < <(compgen -W "$options" -- "$word")'
    if any(
        option.is_file and not option.flag for command in commands for option in command.options
    ):
        lines += [
            "    if [[ $word == -* ]]; then",
            f"        {proposed}",
            "    else",
            '        mapfile -t COMPREPLY < <(compgen -f -- "$word")',
            "    fi",
            "}",
            f"complete -o filenames -F _{program} {program}",
        ]
    else:
        lines += [f"    {proposed}", "}", f"complete -F _{program} {program}"]
    return "\n".join(lines) + "\n"


def zsh_word(option: Option, place: int) -> str:
    action = (
        f"({' '.join(option.choices)})" if option.choices else "_files" if option.is_file else ""
    )
    if not option.flag:
        return f"'{'*' if option.several else place}:{lower(option.short)}:{action}'"
    excluded = f"({' '.join(option.excludes)})" if option.excludes else ""
    if not option.value:
        return f"'{excluded}--{option.name}[{lower(option.short)}]'"
    return f"'{excluded}--{option.name}=[{lower(option.short)}]:{option.value}:{action}'"


def zsh(program: str, commands: list[Command]) -> str:
    lines = [
        f"#compdef {program}",
        f"# Completion of {program} for zsh.",
        WARNING,
        "",
        f"_{program}() {{",
        "    local -a commands help",
        "    local context state line",
        "    typeset -A opt_args",
        "    commands=(",
    ]
    lines += [
        f"        '{command.name}:{shell_text(lower(command.about))}'" for command in commands
    ]
    lines += ["        'help:explain a command'"] if program == "census" else []
    version = (
        "'(- *)'{-V,--version}'[print the version]'"
        if program == "census"
        else "'(- *)--version[print the version]'"
    )
    lines += [
        "    )",
        "    help=('(-h --help)'{-h,--help}'[print help]')",
        f"    _arguments -C {version} $help '1: :->command' '*:: :->words' && return",
        "    case $state in",
        "        command) _describe -t commands command commands ;;",
        "        words)",
        "            case $line[1] in",
    ]
    for command in commands:
        places = iter(range(1, 10))
        words = " ".join(
            [
                "$help",
                *(
                    zsh_word(option, 0 if option.flag else next(places))
                    for option in command.options
                ),
            ]
        )
        lines.append(f"                {command.name}) _arguments {words} ;;")
    lines += (
        ["                help) _describe -t commands command commands ;;"]
        if program == "census"
        else []
    )
    lines += ["            esac", "            ;;", "    esac", "}", f'_{program} "$@"']
    return "\n".join(lines) + "\n"


def fish(program: str, commands: list[Command]) -> str:
    begin, seen = f"complete -c {program}", "__fish_seen_subcommand_from"
    lines = [
        f"# Completion of {program} for fish.",
        WARNING,
        "",
        f"{begin} -f" if program == "census" else f"{begin} -n __fish_use_subcommand -f",
    ]
    lines += [
        f"{begin} -n __fish_use_subcommand -a {command.name} -d '{shell_text(upper(command.about))}'"
        for command in commands
    ]
    if program == "census":
        lines.append(f"{begin} -n __fish_use_subcommand -a help -d 'Explain a command'")
    lines.append(
        f"{begin} -n __fish_use_subcommand {'-s V ' if program == 'census' else ''}-l version -d 'Print the version'"
    )
    lines.append(f"{begin} -s h -l help -d 'Print help'")
    for option, names in grouped(commands):
        if option.flag:
            takes = (
                f" -x -a '{' '.join(option.choices)}'"
                if option.choices
                else " -r"
                if option.is_file
                else " -x"
                if option.value
                else ""
            )
            lines.append(
                f"{begin} -n '{seen} {' '.join(names)}' -l {option.name}{takes} -d '{upper(option.short)}'"
            )
    if program == "census":
        lines.append(
            f"{begin} -n '{seen} help' -a '{' '.join(command.name for command in commands)}'"
        )
    return "\n".join(lines) + "\n"


def grouped(commands: list[Command]) -> list[tuple[Option, list[str]]]:
    """Returns each option once, with the commands that have it. Options with the same name but
    different help are different options.
    """
    found: dict[Option, list[str]] = {}
    for command in commands:
        for option in command.options:
            found.setdefault(replace(option, excludes=()), []).append(command.name)
    return list(found.items())


def sentences(option: Option) -> list[str]:
    """Returns the sentences of an option's help, and a last sentence if the option has a default or
    must be given.
    """
    said = upper(option.help) + ("" if option.help.endswith(".") else ".")
    found = re.split(r"(?<=[a-z0-9`)]\.) (?=[A-Z])", said)
    if option.default is not None:
        found.append(f"The default is {option.default or 'empty'}.")
    elif option.is_required:
        found.append("It must be given.")
    return found


def roff(text: str) -> str:
    """Returns a text as roff: backquotes as quotation marks, and `--` and backslashes escaped."""
    quoted = re.sub(r"`([^`]*)`", r"\\(oq\1\\(cq", text.replace("\\", "\\e"))
    return quoted.replace("--", "\\-\\-")


# What stands for several options of a command in a synopsis.
GROUPS = {
    "soups": ("seed", "first", "also"),
    "profile": ("period", "horizon", "stride", "limit"),
}


def synopsis(commands: list[Command]) -> str:
    """Returns the synopsis of a manual, in mdoc."""
    lines: list[str] = []
    for command in commands:
        lines += [".Nm", f".Cm {command.name}", *list_synopsis(command)]
    return "\n".join([*lines, ".Nm", ".Fl Fl version"]) + "\n"


def list_synopsis(command: Command) -> Iterator[str]:
    """Yields a line for each argument of a command, or for several of them: for alternatives, and
    for those of a group."""
    names = {option.name for option in command.options}
    group_of = {
        name: group for group, some in GROUPS.items() if names.issuperset(some) for name in some
    }
    done: set[str] = set()
    for option in sorted(command.options, key=lambda option: not option.flag):
        if option.name in done:
            continue
        group = group_of.get(option.name)
        if group is not None:
            done.update(GROUPS[group])
            yield f".Op Ar {group}"
            continue
        others = [one for one in command.options if f"--{one.name}" in option.excludes]
        done.update(one.name for one in others)
        words = " | ".join(map(words_of, [option, *others]))
        yield f".{words}" if option.is_needed else f".Op {words}"


def words_of(option: Option) -> str:
    several = " ..." if option.several else ""
    if not option.flag:
        return f"Ar {option.value}{several}"
    return f"Fl Fl {option.name}" + (f" Ar {option.value}" if option.value else "")


def command_list(commands: list[Command]) -> str:
    """Returns what a manual says about each command, in mdoc: its help without the examples."""
    lines = [f".Bl -tag -width {max((one.name for one in commands), key=len)}"]
    for command in commands:
        lines.append(f".It Cm {command.name}")
        said = f"{upper(command.about)}. {command.more}"
        *paragraphs, last = re.split(r"\n\nexamples?:", said)[0].split("\n\n")
        for paragraph in [*paragraphs, last]:
            if paragraph is not (paragraphs or [last])[0]:
                lines.append(".Pp")
            for sentence in re.split(
                r"(?<=[A-Za-z0-9`)]\.) (?=[A-Z])", " ".join(paragraph.split())
            ):
                lines += wrap(sentence)
    return "\n".join([*lines, ".El"]) + "\n"


def wrap(sentence: str) -> list[str]:
    lines = textwrap.wrap(roff(sentence), 78, break_on_hyphens=False, break_long_words=False)
    # At the beginning of a line, these characters would be a command.
    return [f"\\&{line}" if line[0] in ".'" else line for line in lines]


def manual(commands: list[Command]) -> str:
    """Returns the list of options of a manual, in mdoc."""
    lines = [".Bl -tag -width indent"]
    for option, names in grouped(commands):
        if option.flag:
            lines.append(f".It Fl Fl {option.name}{f' Ar {option.value}' if option.value else ''}")
            for sentence in sentences(option):
                lines += wrap(sentence)
            lines.append("For")
            lines += [
                f".Cm {name}{' ,' if place < len(names) - 1 else ' .'}"
                for place, name in enumerate(names)
            ]
    return "\n".join([*lines, ".El"]) + "\n"


def table(commands: list[Command]) -> str:
    """Returns the table of options of a page."""
    lines = ["| Option | Meaning | Default | Commands |", "|---|---|---|---|"]
    for option, names in grouped(commands):
        if option.flag:
            value = f" {option.value}" if option.value else ""
            default = (
                "required"
                if option.is_required
                else ""
                if option.default is None
                else f"`{option.default}`"
                if option.default
                else "empty"
            )
            lines.append(
                f"| `--{option.name}{value}` | {option.help} | {default} | {', '.join(f'`{name}`' for name in names)} |"
            )
    return "\n".join(lines) + "\n"
