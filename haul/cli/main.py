"""Runs a call of `haul`: reads its arguments, runs the command, and reports failures."""

from __future__ import annotations

from contextlib import redirect_stderr, redirect_stdout
from typing import BinaryIO, TextIO

from haul.census.bounded import Undecided
from haul.census.children import NoCensus, NoThread
from haul.census.client import Ended
from haul.cli.parser import parse_arguments
from haul.cli.statuses import DONE, FAILED, NO_MEMORY, REFUSED, USAGE
from haul.cli.streams import Refused, Streams
from haul.cli.values import RuleValue
from haul.formats.tables import BadTable
from haul.known.database import BadDatabase
from haul.user_data import Use


def main(arguments: list[str], stdin: BinaryIO, stdout: TextIO, stderr: TextIO) -> int:
    """Runs a call with these arguments, and returns its exit status."""
    streams = Streams(stdin, stdout, stderr)
    complain = streams.terminal.complain
    try:
        status = run_command(arguments, streams)
        stdout.flush()
        return status
    except (Refused, BadTable, BadDatabase) as why:
        complain(str(why))
        return REFUSED
    except NoCensus as why:
        complain(str(why))
        return USAGE
    except Ended as why:
        complain(str(why))
        return why.status
    except MemoryError:
        complain("out of memory")
        return NO_MEMORY
    except (NoThread, Undecided) as error:
        complain(str(error))
        return NO_MEMORY
    except BrokenPipeError:
        # The program that reads the output has ended.
        return FAILED
    except OSError as error:
        complain(describe_error(error))
        return FAILED


def run_command(arguments: list[str], streams: Streams) -> int:
    try:
        with redirect_stdout(streams.stdout), redirect_stderr(streams.terminal.stderr):
            asked = parse_arguments(arguments)
    except SystemExit as ended:
        # argparse has written the help, the version or the fault in the arguments.
        return DONE if ended.code == 0 else USAGE
    for value in vars(asked).values():
        if isinstance(value, RuleValue) and value.given != value:
            streams.terminal.complain(f"rule {value.given} is --rule {value}")
    Use.is_on = not getattr(asked, "no_data", False)
    status: int = asked.command.run(asked, streams)
    return status


def describe_error(error: OSError) -> str:
    reason = error.strerror or "read or write failed"
    return f"{error.filename}: {reason}" if error.filename else reason
