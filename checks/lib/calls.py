"""Calls of the program with the answers that they must give."""

from __future__ import annotations

import subprocess
from typing import NamedTuple

from checks.lib import program

MOST_SECONDS = 120
# A text of fewer than `SHOWN_WHOLE` bytes is shown whole. Otherwise, its first `SHOWN` bytes are
# shown.
SHOWN_WHOLE, SHOWN = 100, 60


class Call(NamedTuple):
    """A call of the program, and how it must end."""

    name: str
    words: list[str]
    given: bytes
    output: bytes
    errors: bytes = b""
    status: int = 0


def fault_of(call: Call) -> str:
    """Makes the call, and returns what is wrong with its answer, or nothing if it is right."""
    try:
        ended = subprocess.run(
            [program.CENSUS, *call.words],
            input=call.given,
            capture_output=True,
            check=False,
            timeout=MOST_SECONDS,
        )
    except subprocess.TimeoutExpired:
        return f"{call.name}: it takes over {MOST_SECONDS} seconds"
    faults = [
        ""
        if ended.returncode == call.status
        else f"status {ended.returncode}, and not {call.status}",
        ""
        if ended.stdout == call.output
        else f"output {shown(ended.stdout)}, and not {shown(call.output)}",
        ""
        if ended.stderr == call.errors
        else f"errors {shown(ended.stderr)}, and not {shown(call.errors)}",
    ]
    wrong = ", ".join(filter(None, faults))
    return f"{call.name}: {wrong}" if wrong else ""


def shown(said: bytes) -> str:
    return str(said) if len(said) < SHOWN_WHOLE else f"{said[:SHOWN]!r} .. of {len(said)} bytes"
