"""How `haul` ends: its statuses and messages for faults of a stream, of the census program or of
the user, and what it leaves running."""

from __future__ import annotations

import io
import os
import resource
import shutil
import signal
import subprocess
import sys
import tempfile
import time
import unittest
from contextlib import suppress
from pathlib import Path
from unittest.mock import patch

from haul.census.children import NoThread
from haul.formats.haul_reader import read_one_haul
from haul.tests.called import (
    CENSUS,
    HAUL,
    TOP,
    call,
    census,
    drop_summaries,
    read_terminal,
    run,
    taken,
)
from haul.tests.drawn import text_of
from haul.tests.made import QUICK_JOB, make_haul
from haul.tests.test_text import SMALL

# A wrong haul with so many soups that its census takes much longer than the test.
LONG = (
    SMALL.replace("@RANGE 0 4", f"@RANGE 0 {2**24}")
    .replace("SOUPS 2", f"SOUPS {2**24}")
    .replace("@PROFILE 1 1 1 0", "@PROFILE 64 512 101 30300")
)

# An incorrect haul with so many sample soups that several calls of the census program run them.
CODES = [f"xs4_{number}" for number in range(1000, 1600)]
MANY = text_of(
    make_haul(
        {code: 1 for code in CODES},
        [(0, 600)],
        job=QUICK_JOB,
        samples={code: [k] for k, code in enumerate(CODES)},
    )
)


def fill(folder: str, script: str) -> None:
    """Writes three files: `small`, a haul of two soups; `three`, a haul of three soups; and
    `other`, a program with this script."""
    Path(folder, "small").write_bytes(taken(2))
    Path(folder, "three").write_bytes(taken(3))
    Path(folder, "other").write_text(f"#!/bin/sh\n{script}\n")
    Path(folder, "other").chmod(0o755)


def in_shell(command: str, script: str = "", few: str = "") -> tuple[int, str, str]:
    """Runs a shell command in a folder that `fill` has filled. In the command, `haul` calls
    bin/haul, and `$few` is the value of the argument `few`, a Python program. Returns the status
    and what is written to standard output and standard error."""
    with tempfile.TemporaryDirectory() as folder:
        fill(folder, script)
        shell = f'haul() {{ "{sys.executable}" "{HAUL}" "$@"; }}; {command}'
        ended = subprocess.run(
            ["bash", "-c", shell],
            cwd=folder,
            stdin=subprocess.DEVNULL,
            capture_output=True,
            check=False,
            env=os.environ | {"few": few},
        )
    return ended.returncode, ended.stdout.decode(), drop_summaries(ended.stderr.decode())


class Streams(unittest.TestCase):
    def test_closed_pipe(self) -> None:
        text = taken(40)
        with subprocess.Popen(
            [sys.executable, HAUL, "join"],
            stdin=subprocess.PIPE,
            stdout=subprocess.PIPE,
            stderr=subprocess.PIPE,
        ) as program:
            assert program.stdin and program.stdout and program.stderr
            program.stdout.close()
            program.stdin.write(text)
            program.stdin.close()
            self.assertEqual(program.stderr.read(), b"")
        self.assertEqual(program.returncode, 5)

    def test_full_device(self) -> None:
        for words in (
            "join small",
            "compare small small",
            "check small",
            "page small",
            "--version",
            "--help",
        ):
            with self.subTest(words=words):
                self.assertEqual(
                    in_shell(f"haul {words} > /dev/full"),
                    (5, "", "haul: No space left on device\n"),
                )

    def test_closed_input(self) -> None:
        bad = "haul: Bad file descriptor\n"
        for words in ("join", "check", "page", "compare - small"):
            with self.subTest(words=words):
                self.assertEqual(in_shell(f"haul {words} <&-"), (5, "", bad))
        self.assertEqual(in_shell("haul check small <&-"), (0, "right\n", ""))
        # No other stream is read instead of the input, even if that stream can be read.
        self.assertEqual(in_shell("haul join <&- 1<> other"), (5, "", bad))

    def test_closed_output(self) -> None:
        bad = "haul: Bad file descriptor\n"
        for words in (
            "join small",
            "check small",
            "page small",
            "compare small small",
            "--version",
        ):
            with self.subTest(words=words):
                self.assertEqual(in_shell(f"haul {words} >&-"), (5, "", bad))
        # If the output is closed, the files are still read. None of them gets the descriptor of the
        # output, which is 1 (see `open_streams`).
        self.assertEqual(
            in_shell("haul join small nowhere >&-"),
            (5, "", "haul: nowhere: No such file or directory\n"),
        )

    def test_closed_errors(self) -> None:
        self.assertEqual(in_shell("haul check small 2>&-"), (0, "right\n", ""))
        self.assertEqual(in_shell("haul join nowhere 2>&-"), (5, "", ""))
        self.assertEqual(in_shell("echo x | haul join 2>&-"), (3, "", ""))
        self.assertEqual(in_shell("haul check --census nowhere small 2>&-"), (2, "", ""))
        self.assertEqual(in_shell("haul join nowhere 2> /dev/full"), (5, "", ""))
        self.assertEqual(in_shell("haul join small <&- >&- 2>&-"), (5, "", ""))

    def test_an_input_without_end(self) -> None:
        self.assertEqual(
            in_shell("haul join < /dev/zero"),
            (3, "", "haul: bad haul at line 1 column 1: this looks like a binary file\n"),
        )

    def test_unbuffered(self) -> None:
        self.assertEqual(in_shell("PYTHONUNBUFFERED=1 haul --version > /dev/full")[0], 5)

    def test_a_page_is_in_utf_8_whatever_the_language_is(self) -> None:
        status, page, errors = in_shell("PYTHONIOENCODING=latin-1 LC_ALL=C haul page small")
        self.assertEqual((status, errors), (0, ""))
        self.assertIn('<meta charset="utf-8">', page)


class Progress(unittest.TestCase):
    """On a terminal, a progress line is shown and erased at the end."""

    def told(self, *words: str, text: bytes) -> list[str]:
        """Returns the progress lines that `haul` writes to a terminal. The last line must be
        erased."""
        said = self.written(*words, text=text)
        self.assertTrue(said.endswith(b"\r\x1b[K"))
        return [line for line in said.decode().split("\r\x1b[K") if line]

    def written(self, *words: str, text: bytes) -> bytes:
        """Returns what `haul` writes to standard error if that is a terminal."""
        written = read_terminal(lambda stderr: call(words, io.BytesIO(text), io.StringIO(), stderr))
        return drop_summaries(written.decode()).encode()

    def test_objects_that_are_separated(self) -> None:
        """Progress is shown after every five hundred objects."""
        codes = [f"xs4_{number}" for number in range(1000, 1600)]
        text = text_of(make_haul({code: 1 for code in codes}, job=QUICK_JOB))
        for words in (["table"], ["table", "--parts"], ["page", "--play", "0"]):
            self.assertEqual(
                self.told(*words, text=text.encode())[:2],
                ["0 of 600 objects separated", "500 of 600 objects separated"],
            )

    def test_soups_that_are_run(self) -> None:
        """For a page, each call of the census program runs at most a hundred soups, and progress is
        shown after each call."""
        codes = [f"xs4_{number}" for number in range(1000, 1150)]
        text = text_of(
            make_haul(
                {code: 1 for code in codes},
                [(0, 150)],
                job=QUICK_JOB,
                samples={code: [k] for k, code in enumerate(codes)},
            )
        )
        self.assertEqual(
            self.told("page", text=text.encode())[-3:],
            ["100 of 150 soups run", "150 of 150 soups run", "0 of 150 objects described"],
        )

    def test_samples(self) -> None:
        text = text_of(make_haul(ranges=[(0, 900)], job=QUICK_JOB, unsettled=900))
        self.assertEqual(self.told("check", "--samples", text=text.encode()), [])
        codes = [f"xs4_{number}" for number in range(1000, 1600)]
        text = text_of(
            make_haul(
                {code: 1 for code in codes},
                [(0, 900)],
                job=QUICK_JOB,
                samples={code: [k] for k, code in enumerate(codes)},
            )
        )
        self.assertEqual(
            self.told("check", "--samples", text=text.encode()),
            ["500 of 600 soups run", "600 of 600 soups run"],
        )

    def test_a_census(self) -> None:
        """`haul check` passes on the progress line of the census program, including the spaces that
        erase it. docs/COMMANDS.md describes the line."""
        said = self.written("check", text=taken(40))
        self.assertTrue(said.startswith(b"\r0 of 40 soups") and said.endswith(b" \r\r\x1b[K"))

    def test_files(self) -> None:
        with tempfile.TemporaryDirectory() as folder:
            for name in "abc":
                Path(folder, name).write_bytes(
                    census("take", "--count", "1", "--first", str(ord(name)))
                )
            self.assertEqual(
                self.told("join", *(f"{folder}/{name}" for name in "abc"), text=b""),
                ["1 of 3 files", "2 of 3 files", "3 of 3 files"],
            )
        self.assertEqual(self.told("join", text=census("take", "--count", "1")), ["1 of 1 files"])


class Usage(unittest.TestCase):
    def test_usage(self) -> None:
        self.assertEqual(run("check", "--workers", "1025")[0], 2)
        self.assertEqual(run()[0], 2)
        self.assertEqual(
            run("--version"), (0, census("--version").decode().replace("census", "haul"), "")
        )
        self.assertEqual(run("--help")[0], 0)

    def test_values(self) -> None:
        """If the value of an option is invalid, the message says what is wrong with it."""
        for words, told in (
            (["check", "--workers=0"], "0 is not in 1 to 1024"),
            (["page", "--workers=1025"], "1025 is not in 1 to 1024"),
            (["soups", "--workers=x"], "x is no number"),
            (["page", "--least=x"], "x is no number"),
            (["table", "--top=-1"], "-1 is no number"),
            (["table", "--top=\u0663"], "\u0663 is no number"),
            (["check", "--census="], "an empty path"),
            (["rle", "--rule=b9/s23"], "b9/s23 is no rule, as b3s23, B3/S23 and Life are"),
        ):
            status, output, errors = run(*words)
            self.assertEqual((status, output), (2, ""))
            self.assertIn(told, errors)

    def test_help(self) -> None:
        """The help says what each command does, both in the list of commands and in the command's
        own help."""
        listed = " ".join(run("--help")[1].split())
        for command, does in (
            ("search", "run soups until it is stopped, and keep their haul in FILE"),
            ("check", "take the census of a haul again, and compare"),
            ("join", "add up hauls of one job whose sets of soups don't overlap"),
            ("compare", "set hauls side by side"),
            ("table", "print the table of a haul, with how often each object occurs"),
            (
                "page",
                "make a page of a haul, or of several, with pictures of its objects and soups",
            ),
            ("soup", "print the soup of a sample on Catagolue"),
            ("soups", "list what report lines say about their soups"),
            ("why", "say why soups are unsettled, or why a pattern is"),
            (
                "cells",
                "print a pattern in RLE as plaintext, which `census run` and `census name` read",
            ),
            ("rle", "print a plaintext pattern as RLE, which Golly and LifeWiki read"),
        ):
            self.assertIn(f" {command} {does} ", listed)
            status, said, errors = run(command, "--help")
            self.assertEqual((status, errors), (0, ""))
            self.assertIn(f"\n\n{does[0].upper()}{does[1:]}. ", said)
            self.assertTrue(said.startswith(f"usage: haul {command} [-h] "))

    def test_an_older_python(self) -> None:
        older = f"import runpy, sys; sys.version_info = (3, 9, 2); runpy.run_path({HAUL!r}, run_name='__main__')"
        ended = subprocess.run([sys.executable, "-c", older], capture_output=True, check=False)
        self.assertEqual(
            (ended.returncode, ended.stdout, ended.stderr),
            (2, b"", b"haul: Python 3.10 or later is needed, and this is 3.9\n"),
        )


class Starter(unittest.TestCase):
    """Cases in which Python itself would print a message, such as a traceback, before `haul`
    begins. `haul` prevents this."""

    def test_a_folder_as_input(self) -> None:
        ended = subprocess.run(
            ["bash", "-c", 'exec "$0" join < /', HAUL], capture_output=True, check=False
        )
        self.assertEqual(
            (ended.returncode, ended.stdout, ended.stderr), (5, b"", b"haul: Is a directory\n")
        )

    def test_an_interrupt_while_python_starts(self) -> None:
        """`haul` ends silently, whenever the interrupt comes. A shell reports status 130."""
        for moment in range(30):
            with subprocess.Popen(
                [HAUL, "join"],
                stdin=subprocess.PIPE,
                stdout=subprocess.PIPE,
                stderr=subprocess.PIPE,
                preexec_fn=lambda: signal.signal(signal.SIGINT, signal.SIG_DFL),
            ) as program:
                time.sleep(moment * 0.003)
                program.send_signal(signal.SIGINT)
                # The input stays open until `haul` has ended, since `haul` would report an empty
                # input as a bad haul.
                program.wait(60)
                errors = program.communicate()[1]
            self.assertEqual((program.returncode, errors), (-signal.SIGINT, b""))


class NoThreads(unittest.TestCase):
    """The system starts no thread, or only the first one, in which all work is done."""

    def test_each_is_told(self) -> None:
        for least, words in (
            (0, "--version"),
            (1, "page three"),
            (1, "check three"),
            (1, "check --samples three"),
        ):
            with self.subTest(words=words):
                few = (
                    f"import _thread, runpy, sys, threading; start, left = threading.Thread.start, [0] * {least}\n"
                    "def start_few(thread):\n    if not left: raise RuntimeError('no thread')\n    left.pop(); start(thread)\n"
                    "begin = _thread.start_new_thread\n"
                    "def begin_few(*words):\n    if not left: raise RuntimeError('no thread')\n    left.pop(); return begin(*words)\n"
                    "_thread.start_new_thread = begin_few\n"
                    f"threading.Thread.start = start_few; sys.argv[0] = {HAUL!r}; runpy.run_path({HAUL!r}, run_name='__main__')"
                )
                self.assertEqual(
                    in_shell(f'"{sys.executable}" -c "$few" {words}', few=few),
                    (4, "", "haul: no thread\n"),
                )


class Unforeseen(unittest.TestCase):
    def test_a_fault_of_this_program(self) -> None:
        """If `haul` fails because of a bug, its status is 1, which has no other meaning."""
        script = f"import os, sys; sys.path.insert(0, {str(TOP)!r}); from haul.cli.process import run_heeding_signals; os._exit(run_heeding_signals(lambda: 1 // 0))"
        ended = subprocess.run([sys.executable, "-c", script], capture_output=True, check=False)
        self.assertEqual(ended.returncode, 1)

    def test_another_error_is_not_one_of_memory(self) -> None:
        """A `RuntimeError` that isn't about threads isn't reported as a lack of memory. It is
        raised."""
        with patch(
            "haul.cli.main.run_command", side_effect=RuntimeError("other")
        ), self.assertRaisesRegex(RuntimeError, "^other$"):
            run()

    def test_no_memory(self) -> None:
        for error, line in (
            (MemoryError(), "out of memory"),
            (NoThread("can't start new thread"), "can't start new thread"),
        ):
            with patch("haul.cli.main.run_command", side_effect=error):
                self.assertEqual(run(), (4, "", f"haul: {line}\n"))


class LittleMemory(unittest.TestCase):
    def test_room_for_nothing(self) -> None:
        """If Python has memory to start, but not to load all modules, `haul` prints a line and no
        traceback."""
        for megabytes in range(16, 37, 4):
            limit = megabytes * 2**20
            ended = subprocess.run(
                [HAUL, "rarity", "block"],
                capture_output=True,
                check=False,
                preexec_fn=lambda: resource.setrlimit(resource.RLIMIT_AS, (limit, limit)),
            )
            self.assertEqual(
                (ended.returncode, ended.stdout, ended.stderr.decode()),
                (4, b"", "haul: out of memory\n"),
                megabytes,
            )


class OtherPrograms(unittest.TestCase):
    """The program that `--census` names isn't the census program."""

    # Programs that end successfully. In this order, they print: nothing; their arguments; bytes
    # that aren't text; a haul that wasn't asked for; a line of another job; something like a
    # pattern; an empty line; something like report lines.
    ANSWERS = [
        "true",
        'echo "$@"',
        r"printf '\377\376\n'",
        "cat small",
        "echo report 2 rule=b3s23 profile=1,1,1,0 seed= worker=1 soup=0 unsettled",
        "echo OxO",
        "echo",
        r"printf '0 unsettled\n1 unsettled\n2 unsettled\n'",
    ]
    COMMANDS = ["check", "check --samples", "page"]

    def answer(self, script: str, command: str, program: str = "./other") -> tuple[int, str, str]:
        """Runs a command on a haul of three soups, with this shell script or another program in
        place of the census program. Returns the status and what is printed to standard output and
        standard error."""
        with tempfile.TemporaryDirectory() as folder:
            fill(folder, script)
            return run(*command.split(), "--census", program, "three", cwd=folder)

    def test_none(self) -> None:
        for command in self.COMMANDS:
            self.assertEqual(
                self.answer("", command, "/nowhere/census"),
                (2, "", "haul: no census at /nowhere/census\n"),
            )

    def test_an_empty_path(self) -> None:
        """An empty path doesn't name a program, and no other program is called instead."""
        for command in self.COMMANDS:
            status, output, errors = self.answer("", command, "")
            self.assertEqual((status, output), (2, ""))
            self.assertIn("argument --census: an empty path\n", errors)

    def test_too_few_descriptors(self) -> None:
        """There is a program, but it can't be started. The message doesn't say that there is no
        program."""
        for most in (6, 7, 8, 9, 10, 11, 12):
            status, output, errors = in_shell(
                f"ulimit -n {most}; exec '{sys.executable}' '{HAUL}' check --census ./other small"
            )
            self.assertEqual((status, output), (5, ""))
            self.assertTrue(errors.endswith("Too many open files\n"), errors)

    def test_other_answers(self) -> None:
        for script in self.ANSWERS:
            for command in self.COMMANDS:
                with self.subTest(script=script, command=command):
                    self.assertEqual(
                        self.answer(script, command), (2, "", "haul: no census at ./other\n")
                    )

    def test_a_program_that_is_none(self) -> None:
        self.assertEqual(
            in_shell("printf x > other; haul check --census ./other small"),
            (2, "", "haul: no census at ./other\n"),
        )

    def test_statuses(self) -> None:
        for command in self.COMMANDS:
            for status in (1, 6, 7, 70, 255):
                with self.subTest(status=status, command=command):
                    self.assertEqual(
                        self.answer(f"exit {status}", command),
                        (5, "", f"haul: census ended with status {status}\n"),
                    )
            for status in (2, 4, 5):
                with self.subTest(status=status, command=command):
                    self.assertEqual(
                        self.answer(f"echo census: because >&2; exit {status}", command),
                        (status, "", "haul: because\n"),
                    )
            self.assertEqual(
                self.answer("kill -9 $$", command), (5, "", "haul: census was ended by signal 9\n")
            )
        self.assertEqual(self.answer("exit 3", "check")[0], 3)

    def test_a_line_of_progress_that_was_not_asked_for(self) -> None:
        self.assertEqual(
            self.answer(r"printf '1 of 2 soups\r  \rcensus: because\n' >&2; exit 4", "check"),
            (4, "", "haul: because\n"),
        )


class Calls(unittest.TestCase):
    """Tests which calls of the census program the commands make. In the scripts, `real` is the
    census program."""

    # Records the arguments of the call, and defines `real`.
    NOTES = f'echo "$*" >> calls; real() {{ "{CENSUS}" "$@"; }}; '

    def ended(self, command: str, script: str) -> tuple[int, str, str, list[str]]:
        """Runs a command on a haul of forty soups, with this script in place of the census program.
        Returns the status, what is printed to standard output and standard error, and the calls of
        the script."""
        with tempfile.TemporaryDirectory() as folder:
            fill(folder, self.NOTES + script)
            Path(folder, "forty").write_bytes(taken(40))
            calls = Path(folder, "calls")
            calls.touch()
            return *run(*command.split(), "forty", cwd=folder), calls.read_text().splitlines()

    def test_a_page_asks_when_soups_settle(self) -> None:
        haul = read_one_haul(io.BytesIO(taken(40)))
        first, *others = sorted({number for numbers in haul.samples.values() for number in numbers})
        status, page, errors, calls = self.ended("page --census ./other", 'real "$@"')
        self.assertEqual((status, errors, page), (0, "", run("page", text=taken(40))[1]))
        self.assertEqual(
            calls,
            [
                f"work --worker=1 --seed= --rule=b3s23 --period=64 --horizon=512 --stride=101 --limit=30300 --first={first} --count=1 --also="
                + ",".join(f"{number}+1" for number in others)
            ],
        )
        self.assertEqual(self.ended("page --play 0 --census ./other", 'real "$@"')[3], [])

    def test_a_call_that_fails(self) -> None:
        """The program's message is passed on, and no part of the page is printed."""
        for failing, status, line in (
            ("echo census: because >&2; exit 4", 4, "because"),
            ("exit 70", 5, "census ended with status 70"),
            ("kill -15 $$", 5, "census was ended by signal 15"),
            ("echo O.x", 2, "no census at ./other"),
            ("echo 0", 2, "no census at ./other"),
        ):
            with self.subTest(failing=failing):
                self.assertEqual(
                    self.ended("page --census ./other", failing)[:3],
                    (status, "", f"haul: {line}\n"),
                )

    def test_the_others_ask_nothing(self) -> None:
        """These commands don't call the census program, so they work even if there is none."""
        with tempfile.TemporaryDirectory() as folder:
            shutil.copytree(TOP / "haul", Path(folder, "haul"))
            shutil.copytree(TOP / "reference", Path(folder, "reference"))
            Path(folder, "bin").mkdir()
            shutil.copy(HAUL, Path(folder, "bin", "haul"))
            Path(folder, "a").write_bytes(taken(40))
            for words in (
                ["table"],
                ["table", "--parts", "--json"],
                ["compare", "--parts", "a"],
                ["join"],
                ["soup", "C1/a0"],
            ):
                ended = subprocess.run(
                    [sys.executable, "bin/haul", *words, *(["a"] if words[0] != "soup" else [])],
                    cwd=folder,
                    capture_output=True,
                    check=False,
                    env={**os.environ, "PATH": "/nowhere"},
                )
                self.assertEqual((ended.returncode, ended.stderr), (0, b""))


class Signals(unittest.TestCase):
    """A signal that ends `haul` also ends the programs that it has started."""

    def running(self) -> dict[int, tuple[str, int]]:
        """Returns the running processes, each with its name and its parent. Processes that have
        ended but haven't been waited for aren't included."""
        found: dict[int, tuple[str, int]] = {}
        for folder in Path("/proc").glob("[0-9]*"):
            with suppress(OSError):
                # The name is in brackets and may contain anything. The state and the parent follow
                # it.
                before, _, after = (folder / "stat").read_text().rpartition(")")
                state, parent = after.split()[:2]
                if state not in "ZX":
                    found[int(folder.name)] = before.partition("(")[2], int(parent)
        return found

    def below(self, process: int) -> dict[int, str]:
        """Returns the descendants of a process, with their names."""
        running = self.running()
        found: dict[int, str] = {}
        above = {process}
        while above:
            above = {number for number, (_, parent) in running.items() if parent in above}
            found |= {number: running[number][0] for number in above}
        return found

    def ended_by(self, number: int, words: list[str], least: int) -> None:
        """Starts `haul`, and waits until at least `least` calls of its census program run at once.
        Checks that a signal then ends `haul`, these calls, and everything that was started for
        them."""
        with tempfile.TemporaryDirectory() as folder:
            Path(folder, "long").write_text(LONG)
            Path(folder, "many").write_text(MANY)
            # A program that runs for a long time and prints nothing.
            Path(folder, "sleeps").write_text("#!/bin/sh\nexec sleep 1000\n")
            Path(folder, "sleeps").chmod(0o755)
            # Tests that run in the background ignore SIGINT, and the program would inherit that.
            program = subprocess.Popen(
                [sys.executable, HAUL, *words],
                cwd=folder,
                stdout=subprocess.DEVNULL,
                stderr=subprocess.PIPE,
                preexec_fn=lambda: signal.signal(number, signal.SIG_DFL),
            )
            started: dict[int, str] = {}
            for _ in range(200):
                started = self.below(program.pid)
                if sum(name in ("census", "sleep") for name in started.values()) >= least:
                    break
                time.sleep(0.05)
            self.assertGreaterEqual(
                sum(name in ("census", "sleep") for name in started.values()), least
            )
            program.send_signal(number)
            errors = program.communicate(timeout=20)[1]
            self.assertEqual((program.returncode, errors), (-number, b""))
            for _ in range(100):
                if not self.running().keys() & started.keys():
                    break
                time.sleep(0.05)
            self.assertFalse(self.running().keys() & started.keys())

    def test_a_census_ends(self) -> None:
        for number in (signal.SIGINT, signal.SIGTERM, signal.SIGHUP):
            with self.subTest(number=number):
                self.ended_by(number, ["check", "long"], 1)

    def test_several_calls_end(self) -> None:
        threads = min(3, len(os.sched_getaffinity(0)))
        for words, least in ((["page"], threads), (["check", "--samples"], min(2, threads))):
            for number in (signal.SIGINT, signal.SIGTERM, signal.SIGHUP):
                with self.subTest(number=number, words=words):
                    self.ended_by(number, [*words, "--census", "./sleeps", "many"], least)

    def test_a_signal_that_is_ignored(self) -> None:
        """A signal that is ignored, as under `nohup`, doesn't end `haul`."""
        with tempfile.TemporaryDirectory() as folder:
            Path(folder, "slow").write_text("#!/bin/sh\nkill -HUP $PPID\nexit 4\n")
            Path(folder, "slow").chmod(0o755)
            ended = subprocess.run(
                [sys.executable, HAUL, "check", "--census", "./slow"],
                cwd=folder,
                input=census("take", "--count", "1"),
                capture_output=True,
                check=False,
                preexec_fn=lambda: signal.signal(signal.SIGHUP, signal.SIG_IGN),
            )
        self.assertEqual(ended.returncode, 4)


if __name__ == "__main__":
    unittest.main()
