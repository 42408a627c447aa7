"""`haul search`: takes soups until it is stopped, and keeps their haul in a file.

The census program takes one batch of soups after another, each in one call of `census take`:

    batch 1  ->  added to the haul in memory  ->  written to the file  ->  its finds are reported
    batch 2           while this batch runs, all of the above is done for batch 1
    ..

With more than sixteen workers, several batches run at once. They are added in the order of their
soups. One thread does everything except for running soups. While batches run, this thread looks for
finds in short steps, and waits for output of the programs and for signals.
"""

from __future__ import annotations

import time
from collections.abc import Callable
from contextlib import ExitStack, suppress
from functools import partial
from typing import TextIO

from haul.census.background import StreamWaiter
from haul.census.client import FAILED, Census, Ended
from haul.hauls.join import Joining
from haul.plurals import write_count
from haul.search.batches import Batches, Plan, Taken
from haul.search.finds import Finder, show_fields
from haul.search.finds_file import FindsFile, NewOfBatch
from haul.search.finds_program import FindsProgram
from haul.search.haul_file import Beside, Displaced
from haul.search.late_soups import list_late_finds
from haul.search.reporter import Reporter
from haul.search.resume import SearchFiles
from haul.search.stall import Stall
from haul.search.status_line import Status, StatusLine, format_duration
from haul.search.stopping import Stopping

# At most a fiftieth of the running time is spent on writing the file. But if finished batches wait
# to be written, the file is written at least every ten minutes.
SHARE_OF_WRITING, MOST_SECONDS_UNKEPT = 50, 600.0
# The longest time to wait for streams, and the longest time to look for finds before checking the
# streams again.
SECONDS_AT_A_TIME, SECONDS_OF_FINDING = 0.5, 0.02
# How long finds are still reported after a signal that ends the search at once.
LAST_SECONDS = 1.0
# If finds are still being reported this long after the last batch, a line says so.
SECONDS_WITHOUT_A_WORD = 5.0


class Dropped(Exception):
    """Raised if a signal ends the search at once, so that the running batches are lost."""


class Search:
    """A search in progress."""

    def __init__(
        self, plan: Plan, files: SearchFiles, census: Census, stopping: Stopping, output: TextIO
    ) -> None:
        """Prepares a search that continues with the haul in a file and writes its finds to
        `output`."""
        self.plan = plan
        self.files, self.haul_file, self.late = files, files.haul_file, files.late
        self.stopping = stopping
        self.terminal = census.terminal
        haul = files.haul
        self.job = haul.job
        self.joining = Joining()
        self.joining.add(haul)
        self.objects = haul.objects()
        # The number of soups in the batches that this search has finished.
        self.run_soups = 0
        # For the batches that aren't in the file yet: their new codes, and the fields of the lines
        # about their late and unsettled soups.
        self.unkept: list[NewOfBatch] = []
        self.unkept_late: list[list[str]] = []
        self.waiter = StreamWaiter()
        self.waiter.add(stopping.reading, stopping.hear)
        self.batches = Batches(plan, haul.job, haul.soups, census, self.waiter)
        self.finder = Finder(haul.job, haul, plan.rarer, files.unreported.since, plan.wants)
        self.calls = FindsProgram(self.waiter, plan.finds, self.terminal.complain)
        self.reporter = Reporter(output, self.terminal, self.calls, files.unreported.finds)
        self.reporter.show = self.calls.show = partial(show_fields, haul.job.rule)
        self.finds_file = FindsFile(
            files.finds_file, self.job, self.joining, self.finder, self.reporter
        )
        self.line = StatusLine(self.terminal)
        self.stall = Stall(plan.soup_seconds)
        self.said_that_it_finishes = self.said_what_is_left = False
        self.began = self.kept_at = time.monotonic()
        # How long all writing together took, and how long the latest writing took, in seconds.
        self.writing = self.latest_writing = 0.0

    def run(self) -> None:
        """Takes soups until the haul has as many soups as planned, or until the search is stopped.
        Raises `Dropped` if a signal ends the search at once."""
        with ExitStack() as whatever_happens:
            # The last of these is done first, and each is done even if another one fails.
            whatever_happens.callback(self.finds_file.write)
            whatever_happens.callback(self.terminal.show_progress, "")
            whatever_happens.callback(self.report_rest)
            whatever_happens.callback(self.keep)
            whatever_happens.callback(self.batches.drop)
            self.take_batches()

    # ---- Batches

    def take_batches(self) -> None:
        self.fill()
        if not self.batches.queue and not self.haul_file.is_there():
            self.write()
        while self.batches.queue:
            self.wait_until(self.is_first_ended)
            taken = self.batches.take_first()
            try:
                # The next batch runs while this one is added, written and examined.
                self.fill()
            finally:
                self.add(taken)
            if self.batches.queue and self.may_keep():
                self.keep()

    def fill(self) -> None:
        if not self.stopping.finishes:
            self.batches.fill()

    def is_first_ended(self) -> bool:
        if self.batches.is_first_ended():
            return True
        self.fill()
        return False

    def add(self, taken: Taken) -> None:
        haul = taken.haul
        new = [
            (code, soups[0])
            for code, soups in haul.samples.items()
            if code not in self.joining.totals
        ]
        self.unkept.append((haul.ranges[0][0], new))
        if self.late is not None and taken.lines is not None:
            latest = self.late.latest
            self.late.add(haul.ranges[0], taken.lines.lines, taken.lines.left_out)
            if self.plan.reports_late:
                self.unkept_late += list_late_finds(self.job, taken.lines, latest)
        self.joining.add(haul)
        self.objects += haul.objects()
        self.run_soups += haul.soups

    # ---- The files

    def may_keep(self) -> bool:
        """Checks whether the file may be written now without spending too much time on writing, or
        must be written anyway."""
        running = time.monotonic() - self.began
        return (
            self.writing + self.latest_writing
        ) * SHARE_OF_WRITING <= running or self.must_keep()

    def must_keep(self) -> bool:
        return (
            bool(self.unkept)
            and time.monotonic() - self.kept_at + self.latest_writing >= MOST_SECONDS_UNKEPT
        )

    def keep(self) -> None:
        """Writes the finished batches that aren't in the file yet. Then queues their late soups to
        be reported, and their objects to be examined for finds."""
        if not self.unkept:
            return
        began = time.monotonic()
        self.stopping.is_writing = True
        try:
            self.write()
        except Displaced:
            self.look_at_kept()
            raise
        finally:
            self.stopping.is_writing = False
        self.kept_at = time.monotonic()
        self.latest_writing = self.kept_at - began
        self.writing += self.latest_writing
        self.look_at_kept()

    def write(self) -> None:
        beside: list[Beside] = []
        if self.late is not None:
            # Its first line says which soups it covers, so each batch changes it.
            beside.append(Beside(self.files.late_file, self.late.write, True))
        beside.append(self.finds_file.write_beside(self.unkept, self.unkept_late))
        self.haul_file.write(self.joining.result(), beside)

    def look_at_kept(self) -> None:
        """Queues the late soups of the written batches to be reported, and their objects to be
        examined for finds."""
        for fields in self.unkept_late:
            self.reporter.add(fields)
        for first, codes in self.unkept:
            self.finder.add(codes, first)
        self.unkept.clear()
        self.unkept_late.clear()
        self.finds_file.note_written()

    # ---- What is done while batches run

    def wait_until(self, is_over: Callable[[], bool]) -> None:
        while not is_over():
            if self.stopping.number is not None:
                raise Dropped
            if self.stopping.finishes and not self.said_that_it_finishes:
                self.say_that_it_finishes()
            self.watch_for_stalls()
            if self.line.is_due():
                self.line.show(self.status())
            if self.must_keep():
                self.keep()
            self.calls.step()
            self.finds_file.forget_reported()
            if self.has_reported():
                self.waiter.wait(min(SECONDS_AT_A_TIME, self.line.seconds_left()))
            else:
                self.find_for(SECONDS_OF_FINDING)
                self.waiter.wait(0)

    def watch_for_stalls(self) -> None:
        """Raises `Ended` if batches are running and no soup has ended for too long."""
        was_long = self.stall.is_long()
        self.stall.look(self.joining.soups + self.batches.soups())
        if not self.batches.queue:
            return
        if self.stall.is_over():
            batch = self.batches.queue[0]
            raise Ended(FAILED, self.stall.last_words(self.job, batch.first + batch.call.soups()))
        if self.stall.is_long() and not was_long:
            self.line.show(self.status())

    def has_reported(self) -> bool:
        """Checks whether all finds have been found and printed, or printing has failed. Calls of
        the `--finds` program may remain."""
        return self.reporter.is_done() and (self.finder.is_done() or self.reporter.has_failed)

    def find_for(self, seconds: float) -> None:
        """Looks for finds and reports them, for about `seconds` seconds."""
        end = time.monotonic() + seconds
        while not self.has_reported() and time.monotonic() < end:
            if not self.reporter.is_done():
                self.reporter.report_next()
            else:
                for find in self.finder.step():
                    self.reporter.add(find.fields(self.job))

    def report_rest(self) -> None:
        """Reports the remaining finds and waits for the calls of the `--finds` program. After a
        signal that ends the search at once, reports what it can in one second, starts no further
        call, and kills the running one."""
        began = time.monotonic()

        def is_reported() -> bool:
            if time.monotonic() - began >= SECONDS_WITHOUT_A_WORD:
                self.say_what_is_left()
            return self.has_reported() and (self.calls.is_done() or self.reporter.has_failed)

        try:
            with suppress(Dropped):
                self.wait_until(is_reported)
            self.find_for(LAST_SECONDS)
        finally:
            if self.what_is_left() and not self.reporter.has_no_reader:
                self.terminal.complain(f"not all finds are told: {self.what_is_left()}")
            self.calls.end()

    def say_that_it_finishes(self) -> None:
        self.said_that_it_finishes = True
        batches = len(self.batches.queue)
        if not batches:
            self.say_what_is_left()
            return
        waited = ""
        if self.stall.seconds >= 1:
            waited = f", which has waited {format_duration(self.stall.seconds)} for a soup"
        rate = self.status().rate()
        when = (
            f", in about {format_duration(self.batches.soups_left() / rate)}"
            if rate > 0
            else waited
        )
        these, them = (
            ("this batch", "the batch") if batches == 1 else (f"these {batches} batches", "them")
        )
        self.terminal.complain(f"stops after {these}{when}; Ctrl-C again drops {them}")

    def say_what_is_left(self) -> None:
        """Says once what remains to be done after the last batch."""
        if not self.said_what_is_left:
            self.said_what_is_left = True
            again = "again" if self.stopping.finishes else "twice"
            left = self.what_is_left() or "the last ones"
            self.terminal.complain(f"finds are still told: {left}; Ctrl-C {again} stops that")

    def what_is_left(self) -> str:
        left = (
            [write_count(self.finder.left(), "object") + " to look at"]
            if not self.finder.is_done()
            else []
        )
        return ", ".join(left + self.reporter.what_is_left())

    def status(self) -> Status:
        running = self.batches.soups()
        soups = self.joining.soups + running
        left = max(0, self.plan.until - soups) if self.plan.until is not None else None
        return Status(
            soups,
            self.run_soups + running,
            self.objects,
            len(self.joining.totals),
            self.reporter.count,
            time.monotonic() - self.began,
            left,
            self.stall.text(self.batches.measure_memory()) if self.is_stalled() else None,
            self.batches.first_progress() if self.joining.soups == 0 else None,
        )

    def is_stalled(self) -> bool:
        return bool(self.batches.queue) and self.stall.is_long()
