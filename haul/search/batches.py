"""The batches of a search that have been started. With more than sixteen workers, several batches
run at once."""

from __future__ import annotations

import io
from collections import deque
from dataclasses import dataclass, field

from haul.census.background import BackgroundTake, StreamWaiter
from haul.census.children import NoCensus
from haul.census.client import Census
from haul.census.command_lines import WORKERS_OF_A_CALL, list_take_arguments
from haul.formats.field_reader import BadHaul
from haul.formats.haul import NUMBER_LIMIT, Haul, Job
from haul.formats.haul_reader import read_one_haul
from haul.known.wanted import Want
from haul.search.late_soups import BatchLines

# If several batches run at once, the queue has at most this many batches per running batch.
# Finished batches wait in the queue for the batches before them.
BATCHES_FOR_EACH = 4


@dataclass(frozen=True)
class Plan:
    """The settings of a search."""

    # The number of the next soup.
    next: int
    # The search ends when the haul has this many soups, including those of earlier searches. `None`
    # if there is no limit.
    until: int | None
    # The number of soups in a batch.
    batch_size: int
    workers: int
    # The program to call for each find, or `None` if none is called.
    finds: str | None
    # Under Life, a part is a find only if fewer than one in this many soups of the reference has
    # it.
    rarer: int
    # A soup is late if it settles at this generation or later. `None` if neither late nor unsettled
    # soups are kept.
    late: int | None = None
    # Whether late and unsettled soups are reported.
    reports_late: bool = False
    # The search ends after this many seconds without a soup, or never if it is 0.
    soup_seconds: int = 60
    # What a find has to be one of, or nothing.
    wants: list[Want] = field(default_factory=list)


@dataclass
class Batch:
    """A started batch: `count` soups from soup `first` on, and the call that takes them."""

    first: int
    count: int
    call: BackgroundTake
    # The number of its workers, or 0 once they are free again.
    workers: int


@dataclass
class Taken:
    """The result of a batch."""

    haul: Haul
    # The late and unsettled soups of the batch, or `None` if they aren't kept.
    lines: BatchLines | None


class Batches:
    """The batches that have been started but not added to the haul, in the order of their soups."""

    def __init__(self, plan: Plan, job: Job, soups: int, census: Census, waiter: StreamWaiter):
        """Creates an empty queue. `soups` is the number of soups in the haul."""
        self.plan, self.job, self.census, self.waiter = plan, job, census, waiter
        # The number of soups in the haul and in all started batches, and the number of the next
        # soup.
        self.begun, self.next = soups, plan.next
        self.queue: deque[Batch] = deque()
        self.free = share_workers(plan.workers)
        calls = len(self.free)
        self.most = calls * BATCHES_FOR_EACH if calls > 1 else calls

    def fill(self) -> None:
        """Starts batches until all workers are busy, the queue is full, a batch has failed, or no
        soups remain."""
        for batch in self.queue:
            if batch.workers and batch.call.is_ended():
                self.free.append(batch.workers)
                batch.workers = 0
        while self.free and len(self.queue) < self.most and not self.has_failed():
            if not self.begin(self.free[-1]):
                return
            self.free.pop()

    def has_failed(self) -> bool:
        return any(not batch.workers and batch.call.process.returncode for batch in self.queue)

    def begin(self, workers: int) -> bool:
        """Starts the next batch. Returns `False` if no soups remain."""
        plan = self.plan
        most = plan.until - self.begun if plan.until is not None else plan.batch_size
        count = min(plan.batch_size, most, NUMBER_LIMIT - self.next)
        if count <= 0:
            return False
        words = list_take_arguments(self.job, [(self.next, count)], workers, True, late=plan.late)
        call = BackgroundTake(self.waiter, [self.census.path, *words], count)
        self.queue.append(Batch(self.next, count, call, workers))
        self.next += count
        self.begun += count
        return True

    def is_first_ended(self) -> bool:
        return self.queue[0].call.is_ended()

    def take_first(self) -> Taken:
        """Removes the first batch, which must have ended, and returns its result. Raises `Ended` if
        its call failed. Raises `NoCensus` if the result isn't the haul of the batch, or if the
        report lines aren't those of the batch."""
        batch = self.queue.popleft()
        if batch.workers:
            self.free.append(batch.workers)
        text = batch.call.haul_text()
        try:
            haul = read_one_haul(io.BytesIO(text))
        except BadHaul:
            raise NoCensus.at(self.census.path) from None
        ranges = [(batch.first, batch.count)]
        if (haul.job, haul.ranges, haul.soups) != (self.job, ranges, batch.count):
            raise NoCensus.at(self.census.path)
        if self.plan.late is None:
            return Taken(haul, None)
        return Taken(haul, BatchLines(batch.call, haul, self.plan.late, self.census.path))

    def drop(self) -> None:
        """Ends all calls and discards their results."""
        while self.queue:
            self.queue.popleft().call.end()

    def soups(self) -> int:
        """Returns the number of soups that the batches in the queue have run."""
        return sum(batch.call.soups() if batch.workers else batch.count for batch in self.queue)

    def first_progress(self) -> tuple[int, int] | None:
        """Returns how many soups the first batch has run, and how many it has. Returns `None` if no
        batch is running."""
        if not self.queue:
            return None
        batch = self.queue[0]
        return (batch.call.soups() if batch.workers else batch.count), batch.count

    def measure_memory(self) -> int:
        """Returns the number of bytes of memory that the running batches use."""
        return sum(batch.call.measure_memory() for batch in self.queue if batch.workers)

    def soups_left(self) -> int:
        return sum(batch.count for batch in self.queue) - self.soups()


def share_workers(workers: int) -> list[int]:
    """Returns the number of workers for each of the batches that run at once."""
    calls = -(-workers // WORKERS_OF_A_CALL)
    return [workers // calls + (call < workers % calls) for call in range(calls)]
