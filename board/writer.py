"""Which batches go into which transaction, and what their desks are told: a machine without input, output or clock.

Who holds the log tells it what happened (a batch came, a wait is over, a transaction ended) and carries out the orders that each of these
events returns. At most one transaction runs. After one that failed none begins until the engine is there again."""
from collections.abc import Iterable, Sequence
from dataclasses import dataclass
from enum import Enum

from board.log import NOT_KNOWN, Batch
from board.words import Problem

# Batches of one transaction, and batches that wait for one.
MOST_TOGETHER = 512
MOST_WAITING = 8192
# Seconds that a batch waits for its transaction to begin, and seconds that a transaction may take. A desk waits longer than both.
WAIT_SECONDS = 8.0
COMMIT_SECONDS = 20.0
LATE = "the log was busy for too long; nothing was taken"
MANY = "too many records wait for the log; nothing was taken"
REFUSED = "the log's database refuses these records; nothing was taken"


class Outcome(Enum):
    """How a transaction without answers ended: nothing was taken; nothing was taken since the engine refuses what a batch holds; unknown."""
    NOTHING = 1
    REFUSED = 2
    UNKNOWN = 3


@dataclass(frozen=True)
class Commit:
    """The order to run one transaction with these batches, in this order. Its end is told with its number."""
    number: int
    batches: tuple[Batch, ...]


@dataclass(frozen=True)
class Answer:
    """The order to tell a desk where its records are, or why it gets no positions."""
    ticket: int
    said: range | Problem


Order = Commit | Answer


def nothing(why: str) -> Problem:
    """What is answered where nothing was taken."""
    return Problem(503, why, Retry_After="1")


class Writer:
    """The batches of all desks. A ticket is the number of one call of a desk."""

    def __init__(self, closed: str | None = None) -> None:
        self._closed = closed
        self._number = 0
        # Those that wait; those that go one by one, since a transaction with them was refused, or which change the day; those of the
        # transaction that runs.
        self._waiting = dict[int, Batch]()
        self._alone = dict[int, Batch]()
        self._running: dict[int, Batch] | None = None
        # Of the transaction that runs: those that go into no other one, since they waited for as long as they may, or nobody waits.
        self._late = set[int]()
        self._is_overdue = False

    @property
    def closed(self) -> str | None:
        """Why no batch is taken at present."""
        return self._closed

    @property
    def waiting(self) -> int:
        """How many batches wait for a transaction to begin."""
        return len(self._waiting) + len(self._alone)

    def offered(self, ticket: int, batch: Batch) -> list[Order]:
        """A desk has a batch."""
        if self._closed is not None:
            return [Answer(ticket, nothing(self._closed))]
        # Those of a transaction that is refused wait again, one by one.
        if self.waiting + len(self._running or {}) >= MOST_WAITING:
            return [Answer(ticket, nothing(MANY))]
        # A change of day needs the last position for itself.
        (self._waiting if batch.change is None else self._alone)[ticket] = batch
        return self._next()

    def waited(self, ticket: int) -> list[Order]:
        """A batch has waited for as long as it may: it is withdrawn, unless its transaction runs."""
        if self._waiting.pop(ticket, None) or self._alone.pop(ticket, None):
            return [Answer(ticket, nothing(LATE))]
        return self._is_late(ticket)

    def gone(self, ticket: int) -> list[Order]:
        """Nobody waits for this answer any more: a batch whose transaction doesn't run is never taken."""
        self._waiting.pop(ticket, None)
        self._alone.pop(ticket, None)
        return self._is_late(ticket)

    def committed(self, number: int, said: Sequence[range | Problem]) -> list[Order]:
        """A transaction was committed, with an answer to each batch. One that was overdue shows that the engine is there again."""
        if self._running is None or number != self._number:
            return []
        answers: list[Order] = [Answer(ticket, positions) for ticket, positions in zip(self._running, said)]
        self._end()
        return answers + self._next()

    def failed(self, number: int, outcome: Outcome, why: str) -> list[Order]:
        """A transaction ended without answers."""
        if self._running is None or number != self._number:
            return []
        running = self._running
        late = self._late
        if outcome is Outcome.REFUSED:
            self._end()
            if len(running) == 1:
                return [*self._told(running, nothing(REFUSED)), *self._next()]
            self._alone = {ticket: batch for ticket, batch in running.items() if ticket not in late} | self._alone
            return [*self._told([ticket for ticket in running if ticket in late], nothing(LATE)), *self._next()]
        self._running = None
        self._is_overdue = False
        said = Problem(504, NOT_KNOWN) if outcome is Outcome.UNKNOWN else nothing(why)
        return [*self._told(running, said), *self._close(why)]

    def overdue(self, number: int, why: str) -> list[Order]:
        """A transaction takes longer than it may, and still runs: its desks aren't kept waiting."""
        if self._running is None or number != self._number or self._is_overdue:
            return []
        running = self._running
        self._running = {}
        self._is_overdue = True
        return [*self._told(running, Problem(504, NOT_KNOWN)), *self._close(why)]

    def lost(self, why: str) -> list[Order]:
        """The engine is away. It isn't known what became of the transaction that ran."""
        running = self._running or {}
        self._running = None
        self._is_overdue = False
        return [*self._told(running, Problem(504, NOT_KNOWN)), *self._close(why)]

    def opened(self) -> list[Order]:
        """The engine is there."""
        self._closed = None
        return self._next()

    def _is_late(self, ticket: int) -> list[Order]:
        if self._running and ticket in self._running:
            self._late.add(ticket)
        return []

    def _end(self) -> None:
        """The transaction that ran is over, and the engine is there: also where it took longer than it may."""
        if self._is_overdue:
            self._closed = None
        self._running = None
        self._is_overdue = False
        self._late = set()

    def _close(self, why: str) -> list[Order]:
        waiting = self._alone | self._waiting
        self._closed = why
        self._alone = {}
        self._waiting = {}
        self._late = set()
        return self._told(waiting, nothing(why))

    @staticmethod
    def _told(tickets: Iterable[int], said: Problem) -> list[Order]:
        return [Answer(ticket, said) for ticket in tickets]

    def _next(self) -> list[Order]:
        """The next transaction, if one may begin."""
        if self._running is not None or not self.waiting:
            return []
        come_from, most = (self._alone, 1) if self._alone else (self._waiting, MOST_TOGETHER)
        tickets = list(come_from)[:most]
        self._running = {ticket: come_from.pop(ticket) for ticket in tickets}
        self._number += 1
        return [Commit(self._number, tuple(self._running.values()))]
