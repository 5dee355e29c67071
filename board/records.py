"""Records: from a desk into the log, and their replies out of the sequencer; and whether any get replies at present."""
import asyncio
import contextlib
import time
from collections import defaultdict
from collections.abc import Iterator

from board.day import Day
from board.desks import Desk, Pace
from board.log import MOST_RECORDS, NOT_KNOWN, Batch, Log
from board.metrics import REPLY_TIMES
from board.sequencer import Sequencer
from board.words import Problem, refuse

# From so many accepted updates, or so many records short of the log's end, on ATC alone sends.
TOWERS = 18_000
RESERVED = 2000
REPLY_LIMIT = 30.0
# Records that wait for so long, while none gets its reply, say that none does.
TAKING_LIMIT = 10.0


class Records:
    """What desks send. `is_closing`: nothing more is taken."""

    def __init__(self, log: Log, day: Day, sequencer: Sequencer) -> None:
        self._log = log
        self._day = day
        self.sequencer = sequencer
        self.is_closing = False
        self.paces: defaultdict[str, Pace] = defaultdict(Pace)
        self._bodies: dict[object, float] = {}
        self._replied = float("-inf")

    def waiting(self) -> int:
        """How many records wait for their replies."""
        return sum(pace.waiting for pace in self.paces.values())

    def why_not(self) -> str:
        """Why records get no replies at present; nothing if they do."""
        if self.is_closing:
            return "the server is ending"
        if not self.sequencer.is_ready.is_set():
            return "the sequencer is being started"
        if self._log.stale_since is not None:
            return f"the log has been away since {self._log.stale_since}"
        last = max(self._replied, min(self._bodies.values(), default=float("inf")))
        if time.monotonic() - last > TAKING_LIMIT:
            return f"no record has had a reply for {TAKING_LIMIT:.0f} seconds"
        return ""

    async def take(self, desk: Desk, lines: list[str], key: str | None, address: str | None = None) -> bytes:
        """Records into the log, and their replies out of the sequencer; `address`: who sent them. Raises Problem."""
        refuse(self.is_closing, 503, "the server is ending; nothing was taken", Retry_After="5")
        accepted = len(self._day.lines)
        waiting = self.waiting()
        is_full = accepted >= TOWERS or len(self._day.records) >= MOST_RECORDS - RESERVED
        is_rush = desk.role != "ATC" and not is_full and waiting and accepted + waiting >= TOWERS
        refuse(is_rush, 429, "the last updates are taken one desk after the other", Retry_After="1")
        batch = Batch(desk.name, [(desk.role, line) for line in lines], key, desk.records, address=address)
        if is_full and desk.role != "ATC":
            batch.closed = f"from {TOWERS} accepted updates, or {MOST_RECORDS - RESERVED} records, on ATC alone sends"
        with self.paces[desk.name].of(len(lines)), REPLY_TIMES.time(), self._counted():
            try:
                async with asyncio.timeout(REPLY_LIMIT):
                    positions = await self._log.append(batch)
                    await self._day.reached(positions[-1])
            except TimeoutError:
                raise Problem(504, "no reply yet; send again with the same key") from None
            self._replied = time.monotonic()
        # The day may have changed since, or the key came before that.
        try:
            day = self._day if positions[0] >= self._day.first else await self.sequencer.past.of_position(positions[0])
        except Problem:
            raise Problem(504, "no reply yet; send again with the same key") from None
        records = day.of(positions[0], positions[-1])
        # A fail-over that lost them may have given their positions to others.
        refuse([(record.desk, record.line) for record in records] != [(desk.name, line) for line in lines], 504, NOT_KNOWN)
        return day.replies(records)

    @contextlib.contextmanager
    def _counted(self) -> Iterator[None]:
        """While a body waits for its replies."""
        body = object()
        self._bodies[body] = time.monotonic()
        try:
            yield
        finally:
            del self._bodies[body]
