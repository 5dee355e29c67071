"""The desks that wait for a transaction: carries out what the writer orders."""
import asyncio
import itertools
from collections.abc import Callable, Iterable

from board.log import Batch
from board.writer import WAIT_SECONDS, Answer, Order, Writer
from board.writer import Commit as Commit


class Commits:
    """The writer of one log, and the futures of its desks. `begin` is called with each transaction that is to run."""

    def __init__(self, begin: Callable[[Commit], None], closed: str | None = None) -> None:
        self.writer = Writer(closed)
        self._begin = begin
        self._tickets = itertools.count(1)
        self._desks = dict[int, asyncio.Future[range]]()

    async def append(self, batch: Batch) -> range:
        """The records' positions, once they are in the log. Raises Problem; 503: nothing was taken; 504: not known."""
        loop = asyncio.get_running_loop()
        ticket = next(self._tickets)
        positions: asyncio.Future[range] = loop.create_future()
        self._desks[ticket] = positions
        is_late = loop.call_later(WAIT_SECONDS, lambda: self.do(self.writer.waited(ticket)))
        try:
            self.do(self.writer.offered(ticket, batch))
            return await positions
        finally:
            is_late.cancel()
            del self._desks[ticket]
            self.do(self.writer.gone(ticket))

    def do(self, orders: Iterable[Order]) -> None:
        """Carries out orders. Who is gone is told nothing."""
        for order in orders:
            if not isinstance(order, Answer):
                self._begin(order)
                continue
            positions = self._desks.get(order.ticket)
            if positions is None or positions.done():
                continue
            if isinstance(order.said, range):
                positions.set_result(order.said)
            else:
                positions.set_exception(order.said)
