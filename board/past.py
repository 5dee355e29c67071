"""Earlier days of the log: each is read when it is asked for, and a few are kept."""
import asyncio
import contextlib
from collections import OrderedDict
from collections.abc import AsyncIterator
from datetime import date, timedelta
from typing import NamedTuple

from board.answers import LIMITED, PLACE_SECONDS, day_of
from board.chain import begun_of
from board.day import Day
from board.log import Away, Change, Log, Record
from board.words import Fault, Problem, refuse

# Earlier days that are kept; records among which a flight or a desk is sought at once.
MOST_DAYS = 2
MOST_SOUGHT = 20_000
PAST_AWAY = "the log can't be asked for an earlier day at present"


class Span(NamedTuple):
    """A day of the log: the position of its change, its date, and its last position, if it has ended."""
    base: int
    date: str
    last: int


class Past:
    """The days before the present one, `day`."""

    def __init__(self, folder: str, program: str, log: Log, day: Day) -> None:
        self._folder = folder
        self._program = program
        self._log = log
        self._day = day
        self._kept = OrderedDict[int, Day]()
        self._spans = list[Span]()
        # The day's `starts` when its spans were read.
        self._read = -1
        self._reading = asyncio.Lock()

    def keep(self, day: Day) -> None:
        """Keeps a day that has ended, and no more than a few."""
        self._kept[day.change.position] = day
        self._kept.move_to_end(day.change.position)
        while len(self._kept) > MOST_DAYS:
            self._kept.popitem(last=False)

    def forget(self) -> None:
        """Keeps nothing: the log has another past."""
        self._kept.clear()
        self._read = -1

    async def spans(self) -> list[Span]:
        """All days, the first one first. Raises Problem."""
        if self._read == self._day.starts:
            return self._spans
        starts = self._day.starts
        try:
            changes = await begun_of(self._folder, self._program, self._log)
        except (Away, Fault, OSError):
            raise Problem(503, PAST_AWAY, Retry_After="1") from None
        self._spans = spans_of(self._day.date, changes)
        self._read = starts
        return self._spans

    async def of_date(self, said: str) -> Day:
        """The day of a date. Raises Problem."""
        if said == self._day.date:
            return self._day
        base = next((span.base for span in await self.spans() if span.date == said), None)
        if base is None:
            raise Problem(404, "the log has no such day")
        return await self.of_base(base)

    async def of_position(self, position: int) -> Day:
        """The day in which a position is; the present one, if it is none yet. Raises Problem."""
        if position >= self._day.first:
            return self._day
        return await self.of_base(next((span.base for span in await self.spans() if position <= span.last), self._day.change.position))

    async def of_base(self, base: int) -> Day:
        """The day that a change at a position begins; 0: the first one. Raises Problem."""
        if base == self._day.change.position:
            return self._day
        async with self._turn():
            if base in self._kept:
                self._kept.move_to_end(base)
                return self._kept[base]
            span = next((span for span in await self.spans() if span.base == base and span.last), None)
            if span is None:
                raise Problem(404, "the log has no such day")
            starts = self._day.starts
            try:
                day = await self._read_day(span)
            except (Away, Fault, OSError):
                raise Problem(503, PAST_AWAY, Retry_After="1") from None
            refuse(starts != self._day.starts, 503, "the day began anew; ask again", Retry_After="1")
            self.keep(day)
            return day

    @contextlib.asynccontextmanager
    async def _turn(self) -> AsyncIterator[None]:
        """One day is read at a time. Raises Problem."""
        try:
            async with asyncio.timeout(PLACE_SECONDS):
                await self._reading.acquire()
        except TimeoutError:
            raise Problem(503, PAST_AWAY, Retry_After="5") from None
        try:
            yield
        finally:
            self._reading.release()

    async def _read_day(self, span: Span) -> Day:
        """Reads a day that has ended, and asks the program for its replies. Raises Away, Fault, OSError."""
        change = await self._log.change(span.base) if span.base else Change(0, self._log.airport)
        if change is None:
            raise Away("its change is gone")
        records = await self._log.between(max(1, span.base), span.last)
        return await day_of(self._folder, self._program, records, self._day.kinds.text, change, LIMITED)

    async def found(self, since: int, flight: str | None, desk: str | None) -> tuple[Day, list[Record]]:
        """The first records behind a position, of a flight and of a desk if these are asked for, all of one day. Raises Problem."""
        while since + 1 < self._day.first:
            next_one: int | None = since + 1
            if flight is not None or desk is not None:
                try:
                    next_one = await self._log.sought(since, since + MOST_SOUGHT, flight, desk, self._day.kinds.of_flight)
                except (Away, Fault):
                    raise Problem(503, PAST_AWAY, Retry_After="1") from None
            if next_one is None:
                since += MOST_SOUGHT
                continue
            day = await self.of_position(next_one)
            if found := day.found(since, flight, desk):
                return day, found
            since = day.position
        return self._day, self._day.found(since, flight, desk)


def spans_of(present: str, changes: list[Record]) -> list[Span]:
    """The days that changes of day make; `present`: the date of the last one."""
    days = [(change.position, change.line.removeprefix("DAY,")) for change in changes]
    first = str(date.fromisoformat(days[0][1]) - timedelta(days=1)) if days else present
    begun = [(0, first), *days]
    return [Span(base, said, begun[number][0] - 1 if number < len(begun) else 0) for number, (base, said) in enumerate(begun, 1)]
