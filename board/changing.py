"""Changes of day: what is told before one, and how it is made, by a desk or by `--day-at`."""
import asyncio
from collections.abc import Awaitable, Callable
from datetime import date, datetime, time, timedelta, timezone

from board.answers import Answers, Question
from board.carrying import NO_CARRY, next_airport, next_date
from board.clock import Trust
from board.day import Day
from board.desks import Desk
from board.log import Batch, Change, Log
from board.records import Records
from board.words import Fault, Problem, refuse, tell

# Seconds between two looks at the clock, and for which flights that are LEFT are waited for.
LOOK_SECONDS = 20.0
WAIT = timedelta(hours=2)
EARLIEST = time(1)
LATEST = time(21, 59)
REPLY_SECONDS = 20.0
MOST_TOLD = 200
DAY_AT_DESK = Desk("day-at", "ATC")
MADE = "another day began meanwhile"


Check = Callable[[], Awaitable[None]]


class Changing:
    """Makes the changes of a board's day."""

    def __init__(self, log: Log, day: Day, answers: Answers, records: Records) -> None:
        self._log = log
        self._day = day
        self._answers = answers
        self._records = records
        self._making = asyncio.Lock()

    async def told(self, asker: str, airport: bytes | None = None, is_tower: bool = True) -> tuple[int, list[str]]:
        """The position of which it is, and what a person must know before the day changes to an airport file, line by line. Raises Problem."""
        wanted = next_airport(self._day) if airport is None else airport
        position, ran = await self._answers.ask(asker, Question("carry", ("scenarios.csv", "--tell"), wanted), is_tower)
        refuse(ran.status == 2, 503, NO_CARRY)
        refuse(ran.status == 3, 422, ran.told)
        refuse(ran.status not in (0, 4), 503, ran.told or "the program ended", Retry_After="5")
        return position, ran.output.decode("ascii", "replace").splitlines()

    async def make(self, desk: Desk, day: str, airport: bytes | None, address: str | None = None, check: Check | None = None) -> None:
        """Has the day of a date, which is the next one, begin, with the same airport file or with another one. `check`: raises Problem where
        something speaks against it, also if that came last. Raises Problem; 504: not known."""
        async with self._making:
            refuse(self._records.is_closing, 503, "the server is ending; nothing was taken", Retry_After="5")
            refuse(next_date(self._day) != day, 409, MADE)
            began = self._day.change.position
            wanted = next_airport(self._day) if airport is None else airport

            async def carry(last: int) -> Change:
                await self._day.reached(last)
                refuse(self._day.change.position != began, 409, MADE)
                if check is not None:
                    await check()
                sequencer = self._records.sequencer
                try:
                    change = Change(last + 1, wanted, await sequencer.carry(wanted))
                except (Fault, OSError) as fault:
                    raise Problem(503, f"the day wasn't carried over: {fault}; nothing was taken", Retry_After="5") from None
                sequencer.carried = change.digest
                return change
            batch = Batch(desk.name, [("ATC", f"DAY,{day}")], address=address, carry=carry)
            try:
                async with asyncio.timeout(REPLY_SECONDS):
                    batch.change = await carry(self._day.position)
                    positions = await self._log.append(batch)
                    await self._day.reached(positions[-1])
            except (TimeoutError, Problem) as why:
                if isinstance(why, Problem) and why.status != 504:
                    raise
                raise Problem(504, f"it isn't known whether {day} has begun; ask again, with ?day={day}") from None

    async def run(self, at: time) -> None:
        """Makes each change at a time of the next day, UTC. Returns never."""
        said = ""
        trust = Trust(self._known())
        began = self._day.change.position
        while True:
            if self._day.change.position > began and self._day.records[0].desk != DAY_AT_DESK.name:
                began = self._day.change.position
                trust.begun(self._day.date)
            wrong = trust.why_not(datetime.now(timezone.utc), self._log.clock_ahead)
            why = f"no day begins by itself: {wrong}" if wrong else await self._look(at)
            if why and why != said:
                tell(f"cdmboard: {why}")
            said = why
            await asyncio.sleep(LOOK_SECONDS)

    def _known(self) -> datetime:
        """The last that the log knows of the time: NOW, or when its last record was taken, which a wrong clock may have said, so not beyond the
        day's two days; without records their end."""
        end = datetime.fromisoformat(f"{self._day.date}T00:00Z") + timedelta(days=2)
        known = list[datetime]()
        if (taken := moment_of(self._day.at(self._day.position))) is not None:
            known.append(min(taken, end))
        if (now := moment_of(self._day.clock)) is not None:
            known.append(now)
        return max(known, default=end)

    async def _look(self, at: time) -> str:
        """Makes the change, if it is due. What is to be said of it."""
        due = datetime.combine(date.fromisoformat(next_date(self._day)), at, timezone.utc)
        now = datetime.now(timezone.utc)
        if now < due:
            return ""
        day = next_date(self._day)
        try:
            left = await self._left()
            if left and now < due + WAIT:
                return f"{day} waits for flights that are off-block since before midnight: {'; '.join(left)}"
            await self.make(DAY_AT_DESK, day, None)
        except Problem as problem:
            return f"{day} doesn't begin yet: {problem}"
        return f"{day} has begun" + (f"; LEFT behind: {'; '.join(left)}" if left else "")

    async def _left(self) -> list[str]:
        """What is told of flights that would be LEFT. Raises Problem."""
        _, lines = await self.told(DAY_AT_DESK.name)
        return [line for line in lines if line.startswith("LEFT ")][:MOST_TOLD]


def moment_of(said: str) -> datetime | None:
    """The moment that a text says, if it says one."""
    try:
        moment = datetime.fromisoformat(said)
    except ValueError:
        return None
    return moment if moment.tzinfo else None


def time_of(said: str) -> time:
    """The time of `--day-at`. Raises ValueError."""
    at = time.fromisoformat(said) if len(said) == 5 else None
    if at is None or not EARLIEST <= at <= LATEST:
        raise ValueError(said)
    return at
