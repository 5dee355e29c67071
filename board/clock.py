"""The day's clock: the machine's UTC minutes as records; and whether the machine's clock is trusted so far that days begin by it."""
import asyncio
import time
from collections.abc import Awaitable, Callable
from datetime import date, datetime, timedelta

from board.day import Day
from board.desks import ANY, Desk
from board.words import Problem, now_text, tell

CLOCK_DESK = Desk("clock", "ATC", (), 60_000, None, ANY)
JUMP = timedelta(minutes=5)
# By how much the clock may be ahead, at a start, of the last that the log knew of the time.
FAR = timedelta(days=1)


class Trust:
    """Whether days begin by the machine's clock, which may be wrong at the start, or jump later. `known`: the last that the log knew of the
    time at the start. Nothing here waits, reads or writes."""

    def __init__(self, known: datetime) -> None:
        self._limit = known + FAR
        self._why = f"more than a day after {known:%Y-%m-%dT%H:%MZ}, the last that the log knew of the time; if it is right, begin the day (POST /v1/day)"

    def begun(self, day: str) -> None:
        """A desk has begun the day of a date, which is therefore the present one: a clock of this day is right."""
        self._limit = max(self._limit, datetime.fromisoformat(f"{day}T00:00Z") + timedelta(days=1))

    def why_not(self, now: datetime, ahead: float) -> str:
        """Why no day begins by the clock, which says this; nothing if one may. `ahead`: how many seconds it is ahead of the log's own clock."""
        if abs(ahead) > JUMP.total_seconds():
            return "this machine's clock and the database's differ by more than 5 minutes"
        if now > self._limit:
            return f"this machine's clock is {self._why}"
        self._limit = now + JUMP
        self._why = f"more than 5 minutes after {now:%Y-%m-%dT%H:%MZ}, when it was last looked at; a new start goes by it"
        return ""


async def run(day: Day, take: Callable[[Desk, list[str], str], Awaitable[object]]) -> None:
    """Takes a CLOCK each minute, the first at once, with the minute as its key. Returns never."""
    limit = ""
    told = ""
    while True:
        now = now_text("minutes")
        why = ""
        if now[:10] not in (day.date, str(date.fromisoformat(day.date) + timedelta(days=1))):
            why = f"no CLOCK is taken outside the two days from {day.date} on"
        elif limit and now > limit:
            why = f"no CLOCK is taken: {now} is more than 5 minutes after the last; a new start takes it"
        else:
            # Also where it isn't taken, since a log that is away for long is no jump.
            limit = now_text("minutes", JUMP)
            try:
                await take(CLOCK_DESK, [f"CLOCK,{now}"], now)
            except Problem as problem:
                why = f"no CLOCK was taken: {problem}"
        if why and why != told:
            tell(f"cdmboard: {why}")
        told = why
        await asyncio.sleep(60 - time.time() % 60)
