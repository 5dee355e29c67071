"""Changes of day over HTTP: what is told before one, and one that a desk makes."""
import functools
import json
import time

from aiohttp import web

from board.callers import DESK, Callers
from board.carrying import next_date
from board.changing import MOST_TOLD, Changing
from board.day import Day
from board.desks import Desk
from board.past import Past
from board.questions import Questions, body_of
from board.words import Problem, refuse

# Of what is told before a change, what it doesn't begin with, unless a desk wants it even so.
STOPS = ("LEFT ", "REFUSED ")
# Seconds in which a request that names no day may be the one that began the present day.
SOON = 60.0


class Days:
    """The board's days."""

    def __init__(self, callers: Callers, day: Day, past: Past, changing: Changing, questions: Questions) -> None:
        self._callers = callers
        self._day = day
        self._past = past
        self._changing = changing
        self._questions = questions

    def routes(self) -> list[web.RouteDef]:
        """All paths."""
        return [web.get(r"/v1/day{form:(\.json)?}", self.get), web.post("/v1/day", self.post)]

    async def get(self, request: web.Request) -> web.Response:
        """The day, the next one and the one before, and what a person must know before the day changes."""
        desk: Desk = request[DESK]
        position, lines = await self._changing.told(self._callers.asker(request), is_tower=desk.role == "ATC")
        state = await self._state()
        form = request.match_info["form"][1:]
        said = json.dumps(state | {"told": lines}, separators=(",", ":"))
        if not form:
            said = "\n".join([f"DAY {state['day']} BEFORE {state['before'] or '-'} NEXT {state['next']}", *lines])
        return await self._questions.of_moment(request, position, form, f"{said}\n".encode())

    async def _state(self) -> dict[str, object]:
        earlier = [span.date for span in await self._past.spans() if span.base < self._day.change.position]
        return {"day": self._day.date, "position": self._day.change.position, "before": earlier[-1] if earlier else None, "next": next_date(self._day)}

    async def post(self, request: web.Request) -> web.Response:
        """Has the next day begin: with the airport file of the body, or with the same one."""
        refuse("Idempotency-Key" in request.headers, 400, "a change of day has no key: ?day= and its date is what makes it once")
        is_even = request.query.get("even") == "yes"
        wanted = request.query.get("day")
        # Sent twice, such a request would begin two days, whatever is lost with the second one.
        refuse(is_even and wanted is None, 400, f"?even=yes needs the date of the day that is to begin: ?even=yes&day={next_date(self._day)}")
        airport = await body_of(request) or None
        # Who lost the right while the body came changes nothing.
        desk = self._callers.desk_of(request)
        day = self._day
        refuse(desk.role != "ATC" or desk.clock is None, 403, "a desk of the tower that sends CLOCK changes the day")
        if not self._has_begun(airport, wanted):
            following = next_date(day)
            refuse(wanted not in (None, following), 409, f"the next day is {following}")
            # Nothing in such a request says that it isn't the one before, which came twice.
            is_again = airport is None and wanted is None and time.monotonic() - day.began < SOON
            refuse(is_again, 409, f"{day.date} has just begun; ?day={following} begins the next day")
            check = None if is_even else functools.partial(self._check, self._callers.asker(request), airport)
            if check is not None:
                await check()
            await self._changing.make(desk, following, airport, self._callers.address(request), check)
        try:
            return web.json_response(await self._state())
        except Problem as problem:
            raise Problem(504, f"{self._day.date} has begun: {problem}") from None

    def _has_begun(self, airport: bytes | None, wanted: str | None) -> bool:
        """Whether what is asked for has begun already: the day of a date, or, if none is said, a day with this airport file."""
        change = self._day.change
        if wanted is None:
            return change.position > 0 and airport == change.airport
        return wanted == self._day.date and airport in (None, change.airport)

    async def _check(self, asker: str, airport: bytes | None) -> None:
        """Raises Problem if the day isn't over, or something would be lost with it."""
        following = next_date(self._day)
        now = self._day.clock
        _, lines = await self._changing.told(asker, airport)
        refuse(now[:10] < following, 409, f"NOW is {now or 'not known'}, and {following} hasn't begun; ?even=yes&day={following} begins it even so")
        stops = [line for line in lines if line.startswith(STOPS)]
        refuse(stops, 409, "\n".join(lines[:MOST_TOLD]))
