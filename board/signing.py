"""Signing in and out over HTTP, and what ends with a session."""
import asyncio
import contextlib
import json
import time

from aiohttp import web

from board.audit import Audit
from board.callers import MOST_REFUSALS_TOLD, MOST_WRONG, Callers
from board.desks import READER
from board.events import Events
from board.guard import Guard
from board.log import Away, Log
from board.questions import body_of
from board.sending import problem_as_answer
from board.sessions import SESSION
from board.words import Fault, Problem, now_text, tell

SIGN_OUT_LIMIT = 10.0
# Seconds between two looks at which sessions have ended, where nothing says that any did.
SESSION_LOOK_SECONDS = 1.0
SIGNED_OUT_HERE = "signed out here; the other servers are told as soon as the log takes it"


class Signing:
    """The sessions of one board. `owed`: desks that signed out while the log was away."""

    def __init__(self, callers: Callers, log: Log, events: Events, audit: Audit) -> None:
        self._callers = callers
        self._log = log
        self._events = events
        self._audit = audit
        self.owed = set[str]()

    async def sign_in(self, request: web.Request) -> web.Response:
        """A cookie for who has a token."""
        try:
            said = json.loads(await body_of(request))
            name = said["desk"]
            token = said["token"]
            desk = self._callers.desks.by_token(token)
        except (ValueError, TypeError, AttributeError, LookupError, RecursionError):
            raise Problem(400, 'the body is {"desk":"..","token":".."}') from None
        if desk is None or desk.name != name:
            self._callers.count_wrong(request)
            raise Problem(401, "wrong desk or token", WWW_Authenticate="Bearer")
        self._callers.check_sign_ins(desk, self._callers.address(request))
        if isinstance(request.protocol, Guard):
            request.protocol.show()
        self._audit.note("sign-in", desk.name, self._callers.address(request))
        return self._with_cookie(self._callers.sessions.cookie(desk, token), SESSION, web.Response(status=204))

    async def sign_out(self, request: web.Request) -> web.Response:
        """Ends all sessions of the desk that asks and their streams, at every server, and forgets the cookie."""
        desk = READER
        sessions = self._callers.sessions
        with contextlib.suppress(Problem):
            desk = self._callers.desk_of(request)
        if desk.name and not self._callers.desks.is_open:
            next_number = sessions.not_before.get(desk.name, 0) + 1
            try:
                self._callers.check_sign_ins(desk, "")
                self._audit.note("sign-out", desk.name, self._callers.address(request))
                async with asyncio.timeout(SIGN_OUT_LIMIT):
                    await self._log.sign_out(desk.name, next_number)
                    await self.end_sessions()
            except (Fault, Away, Problem, TimeoutError):
                self.owed.add(desk.name)
                sessions.end({desk.name: next_number})
                self.check_displays({desk.name})
                return self._with_cookie("", 0, problem_as_answer(Problem(503, SIGNED_OUT_HERE)))
        return self._with_cookie("", 0, web.Response(status=204))

    def _with_cookie(self, cookie: str, seconds: int, response: web.Response) -> web.Response:
        """An answer that sets the cookie."""
        is_sealed = self._callers.scheme == "https"
        response.set_cookie(self._callers.cookie_name, cookie, max_age=seconds, httponly=True, samesite="Strict", secure=is_sealed)
        return response

    async def watch(self) -> None:
        """Ends the streams of sessions that ended, at whatever server, and tells how many were refused. Returns never."""
        while True:
            with contextlib.suppress(Away):
                await self.end_sessions()
            with contextlib.suppress(Away, Fault):
                for desk in list(self.owed):
                    await self._log.sign_out(desk, self._callers.sessions.not_before.get(desk, 0))
                    self.owed.discard(desk)
            now = time.monotonic()
            self.tell_refused(self._callers.refused.ended(now), self._callers.wrong.ended(now))
            with contextlib.suppress(TimeoutError):
                async with asyncio.timeout(SESSION_LOOK_SECONDS):
                    await self._log.signed_out.wait()
            self._log.signed_out.clear()

    async def end_sessions(self) -> None:
        """Takes over which sessions have ended by the log. Raises Away, Fault."""
        if desks := self._callers.sessions.end(await self._log.sessions()):
            self.check_displays(desks)

    def tell_refused(self, refused: dict[str, int], wrong: dict[str, int]) -> None:
        """One line for all that was refused in a minute beyond what was told, and one event for all wrong tokens."""
        for address, count in refused.items():
            if count > MOST_REFUSALS_TOLD:
                tell(f"{now_text()} {ascii(address)[1:-1]} {count - MOST_REFUSALS_TOLD} more were refused within a minute")
        if wrong:
            most = max(wrong, key=lambda address: wrong[address])
            detail = f"{sum(wrong.values())} wrong tokens within a minute, {wrong[most]} of them from here; addresses: {len(wrong)}"
            self._audit.note("wrong-token", None, most, detail)
            if wrong[most] > MOST_WRONG:
                tell(f"{now_text()} {ascii(most)[1:-1]} {detail}")

    def check_displays(self, desks: set[str] | None = None) -> None:
        """Ends each display, or each of some desks, that wouldn't be let in any more as the desk that it was."""
        for stream in self._events.streams if desks is None else [one for one in self._events.streams if one.desk.name in desks]:
            with contextlib.suppress(Problem):
                desk = self._callers.desk_of(stream.request)
                if (desk.name, desk.role) == (stream.desk.name, stream.desk.role):
                    continue
            stream.transport.abort()
