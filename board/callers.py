"""Who asks: by which address, as which desk, and how often with a wrong token."""
import time
from collections import defaultdict
from collections.abc import Callable
from typing import Any

from aiohttp import web

from board.connections import group_of, is_loopback
from board.desks import READER, Desk, Desks
from board.log import Log
from board.sessions import Sessions
from board.windows import OTHERS, Windows
from board.words import Problem, refuse

# In each minute: wrong tokens of an address, lines on standard error about an address that is refused, sign-ins of a desk at an address.
# How many streams of events are opened is a setting.
MINUTE = 60.0
# Seconds in which the streams of all who have no desk are counted together.
TOGETHER_SECONDS = 10.0
MOST_WRONG = 20
MOST_REFUSALS_TOLD = 20
MOST_SIGN_INS = 20
# What a request keeps: the desk that asks, and when its cookie ends. A later aiohttp warns of keys that are texts, which an earlier one needs.
REQUEST_KEY: Callable[[str, type], Any] = getattr(web, "RequestKey", lambda name, _: name)
DESK = REQUEST_KEY("desk", Desk)
ENDS = REQUEST_KEY("ends", float)


class Callers:
    """All who ask one board. `names`: the server's own; `wrong` and `refused` count what was refused at each address."""

    def __init__(self, desks: Desks, log: Log, names: set[str], scheme: str, behind_proxy: bool) -> None:
        self.desks = desks
        self.names = names
        self.scheme = scheme
        self.sessions = Sessions(log.id, log.secret)
        # Over TLS a browser takes a cookie of this name from this very host alone.
        self.cookie_name = f"{'__Host-' if scheme == 'https' else ''}cdm-{log.id}"
        self.wrong = Windows(MINUTE)
        self.refused = Windows(MINUTE)
        self._sign_ins = defaultdict[str, Windows](lambda: Windows(MINUTE))
        self._opened = defaultdict[str, Windows](lambda: Windows(MINUTE))
        self._together = Windows(TOGETHER_SECONDS)
        self._behind_proxy = behind_proxy

    def address(self, request: web.Request) -> str:
        """The address of who asks; a proxy on this machine says it."""
        peer = request.remote or ""
        if self._behind_proxy and is_loopback(peer):
            # The last one is the proxy's own word; those before it are whatever the client said.
            return request.headers.getall("X-Forwarded-For", [peer])[-1].rpartition(",")[2].strip()[:60]
        return peer

    def asker(self, request: web.Request) -> str:
        """Who asks, for what each may have: a desk, or @ and an address or network."""
        return request.get(DESK, READER).name or f"@{group_of(self.address(request))}"

    def desk_of(self, request: web.Request) -> Desk:
        """The desk that asks; who may read without a token is a display without a name. Raises Problem."""
        role = request.headers.get("Cdm-Role")
        said = request.headers.get("Authorization")
        cookie = self.cookie_of(request)
        if self.desks.is_open:
            desk = READER if role is None else self.desks.by_name.get(role)
        elif said is not None:
            desk = self.desks.by_token(said[7:]) if said[:7].lower() == "bearer " else None
            if desk is None:
                self.count_wrong(request)
        elif cookie is not None:
            session = self.sessions.of(cookie, self.desks)
            desk = session.desk if session else None
            request[ENDS] = session.ends if session else 0.0
        else:
            desk = READER if self.desks.anyone_reads else None
        if desk is None:
            refuse(self.desks.is_open, 403, "Cdm-Role is one of AO, GH, AP, ATC, NM")
            raise Problem(401, "a token of a desk is needed", WWW_Authenticate="Bearer")
        return desk

    def is_stranger(self, request: web.Request) -> bool:
        """Whether no desk asks, though desks have tokens. Nothing is counted here."""
        said = request.headers.get("Authorization")
        cookie = self.cookie_of(request)
        if self.desks.is_open:
            return False
        if said is not None:
            return self.desks.by_token(said[7:]) is None
        return cookie is None or self.sessions.of(cookie, self.desks) is None

    def cookie_of(self, request: web.Request) -> str | None:
        """The board's cookie. The others aren't read: a header has room for more than a thousand."""
        name = f"{self.cookie_name}="
        said = (one.strip() for one in request.headers.get("Cookie", "").split(";"))
        return next((one[len(name):] for one in said if one.startswith(name)), None)

    def count_wrong(self, request: web.Request) -> None:
        """Counts a wrong token of an address. Raises Problem if that are too many; a right token is never refused for it."""
        now = time.monotonic()
        window = self.wrong.add(group_of(self.address(request)), now)
        refuse(window.count > MOST_WRONG, 429, "too many wrong tokens from this address", Retry_After=str(1 + int(window.ends - now)))

    def count_refused(self, request: web.Request) -> bool:
        """Counts a request that was refused. Whether standard error has a line for it; of the others the end of the minute tells."""
        return self.refused.add(group_of(self.address(request)), time.monotonic()).count <= MOST_REFUSALS_TOLD

    def check_sign_ins(self, desk: Desk, address: str) -> None:
        """Raises Problem if a desk signs in too often at an address, or out (at no address)."""
        now = time.monotonic()
        window = self._sign_ins[desk.name].add(group_of(address), now)
        refuse(window.count > MOST_SIGN_INS, 429, "this desk signs in and out too often", Retry_After=str(1 + int(window.ends - now)))

    def check_opened(self, request: web.Request) -> None:
        """Counts a stream of events that is opened. Raises Problem if one desk, or who has none, opens too many at an address, or all who have
        none do together: they come back in turns then."""
        desk: Desk = request[DESK]
        now = time.monotonic()
        limits = self.desks.limits
        window = self._opened[desk.name].add(group_of(self.address(request)), now)
        most = limits.opened_by_desk if desk.name else limits.opened_without_desk
        refuse(window.count > most, 429, "too many streams of events are opened here", Retry_After=str(1 + int(window.ends - now)))
        if not desk.name:
            together = self._together.add(OTHERS, now)
            turn = together.count // limits.opened_together
            seconds = min(MINUTE, together.ends - now + TOGETHER_SECONDS * max(0, turn - 1))
            refuse(together.count > limits.opened_together, 429, "too many streams of events are opened without a token", Retry_After=str(1 + int(seconds)))
