"""Sessions: the cookies by which a desk speaks from a browser. Nothing here waits, reads or writes."""
import contextlib
import hashlib
import time
from collections.abc import Mapping
from typing import NamedTuple

from itsdangerous import BadData, TimestampSigner

from board.desks import Desk, Desks, digest

# Seconds: how long a browser keeps a cookie, and how far the clocks of a board's servers may be apart.
SESSION = 12 * 3600
CLOCKS_APART = 60


class Session(NamedTuple):
    """Who speaks by a cookie, and until when, in seconds since 1970."""
    desk: Desk
    ends: float


class Sessions:
    """All sessions of a board. A cookie is DESK.NUMBER.TIME.SIGNATURE; its key is made of the board's secret, the log's id and the digest
    of the token. So any server of the board can check it, a new token ends it, and desks.toml alone makes none. `not_before` has the
    number of each desk's first session that hasn't ended, where that isn't 0."""

    def __init__(self, log_id: str, secret: str) -> None:
        self._log_id = log_id
        self._secret = secret
        self.not_before: dict[str, int] = {}

    def _signer(self, token: bytes) -> TimestampSigner:
        return TimestampSigner(self._secret, salt=f"cdm-session.{self._log_id}.{token.hex()}", key_derivation="hmac", digest_method=hashlib.sha256)

    def cookie(self, desk: Desk, token: str) -> str:
        """A session of twelve hours, less a minute, which begins now."""
        return self._signer(digest(token)).sign(f"{desk.name}.{self.not_before.get(desk.name, 0)}").decode("ascii")

    def of(self, cookie: str, desks: Desks) -> Session | None:
        """The session of a cookie, None if it isn't one that is open. What was signed too far ahead, and would so end later than twelve
        hours from now, is none either."""
        desk = desks.by_name.get(cookie.partition(".")[0])
        now = time.time()
        for token in desk.tokens if desk else ():
            with contextlib.suppress(BadData, UnicodeError):
                said, began = self._signer(token).unsign(cookie, return_timestamp=True)
                number = int(said.rpartition(b".")[2])
                ends = began.timestamp() + SESSION - CLOCKS_APART
                is_open = number >= self.not_before.get(desk.name, 0) if desk else False
                return Session(desk, ends) if desk and is_open and now < ends <= now + SESSION else None
        return None

    def end(self, not_before: Mapping[str, int]) -> set[str]:
        """Takes over which sessions have ended by the log. Returns the desks of which more have than before; none begins again."""
        news = {desk: number for desk, number in not_before.items() if number > self.not_before.get(desk, 0)}
        self.not_before.update(news)
        return set(news)
