"""The audit: what is kept of who signed in, what changed the desks, and who was refused too often. Records have their own rows."""
import asyncio
import contextlib
from collections import deque

from board.log import Away, Event, Log
from board.words import Fault, now_text, tell

# Events that wait for the log, and seconds until it is tried again.
MOST_EVENTS_WAITING = 1000
AUDIT_AGAIN_SECONDS = 1.0
MOST_DETAIL = 1000


class Audit:
    """Events on their way to a log, which may be away meanwhile."""

    def __init__(self, log: Log) -> None:
        self._log = log
        self._waiting = deque[Event]()
        self._wanted = asyncio.Event()
        self._writing: asyncio.Task[bool] | None = None

    def note(self, event: str, desk: str | None, address: str | None, detail: str | None = None) -> None:
        """Keeps an event; what there is no room for is told on standard error instead."""
        new = Event(event, desk, address, detail and detail[:MOST_DETAIL], now_text())
        if len(self._waiting) >= MOST_EVENTS_WAITING:
            _told([new])
            return
        self._waiting.append(new)
        self._wanted.set()

    async def run(self) -> None:
        """Writes what waits. Returns never."""
        while True:
            await self._wanted.wait()
            self._wanted.clear()
            # What is being written when this ends is written once.
            self._writing = asyncio.create_task(self._write())
            while not await asyncio.shield(self._writing):
                await asyncio.sleep(AUDIT_AGAIN_SECONDS)
                self._writing = asyncio.create_task(self._write())

    async def _write(self) -> bool:
        """Writes what waits to the log; whether that was possible."""
        while self._waiting:
            some = list(self._waiting)
            try:
                kept = await self._log.note(some)
            except (Fault, Away):
                return False
            for _ in some:
                self._waiting.popleft()
            if kept < len(some):
                _told(some[kept:])
        return True

    async def end(self, seconds: float) -> None:
        """Writes what waits, if the log takes it within so many seconds."""
        with contextlib.suppress(TimeoutError):
            async with asyncio.timeout(seconds):
                if self._writing is None or await self._writing:
                    await self._write()
        _told(list(self._waiting))


def _told(events: list[Event]) -> None:
    for event in events:
        tell(f"cdmboard: audit: {' '.join(said for said in (event.at, event.event, event.desk, event.address, event.detail) if said)}")
