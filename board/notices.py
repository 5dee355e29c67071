"""Notices of a database: who reads is woken by the first one at once, and by all that come soon after it once, together.

Whoever may connect to a database can send notices, as many as it likes."""
import asyncio

# Seconds between two reads that notices cause.
PAUSE_SECONDS = 0.05


class Notices:
    """The notices of one kind, and the event that they set."""

    def __init__(self, event: asyncio.Event) -> None:
        self._event = event
        self._next = float("-inf")
        self._is_due = False

    def heard(self) -> None:
        """A notice came."""
        if not self._is_due:
            self._is_due = True
            loop = asyncio.get_running_loop()
            loop.call_at(max(loop.time(), self._next), self._wake)

    def _wake(self) -> None:
        self._is_due = False
        self._next = asyncio.get_running_loop().time() + PAUSE_SECONDS
        self._event.set()
