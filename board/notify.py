"""What the service manager (systemd) is told of the server: that it is ready, how it is in words, that it lives, and that it ends."""
import asyncio
import os
import time
from collections.abc import Callable, Sequence

import sdnotify  # type: ignore[import]

# Seconds between two looks at how the server is; where there is a watchdog, a third of its time at most.
LOOK = 5.0


class Notifier:
    """Speaks to the manager that started this process; without one, to nobody. The processes that it starts can't speak for it."""

    def __init__(self) -> None:
        self._manager = sdnotify.SystemdNotifier()
        if self._manager.socket is not None:
            # A manager that reads nothing doesn't stop the event loop.
            self._manager.socket.setblocking(False)
        own = str(os.getpid())
        environment = os.environ
        environment.pop("NOTIFY_SOCKET", None)
        patience = environment.pop("WATCHDOG_USEC", "")
        process = environment.pop("WATCHDOG_PID", own)
        self._has_watchdog = patience.isdecimal() and int(patience) > 0 and process == own
        self._pause = min(LOOK, int(patience) / 3e6) if self._has_watchdog else LOOK
        self._is_stopping = False
        self._say("STATUS=Reads the log")

    async def run(self, words: Callable[[], str], vital: Sequence["asyncio.Task[None]"]) -> None:
        """Tells that the server is ready, how it is, and that it lives: for as long as each of its vital tasks runs, which never return.
        All is said at each look, since a message can be lost. Returns once the server stops."""
        while not self._is_stopping:
            if any(task.done() for task in vital):
                self._say("STATUS=A part of the server that never ends has ended")
            else:
                self._say("READY=1", f"STATUS={words()}", *(["WATCHDOG=1"] if self._has_watchdog else []))
            await asyncio.sleep(self._pause)

    def reload(self, again: Callable[[], None]) -> None:
        """Has the desks, limits and certificates read again."""
        self._say("RELOADING=1", f"MONOTONIC_USEC={time.monotonic_ns() // 1000}")
        try:
            again()
        finally:
            self._say("READY=1")

    def stopping(self) -> None:
        """The server ends."""
        self._is_stopping = True
        self._say("STOPPING=1", "STATUS=Ends as soon as each record has its reply")

    def _say(self, *lines: str) -> None:
        self._manager.notify("\n".join(lines))
