"""Turns: which connections are read next, where many have something at once. Nothing here reads or waits for one of them.

A connection on which a desk's token was shown is read as soon as it has something. Strangers wait for their turns: each time the event loop
comes round, some of those that have something are read, the one that waits longest first, and the others stay unread. Strangers at a known
address wait for each other alone. So a desk's reply waits for few strangers, however many ask at once, also where TLS is agreed on.

Whose a proxy's connection is isn't known before a request is read. So requests in which no desk speaks have turns as well, before anything else
is done with them."""
import asyncio
import selectors
import time
from collections import ChainMap, deque
from collections.abc import Callable, Mapping
from typing import Any

Ready = tuple[selectors.SelectorKey, int]
# How many of a crowd are read in one round of the event loop at most, and the seconds after which a round was long: the next one has fewer.
MOST_TURNS = 16
LONG_ROUND = 0.02


class Crowd(selectors.EpollSelector):
    """Connections that wait for their turns."""

    def __init__(self) -> None:
        super().__init__()
        self._due = deque[Ready]()

    def is_due(self) -> bool:
        """Whether some were seen to have something, and had no turn yet."""
        return bool(self._due)

    def look(self) -> None:
        """Sees who has something, once all who were seen before have had their turns."""
        if not self._due:
            self._due.extend(self.select(0))

    def turns(self, most: int) -> list[Ready]:
        """Those whose turn it is. Who wants something else than before, or is gone, has none."""
        found: list[Ready] = []
        while self._due and len(found) < most:
            key, events = self._due.popleft()
            if self.get_map().get(key.fd) is key:
                found.append((key, events))
        return found


class Turns(selectors.BaseSelector):
    """The selector of an event loop. `rank` says of a file's number whether it needs no turn (0), or in which crowd it waits (1 and 2)."""

    def __init__(self) -> None:
        self.rank: Callable[[int], int] = lambda number: 0
        self._first = selectors.EpollSelector()
        self._crowds = [Crowd(), Crowd()]
        for crowd in self._crowds:
            self._first.register(crowd.fileno(), selectors.EVENT_READ, crowd)
        self._asked = deque[asyncio.Future[None]]()
        self._most = MOST_TURNS
        self._woke = time.monotonic()

    def register(self, fileobj: Any, events: int, data: Any = None) -> selectors.SelectorKey:
        rank = self.rank(fileobj if isinstance(fileobj, int) else fileobj.fileno())
        return [self._first, *self._crowds][rank].register(fileobj, events, data)

    def unregister(self, fileobj: Any) -> selectors.SelectorKey:
        return self._of(fileobj).unregister(fileobj)

    def modify(self, fileobj: Any, events: int, data: Any = None) -> selectors.SelectorKey:
        return self._of(fileobj).modify(fileobj, events, data)

    def _of(self, fileobj: Any) -> selectors.EpollSelector:
        return next((crowd for crowd in self._crowds if fileobj in crowd.get_map()), self._first)

    def first(self, number: int) -> None:
        """A connection needs no turn from now on."""
        for crowd in self._crowds:
            if number in crowd.get_map():
                key = crowd.unregister(number)
                self._first.register(number, key.events, key.data)

    async def turn(self) -> None:
        """Waits for a turn of a request that was read, and may be a stranger's."""
        asked = asyncio.get_running_loop().create_future()
        self._asked.append(asked)
        await asked

    def _is_due(self) -> bool:
        return bool(self._asked) or any(crowd.is_due() for crowd in self._crowds)

    def _give(self) -> None:
        """Gives turns to requests."""
        given = 0
        while self._asked and given < self._most:
            asked = self._asked.popleft()
            if not asked.done():
                asked.set_result(None)
                given += 1

    def select(self, timeout: float | None = None) -> list[Ready]:
        """Those that have something: all that need no turn, and then some of each crowd."""
        is_long = time.monotonic() - self._woke > LONG_ROUND
        self._most = max(1, self._most // 2) if is_long else min(MOST_TURNS, self._most + 1)
        found = self._first.select(0 if self._is_due() else timeout)
        ready = [one for one in found if not isinstance(one[0].data, Crowd)]
        for key, _ in found:
            if isinstance(key.data, Crowd):
                key.data.look()
        for crowd in self._crowds:
            ready += crowd.turns(self._most)
        self._give()
        self._woke = time.monotonic()
        return ready

    def get_map(self) -> Mapping[Any, selectors.SelectorKey]:
        return ChainMap(*(one.get_map() for one in (self._first, *self._crowds)))  # type: ignore[arg-type]

    def close(self) -> None:
        for one in (self._first, *self._crowds):
            one.close()
