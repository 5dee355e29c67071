"""How often each of many did something lately. Nothing here waits, reads or writes."""
from collections import OrderedDict
from dataclasses import dataclass

MOST_KEYS = 4096
OTHERS = "others"


@dataclass
class Window:
    """A stretch of time that began with somebody's first time."""
    ends: float
    count: int = 0


class Windows:
    """A window of so many seconds for each that did something, up to MOST_KEYS; those beyond them share one."""

    def __init__(self, seconds: float) -> None:
        self._seconds = seconds
        self._windows = OrderedDict[str, Window]()

    def add(self, key: str, now: float) -> Window:
        """Counts one more, and returns the window that it is in."""
        window = self._windows.get(key)
        if window is not None and window.ends <= now:
            del self._windows[key]
            window = None
        if window is None and len(self._windows) >= MOST_KEYS:
            self.ended(now)
            key = key if len(self._windows) < MOST_KEYS else OTHERS
            window = self._windows.get(key)
        if window is None:
            window = self._windows[key] = Window(now + self._seconds)
        window.count += 1
        return window

    def ended(self, now: float) -> dict[str, int]:
        """Forgets the windows that are over; how often each counted."""
        found: dict[str, int] = {}
        # They are in the order in which they began.
        while self._windows and next(iter(self._windows.values())).ends <= now:
            key, window = self._windows.popitem(last=False)
            found[key] = window.count
        return found
