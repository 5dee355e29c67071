"""Answers that are made and not read yet: how many bytes of them there may be."""
import contextlib
from collections import Counter
from collections.abc import Iterator

from board.places import NAMELESS
from board.words import refuse

MOST_OF_ONE = 64 << 20
MOST_NAMELESS = 128 << 20
MOST_OF_ALL = 512 << 20
OF_THE_TOWER = 64 << 20


class Unsent:
    """The bytes that each who asks doesn't read, all who have no desk, and all. The last OF_THE_TOWER bytes are the tower's."""

    def __init__(self) -> None:
        self._of = Counter[str]()

    def total(self) -> int:
        """The bytes of all."""
        return self._of.total()

    def check_own(self, asker: str, more: int = 1) -> None:
        """Raises Problem if so many bytes more are too much for who asks."""
        mine = self._of[asker]
        refuse(mine and mine + more > MOST_OF_ONE, 429, "read the answers that wait first", Retry_After="5")

    def check(self, asker: str, more: int, is_tower: bool = False) -> None:
        """Raises Problem if an answer of so many bytes more is too much for who asks, or for all."""
        self.check_own(asker, more)
        nameless = sum(unsent for one, unsent in self._of.items() if one.startswith(NAMELESS))
        is_nameless = asker.startswith(NAMELESS)
        most = MOST_OF_ALL if is_tower else MOST_OF_ALL - OF_THE_TOWER
        is_much = is_nameless and nameless + more > MOST_NAMELESS or self.total() + more > most
        refuse(is_much, 503, "too many answers wait to be read; ask again", Retry_After="5")

    @contextlib.contextmanager
    def of(self, asker: str, size: int) -> Iterator[None]:
        """While an answer of this size is sent."""
        self._of[asker] += size
        try:
            yield
        finally:
            self._of[asker] -= size
            if not self._of[asker]:
                del self._of[asker]
