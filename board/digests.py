"""Digests of all replies so far, one for each 1,000 records: by them a program that replies otherwise to old records is found.

A reply is all that its desk got: the record with its position, desk and time, and the refusal code or the Rows that it changed."""
import hashlib
from collections.abc import Mapping

from board.words import Fault

EVERY = 1000


class Digests:
    """The digests of the first replies of a day, whose change is at `base`, where `seed` is the digest of what stands there. `position`: that
    of the last reply; `made`: each digest by the position up to which it goes; `kept`: the positions of those that the log has too."""

    def __init__(self, base: int = 0, seed: str = "") -> None:
        self._all = hashlib.sha256(seed.encode())
        self.base = self.position = base
        self.made = dict[int, str]()
        self.kept = set[int]()

    def add(self, reply: bytes) -> bool:
        """The next reply. Whether there is a new digest."""
        self._all.update(reply + b"\n")
        self.position += 1
        if self.position % EVERY:
            return False
        self.made[self.position] = self._all.hexdigest()
        return True

    def compare(self, said: Mapping[int, str], name: str) -> None:
        """Compares a log's digests with those that are made. Raises Fault if one isn't the same."""
        for position in sorted(said):
            if not self.base < position <= self.position:
                continue
            if self.made.get(position) != said[position]:
                first = 1 + max((kept for kept in self.kept if kept < position), default=self.base)
                raise Fault(f"{name}: a record of the positions {first} to {position} has another reply than before: the program isn't the one that"
                            " gave it, or the log was changed; start that program, or make a new log (cdmboard export, import)")
            self.kept.add(position)
