"""The life of the sequencer's processes: a machine without input, output or clock.

A process is started on the accepted records, says that it is ready with them, and gets lines; each of its replies must be the one that is
due. What it says wrongly, or not at all, ends it, and the next one gets the rest. Too many ends within a short time end the server."""
from collections import deque
from collections.abc import Sequence
from dataclasses import dataclass

from board.log import Record

# So many ends within so many seconds end the server.
MOST_ENDS = 3
ENDS_SECONDS = 60.0


@dataclass(frozen=True)
class Keep:
    """The order to give a reply to the day: the refusal code and the sentence that says why, if it is refused, and the Rows that it changes."""
    record: Record
    word: str | None
    sentence: str
    changes: list[object]


@dataclass(frozen=True)
class Ready:
    """The order to hand records on: the process has the day."""


@dataclass(frozen=True)
class End:
    """The order to end the process."""
    why: str


class Life:
    """All processes of one server, one after the other."""

    def __init__(self) -> None:
        self._ends = deque[float](maxlen=MOST_ENDS)
        self._due = deque[Record]()
        self._accepted = self._replies = 0
        self._is_ready = False

    @property
    def due(self) -> int:
        """How many replies are due."""
        return len(self._due)

    def started(self, accepted: int) -> None:
        """A process was started on so many accepted records."""
        self._due.clear()
        self._accepted = accepted
        self._replies = 0
        self._is_ready = False

    def given(self, records: Sequence[Record]) -> str:
        """Records that the process is to get next; their lines."""
        self._due.extend(records)
        return "".join(f"{record.role},{record.line}\n" for record in records)

    def heard(self, reply: dict[str, object]) -> Ready | Keep | End:
        """The process said something."""
        if not self._is_ready:
            self._is_ready = reply == {"ready": self._accepted}
            return Ready() if self._is_ready else End("it is ready with another day")
        self._replies += 1
        if not self._due or reply.get("record") != self._replies:
            return End(f"a reply to record {reply.get('record')} instead of {self._replies}")
        match reply:
            case {"reply": "REFUSED", "word": str(word), "sentence": str(sentence)}:
                return Keep(self._due.popleft(), word, sentence, [])
            case {"reply": "ACCEPTED", "accepted": number, "changes": list(changes)} if number == self._accepted + 1:
                self._accepted += 1
                return Keep(self._due.popleft(), None, "", changes)
        return End("a reply that no record has")

    def ended(self, now: float) -> bool:
        """A process ended, at this time in seconds. Whether another one is to be started; else the server ends."""
        self._ends.append(now)
        return len(self._ends) < MOST_ENDS or now - self._ends[0] >= ENDS_SECONDS
