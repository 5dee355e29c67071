"""How a server follows a database that others change too: a machine without input, output or clock.

A database is followed only if it isn't of the past, and rows are handed on only from one that has the last row handed on. One that lacks
it has another day, which is read anew; until the sequencer has that day, no record is taken."""
from collections.abc import Sequence
from dataclasses import dataclass

from board.log import Record

AWAY = "the log's database takes no records at present; nothing was taken"
ANEW = "the day begins anew; nothing was taken"


@dataclass(frozen=True)
class Seen:
    """What a new link sees: the database's timeline, the row in the place of the last one handed on, and whether an earlier commit of this
    server still waits there."""
    timeline: int
    last: Record | None
    is_committing: bool


class Following:
    """What a server had of a database, and what it may do with it now."""

    def __init__(self) -> None:
        self.last: Record | None = None
        self.timeline = 0
        # The database has another last row; its rows were read anew, but the sequencer doesn't have them yet; an earlier commit of this
        # server still waits there.
        self._is_linked = self._is_other = self._is_anew = self._is_committing = False

    def is_past(self, timeline: int) -> bool:
        """Whether a database of this timeline is of the past, and isn't to be used."""
        return timeline < self.timeline

    def linked(self, seen: Seen) -> None:
        """There is a new link."""
        self.timeline = seen.timeline
        self._is_committing = seen.is_committing
        self._is_linked = True
        self._is_other = self._is_other or self.last is not None and seen.last != self.last

    def lost(self) -> None:
        """The link is gone."""
        self._is_linked = False

    def committed_before(self, is_committing: bool) -> None:
        """Whether an earlier commit of this server still waits in the database."""
        self._is_committing = is_committing

    @property
    def is_committing(self) -> bool:
        """Whether no record is taken, since an earlier commit still waits."""
        return self._is_committing

    @property
    def is_current(self) -> bool:
        """Whether the day is the database's."""
        return self._is_linked and not self._is_other and not self._is_anew

    def refusal(self) -> str | None:
        """Why no record is taken."""
        if not self._is_linked or self._is_committing:
            return AWAY
        return ANEW if self._is_other or self._is_anew else None

    def wanted(self) -> bool:
        """The sequencer wants what comes next. Whether it has to read the day anew first."""
        self._is_anew = self._is_anew and self._is_other
        return self._is_other

    def read_anew(self) -> None:
        """The whole day is about to be read: from now on no record is taken before the sequencer has these rows."""
        self._is_anew = self._is_other or self._is_anew
        self._is_other = False
        self.last = None

    def handed_on(self, records: Sequence[Record]) -> None:
        """Rows are handed on: a later link has to have the last."""
        if records and (self.last is None or records[-1].position > self.last.position):
            self.last = records[-1]
