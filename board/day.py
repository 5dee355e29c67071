"""The day as this server has it: the records of the log from the last change of day on that were replied to, with their replies."""
import asyncio
import copy
import json
import re
import time
from bisect import bisect
from collections import OrderedDict, defaultdict
from collections.abc import Iterable, Mapping
from weakref import WeakValueDictionary

from board.digests import Digests
from board.log import Change, Record
from board.words import Kinds, refuse

KEPT = 2000
KEPT_BYTES = 64 << 20
MOST_FOUND = 1000
CLOCK = "ATC,CLOCK,"


class Day:
    """All records by position, from the change of day, or the log's first, to the moment that is now; `lines` are those that were carried
    over, and the accepted ones. `began`: when, by the monotonic clock, if this server saw it; `starts`: how often it began, or began anew; up
    to `doubtful` it may have had other records before. `changed` is set at each reply, and when it begins; `digested` when there is a digest
    that the log may lack."""

    def __init__(self, kinds: Kinds, records: Iterable[Record], refused: Mapping[int, str], change: Change = Change(0, b""), date: str = "") -> None:
        self.kinds = kinds
        self.change = change
        self.date = date
        self.began = float("-inf")
        self.starts = 0
        self.doubtful = -1
        self.changed = asyncio.Event()
        self.records = list[Record]()
        self.lines = change.lines
        self.digests = Digests(change.position, change.position and change.digest or "")
        self.digested = asyncio.Event()
        self._texts = OrderedDict[int, bytes]()
        self._sentences = dict[int, str]()
        self._bytes = 0
        self._waited_for: WeakValueDictionary[int, asyncio.Event] = WeakValueDictionary()
        self._of: defaultdict[tuple[str | None, str | None], list[Record]] = defaultdict(list)
        for record in records:
            self._keep(record, refused.get(record.position), 0)

    def restart(self, day: "Day") -> None:
        """Begins anew with the records of another day. Whoever waits is told."""
        self.doubtful = max(self.doubtful, self.position)
        self.change = day.change
        self.date = day.date
        self.records = day.records
        self.lines = day.lines
        self._of = day._of
        self._bytes = 0
        self.digests = day.digests
        self.digested.set()
        self._texts.clear()
        self._sentences.clear()
        self.starts += 1
        self.changed.set()
        self.end()

    def begin(self, record: Record, change: Change, date: str) -> "Day":
        """The next day begins, with a change of day. Returns the day that ends."""
        before = copy.copy(self)
        self.change = change
        self.date = date
        self.began = time.monotonic()
        self.records = []
        self.lines = change.lines
        self._of = defaultdict(list)
        self._bytes = 0
        self._texts = OrderedDict()
        self._sentences = {}
        self.digests = Digests(change.position, change.digest)
        self._keep(record, None, 0)
        self.starts += 1
        self.changed.set()
        self.digested.set()
        self._wake(record.position)
        return before

    @property
    def first(self) -> int:
        """The position of its first record."""
        return max(1, self.change.position)

    @property
    def position(self) -> int:
        """The position of the last record with a reply; 0 before the log's first."""
        return self.first + len(self.records) - 1

    @property
    def clock(self) -> str:
        """NOW, the last CLOCK that was accepted; nothing before the first."""
        said = next((line for line in reversed(self.lines) if line.startswith(CLOCK)), CLOCK)
        return said.removeprefix(CLOCK)

    def _keep(self, record: Record, word: str | None, changes: int) -> Record:
        assert record.position == self.position + 1
        if word is None and not record.is_change:
            self.lines.append(f"{record.role},{record.line}")
        flight = self.kinds.flight_of(record.line)
        record = record._replace(word=word, accepted=len(self.lines), changes=changes, flight=flight)
        for key in {(flight, record.desk), (flight, None), (None, record.desk)} - {(None, None)}:
            self._of[key].append(record)
        self.records.append(record)
        return record

    def add(self, record: Record, word: str | None, changes: list[object], sentence: str = "") -> None:
        """The next record's reply, with the sentence that says why it is refused. Who waits for it is woken."""
        record = self._keep(record, word, len(changes))
        # The sentence is in no digest: a later program may say it in other words.
        text = self._texts[record.position] = text_of(record, changes)
        if sentence:
            self._sentences[record.position] = sentence
        # Those of before the start may not have been given again yet.
        if self.digests.position == record.position - 1 and self.digests.add(text):
            self.digested.set()
        self._bytes += len(text)
        while len(self._texts) > KEPT or self._bytes > KEPT_BYTES:
            position, old = self._texts.popitem(last=False)
            self._bytes -= len(old)
            self._sentences.pop(position, None)
        self.changed.set()
        self._wake(record.position)

    def _wake(self, position: int) -> None:
        if waited_for := self._waited_for.get(position):
            waited_for.set()

    def digest_kept(self) -> bool:
        """Takes replies that are kept into the digests, in their order. Whether there are digests of all replies now."""
        for record in self.of(self.digests.position + 1, self.position):
            text = self._texts.get(record.position)
            if text is None:
                return False
            if self.digests.add(text):
                self.digested.set()
        return True

    def of(self, first: int, last: int) -> list[Record]:
        """The records of these positions, both of them too, that are of this day."""
        return self.records[max(0, first - self.first):max(0, last - self.first + 1)]

    def unkept(self) -> dict[int, str]:
        """The digests that the log isn't known to have."""
        return {position: digest for position, digest in self.digests.made.items() if position not in self.digests.kept}

    def feed(self, accepted: int | None = None) -> str:
        """The accepted records, or the first of them, as a feed."""
        return "".join(f"{line}\n" for line in self.lines[:accepted])

    def texts(self, records: Iterable[Record], most: float = float("inf")) -> bytes:
        """Their replies, one a line; no more than fit, but the first one."""
        texts = bytearray()
        for record in records:
            text = self.text(record) + b"\n"
            if texts and len(texts) + len(text) > most:
                break
            texts += text
        return bytes(texts)

    def at(self, position: int) -> str:
        """When the record at a position was taken, '' before the first one. Where a fail-over has lost records, others may stand in their
        places; by this they are told apart."""
        return self.records[position - self.first].at if self.first <= position <= self.position else ""

    def past(self, position: int) -> str:
        """What tells the records up to a position apart from others that may have stood there: the digits of when the last one was taken."""
        return re.sub("[^0-9]", "", self.at(position))

    def text(self, record: Record) -> bytes:
        """The reply to a record, `changes` null if they aren't kept."""
        return self._texts.get(record.position) or text_of(record, None)

    def replies(self, records: Iterable[Record]) -> bytes:
        """Replies for who sent the records, one a line: one that refuses says why, if its sentence is kept."""
        return b"".join(self._reply(record) + b"\n" for record in records)

    def _reply(self, record: Record) -> bytes:
        sentence = self._sentences.get(record.position)
        return text_of(record, None, sentence) if sentence else self.text(record)

    def kept_behind(self, position: int) -> list[Record] | None:
        """All records behind a position, None if their replies aren't all kept whole."""
        return self.of(position + 1, self.position) if 0 <= self.position - position <= len(self._texts) else None

    def found(self, since: int, flight: str | None, desk: str | None) -> list[Record]:
        """The first records behind a position, of a flight and of a desk if these are asked for."""
        of = self.records if flight is desk is None else self._of.get((flight, desk), [])
        first = bisect(of, since, key=lambda record: record.position)
        return of[first:first + MOST_FOUND]

    def count_of(self, desk: str) -> int:
        """How many records of a desk have replies."""
        return len(self._of.get((None, desk), []))

    async def reached(self, position: int) -> None:
        """Returns as soon as this record has its reply. Raises Problem if it won't have one here."""
        if position > self.position:
            await self._waited_for.setdefault(position, asyncio.Event()).wait()
        refuse(position > self.position, 504, "the server ended; send again with the same key")

    def end(self) -> None:
        """No more replies come: who waits is told."""
        for waited_for in list(self._waited_for.values()):
            waited_for.set()
        self._waited_for.clear()


def text_of(record: Record, changes: list[object] | None, sentence: str | None = None) -> bytes:
    """The reply to a record: the Rows that it changed, or the code that refuses it, with a sentence if there is one."""
    told = dict(zip(("position", "desk", "role", "line", "at"), record), reply="REFUSED", word=record.word)
    if sentence:
        told["sentence"] = sentence
    if record.word is None:
        del told["word"]
        told |= {"reply": "ACCEPTED", "accepted": record.accepted, "changes": changes}
    return json.dumps(told, separators=(",", ":")).encode("ascii")
