"""The log: all records in the order in which they were taken, in a database. A record is never changed."""
import asyncio
import hashlib
import json
import re
import time
from collections.abc import Awaitable, Callable, Sequence
from dataclasses import dataclass, field, replace
from typing import Any, NamedTuple, Protocol

from board.words import LINE, MOST_BYTES, ROLES, Fault, Problem, now_text

# Records of one day, and events of the audit that are no records, of one log.
MOST_RECORDS = 60_000
MOST_EVENTS = 20_000
# Seconds for which all records wait for a change of day.
CARRY_SECONDS = 8.0
# Of a log, and of a record: when it was taken.
ID = re.compile("[0-9A-Za-z]{1,32}")
AT = re.compile("[0-9A-Za-z:.+-]{0,40}")
# The day in an airport file, and the line of a change of day.
DATED = re.compile(rb'(?m)^("?DAY"?,"?)[0-9]{4}-[0-9]{2}-[0-9]{2}')
DAY = re.compile("DAY,[0-9]{4}-[0-9]{2}-[0-9]{2}")
RULES = re.compile(r"\(rules ([0-9]+)\)$")
BEFORE = "other records came before the change of day; nothing was taken"
NOT_KNOWN = "not known whether the records are in the log; send again with the same key"


class Record(NamedTuple):
    """A record of the log, whether it is a change of day, and what the day adds: the `word` that refuses it, if any, how many are accepted
    up to it, and so on."""
    position: int
    desk: str
    role: str
    line: str
    at: str = ""
    is_change: bool = False
    word: str | None = None
    accepted: int = 0
    changes: int = 0
    flight: str | None = None


class Change(NamedTuple):
    """What stands beside a change of day, at its position: the airport file from there on, and the feed with which the new day begins. The
    first day has position 0, the log's airport file and no feed."""
    position: int
    airport: bytes
    feed: bytes = b""

    @property
    def digest(self) -> str:
        """By it a change that was damaged is found."""
        return hashlib.sha256(self.airport + self.feed).hexdigest()


    @property
    def file(self) -> str:
        """What the airport file is called in a server's folder."""
        return f"airport-{self.position}.csv" if self.position else "airport.csv"

    @property
    def lines(self) -> list[str]:
        """The records with which the day begins."""
        return self.feed.decode("ascii", "replace").splitlines()


# A change of day that carries over the records up to a position, which is the last one while it runs. Raises Problem.
Carry = Callable[[int], Awaitable[Change]]


@dataclass
class Batch:
    """Records of one desk, each with its role, that are to stand together. `most`: how many the desk may have in a day.
    `end`: how many records a day may have. `closed`: why the desk sends nothing new. `address`: who sent them, for the audit; None if no
    request did. `change`: what stands beside the one record, if it is a change of day; `carry`: makes it, if others came before it."""
    desk: str
    records: list[tuple[str, str]]
    key: str | None = None
    most: int = MOST_RECORDS
    closed: str | None = None
    at: str = field(default_factory=now_text)
    end: int = MOST_RECORDS
    address: str | None = None
    change: Change | None = None
    carry: Carry | None = None

    def full(self) -> Problem:
        """What is answered if the log, or the desk's part of it, is full."""
        return Problem(403, f"a log takes {MOST_RECORDS} records a day, and {self.most} of {self.desk}")

    async def carried(self, last: int) -> "Batch":
        """The batch as it may be committed behind the last record of a log. Raises Problem."""
        if self.change is None or self.carry is None or self.change.position == last + 1:
            return self
        try:
            async with asyncio.timeout(CARRY_SECONDS):
                return replace(self, change=await self.carry(last))
        except TimeoutError:
            raise Problem(503, f"the day wasn't carried over within {CARRY_SECONDS:.0f} seconds; nothing was taken", Retry_After="5") from None


class Event(NamedTuple):
    """What somebody did that is no record, for the audit."""
    event: str
    desk: str | None
    address: str | None
    detail: str | None
    at: str


# Whether a new log may be bound to what it is to be bound to. Raises Fault.
Accept = Callable[[], Awaitable[None]]


async def accepted() -> None:
    """Accepts whatever is given."""


class Away(Exception):
    """The engine can't be asked at present."""


class Changed(Exception):
    """The engine lacks the last row that was handed on: the day begins anew."""


class Log(Protocol):
    """A log in any engine, for one server. `name` is for messages. `grown` is set when there may be more records than before,
    `signed_out` when another server may have ended sessions;
    `secret`: the key of the board's cookies, made with the log; `read_at`: when it was last read, by the monotonic clock;
    `clock_ahead`: how many seconds this machine's clock is ahead of its own, if it has one; `void`: the positions of changes of day that began
    none, which are read as records."""
    id: str
    secret: str
    airport: bytes
    name: str
    grown: asyncio.Event
    signed_out: asyncio.Event
    read_at: float
    clock_ahead: float
    void: set[int]

    @property
    def stale_since(self) -> str | None:
        """Since when no record is taken, or there may be records that aren't known here; None where all is well."""

    async def open(self, airport: bytes, version: str, accept: Accept = accepted) -> None:
        """Opens the log. One that isn't there is made, if `accept` raises nothing before. Raises Fault."""

    async def append(self, batch: Batch) -> range:
        """The records' positions, once they are in the log. Raises Problem; 503: nothing was taken; 504: not known."""

    async def rows(self, after: int, most: int = MOST_RECORDS) -> list[Record]:
        """The first records behind a position; none while the engine is away. Raises Changed, Fault."""

    async def whole(self, after: int = 0) -> list[Record]:
        """All records behind a position. Raises Fault."""

    async def changes(self) -> list[Record]:
        """All changes of day. Raises Away, Fault."""

    async def change(self, position: int) -> Change | None:
        """What stands beside the change of day at a position. Raises Away, Fault."""

    async def between(self, first: int, last: int) -> list[Record]:
        """The records from one position to another. Raises Away, Fault."""

    async def sought(self, after: int, last: int, flight: str | None, desk: str | None, kinds: Sequence[str]) -> int | None:
        """The first position behind another, up to a last one, of a flight and of a desk, if these are asked for; `kinds`: those of a flight.
        Raises Away, Fault."""

    async def digests(self) -> dict[int, str]:
        """The digests of the replies, each by the position up to which it goes. Raises Fault."""

    async def keep(self, said: Sequence[tuple[Record, str]]) -> dict[int, str]:
        """Keeps digests of the replies up to these records, where there are none yet. Returns what is kept, without those of records that
        the log hasn't. Raises Away, Fault."""

    async def sessions(self) -> dict[str, int]:
        """The number of each desk's first session that hasn't ended, where it isn't 0. Raises Away, Fault."""

    async def sign_out(self, desk: str, least: int = 1) -> None:
        """Ends all sessions of a desk, also those before number `least`, which may have ended at this server alone. Raises Away, Fault."""

    async def note(self, events: list[Event]) -> int:
        """Keeps events in the audit; how many, since there is no room for more than MOST_EVENTS. Raises Away, Fault."""

    async def ended(self) -> None:
        """Keeps the log: tries an engine that is away, until it is back. Returns never. Raises Fault, which ends the server."""

    async def close(self) -> None:
        """Ends what is open."""


class Kept:
    """What the logs of all engines have."""
    id: str
    airport: bytes
    secret: str

    def __init__(self, name: str, board: str) -> None:
        self.name = name
        self._board = board
        self.grown = asyncio.Event()
        # Set when another server may have ended sessions.
        self.signed_out = asyncio.Event()
        self.read_at = time.monotonic()
        self.clock_ahead = 0.0
        self.void = set[int]()

    def seen(self, records: Sequence[Record]) -> list[Record]:
        """Records as they are read: a change of day that began none is none."""
        return [record._replace(is_change=False) if record.position in self.void else record for record in records]

    def check(self, airport: bytes, made_by: str, version: str, present: bytes | None = None) -> None:
        """Raises Fault if the log is another airport's or program's, or has an id that can't be part of a folder's name. `present`: the airport
        file of a change of day that may be the same but for its DAY."""
        if not ID.fullmatch(self.id):
            raise Fault(f"{self.name}: its id isn't one that cdmboard gives")
        is_own = airport == self.airport or present is not None and undated(airport) == undated(present)
        if not is_own or rules_of(made_by) != rules_of(version):
            what = "program" if is_own else "airport file"
            board = f" --board {self._board}" if self._board else ""
            raise Fault(f"{self.name} belongs to another {what}; for a new log: cdmboard export {self.name}{board} > day.csv"
                        f" && cdmboard import AIRPORT NEWLOG day.csv{board}")


def rules_of(version: str) -> str:
    """By what rules a program plans, as its version says: the number changes where an accepted input means something else. Release 1.0.0 has
    the first rules, and says no number."""
    found = RULES.search(version)
    return found[1] if found else "1" if version == "cdmseq 1.0.0" else version


def dated(airport: bytes, day: str) -> bytes:
    """An airport file with another day."""
    return DATED.sub(rb"\g<1>" + day.encode(), airport, count=1)


def undated(airport: bytes) -> bytes:
    """What airport files of several days have in common."""
    return DATED.sub(rb"\g<1>", airport, count=1)


def halves(airport: bytes) -> tuple[bytes, bytes]:
    """An airport file before its day and behind it."""
    found = DATED.search(airport)
    return (airport[:found.end(1)], airport[found.end():]) if found else (airport, b"")


def audit_of(rows: Sequence[Sequence[Any]]) -> bytes:
    """The rows of an audit as JSON, one object a line, without what a row hasn't."""
    names = ("at", "event", "desk", "address", "position", "count", "detail")
    found = [{name: said for name, said in zip(names, row) if said is not None} for row in rows]
    return "".join(json.dumps(one, separators=(",", ":")) + "\n" for one in found).encode()


def change_of(name: str, position: int, rows: Sequence[Sequence[Any]]) -> Change | None:
    """What stands beside a change of day: airport file, feed and digest. Raises Fault if they don't belong together."""
    if not rows:
        return None
    (airport, feed, digest), = rows
    change = Change(position, airport, feed)
    if not isinstance(airport, bytes) or not isinstance(feed, bytes) or change.digest != digest:
        raise Fault(f"{name}: the change of day at position {position} was changed")
    return change


def digests_as_json(said: Sequence[tuple[Record, str]]) -> str:
    """Digests of the replies up to some records, for a log's database: the rows of the records, each with its digest."""
    return json.dumps([(*record[:5], digest) for record, digest in said])


def records_of(name: str, after: int, rows: Sequence[Sequence[Any]]) -> list[Record]:
    """The rows behind a position as records, if each is the next one, and one line. Raises Fault."""
    records = [Record(*row[:5])._replace(is_change=bool(row[5])) for row in rows]
    for position, record in enumerate(records, after + 1):
        if record.position != position:
            raise Fault(f"{name}: position {position} is missing")
        is_line = all(isinstance(word, str) for word in record[1:5]) and len(record.line) <= MOST_BYTES and LINE.fullmatch(record.line)
        is_line = is_line and AT.fullmatch(record.at)
        if not is_line or record.role not in ROLES or record.is_change and not DAY.fullmatch(record.line):
            raise Fault(f"{name}: position {position} isn't one line of a record")
    return records
