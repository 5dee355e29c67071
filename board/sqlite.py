"""The log in a file of SQLite, which one server uses.

Its write-ahead log has an index in shared memory, `LOG-shm`. On a full disk a store to a page of it that has no block ends the process,
so the disk's room is tried before a connection is made, and all blocks of the index are reserved."""
import asyncio
import contextlib
import errno
import fcntl
import json
import os
import secrets
import sqlite3
import time
from collections.abc import Sequence
from concurrent.futures import ThreadPoolExecutor
from typing import Any
from urllib.parse import quote

from board.commits import Commit, Commits
from board.log import (BEFORE, MOST_EVENTS, MOST_RECORDS, Accept, Away, Batch, Change, Event, Kept, Record, accepted, audit_of, change_of,
                       digests_as_json, halves, records_of)
from board.words import Fault, Problem, now_text, tell
from board.writer import COMMIT_SECONDS, Outcome

# Seconds that a foreign lock is waited for, between two tries of a log that failed, and that a read waits behind a commit that hangs.
BUSY_SECONDS = 5.0
RETRY_SECONDS = 1.0
BEHIND_SECONDS = 10.0
# Bytes that a disk has to take, more than a large batch needs; bytes of the index, for a write-ahead log of 16,000 pages.
ROOM_BYTES = 1 << 18
INDEX_BYTES = 4 << 15
PRAGMAS = """
PRAGMA journal_mode = WAL;
PRAGMA synchronous = FULL;
"""
SCHEMA = """
BEGIN IMMEDIATE;
CREATE TABLE IF NOT EXISTS cdm_log (board TEXT PRIMARY KEY, id TEXT NOT NULL, airport BLOB NOT NULL, version TEXT NOT NULL, secret TEXT);
CREATE TABLE IF NOT EXISTS cdm_record (
    board TEXT NOT NULL, position INTEGER NOT NULL, desk TEXT NOT NULL, key TEXT, n INTEGER NOT NULL,
    lines INTEGER NOT NULL, role TEXT NOT NULL, line TEXT NOT NULL, at TEXT NOT NULL,
    UNIQUE (board, position), UNIQUE (board, desk, key, n));
CREATE TABLE IF NOT EXISTS cdm_session (
    board TEXT NOT NULL, desk TEXT NOT NULL, not_before INTEGER NOT NULL, PRIMARY KEY (board, desk)) WITHOUT ROWID;
CREATE TABLE IF NOT EXISTS cdm_audit (
    board TEXT NOT NULL, number INTEGER PRIMARY KEY, at TEXT NOT NULL, event TEXT NOT NULL, desk TEXT, address TEXT,
    position INTEGER, count INTEGER, detail TEXT);
CREATE TABLE IF NOT EXISTS cdm_digest (
    board TEXT NOT NULL, position INTEGER NOT NULL, digest TEXT NOT NULL, PRIMARY KEY (board, position)) WITHOUT ROWID;
CREATE TABLE IF NOT EXISTS cdm_day (
    board TEXT NOT NULL, position INTEGER NOT NULL, airport BLOB NOT NULL, feed BLOB NOT NULL, digest TEXT NOT NULL,
    PRIMARY KEY (board, position));
COMMIT;
"""
AUDIT = "SELECT at, event, desk, address, position, count, detail FROM cdm_audit WHERE board = ? ORDER BY number"
DIGESTS = "SELECT position, digest FROM cdm_digest WHERE board = ?"
# What a server says of digests, as JSON, with the records up to which they go; of records that the log hasn't, it is no digest of this log.
SAID = """
FROM json_each(?) JOIN cdm_record ON position = json_extract(value, '$[0]') AND desk = json_extract(value, '$[1]')
    AND role = json_extract(value, '$[2]') AND line = json_extract(value, '$[3]') AND at = json_extract(value, '$[4]')
WHERE board = ?"""
KEEP = f"INSERT INTO cdm_digest SELECT board, position, json_extract(value, '$[5]') {SAID} ON CONFLICT DO NOTHING"
KEPT_DIGESTS = f"SELECT position, digest FROM cdm_digest WHERE position IN (SELECT position {SAID}) AND board = ?"
LOG = "SELECT id, airport, version, secret FROM cdm_log WHERE board = ?"
# A record is a change of day if something stands beside it.
COLUMNS = """SELECT position, desk, role, line, at, cdm_day.position IS NOT NULL FROM cdm_record LEFT JOIN cdm_day USING (board, position)
WHERE board = ? AND position > ?"""
ROWS = f"{COLUMNS} ORDER BY position LIMIT ?"
OLD_ROWS = "SELECT position, desk, role, line, at, 0 FROM cdm_record WHERE board = ? AND position > ? ORDER BY position LIMIT ?"
CHANGES = f"{COLUMNS} AND cdm_day.position IS NOT NULL ORDER BY position"
CHANGE = "SELECT airport, feed, digest FROM cdm_day WHERE board = ? AND position = ?"
SOUGHT = """SELECT min(position) FROM cdm_record WHERE board = ? AND position > ? AND position <= ? AND (? IS NULL OR desk = ?)
AND (? IS NULL OR instr(substr(line, instr(line, ',') + 1) || ',', ? || ',') = 1
    AND substr(line, 1, instr(line, ',') - 1) IN (SELECT value FROM json_each(?)))"""
# Of the last change of day whose airport file is the same before the ten bytes of its day, and behind them.
PRESENT = """SELECT airport FROM cdm_day WHERE board = ?1 AND substr(airport, 1, length(?2)) = ?2 AND substr(airport, length(?2) + 11) = ?3
ORDER BY position DESC LIMIT 1"""
LOCKED = (sqlite3.SQLITE_BUSY, sqlite3.SQLITE_LOCKED)
# What may be otherwise at the next try, without anybody's change of a file.
PASSING = (*LOCKED, sqlite3.SQLITE_FULL, sqlite3.SQLITE_IOERR, sqlite3.SQLITE_NOMEM)
NO_ROOM = (errno.ENOSPC, errno.EDQUOT, errno.EFBIG, errno.EIO, errno.ENOMEM, errno.EMFILE, errno.ENFILE)


class Moved(Exception):
    """The log's path leads to another file, or to none."""


class FileLog(Kept):
    """A log in a file, which has a thread of its own."""

    def __init__(self, path: str, board: str) -> None:
        super().__init__(os.path.realpath(path), board)
        # As it was said: also a link to another file leads the next start elsewhere.
        self._path = os.path.abspath(path)
        self._loop = asyncio.get_running_loop()
        self._thread = ThreadPoolExecutor(1, "log")
        self._locks = list[int]()
        self._database: sqlite3.Connection | None = None
        self._index: int | None = None
        self._commits = Commits(self._begin)
        self._changing: asyncio.Task[End] | None = None
        self._failed_at = ""
        # What ended the log; None: a commit failed, and the log is to be tried again.
        self._ends = asyncio.Queue[Fault | None]()

    async def open(self, airport: bytes, version: str, accept: Accept = accepted) -> None:
        """Opens the log. One that isn't there is made, if `accept` raises nothing before. Raises Fault."""
        log = (self._board, secrets.token_hex(8), airport, version, secrets.token_hex(32))
        try:
            # Another name of the file has another lock, but is the same file.
            for path in (f"{self.name}.lock", self.name):
                self._locks.append(os.open(path, os.O_CREAT | os.O_RDWR | os.O_CLOEXEC, 0o600))
                fcntl.flock(self._locks[-1], fcntl.LOCK_EX | fcntl.LOCK_NB)
            database = self._connect()
            self._update(database, log[-1])
            row = database.execute(LOG, log[:1]).fetchone()
            if row is None:
                await accept()
                database.execute("INSERT INTO cdm_log VALUES (?, ?, ?, ?, ?)", log)
                row = log[1:]
        except BlockingIOError:
            raise Fault(f"{self.name} is served by another") from None
        except (OSError, sqlite3.Error) as fault:
            raise Fault(f"{self.name}: {fault}", status_of(fault)) from None
        self.id, self.airport, made_by, self.secret = row
        present = database.execute(PRESENT, (log[0], *halves(airport))).fetchone()
        self.check(airport, made_by, version, present and present[0])

    def _update(self, database: sqlite3.Connection, secret: str) -> None:
        """An older log gets a secret, and nobody else may read its file then."""
        query = database.execute
        if "secret" not in [column for _, column, *_ in query("PRAGMA table_info(cdm_log)")]:
            for path in (self.name, f"{self.name}-wal", f"{self.name}-shm"):
                with contextlib.suppress(FileNotFoundError):
                    os.chmod(path, 0o600)
            query("ALTER TABLE cdm_log ADD COLUMN secret TEXT")
        if query("SELECT 1 FROM cdm_log WHERE board = ? AND secret IS NULL", (self._board,)).fetchone():
            query("UPDATE cdm_log SET secret = ? WHERE board = ?", (secret, self._board))

    def _connect(self) -> sqlite3.Connection:
        """A new connection in place of the one before, on a disk that has room. Raises sqlite3.Error, OSError."""
        self._disconnect()
        check_room(f"{self.name}.room")
        self._database = sqlite3.connect(self.name, timeout=BUSY_SECONDS, isolation_level=None, check_same_thread=False)
        self._database.executescript(PRAGMAS)
        # A log that is complete is opened without a lock, which another program may hold for a while.
        if self._database.execute("SELECT count(*) FROM sqlite_master WHERE name IN ('cdm_digest', 'cdm_day')").fetchone() != (2,):
            self._database.executescript(SCHEMA)
        # It stays open: who closes a file takes away each of the process's locks on it, SQLite's too.
        self._index = os.open(f"{self.name}-shm", os.O_RDWR | os.O_CLOEXEC)
        os.posix_fallocate(self._index, 0, INDEX_BYTES)
        return self._database

    def _disconnect(self) -> None:
        if self._database is not None:
            self._database.close()
        if self._index is not None:
            os.close(self._index)
        self._database = self._index = None

    @property
    def stale_since(self) -> str | None:
        """Since when no record is taken."""
        return self._failed_at if self._commits.writer.closed else None

    async def append(self, batch: Batch) -> range:
        """The records' positions, once they are in the log. Raises Problem; 503: nothing was taken; 504: not known."""
        return await self._commits.append(batch)

    def _begin(self, commit: Commit) -> None:
        """Has a transaction run in the thread. One that hangs keeps the thread, but no desk."""
        overdue = self._loop.call_later(COMMIT_SECONDS, self._overdue, commit.number)
        done: asyncio.Future[End]
        if commit.batches[0].change is None:
            done = self._loop.run_in_executor(self._thread, self._committed, commit.batches)
        else:
            done = self._changing = self._loop.create_task(self._changed(commit.batches[0]))
        done.add_done_callback(lambda done: self._done(commit.number, overdue, done))

    async def _changed(self, batch: Batch) -> "End":
        """A change of day in a transaction of its own. What came before it is carried over while no other one runs."""
        try:
            last = await self._loop.run_in_executor(self._thread, self._last)
            batch = await batch.carried(last)
        except Problem as problem:
            return [problem]
        except sqlite3.Error as fault:
            return Outcome.NOTHING, fault
        return await self._loop.run_in_executor(self._thread, self._committed, [batch])

    def _last(self) -> int:
        """In the thread: the last position."""
        if self._database is None:
            raise sqlite3.OperationalError("it isn't open")
        last: int = self._database.execute("SELECT coalesce(max(position), 0) FROM cdm_record WHERE board = ?", (self._board,)).fetchone()[0]
        return last

    def _overdue(self, number: int) -> None:
        why = f"a commit takes longer than {COMMIT_SECONDS:.0f} seconds"
        self._close(why)
        self._commits.do(self._commits.writer.overdue(number, f"the log takes no records at present: {why}; nothing was taken"))

    def _close(self, why: str) -> None:
        if not self._commits.writer.closed:
            self._failed_at = now_text()
            tell(f"cdmboard: {self.name} takes no records: {why}")

    def _done(self, number: int, overdue: asyncio.TimerHandle, done: "asyncio.Future[End]") -> None:
        """A transaction ended."""
        overdue.cancel()
        if done.cancelled():
            return
        end = done.result()
        writer = self._commits.writer
        if isinstance(end, list):
            was_closed = writer.closed
            self._commits.do(writer.committed(number, end))
            self.grown.set()
            if was_closed:
                tell(f"cdmboard: {self.name} takes records again")
            return
        outcome, fault = end
        self._close(str(fault))
        self._commits.do(writer.failed(number, outcome, f"the log takes no records at present: {fault}; nothing was taken"))
        self._ends.put_nowait(Fault(f"{self.name}: {fault}") if isinstance(fault, Moved) else None)

    def _committed(self, batches: Sequence[Batch]) -> "End":
        """In the thread: all these batches in one transaction. Its answers, or why it has none."""
        outcome = Outcome.NOTHING
        database = self._database
        if database is None:
            return outcome, sqlite3.OperationalError("it isn't open")
        try:
            self._check_path()
            database.execute("BEGIN IMMEDIATE")
            answers = [self._take(database, batch) for batch in batches]
            outcome = Outcome.UNKNOWN
            database.execute("COMMIT")
            self._check_path()
            return answers
        except Moved as moved:
            return outcome, moved
        except sqlite3.Error as fault:
            # Who only waited for a lock has lost nothing, and the transaction is there to be taken back.
            is_open = outcome is Outcome.UNKNOWN and database.in_transaction and code_of(fault) in LOCKED
            with contextlib.suppress(sqlite3.Error):
                database.execute("ROLLBACK")
                outcome = Outcome.NOTHING if is_open else outcome
            return outcome, fault
        except Exception as fault:
            # Such as want of memory: whoever waits is told, whatever it was.
            with contextlib.suppress(sqlite3.Error):
                database.execute("ROLLBACK")
            return outcome, sqlite3.OperationalError(f"{type(fault).__name__}: {fault}")

    def _check_path(self) -> None:
        """Raises Moved if the next start would have another file. What is committed to this one would be lost with it."""
        own = os.fstat(self._locks[-1])
        try:
            there = os.stat(self._path)
        except OSError as fault:
            raise Moved(f"the file is no longer there ({fault.strerror})") from None
        if (there.st_dev, there.st_ino) != (own.st_dev, own.st_ino):
            raise Moved("another file is there now")

    def _take(self, database: sqlite3.Connection, batch: Batch) -> range | Problem:
        """The records' positions: those that their key has already, or new ones."""
        query = database.execute
        desk = (self._board, batch.desk)
        count = len(batch.records)
        if batch.key is not None:
            kept = query("SELECT position, line FROM cdm_record WHERE board = ? AND desk = ? AND key = ? ORDER BY n",
                         (*desk, batch.key)).fetchall()
            if kept and [line for _, line in kept] != [line for _, line in batch.records]:
                return Problem(422, "this key came with another body before")
            if kept:
                return range(kept[0][0], kept[0][0] + len(kept))
        last, = query("SELECT coalesce(max(position), 0) FROM cdm_record WHERE board = ?", desk[:1]).fetchone()
        # The day's first position.
        first, = query("SELECT coalesce(max(position), 1) FROM cdm_day WHERE board = ?", desk[:1]).fetchone()
        mine, = query("SELECT count(*) FROM cdm_record WHERE board = ? AND desk = ? AND position >= ?", (*desk, first)).fetchone()
        if batch.closed is not None:
            return Problem(403, batch.closed)
        change = batch.change
        if change is None and (last + 1 - first + count > batch.end or mine + count > batch.most):
            return batch.full()
        if change is not None:
            if change.position != last + 1:
                return Problem(503, BEFORE)
            query("INSERT INTO cdm_day VALUES (?, ?, ?, ?, ?)", (self._board, last + 1, change.airport, change.feed, change.digest))
            # A server of release 1.0.0 takes all days for one: it refuses a log of another version than its own.
            query("UPDATE cdm_log SET version = version || ' (rules 1)' WHERE board = ? AND version = 'cdmseq 1.0.0'", desk[:1])
        database.executemany(
            "INSERT INTO cdm_record VALUES (?, ?, ?, ?, ?, ?, ?, ?, ?)",
            [(self._board, last + 1 + n, batch.desk, batch.key, n, count, *record, batch.at) for n, record in enumerate(batch.records)])
        if batch.address is not None:
            query("INSERT INTO cdm_audit (board, at, event, desk, address, position, count) VALUES (?, ?, 'records', ?, ?, ?, ?)",
                  (self._board, batch.at, batch.desk, batch.address, last + 1, count))
        return range(last + 1, last + 1 + count)

    async def rows(self, after: int, most: int = MOST_RECORDS) -> list[Record]:
        """The first records behind a position; none where a foreign lock is waited for. Raises Fault."""
        try:
            found = await self._loop.run_in_executor(self._thread, self._rows, after, most)
            self.read_at = time.monotonic()
            return self.seen(found)
        except sqlite3.Error as fault:
            if code_of(fault) not in LOCKED and not self.stale_since:
                raise Fault(f"{self.name}: {fault}", 1) from None
            self._loop.call_later(RETRY_SECONDS, self.grown.set)
            return []

    def _rows(self, after: int, most: int) -> list[Record]:
        if self._database is None:
            raise sqlite3.OperationalError("it isn't open")
        return rows_of(self._database, self.name, self._board, after, most)

    async def whole(self, after: int = 0) -> list[Record]:
        """All records behind a position. Raises Fault."""
        try:
            return self.seen(await self._loop.run_in_executor(self._thread, self._rows, after, -1))
        except sqlite3.Error as fault:
            raise Fault(f"{self.name}: {fault}", status_of(fault)) from None

    async def changes(self) -> list[Record]:
        """All changes of day. Raises Away, Fault."""
        found = [Record(*row[:5])._replace(is_change=True) for row in await self._read(CHANGES, self._board, 0)]
        return [record for record in found if record.position not in self.void]

    async def change(self, position: int) -> Change | None:
        """What stands beside the change of day at a position. Raises Away, Fault."""
        return change_of(self.name, position, await self._read(CHANGE, self._board, position))

    async def between(self, first: int, last: int) -> list[Record]:
        """The records from one position to another. Raises Away, Fault."""
        rows = await self._read(ROWS, self._board, first - 1, last - first + 1)
        return self.seen(await asyncio.to_thread(records_of, self.name, first - 1, rows))

    async def sought(self, after: int, last: int, flight: str | None, desk: str | None, kinds: Sequence[str]) -> int | None:
        """The first position behind another, up to a last one, of a flight, which such kinds have, and of a desk. Raises Away, Fault."""
        (found,), = await self._read(SOUGHT, self._board, after, last, desk, desk, flight, flight, json.dumps(kinds))
        position: int | None = found
        return position

    async def digests(self) -> dict[int, str]:
        """The digests of the replies, each by the position up to which it goes. Raises Fault."""
        return dict(await self._call(DIGESTS, self._board))

    async def keep(self, said: Sequence[tuple[Record, str]]) -> dict[int, str]:
        """Keeps digests of the replies up to these records, where there are none yet. Returns what is kept, without those of records that
        the log hasn't. Raises Away, Fault."""
        told = digests_as_json(said)
        await self._call(KEEP, told, self._board)
        return dict(await self._call(KEPT_DIGESTS, told, self._board, self._board))

    async def sessions(self) -> dict[str, int]:
        """The number of each desk's first session that hasn't ended, where it isn't 0. Raises Away, Fault."""
        return dict(await self._read("SELECT desk, not_before FROM cdm_session WHERE board = ?", self._board))

    async def sign_out(self, desk: str, least: int = 1) -> None:
        """Ends all sessions of a desk, also those before number `least`. Raises Fault."""
        await self._call("INSERT INTO cdm_session VALUES (?, ?, ?) ON CONFLICT DO UPDATE"
                         " SET not_before = max(not_before + 1, excluded.not_before)", self._board, desk, max(1, least))

    async def note(self, events: list[Event]) -> int:
        """Keeps events in the audit; how many, since there is no room for more than MOST_EVENTS. Raises Fault."""
        (count,), = await self._call("SELECT count(*) FROM cdm_audit WHERE board = ? AND event <> 'records'", self._board)
        if kept := events[:max(0, MOST_EVENTS - count)]:
            # One statement, so that all are kept or none.
            rows = ", ".join(["(?, ?, ?, ?, ?, ?)"] * len(kept))
            words = [word for event in kept for word in (self._board, *event)]
            await self._call(f"INSERT INTO cdm_audit (board, event, desk, address, detail, at) VALUES {rows}", *words)
        return len(kept)

    async def _read(self, query: str, *words: object) -> list[Any]:
        """The rows of a query, if the thread comes to it in time: a commit that hangs keeps it. Raises Away, Fault."""
        try:
            async with asyncio.timeout(BEHIND_SECONDS):
                return await self._call(query, *words)
        except TimeoutError:
            raise Away(f"a commit takes longer than {BEHIND_SECONDS:.0f} seconds") from None

    async def _call(self, query: str, *words: object) -> list[Any]:
        try:
            return await self._loop.run_in_executor(self._thread, self._called, query, words)
        except Moved as moved:
            raise Fault(f"{self.name}: {moved}") from None
        except sqlite3.Error as fault:
            if code_of(fault) in LOCKED or self.stale_since:
                raise Away(fault) from None
            raise Fault(f"{self.name}: {fault}", 1) from None

    def _called(self, query: str, words: Sequence[object]) -> list[Any]:
        self._check_path()
        if self._database is None:
            raise sqlite3.OperationalError("it isn't open")
        return self._database.execute(query, words).fetchall()

    async def ended(self) -> None:
        """Tries a log that failed, until it takes records again. Returns never. Raises Fault if the file was moved."""
        while True:
            end = await self._ends.get()
            if end is not None:
                raise end
            while not await self._loop.run_in_executor(self._thread, self._is_there):
                await asyncio.sleep(RETRY_SECONDS)
            self._commits.do(self._commits.writer.opened())
            self.grown.set()
            tell(f"cdmboard: {self.name} takes records again")

    def _is_there(self) -> bool:
        """In the thread: whether the log, opened anew on a disk with room, can be used. A file that was moved can't, and ends the server."""
        try:
            self._check_path()
            self._connect()
        except Moved as moved:
            self._loop.call_soon_threadsafe(self._ends.put_nowait, Fault(f"{self.name}: {moved}"))
        except (sqlite3.Error, OSError):
            return False
        return True

    async def close(self) -> None:
        """Ends what is open."""
        if self._changing is not None:
            self._changing.cancel()
            await asyncio.gather(self._changing, return_exceptions=True)
        self._thread.shutdown()
        self._disconnect()
        for lock in self._locks:
            os.close(lock)


# How a transaction ended: its answers, or what it may have left and why.
End = list[range | Problem] | tuple[Outcome, sqlite3.Error | Moved]


def check_room(path: str) -> None:
    """Raises OSError if a disk doesn't take a file of this name and of some size. The file is removed."""
    made = os.open(path, os.O_CREAT | os.O_RDWR | os.O_CLOEXEC | os.O_NOFOLLOW, 0o600)
    try:
        os.posix_fallocate(made, 0, ROOM_BYTES)
        os.pwrite(made, b"cdm", 0)
        os.fsync(made)
    finally:
        os.close(made)
        os.unlink(path)


def code_of(fault: sqlite3.Error) -> int:
    """SQLite's primary code of a fault; 0 where it has none."""
    return getattr(fault, "sqlite_errorcode", 0) & 0xFF


def status_of(fault: Exception) -> int:
    """The exit status for a log that can't be opened: 1 where the next start may do better, else 3."""
    passes = code_of(fault) in PASSING if isinstance(fault, sqlite3.Error) else isinstance(fault, OSError) and fault.errno in NO_ROOM
    return 1 if passes else 3


async def read_log(path: str, board: str) -> tuple[list[Change], str, list[Record]]:
    """What begins each day, the program, and all records of a log, also while it is served. Raises Fault."""
    try:
        with contextlib.closing(sqlite3.connect(f"file:{quote(path)}?mode=ro", uri=True)) as database:
            row = database.execute("SELECT airport, version FROM cdm_log WHERE board = ?", (board,)).fetchone()
            if row is None:
                raise Fault(f"{path} has no board {board!a} (--board NAME)")
            if not database.execute("SELECT 1 FROM sqlite_master WHERE name = 'cdm_day'").fetchone():
                return [Change(0, row[0])], row[1], records_of(path, 0, database.execute(OLD_ROWS, (board, 0, -1)).fetchall())
            # All of one moment.
            database.execute("BEGIN")
            records = rows_of(database, path, board, 0, -1)
            changes = [change_of(path, record.position, database.execute(CHANGE, (board, record.position)).fetchall())
                       for record in records if record.is_change]
            return [Change(0, row[0]), *(change for change in changes if change)], row[1], records
    except sqlite3.Error as fault:
        raise Fault(f"{path} is no log: {fault}") from None


async def read_digests(path: str, board: str) -> dict[int, str]:
    """The digests of a log; of one that was last served by an older version none. Raises Fault."""
    try:
        with contextlib.closing(sqlite3.connect(f"file:{quote(path)}?mode=ro", uri=True)) as database:
            has_digests = database.execute("SELECT 1 FROM sqlite_master WHERE name = 'cdm_digest'").fetchone()
            return dict(database.execute(DIGESTS, (board,)).fetchall()) if has_digests else {}
    except sqlite3.Error as fault:
        raise Fault(f"{path} is no log: {fault}") from None


async def read_audit(path: str, board: str) -> bytes:
    """The audit of a log, one JSON object a line. Raises Fault."""
    try:
        with contextlib.closing(sqlite3.connect(f"file:{quote(path)}?mode=ro", uri=True)) as database:
            return audit_of(database.execute(AUDIT, (board,)).fetchall())
    except sqlite3.Error as fault:
        raise Fault(f"{path} has no audit: {fault}") from None


async def copy_log(path: str, board: str, copy: str) -> None:
    """A copy of a whole log in a file that is empty, at one moment. It has an id of its own, so nobody takes its later records for those
    of the log, and a secret of its own. Raises Fault."""
    await read_log(path, board)
    try:
        with contextlib.closing(sqlite3.connect(f"file:{quote(path)}?mode=ro", uri=True, timeout=BUSY_SECONDS)) as database:
            database.execute("VACUUM INTO ?", (copy,))
        with contextlib.closing(sqlite3.connect(copy, isolation_level=None)) as database:
            has_secret = "secret" in [column for _, column, *_ in database.execute("PRAGMA table_info(cdm_log)")]
            for name, in database.execute("SELECT board FROM cdm_log").fetchall():
                database.execute("UPDATE cdm_log SET id = ? WHERE board = ?", (secrets.token_hex(8), name))
                if has_secret:
                    database.execute("UPDATE cdm_log SET secret = ? WHERE board = ?", (secrets.token_hex(32), name))
            if database.execute("PRAGMA integrity_check").fetchall() != [("ok",)]:
                raise Fault(f"{path}: its copy is damaged")
    except sqlite3.Error as fault:
        raise Fault(f"{copy}: {fault}", status_of(fault)) from None


def write_log(copy: str, log: Sequence[object], rows: Sequence[Sequence[object]], digests: Sequence[Sequence[object]],
              audit: Sequence[Sequence[object]], days: Sequence[Sequence[object]]) -> None:
    """A log in a file that is empty, of the rows of its tables. Raises Fault."""
    try:
        with contextlib.closing(sqlite3.connect(copy, isolation_level=None)) as database:
            database.executescript(PRAGMAS + SCHEMA + "BEGIN;")
            database.execute("INSERT INTO cdm_log (board, id, airport, version) VALUES (?, ?, ?, ?)", log)
            database.executemany("INSERT INTO cdm_record VALUES (?, ?, ?, ?, ?, ?, ?, ?, ?)", rows)
            database.executemany("INSERT INTO cdm_digest VALUES (?, ?, ?)", [(log[0], *row) for row in digests])
            database.executemany("INSERT INTO cdm_day VALUES (?, ?, ?, ?, ?)", [(log[0], *row) for row in days])
            database.executemany("INSERT INTO cdm_audit (board, at, event, desk, address, position, count, detail)"
                                 " VALUES (?, ?, ?, ?, ?, ?, ?, ?)", [(log[0], *row) for row in audit])
            database.execute("COMMIT")
    except sqlite3.Error as fault:
        raise Fault(f"{copy}: {fault}", status_of(fault)) from None


def rows_of(database: sqlite3.Connection, path: str, board: str, after: int, most: int) -> list[Record]:
    """The first rows behind a position. Raises Fault, sqlite3.Error."""
    return records_of(path, after, database.execute(ROWS, (board, after, most)).fetchall())
