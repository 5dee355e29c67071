"""The log in PostgreSQL, which any number of servers may share: what is read and written, and the link by which it is.

Where a link breaks a new one is made. Rows are handed on, and records taken, only over one that passed its check."""
import asyncio
import base64
import contextlib
import json
import secrets
import time
from argparse import Namespace
from collections.abc import Sequence
from itertools import chain, repeat
from pathlib import Path
from typing import Any

from board import sqlite
from board.commits import Commit, Commits
from board.following import AWAY, Following, Seen
from board.hosts import is_url, name_of
from board.link import CHANNELS, READ_SECONDS, TIMELINE, Link, Refused, connect, database_of, finished, first, newest
from board.log import (BEFORE, CARRY_SECONDS, MOST_RECORDS, Accept, Away, Batch, Change, Changed, Event, Kept, Record, accepted, audit_of, change_of,
                       digests_as_json, halves, records_of)
from board.notices import Notices
from board.words import Fault, Problem, now_text, tell
from board.writer import COMMIT_SECONDS, Outcome, nothing

SCHEMA = Path(__file__).with_name("schema.sql")
LINK_LOOK_SECONDS = 1.0
STALE_SECONDS = 3.0
# Seconds after which a connection that has nothing to commit is asked whether it is still there.
IDLE_SECONDS = 10.0
# Seconds for which a start waits for a database.
AT_START_SECONDS = 60.0
# Seconds for which a server that says nothing more may hold the lock of a board.
HOLD_SECONDS = CARRY_SECONDS + 2
APPEND = "SELECT public.cdm_append($1, $2)"
# A record is a change of day if something stands beside it.
COLUMNS = """SELECT position, desk, role, line, at, cdm_day.position IS NOT NULL FROM public.cdm_record
    LEFT JOIN public.cdm_day USING (board, position) WHERE board = $1"""
CHANGES = f"{COLUMNS} AND cdm_day.position IS NOT NULL ORDER BY position"
CHANGE = "SELECT airport, feed, digest FROM public.cdm_day WHERE board = $1 AND position = $2"
SOUGHT = """SELECT min(position) FROM public.cdm_record WHERE board = $1 AND position > $2 AND position <= $3
    AND ($4::text IS NULL OR desk = $4) AND ($5::text IS NULL OR split_part(line, ',', 2) = $5 AND split_part(line, ',', 1) = ANY($6::text[]))"""
# Of the last change of day whose airport file is the same before the ten bytes of its day, and behind them.
PRESENT = """SELECT airport FROM public.cdm_day WHERE board = $1 AND substring(airport FROM 1 FOR octet_length($2::bytea)) = $2
    AND substring(airport FROM octet_length($2) + 11) = $3 ORDER BY position DESC LIMIT 1"""
LAST = "SELECT coalesce(max(position), 0), extract(epoch FROM clock_timestamp())::double precision FROM public.cdm_record WHERE board = $1"
# Tables of an older version have no sessions, no digests, or no days.
TABLES = """SELECT num_nulls(to_regclass('public.cdm_record'), to_regclass('public.cdm_session'), to_regclass('public.cdm_digest'),
    to_regclass('public.cdm_day')) = 0"""
DIGESTS = "SELECT position, digest FROM public.cdm_digest WHERE board = $1"
SESSIONS = "SELECT desk, not_before FROM public.cdm_session WHERE board = $1"
AUDIT = "SELECT at, event, desk, address, position, count, detail FROM public.cdm_audit WHERE board = $1 ORDER BY number"
WRONG = {422: "this key came with another body before", 503: BEFORE}


class PostgresLog(Kept):
    """A log in PostgreSQL, with the calls of one in a file. Rows are handed on only from a database that has the last one handed on."""

    def __init__(self, url: str, board: str) -> None:
        super().__init__(name_of(url), board)
        self.id = ""
        self.airport = b""
        # The airport file with which this server was started.
        self._given = b""
        self._version = ""
        self._accept: Accept = accepted
        self._url = url
        self._writer_name = f"cdmboard {secrets.token_hex(8)}"
        self._link: Link | None = None
        self._linked = asyncio.Event()
        self._commits = Commits(self._begin, AWAY)
        # The transaction that is to run, and hasn't begun.
        self._ordered = asyncio.Event()
        self._order = list[Commit]()
        self._following = Following()
        self._notices = dict(zip(CHANNELS, (Notices(self.grown), Notices(self.signed_out)), strict=True))
        self._looked = float("-inf")
        self._looked_at = now_text()
        self._keeping: asyncio.Task[None] | None = None
        self._is_closing = False

    async def open(self, airport: bytes, version: str, accept: Accept = accepted) -> None:
        self.airport = airport
        self._given = airport
        self._version = version
        self._accept = accept
        self._use(await self._first_link())
        self._keeping = asyncio.create_task(self._keep())

    async def _first_link(self) -> Link:
        """A link to the database of the highest timeline, as soon as there is one: it may start later than the server. Raises Fault."""
        end = time.monotonic() + AT_START_SECONDS
        said = ""
        while True:
            try:
                self._following.timeline = await newest(self._url)
                return await first(self._url, self._to)
            except Away as away:
                why = str(away)
            if time.monotonic() > end:
                raise Fault(f"{self.name}: {why}", 1)
            if why != said:
                tell(f"cdmboard: {self.name}: {why}; it is waited for")
            said = why
            await asyncio.sleep(LINK_LOOK_SECONDS)

    async def ended(self) -> None:
        assert self._keeping is not None
        await asyncio.shield(self._keeping)

    async def close(self) -> None:
        self._is_closing = True
        if self._keeping is not None:
            self._keeping.cancel()
            await asyncio.gather(self._keeping, return_exceptions=True)
        if self._link is not None:
            self._link.end()

    @property
    def stale_since(self) -> str | None:
        return self._looked_at if not self._following.is_current or time.monotonic() - self._looked > STALE_SECONDS else None

    # What is read.

    async def rows(self, after: int, most: int = MOST_RECORDS) -> list[Record]:
        """As of a file; none while the database is away. Raises Changed too."""
        if self._following.wanted():
            raise Changed(f"{self.name} hasn't the last row that was read; it is read anew")
        return await self._read(after, most) or []

    async def whole(self, after: int = 0) -> list[Record]:
        while True:
            await self._linked.wait()
            self._following.read_anew()
            records = await self._read(after, None, 60.0)
            if records is not None:
                return records
            await asyncio.sleep(0.05)

    async def changes(self) -> list[Record]:
        return [record for record in (Record(*row) for row in await self._linked_read(CHANGES)) if record.position not in self.void]

    async def change(self, position: int) -> Change | None:
        return change_of(self.name, position, await self._linked_read(CHANGE, position))

    async def between(self, first: int, last: int) -> list[Record]:
        query = f"{COLUMNS} AND position BETWEEN $2 AND $3 ORDER BY position"
        rows = await self._linked_read(query, first, last)
        return self.seen(await asyncio.to_thread(records_of, self.name, first - 1, rows))

    async def sought(self, after: int, last: int, flight: str | None, desk: str | None, kinds: Sequence[str]) -> int | None:
        (found,), = await self._linked_read(SOUGHT, after, last, desk, flight, kinds)
        position: int | None = found
        return position

    async def _linked_read(self, query: str, *words: object) -> Any:
        """The rows of a query about this board, from the link. Raises Away."""
        link = self._link
        if link is None:
            raise Away("the database is away")
        return await link.read(query, self._board, *words)

    async def digests(self) -> dict[int, str]:
        """As of a file; waits for the database."""
        while True:
            await self._linked.wait()
            if (link := self._link) is not None:
                with contextlib.suppress(Away):
                    return dict(await link.read(DIGESTS, self._board))
            await asyncio.sleep(0.05)

    async def _read(self, after: int, most: int | None, seconds: float = READ_SECONDS) -> list[Record] | None:
        """Rows, None where the database is away. They're handed on: a later link has to have the last."""
        link = self._link
        if link is None:
            return None
        try:
            query = f"{COLUMNS} AND position > $2 ORDER BY position LIMIT $3::integer"
            found = await link.read(query, self._board, after, most, seconds=seconds)
        except Away:
            return None
        if link is not self._link or link.broken.is_set():
            return None
        records = records_of(self.name, after, found)
        self._following.handed_on(records)
        return self.seen(records)

    async def sessions(self) -> dict[str, int]:
        """As of a file. Raises Away too."""
        return dict(await self._linked_read(SESSIONS))

    # What is written.

    async def sign_out(self, desk: str, least: int = 1) -> None:
        """As of a file, by a connection of its own, and tells the other servers."""
        async with database_of(self._url) as database:
            await finished(database, COMMIT_SECONDS, database.fetchval("SELECT public.cdm_sign_out($1, $2, $3)", self._board, desk, max(1, least)))
            await finished(database, COMMIT_SECONDS, database.execute("SELECT pg_notify('cdm_session', $1)", self._board))

    async def keep(self, said: Sequence[tuple[Record, str]]) -> dict[int, str]:
        """As of a file, by a connection of its own."""
        async with database_of(self._url) as database:
            query = "SELECT public.cdm_keep($1, $2)"
            kept = json.loads(await finished(database, COMMIT_SECONDS, database.fetchval(query, self._board, digests_as_json(said))))
            return {int(position): digest for position, digest in kept.items()}

    async def note(self, events: list[Event]) -> int:
        """As of a file, by a connection of its own."""
        told = json.dumps([event._asdict() for event in events])
        async with database_of(self._url) as database:
            kept: int = await finished(database, COMMIT_SECONDS, database.fetchval("SELECT public.cdm_note($1, $2)", self._board, told))
            return kept

    async def append(self, batch: Batch) -> range:
        if (why := self._following.refusal()) is not None:
            raise nothing(why)
        return await self._commits.append(batch)

    def _begin(self, commit: Commit) -> None:
        self._order.append(commit)
        self._ordered.set()

    async def _commit(self, link: Link) -> None:
        """Runs the writer's transactions, one after the other. Raises Away."""
        writer = self._commits.writer
        do = self._commits.do
        while True:
            try:
                async with asyncio.timeout(IDLE_SECONDS):
                    await self._ordered.wait()
            except TimeoutError:
                await link.greet()
                continue
            self._ordered.clear()
            while self._order:
                commit = self._order.pop()
                outcome = Outcome.UNKNOWN
                why = AWAY
                try:
                    answers = await self._take(link, commit.batches)
                except Refused as refused:
                    outcome = Outcome.REFUSED if refused.is_of_data else Outcome.NOTHING
                    why = "the log's database refused; nothing was taken"
                    tell(f"cdmboard: {self.name} refused records: {refused}")
                    if outcome is Outcome.NOTHING:
                        raise Away(refused) from None
                    continue
                else:
                    do(writer.committed(commit.number, answers))
                finally:
                    # Where it has its answers, this says nothing new.
                    do(writer.failed(commit.number, outcome, why))
                # In that transaction it would hold a lock of all boards until the commit has ended.
                await link.write("SELECT pg_notify('cdm_record', $1)", self._board)

    async def _take(self, link: Link, batches: Sequence[Batch]) -> list[range | Problem]:
        """The answers of one transaction, one for each batch. Raises Refused, Away."""
        if batches[0].change is not None:
            return await self._change(link, batches[0])
        answers = json.loads(await link.write(APPEND, self._board, _as_json(batches)))
        self.grown.set()
        return [_said(batch, answer) for batch, answer in zip(batches, answers, strict=True)]

    async def _change(self, link: Link, batch: Batch) -> list[range | Problem]:
        """A change of day, in a transaction that holds the lock of the board: what came before it is carried over while no server takes a
        record. Raises Refused, Away."""
        await link.write("BEGIN")
        try:
            last = await link.write("SELECT public.cdm_hold($1, $2)", self._board, f"{HOLD_SECONDS:.0f}s")
            self.grown.set()
            batch = await batch.carried(last)
            answer, = json.loads(await link.write(APPEND, self._board, _as_json([batch])))
        except (Problem, Refused) as why:
            await link.write("ROLLBACK")
            if isinstance(why, Problem):
                return [why]
            raise
        await link.write("COMMIT")
        self.grown.set()
        return [_said(batch, answer)]

    # The link.

    async def _keep(self) -> None:
        """Keeps a link, and makes a new one where it breaks. Returns never. Raises Fault."""
        while True:
            link = self._link
            assert link is not None
            try:
                async with asyncio.TaskGroup() as group:
                    group.create_task(self._look(link))
                    group.create_task(self._commit(link))
            except* (Away, Refused) as aways:
                tell(f"cdmboard: {self.name} is away: {aways.exceptions[0]}")
            finally:
                self._link = None
                self._following.lost()
                self._linked.clear()
                link.end()
                self._unlink()
            # Where a connection breaks at the moment of the end, the library's group of tasks forgets that it was cancelled.
            if self._is_closing:
                return
            for pause in chain((0.1, 0.1, 0.2, 0.4), repeat(1.0)):
                await asyncio.sleep(pause)
                with contextlib.suppress(Away):
                    self._use(await first(self._url, self._to))
                    break
            tell(f"cdmboard: {self.name} is there")

    async def _look(self, link: Link) -> None:
        """Looks each second whether the link is there, and has more. Raises Away."""
        while True:
            began = time.monotonic()
            at = now_text()
            last = await self._last(link)
            self._looked = began
            self._looked_at = at
            self.read_at = began
            if last > (self._following.last.position if self._following.last else 0):
                self.grown.set()
            if self._following.is_committing:
                self._following.committed_before(await link.is_committing(self._writer_name))
            with contextlib.suppress(TimeoutError):
                async with asyncio.timeout(LINK_LOOK_SECONDS):
                    await link.broken.wait()
                raise Away(link.why)

    async def _last(self, link: Link) -> int:
        """The last position. By the way the clocks are compared. Raises Away."""
        now = time.time()
        (last, clock), = await link.read(LAST, self._board)
        self.clock_ahead = now - clock
        position: int = last
        return position

    def _unlink(self) -> None:
        """No transaction runs any more; one that didn't begin took nothing."""
        writer = self._commits.writer
        for commit in self._order:
            self._commits.do(writer.failed(commit.number, Outcome.NOTHING, AWAY))
        self._order.clear()
        self._commits.do(writer.lost(AWAY))

    def _use(self, link: Link) -> None:
        self._link = link
        self._linked.set()
        self.grown.set()
        self._commits.do(self._commits.writer.opened())

    async def _to(self, url: str) -> Link:
        """A link to a host, checked. Raises Away, Fault."""
        with contextlib.ExitStack() as opened:
            reader = await connect(url)
            opened.callback(reader.terminate)
            writer = await connect(url, self._writer_name)
            opened.callback(writer.terminate)
            link = Link(reader, writer)
            try:
                await link.listen(lambda _, pid, channel, board: self._notices[channel].heard() if board == self._board else None)
                await self._check(link)
            except Refused as why:
                raise Away(why) from None
            opened.pop_all()
        return link

    async def _check(self, link: Link) -> None:
        """Whether a link leads to the log, and whether it has the last row that was handed on. Raises Away,
        Refused, Fault."""
        began = time.monotonic()
        at = now_text()
        (timeline,), = await link.read(TIMELINE)
        if self._following.is_past(timeline):
            raise Away("of an older timeline")
        if await link.write("SELECT current_setting('synchronous_commit')") == "off":
            raise Away("synchronous_commit is off for this role or database, so that a crash loses answered records")
        if not (await link.read(TABLES))[0][0]:
            raise Fault(f"{self.name} has no tables for a log, or older ones; cdmboard log init URL makes them")
        row = "SELECT id, airport, version, secret FROM public.cdm_log WHERE board = $1"
        if not await link.read(row, self._board):
            await self._accept()
            await link.write("SELECT public.cdm_append($1, '[]', $2, $3, $4)", self._board,
                             self.id or secrets.token_hex(8), self._given, self._version)
        found, = await link.read(row, self._board)
        if self.id not in ("", found[0]):
            raise Fault(f"{self.name} has another log of this board now")
        self.id = found[0]
        self.airport = found[1]
        self.secret = found[3]
        present = await link.read(PRESENT, self._board, *halves(self._given))
        self.check(self._given, found[2], self._version, present[0][0] if present else None)
        await self._last(link)
        last = self._following.last
        kept = await link.read(f"{COLUMNS} AND position = $2", self._board, last.position if last else 0)
        self._following.linked(Seen(timeline, Record(*kept[0]) if kept else None, await link.is_committing(self._writer_name)))
        self._looked = began
        self._looked_at = at


def _as_json(batches: Sequence[Batch]) -> str:
    """Batches as `cdm_append` takes them."""
    names = "desk", "records", "key", "most", "at", "end", "address"
    told = [{name: getattr(batch, name) for name in names} | {"closed": batch.closed is not None} for batch in batches]
    for batch, one in zip(batches, told, strict=True):
        if (change := batch.change) is not None:
            airport, feed = (base64.b64encode(said).decode() for said in (change.airport, change.feed))
            one["change"] = {"position": change.position, "airport": airport, "feed": feed, "digest": change.digest}
    return json.dumps(told)


def _said(batch: Batch, answer: dict[str, Any]) -> range | Problem:
    """What `cdm_append` told of a batch."""
    if "first" in answer:
        return range(answer["first"], answer["first"] + answer["count"])
    if answer["status"] == 403:
        return Problem(403, batch.closed or "") if answer["closed"] else batch.full()
    return Problem(answer["status"], WRONG[answer["status"]])


async def init(options: Namespace) -> None:
    """`log init`: makes the tables, the function and the roles. Raises Fault."""
    if not is_url(options.log):
        raise Fault("a log in a file needs no init", 2)
    async with database_of(options.log) as database:
        await database.execute(SCHEMA.read_text())
        name = await database.fetchval("SELECT current_database()")
    print(f"database {name}: CONNECT is taken from PUBLIC; GRANT cdm_server TO a server's user, and cdm_reader to one that only reads")


async def read_log(url: str, board: str) -> tuple[list[Change], str, list[Record]]:
    """What begins each day, the program, and all records of a log, also while it is served. Raises Fault."""
    async with database_of(url) as database:
        row = await database.fetchrow("SELECT airport, version FROM public.cdm_log WHERE board = $1", board)
        if row is None:
            raise Fault(f"{name_of(url)} has no board {board!a} (--board NAME)")
        records = records_of(name_of(url), 0, await database.fetch(f"{COLUMNS} ORDER BY position", board))
        changes = [change_of(name_of(url), record.position, await database.fetch(CHANGE, board, record.position))
                   for record in records if record.is_change]
        return [Change(0, row[0]), *(change for change in changes if change)], row[1], records


async def read_digests(url: str, board: str) -> dict[int, str]:
    """The digests of a log. Raises Fault."""
    async with database_of(url) as database:
        return dict(await database.fetch(DIGESTS, board))


async def read_audit(url: str, board: str) -> bytes:
    """The audit of a log, one JSON object a line. Raises Fault."""
    async with database_of(url) as database:
        return audit_of(await database.fetch(AUDIT, board))


async def copy_log(url: str, board: str, copy: str) -> None:
    """A copy of a whole log in a file of SQLite that is empty, with an id of its own. Records are never changed, so what is read here is of
    one moment. Raises Fault."""
    changes, version, _ = await read_log(url, board)
    digests = await read_digests(url, board)
    async with database_of(url) as database:
        rows = await database.fetch("SELECT board, position, desk, key, n, lines, role, line, at FROM public.cdm_record"
                                    " WHERE board = $1 ORDER BY position", board)
        audit = await database.fetch(AUDIT, board)
    sqlite.write_log(copy, (board, secrets.token_hex(8), changes[0].airport, version), [tuple(row) for row in rows],
                     list(digests.items()), [tuple(row) for row in audit], [(*change, change.digest) for change in changes[1:]])
