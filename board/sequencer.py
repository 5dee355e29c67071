"""The sequencer: one process of `cdmseq serve`, which gets the log's records in order, and its restarts."""
import asyncio
import contextlib
import errno
import json
import os
import tempfile
import time
from asyncio.subprocess import PIPE, Process
from pathlib import Path

from board.answers import START_SECONDS, put_airport
from board.carrying import carried_over
from board.chain import after, date_of, none_told, why_none
from board.day import Day
from board.life import End, Keep, Life, Ready
from board.log import Away, Change, Changed, Log, Record
from board.metrics import RECORDS
from board.past import Past
from board.program import MOST_REPLY, same
from board.replies import day_of_log
from board.words import Fault, Problem, tell

# Records that are handed on together.
MOST_AHEAD = 256
# Seconds for a reply, and until a process that found no room is started again.
PATIENCE_SECONDS = 10.0
ROOM_SECONDS = 1.0
CHANGE_AGAIN_SECONDS = 0.2
# Bytes that the journal of a process may need beyond the day that it begins with.
MOST_JOURNAL = 4 << 20


class Ended(Exception):
    """A sequencer that ended, or said what it mustn't say, and is not asked again."""


class NextDay(Exception):
    """All records before a change of day have their replies."""

    def __init__(self, record: Record) -> None:
        super().__init__(record.line)
        self.record = record


class Sequencer:
    """Hands the log's records on, and gives the replies to the day. `carried`: the digest of the change of day that this server has made
    itself."""

    def __init__(self, program: str, folder: str, log: Log, day: Day, past: Past) -> None:
        self._program = program
        self._folder = folder
        self._log = log
        self._day = day
        self.past = past
        self._next: Record | None = None
        self.carried = ""
        self.is_ready = asyncio.Event()
        self.starts = 0
        self._is_first = False
        self._life = Life()
        self._is_without_room = False

    async def run(self) -> None:
        """Returns never. Rows that the database has lost are another day, which begins. Raises Fault if the sequencer ends too often."""
        while True:
            try:
                if self._next is not None:
                    await self._begin(self._next)
                await self._serve_somewhere()
            except NextDay as found:
                self._next = found.record
            except Changed as changed:
                tell(f"cdmboard: {changed}")
                self.past.forget()
                self._day.restart(await day_of_log(self._folder, self._program, self._log, self._day.kinds.text))
            except (Ended, ConnectionError) as end:
                tell(f"cdmboard: the sequencer: {end}")
                if not self._life.ended(time.monotonic()):
                    raise Fault("the sequencer ended three times within a minute", 1) from None
            except OSError as fault:
                if not os.path.exists(f"{self._folder}/airport.csv"):
                    raise Fault(f"{self._folder}, the folder of this server, is gone", 1) from None
                # The process isn't to blame: without room, or memory for one more, it is started as soon as there is some.
                if not self._is_without_room:
                    tell(f"cdmboard: the sequencer can't be started: {fault}; it is tried again")
                self._is_without_room = True
                await asyncio.sleep(ROOM_SECONDS)

    async def carry(self, airport: bytes) -> bytes:
        """The feed with which the next day begins, as the day is now. Raises Problem, Fault, OSError."""
        return await carried_over(self._folder, self._program, self._day, airport)

    async def _begin(self, record: Record) -> None:
        """Begins the day of a change, if the log has it still. Raises Fault, OSError."""
        self._next = None
        try:
            change = await self._log.change(record.position)
        except Away:
            await asyncio.sleep(CHANGE_AGAIN_SECONDS)
            return
        if change is not None:
            put_airport(self._folder, change)
            self.past.keep(self._day.begin(record, change, record.line.removeprefix("DAY,")))
            # The day's first process isn't one that was started again.
            self._is_first = True

    async def _come_to(self, record: Record) -> None:
        """All records before a change of day have their replies. Raises NextDay, unless no day begins with it: from then on it is read as a
        record. Raises Fault, OSError."""
        try:
            change = await self._log.change(record.position)
            is_own = change is not None and change.digest == self.carried and date_of(record) == after(self._day.date)
            if not is_own:
                await self._check(record, change)
        except Away:
            await asyncio.sleep(CHANGE_AGAIN_SECONDS)
            return
        if record.position not in self._log.void:
            raise NextDay(record)

    async def _check(self, record: Record, change: Change | None) -> None:
        """Looks at a change that another one made. Raises Fault if that carried over otherwise than this server would, OSError."""
        wanted = after(self._day.date)
        why = f"its day is {date_of(record)}, and the next day is {wanted}"
        if date_of(record) == wanted:
            why = await why_none(self._folder, self._program, record, change)
        if why or change is None:
            self._log.void.add(record.position)
            tell(none_told(self._log.name, record.position, why))
            return
        try:
            feed = await self.carry(change.airport)
        except Problem as problem:
            tell(f"cdmboard: what was carried over at position {change.position} isn't compared: {problem}")
            return
        if feed != change.feed:
            raise Fault(f"{self._log.name}: the change of day at position {change.position} carried over otherwise than this program does: another"
                        " program made it, or somebody who has a server's login; cdmboard verify tells which (docs/POSTGRES.md#a-login-that-others-have)")

    async def _serve_somewhere(self) -> None:
        """One process, in a folder of its own where there is room for its journal: in memory, if there is."""
        journal = self._day.feed()
        with tempfile.TemporaryDirectory(dir=place_with_room(len(journal) + MOST_JOURNAL, self._folder)) as folder:
            self.starts += not self._is_first
            self._is_first = False
            Path(folder, "journal.csv").write_text(journal, "ascii")
            await self._serve(folder)

    async def _serve(self, folder: str) -> None:
        """One process, on the day as it is, until it ends. The next one gets the rest."""
        words = ("serve", f"{self._folder}/{self._day.change.file}", "journal.csv", "--format", "json", "--sentences")
        patience = PATIENCE_SECONDS
        self._life.started(len(self._day.lines))
        process = await asyncio.create_subprocess_exec(
            same(self._program), *words, cwd=folder, stdin=PIPE, stdout=PIPE, limit=MOST_REPLY, start_new_session=True)
        lines = process.stdin
        replies = process.stdout
        ended = asyncio.create_task(process.wait())
        assert lines is not None and replies is not None
        ended.add_done_callback(lambda _: self._log.grown.set())
        try:
            await self._hand_on(process, lines, replies)
        except (Ended, OSError):
            patience = 0
            raise
        finally:
            self.is_ready.clear()
            lines.close()
            await asyncio.wait([ended], timeout=patience)
            with contextlib.suppress(ProcessLookupError):
                process.kill()
            await ended
            with contextlib.suppress(OSError):
                async with asyncio.timeout(1):
                    await lines.wait_closed()

    async def _hand_on(self, process: Process, lines: asyncio.StreamWriter, replies: asyncio.StreamReader) -> None:
        """Lines in, replies out. Raises Ended."""
        self._do(self._life.heard(await _reply(replies, START_SECONDS)))
        while True:
            if process.returncode is not None:
                raise Ended(f"it ended with {process.returncode}")
            records = await self._log.rows(self._day.position, MOST_AHEAD)
            if not records:
                await self._log.grown.wait()
                self._log.grown.clear()
            change = next((record for record in records if record.is_change), None)
            # A day that found no room hasn't begun, though the process of the day before was started.
            self._is_without_room = self._is_without_room and change is not None
            before = records[:records.index(change)] if change else records
            lines.write(self._life.given(before).encode("ascii"))
            while self._life.due:
                self._do(self._life.heard(await _reply(replies, PATIENCE_SECONDS)))
            if change is not None:
                await self._come_to(change)

    def _do(self, order: Ready | Keep | End) -> None:
        """Carries out what the life orders. Raises Ended."""
        match order:
            case Ready():
                self.is_ready.set()
            case Keep(record, word, sentence, changes):
                self._day.add(record, word, changes, sentence)
                RECORDS.labels(record.role, word or "ACCEPTED").inc()
            case End(why):
                raise Ended(why)


def place_with_room(size: int, *places: str) -> str:
    """The first of some folders, or of the system's folder for temporary files, with room for so many bytes. Raises OSError."""
    for place in (*places, tempfile.gettempdir()):
        found = os.statvfs(place)
        if found.f_bavail * found.f_frsize >= size:
            return place
    raise OSError(errno.ENOSPC, os.strerror(errno.ENOSPC), tempfile.gettempdir())


async def _reply(replies: asyncio.StreamReader, seconds: float) -> dict[str, object]:
    try:
        async with asyncio.timeout(seconds):
            reply = json.loads(await replies.readuntil())
    except TimeoutError:
        raise Ended(f"no reply within {seconds:.0f} seconds") from None
    except (asyncio.IncompleteReadError, asyncio.LimitOverrunError, ValueError):
        raise Ended("it ended, or its reply is no line of JSON") from None
    return reply if isinstance(reply, dict) else {}
