"""The replies of before: beside all else the program gives them again, and their digests have to be those of the log; new digests are kept.

What the program replied is told by its `trace`, which is proved to say what `serve` says."""
import asyncio
import copy
import json
from asyncio.subprocess import DEVNULL, PIPE
from collections.abc import Sequence
from pathlib import Path

from board.answers import LIMITED, day_of, ended
from board.chain import begun_of
from board.day import Day, text_of
from board.digests import Digests
from board.log import Away, Change, Log, Record
from board.program import MOST_REPLY, same
from board.words import Fault, tell

# Seconds until a log that takes no digest is tried again, and for the replies of a whole day.
DIGEST_AGAIN_SECONDS = 1.0
TRACE_SECONDS = 900.0
TRACE = ("trace", "airport.csv", "replies.csv", "--format", "json")


async def day_of_log(folder: str, program: str, log: Log, kinds: bytes) -> Day:
    """The last day of a log: nothing before it is read. Raises Fault, also if the log has digests of records that it hasn't."""
    # What a log of another past had.
    log.void.clear()
    while True:
        # Its digests are read first: so each is of records that are read too.
        digests = await log.digests()
        try:
            changes = await begun_of(folder, program, log, True)
            change = await log.change(changes[-1].position) if changes else Change(0, log.airport)
        except Away:
            change = None
        if change is not None:
            records = await log.whole(max(0, change.position - 1))
            if not change.position or records and records[0].is_change:
                break
        await asyncio.sleep(DIGEST_AGAIN_SECONDS / 10)
    # Another day may have begun meanwhile; the sequencer comes to it.
    end = next((number for number, record in enumerate(records) if record.is_change and record.position != change.position), len(records))
    day = await day_of(folder, program, records[:end], kinds, change)
    check_length(day, digests, log.name)
    return day


def check_length(day: Day, digests: dict[int, str], name: str) -> None:
    """Raises Fault if a log has digests of records that it hasn't."""
    if (most := max(digests, default=0)) > day.position:
        raise Fault(f"{name}: position {day.position + 1} is missing, and there were {most} records or more")


class Again:
    """Replies to records of before, which are given again in their order behind those that were carried over, for the digests alone."""

    def __init__(self, records: Sequence[Record], digests: Digests, carried: int = 0) -> None:
        self._records = records
        self._digests = digests
        self._carried = carried

    def take(self, reply: object) -> None:
        """A reply of `trace`, which leaves out those that change nothing. Raises ValueError."""
        word: str | None = None
        changes: list[object] = []
        match reply:
            case {"record": int(number), "reply": "REFUSED", "word": str(word)}:
                pass
            case {"record": int(number), "reply": "ACCEPTED", "changes": list(changes)}:
                pass
            case _:
                raise ValueError("a reply of no form that it has")
        number -= self._carried
        if number <= self._done():
            return
        self.unchanged(number - 1)
        if number > len(self._records):
            raise ValueError(f"a reply to record {number}, which isn't there")
        self._add(word, changes)

    def _done(self) -> int:
        """How many have their replies."""
        return self._digests.position - self._digests.base

    def unchanged(self, number: int) -> None:
        """The next records, up to one of them, changed nothing."""
        for record in self._records[self._done():number]:
            self._add(record.word, [])

    def _add(self, word: str | None, changes: list[object]) -> None:
        self._digests.add(text_of(self._records[self._done()]._replace(word=word), changes))


async def reply_again(folder: str, program: str, day: Day) -> None:
    """Has the program reply to a day's records from the first one on. Raises Fault."""
    records = [record for record in day.records if not record.is_change]
    carried = day.change.lines
    if not records:
        return
    again = Again(records, day.digests, len(carried))
    lines = [*carried, *(f"{record.role},{record.line}" for record in records)]
    Path(folder, TRACE[2]).write_text("".join(f"{line}\n" for line in lines), "ascii")
    process = await asyncio.create_subprocess_exec(*LIMITED, same(program), TRACE[0], day.change.file, *TRACE[2:], cwd=folder, stdin=DEVNULL,
                                                   stdout=PIPE, limit=MOST_REPLY, start_new_session=True)
    assert process.stdout is not None
    try:
        async with asyncio.timeout(TRACE_SECONDS):
            async for line in process.stdout:
                again.take(json.loads(line))
            status = await process.wait()
    except TimeoutError:
        raise Fault(f"{' '.join(TRACE)}: no end within {TRACE_SECONDS:.0f} seconds", 1) from None
    except ValueError as fault:
        raise Fault(f"{' '.join(TRACE)}: {fault}", 1) from None
    finally:
        await ended(process)
    if status != 0:
        raise Fault(f"{' '.join(TRACE)} ended with {status}", 1)
    again.unchanged(len(records))


class Keeper:
    """Compares the replies of before a start with the digests of a log, and puts the digests of a day into it."""

    def __init__(self, folder: str, program: str, log: Log, day: Day) -> None:
        self._folder = folder
        self._program = program
        self._log = log
        self._day = day

    async def run(self) -> None:
        """Returns never. Raises Fault if the program replies otherwise than before, or than another server of the log."""
        while True:
            self._day.digested.clear()
            if not await self._catch_up():
                await asyncio.sleep(DIGEST_AGAIN_SECONDS)
                continue
            while said := self._day.unkept():
                if not await self._keep(said):
                    await asyncio.sleep(DIGEST_AGAIN_SECONDS)
            await self._day.digested.wait()

    async def _catch_up(self) -> bool:
        """Has the replies of before given again, beside all that the server does. Whether there is a digest of all, and the log's are the
        same."""
        day = self._day
        digests = day.digests
        try:
            if not day.digest_kept():
                await reply_again(self._folder, self._program, copy.copy(day))
            if digests is not day.digests or not day.digest_kept():
                return False
            kept = await self._log.digests()
        except (Away, OSError):
            return False
        except Fault as fault:
            # That the replies can't be given again is no reason to end what serves.
            tell(f"cdmboard: no digest of the replies: {fault}")
            await asyncio.sleep(TRACE_SECONDS)
            return False
        if digests is day.digests:
            digests.compare(kept, self._log.name)
        return True

    async def _keep(self, said: dict[int, str]) -> bool:
        """Whether the log has these digests now; not if it is away, or lacks their records, so that the day is about to begin anew."""
        starts = self._day.starts
        try:
            kept = await self._log.keep([(self._day.of(position, position)[0], digest) for position, digest in said.items()])
        except (Away, Fault):
            return False
        if starts == self._day.starts:
            self._day.digests.compare(kept, self._log.name)
        return len(kept) == len(said)
