"""The chain of days: with which changes of day a day began. One with which no server can begin a day, whoever wrote it into the log, is none:
it is a record as others, which the program refuses."""
import errno
import json
import os
import re
import tempfile
from collections import Counter
from collections.abc import Awaitable, Callable, Sequence
from datetime import date, timedelta
from pathlib import Path

from board.answers import run
from board.log import DATED, Change, Log, Record
from board.program import same
from board.words import tell

PLAN_SECONDS = 20.0
# It mustn't outlive a server that is killed; records may wait for it, so nothing else is limited.
BOUND = ("/usr/bin/setpriv", "--pdeathsig", "KILL", "--")
# What is carried over: lines of records, each with its role.
FEED = re.compile(rb"((AO|GH|AP|ATC|NM),[\x20\x21\x23-\x7e]+\n)*")
# Why a change of day began no day; nothing if it began one. Raises Away, Fault, OSError.
Why = Callable[[Record], Awaitable[str]]


def after(day: str) -> str:
    """The date of the day after a day."""
    return str(date.fromisoformat(day) + timedelta(days=1))


def date_of(record: Record) -> str:
    """The date that a change of day says, whether it is one of the calendar or not."""
    return record.line.removeprefix("DAY,")


def first_of(airport: bytes) -> str | None:
    """The date in an airport file, if it stands there as it does in most."""
    found = DATED.search(airport)
    return found[0][len(found[1]):].decode() if found else None


async def why_none(folder: str, program: str, record: Record, change: Change | None) -> str:
    """Why no server can begin a day with what stands beside a change of day; nothing if one can. Raises OSError if that can't be tried."""
    if change is None:
        return "nothing stands beside it"
    if not FEED.fullmatch(change.feed):
        return "what is carried over isn't lines of records"
    with tempfile.TemporaryDirectory(dir=folder) as inside:
        Path(inside, "airport.csv").write_bytes(change.airport)
        Path(inside, "feed.csv").write_bytes(change.feed)
        ran = await run(inside, PLAN_SECONDS, *BOUND, same(program), "plan", "airport.csv", "feed.csv", "--format", "json")
    if ran.status == 3:
        return ran.told
    if ran.status != 0:
        raise OSError(errno.EAGAIN, f"{os.strerror(errno.EAGAIN)}: {ran.told or ran.status}")
    plan = json.loads(ran.output.splitlines()[0])
    if plan["day"] != date_of(record):
        return f"its airport file is of {plan['day']}"
    return "".join(f"record {refused['record']} of what is carried over is refused: {refused['word']}" for refused in plan["refused"][:1])


async def begun(first: str | None, changes: Sequence[Record], why: Why) -> list[Record]:
    """The changes with which days began behind the first day of a date: each is of the day after the one before. Of several of one date it
    is the first with which a day can begin. Raises Away, Fault, OSError."""
    found = list[Record]()
    dates = Counter(change.line for change in changes)
    wanted = after(first) if first else None
    for change in changes:
        is_doubtful = wanted is None or dates[change.line] > 1
        if wanted not in (None, date_of(change)) or is_doubtful and await why(change):
            continue
        found.append(change)
        wanted = after(date_of(change))
    return found


async def begun_of(folder: str, program: str, log: Log, is_start: bool = False) -> list[Record]:
    """The changes with which the days of a log began. At a start the last one is tried, and those with which none did are told. Raises Away,
    Fault, OSError."""
    changes = await log.changes()

    async def why(record: Record) -> str:
        return await why_none(folder, program, record, await log.change(record.position))
    found = await begun(first_of(log.airport), changes, why)
    while is_start and found and await why(found[-1]):
        found.pop()
    none = {change.position for change in changes} - {change.position for change in found}
    log.void.update(none)
    if is_start and none:
        tell(none_told(log.name, min(none)) + (f" ({len(none)} of such changes)" if len(none) > 1 else ""))
    return found


def none_told(name: str, position: int, why: str = "") -> str:
    """What is said of a change with which no day begins."""
    return (f"cdmboard: {name}: the change of day at position {position} begins no day{f': {why}' if why else ''}; no server wrote it, so look who"
            " can write to the log")
