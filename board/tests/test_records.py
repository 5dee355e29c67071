"""What desks send, and when only the tower may: over a log that takes nothing, and says what it was asked for."""
import asyncio
import sys
from unittest import mock

import pytest
from conftest import ROOT

sys.path.insert(0, str(ROOT))
from board.desks import Desk  # noqa: E402
from board.records import Records  # noqa: E402
from board.words import Problem  # noqa: E402


class Log:
    """A log that keeps what it was asked for."""
    stale_since = None

    async def append(self, batch):
        self.asked = batch
        raise Problem(503, "nothing was taken")


def closed_for(role, accepted, records):
    """Whether a desk of this role is told that ATC alone sends."""
    log, day = Log(), mock.Mock(lines=["AP,FLT,AB1,5"] * accepted, records=[None] * records, first=1)
    with pytest.raises(Problem, match="nothing was taken"):
        asyncio.run(Records(log, day, mock.Mock()).take(Desk("desk", role), ["FLT,AB1,5"], None))
    return log.asked.closed is not None


@pytest.mark.parametrize("role", ["AO", "GH", "AP", "NM"])
def test_the_last_records_are_the_tower_s(role):
    """From 18,000 accepted updates, or 58,000 records, on: the last 2,000 of the 60,000 are the tower's."""
    assert not closed_for(role, 17_999, 57_999)
    assert closed_for(role, 18_000, 18_000) and closed_for(role, 17_999, 58_000)
    assert not closed_for("ATC", 19_999, 59_999)


def test_a_log_is_full_at_60_000():
    """Whoever sends."""
    log = Log()
    with pytest.raises(Problem):
        asyncio.run(Records(log, mock.Mock(lines=[], records=[], first=1), mock.Mock()).take(Desk("tower", "ATC"), ["FLT,AB1,5"], None))
    assert log.asked.end == 60_000


def test_a_reply_that_does_not_come_is_504(monkeypatch):
    """The log took the record, and no sequencer replies to it: the desk isn't kept waiting, and counts no record as waiting any more."""
    from board import records as module
    from board.day import Day
    from board.log import Record
    from board.words import Kinds
    monkeypatch.setattr(module, "REPLY_LIMIT", 0.05)

    async def talk():
        day = Day(Kinds(b""), [], {})
        records = Records(mock.Mock(append=mock.AsyncMock(return_value=range(1, 2)), stale_since=None), day, mock.Mock())
        async with asyncio.timeout(5):
            with pytest.raises(Problem) as told:
                await records.take(Desk("ap", "AP"), ["FLT,AB1,5"], "k")
        assert told.value.status == 504 and records.waiting() == 0
        # With the same key it gets the reply, once there is one.
        day.add(Record(1, "ap", "AP", "FLT,AB1,5", "t"), None, [])
        return await records.take(Desk("ap", "AP"), ["FLT,AB1,5"], "k")
    assert asyncio.run(talk()).startswith(b'{"position":1,"desk":"ap"')
