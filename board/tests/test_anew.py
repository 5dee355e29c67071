"""A day that begins anew, since the log's database lost rows: nothing is left of the day before."""
import asyncio
import json
from unittest import mock

import pytest
from aiohttp.test_utils import make_mocked_request

from board.answers import Answers, Question
from board.callers import Callers
from board.day import Day
from board.desks import Desk, Desks
from board.events import Events, Stream
from board.log import Record
from board.web import Board
from board.words import Kinds, Problem

KINDS = b'{"kind":"FLT","roles":["AP"],"of":"flight"}'


def day_of(*flights):
    return Day(Kinds(KINDS), [Record(number, f"desk-{flight}", "AP", f"FLT,{flight},5") for number, flight in enumerate(flights, 1)], {})


def board_of(desks, log, day):
    return Board(Callers(desks, log, {"localhost"}, "http", False), log, day, mock.Mock(), None, None)


def test_what_is_found_is_of_the_day_that_began_anew():
    day = day_of("AB1", "AB2")
    day.restart(day_of("AB3"))
    assert [record.line for record in day.found(0, None, None)] == ["FLT,AB3,5"]
    assert day.found(0, "AB1", None) == day.found(0, None, "desk-AB2") == []
    assert [record.line for record in day.found(0, "AB3", "desk-AB3")] == ["FLT,AB3,5"]
    assert (day.count_of("desk-AB1"), day.count_of("desk-AB3")) == (0, 1)
    day.add(Record(2, "desk-AB3", "AP", "FLT,AB4,5"), None, [])
    assert day.count_of("desk-AB3") == 2 and day.found(0, "AB4", None)[0].position == 2


def test_displays_are_reset():
    """Also where the day that began anew has as many records."""
    day, transport = day_of("AB1"), mock.Mock()
    transport.get_write_buffer_size.return_value, transport.is_closing.return_value = 0, False
    events = Events("0", day)
    events.open(Stream(None, Desk("screen", "READ"), transport, None), "")
    asyncio.run(events._write())
    assert all(b"event: reset" not in call.args[0] for call in transport.write.call_args_list)
    day.restart(day_of("AB2"))
    asyncio.run(events._write())
    assert b'id: 0-1\nevent: reset\ndata: {"position":1,"at":""}\n\n' in transport.write.call_args.args[0]


def test_a_display_that_comes_back_is_reset():
    """The records that it had may be another day's, unless they are behind all of those."""
    day, texts = day_of(), []
    day.add(Record(1, "desk", "AP", "FLT,AB1,5"), None, [])
    events = Events("0", day)

    def come_back(said):
        transport = mock.Mock()
        transport.get_write_buffer_size.return_value, transport.is_closing.return_value = 0, False
        events.open(Stream(None, Desk("screen", "READ"), transport, None), said)
        texts.append(transport.write.call_args.args[0])
        return b"event: reset" in texts[-1]
    assert not come_back("0-0") and not come_back("0-1")
    day.restart(day_of("AB2"))
    for number in (2, 3):
        day.add(Record(number, "desk", "AP", f"FLT,CD{number},5"), None, [])
    assert [come_back(f"0-{number}") for number in range(4)] == [True, True, False, False] and b"FLT,CD3,5" in texts[-2]


def test_a_tag_is_not_of_the_day_before():
    """Where the day that began anew has as many records, what a browser has of that position is another plan."""
    day = day_of("AB1")
    board = board_of(Desks([], True), mock.Mock(id="0", secret="s", stale_since=None), day)

    def status():
        tag = board.questions.tags(len(day.records))["ETag"]
        request = make_mocked_request("GET", "/v1/plan", headers={"Host": "localhost", "If-None-Match": tag})
        return asyncio.run(board.questions.of_moment(request, len(day.records), "", b"")).status
    assert status() == 304
    day.restart(day_of("AB2"))
    assert status() == 200
    day.add(Record(2, "desk", "AP", "FLT,AB3,5"), None, [])
    assert status() == 304


def test_a_reply_is_to_what_was_sent():
    """A fail-over gave the position to another's record, before this server had read it: it isn't known whether the own one is kept."""
    day = day_of()

    class Log:
        id, secret = "0", "s"

        async def append(self, batch):
            day.add(Record(1, "other", "AP", "FLT,AB1,5"), None, [])
            day.add(Record(2, "own", "AP", "FLT,AB2,5"), None, [])
            return range(self.position, self.position + 1)
    log, own = Log(), Desk("own", "AP")
    board = board_of(Desks([own], True), log, day)
    log.position = 1
    with pytest.raises(Problem, match="not known") as why:
        asyncio.run(board.records.take(own, ["FLT,AB2,5"], None))
    assert why.value.status == 504
    log.position = 2
    day.restart(day_of())
    assert json.loads(asyncio.run(board.records.take(own, ["FLT,AB2,5"], None)))["position"] == 2


def test_an_answer_is_not_of_the_day_before(tmp_path):
    """Neither one that was kept, nor one that was being made."""
    program = tmp_path / "program"
    program.write_text("#!/bin/sh\nsleep 0.5\ncat feed.csv\n")
    program.chmod(0o755)
    (tmp_path / "airport.csv").write_bytes(b"")

    async def talk():
        day = day_of("AB1")
        answers = Answers(str(program), str(tmp_path), day)
        assert (await answers.ask("tower", Question("plan")))[1].output == b"AP,FLT,AB1,5\n"
        running = asyncio.create_task(answers.ask("tower", Question("load")))
        await asyncio.sleep(0.2)
        day.restart(day_of("AB2"))
        with pytest.raises(Problem, match="the day began anew") as why:
            await running
        assert why.value.status == 503
        for command in ("plan", "load"):
            position, ran = await answers.ask("tower", Question(command))
            assert (position, ran.output) == (1, b"AP,FLT,AB2,5\n")
    asyncio.run(talk())


def test_a_sentence_is_in_no_digest():
    """So that a program may say it in other words."""
    days = day_of(), day_of()
    for number in range(1, 1001):
        for day, sentence in zip(days, ("", f"sentence {number}")):
            day.add(Record(number, "desk", "AP", "FLT,AB1,5"), "EXISTS", [], sentence)
    silent, telling = (day.digests.made for day in days)
    assert list(silent) == [1000] and telling == silent
    assert json.loads(days[1].replies(days[1].of(7, 7))) == json.loads(days[0].replies(days[0].of(7, 7))) | {"sentence": "sentence 7"}
