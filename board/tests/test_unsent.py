"""How much may be unread: of one, of all who have no desk, and of all; and that a connection holds no copy of it."""
import asyncio
import sys
import time
import zlib
from unittest import mock

import pytest
from conftest import ROOT

sys.path.insert(0, str(ROOT))
from board import events as events_module  # noqa: E402
from board.day import Day  # noqa: E402
from board.desks import Desk  # noqa: E402
from board.events import Events, Stream, View  # noqa: E402
from board.log import Record  # noqa: E402
from board.sending import PIECE, pack  # noqa: E402
from board.unsent import Unsent  # noqa: E402
from board.words import Kinds, Problem  # noqa: E402

MIB = 1 << 20


def status(unsent, asker, more, is_tower=False):
    """What is answered instead, or 200."""
    try:
        unsent.check(asker, more, is_tower)
    except Problem as problem:
        assert problem.headers["Retry-After"]
        return problem.status
    return 200


def test_each_has_so_much():
    """64 MiB, but its first answer whatever it has."""
    unsent = Unsent()
    assert status(unsent, "gh", 100 * MIB) == 200
    with unsent.of("gh", 40 * MIB):
        assert status(unsent, "gh", 24 * MIB) == 200 and status(unsent, "gh", 24 * MIB + 1) == 429
        assert status(unsent, "ap", 64 * MIB) == 200
    assert unsent.total() == 0 and status(unsent, "gh", 64 * MIB) == 200


def test_those_without_a_desk_share_theirs():
    """128 MiB, from however many addresses; a desk isn't told to wait for it."""
    unsent = Unsent()
    with unsent.of("@127.0.0.1", 60 * MIB), unsent.of("@127.0.0.2", 60 * MIB):
        assert status(unsent, "@127.0.0.3", 8 * MIB) == 200 and status(unsent, "@127.0.0.3", 8 * MIB + 1) == 503
        assert status(unsent, "gh", 60 * MIB) == 200


def test_the_last_bytes_are_the_tower_s():
    """512 MiB in all, and from 448 MiB on the tower's."""
    unsent = Unsent()
    with unsent.of("gh", 440 * MIB):
        assert status(unsent, "ap", 8 * MIB) == 200 and status(unsent, "ap", 8 * MIB + 1) == 503
        assert status(unsent, "tower", 64 * MIB, True) == 200
        with unsent.of("tower", 60 * MIB):
            assert status(unsent, "ap", 1) == 503 and status(unsent, "tower", 4 * MIB, True) == 200
            assert status(unsent, "tower2", 12 * MIB + 1, True) == 503


@pytest.mark.parametrize("size", [10, PIECE, PIECE + 1, 3 * PIECE + 5])
def test_a_connection_has_no_copy(size):
    """Each piece is written once the one before it has left, and all of them are the body."""
    body, written = bytes(range(256)) * (size // 256 + 1), []
    body = body[:size]

    async def send():
        request = mock.Mock(method="GET", headers={}, if_none_match=None)
        response = await pack(request, body, {"ETag": '"0-1"', "Content-Type": "text/plain"})
        assert response.content_length == size and response.headers["Content-Type"].startswith("text/plain")
        if isinstance(response.body, bytes):
            written.append(response.body)
            return

        async def write(piece):
            written.append(piece)
        await response.body.write(mock.Mock(write=write))
    asyncio.run(send())
    assert b"".join(written) == body and max(map(len, written)) <= PIECE


def test_a_body_is_packed_once_for_all(monkeypatch):
    """Also where one of those who wait goes away."""
    from board import sending
    made = []

    def compress(body, level, mtime):
        made.append(len(body))
        time.sleep(0.05)
        return b"packed"
    monkeypatch.setattr(sending.gzip, "compress", compress)

    async def ask():
        packed = sending.Packed()
        waiting = [asyncio.create_task(packed.of(b"x" * size)) for size in (3 * MIB, 3 * MIB, 3 * MIB, 10)]
        await asyncio.sleep(0.01)
        waiting[0].cancel()
        return await asyncio.gather(*waiting[1:])
    assert asyncio.run(ask()) == [b"packed"] * 3 and sorted(made) == [10, 3 * MIB]


def stream(name, role="READ"):
    return Stream(None, Desk(name, role), mock.Mock(), None)


def test_who_has_no_token_leaves_displays_their_places(monkeypatch):
    """Half of the places are for those who have shown one."""
    monkeypatch.setattr(events_module, "MOST_DISPLAYS", 4)
    events = Events("0", mock.Mock(starts=0, records=[]))
    said = []
    for desk in (Desk("", "READ"),) * 3 + (Desk("screen", "READ"),) * 3 + (Desk("gh", "GH"),):
        try:
            events.check(desk)
            events.streams.add(stream(desk.name, desk.role))
            said.append(200)
        except Problem as problem:
            said.append(problem.status)
    assert said == [200, 200, 429, 200, 200, 429, 200]


def test_a_view_is_packed_once_for_all_who_come(monkeypatch):
    """Whoever opens streams and drops them has it packed once, not for each of them; the next view is another."""
    packed, chunk_of, wrote = [], events_module.chunk_of, []
    monkeypatch.setattr(events_module, "chunk_of", lambda text, *more: packed.append(text) or chunk_of(text, *more))
    events = Events("0", Day(Kinds(b""), [], {}))
    for number in range(2):
        events.show(View(0, 0, b'"next":[%d]' % number))
        for _ in range(5):
            display = stream("screen")
            display.is_packed = True
            display.transport.get_write_buffer_size.return_value, display.transport.is_closing.return_value = 0, False
            events.open(display, "")
            chunks = [part.partition(b"\r\n")[2] for part in split_chunks(display.transport.write.call_args.args[0])]
            wrote.append(zlib.decompressobj(31).decompress(b"".join(chunks)))
    assert [text.count(b'event: view\ndata: {"position":0,"next":[%d]}\n\n' % (number // 5)) for number, text in enumerate(wrote)] == [1] * 10
    assert all(text.startswith(b"id: 0-0\nevent: from\n") for text in wrote)
    assert sum(b"event: view" in text for text in packed) == 2


def split_chunks(data):
    """The chunks of HTTP, each with its length before it."""
    while data:
        length, _, rest = data.partition(b"\r\n")
        yield length + b"\r\n" + rest[:int(length, 16)]
        data = rest[int(length, 16) + 2:]


def test_what_a_display_missed_is_bounded():
    """Who comes back with too much is told to read the plan, which costs both less."""
    records = [Record(number, "ap", "AP", f"FLT,AB{number},5", "t") for number in range(1, 1001)]
    day = Day(Kinds(b""), [], {})
    for record in records:
        day.add(record, None, [{"flight": "x" * 50}])
    wrote = []
    for since in (990, 0):
        display = stream("screen")
        display.transport.get_write_buffer_size.return_value, display.transport.is_closing.return_value = 0, False
        Events("0", day).open(display, f"0-{since}")
        wrote.append(display.transport.write.call_args.args[0])
    assert wrote[0].count(b"event: reply") == 10 and b"event: reply" not in wrote[1] and b"event: reset" in wrote[1]
