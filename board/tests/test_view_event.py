"""The view: what all screens ask alike comes with the events, made once for all."""
import asyncio
import concurrent.futures
import contextlib
import json
import random
import selectors
import socket
import time
import zlib

import pytest
from conftest import FACTOR, PROGRAM, count, moment, objects, until
from test_views import Display

from board.answers import Answer
from board.day import Day
from board.desks import Desk
from board.events import Events, Stream
from board.log import Record
from board.views import APART, MEMBERS, MOST_VIEW, Views, view_of
from board.words import Kinds, Problem

QUESTIONS = {"next": "/v1/next.json", "warnings": "/v1/warnings.json", "load": "/v1/load.json"}


class Screen(Display):
    """A display that keeps its events: (name, position, data), where the position of a view is the one that it says."""

    def __init__(self, *words, **more):
        super().__init__(*words, **more)
        self.raw, self.events = b"", []

    def read(self, seconds):
        """All events of the next seconds, and before."""
        end = time.monotonic() + seconds
        while time.monotonic() < end:
            self.own.settimeout(max(0.01, end - time.monotonic()))
            try:
                self.raw += self.file.read1(65536)
            except OSError:
                self.file = self.own.makefile("rb")
        size, _, rest = self.raw.partition(b"\r\n")
        while size and len(rest) >= int(size, 16) + 2:
            self.take(rest[:int(size, 16)].decode().split("\n\n")[:-1])
            self.raw = rest[int(size, 16) + 2:]
            size, _, rest = self.raw.partition(b"\r\n")
        return self.events

    def take(self, whole):
        for part in whole:
            fields = dict(line.partition(": ")[::2] for line in part.split("\n"))
            if "event" in fields:
                data = json.loads(fields["data"])
                position = data["position"] if fields["event"] == "view" else int(fields["id"].rpartition("-")[2])
                assert ("id" in fields) == (fields["event"] != "view")
                self.events.append((fields["event"], position, data))

    def views(self):
        return [(position, data) for name, position, data in self.events if name == "view"]

    def has_view(self, position, seconds=5):
        """Waits for the view of a position."""
        until(lambda: self.read(0.1) and position in [at for at, _ in self.views()], seconds)
        return next(data for at, data in self.views() if at == position)


def a_day(server, flights=8):
    """Some flights on two runways; the last position."""
    server.post([f"FLT,AB{number},5" for number in range(flights)], Cdm_Role="AP")
    server.post([f"RWY,AB{number},{('27L', '09')[number % 2]}" for number in range(flights)], Cdm_Role="ATC")
    return server.post([f"TOBT,AB{number},{moment(20 + number)}" for number in range(flights - 1)], Cdm_Role="AO")[-1]["position"]


def answers_of(server, position):
    """The four answers at a position."""
    totals = server.request("POST", "/v1/compare", "", Accept="application/json")
    got = {"totals": (totals, objects(totals.body)[0])}
    for name, path in QUESTIONS.items():
        answer = server.get(path)
        got[name] = answer, objects(answer.body)
    assert {answer.headers["Cdm-Position"] for answer, _ in got.values()} == {str(position)}
    return {name: told for name, (_, told) in got.items()}


def wrapped(board, script):
    """A server whose program writes each question's command into the file `asked`, and does what the script says first."""
    server = board(start=False)
    server.environment["CDMSEQ"] = str(server.folder / "wrapper")
    (server.folder / "wrapper").write_text(f'#!/bin/sh\nd={server.folder}\necho "$1" >> $d/asked\n{script}\nexec {PROGRAM} "$@"\n')
    (server.folder / "wrapper").chmod(0o755)
    return server.start()


def asked(server):
    return [word for word in (server.folder / "asked").read_text().split() if word in ("compare", *QUESTIONS)]


# In the real program.

def test_a_view_is_the_four_answers(board):
    """At its position; to a display that joins, after a record, and after a refused one, which says a new position of the same day."""
    server = board()
    last = a_day(server)
    screen = Screen(server)
    assert screen.has_view(last) == {"position": last} | answers_of(server, last)
    reply, = server.post([f"TOBT,AB7,{moment(50)}"], Cdm_Role="GH")
    told = screen.has_view(reply["position"])
    assert told == {"position": last + 1} | answers_of(server, last + 1) and len(told["next"]) == 8 and len(told["load"]) == 2
    refused, = server.post(["FOO"], Cdm_Role="GH")
    assert screen.has_view(refused["position"]) == told | {"position": last + 2}
    other = Screen(server)
    assert other.has_view(last + 2) == told | {"position": last + 2}


def test_a_burst_has_one_view(board):
    """Of its last position; and it is made once, whatever the number of displays. Without a display none is made."""
    server = wrapped(board, "")
    last = a_day(server)
    time.sleep(0.5)
    assert asked(server) == []
    screens = [Screen(server) for _ in range(5)]
    for screen in screens:
        screen.has_view(last)
    assert sorted(asked(server)) == ["compare", "load", "next", "warnings"]
    time.sleep(1)
    replies = server.post([f"TOBT,AB{number % 8},{moment(30 + number)}" for number in range(60)], Cdm_Role="AO")
    for screen in screens:
        screen.has_view(replies[-1]["position"])
        new = [position for position, _ in screen.views() if position > last]
        assert len(new) <= 2 and new[-1] == replies[-1]["position"]
    assert asked(server).count("load") == 1 + len(new)
    for screen in screens:
        screen.file.close()
        screen.own.close()
    until(lambda: server.metric("cdm_displays") == 0)
    time.sleep(0.2)
    before = len(asked(server))
    server.post([f"TOBT,AB0,{moment(90)}"], Cdm_Role="AO")
    time.sleep(1.5)
    assert len(asked(server)) == before


def test_events_by_gzip_are_the_same_at_once(board):
    """Each is whole as soon as it comes, whenever a display came; and a view is much smaller."""
    server, sizes = board(), []
    last = a_day(server, 60)

    def come():
        own = socket.create_connection(("127.0.0.1", server.port))
        own.settimeout(0.1)
        own.sendall(b"GET /v1/events HTTP/1.1\r\nHost: localhost\r\nAccept-Encoding: br, gzip\r\n\r\n")
        head = b""
        while b"\r\n\r\n" not in head:
            head += own.recv(1)
        assert b"\r\nContent-Encoding: gzip\r\n" in head
        return own, zlib.decompressobj(zlib.MAX_WBITS | 16), bytearray(), []

    def text_of(display):
        own, packer, raw, texts = display
        with contextlib.suppress(TimeoutError):
            raw += own.recv(65536)
        size, found, rest = raw.partition(b"\r\n")
        while found and len(rest) >= int(size, 16) + 2:
            sizes.append(int(size, 16))
            texts.append(packer.decompress(bytes(rest[:int(size, 16)])))
            del raw[:len(size) + int(size, 16) + 4]
            size, found, rest = raw.partition(b"\r\n")
        return b"".join(texts)
    plain, displays = Screen(server), [come()]
    for number in range(3):
        plain.has_view(last)
        until(lambda: all(b'"position":%d,"totals"' % last in text_of(display) for display in displays))
        displays.append(come())
        last = server.post([f"TOBT,AB{number},{moment(90 + number)}"], Cdm_Role="AO")[0]["position"]
    other = Screen(server)
    other.take(text_of(displays[0]).decode().split("\n\n")[:-1])
    for event in plain.read(0.5):
        assert event[1] == last or event in other.events
    assert max(sizes) * 3 < max(len(json.dumps(data)) for _, data in plain.views())


def test_a_view_follows_a_reset(board):
    server = board()
    for role, line in (("AP", "FLT,AB{},5"), ("ATC", "RWY,AB{},27L"), ("AO", f"TOBT,AB{{}},{moment(400)}")):
        replies = server.post([line.format(number) for number in range(101)], Cdm_Role=role)
    screen = Screen(server)
    screen.has_view(replies[-1]["position"])
    reply, = server.post([f"CLOSE,27L,{moment(400)},{moment(600)}"], Cdm_Role="ATC")
    screen.has_view(reply["position"])
    assert [(name, position) for name, position, _ in screen.events][-2:] == [("reset", reply["position"]), ("view", reply["position"])]
    # Who comes back with an event that isn't known gets both too.
    other = Screen(server, query="?since=nix")
    other.has_view(reply["position"])
    assert [name for name, _, _ in other.events] == ["reset", "view"]


def test_views_among_many_records(board):
    """Each is of a later position than the one before, and behind the events up to it."""
    server = board()
    first = last = a_day(server)
    screen = Screen(server)
    for number in range(30):
        last = server.post([f"TOBT,AB{number % 8},{moment(60 + number)}"], Cdm_Role="AO")[0]["position"]
        screen.read(0.1)
    screen.has_view(last)
    views = [position for position, _ in screen.views()]
    assert views == sorted(set(views)) and len(views) >= 3
    for number, (name, position, _) in enumerate(screen.events):
        had = [at for other, at, _ in screen.events[:number] if other == "reply"]
        assert name != "view" or position in (first, *had)


def test_a_member_that_fails_is_missing(board):
    """And it is told once; a view of which nothing can be made isn't sent."""
    server = wrapped(board, '[ "$1" != load ] || { echo "cdmseq: no load today" >&2; exit 3; }\n'
                            '[ ! -e $d/none ] || [ "$1" = serve ] || exit 3')
    last = a_day(server)
    screen = Screen(server)
    assert set(screen.has_view(last)) == {"position", "totals", "next", "warnings"}
    for number in range(2):
        reply, = server.post([f"TOBT,AB0,{moment(90 + number)}"], Cdm_Role="AO")
        screen.has_view(reply["position"])
    assert server.told().count("no load today") == 1
    (server.folder / "none").touch()
    reply, = server.post([f"TOBT,AB0,{moment(95)}"], Cdm_Role="AO")
    until(lambda: "ended with 3" in server.told())
    assert reply["position"] not in [position for position, _ in screen.views()] and screen.read(0.5)[-1][0] == "reply"


def test_a_view_that_is_too_large_is_left_out(board):
    server = wrapped(board, f'[ "$1" != next ] || {{ printf \'"%{MOST_VIEW}s"\\n\' x; exit 0; }}')
    a_day(server)
    screen = Screen(server)
    until(lambda: "too large" in server.told())
    assert [one for one in screen.read(1.2) if one[0] != "from"] == [] and server.told().count("too large") == 1


def test_desks_questions_and_views_don_t_wait_for_each_other(board):
    """Questions that take seconds, of as many desks as there are, don't keep a view; nor does a view that takes seconds a question."""
    server = wrapped(board, '[ "$1" != why ] || sleep 4\n[ ! -e $d/slow ] || [ "$1" != next ] || sleep 4')
    running = lambda command: sum(command in words for words in server.processes().values())
    last = a_day(server)
    with concurrent.futures.ThreadPoolExecutor(5) as pool:
        waiting = [pool.submit(server.get, "/v1/why/AB1", Cdm_Role=role) for role in ("AO", "GH", "AP", "ATC", "NM")]
        until(lambda: running("why") >= 1)
        began = time.monotonic()
        Screen(server).has_view(last)
        assert time.monotonic() - began < 3 * FACTOR and not any(answer.done() for answer in waiting)
        assert {answer.result().status for answer in waiting} == {200}
    (server.folder / "slow").touch()
    screen = Screen(server)
    server.post([f"TOBT,AB0,{moment(95)}"], Cdm_Role="AO")
    until(lambda: running("next") == 1)
    began = time.monotonic()
    assert server.get("/v1/load.json", Cdm_Role="GH").status == 200 and time.monotonic() - began < 2 * FACTOR
    assert running("next") == 1 and screen.status == 200


# Simulated: the module's own code, in a time of its own, over schedules that a seed draws.

class Jumping(selectors.SelectSelector):
    """Waits for nothing: the time is later at once."""

    def select(self, timeout=None):
        assert timeout is not None, "nothing would ever happen"
        self.loop.now += timeout
        return []


class Loop(asyncio.SelectorEventLoop):
    def __init__(self):
        self.now = 0.0
        selector = Jumping()
        selector.loop = self
        super().__init__(selector)

    def time(self):
        return self.now


class Transport:
    """What a display was sent, and the laws of it. `had`: the last position of its events; `seen`: the moment of its last view."""

    def __init__(self, world):
        self.world, self.had, self.starts, self.seen = world, len(world.day.records), world.day.starts, (-1, 0)

    def get_write_buffer_size(self):
        return 0

    def is_closing(self):
        return False

    def write(self, chunk):
        for part in chunk.partition(b"\r\n")[2].decode().split("\n\n"):
            fields = dict(line.partition(": ")[::2] for line in part.split("\n"))
            if "id" in fields:
                self.had = int(fields["id"].rpartition("-")[2])
            if fields.get("event") == "reset":
                self.starts = self.world.day.starts
            if fields.get("event") == "view":
                self.saw(json.loads(fields["data"]))

    def saw(self, view):
        day, position = self.world.day, view.pop("position")
        assert position <= len(day.records), "of records that a day before had"
        wanted = {"starts": day.starts, "accepted": day.records[position - 1].accepted if position else 0}
        assert self.starts == day.starts and all(told in (wanted, [wanted]) for told in view.values()), "of another moment, or day"
        assert not any(record.word is None for record in day.records[self.had:position]), "before its events"
        assert (day.starts, position) > self.seen, "again, or older than the last"
        self.seen = day.starts, position


class World:
    """A day, its displays and the program, by a seed. The program's answers say of which moment they are."""

    def __init__(self, seed):
        self.chance, self.day, self.loop = random.Random(seed), Day(Kinds(b""), [], {}), asyncio.get_running_loop()
        self.events, self.displays, self.begun, self.is_making = Events("0", self.day), [], [], False
        self.is_well, self.was_well = True, True

    async def together(self, questions):
        assert self.events.streams, "for nobody"
        assert not self.is_making, "at the same time as another"
        assert not self.begun or self.loop.time() - self.begun[-1] >= APART - 1e-6, "too soon after another"
        self.begun.append(self.loop.time())
        self.is_making, at = True, (self.day.starts, len(self.day.records))
        output = json.dumps({"starts": self.day.starts, "accepted": len(self.day.lines)}).encode() + b"\n"
        await asyncio.sleep(self.chance.choice([0, 0.05, 0.2] if self.is_well else [0.5, 3, 10]))
        self.is_making = False
        if not self.is_well and self.chance.random() < 0.5:
            raise Problem(503, "no room")
        answers = [Answer(0 if self.is_well or self.chance.random() < 0.7 else 3, output, "") for _ in questions]
        return at, answers if self.is_well else answers[:self.chance.randrange(5)]

    def record(self):
        number = len(self.day.records) + 1
        self.day.add(Record(number, "gh", "GH", "FLT,AB1,5"), self.chance.choice([None, None, None, "TEXT"]), [])

    def step(self):
        """Something happens; how long nothing else does."""
        which = self.chance.random()
        if which < 0.5:
            for _ in range(self.chance.choice([1, 1, 1, 2, 20])):
                self.record()
        elif which < 0.65:
            transport = Transport(self)
            stream = Stream(None, Desk(self.chance.choice(["gh", "screen"]), "GH"), transport, asyncio.Event())
            self.displays.append((stream, transport))
            self.events.open(stream, self.chance.choice(["", "", "0-0", f"0-{len(self.day.records)}", "nix"]))
        elif which < 0.75 and self.displays:
            stream, transport = self.displays.pop(self.chance.randrange(len(self.displays)))
            self.events.streams.discard(stream)
        elif which < 0.78:
            self.day.restart(Day(Kinds(b""), [Record(number + 1, "gh", "GH", "FLT,AB1,5") for number in range(self.chance.randrange(4))], {}))
        elif which < 0.85:
            self.is_well = self.chance.random() < 0.6
            self.was_well &= self.is_well
        return self.chance.choice([0, 0, 0.01, 0.03, 0.1, 0.3, 1, 2])


async def lived(seed):
    """One schedule, and that every display has the view of the last moment once it is quiet. How many views were made."""
    world = World(seed)
    views = Views(world, world.events)
    running = [asyncio.create_task(part.run()) for part in (world.events, views)]
    for _ in range(60):
        await asyncio.sleep(world.step())
        for task in running:
            if task.done():
                task.result()
    world.is_well = True
    # A view that couldn't be made is made again with the next record, display or comment.
    await asyncio.sleep(3 if world.was_well else 60)
    assert all(transport.seen == (world.day.starts, len(world.day.records)) for _, transport in world.displays), "not the last one"
    for task in running:
        task.cancel()
    await asyncio.gather(*running, return_exceptions=True)
    return len(world.begun)


def test_the_view_s_laws_hold_in_each_schedule(monkeypatch):
    """No view for nobody, at the same time as another or too soon after it, before its events, again, of another moment or of a day that
    is gone; and each display has the last one when it is quiet."""
    monkeypatch.setattr("board.views.tell", lambda text: None)
    first, made = count("BOARD_SEED", 0), 0
    for seed in range(first, first + count("BOARD_SCHEDULES", 400)):
        with asyncio.Runner(loop_factory=Loop) as runner:
            try:
                made += runner.run(lived(seed))
            except Exception as fault:
                pytest.fail(f"BOARD_SEED={seed} BOARD_SCHEDULES=1: a view {fault}")
    assert made > 0


async def burst(pause):
    """Ten records, each so long after the one before; how many views were made."""
    world = World(0)
    running = [asyncio.create_task(part.run()) for part in (world.events, Views(world, world.events))]
    world.events.open(Stream(None, Desk("screen", "READ"), Transport(world), asyncio.Event()), "")
    await asyncio.sleep(3)
    before = len(world.begun)
    for _ in range(10):
        world.record()
        await asyncio.sleep(pause)
    await asyncio.sleep(3)
    for task in running:
        task.cancel()
    await asyncio.gather(*running, return_exceptions=True)
    return len(world.begun) - before


def test_records_that_come_together_are_one_view():
    """Those of 50 ms; of records that come for longer there is one each 0.8 s, and one when they have ended."""
    for pause, views in ((0, 1), (0.004, 1), (0.01, 2), (0.16, 3)):
        with asyncio.Runner(loop_factory=Loop) as runner:
            assert runner.run(burst(pause)) == views, pause


def test_the_view_asks_what_pages_ask():
    """So what was made for one is there for the other."""
    assert list(MEMBERS) == ["totals", "next", "warnings", "load"]
    assert view_of([Answer(0, b'{"a":1}\n{"b":2}\n', "")] * 2) == (b'"totals":{"a":1},"next":[{"a":1},{"b":2}]', "")
    assert view_of([Answer(0, b"", ""), Answer(0, b"", ""), Answer(504, b"", "slow")]) == (b'"next":[]', "totals: list index out of range")
