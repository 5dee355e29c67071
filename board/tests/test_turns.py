"""Strangers who ask at once: they wait for their turns, and whoever is a desk is answered."""
import asyncio
import multiprocessing
import resource
import selectors
import signal
import socket
import time
from collections import Counter
from unittest import mock

import pytest
from aiohttp import web
from board.connections import Limits, Places
from board.guard import Door, Guard
from board.questions import Questions
from board.turns import LONG_ROUND, MOST_TURNS, Turns
from board.web import MOST_AFTER, Board
from board.words import Problem
from conftest import FACTOR, figure

STRANGERS, AT_EACH = 2000, 100
SECONDS = 6
DESKS = {"ap": 'role = "AP"', "atc": 'role = "ATC"'}


def ask_at_once(port, request, ready, told):
    """Strangers of many addresses, each with a request under way at any time, until SECONDS are over. How many answers they got."""
    resource.setrlimit(resource.RLIMIT_NOFILE, (resource.getrlimit(resource.RLIMIT_NOFILE)[1],) * 2)
    eyes, answers = selectors.EpollSelector(), 0
    for number in range(STRANGERS):
        own = socket.create_connection(("127.0.0.1", port), timeout=60, source_address=(f"127.0.2.{1 + number // AT_EACH}", 0))
        eyes.register(own, selectors.EVENT_READ)
        own.setblocking(False)
    for key in list(eyes.get_map().values()):
        key.fileobj.send(request)
    ready.set()
    end = time.monotonic() + SECONDS
    while time.monotonic() < end:
        for key, _ in eyes.select(0.1):
            try:
                said = key.fileobj.recv(1 << 16)
                answers += said.startswith(b"HTTP/1.1 ")
                if said:
                    key.fileobj.send(request)
                    continue
            except ConnectionError:
                pass
            eyes.unregister(key.fileobj)
    told.put(answers)


@pytest.mark.parametrize("path, options, more", [("/v1/plan", [], ""), ("/", [], ""), ("/", ["--behind-proxy"], ""),
                                                 ("/v1/plan", ["--behind-proxy"], "Authorization: Bearer wrong\r\n")],
                         ids=["direct", "page", "proxy", "proxy-wrong"])
def test_the_tower_is_answered_while_strangers_ask_at_once(board, path, options, more):
    """On a new connection, within a second. The strangers are answered, too."""
    server = board(DESKS, options=options)
    server.post([f"FLT,AB{number},5" for number in range(100)], "ap")
    ready, told = multiprocessing.Event(), multiprocessing.Queue()
    strangers = multiprocessing.Process(target=ask_at_once, args=(
        server.port, f"GET {path} HTTP/1.1\r\nHost: localhost\r\n{more}\r\n".encode(), ready, told))
    strangers.start()
    assert ready.wait(60)
    times, end = [], time.monotonic() + SECONDS - 1
    while time.monotonic() < end:
        began = time.monotonic()
        reply, = server.post([f"PRIO,AB{len(times) % 100},4"], "atc")
        times.append(time.monotonic() - began)
        assert reply["reply"] == "ACCEPTED"
    answers = told.get(timeout=60)
    strangers.join()
    times.sort()
    figure(f"{STRANGERS} strangers ask {' '.join([path, *options])} at once: the tower's {len(times)} replies in "
           f"{1000 * times[len(times) // 2]:.0f} ms at the median, {1000 * times[-1]:.0f} ms at most; the strangers got {answers} answers in {SECONDS} s")
    assert times[-1] < 1 * FACTOR
    assert answers > STRANGERS / 10 / FACTOR


def test_those_who_come_at_once_wait_to_be_let_in(board):
    """Hundreds come while the server is busy; none of them is dropped and has to try again a second later."""
    server = board(DESKS)
    came = []
    server.process.send_signal(signal.SIGSTOP)
    try:
        for _ in range(600):
            came.append(socket.create_connection(("127.0.0.1", server.port), timeout=0.9))
    finally:
        server.process.send_signal(signal.SIGCONT)
        for one in came:
            one.close()
    assert len(came) == 600


def rows(numbers, turns):
    """Whose turn it is in one round, by their file numbers."""
    return [key.fd for key, _ in turns.select(0) if key.fd in numbers]


@pytest.fixture
def crowd():
    """A selector; connections by number, which all have something; and the rank of each, which the test may change."""
    turns, pairs, ranks = Turns(), [socket.socketpair() for _ in range(100)], {}
    turns.rank = lambda number: ranks.get(number, 0)
    for _, other in pairs:
        other.send(b"A")
    yield turns, [own for own, _ in pairs], ranks
    turns.close()
    for own, other in pairs:
        own.close()
        other.close()


def test_strangers_have_their_turns(crowd):
    """Some in a round, each once before any is read again; who needs no turn is first in each round."""
    turns, (desk, *strangers), ranks = crowd
    numbers = [own.fileno() for own in strangers]
    ranks |= {number: 2 for number in numbers}
    for own in (*strangers, desk):
        turns.register(own.fileno(), selectors.EVENT_READ, "data")
    seen = []
    while len(seen) < len(numbers):
        first, *some = [key.fd for key, _ in turns.select(0)]
        assert first == desk.fileno() and 0 < len(some) <= MOST_TURNS
        seen += some
    assert sorted(seen) == sorted(numbers)
    assert 0 < len(rows(numbers, turns)) <= MOST_TURNS


def test_known_addresses_wait_for_each_other_alone(crowd):
    """Behind the strangers of everywhere a known address has its turn in the first round."""
    turns, (known, *strangers), ranks = crowd
    ranks |= {own.fileno(): 2 for own in strangers} | {known.fileno(): 1}
    for own in (*strangers, known):
        turns.register(own, selectors.EVENT_READ)
    assert known.fileno() in rows([own.fileno() for own in (*strangers, known)], turns)


def test_who_shows_a_token_needs_no_turn(crowd):
    turns, strangers, ranks = crowd
    ranks |= {own.fileno(): 2 for own in strangers}
    for own in strangers:
        turns.register(own, selectors.EVENT_READ, own)
    last = strangers[-1].fileno()
    turns.first(last)
    assert rows([last], turns) == [last] == rows([last], turns)
    assert turns.get_key(last).data is strangers[-1]
    turns.unregister(last)
    assert rows([last], turns) == [] and last not in turns.get_map()


def test_a_turn_is_of_what_a_connection_waits_for_now(crowd):
    """Who ended, or has another callback by now, isn't called as it was before."""
    turns, strangers, ranks = crowd
    ranks |= {own.fileno(): 2 for own in strangers}
    for own in strangers:
        turns.register(own, selectors.EVENT_READ, "before")
    turns.select(0)
    for own in strangers[:50]:
        turns.unregister(own)
    for own in strangers[50:]:
        turns.modify(own, selectors.EVENT_READ, "after")
    told = [key for _ in range(40) for key, _ in turns.select(0)]
    assert {key.data for key in told} == {"after"} and {key.fd for key in told} == {own.fileno() for own in strangers[50:]}


def test_a_long_round_leaves_fewer_turns(crowd, monkeypatch):
    turns, strangers, ranks = crowd
    clock = mock.Mock()
    monkeypatch.setattr("board.turns.time", clock)
    clock.monotonic.return_value = turns._woke
    numbers = [own.fileno() for own in strangers]
    ranks |= {number: 2 for number in numbers}
    for own in strangers:
        turns.register(own, selectors.EVENT_READ)
    counts = []
    for seconds in [0] + [1.5 * LONG_ROUND] * 5 + [0] * 3:
        clock.monotonic.return_value += seconds
        counts.append(len(rows(numbers, turns)))
    assert counts == [16, 8, 4, 2, 1, 1, 2, 3, 4]


def test_requests_have_their_turns():
    """Those that were read already, of a proxy, in rounds as well. Who is gone has none."""
    turns, told = Turns(), []

    async def ask(number):
        await turns.turn()
        told.append(number)

    async def asked():
        tasks = [asyncio.create_task(ask(number)) for number in range(60)]
        await asyncio.sleep(0)
        for gone in tasks[:10]:
            gone.cancel()
        counts = []
        while len(told) < 50:
            counts.append(len(told))
            await asyncio.sleep(0)
        return [*counts, len(told)]
    with asyncio.Runner(loop_factory=lambda: asyncio.SelectorEventLoop(turns)) as runner:
        counts = runner.run(asked())
    assert told == list(range(10, 60))
    assert max(after - before for before, after in zip(counts, counts[1:])) <= MOST_TURNS


def test_whose_turn_it_is():
    """Who has shown a token on its connection waits for nobody, nor does a proxy; its address's others wait for each other."""
    places = Places(Limits(), 10_000)
    for number, address in enumerate(("192.0.2.1", "192.0.2.1", "192.0.2.2")):
        places.enter(number, address)
    places.enter_from_proxy(3)
    assert [places.rank(number) for number in range(5)] == [2, 2, 2, 0, 0]
    places.show(0)
    assert [places.rank(number) for number in range(5)] == [0, 1, 2, 0, 0]
    places.leave(0)
    places.enter(4, "192.0.2.1")
    assert [places.rank(number) for number in range(5)] == [0, 1, 2, 0, 1]


def test_so_many_wait_for_a_position():
    """All who have no desk together, and each desk, since they go on at once when it comes."""
    async def waited():
        board, here = Board.__new__(Board), asyncio.Event()
        board._waiting, board.day = Counter(), mock.Mock(position=0, reached=lambda position: here.wait())
        waiting = [asyncio.create_task(board._reached("", 1)) for _ in range(MOST_AFTER)]
        await asyncio.sleep(0)
        with pytest.raises(Problem, match="too many requests wait"):
            await asyncio.wait_for(board._reached("", 1), 1)
        waiting.append(asyncio.create_task(board._reached("ap", 1)))
        await asyncio.sleep(0)
        board.day.position = 1
        here.set()
        await asyncio.gather(*waiting)
        assert board._waiting.total() == 0
    asyncio.run(waited())


def flooded_by(data):
    """A connection on which so much comes at once, and whether it was cut."""
    async def flooded():
        door = Door("127.0.0.1", 0, False, Limits(), Turns())
        runner = web.AppRunner(web.Application())
        await runner.setup()
        own, transport = Guard(runner.server, door, False), mock.Mock(spec=asyncio.Transport)
        own.connection_made(transport)
        own.data_received(data)
        own.connection_lost(None)
        door.close()
        await runner.cleanup()
        return own, transport.abort.called
    return asyncio.run(flooded())


def test_a_flood_of_requests_is_cut_at_once():
    """Of 256 KiB of requests on a connection little more than may wait is read."""
    own, is_cut = flooded_by(b"GET / HTTP/1.1\r\n\r\n" * 14_563)
    assert own._request_count < 1000
    assert is_cut


def test_who_makes_room_needs_no_turn():
    """Its end is seen at once, however many wait for their turns: otherwise there would soon be more connections than there may be."""
    turns = Turns()
    door = Door("127.0.0.1", 0, False, Limits(connections=2, kept_for_desks=1), turns)
    clients = [socket.create_connection(door.getsockname()) for _ in range(2)]
    first, _ = door.accept()
    turns.register(first, selectors.EVENT_READ)
    assert rows([first.fileno()], turns) == []
    second, _ = door.accept()
    others = [socket.socketpair() for _ in range(40)]
    turns.rank = lambda number: 2
    for own, other in others:
        turns.register(own, selectors.EVENT_READ)
        other.send(b"A")
    assert all(rows([first.fileno()], turns) for _ in range(5))
    for own in (*clients, first, second, door, *(one for pair in others for one in pair)):
        own.close()
    turns.close()


def test_strangers_read_the_log_one_after_the_other():
    """However many addresses they have: each reading takes the server's time. Desks have turns of their own."""
    asked = Questions(mock.Mock(), mock.Mock(), mock.Mock(first=5), mock.Mock(), mock.Mock(), lambda request: request)
    assert [asked._together(asker) for asker in ("@192.0.2.1", "@192.0.2.2", "tower", "ap")] == ["@", "@", "tower", "ap"]
    assert asked._turn("@192.0.2.1", 4) is asked._answers.turn.return_value
    asked._answers.turn.assert_called_once_with(("day", "@"))
