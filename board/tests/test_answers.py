"""Answers: how much of them there may be, and that each question gets one, whoever goes away meanwhile."""
import asyncio
import concurrent.futures
import contextlib
import http.client
import os
import socket
import sys
import time
from asyncio.subprocess import PIPE

import pytest
from conftest import FACTOR, ROOT, until

sys.path.insert(0, str(ROOT))
from board import answers  # noqa: E402

DESKS = {"gh": 'role = "GH"', "ap": 'role = "AP"', "atc": 'role = "ATC"'}
MIB = 1 << 20
# What is printed over a scenario, whatever it says.
LARGE = "case \"$*\" in *scenarios.csv*) head -c {} /dev/zero; exit 0;; esac"


@pytest.fixture
def open_to_read(board):
    """Makes a server that anyone may read, over a program of the shell."""
    def make(program, collect=None):
        server = board(DESKS, start=False)
        server.write_desks(DESKS, read="anyone")
        server.program(program)
        if collect:
            server.collect(collect)
        return server.start()
    return make


def scenarios(number):
    """A short body, and another one for each number."""
    return "".join(f"SCENARIO,S{number}X{part}\n" for part in range(64)).encode()


def asks_without_reading(server, source, body, path="/v1/what-if"):
    """A connection of a source that asks, and reads nothing."""
    own = socket.socket()
    own.setsockopt(socket.SOL_SOCKET, socket.SO_RCVBUF, 4096)
    own.bind((source, 0))
    own.connect(("127.0.0.1", server.port))
    own.sendall(f"POST {path} HTTP/1.1\r\nHost: localhost\r\nContent-Length: {len(body)}\r\n\r\n".encode() + body)
    return own


def test_all_that_nobody_reads_is_bounded(open_to_read):
    """30 addresses without a token ask for 28 MB each by a short body, and read nothing. The bound is one for all of them, and the tower
    is answered."""
    server = open_to_read(LARGE.format(28_000_000))
    server.post(["FLT,AB1,5"], "ap")
    before, most, quiet = server.memory(), 0, 0
    open_ones = []
    while quiet < 10:
        if len(open_ones) < 30:
            open_ones.append(asks_without_reading(server, f"127.0.5.{len(open_ones) + 1}", scenarios(len(open_ones))))
        quiet = 0 if len(open_ones) < 30 or any("plan" in words for words in server.processes().values()) else quiet + 1
        most = max(most, server.memory())
        time.sleep(0.1)
    assert most < before + 300
    assert server.metric("cdm_unsent_bytes", "atc") <= 128 * MIB
    assert server.get("/v1/plan", "atc").status == 200
    for own in open_ones:
        own.close()
    until(lambda: server.metric("cdm_unsent_bytes", "atc") == 0)


def test_nothing_stays_of_what_nobody_read(open_to_read):
    """Who asks and goes away, again and again, leaves nothing, also where nothing that refers to itself is collected."""
    server = open_to_read(LARGE.format(12_000_000), "gc.disable()")
    for desk in ("ap", "gh"):
        assert server.request("POST", "/v1/what-if", scenarios(desk), desk).status == 200
    before = server.memory()
    for number in range(12):
        with asks_without_reading(server, "127.0.5.1", scenarios(number)) as own:
            own.settimeout(30)
            assert own.recv(12) == b"HTTP/1.1 200"
            time.sleep(0.1)
        time.sleep(0.1)
    assert server.memory() < before + 70


def test_a_desk_is_answered_though_others_do_not_read(open_to_read):
    """What those without a token leave unread is no desk's."""
    server = open_to_read(LARGE.format(28_000_000))
    open_ones = [asks_without_reading(server, f"127.0.5.{number + 1}", scenarios(number)) for number in range(6)]
    until(lambda: server.metric("cdm_unsent_bytes", "atc") > 100 * MIB)
    refused = http.client.HTTPConnection("127.0.0.1", server.port, timeout=60)
    refused.request("POST", "/v1/what-if", scenarios(7))
    answer = refused.getresponse()
    assert answer.status == 503 and answer.headers["Retry-After"]
    assert server.request("POST", "/v1/what-if", scenarios(8), "gh").status == 200
    for own in open_ones:
        own.close()


def test_an_answer_has_a_bound_of_its_own(open_to_read):
    """32 MiB. More is refused at once, with why, and the next question is answered."""
    server = open_to_read(LARGE.format(33 * MIB))
    answer = server.request("POST", "/v1/what-if", b"SCENARIO,A\n", "gh")
    assert answer.status == 422 and b"32 MiB" in answer.body
    assert server.get("/v1/plan", "gh").status == 200
    assert server.metric('cdm_questions_total{outcome="too_large"}', "gh") == 1


def test_a_program_that_prints_without_end(open_to_read):
    """It is ended, and its place is free for the next question."""
    server = open_to_read("case $1 in why) exec yes;; esac")
    began = time.monotonic()
    assert server.get("/v1/why/AB1", "gh").status == 422
    assert server.get("/v1/plan", "gh").status == 200 and time.monotonic() - began < 20 * FACTOR
    assert not any("yes" in words for words in server.processes().values())


def test_a_program_that_is_ended_while_it_prints():
    """More than anybody has read of it, as at the end of its time: its end is known all the same, and soon."""
    async def ended():
        words = ("/bin/sh", "-c", "head -c 10000000 /dev/zero; exec sleep 60")
        process = await asyncio.create_subprocess_exec(*words, stdout=PIPE, stderr=PIPE, start_new_session=True)
        await asyncio.sleep(0.5)
        async with asyncio.timeout(10 * FACTOR):
            await answers.ended(process)
        return process.returncode
    assert asyncio.run(ended()) == -9


def test_others_come_in_between_turns():
    """What is made in a turn may wait for nothing; all who ask for it at once don't keep the loop."""
    order = []

    async def ask(pool, number):
        async with pool.turn("records"):
            order.append(number)

    async def tower():
        for _ in range(40):
            order.append("tower")
            await asyncio.sleep(0)

    async def talk():
        pool = answers.Answers("", "", None)
        await asyncio.gather(*(ask(pool, number) for number in range(5)), tower())
    asyncio.run(talk())
    places = [order.index(number) for number in range(5)]
    assert places == sorted(places) and all("tower" in order[one:other] for one, other in zip(places, places[1:]))


def test_what_a_program_began_ends_with_it(open_to_read):
    """A program that leaves something behind that holds its output holds no place."""
    server, began = open_to_read("case $1 in why) sleep 98.25 & sleep 98.25;; esac"), time.monotonic()
    assert server.get("/v1/why/AB1", "gh").status == 504 and time.monotonic() - began < 10 + 5 * FACTOR
    assert server.get("/v1/plan", "gh").status == 200


def test_a_place_to_ask_comes_within_ten_seconds(open_to_read):
    """Or 503: of a desk's three questions each takes all of its ten seconds, and the last one's turn would come after twenty."""
    server = open_to_read("case $1 in why) exec sleep 60;; esac")
    with concurrent.futures.ThreadPoolExecutor(2) as pool:
        ahead = []
        for number in range(2):
            ahead.append(pool.submit(server.get, f"/v1/why/AB{number}", "gh"))
            until(lambda: any("sleep" in words for words in server.processes().values()))
            time.sleep(0.3)
        began = time.monotonic()
        last = server.get("/v1/why/AB9", "gh")
        assert last.status == 503 and last.headers["Retry-After"] and 9 < time.monotonic() - began < 10 + 5 * FACTOR
        assert ahead[0].result().status == 504 and ahead[1].result().status in (503, 504)
    assert server.get("/v1/plan", "gh").status == 200


def test_the_tower_asks_first(board):
    """Every place is taken, and many desks wait: the tower's question is the next one."""
    places = max(1, (os.cpu_count() or 2) - 1)
    desks = {f"desk-{number}": 'role = "GH"' for number in range(4 * places)} | {"atc": 'role = "ATC"'}
    server = board(desks, faulty="slow:0.7")
    with concurrent.futures.ThreadPoolExecutor(len(desks)) as pool:
        asked = [pool.submit(server.get, f"/v1/why/AB{number}", f"desk-{number}") for number in range(4 * places)]
        until(lambda: sum("why" in words for words in server.processes().values()) >= places)
        server.get("/v1/why/TOWER", "atc")
        assert sum(not one.done() for one in asked) >= 2 * places - 1
        assert {one.result().status for one in asked} == {404}


def test_questions_are_answered_though_clients_go_away(open_to_read):
    """In the middle of questions, many times, while what refers to itself is collected all the time."""
    server = open_to_read("case \"$*\" in *scenarios.csv*|why*) sleep 0.05; head -c 300000 /dev/zero | tr '\\0' A; exit 0;; esac", "gc.set_threshold(50, 2, 2)")
    for number in range(60):
        gone = [asks_without_reading(server, f"127.0.6.{1 + number % 9}", scenarios(number * 8 + part), "/v1/what-if") for part in range(8)]
        time.sleep(0.02 * (number % 5))
        for own in gone:
            with contextlib.suppress(OSError):
                own.close()
    until(lambda: server.get("/v1/why/AB1").status == 200, 30)
    for desk in ("gh", "ap", "atc", None):
        assert server.get(f"/v1/why/{str(desk).upper()}", desk).status == 200
    until(lambda: server.metric("cdm_unsent_bytes", "atc") == 0, 30)


@pytest.mark.parametrize("part", ["request", "run"])
def test_what_waits_is_kept(part, tmp_path):
    """A request whose client is gone, and a run of a question: only what refers to itself refers to it, and Python may collect such."""
    import gc
    import weakref
    from unittest import mock
    from board.web import Board
    ended = []

    async def wait(*_):
        try:
            await asyncio.get_running_loop().create_future()
        finally:
            ended.append(part)

    async def talk():
        board = Board.__new__(Board)
        board._requests = set()
        pool = answers.Answers("", str(tmp_path), mock.Mock(starts=0))
        pool._made = wait
        if part == "request":
            asyncio.create_task(board.answered(mock.Mock(), wait))
        else:
            pool._places.come(answers.Ticket("gh", answers.Question("why")))
            pool._begin()
        await asyncio.sleep(0)
        await asyncio.sleep(0)
        tasks = weakref.WeakSet(asyncio.all_tasks())
        gc.collect()
        assert len(tasks) == 2 and ended == []
        for task in tasks - {asyncio.current_task()}:
            task.cancel()
    asyncio.run(talk())


def test_a_turn_comes_within_ten_seconds(monkeypatch):
    """Or 503, as for a place: who keeps his turn for long doesn't keep the next one waiting for ever."""
    monkeypatch.setattr(answers, "PLACE_SECONDS", 0.05)

    async def talk():
        pool = answers.Answers("", "", None)
        async with pool.turn("log"):
            async with asyncio.timeout(5):
                with pytest.raises(answers.Problem) as why:
                    async with pool.turn("log"):
                        pass
        return why.value
    found = asyncio.run(talk())
    assert found.status == 503 and found.headers["Retry-After"]


def test_an_answer_is_taken_in_time(open_to_read):
    """Who reads nothing of it is cut off, and its bytes are free again."""
    server = open_to_read(LARGE.format(28_000_000), "from board import web; web.SEND_LIMIT = 2.0")
    own = asks_without_reading(server, "127.0.5.1", scenarios(0))
    until(lambda: server.metric("cdm_unsent_bytes", "atc") > 20 * MIB)
    until(lambda: server.metric("cdm_unsent_bytes", "atc") == 0, 6)
    own.settimeout(5)
    with contextlib.suppress(ConnectionError):
        while own.recv(1 << 20):
            pass
    own.close()


def test_a_body_comes_in_time(open_to_read):
    """One of a record or of a question that stops in its middle: 408, and nothing of it is taken."""
    server = open_to_read("", "from board import questions; questions.BODY_LIMIT = 1.0")
    for path in ("records", "what-if"):
        with socket.create_connection(("127.0.0.1", server.port)) as own:
            own.settimeout(10)
            own.sendall(f"POST /v1/{path} HTTP/1.1\r\nHost: localhost\r\nAuthorization: Bearer token-ap\r\nContent-Length: 9\r\n\r\nFLT,AB1".encode())
            assert own.recv(65536).startswith(b"HTTP/1.1 408")
    assert server.records("ap") == []
