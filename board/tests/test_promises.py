"""What a board must never do. Each of these fails without one line of the server: see must_fail."""
import asyncio
import concurrent.futures
import json
import os
import resource
import signal
import socket
import sqlite3
import time

import aiohttp
import pytest
from conftest import FACTOR, ROLES, moment, objects, until

ALL = {role.lower(): f'role = "{role}"' for role in ROLES}


@pytest.mark.parametrize("fault", ["drop", "twice", "end", "torn", "mute"])
def test_a_reply_goes_to_its_own_record(board, fault):
    """Whatever the sequencer says wrongly or not at all: each sender gets the reply that its record has."""
    server = board(faulty=f"{fault}:3")
    lines = [("FOO", "KIND"), ("FLT,AB1,X", "TEXT"), ("FLT,AB1", "FIELDS"), ("FLT,AB1,5", None), ("FLT,AB1,5", "EXISTS")]
    with concurrent.futures.ThreadPoolExecutor(5) as pool:
        first = server.post([line for line, _ in lines], Cdm_Role="AP")
        replies = list(pool.map(lambda number: server.post([f"FLT,AB{number},5", "FOO"], Cdm_Role="AP"), range(2, 22)))
    assert [reply.get("word") for reply in first] == [word for _, word in lines]
    assert [reply["line"] for reply in first] == [line for line, _ in lines]
    for number, (flight, foo) in enumerate(replies, 2):
        assert flight["line"] == f"FLT,AB{number},5" and flight["changes"][0]["flight"] == f"AB{number}"
        assert foo["word"] == "KIND" and foo["position"] == flight["position"] + 1
    assert server.metric("cdm_restarts") == 1


def test_a_desk_speaks_for_its_own_role(board):
    """The role is the desk's, whatever a line or a header says."""
    server = board(ALL)
    assert server.post(["FLT,AB1,5"], "ap")[0]["reply"] == "ACCEPTED"
    own = {"AO": "TOBT,AB1,{}", "GH": "ICE,AB1,NONE,0", "AP": "GROUP,AB1,M", "ATC": "RWY,AB1,27L", "NM": "CTOT,AB1,{}"}
    for role in ROLES:
        for other, line in own.items():
            line = line.format(moment(400))
            reply, inside = server.post([line, f"{other},{line}"], role.lower(), Cdm_Role=other)
            is_own = role == other or (role, other) == ("GH", "AO")
            assert (reply["reply"], reply.get("word"), reply["role"]) == (
                ("ACCEPTED", None, role) if is_own else ("REFUSED", "AUTHORITY", role))
            assert inside["reply"] == "REFUSED" and inside["role"] == role


def test_a_reply_is_of_a_record_in_the_log(board):
    """A record that was replied to is in the log's file, committed, when the reply comes."""
    server = board()
    for number in range(20):
        reply, = server.post([f"FLT,AB{number},5"], Cdm_Role="AP")
        kept = sqlite3.connect(f"file:{server.log}?mode=ro", uri=True)
        assert kept.execute("SELECT position, role, line FROM cdm_record ORDER BY position DESC").fetchone() == (
            reply["position"], "AP", f"FLT,AB{number},5")
        kept.close()


def test_a_full_disk_stops_no_reader(board):
    """A commit that fails: no reply, 503 or 504; plans go on and say since when nothing is taken; once there is room, records are taken
    again, and those that were sent with their keys are there once."""
    server, replied, answer = board(), [], None

    def limit_files(size):
        resource.prlimit(server.process.pid, resource.RLIMIT_FSIZE, (size, resource.getrlimit(resource.RLIMIT_FSIZE)[1]))
    limit_files(100_000)
    for number in range(60):
        answer = server.post([f"FLT,F{number}X{k},5" for k in range(16)], Cdm_Role="AP", key=f"k{number}")
        if not isinstance(answer, list):
            break
        replied += answer
    assert not isinstance(answer, list) and answer.status in (503, 504) and len(replied) >= 16
    until(lambda: "Cdm-Stale-Since" in server.get("/v1/plan").headers)
    later = server.post(["FLT,LATER,5"], Cdm_Role="AP", key="later")
    assert later.status == 503 and later.headers["Retry-After"] and b"nothing was taken" in later.body
    assert [record["line"] for record in server.records()] == [reply["line"] for reply in replied]
    assert json.loads(server.get("/health").body)["stale_since"] and "takes no records" in server.told()
    time.sleep(2.5)
    assert server.post(["FLT,LATER,5"], Cdm_Role="AP", key="later").status == 503
    limit_files(resource.getrlimit(resource.RLIMIT_FSIZE)[0])
    until(lambda: "Cdm-Stale-Since" not in server.get("/v1/plan").headers)
    again = server.post([f"FLT,F{number}X{k},5" for k in range(16)], Cdm_Role="AP", key=f"k{number}")
    assert [reply["position"] for reply in again] == list(range(len(replied) + 1, len(replied) + 17))
    assert server.process.poll() is None and "takes records again" in server.told()
    log = server.records()
    assert server.end() == 0
    assert [(record["position"], record["line"]) for record in server.start().records()] == [(record["position"], record["line"]) for record in log]


def test_a_record_is_taken_once(board):
    """A key and its body: once in the log, also after a kill, also when two come at one moment; another body is 422."""
    server = board(ALL)
    first = server.post(["FLT,AB1,5", "FLT,AB1,5"], "ap", "k1")
    assert server.post(["FLT,AB1,5", "FLT,AB1,5"], "ap", "k1") == first
    assert server.post(["FLT,AB2,5"], "ap", "k1").status == 422
    assert server.post(["FLT,AB1,5"], "ap", "k1").status == 422
    assert server.post(["TOBT,AB1," + moment(400)], "ao", "k1")[0]["position"] == 3
    with concurrent.futures.ThreadPoolExecutor(8) as pool:
        same = list(pool.map(lambda _: server.post(["GROUP,AB1,H"], "ap", "k2"), range(8)))
    assert all(reply == same[0] for reply in same) and len(server.records("ap")) == 4
    server.kill()
    server.start()
    again = server.post(["FLT,AB1,5", "FLT,AB1,5"], "ap", "k1")
    assert [(reply["position"], reply["reply"], reply["at"]) for reply in again] == [
        (reply["position"], reply["reply"], reply["at"]) for reply in first]
    assert len(server.records("ap")) == 4


WRONG = ["FLT,A\rGH,X,1", "FLT,A\x00", 'FLT,"A', "FLT,\xe9", "FLT,\x7f", "F" * 101, "", "  ", "\t", "\r", "FLT,AB1\x0b5", "FLT\x1c", "FLT,\x85"]


def test_what_is_forwarded_is_one_line(board):
    """One wrong line refuses the whole body, before the log, and says which."""
    server = board()
    for line in WRONG:
        answer = server.post(["FLT,AB1,5", line, "FLT,AB2,5"], Cdm_Role="AP")
        assert not isinstance(answer, list) and answer.status == 400 and json.loads(answer.body)["line"] == 2, ascii(line)
        assert answer.headers["Content-Type"] == "application/problem+json"
    assert server.records() == []
    assert [reply["line"] for reply in server.post(b"FLT,AB1,5\r\nFLT,AB2,5\r\n", Cdm_Role="AP")] == ["FLT,AB1,5", "FLT,AB2,5"]


def test_an_answer_is_of_one_moment(board):
    """Records come while questions wait and run: each answer is the day's at the position that it names."""
    server = board(faulty="slow:0.3")
    server.post(["FLT,AB1,5"], Cdm_Role="AP")
    nothing = f"SCENARIO,X\nTOBT,AB1,{moment(400)}\n"

    async def talk():
        async with aiohttp.ClientSession(f"http://127.0.0.1:{server.port}") as session:
            async def ask(method, path, role):
                headers = {"Cdm-Role": role, "Accept": "application/json"}
                async with session.request(method, path, headers=headers, data=nothing if method == "POST" else None) as answer:
                    assert answer.headers["ETag"].endswith(f'-{answer.headers["Cdm-Position"]}"')
                    return int(answer.headers["Cdm-Position"]), objects(await answer.read())

            async def speak():
                for number in range(2, 60):
                    async with session.post("/v1/records", data=f"FLT,AB{number},5", headers={"Cdm-Role": "AP"}) as answer:
                        assert answer.status == 200
                    await asyncio.sleep(0.03)
            asked = [ask(*one) for role in ROLES for one in (("GET", "/v1/plan.json", role), ("POST", "/v1/what-if", role))]
            return (await asyncio.gather(speak(), *asked))[1:]
    positions = set()
    for position, plans in asyncio.run(talk()):
        positions.add(position)
        assert [len(plan["flights"]) for plan in plans] == [position] * len(plans)
    assert len(positions) > 1 and max(positions) < 60


def test_a_sequencer_that_ended_is_not_gone_on_with(board):
    """Its end is seen at once, also when nobody speaks; a new one has the day; the old one is gone."""
    server = board()
    server.post(["FLT,AB1,5"], Cdm_Role="AP")
    old, = server.sequencers()
    os.kill(old, signal.SIGKILL)
    until(lambda: server.metric("cdm_restarts") == 1 and server.is_ready())
    assert len(server.sequencers()) == 1 and server.sequencers() != [old]
    reply, = server.post(["TOBT,AB1," + moment(400)], Cdm_Role="AO")
    assert (reply["reply"], reply["accepted"]) == ("ACCEPTED", 2)


def test_a_sequencer_that_says_what_it_must_not_say_is_ended(board):
    """A stopped one is no use either: what was wrong is killed, and there is one."""
    server = board(faulty="twice:2")
    server.post(["FLT,AB1,5"], Cdm_Role="AP")
    wrong = server.sequencers()
    server.post(["FLT,AB2,5", "FLT,AB3,5", "FLT,AB4,5"], Cdm_Role="AP")
    until(server.is_ready)
    assert len(server.sequencers()) == 1 and server.sequencers() != wrong


def test_three_ends_within_a_minute_end_the_server(board):
    """And who waits gets 504."""
    server = board(faulty="always:1")
    answer = server.post(["FLT,AB1,5"], Cdm_Role="AP", key="k")
    assert answer.status == 504 and server.process.wait(10) == 1
    server.environment["CDMSEQ"] = server.environment["CDMSEQ"].replace("program", "another")
    (server.folder / "another").write_text((server.folder / "program").read_text().replace("always:1", "always:9"))
    (server.folder / "another").chmod(0o755)
    server.start()
    assert server.post(["FLT,AB1,5"], Cdm_Role="AP", key="k")[0]["position"] == 1


def never_reads(server, request, until_it):
    """Sends again and again without reading, until it is cut off or something is so."""
    with socket.create_connection(("127.0.0.1", server.port)) as own:
        own.settimeout(0.5)
        sent, end = 0, time.monotonic() + 15
        try:
            while time.monotonic() < end and sent < 200 << 20 and not until_it():
                try:
                    sent += own.send(request)
                except TimeoutError:
                    pass
        except OSError:
            return sent
        return sent


@pytest.mark.parametrize("what", ["requests", "headers", "bodies"])
def test_what_comes_on_a_connection_is_bounded(board, what):
    """Requests behind each other, headers that never end, a body that never ends: the memory stays."""
    server = board()
    request = {"requests": b"GET /health HTTP/1.1\r\nHost: localhost\r\n\r\n" * 1000,
               "headers": b"GET /health HTTP/1.1\r\nHost: localhost\r\n" + b"A: b\r\n" * 10_000,
               "bodies": b"POST /v1/records HTTP/1.1\r\nHost: localhost\r\nCdm-Role: AP\r\nContent-Length: 1000000000\r\n\r\n" + b"A" * 65536}[what]
    before = server.memory()
    sent = never_reads(server, request, lambda: False)
    assert server.memory() < before + 20 and sent < 40 << 20
    assert server.get("/health").status == 200


def test_an_address_has_so_many_connections_and_headers_so_long(board):
    """100, and 10 seconds; the others are answered meanwhile."""
    server, began = board(), time.monotonic()
    idle = [socket.create_connection(("127.0.0.1", server.port), source_address=("127.0.0.7", 0)) for _ in range(101)]
    idle[-1].settimeout(3)
    with pytest.raises(ConnectionError):
        raise ConnectionError if idle[-1].recv(1) == b"" else TimeoutError
    for number, own in enumerate(idle[:-1]):
        own.sendall(b"GET /health HTTP/1.1\r\nA: b\r\n" if number % 2 else b"")
    assert server.get("/health").status == 200 and time.monotonic() - began < 5 * FACTOR
    for own in idle[:-1]:
        own.settimeout(10 + 5 * FACTOR)
        try:
            assert own.recv(1) == b""
        except ConnectionError:
            pass
    assert 9 < time.monotonic() - began < 10 + 6 * FACTOR and server.get("/health").status == 200


def test_a_display_that_never_reads_is_cut_off(board):
    """1 MiB unsent is enough."""
    server = board()
    for role, line in (("AP", "FLT,AB{},5"), ("ATC", "RWY,AB{},27L"), ("AO", f"TOBT,AB{{}},{moment(400)}")):
        server.post([line.format(number) for number in range(80)], Cdm_Role=role)
    before = server.memory()
    with socket.create_connection(("127.0.0.1", server.port)) as own:
        own.setsockopt(socket.SOL_SOCKET, socket.SO_RCVBUF, 4096)
        own.sendall(b"GET /v1/events HTTP/1.1\r\nHost: localhost\r\n\r\n")
        until(lambda: server.metric("cdm_displays") == 1)
        window, number = f"27L,{moment(400)},{moment(600)}", 0
        while server.metric("cdm_displays") == 1 and number < 150:
            server.post([f"CLOSE,{window}", f"OPEN,{window}"], Cdm_Role="ATC")
            number += 1
            # So much at once would be a `reset`, which is short.
            time.sleep(0.02)
        until(lambda: server.metric("cdm_displays") == 0)
    assert server.memory() < before + 40


def test_what_is_kept_of_replies_is_bounded(board):
    """`changes` is kept for the last 2,000 records, and is null before."""
    server = board({f"ap{desk}": 'role = "AP"' for desk in range(9)})
    for desk in range(9):
        assert len(server.post([f"FLT,F{desk}X{number},5" for number in range(256)], f"ap{desk}", "k")) == 256
    kept = server.records("ap0")
    assert [record["position"] for record in kept if record.get("changes") is not None][0] == 305
    assert len(kept) == 2304
    again = server.post([f"FLT,F0X{number},5" for number in range(256)], "ap0", "k")
    assert [reply["position"] for reply in again] == list(range(1, 257)) and again[0]["changes"] is None


def test_waiting_for_a_position_that_never_comes_ends(board):
    """After two seconds, and nothing is kept of it."""
    server = board()
    began = time.monotonic()
    with concurrent.futures.ThreadPoolExecutor(20) as pool:
        answers = list(pool.map(lambda number: server.get("/v1/plan", Cdm_After=str(number)), range(1000, 1020)))
    assert {answer.status for answer in answers} == {503} and 1.9 < time.monotonic() - began < 2 + 2 * FACTOR
    server.post(["FLT,AB1,5"], Cdm_Role="AP")
    assert server.get("/v1/plan", Cdm_After="1").status == 200
    assert server.request("POST", "/v1/compare", "", Cdm_After="999").status == 503
