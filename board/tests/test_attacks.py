"""What a stranger, a desk gone wrong or a broken machine may try: each of these fails without a line of the server."""
import asyncio
import concurrent.futures
import contextlib
import gzip
import http.client
import json
import os
import pathlib
import re
import signal
import socket
import sqlite3
import subprocess
import time

import pytest
from conftest import AIRPORT, FACTOR, PROGRAM, ROOT, certificates, moment, objects, until
from test_nobody_else import hang_up, login
from test_start import ENVIRONMENT, cdmboard
from test_views import Display

DESKS = {"gh": 'role = "GH"', "ap": 'role = "AP"', "atc": 'role = "ATC"', "screen": 'role = "READ"'}


def raw(server, text, source="127.0.0.1", seconds=5.0):
    """What comes back on one connection, until it is closed or nothing comes."""
    with socket.create_connection(("127.0.0.1", server.port), source_address=(source, 0)) as own:
        own.settimeout(seconds)
        own.sendall(text)
        answer = b""
        try:
            while more := own.recv(65536):
                answer += more
        except OSError:
            pass
        return answer


def statuses(answer):
    return [int(status) for status in re.findall(rb"HTTP/[0-9.]+ ([0-9]{3})", answer)]


# Questions


def test_a_question_waits_for_its_own_desk_s_alone(board):
    """One desk has many slow questions, the last of them the tower's own: nobody else is behind them."""
    server = board(DESKS, faulty="slow:0.4")
    server.post(["FLT,AB1,5"], "ap")
    with concurrent.futures.ThreadPoolExecutor(12) as pool:
        slow = [pool.submit(server.request, "POST", "/v1/what-if", f"SCENARIO,X{number}\nTOBT,AB1,{moment(500)}\n", "gh") for number in range(6)]
        time.sleep(0.4)
        last = pool.submit(server.get, "/v1/why/AB1", "gh")
        time.sleep(0.2)
        # Neither another desk, whose question is its own, nor the tower, whose question is the same as one that waits.
        for desk, path in (("ap", "/v1/why/AB1.json"), ("atc", "/v1/why/AB1")):
            assert server.get(path, desk).status == 200
            assert not all(one.done() for one in slow), desk
        assert last.result().status == 200 and {one.result().status for one in slow} == {200}


def test_who_has_no_desk_asks_one_question_at_a_time(board):
    """From however many addresses: a desk's question waits for one of them at most."""
    server = board(DESKS, start=False, faulty="slow:0.4")
    server.write_desks(DESKS, read="anyone")
    server.start()
    server.post([f"FLT,AB{number},5" for number in range(30)], "ap")

    def ask(number):
        connection = http.client.HTTPConnection("127.0.0.1", server.port, timeout=60, source_address=(f"127.0.3.{number + 1}", 0))
        connection.request("GET", f"/v1/why/AB{number}")
        return connection.getresponse().status
    with concurrent.futures.ThreadPoolExecutor(12) as pool:
        nameless = [pool.submit(ask, number) for number in range(7)]
        time.sleep(0.6)
        most = max((sum("why" in words for words in server.processes().values()), time.sleep(0.1))[0] for _ in range(10))
        assert server.get("/v1/why/AB1", "atc").status == 200
        assert most == 1 and not all(one.done() for one in nameless)
        # On a busy machine the last of them may wait too long for its place.
        assert {one.result() for one in nameless} <= {200} | ({503} if FACTOR > 1 else set())


def test_equal_questions_are_one_process(board):
    """Those of one moment, whoever asks, also in a row."""
    server = board(DESKS, start=False)
    asked = server.folder / "asked"
    wrapper = server.folder / "counting"
    wrapper.write_text(f'#!/bin/sh\ncase $1 in why) echo >> {asked}; sleep 0.5;; esac\nexec {PROGRAM} "$@"\n')
    wrapper.chmod(0o755)
    server.environment["CDMSEQ"] = str(wrapper)
    server.start()
    server.post(["FLT,AB1,5"], "ap")
    with concurrent.futures.ThreadPoolExecutor(12) as pool:
        same = list(pool.map(lambda desk: server.get("/v1/why/AB1", desk).status, ["gh", "ap", "atc", "screen"] * 3))
    assert same == [200] * 12 and len(asked.read_text()) == 1


def test_a_question_does_not_outlive_the_server(board):
    """KILL the server: what runs for it ends."""
    server = board(start=False)
    slow = server.folder / "slow"
    slow.write_text(f'#!/bin/sh\ncase $1 in why) exec sleep 98.125;; esac\nexec {PROGRAM} "$@"\n')
    slow.chmod(0o755)
    server.environment["CDMSEQ"] = str(slow)
    server.start()
    with concurrent.futures.ThreadPoolExecutor(1) as pool:
        pool.submit(server.get, "/v1/why/AB1")
        until(lambda: any("98.125" in words for words in server.processes().values()))
        asked = next(number for number, words in server.processes().items() if "98.125" in words)
        server.kill()
        until(lambda: not os.path.exists(f"/proc/{asked}"), 3)


def test_what_a_killed_server_leaves(board):
    """Its sequencer ends with it, and the next start removes its folder in memory."""
    server = board()
    log = json.loads(server.get("/v1/who").body)["log"]
    folders = lambda: {name for name in os.listdir("/dev/shm") if name.startswith(f"cdmboard-{log}-")}
    (first,), (sequencer,) = folders(), server.sequencers()
    server.kill()
    until(lambda: not os.path.exists(f"/proc/{sequencer}"), 3)
    assert folders() == {first}
    server.start()
    assert len(folders()) == 1 and first not in folders()


def test_a_question_that_is_killed_is_503(board):
    """As where memory runs out; the next one is answered."""
    server = board(faulty="slow:2")
    server.post(["FLT,AB1,5"], Cdm_Role="AP")
    with concurrent.futures.ThreadPoolExecutor(1) as pool:
        asked = pool.submit(server.get, "/v1/why/AB1")
        until(lambda: any("why" in words for words in server.processes().values()))
        for number, words in server.processes().items():
            if "why" in words:
                os.kill(number, signal.SIGKILL)
        assert asked.result().status == 503
    assert server.get("/v1/why/AB1").status == 200


@pytest.mark.parametrize("log_engine", ["PostgreSQL"], indirect=True)
def test_no_room_for_a_question_is_503(board):
    """Its files can't be written, as where memory is full: 503, and records go on."""
    server = board(DESKS)
    # From here on no file of the server may have more; the log is elsewhere.
    subprocess.run(["prlimit", "--pid", str(server.process.pid), "--fsize=64000"], check=True)
    answer = server.request("POST", "/v1/what-if", b"A" * 65_000, "gh")
    assert answer.status == 503 and answer.headers["Retry-After"]
    assert server.post(["FLT,AB1,5"], "ap")[0]["reply"] == "ACCEPTED" and server.get("/v1/plan", "gh").status == 200


# Memory


def test_a_body_has_so_many_bytes(board):
    """64 KiB and none more: versions of aiohttp differ by one, and in what they say of it."""
    server = board(DESKS)
    answers = [server.request("POST", "/v1/records", b"A" * size, "ap") for size in (65_536, 65_537, 65_538)]
    assert [answer.status for answer in answers] == [400, 413, 413]
    assert [json.loads(answer.body)["detail"] for answer in answers[1:]] == ["a body has at most 64 KiB"] * 2


@pytest.fixture
def large(board, tmp_path):
    """A day of 2,000 flights, whose plan is long."""
    server = board(DESKS | {"tower": 'role = "ATC"'}, start=False)
    (tmp_path / "feed.csv").write_text("".join(f"AP,FLT,F{number},5\nAO,TOBT,F{number},{moment(400)}\n" for number in range(2000)))
    assert cdmboard("import", server.airport, server.log, tmp_path / "feed.csv").returncode == 0
    return server.start()


def test_answers_that_are_not_read_are_bounded(large):
    """One desk asks from many connections and reads nothing: it is told to, and others are answered."""
    before, open_ones = large.memory(), []
    ask = b"GET /v1/plan.json HTTP/1.1\r\nHost: localhost\r\nAuthorization: Bearer token-gh\r\n\r\n" * 8
    size = len(large.get("/v1/plan.json", "gh").body)
    assert size > 300_000
    for number in range(270):
        own = socket.socket()
        own.setsockopt(socket.SOL_SOCKET, socket.SO_RCVBUF, 4096)
        own.bind((f"127.0.4.{1 + number // 90}", 0))
        own.connect(("127.0.0.1", large.port))
        own.sendall(ask)
        open_ones.append(own)
    until(lambda: large.get("/v1/plan.json", "gh").status == 429)
    assert large.get("/v1/plan.json", "tower").status == 200
    assert large.memory() < before + 250
    for own in open_ones:
        own.close()
    until(lambda: large.get("/v1/plan.json", "gh").status == 200)


def test_the_log_is_read_in_pieces(board):
    """However large its replies are: an answer is about 1 MiB at most, and the next one goes on behind it."""
    server = board()
    for role, line in (("AP", "FLT,AB{},5"), ("ATC", "RWY,AB{},27L"), ("AO", f"TOBT,AB{{}},{moment(400)}")):
        server.post([line.format(number) for number in range(90)], Cdm_Role=role)
    window = f"27L,{moment(400)},{moment(600)}"
    for _ in range(3):
        server.post([f"CLOSE,{window}", f"OPEN,{window}"] * 40, Cdm_Role="ATC")
    whole = server.get("/v1/records").body
    assert (1 << 20) - 40_000 < len(whole) <= 1 << 20
    records = server.records()
    assert [record["position"] for record in records] == list(range(1, 511)) and len(records) > len(objects(whole))


def test_displays_share_what_may_be_unsent():
    """5,000 of them that don't read, each below its own bound: those that have most are cut off."""
    from board.events import MOST_UNSENT_OF_ALL, Events, Stream

    class Transport(asyncio.Transport):
        def __init__(self, unsent):
            self.unsent, self.is_cut = unsent, False

        def get_write_buffer_size(self):
            return self.unsent

        def abort(self):
            self.is_cut = True

        def is_closing(self):
            return False

        def write(self, data):
            pass

    class Day:
        records, starts, position, kept_behind, at = [], 0, 0, staticmethod(lambda position: []), staticmethod(lambda position: "")
    for count, are_cut in ((5000, True), (100, False)):
        events = Events("0", Day())
        transports = [Transport(900_000 if number % 2 else 10) for number in range(count)]
        from board.desks import Desk
        events.streams |= {Stream(None, Desk("screen", "READ"), transport, asyncio.Event()) for transport in transports}
        asyncio.run(events._write())
        assert [transport.is_cut for transport in transports] == [are_cut and transport.unsent > 10 for transport in transports]
        assert not are_cut or sum(transport.unsent for transport in transports if not transport.is_cut) < MOST_UNSENT_OF_ALL


def test_displays_are_written_to_in_turns(monkeypatch):
    """So that what a desk waits for comes in between, however many displays there are."""
    from board import events as module
    from board.day import Day
    from board.desks import Desk
    from board.words import Kinds
    order = []

    class Transport:
        def get_write_buffer_size(self):
            return 0

        def is_closing(self):
            return False

        def write(self, data):
            order.append("display")

    async def talk():
        events = module.Events("0", Day(Kinds(b""), [], {}))
        events.streams |= {module.Stream(None, Desk("screen", "READ"), Transport(), asyncio.Event()) for _ in range(200)}
        writing = asyncio.create_task(events._write())
        while not writing.done():
            order.append("desk")
            await asyncio.sleep(0)
    asyncio.run(talk())
    turns = [len(turn.split()) for turn in " ".join(order).split("desk")]
    assert sum(turns) == 200 and max(turns) == module.IN_A_TURN == 25


def test_a_silent_day_is_no_silent_stream(board):
    """A comment comes where nothing else does, so that a display knows a dead connection."""
    server = board(DESKS, start=False)
    server.collect("from board import events; events.COMMENT = 0.5")
    server.start()
    with socket.create_connection(("127.0.0.1", server.port)) as own:
        own.settimeout(10)
        own.sendall(b"GET /v1/events HTTP/1.1\r\nHost: localhost\r\nAuthorization: Bearer token-ap\r\n\r\n")
        told = b""
        while told.count(b"\r\n:\n") < 4:
            told += own.recv(65536)
    assert b"event: reply" not in told


def test_an_end_at_the_moment_of_a_reply():
    """What writes events ends when it is told to, however close a reply comes."""
    from board.events import Events

    async def ended(steps):
        class Day:
            records, starts, changed = [], 0, asyncio.Event()
        task = asyncio.create_task(Events("0", Day()).run())
        await asyncio.sleep(0.02)
        Day.changed.set()
        for _ in range(steps):
            await asyncio.sleep(0)
        task.cancel()
        done, _ = await asyncio.wait([task], timeout=1)
        task.cancel()
        return bool(done)
    assert [asyncio.run(ended(steps)) for steps in range(6)] == [True] * 6


# What can be read in two ways


TWICE = [("Host", "localhost"), ("Origin", "http://localhost"), ("Authorization", "Bearer token-ap"), ("Idempotency-Key", "b"), ("Cdm-Role", "AP"),
         ("Cdm-After", "0"), ("Content-Type", "text/plain"), ("Content-Length", "9")]


def test_a_header_that_counts_comes_once(board):
    server = board(DESKS)
    once = [("Host", "localhost"), ("Origin", "http://localhost"), ("Authorization", "Bearer token-ap"), ("Idempotency-Key", "a"), ("Cdm-Role", "AP"),
            ("Cdm-After", "0"), ("Content-Type", "text/plain"), ("Content-Length", "9"), ("Connection", "close")]

    def answered(headers):
        lines = "".join(f"{name}: {value}\r\n" for name, value in headers)
        return statuses(raw(server, f"POST /v1/records HTTP/1.1\r\n{lines}\r\nFLT,AB1,5".encode()))
    for name, value in TWICE:
        assert answered([*once, (name, value)]) == [400], name
    assert server.records("ap") == [] and answered(once) == [200]


SMUGGLED = b"POST /v1/records HTTP/1.1\r\nHost: localhost\r\nAuthorization: Bearer token-ap\r\nContent-Length: 9\r\n\r\nFLT,AB2,5"
HEAD = b"POST /v1/records HTTP/1.1\r\nHost: localhost\r\nAuthorization: Bearer token-ap\r\n"


HIDDEN = [
    HEAD + b"Content-Length: 6\r\nTransfer-Encoding: chunked\r\n\r\n0\r\n\r\n" + SMUGGLED,
    HEAD + b"Transfer-Encoding: chunked\r\nContent-Length: 6\r\n\r\n0\r\n\r\n" + SMUGGLED,
    HEAD + b"Transfer-Encoding: identity\r\nContent-Length: 3\r\n\r\nFOO" + SMUGGLED,
    HEAD + b"Transfer-Encoding : chunked\r\nContent-Length: 5\r\n\r\n0\r\n\r\n" + SMUGGLED,
    HEAD + b"Transfer-Encoding: chunked, identity\r\n\r\n0\r\n\r\n" + SMUGGLED,
    HEAD + b"Content-Length: +3\r\n\r\nFOO" + SMUGGLED, HEAD + b"Content-Length: 3, 3\r\n\r\nFOO" + SMUGGLED,
    HEAD + b"Upgrade: x\r\nConnection: Upgrade\r\nContent-Length: 3\r\n\r\nFOO" + SMUGGLED,
    HEAD + b"Transfer-Encoding: chunked\r\n\r\n-3\r\nFOO\r\n0\r\n\r\n" + SMUGGLED,
    HEAD + b" Content-Length: 3\r\n\r\nFOO" + SMUGGLED, HEAD.replace(b"HTTP/1.1", b"HTTP/1.9 x") + b"Content-Length: 0\r\n\r\n" + SMUGGLED]


def test_no_request_hides_in_another(board):
    """What two programs could frame in two ways is refused, and what stands behind it is never read as a request."""
    server = board(DESKS)
    for text in HIDDEN:
        found = statuses(raw(server, text))
        assert found in ([400], []) and server.records("ap") == [], text
    assert statuses(raw(server, SMUGGLED.replace(b"Host", b"Connection: close\r\nHost"))) == [200]


MALFORMED = [b"<b> / HTTP/1.1\r\nHost: localhost\r\n\r\n", b"GET / HTTP/1.1\r\nHost: localhost\r\n<b>\r\n\r\n", b"<b>\r\n\r\n",
             b"\x16\x03\x01\x02\0\x01\0\x01\xfc\x03\x03<b>\r\n\r\n", b"GET / HTTP/1.1\r\nHost: localhost\r\n<b>: \0\r\n\r\n"]


def test_what_is_malformed_is_not_said_again(board):
    """In the answer or on standard error: aiohttp's own words repeat what came, and tell a traceback of each."""
    server = board(DESKS)
    for text in MALFORMED:
        answer = raw(server, text)
        assert statuses(answer) == [400] and answer.endswith(b"\r\n\r\nthe request is malformed"), (text, answer)
    assert server.told() == "" and server.get("/health").status == 200


def test_a_body_stands_as_it_is(board):
    """No Content-Encoding is undone, so a small body can't become a large one; chunks and trailers are read as they should be."""
    server, bomb = board(DESKS), gzip.compress(b"FLT,AB1,5\n" * 3_000_000, 9)
    status, peak = pathlib.Path(f"/proc/{server.process.pid}/status"), re.compile(r"VmHWM:\s+(\d+) kB")
    # What is unpacked is freed with its request, so its peak counts, which begins here.
    status.with_name("clear_refs").write_text("5")
    before = int(peak.search(status.read_text())[1])
    for encoding in ("gzip", "deflate", "br", "identity"):
        answer = server.post(bomb[:60_000] if encoding == "gzip" else b"FLT,AB1,5", "ap", Content_Encoding=encoding)
        assert not isinstance(answer, list) and answer.status == 400
    assert int(peak.search(status.read_text())[1]) < before + 10_000 and server.records("ap") == []
    chunks = HEAD + b"Transfer-Encoding: chunked\r\nTrailer: Cdm-Role\r\n\r\n3\r\nFLT\r\n6;x=y\r\n,AB1,5\r\n0\r\nCdm-Role: ATC\r\nIdempotency-Key: z\r\n\r\n"
    assert statuses(raw(server, chunks.replace(b"Host", b"Connection: close\r\nHost"))) == [200]
    assert [(record["role"], record["line"]) for record in server.records("ap")] == [("AP", "FLT,AB1,5")]


def test_old_and_odd_requests(board):
    """HTTP/1.0, HEAD, OPTIONS, TRACE, a whole address as the path, a path in percents."""
    server = board(DESKS)
    token = b"Host: localhost\r\nAuthorization: Bearer token-ap\r\nConnection: close\r\n\r\n"
    first = lambda line: raw(server, line + b"\r\n" + token).split(b"\r\n", 1)[0].split()[1]
    assert first(b"GET /v1/plan HTTP/1.0") == b"200" and first(b"GET /v1/events HTTP/1.0") == b"505"
    assert first(b"OPTIONS /v1/plan HTTP/1.1") == first(b"TRACE /v1/plan HTTP/1.1") == b"405" and first(b"OPTIONS * HTTP/1.1") in (b"400", b"404")
    assert first(b"GET /%76%31/plan HTTP/1.1") == first(b"GET /v1%2Fplan HTTP/1.1") == first(b"GET /%6detrics HTTP/1.1") == b"404"
    assert raw(server, b"GET /%6detrics HTTP/1.1\r\nHost: localhost\r\nConnection: close\r\n\r\n").split()[1] in (b"401", b"404")
    head = raw(server, b"HEAD /v1/plan HTTP/1.1\r\n" + token)
    assert head.startswith(b"HTTP/1.1 200") and head.endswith(b"\r\n\r\n") and b"Cdm-Position: 0" in head
    assert first(b"GET http://localhost/v1/plan HTTP/1.1") == b"200"
    assert raw(server, b"GET /v1/plan HTTP/1.0\r\n\r\n").split()[1] == b"421"


def test_an_answer_stays_on_its_site(board):
    """Also where another site's page asks for it without saying so."""
    assert board().get("/v1/plan.json").headers["Cross-Origin-Resource-Policy"] == "same-origin"


def test_no_version_is_told(board):
    """Of Python or of a library, by which one knows what else to try."""
    server = board()
    asked = {b"POST /v1/session HTTP/1.1\r\nHost: localhost\r\nConnection: close\r\nExpect: x\r\nContent-Length: 1\r\n\r\na": 417,
             b"GET / HTTP/1.1\r\nBad\r\n\r\n": 400, b"GET /v1/events HTTP/1.1\r\nHost: localhost\r\n\r\n": 200,
             b"GET /nix HTTP/1.1\r\nHost: localhost\r\nConnection: close\r\n\r\n": 404}
    told = {text: raw(server, text, seconds=2 * FACTOR) for text in asked}
    assert {text: statuses(answer) for text, answer in told.items()} == {text: [status] for text, status in asked.items()}
    assert {tuple(re.findall(rb"(?i)\r\nServer: (.*?)\r\n", answer)) for answer in told.values()} == {(b"cdmboard",)}


# Rights that end


def test_a_display_ends_with_its_token(board):
    """Also where its desk stays: another token, another role. So does a display that came by a cookie."""
    server = board(DESKS)
    cookie = login(server, "gh")
    old, other = Display(server, "gh"), Display(server, "ap")
    with socket.create_connection(("127.0.0.1", server.port)) as by_cookie:
        by_cookie.settimeout(5)
        by_cookie.sendall(f"GET /v1/events HTTP/1.1\r\nHost: localhost\r\nCookie: {cookie}\r\n\r\n".encode())
        until(lambda: server.metric("cdm_displays", "ap") == 3)
        path = server.folder / "desks.toml"
        lines = path.read_text().replace('role = "AP"', 'role = "AO"').splitlines()
        lines = [line for line in lines if line != ""]
        lines[lines.index("[desk.gh]") + 1] = f'token = "sha256:{"0" * 64}"'
        path.write_text("\n".join(lines))
        stays = Display(server, "screen")
        hang_up(server)
        assert old.ends() and other.ends() and not stays.ends()
        while more := by_cookie.recv(65536):
            assert b"event: reply" not in more
    assert server.get("/v1/who", Cookie=cookie).status == 401 and json.loads(server.get("/v1/who", "ap").body)["role"] == "AO"


def test_who_loses_the_right_while_the_body_comes(board):
    server = board(DESKS)
    with socket.create_connection(("127.0.0.1", server.port)) as own:
        own.settimeout(5)
        own.sendall(HEAD + b"Content-Length: 9\r\n\r\nFLT,")
        time.sleep(0.2)
        server.write_desks({name: table for name, table in DESKS.items() if name != "ap"})
        hang_up(server)
        own.sendall(b"AB1,5")
        assert own.recv(65536).startswith(b"HTTP/1.1 401")
    assert server.records("gh") == []


# The last updates


def test_the_tower_s_last_updates_are_not_taken_in_a_rush(board, tmp_path):
    """Many bodies just before the 18,000th update, while the sequencer is slow: one of them is taken, the others have to wait."""
    server = board({f"gh{number}": 'role = "GH"' for number in range(6)} | {"atc": 'role = "ATC"'}, start=False)
    (tmp_path / "feed.csv").write_text("AP,FLT,F1,5\n" + "".join(f"AO,TOBT,F1,{moment(300 + number % 1000)}\n" for number in range(17_998)))
    assert cdmboard("import", server.airport, server.log, tmp_path / "feed.csv").returncode == 0
    server.start()
    os.kill(server.sequencers()[0], signal.SIGSTOP)
    body = [f"TOBT,F1,{moment(400)}"] * 200
    with concurrent.futures.ThreadPoolExecutor(6) as pool:
        first = pool.submit(server.post, body, "gh0")
        with contextlib.closing(sqlite3.connect(server.log)) as log:
            until(lambda: log.execute("SELECT count(*) FROM cdm_record").fetchone() == (18_199,))
        assert [server.post(body, f"gh{number}").status for number in range(1, 6)] == [429] * 5
        os.kill(server.sequencers()[0], signal.SIGCONT)
        assert first.result()[-1]["accepted"] == 18_199
    assert server.post(body, "gh1").status == 403
    assert server.post(["PRIO,F1,3"], "atc")[0]["accepted"] == 18_200


# The log and the machine


def test_a_log_has_one_server_whatever_it_is_called(board, tmp_path):
    """A second name of its file, and a lock that somebody took away."""
    server = board(DESKS)
    other, symbolic = tmp_path / "other.db", tmp_path / "symbolic.db"
    os.link(server.log, other)
    symbolic.symlink_to(server.log)
    for name in (other, symbolic):
        ended = cdmboard(server.airport, name)
        assert ended.returncode == 3 and "is served by another" in ended.stderr, name
    os.remove(f"{server.log}.lock")
    ended = cdmboard(server.airport, server.log)
    assert ended.returncode == 3 and "is served by another" in ended.stderr
    assert server.post(["FLT,AB1,5"], "ap")[0]["position"] == 1


CHANGES = ["UPDATE cdm_record SET line = 'FLT,AB1,5' || char(10) || 'ATC,CLOSE,27L' WHERE position = 2", "DELETE FROM cdm_record WHERE position = 2",
           "UPDATE cdm_record SET role = 'AP,FLT,X,5' || char(10) || 'AP' WHERE position = 2", "UPDATE cdm_record SET line = '' WHERE position = 2",
           "UPDATE cdm_record SET line = char(233) WHERE position = 2", "UPDATE cdm_record SET role = 'XX' WHERE position = 2"]


def test_a_log_that_was_changed_is_not_served(board, tmp_path):
    """A row that isn't one line of one role, or isn't there, is never handed on."""
    server = board(DESKS)
    server.post(["FLT,AB1,5", "FLT,AB2,5", "FLT,AB3,5"], "ap")
    assert server.end() == 0
    for number, change in enumerate(CHANGES):
        copy = tmp_path / f"{number}.db"
        copy.write_bytes(server.log.read_bytes())
        with sqlite3.connect(copy) as database:
            database.execute(change)
        database.close()
        ended = cdmboard(server.airport, copy)
        assert ended.returncode == 3 and "position 2 is" in ended.stderr, change
        assert cdmboard("export", copy).returncode == 3


def test_a_row_that_is_two_lines_is_never_handed_on(board):
    """Written to the log's file while it is served: the server ends, and the sequencer has had neither line."""
    server = board(DESKS)
    server.post(["FLT,AB1,5"], "ap")
    with sqlite3.connect(server.log, timeout=10) as database:
        database.execute("INSERT INTO cdm_record SELECT board, 2, desk, NULL, 0, 1, role, 'FLT,AB2,5' || char(10) || 'ATC,PRIO,AB1,1', at FROM cdm_record")
    database.close()
    with pytest.raises(OSError):
        server.post(["FLT,AB3,5"], "ap")
        raise ConnectionError
    assert server.process.wait(20) == 3 and "position 2" in server.told()
    with sqlite3.connect(server.log) as database:
        database.execute("DELETE FROM cdm_record WHERE position = 2")
        database.execute("UPDATE cdm_record SET position = 2 WHERE position = 3")
    database.close()


def test_what_the_sequencer_inherits(board):
    """Its own files and the standard ones: neither the log nor a connection."""
    server = board(DESKS)
    with socket.create_connection(("127.0.0.1", server.port)):
        server.post(["FLT,AB1,5"], "ap")
        for sequencer in server.sequencers():
            files = [os.readlink(f"/proc/{sequencer}/fd/{number}") for number in os.listdir(f"/proc/{sequencer}/fd") if int(number) > 2]
            assert files and all("/dev/shm/cdmboard-" in file or "/board/tests/" in file for file in files), files


def test_a_signal_while_it_starts(board):
    """HUP is no end; TERM is one, with status 0, and nothing is left in memory."""
    server = board(start=False)
    slow = server.folder / "slow"
    slow.write_text(f'#!/bin/sh\ncase $1 in plan) touch {server.folder}/planning; sleep 1.5;; esac\nexec {PROGRAM} "$@"\n')
    slow.chmod(0o755)
    server.environment["CDMSEQ"] = str(slow)
    with concurrent.futures.ThreadPoolExecutor(1) as pool:
        started = pool.submit(server.start)
        until(lambda: server.process is not None)
        words = pathlib.Path(f"/proc/{server.process.pid}/cmdline")
        until(lambda: b"-m\0board\0" in words.read_bytes())
        while not started.done():
            server.process.send_signal(signal.SIGHUP)
            time.sleep(0.03)
        assert started.result().get("/health").status == 200
    assert server.end() == 0
    (server.folder / "planning").unlink()
    words = [str(server.airport), str(server.log), "--listen", "127.0.0.1:0"]
    process = subprocess.Popen([str(ROOT / "cdmboard"), *words], env=server.environment)
    until((server.folder / "planning").exists)
    process.terminate()
    assert process.wait(5) == 0
    with sqlite3.connect(server.log) as database:
        log_id, = database.execute("SELECT id FROM cdm_log").fetchone()
    database.close()
    assert not [name for name in os.listdir("/dev/shm") if name.startswith(f"cdmboard-{log_id}")]


def test_connections_count_before_they_are_sealed(board):
    """100 of an address that never begin TLS; and a key that isn't the certificate's spoils neither what is in use nor the desks."""
    import ssl
    server = board(DESKS, start=False)
    certificates(server.folder)
    used = [server.folder / "used.crt", server.folder / "used.key"]
    for path, name in zip(used, ("one.crt", "one.key")):
        path.write_bytes((server.folder / name).read_bytes())
    server.options += ["--tls", *map(str, used)]
    server.start()
    silent = [socket.create_connection(("127.0.0.1", server.port), source_address=("127.0.0.9", 0)) for _ in range(101)]
    silent[-1].settimeout(3)
    with pytest.raises(ConnectionError):
        raise ConnectionError if silent[-1].recv(1) == b"" else TimeoutError

    def who(desk):
        trusted = ssl.create_default_context(cafile=server.folder / "one.crt")
        connection = http.client.HTTPSConnection("127.0.0.1", server.port, context=trusted, timeout=10)
        connection.request("GET", "/v1/who", headers={"Authorization": f"Bearer token-{desk}"})
        return connection.getresponse().status
    assert who("gh") == 200
    for own in silent:
        own.close()
    used[0].write_bytes((server.folder / "two.crt").read_bytes())
    server.write_desks({name: table for name, table in DESKS.items() if name != "gh"})
    hang_up(server)
    assert "the old one stays" in server.told()
    assert who("ap") == 200 and who("gh") == 401


def test_a_port_that_is_none_is_status_2(tmp_path):
    (tmp_path / "airport.csv").write_text(AIRPORT)
    for port in ("65536", "-1", "x", "99999999999"):
        ended = cdmboard(tmp_path / "airport.csv", tmp_path / "day.db", "--listen", f"127.0.0.1:{port}", environment=ENVIRONMENT)
        assert ended.returncode == 2 and "Traceback" not in ended.stderr
