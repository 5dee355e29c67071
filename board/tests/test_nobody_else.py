"""Nobody else: who hasn't the right is refused before the log, and says nothing for anybody."""
import collections
import concurrent.futures
import contextlib
import json
import socket
import time

import pytest
from conftest import FACTOR, count, moment, objects

DESKS = {"ao": 'role = "AO"\nflights = ["DLH", "EWG"]', "gh": 'role = "GH"', "ap": 'role = "AP"', "atc": 'role = "ATC"\nclock = true',
         "nm": 'role = "NM"', "screen": 'role = "READ"', "small": 'role = "AP"\nrecords = 5'}


@pytest.fixture
def server(board):
    server = board(DESKS)
    server.post(["FLT,DLH1,5", "FLT,BAW1,5"], "ap")
    return server


def test_without_a_token_nobody_speaks_or_reads(server):
    for path in ("/v1/plan", "/v1/records", "/v1/who", "/v1/events", "/v1/journal.csv", "/metrics"):
        assert server.get(path).status == 401
        assert server.get(path, "nobody").status == 401
        assert server.get(path, Authorization="Basic YXA6dG9rZW4tYXA=").status == 401
    assert server.post(["FLT,DLH2,5"], "nobody").status == 401 and server.post(["FLT,DLH2,5"], Cdm_Role="AP").status == 401
    assert server.post(["FLT,DLH2,5"], "screen").status == 403
    assert server.get("/health").status == 200 and server.get("/v1/plan", "screen").status == 200
    told = [line for line in server.told().splitlines() if " 401" in line]
    assert len(told) == 20 and "127.0.0.1" in told[0] and "'/v1/plan'" in told[0] and "token-" not in server.told()
    assert len(server.records("ap")) == 2


def test_an_operator_sends_for_its_own_flights(server):
    assert server.post(["TOBT,DLH1," + moment(400)], "ao")[0]["reply"] == "ACCEPTED"
    for line in ("TOBT,BAW1," + moment(400), "CLOCK," + moment(400), "TOBT,", "TOBT", "tobt,DLH1", " TOBT,DLH1", "FOO,DLH1", "CLOSE,DLH,a,b",
                 "DLH1", "TOBT,dlh1"):
        answer = server.post(["TOBT,DLH1," + moment(410), line], "ao")
        assert answer.status == 403 and json.loads(answer.body)["line"] == 2
    assert len(server.records("ap")) == 3


def test_the_clock_is_the_tower_s(server):
    assert server.post(["CLOCK," + moment(400)], "gh").status == 403
    assert server.post(["CLOCK," + moment(400)], "atc")[0]["reply"] == "ACCEPTED"
    ahead = time.strftime("%Y-%m-%dT%H:%MZ", time.gmtime(time.time() + 420))
    assert server.post(["CLOCK," + ahead], "atc").status == 403
    assert server.post(["CLOCK,6 o'clock"], "atc")[0]["word"] == "TEXT"


def test_a_desk_has_so_many_records(server):
    assert len(server.post(["FOO"] * 4, "small", "k")) == 4
    assert server.post(["FOO"] * 2, "small").status == 403
    assert len(server.post(["FOO"] * 4, "small", "k")) == 4
    assert json.loads(server.get("/v1/who", "small").body)["left"] == 1
    assert len(server.records("ap")) == 6


def test_a_page_of_another_site_says_nothing(server):
    cookie = login(server)
    for origin in ("http://evil.example", "null", f"https://127.0.0.1:{server.port}", "http://127.0.0.1:1"):
        assert server.post(["FLT,X1,5"], Cookie=cookie, Origin=origin).status == 403
        assert server.get("/v1/plan", Cookie=cookie, Origin=origin).status == 403
        assert server.get("/health", Origin=origin).status == 403
    assert server.post(["FLT,X1,5"], Cookie=cookie, Origin=f"http://127.0.0.1:{server.port}")[0]["reply"] == "ACCEPTED"
    for host in ("evil.example", "127.0.0.1.evil.example", f"evil.example:{server.port}", "", "[::2]"):
        assert server.get("/v1/plan", "ap", Host=host).status in (400, 421)
    assert server.get("/health", Host="evil.example").status == 200
    assert server.get("/v1/plan", "ap", Host="localhost").status == 200


def login(server, desk="ap"):
    answer = server.request("POST", "/v1/session", json.dumps({"desk": desk, "token": f"token-{desk}"}))
    assert answer.status == 204
    kept = answer.headers["Set-Cookie"]
    assert "HttpOnly" in kept and "SameSite=Strict" in kept and "Max-Age=43200" in kept and "Secure" not in kept
    return kept.partition(";")[0]


def test_a_cookie_is_of_one_desk_and_ends(server):
    cookie = login(server)
    assert objects(server.get("/v1/who", Cookie=cookie).body)[0]["desk"] == "ap"
    name, _, value = cookie.partition("=")
    desk, number, began, signed = value.split(".")
    later = began[:-1] + chr(ord(began[-1]) ^ 1)
    for wrong in (f"atc.{number}.{began}.{signed}", f"ap.{number}.{later}.{signed}", f"ap.{number}.{began}.{signed[::-1]}", f"ap.1.{began}.{signed}",
                  f"ap.{began}.{signed}", f"ap.{number}.{began}.", "ap", "..", "...", "", "ap.0.%ff.\xff"):
        assert server.get("/v1/who", Cookie=f"{name}={wrong}").status == 401, wrong
    for body in ('{"desk":"ap","token":"token-atc"}', '{"desk":"ap","token":"x"}'):
        assert server.request("POST", "/v1/session", body).status == 401
    for body in ("", "[]", "{", '{"desk":"ap"}', '{"desk":1,"token":2}', "\xff", "[" * 60_000, '{"desk":"ap","token":"\\ud800"}'):
        assert server.request("POST", "/v1/session", body).status == 400, body
    # A new token ends what was signed by the old one.
    text = (server.folder / "desks.toml").read_text()
    server.write_desks({name: table for name, table in DESKS.items() if name != "ap"})
    hang_up(server)
    assert server.get("/v1/who", Cookie=cookie).status == 401 and server.get("/v1/who", "ap").status == 401
    (server.folder / "desks.toml").write_text(text.replace("sha256:", "sha512:"))
    hang_up(server)
    assert server.get("/v1/who", "atc").status == 200 and "the old one stays" in server.told()


def hang_up(server):
    import signal
    server.process.send_signal(signal.SIGHUP)
    time.sleep(0.3 * FACTOR)


PATHS = ["/../desks.toml", "/..%2fdesks.toml", "/%2e%2e/log.py", "/page/../log.py", "//etc/passwd", "/.hidden", "/v1/why/..%2f..", "/v1/why/--help",
         "/v1/load/--format", "/v1/why/AB1%00", "/v1/plan/x", "/v1/plan.xml", "/v1/why", "/v1/next?minutes=-1", "/v1/causes?by=--help", "/v1/planning"]


def test_a_path_leads_nowhere_else(server):
    for path in PATHS:
        with socket.create_connection(("127.0.0.1", server.port)) as own:
            own.sendall(f"GET {path} HTTP/1.1\r\nHost: localhost\r\nAuthorization: Bearer token-ap\r\nConnection: close\r\n\r\n".encode())
            answer = b"".join(iter(lambda: own.recv(65536), b""))
        assert answer.split()[1] in (b"400", b"404"), path
        assert b"root:" not in answer and b"token" not in answer


def test_an_address_that_cannot_be_read_ends_the_connection(server):
    """Nothing is told of it, and nothing waits for its next request. A later aiohttp answers before the end."""
    answer = b""
    with socket.create_connection(("127.0.0.1", server.port)) as own:
        own.settimeout(5 * FACTOR)
        own.sendall(b"CONNECT /\xff HTTP/1.1\r\nHost: localhost\r\n\r\n")
        with contextlib.suppress(ConnectionError):
            answer = b"".join(iter(lambda: own.recv(65536), b""))
    assert answer == b"" or answer.split()[1] == b"400" and answer.endswith(b"the request is malformed")
    assert server.get("/health").status == 200 and "CONNECT" not in server.told()


PIECES = [b"FLT,", b"DLH9", b",5", b"\n", b"\r\n", b"\0", b'"', b"\xff", b"GH,", b" ", b"A" * 101, b"TOBT", b"\x1f"]
NAMES = [b"Host", b"Origin", b"Cookie", b"Content-Length", b"Transfer-Encoding", b"Idempotency-Key", b"Cdm-After", b"Cdm-Role", b"Upgrade",
         b"Content-Encoding", b"Last-Event-ID", b"If-None-Match", b"X-Forwarded-For", b"Expect", b"Connection", b"Range", b"Accept"]
ANYWHERE = [b"/v1/records", b"/v1/session", b"/v1/plan", b"/v1/what-if", b"/v1/why/DLH1?scenario=X", b"/v1/records?since=", b"/v1/records/1/sentence",
            b"/", b"/metrics", b"/v1/who", b"/v1/compare/X", b"/v1/records?flight=DLH1&desk=ap", b"*", b"/v1/records?desk=\xff\xfe",
            b"/v1/records?desk=%ff%00", b"/v1/why/\xff", b"/\xff", b"http://localhost/v1/plan"]


def random_request(chance, number):
    """One that is meant, of 50, as its text."""
    if chance.random() < 0.02:
        method, path, token, junk, body = b"POST", b"/v1/records", b"ap", b"", b"FLT,DLH%d,5" % (number + 10)
    else:
        method, path = chance.choice([b"POST", b"POST", b"GET", b"PUT", b"DELETE", b"HEAD", b"FOO"]), chance.choice(ANYWHERE)
        token, body = chance.choice([b"ap", b"ao", b"atc"]), b"".join(chance.choice(PIECES) for _ in range(chance.randrange(8))) + b'"'
        signs = [range(256) if chance.random() < 0.3 else range(33, 127) for _ in range(chance.randrange(4))]
        junk = b"".join(b"%s: %s\r\n" % (chance.choice(NAMES), bytes(chance.choices(some, k=chance.randrange(30))).replace(b"\n", b"")) for some in signs)
    return b"%s %s HTTP/1.1\r\nHost: localhost\r\nAuthorization: Bearer token-%s\r\nConnection: close\r\n%sContent-Length: %d\r\n\r\n%s" % (
        method, path, token, junk, len(body), body)


def test_random_bodies_and_headers(server, chance):
    """Never a 500, never a record that wasn't meant."""
    def status_of(request):
        with socket.create_connection(("127.0.0.1", server.port)) as own:
            own.settimeout(1 if request.endswith(b'"') else 30)
            own.sendall(request)
            try:
                answer = own.recv(65536)
            except OSError:
                answer = b""
        status = answer.split()[1] if answer else b"none"
        assert status[:2] != b"50" or status in (b"503", b"504"), (request, answer)
        return status
    requests = [random_request(chance, number) for number in range(count("BOARD_RANDOM", 2000))]
    # Some wait a second for an answer that never comes.
    with concurrent.futures.ThreadPoolExecutor(16) as pool:
        statuses = list(pool.map(status_of, requests))
    print(collections.Counter(statuses))
    meant = [number for number, request in enumerate(requests) if request.endswith(b"FLT,DLH%d,5" % (number + 10))]
    records = server.records("ap")
    assert meant and [statuses[number] for number in meant] == [b"200"] * len(meant)
    assert sorted(record["line"] for record in records) == sorted(["FLT,BAW1,5", "FLT,DLH1,5", *(f"FLT,DLH{number + 10},5" for number in meant)])
    assert server.told().count("cdmboard: ") == 0
