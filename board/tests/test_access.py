"""Who is let in: sessions and their end, wrong tokens, the audit, connections."""
import asyncio
import contextlib
import hashlib
import hmac
import http.client
import json
import os
import socket
import sqlite3
import stat
import subprocess
import time

import clusters
import pytest
from conftest import AIRPORT, FACTOR, certificates, objects, until
from itsdangerous import TimestampSigner
from test_nobody_else import hang_up, login
from test_start import cdmboard
from test_views import Display

DESKS = {"gh": 'role = "GH"', "ap": 'role = "AP"', "atc": 'role = "ATC"', "screen": 'role = "READ"'}
HALF_A_DAY = 12 * 3600


def secret_of(log):
    """The log's id and its secret."""
    with contextlib.closing(sqlite3.connect(log)) as database:
        return database.execute("SELECT id, secret FROM cdm_log").fetchone()


def made(server, seconds=0, desk="atc", number=0, secret=None):
    """A cookie as whoever knows the secret would make it, signed so many seconds from now."""
    class Signer(TimestampSigner):
        def get_timestamp(self):
            return int(time.time()) + seconds
    log_id, own = secret_of(server.log)
    digest = hashlib.sha256(f"token-{desk}".encode()).hexdigest()
    signer = Signer(own if secret is None else secret, salt=f"cdm-session.{log_id}.{digest}", key_derivation="hmac", digest_method=hashlib.sha256)
    return f"cdm-{log_id}={signer.sign(f'{desk}.{number}').decode()}"


def display(server, cookie):
    """A display that comes by a cookie."""
    own = Display.__new__(Display)
    own.own = socket.create_connection(("127.0.0.1", server.port))
    own.own.sendall(f"GET /v1/events HTTP/1.1\r\nHost: localhost\r\nCookie: {cookie}\r\n\r\n".encode())
    own.own.settimeout(5)
    assert own.own.recv(12) == b"HTTP/1.1 200"
    return own


def is_open(stream):
    """Whether a display is still there, now."""
    stream.own.setblocking(False)
    try:
        while stream.own.recv(65536):
            pass
        return False
    except BlockingIOError:
        return True
    except ConnectionError:
        return False


# Sessions


def test_nobody_makes_a_cookie_of_desks_toml(board):
    """With the desks' digests and the log's id, which every answer has, but without the log's secret."""
    server = board(DESKS)
    log_id, secret = secret_of(server.log)
    digest, expiry = hashlib.sha256(b"token-atc").digest(), int(time.time()) + 10 * 365 * 86_400
    old = hmac.new(digest, f"{log_id}.atc.{expiry}".encode(), "sha256").hexdigest()
    for cookie in (f"cdm-{log_id}=atc.{expiry}.{old}", made(server, secret=""), made(server, secret=digest), made(server, secret=digest.hex()),
                   made(server, secret=log_id)):
        assert server.get("/v1/who", Cookie=cookie).status == 401, cookie
    assert server.get("/v1/who", Cookie=made(server)).status == 200
    # The secret is in no answer, and nobody else on the machine reads it.
    login(server)
    for path in ("/v1/who", "/v1/records", "/health", "/metrics", "/v1/plan.json"):
        answer = server.get(path, "ap")
        assert secret not in answer.body.decode() and secret not in str(answer.headers)
    assert stat.S_IMODE(server.log.stat().st_mode) == 0o600 and secret not in server.told()


def test_a_session_is_at_most_twelve_hours(board):
    """Whatever its cookie says. The clocks of two servers may be a minute apart."""
    server = board(DESKS)
    for seconds in (-HALF_A_DAY, -HALF_A_DAY - 1, -10 * 365 * 86_400, 120, HALF_A_DAY, 10 * 365 * 86_400):
        assert server.get("/v1/who", Cookie=made(server, seconds)).status == 401, seconds
    for seconds in (-HALF_A_DAY + 120, -3600, 0, 30):
        assert server.get("/v1/who", Cookie=made(server, seconds)).status == 200, seconds


def test_a_token_that_is_being_replaced(board):
    """Both are taken while both are listed; then the old one, and the sessions that it began, have ended."""
    server = board(DESKS)
    path = server.folder / "desks.toml"
    old, new = (hashlib.sha256(token).hexdigest() for token in (b"token-gh", b"token-gh-2"))
    cookie = login(server, "gh")
    for tokens, statuses in (([old, new], (200, 200, 200)), ([new], (401, 200, 401))):
        text = path.read_text()
        line = next(line for line in text.splitlines() if old in line)
        path.write_text(text.replace(line, f"token = {json.dumps([f'sha256:{one}' for one in tokens])}"))
        hang_up(server)
        asked = ({"Authorization": "Bearer token-gh"}, {"Authorization": "Bearer token-gh-2"}, {"Cookie": cookie})
        assert tuple(server.get("/v1/who", **headers).status for headers in asked) == statuses


def test_a_stream_ends_with_its_cookie(board):
    """At its end, a few seconds from now; one of a token stays."""
    server = board(DESKS)
    ends, stays, by_token = display(server, made(server, -HALF_A_DAY + 60 + 3)), display(server, made(server)), Display(server, "atc")
    assert is_open(ends) and ends.ends() and is_open(stays) and is_open(by_token)


def test_signing_out_ends_a_session_and_its_streams(board):
    """All sessions of the desk that began before it, and no other's; also after the server's next start."""
    server = board(DESKS)
    here, there, other = login(server, "gh"), login(server, "gh"), login(server, "ap")
    streams = [display(server, cookie) for cookie in (here, there)]
    stay = [display(server, other), Display(server, "gh")]
    answer = server.request("DELETE", "/v1/session", Cookie=here)
    assert answer.status == 204 and "Max-Age=0" in answer.headers["Set-Cookie"]
    for cookie in (here, there):
        assert server.get("/v1/who", Cookie=cookie).status == 401
    assert server.post(["GROUP,X,M"], Cookie=there).status == 401
    assert all(stream.ends() for stream in streams) and all(is_open(stream) for stream in stay)
    assert server.get("/v1/who", Cookie=other).status == server.get("/v1/who", "gh").status == 200
    new = login(server, "gh")
    assert server.get("/v1/who", Cookie=new).status == 200
    assert server.end() == 0
    server.start()
    assert server.get("/v1/who", Cookie=there).status == 401 and server.get("/v1/who", Cookie=new).status == 200
    # Who has no session, or one that has ended, ends nobody's.
    for headers in ({}, {"Cookie": there}, {"Authorization": "Bearer nobody"}):
        assert server.request("DELETE", "/v1/session", **headers).status == 204
    assert server.get("/v1/who", Cookie=new).status == 200


@pytest.mark.skipif(bool(clusters.missing()), reason=f"a log in PostgreSQL: {' and '.join(clusters.missing())} missing")
def test_signing_out_is_heard_at_every_server(board, cluster):
    """A cookie of one server at the other; its end at both, with its stream; also while the database is away meanwhile."""
    name = f"board-{time.time()}"
    one, two = (board(DESKS, log=cluster.url(), options=["--board", name]) for _ in range(2))
    cookie = login(one, "gh")
    assert two.get("/v1/who", Cookie=cookie).status == 200
    stream, stays = display(two, cookie), Display(two, "gh")
    assert one.request("DELETE", "/v1/session", Cookie=cookie).status == 204
    assert one.get("/v1/who", Cookie=cookie).status == 401
    until(lambda: two.get("/v1/who", Cookie=cookie).status == 401, 3)
    assert stream.ends() and is_open(stays)
    assert two.get("/v1/who", Cookie=login(one, "gh")).status == 200


@pytest.mark.skipif(bool(clusters.missing()), reason=f"a log in PostgreSQL: {' and '.join(clusters.missing())} missing")
def test_signing_out_while_the_log_is_away(board):
    """It counts at once where it was said, and at the other server as soon as the database is back; the answer says so."""
    with clusters.clusters(settings="fsync = off") as (primary,):
        one, two = (board(DESKS, log=primary.url()) for _ in range(2))
        cookie = login(one, "gh")
        stream = display(one, cookie)
        primary.kill()
        answer = one.request("DELETE", "/v1/session", Cookie=cookie)
        assert answer.status == 503 and "Max-Age=0" in answer.headers["Set-Cookie"] and b"as soon as the log takes it" in answer.body
        assert one.get("/v1/who", Cookie=cookie).status == 401 and stream.ends()
        assert two.get("/v1/who", Cookie=cookie).status == 200
        primary.start()
        until(lambda: two.get("/v1/who", Cookie=cookie).status == 401, 20)


def test_an_older_log_gets_a_secret(board):
    """At its next start, which also keeps its file from others. The cookies of that start are good at the one after it."""
    server = board(DESKS, start=False)
    with contextlib.closing(sqlite3.connect(server.log)) as database:
        database.executescript("""PRAGMA journal_mode = WAL;
            CREATE TABLE cdm_log (board TEXT PRIMARY KEY, id TEXT NOT NULL, airport BLOB NOT NULL, version TEXT NOT NULL);""")
        version = subprocess.run([os.environ.get("CDMSEQ") or server.environment["CDMSEQ"], "--version"], capture_output=True, text=True).stdout.strip()
        database.execute("INSERT INTO cdm_log VALUES ('', 'abcd', ?, ?)", (AIRPORT.encode(), version))
        database.commit()
    os.chmod(server.log, 0o644)
    server.start()
    cookie = login(server)
    log_id, secret = secret_of(server.log)
    assert log_id == "abcd" and len(bytes.fromhex(secret)) == 32 and stat.S_IMODE(server.log.stat().st_mode) == 0o600
    assert server.end() == 0
    server.start()
    assert secret_of(server.log) == (log_id, secret) and server.get("/v1/who", Cookie=cookie).status == 200


def test_the_cookie_s_attributes(board):
    """Over TLS it is this host's alone: `__Host-`, Secure, `/`, no Domain. Neither a script nor another site's page has it."""
    import ssl
    server = board(DESKS, start=False)
    certificates(server.folder)
    server.options += ["--tls", str(server.folder / "one.crt"), str(server.folder / "one.key")]
    server.start()
    trusted = ssl.create_default_context(cafile=server.folder / "one.crt")

    def ask(method, path, body=None, **headers):
        connection = http.client.HTTPSConnection("127.0.0.1", server.port, context=trusted, timeout=10)
        connection.request(method, path, body, headers)
        return connection.getresponse()
    answer = ask("POST", "/v1/session", json.dumps({"desk": "ap", "token": "token-ap"}))
    cookie, *attributes = answer.headers["Set-Cookie"].split("; ")
    assert cookie.startswith(f"__Host-cdm-{secret_of(server.log)[0]}=ap.0.")
    assert sorted(attributes) == ["HttpOnly", "Max-Age=43200", "Path=/", "SameSite=Strict", "Secure"]
    assert ask("GET", "/v1/who", Cookie=cookie).status == 200 and ask("GET", "/v1/who", Cookie=cookie.removeprefix("__Host-")).status == 401
    # A browser takes the end of such a cookie only with the same attributes.
    gone = ask("DELETE", "/v1/session", Cookie=cookie).headers["Set-Cookie"].split("; ")
    assert gone[0].startswith("__Host-cdm-") and sorted(gone[1:]) == ["HttpOnly", "Max-Age=0", "Path=/", "SameSite=Strict", "Secure"]


# Wrong tokens


def test_wrong_tokens_have_a_limit(board):
    """20 of an address in a minute, at requests and at the sign-in; a right one is taken all the same. Many are few lines."""
    server = board(DESKS)
    sign_in = lambda: server.request("POST", "/v1/session", '{"desk":"ap","token":"x"}')
    answers = [server.get("/v1/plan", "nobody") if number % 2 else sign_in() for number in range(400)]
    assert [answer.status for answer in answers[:20]] == [401] * 20 and {answer.status for answer in answers[20:]} == {429}
    assert all(1 <= int(answer.headers["Retry-After"]) <= 60 for answer in answers[20:])
    assert server.get("/v1/plan", "ap").status == 200 and server.get("/v1/who", Cookie=login(server)).status == 200
    # Another address has its own; a missing token, or a session that has ended, is no wrong one.
    connection = http.client.HTTPConnection("127.0.0.1", server.port, source_address=("127.0.0.7", 0))
    connection.request("GET", "/v1/plan", headers={"Authorization": "Bearer nobody"})
    assert connection.getresponse().status == 401
    assert [server.get("/v1/plan").status for _ in range(40)] == [401] * 40
    assert [server.get("/v1/plan", Cookie=made(server, -HALF_A_DAY)).status for _ in range(40)] == [401] * 40
    # All lines are written before the server has ended.
    assert server.end() == 0
    lines = server.told().splitlines()
    assert len([line for line in lines if " 401" in line]) == 21 and len(lines) <= 22


def test_a_desk_signs_in_so_often(board):
    server = board(DESKS)
    sign_in = lambda desk: server.request("POST", "/v1/session", json.dumps({"desk": desk, "token": f"token-{desk}"})).status
    assert [sign_in("gh") for _ in range(22)] == [204] * 20 + [429] * 2
    assert sign_in("ap") == 204 and server.get("/v1/who", "gh").status == 200


def test_signing_out_has_a_limit(monkeypatch):
    """Where the log doesn't answer, as on a disk that hangs: the session ends here, and the log is told later."""
    from unittest import mock
    from board import signing
    from board.callers import Callers
    from board.desks import Desk, Desks
    monkeypatch.setattr(signing, "SIGN_OUT_LIMIT", 0.05)
    log = mock.Mock(id="0", secret="s", sign_out=lambda *_: asyncio.Event().wait())
    callers = Callers(Desks([], False), log, {"localhost"}, "http", False)
    callers.desk_of, callers.address = lambda _: Desk("ap", "AP"), lambda _: "192.0.2.1"
    own = signing.Signing(callers, log, mock.Mock(streams=set()), mock.Mock())
    answer = asyncio.run(asyncio.wait_for(own.sign_out(mock.Mock()), 20))
    assert answer.status == 503 and own.owed == {"ap"} and callers.sessions.not_before == {"ap": 1}


def test_sign_outs_while_the_log_is_away_all_end(tmp_path, monkeypatch):
    """Each ends the session here at once; the log then ends all of them, also the last one."""
    from unittest import mock
    from board import signing
    from board.callers import Callers
    from board.desks import Desk, Desks
    from board.log import Away
    told, is_away = [], True

    async def sign_out(desk, least):
        if is_away:
            raise Away("away")
        told.append(least)

    async def sessions():
        return {"ap": told[-1]} if told else {}
    log = mock.Mock(id="0", secret="s", sign_out=sign_out, sessions=sessions)
    callers = Callers(Desks([], False), log, {"localhost"}, "http", False)
    callers.desk_of, callers.address = lambda _: Desk("ap", "AP"), lambda _: "192.0.2.1"
    own = signing.Signing(callers, log, mock.Mock(streams=set()), mock.Mock())
    assert [asyncio.run(own.sign_out(mock.Mock())).status for _ in range(2)] == [503, 503] and callers.sessions.not_before == {"ap": 2}
    is_away = False
    assert asyncio.run(own.sign_out(mock.Mock())).status == 204 and told == [3] and callers.sessions.not_before == {"ap": 3}


def test_the_log_ends_the_sessions_before_a_number(tmp_path):
    from board.sqlite import FileLog

    async def talk():
        log = FileLog(str(tmp_path / "day.db"), "")
        await log.open(b"", "v")
        await log.sign_out("ap", 3)
        first = await log.sessions()
        await log.sign_out("ap")
        second = await log.sessions()
        await log.close()
        return first, second
    assert asyncio.run(talk()) == ({"ap": 3}, {"ap": 4})


def test_other_cookies_are_not_read(board):
    """A header has room for more than a thousand; only the board's own counts, wherever it stands."""
    server = board(DESKS)
    signed = server.request("POST", "/v1/session", json.dumps({"desk": "ap", "token": "token-ap"}))
    own = signed.headers["Set-Cookie"].partition(";")[0]
    others = "; ".join(f"a{number}=" for number in range(400))
    for cookies in (own, f"{others}; {own}", f"{own}; {others}", f"x=1;{own} ; y"):
        assert json.loads(server.get("/v1/who", Cookie=cookies).body)["desk"] == "ap"
    assert server.get("/v1/who", Cookie=f"x{own}").status == 401


def test_a_desk_of_many_networks_keeps_no_other_from_signing_in():
    from unittest import mock
    from board.callers import Callers
    from board.desks import Desk, Desks
    from board.words import Problem
    callers = Callers(Desks([], False), mock.Mock(id="0", secret="s"), {"localhost"}, "http", False)
    for number in range(5000):
        with contextlib.suppress(Problem):
            callers.check_sign_ins(Desk("gh", "GH"), f"10.{number // 65536}.{number // 256 % 256}.{number % 256}")
    for _ in range(20):
        callers.check_sign_ins(Desk("tower", "ATC"), "192.0.2.1")
    with pytest.raises(Problem):
        callers.check_sign_ins(Desk("tower", "ATC"), "192.0.2.1")


def test_windows_are_bounded():
    """By keys and by time; what was counted is told once."""
    from board.windows import MOST_KEYS, Windows
    windows = Windows(60.0)
    assert [windows.add("a", 100.0 + number).count for number in range(3)] == [1, 2, 3]
    assert windows.ended(159.0) == {} and windows.add("b", 120.0).count == 1
    assert windows.ended(160.0) == {"a": 3} and windows.ended(170.0) == {} and windows.add("a", 170.0).count == 1
    assert windows.add("b", 181.0).count == 1
    for number in range(2 * MOST_KEYS):
        last = windows.add(f"k{number}", 182.0)
    assert last.count > MOST_KEYS - 10 and len(windows.ended(1000.0)) <= MOST_KEYS + 1


def test_one_line_for_many(monkeypatch):
    """What a minute refused beyond the first 20 is one line, and an event of the audit."""
    from unittest import mock
    from board import signing
    told, audit = [], mock.Mock()
    monkeypatch.setattr(signing, "tell", told.append)
    signing.Signing(None, None, None, audit).tell_refused({"192.0.2.1": 20, "192.0.2.2": 1234}, {"192.0.2.2": 700, "192.0.2.3": 2})
    assert len(told) == 2 and "192.0.2.2 1214 more" in told[0] and "702 wrong tokens within a minute, 700 of them from here" in told[1]
    (event, desk, address, detail), _ = audit.note.call_args
    assert (event, desk, address) == ("wrong-token", None, "192.0.2.2") and "addresses: 2" in detail


def test_the_end_of_a_minute_is_told(board):
    """By one line and one event, while the server goes on."""
    server = board(DESKS, start=False)
    server.collect("from board import callers; callers.MINUTE = 3.0 * " + str(FACTOR))
    server.start()
    for _ in range(30):
        server.get("/v1/plan", "nobody")
    for _ in range(25):
        server.get("/v1/plan")
    until(lambda: "more were refused within a minute" in server.told() and "wrong tokens within a minute" in server.told(), 12)
    assert "127.0.0.1 25 more were refused" in server.told()
    until(lambda: any(event["event"] == "wrong-token" for event in audit_of(server.log)))
    found, = [event for event in audit_of(server.log) if event["event"] == "wrong-token"]
    assert found["address"] == "127.0.0.1" and found["detail"].startswith("30 wrong tokens within a minute, 30 of them from here")


# The audit


def audit_of(*words):
    ended = cdmboard("audit", *words)
    assert ended.returncode == 0, ended.stderr
    return objects(ended.stdout.encode())


def test_who_from_where(board):
    """Sign-ins and sign-outs, HUP with what it changed, and the sender of each record."""
    check_audit(board(DESKS))


@pytest.mark.skipif(bool(clusters.missing()), reason=f"a log in PostgreSQL: {' and '.join(clusters.missing())} missing")
def test_who_from_where_in_postgresql(board, cluster):
    name = f"board-{time.time()}"
    check_audit(board(DESKS, log=cluster.url(), options=["--board", name]), "--board", name)


def check_audit(server, *words):
    connection = http.client.HTTPConnection("127.0.0.1", server.port, source_address=("127.0.0.8", 0))
    for key in ("k", "k"):
        # What says another address counts from a proxy alone.
        headers = {"Authorization": "Bearer token-ap", "Idempotency-Key": key, "X-Forwarded-For": "192.0.2.1"}
        connection.request("POST", "/v1/records", b"FLT,AB1,5\nFOO", headers)
        assert connection.getresponse().read().count(b"\n") == 2
    server.post(["FLT,AB2,5"], "ap")
    cookie = login(server, "gh")
    assert server.request("DELETE", "/v1/session", Cookie=cookie).status == 204
    server.write_desks({name: table for name, table in DESKS.items() if name != "gh"} | {"new": 'role = "AO"', "ap": 'role = "AO"'})
    (server.folder / "desks.toml").write_text((server.folder / "desks.toml").read_text() + "[limits]\nof_address = 90\n")
    hang_up(server)
    assert server.post(["FLT,AB3,5"], "new")[0]["word"] == "AUTHORITY"
    until(lambda: any(event["event"] == "read-again" for event in audit_of(server.log, *words)))
    found = audit_of(server.log, *words)
    assert [(event["position"], event["count"], event["desk"], event["address"]) for event in found if event["event"] == "records"] == [
        (1, 2, "ap", "127.0.0.8"), (3, 1, "ap", "127.0.0.1"), (4, 1, "new", "127.0.0.1")]
    others = {event["event"]: event for event in found if event["event"] != "records"}
    assert [(others[name]["desk"], others[name]["address"]) for name in ("sign-in", "sign-out")] == [("gh", "127.0.0.1")] * 2
    assert others["read-again"]["detail"] == "+new, -gh, ap: role, limits: of_address 90"
    assert all(event["at"][:2] == "20" for event in found) and "token-" not in json.dumps(found)


def test_an_audit_is_bounded(board):
    """What has no room in it is told on standard error."""
    server = board(DESKS)
    with contextlib.closing(sqlite3.connect(server.log, timeout=10)) as database:
        database.executemany("INSERT INTO cdm_audit (board, at, event) VALUES ('', 't', 'sign-in')", [()] * 19_999)
        database.commit()
    for _ in range(3):
        login(server)
    until(lambda: server.told().count("cdmboard: audit: ") == 2)
    assert len(audit_of(server.log)) == 20_000 and "sign-in ap 127.0.0.1" in server.told()


# Streams of events


def opened(server, count, source, desk=None):
    """The answers to streams that an address opens and drops at once, each as status and Retry-After."""
    answers = []
    for _ in range(count):
        connection = http.client.HTTPConnection("127.0.0.1", server.port, timeout=20, source_address=(source, 0))
        connection.request("GET", "/v1/events", headers={"Authorization": f"Bearer token-{desk}"} if desk else {})
        answer = connection.getresponse()
        answers.append((answer.status, answer.headers["Retry-After"]))
        answer.close()
        connection.close()
    return answers


def test_streams_that_are_opened_and_dropped_have_a_limit(board):
    """Each address opens so many in a minute without a token, and each desk at it; all else that it asks is answered."""
    server = board(DESKS, start=False)
    server.write_desks(DESKS, "anyone")
    write_limits(server, opened_without_desk=60, opened_by_desk=80)
    server.start()
    answers = opened(server, 70, "127.0.0.5")
    assert [status for status, _ in answers] == [200] * 60 + [429] * 10
    assert all(1 <= int(seconds) <= 60 for status, seconds in answers if status == 429)
    assert [status for status, _ in opened(server, 85, "127.0.0.5", "screen")] == [200] * 80 + [429] * 5
    assert opened(server, 1, "127.0.0.6") == opened(server, 1, "127.0.0.6", "screen") == opened(server, 1, "127.0.0.5", "ap") == [(200, None)]
    assert server.get("/v1/plan").status == 200 and server.post(["FLT,AB1,5"], "ap")[0]["position"] == 1


def test_streams_of_many_addresses_have_one_limit(board):
    """Without a token, from however many addresses: who comes later waits longer. Desks and all other questions aren't counted with them."""
    server = board(DESKS, start=False)
    server.write_desks(DESKS, "anyone")
    write_limits(server, opened_without_desk=30, opened_together=100)
    # On a busy machine it takes long to open so many.
    server.collect("from board import callers; callers.TOGETHER_SECONDS = callers.MINUTE = 600.0")
    server.start()
    # What one address opens beyond its own limit isn't counted for all.
    answers = [answer for number in range(5) for answer in opened(server, 32, f"127.0.7.{number + 1}")]
    assert [status for status, _ in answers] == ([200] * 30 + [429] * 2) * 3 + [200] * 10 + [429] * 22 + [429] * 32
    first = [int(seconds) for status, seconds in answers[106:126] if status == 429]
    assert len(first) == 20 and all(1 <= seconds <= 601 for seconds in first)
    assert [status for status, _ in opened(server, 30, "127.0.7.1", "screen")] == [200] * 30
    assert server.get("/v1/plan").status == 200 and server.post(["FLT,AB1,5"], "ap")[0]["position"] == 1


def test_who_comes_later_waits_longer(monkeypatch):
    """All displays of a server that is started again, whose connections come at once: in turns of so many as may come."""
    from unittest import mock
    from board.callers import Callers
    from board.connections import Limits
    from board.desks import READER, Desks
    from board.words import Problem
    monkeypatch.setattr("board.callers.time", mock.Mock(monotonic=lambda: 100.0))
    callers, told = Callers(Desks([], True, limits=Limits(opened_together=10)), mock.Mock(id="0", secret="s"), {"localhost"}, "http", False), []
    for number in range(100):
        request = mock.MagicMock(remote=f"192.0.2.{number}")
        request.__getitem__.return_value = READER
        try:
            callers.check_opened(request)
            told.append(0)
        except Problem as problem:
            assert problem.status == 429
            told.append(int(problem.headers["Retry-After"]))
    # Until these ten seconds are over, and then ten more for each ten that came; never more than a minute.
    assert told == [0] * 10 + [11] * 9 + [21] * 10 + [31] * 10 + [41] * 10 + [51] * 10 + [61] * 41


def test_browsers_behind_one_address_come_back(board):
    """100 without a token, five times within a minute, and 1,000 by one desk: a restart, a proxy that is restarted, people who load anew."""
    server = board(DESKS, start=False)
    server.write_desks(DESKS, "anyone")
    server.start()
    assert {status for status, _ in opened(server, 500, "127.0.0.5")} == {200}
    assert {status for status, _ in opened(server, 1000, "127.0.0.5", "screen")} == {200}


# Connections


def held(server, count, source, seconds=0.3):
    """Connections of an address; how many of them are still open after a while."""
    own = [socket.create_connection(("127.0.0.1", server.port), source_address=(source, 0)) for _ in range(count)]
    time.sleep(seconds)
    return own


def open_of(connections):
    return [own for own in connections if not ended(own)]


def ended(own):
    own.setblocking(False)
    try:
        return own.recv(1, socket.MSG_PEEK) == b""
    except BlockingIOError:
        return False
    except ConnectionError:
        return True


def write_limits(server, **limits):
    path = server.folder / "desks.toml"
    path.write_text(path.read_text().replace("\n[limits]\n", "\n[old]\n") + "\n[limits]\n" + "".join(f"{name} = {most}\n" for name, most in limits.items()))


def test_browsers_behind_one_address(board):
    """17 of them with six connections each, by their tokens: more than an address has that showed none."""
    server = board(DESKS)
    connections = []
    for number in range(17 * 6 + 40):
        connection = http.client.HTTPConnection("127.0.0.1", server.port, timeout=20, source_address=("127.0.0.5", 0))
        connection.request("GET", "/v1/who", headers={"Authorization": "Bearer token-ap"})
        answer = connection.getresponse()
        assert answer.status == 200, number
        answer.read()
        connections.append(connection)
    assert not any(ended(connection.sock) for connection in connections[-100:])
    for connection in connections:
        connection.close()


def test_connections_from_everywhere_keep_nobody_out(board):
    """All places that aren't kept are taken by who shows no token, from many addresses: a desk that comes is let in, whether its address
    is known or not, and stays."""
    server = board(DESKS, start=False)
    write_limits(server, connections=60, kept_for_desks=20, of_address=10)
    server.start()
    tower = Display(server, "atc")
    strangers = [own for number in range(12) for own in held(server, 10, f"127.0.9.{number + 1}", 0)]
    for number in range(5):
        connection = http.client.HTTPConnection("127.0.0.1", server.port, timeout=20, source_address=(f"127.0.8.{number + 1}", 0))
        connection.request("GET", "/v1/who", headers={"Authorization": "Bearer token-gh"})
        assert connection.getresponse().status == 200
    assert server.post(["FLT,AB1,5"], "ap")[0]["position"] == 1
    assert len(open_of(strangers)) <= 40 and is_open(tower)
    for own in strangers:
        own.close()


def test_limits_that_are_wrong_are_told(board):
    server = board(DESKS, start=False)
    for limits in ({"connections": 0}, {"connections": '"x"'}, {"other": 1}, {"of_address": "true"}):
        server.write_desks(DESKS)
        write_limits(server, **limits)
        refused = cdmboard(server.airport, server.log, *server.options)
        assert refused.returncode == 3 and "[limits]" in refused.stderr, limits


def test_a_proxy_keeps_the_time_of_headers(board):
    """So a connection that it keeps for later isn't cut meanwhile; one that comes without a proxy is."""
    for options, host in (["--behind-proxy", "--name", "cdm.example"], b"cdm.example"), ([], b"localhost"):
        server = board(DESKS, start=False, options=options)
        server.collect("from board import guard; guard.HEADERS = 0.5")
        server.start()
        with socket.create_connection(("127.0.0.1", server.port)) as own:
            own.settimeout(20)
            time.sleep(1.5)
            if not options:
                assert ended(own)
                continue
            own.sendall(b"GET /health HTTP/1.1\r\nHost: " + host + b"\r\nConnection: close\r\n\r\n")
            assert own.recv(65536).startswith(b"HTTP/1.1 200")


def test_limits_are_read_again(board):
    """HUP: those of connections count for who comes from then on."""
    server = board(DESKS)
    first = held(server, 5, "127.0.0.9")
    assert len(open_of(first)) == 5
    write_limits(server, of_address=7)
    hang_up(server)
    more = held(server, 5, "127.0.0.9")
    assert len(open_of(more)) == 2 and len(open_of(first)) == 5
    for own in (*first, *more):
        own.close()


def own_address():
    """An address of this machine that isn't loopback; what is sent to it stays on the machine."""
    shown = subprocess.run(["hostname", "-I"], capture_output=True, text=True).stdout.split()
    return next((address for address in shown if "." in address and not address.startswith("127.")), None)


def test_who_comes_round_the_proxy_is_not_let_in(board):
    """Plain HTTP is for the proxy on this machine: who asks from elsewhere, even with a token, gets no answer and is told once."""
    address = own_address()
    if address is None:
        pytest.skip("test_who_comes_round_the_proxy_is_not_let_in: this machine has no address but loopback")
    server = board(DESKS, start=False, options=["--behind-proxy", "--listen", "0.0.0.0:0", "--name", "cdm.example"])
    server.start()
    for _ in range(3):
        connection = http.client.HTTPConnection(address, server.port, timeout=10)
        with pytest.raises(ConnectionError):
            connection.request("GET", "/health", headers={"Authorization": "Bearer token-ap", "Host": "cdm.example"})
            connection.getresponse()
    assert server.get("/v1/who", "ap", Host="cdm.example").status == 200
    assert server.end() == 0
    assert server.told().count("came round the proxy") == 1 and address in server.told()
