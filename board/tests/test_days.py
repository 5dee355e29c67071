"""Changes of day: the log goes on, and no desk, display or server notices more than a date."""
import asyncio
import concurrent.futures
import contextlib
import datetime
import http.client
import json
import os
import resource
import signal
import socket
import sqlite3
import subprocess
import sys
import threading
import time
from unittest import mock

import clusters
import pytest
from conftest import AIRPORT, FACTOR, PROGRAM, ROLES, ROOT, count, figure, objects, of_role, until
from displays import DESK, Watched
from test_start import mounted

sys.path.insert(0, str(ROOT))
from board import changing  # noqa: E402
from board.log import Change, dated, undated  # noqa: E402
from board.past import spans_of  # noqa: E402
from board.words import Problem  # noqa: E402

needs_postgres = pytest.mark.skipif(bool(clusters.missing()), reason=f"a log in PostgreSQL: {' and '.join(clusters.missing())} missing")
DESKS = {"ap": 'role = "AP"', "ops": 'role = "AO"', "tower": 'role = "ATC"\nclock = true', "other": 'role = "ATC"'}
NEXT = AIRPORT.replace("2025-03-10", "2025-03-11")
EVEN_SO = "/v1/day?even=yes&day="
EVEN = f"{EVEN_SO}2025-03-11"


def tells():
    """Whether the program says what a person must know before a change."""
    with contextlib.ExitStack() as opened:
        import tempfile
        folder = opened.enter_context(tempfile.TemporaryDirectory())
        for name, text in (("airport", AIRPORT), ("feed", ""), ("next", NEXT)):
            with open(f"{folder}/{name}.csv", "w") as file:
                file.write(text)
        words = (PROGRAM, "carry", "airport.csv", "feed.csv", "next.csv", "--tell")
        return subprocess.run(words, cwd=folder, capture_output=True).returncode == 0


pytestmark = pytest.mark.skipif(not tells(), reason="the program has no carry --tell")


def cdmboard(*words):
    """How it ended. A server that starts is ended after a while."""
    command = ["timeout", str(20 * FACTOR), str(ROOT / "cdmboard"), *map(str, words)]
    return subprocess.run(command, env=dict(os.environ, CDMSEQ=PROGRAM), capture_output=True, text=True)


def board_of(server):
    """Words of a command for this server's board."""
    return server.options[server.options.index("--board"):][:2] if "--board" in server.options else []


def change(server, path=EVEN, body="", desk="tower"):
    """Changes the day; what is answered."""
    answer = server.request("POST", path, body, desk)
    return json.loads(answer.body) if answer.status == 200 else answer


def flights(server, desk="tower", path="/v1/plan.json"):
    """The plan's Rows by flight."""
    return {row["flight"]: row for row in objects(server.get(path, desk).body)[0]["flights"]}


def begun(server):
    """Three flights, of which one goes on, one is cancelled, and one waits for its TOBT; it is three o'clock of the second day."""
    server.post(["FLT,AB1,5", "FLT,CD2,5", "FLT,EF3,5", "FOO"], "ap", "first")
    server.post(["RWY,AB1,27L", "RWY,EF3,09", "CLOCK,2025-03-11T03:00Z"], "tower")
    server.post(["TOBT,AB1,2025-03-11T06:00Z", "CNL,CD2"], "ops", "second")
    return server


def test_a_day_begins(board):
    """At the next position: records, keys, positions and questions about the day before go on, limits begin anew, also after a start."""
    server = begun(board({**DESKS, "ap": 'role = "AP"\nrecords = 5'}))
    first, before = server.records("ap"), flights(server)
    asked = json.loads(server.get("/v1/day.json", "ap").body)
    assert (asked["day"], asked["next"], asked["before"], asked["position"]) == ("2025-03-10", "2025-03-11", None, 0)
    assert [line.split() for line in asked["told"]] == [["GONE", "1"], ["STAY", "2"]]
    assert server.get("/v1/day", "ap").body.decode().splitlines() == ["DAY 2025-03-10 BEFORE - NEXT 2025-03-11", *asked["told"]]
    old = {path: server.get(f"/v1/{path}", "ap") for path in ("plan", "plan.json", "plan.csv", "journal.csv", "next", "why/AB1")}
    assert change(server, "/v1/day") == {"day": "2025-03-11", "position": 10, "before": "2025-03-10", "next": "2025-03-12"}
    for is_new in (False, True):
        assert set(flights(server)) == {"AB1", "EF3"}
        assert (server.metric("cdm_position", "ap"), server.metric("cdm_day_records", "ap")) == (10 + is_new, 1 + is_new)
        assert flights(server)["AB1"] == {**before["AB1"], **({"priority": 7} if is_new else {})}
        for path, said in old.items():
            again = server.get(f"/v1/{path}?day=2025-03-10", "ap")
            assert (again.body, again.headers["ETag"], again.headers["Cdm-At"]) == (said.body, said.headers["ETag"], said.headers["Cdm-At"]), path
        assert server.get("/v1/airport.csv", "ap").body.decode() == NEXT
        assert server.get("/v1/plan?day=2025-03-09", "ap").status == 404
        # What of a record isn't gone with a start.
        kept = [{name: value for name, value in record.items() if name != "changes"} for record in server.records("ap")]
        assert kept[:9] == [{name: value for name, value in record.items() if name != "changes"} for record in first]
        assert (kept[9]["position"], kept[9]["desk"], kept[9]["role"], kept[9]["line"]) == (10, "tower", "ATC", "DAY,2025-03-11")
        of_day = [[record["position"] for record in objects(server.get(f"/v1/records?day=2025-03-1{day}", "ap").body)] for day in (0, 1)]
        assert of_day == [list(range(1, 10)), [10, 11] if is_new else [10]]
        assert [record["position"] for record in objects(server.get("/v1/records?flight=AB1", "ap").body)] == [1, 5, 8]
        assert [record["position"] for record in objects(server.get("/v1/records?since=8&flight=AB1", "ap").body)] == [11][:is_new]
        assert server.get("/v1/records/4/sentence", "ap").status == 200
        # Keys are a desk's own over all days.
        assert [reply["position"] for reply in server.post(["TOBT,AB1,2025-03-11T06:00Z", "CNL,CD2"], "ops", "second")] == [8, 9]
        assert server.post(["CNL,AB1"], "ops", "second").status == 422
        if not is_new:
            assert json.loads(server.get("/v1/who", "ap").body)["left"] == 5
            reply, = server.post(["PRIO,AB1,7"], "tower")
            assert (reply["position"], reply["reply"]) == (11, "ACCEPTED")
            assert server.end() == 0
            server.start()
    assert server.post([f"GROUP,AB1,{group}" for group in "HMLHM"], "ap")[-1]["position"] == 16
    assert server.post(["GROUP,AB1,H"], "ap").status == 403
    assert server.end() == 0
    named = board_of(server)
    assert cdmboard("verify", server.log, *named).stdout == "16 records, 14 accepted, 0 digests of replies, 2 days\n"
    assert cdmboard("export", server.log, *named, "--airport").stdout == NEXT
    assert cdmboard("export", server.log, *named, "--day", "2025-03-10").stdout.encode() == old["journal.csv"].body
    assert cdmboard("export", server.log, *named, "--day", "2025-03-09").returncode == 3
    assert len(cdmboard("export", server.log, *named, "--all").stdout.splitlines()) == 16
    # What is exported of the last day is the beginning of a new log.
    feed, airport = server.folder / "feed.csv", server.folder / "next.csv"
    feed.write_text(cdmboard("export", server.log, *named).stdout)
    airport.write_text(NEXT)
    assert cdmboard("import", airport, server.folder / "new.db", feed).returncode == 0


def test_who_changes_the_day(board):
    """The tower's desk that sends CLOCK, once the day is over and nothing would be lost; each other one is told why not."""
    server = board(DESKS)
    server.post(["FLT,AB1,5", "STAND,AB1,A1"], "ap")
    server.post(["RWY,AB1,27L"], "tower")
    server.post(["TOBT,AB1,2025-03-11T06:00Z"], "ops")
    for desk in ("ap", "ops", "other"):
        assert change(server, desk=desk).status == 403
    assert change(server, desk=None).status == 401 and server.get("/v1/day").status == 401
    early = change(server, "/v1/day")
    assert early.status == 409 and b"2025-03-11 hasn't begun" in early.body
    server.post(["CLOCK,2025-03-11T03:00Z"], "tower")
    assert change(server, "/v1/day?day=2025-03-12").status == 409
    for day in (10, 12):
        wrong = change(server, body=AIRPORT.replace("2025-03-10", f"2025-03-{day}") + "RUNWAY,36,10,2\n")
        assert wrong.status == 422 and f"its day is 2025-03-{day}" in json.loads(wrong.body)["detail"]
    assert change(server, "/v1/day", "RUNWAY,27L\n").status == 422
    other = "".join(line + "\n" for line in NEXT.splitlines() if "27L" not in line)
    refused = change(server, "/v1/day", other)
    assert refused.status == 409 and "REFUSED 3 UNKNOWN ATC,RWY,AB1,27L" in json.loads(refused.body)["detail"]
    assert server.metric("cdm_position", "ap") == 5
    assert change(server, EVEN, other)["day"] == "2025-03-11" and flights(server)["AB1"]["runway"] is None
    assert server.get("/v1/airport.csv", "ap").body.decode() == other
    # Who didn't hear it says it again, and nothing more begins.
    assert change(server, EVEN, other)["position"] == change(server, "/v1/day?day=2025-03-11")["position"] == 6
    assert change(server, "/v1/day").status == 409 and server.metric("cdm_position", "ap") == 6


@pytest.mark.skipif(not PROGRAM.endswith("standin.py"), reason="a flight that is LEFT as the stand-in has it")
def test_a_flight_that_is_left_stops_a_change(board):
    server = begun(board(DESKS))
    server.post(["STAND,AB1,LEFT"], "ap")
    left = change(server, "/v1/day")
    assert left.status == 409 and json.loads(left.body)["detail"].startswith("LEFT    AB1 27L AOBT")
    assert change(server, EVEN)["day"] == "2025-03-11"


def test_flights_go_on_over_changes(board, chance):
    """The plan before a change and the one after it have the same flights with the same times, but for those that the day's question names."""
    server = board(DESKS | {"gh": 'role = "GH"', "nm": 'role = "NM"'})
    names = {"ap": "AP", "ops": "AO", "tower": "ATC", "gh": "GH", "nm": "NM"}
    talk, same = Talk([server], chance, names), 0
    for number in range(1, 11):
        for desk in [*names] * 4:
            assert isinstance(server.post([line for _ in range(4) for line in talk.lines(chance, desk)], desk), list)
        before, told = flights(server), [line.split() for line in json.loads(server.get("/v1/day.json", "ap").body)["told"]]
        change(server, f"{EVEN_SO}{day_of(number)}")
        after, talk.day = flights(server), talk.day + 1
        assert set(after) == {name for name, row in before.items() if row["status"] != "CANCELLED"}
        assert [words for words in told if words[0] in ("GONE", "STAY")] == [["GONE", str(len(before) - len(after))], ["STAY", str(len(after))]]
        assert {words[0] for words in told} <= {"EARLIER", "GONE", "STAY"}
        known = [name for name in after if name not in {words[1] for words in told}]
        assert [after[name] for name in known] == [before[name] for name in known]
        same += sum(after[name]["status"] == "PLANNED" for name in known)
    assert same > 20


class Talk:
    """Desks that post for as long as days go on, with an end of each day. Each sends the same body with the same key until it has its answer."""
    MOST = 100

    def __init__(self, servers, chance, desks):
        self.servers, self.chance, self.desks = servers, chance, desks
        self.day, self.is_over, self.got = 10, False, {name: [] for name in desks}
        self.longest, self.is_quiet, self.idle, self.of_day = 0.0, False, set(), dict.fromkeys(desks, (10, 0))
        self.is_given_up = False

    def run(self):
        with concurrent.futures.ThreadPoolExecutor(len(self.desks)) as pool:
            list(pool.map(self.speak, self.desks))

    def lines(self, chance, name):
        shift = datetime.timedelta(days=self.day - 10)
        lines = [of_role(chance, self.desks[name], [f"AB{number}" for number in range(30)]) for _ in range(chance.randrange(1, 5))]
        date = str(datetime.date(2025, 3, 11) + shift)
        # A CLOCK of a later time would be refused everywhere.
        return [line.replace("2025-03-10", date) for line in lines if not line.startswith("CLOCK")] or ["FOO"]

    def speak(self, name):
        chance, number = type(self.chance)(self.chance.random()), 0
        while not self.is_over:
            self.idle.discard(name)
            day, count_of_day = self.of_day[name]
            if self.is_quiet or day == self.day and count_of_day == self.MOST:
                self.idle.add(name)
                time.sleep(0.05)
                continue
            self.of_day[name] = self.day, count_of_day + 1 if day == self.day else 1
            number, lines, began = number + 1, self.lines(chance, name), time.monotonic()
            self.got[name].append((lines, self.told(chance, name, lines, f"k{number}")))
            self.longest = max(self.longest, time.monotonic() - began)
            time.sleep(chance.uniform(0, 0.15))

    @contextlib.contextmanager
    def quiet(self):
        """While nobody sends, and each desk has its answer: the last position that was accepted."""
        self.is_quiet = True
        until(lambda: self.idle >= self.desks.keys(), 120)
        yield max((reply["position"] for sent in self.got.values() for _, replies in sent for reply in replies if reply["reply"] == "ACCEPTED"), default=0)
        self.is_quiet = False

    def told(self, chance, name, lines, key):
        end = time.monotonic() + 90 * FACTOR
        while time.monotonic() < end and not self.is_given_up:
            with contextlib.suppress(OSError, http.client.HTTPException):
                answer = chance.choice(self.servers).post(lines, name, key)
                if isinstance(answer, list):
                    return answer
                assert answer.status in (429, 503, 504), answer
            time.sleep(0.05)
        raise AssertionError("no answer")


def change_somehow(servers, chance, day, talk=None):
    """Has a day begin at one of the servers, whichever is there."""
    end = time.monotonic() + 60 * FACTOR
    while time.monotonic() < end:
        with contextlib.suppress(OSError, http.client.HTTPException):
            answer = change(chance.choice(servers), f"{EVEN_SO}{day}")
            if isinstance(answer, dict):
                return answer["position"]
            assert answer.status in (409, 429, 503, 504), answer
        time.sleep(0.05)
    raise AssertionError(f"{day} didn't begin")


def of_each(log):
    """The log's days: the position of each change, and the records of each day."""
    days = [[]]
    for record in log:
        if record["line"].startswith("DAY,") and record["reply"] == "ACCEPTED":
            days.append([])
        days[-1].append(record)
    return days


def checked(talk, servers, folder, days):
    """What was answered is in the log once, in exactly one day; each day is what the program makes of it; all servers tell one plan."""
    log = servers[0].records("tower")
    assert [record["position"] for record in log] == list(range(1, len(log) + 1))
    told = of_each(log)
    assert len(told) == days + 1
    by_position = {record["position"]: (number, record) for number, day in enumerate(told) for record in day}
    for name, sent in talk.got.items():
        mine = [(record["position"], record["line"]) for record in log if record["desk"] == name and not record["line"].startswith("DAY,")]
        assert mine == [(reply["position"], reply["line"]) for _, replies in sent for reply in replies]
        for lines, replies in sent:
            assert [reply["line"] for reply in replies] == lines
            assert len({by_position[reply["position"]][0] for reply in replies}) == 1
            for reply in replies:
                found = by_position[reply["position"]][1]
                assert [found.get(key) for key in ("reply", "word", "accepted")] == [reply.get(key) for key in ("reply", "word", "accepted")]
    feed = ""
    for number, records in enumerate(told):
        date = str(datetime.date(2025, 3, 10) + datetime.timedelta(days=number))
        (folder / "airport.csv").write_text(AIRPORT.replace("2025-03-10", date))
        lines = [f"{record['role']},{record['line']}" for record in records if not (number and record is records[0])]
        (folder / "lines.csv").write_text(feed + "".join(f"{line}\n" for line in lines))
        (folder / "next.csv").write_text(AIRPORT.replace("2025-03-10", str(datetime.date.fromisoformat(date) + datetime.timedelta(days=1))))
        plan = objects(subprocess.run([PROGRAM, "plan", "airport.csv", "lines.csv", "--format", "json"], cwd=folder, capture_output=True).stdout)[0]
        for server in servers:
            answer = server.get(f"/v1/plan.json?day={date}", "tower")
            assert answer.status == 200, answer
            assert {**objects(answer.body)[0], "refused": []} == {**plan, "refused": []}
            assert answer.headers["Cdm-Position"] == str(records[-1]["position"] if records else told[number - 1][-1]["position"])
        refused = {refused["record"] - feed.count("\n"): refused["word"] for refused in plan["refused"]}
        rest = records[1:] if number else records
        assert refused == {place: record["word"] for place, record in enumerate(rest, 1) if record["reply"] == "REFUSED"}
        feed = subprocess.run([PROGRAM, "carry", "airport.csv", "lines.csv", "next.csv"], cwd=folder, capture_output=True, text=True, check=True).stdout


def talked(servers, chance, tmp_path, days, kills, fails=None):
    """Days in a row, while 16 desks post and servers are killed, and in the middle of one change also what `fails` kills. A display that stays
    shows at each change, and at the end, what a new one shows."""
    desks = {f"desk-{number}": ROLES[number % 5] for number in range(16)}
    talk, watched = Talk(servers, chance, desks), Watched(servers, chance)
    watched.shows_the_same(0)
    talking = threading.Thread(target=talk.run, daemon=True)
    talking.start()
    try:
        killed = sorted(chance.choices(range(days), k=kills))
        for number in range(1, days + 1):
            time.sleep(chance.uniform(0.1, 0.6))
            before = reached(servers[0])
            is_middle = number == days // 2 + 1
            position = change_while_killed(servers, chance, day_of(number), killed.count(number - 1), fails if is_middle else None)
            assert before < position
            talk.day += 1
            with talk.quiet() as last:
                watched.shows_the_same(max(last, position))
        talk.is_over = True
        talking.join(120 * FACTOR)
        assert not talking.is_alive()
    finally:
        talk.is_over = talk.is_given_up = True
    checked(talk, servers, tmp_path, days)
    watched.ends(reached(servers[0]))
    # Behind a server that has just started it may show an earlier day once more, but none is missing.
    assert set(watched.staying.dates) == {day_of(number) for number in range(days + 1)} and watched.staying.dates[-1] == day_of(days)
    said = sum(len(replies) for sent in talk.got.values() for _, replies in sent)
    figure(f"Days: {days} in a row, {said} records of 16 desks, {kills} kills, {len(servers)} servers, longest wait of a desk {talk.longest:.1f} s, "
           f"a display that stayed had {watched.staying.connections} connections and showed {watched.staying.shows} plans")


def reached(server):
    """The last position of which a server has the reply."""
    return json.loads(server.get("/health").body)["position"]


def day_of(number):
    return str(datetime.date(2025, 3, 10) + datetime.timedelta(days=number))


def change_while_killed(servers, chance, day, kills, fails=None):
    """The position at which a day has begun, while servers are killed and started."""
    with concurrent.futures.ThreadPoolExecutor(1) as pool:
        changing_day = pool.submit(change_somehow, servers, chance, day)
        if fails is not None:
            time.sleep(chance.uniform(0, 0.3))
            fails()
        for _ in range(kills):
            time.sleep(chance.uniform(0, 0.3))
            server = chance.choice(servers)
            server.kill()
            server.start()
        return changing_day.result()


TALKERS = {f"desk-{number}": f'role = "{ROLES[number % 5]}"\nrecords = 20000' for number in range(16)} | {
    "tower": 'role = "ATC"\nclock = true', DESK: 'role = "READ"'}


def test_ten_days_in_a_row(board, chance, tmp_path):
    """Each record that was answered is in the log once, and in one day, whatever was killed."""
    server = board(TALKERS)
    talked([server], chance, tmp_path, count("BOARD_CHANGES", 10), count("BOARD_CHANGE_KILLS", 3))


@needs_postgres
def test_ten_days_of_two_servers(board, chance, tmp_path, cluster):
    """Also of two servers and one database; a third one, which starts last, tells the same plans."""
    words = {"log": cluster.url(), "options": ["--board", f"{chance.randrange(1 << 62):x}"]}
    servers = [board(TALKERS, **words), board(TALKERS, **words)]
    talked(servers, chance, tmp_path, count("BOARD_CHANGES", 10), count("BOARD_CHANGE_KILLS", 3))
    third = board(TALKERS, **words)
    last = servers[0].get("/v1/plan.json", "tower")
    assert third.get("/v1/plan.json", "tower", Cdm_After=last.headers["Cdm-Position"]).body == last.body


@needs_postgres
def test_days_over_a_fail_over(board, chance, tmp_path):
    """Also where the primary is killed in the middle of a change of day, and its standby is promoted."""
    with clusters.clusters(has_standby=True) as (primary, standby):
        words = {"log": clusters.url_of(primary, standby), "options": ["--board", f"{chance.randrange(1 << 62):x}"]}

        def fails():
            primary.kill()
            standby.promote()
            until(lambda: standby.sql("SELECT pg_is_in_recovery()") == "f", 60)
        days, kills = count("BOARD_CHANGES", 4), count("BOARD_CHANGE_KILLS", 2)
        servers = [board(TALKERS, **words), board(TALKERS, **words)]
        talked(servers, chance, tmp_path, days, kills, fails)
        for server in servers:
            server.kill()


@needs_postgres
def test_two_servers_change_at_once(board, chance, cluster):
    """One of them makes the change; the other one's desk is told that another day began, or that it has begun."""
    words = {"log": cluster.url(), "options": ["--board", f"{chance.randrange(1 << 62):x}"]}
    servers = [board(DESKS, **words), board(DESKS, **words)]
    begun(servers[0])
    for day in range(11, 15):
        with concurrent.futures.ThreadPoolExecutor(4) as pool:
            answers = list(pool.map(lambda number: change(servers[number % 2], f"{EVEN_SO}2025-03-{day}"), range(4)))
        assert all(isinstance(answer, dict) or answer.status == 409 for answer in answers), answers
        made = {answer["position"] for answer in answers if isinstance(answer, dict)}
        assert len(made) == 1, answers
        for server in servers:
            until(lambda: json.loads(server.get("/v1/day.json", "ap").body)["day"] == f"2025-03-{day}")
    log = servers[0].records("ap")
    assert [record["line"] for record in log if record["line"].startswith("DAY")] == [f"DAY,2025-03-{day}" for day in range(11, 15)]
    assert servers[0].get("/v1/plan.json", "ap").body == servers[1].get("/v1/plan.json", "ap").body


def test_records_come_while_a_day_is_carried_over(board):
    """That takes its time: what comes meanwhile waits, is in the new day or in the one before, and the change is made at the first try."""
    server = board(DESKS, start=False)
    server.program('[ "$1" = carry ] && [ "$5" = "" ] && sleep 0.5')
    server.start()
    begun(server)
    stop, waits = threading.Event(), []

    def post():
        number = 0
        while not stop.is_set():
            began, number = time.monotonic(), number + 1
            assert server.post([f"FLT,A{number},5"], "ap")[0]["reply"] == "ACCEPTED"
            waits.append(time.monotonic() - began)
            time.sleep(0.02)
    with concurrent.futures.ThreadPoolExecutor(1) as pool:
        posting = pool.submit(post)
        try:
            until(lambda: len(waits) > 3)
            assert change(server)["position"] > 12
            at = len(waits)
            until(lambda: len(waits) > at + 3)
        finally:
            stop.set()
        posting.result()
    assert 0.4 < max(waits) < 5 * FACTOR
    days = of_each(server.records("ap"))
    assert [len(days), set(flights(server))] == [2, {"AB1", "EF3", *(f"A{number}" for number in range(1, len(waits) + 1))}]
    figure(f"Day: longest wait of a desk at a change of day whose carrying over takes 0.5 s: {max(waits):.2f} s")


def test_a_large_day_changes(board):
    """For how long a desk stands still."""
    server, number = board(DESKS, start=False), count("BOARD_CHANGE_RECORDS", 1000)
    names = [f"L{flight}" for flight in range(min(1900, number // 4))]
    lines = [line for place, name in enumerate(names)
             for line in (f"AP,FLT,{name},5", f"ATC,RWY,{name},27L", f"AO,TOBT,{name},2025-03-11T0{4 + place % 6}:00Z")]
    lines += [f"AP,STAND,{names[place % len(names)]},S{place % 900}" for place in range(number - len(lines) - 1)]
    (server.folder / "feed.csv").write_text("".join(f"{line}\n" for line in [*lines, "ATC,CLOCK,2025-03-11T03:00Z"]))
    assert cdmboard("import", server.airport, server.log, server.folder / "feed.csv").returncode == 0
    server.start()
    stop, waits = threading.Event(), []

    def post():
        while not stop.is_set():
            began = time.monotonic()
            # The last records of a day are the tower's.
            assert server.post([f"PRIO,{names[len(waits) % len(names)]},{len(waits) % 10}"], "tower")[0]["reply"] == "ACCEPTED"
            waits.append(time.monotonic() - began)
            time.sleep(0.03)
    with concurrent.futures.ThreadPoolExecutor(1) as pool:
        posting = pool.submit(post)
        try:
            until(lambda: len(waits) > 5)
            before, began = len(waits), time.monotonic()
            assert change(server)["position"] > number
            took, behind = time.monotonic() - began, len(waits)
            until(lambda: len(waits) > behind + 3)
        finally:
            stop.set()
        posting.result()
    figure(f"Day of {number} records: its change took {took:.2f} s, longest wait of a desk {max(waits[before - 1:]):.2f} s, "
           f"before that {sorted(waits[:before])[before // 2] * 1000:.0f} ms in the middle")
    assert max(waits) < 5 * FACTOR and len(flights(server)) == len(names)


def test_a_change_is_taken_at_its_position(tmp_path):
    """One that was carried over for another position is taken at none."""
    from board.log import Batch
    from board.sqlite import FileLog

    async def talk():
        log = FileLog(str(tmp_path / "day.db"), "")
        await log.open(b"DAY,2025-03-10\n", "program")
        try:
            assert await log.append(Batch("ap", [("AP", "FLT,AB1,5")])) == range(1, 2)
            with pytest.raises(Problem) as why:
                await log.append(Batch("tower", [("ATC", "DAY,2025-03-11")], change=Change(1, b"DAY,2025-03-11\n", b"")))
            assert why.value.status == 503 and len(await log.whole()) == 1 and await log.changes() == []
            assert await log.append(Batch("tower", [("ATC", "DAY,2025-03-11")], change=Change(2, b"DAY,2025-03-11\n", b"x\n"))) == range(2, 3)
            assert await log.change(2) == Change(2, b"DAY,2025-03-11\n", b"x\n") and [one.position for one in await log.changes()] == [2]
        finally:
            await log.close()
    asyncio.run(talk())


class Display:
    """A display that stays connected: its events, in order."""

    def __init__(self, server, desk="ap"):
        self.events, self.is_lost, self.connection = [], False, http.client.HTTPConnection("127.0.0.1", server.port, timeout=60)
        self.connection.request("GET", "/v1/events", headers={"Authorization": f"Bearer token-{desk}"})
        self.answer = self.connection.getresponse()
        threading.Thread(target=self.read, daemon=True).start()

    def read(self):
        name = ""
        with contextlib.suppress(OSError, ValueError, AttributeError):
            for line in self.answer:
                word, _, value = line.decode().strip().partition(": ")
                if word == "event":
                    name = value
                elif word == "data":
                    self.events.append((name, json.loads(value)))
        self.is_lost = True

    def close(self):
        self.connection.sock.close()


def test_a_display_stays_connected(board):
    """Through changes: it gets `reset`, reads the plan again, and shows what a new one shows."""
    server = begun(board(DESKS))
    display = Display(server)
    until(lambda: [name for name, _ in display.events][:1] == ["from"])
    for day in (11, 12, 13):
        position = change(server, f"{EVEN_SO}2025-03-{day}")["position"]
        until(lambda: ("reset", position) in [(name, said.get("position")) for name, said in display.events])
        reply, = server.post([f"PRIO,AB1,{day - 8}"], "tower")
        until(lambda: ("reply", reply["position"]) in [(name, said.get("position")) for name, said in display.events])
        # Behind the last `reset`, the replies lead from its plan to the present one.
        behind = [said for name, said in display.events if name == "reply" and said["position"] > position]
        assert [row for said in behind for row in said["changes"]] == [flights(server)["AB1"]]
        until(lambda: ("view", reply["position"]) in [(name, said.get("position")) for name, said in display.events])
    names = [name for name, _ in display.events if name in ("reset", "end")]
    assert names == ["reset"] * 3 and not display.is_lost and server.metric("cdm_restarts", "ap") == 0
    # Who comes back with an event of a day before reads the plan again; one of this day gets what came since.
    log_id = json.loads(server.get("/v1/who", "ap").body)["log"]
    for since, first in ((8, "reset"), (position - 1, "reset"), (position, "from")):
        connection = http.client.HTTPConnection("127.0.0.1", server.port, timeout=60)
        connection.request("GET", f"/v1/events?since={log_id}-{since}", headers={"Authorization": "Bearer token-ap"})
        answer = connection.getresponse()
        assert f"event: {first}\n".encode() in answer.readline() + answer.readline(), since
        connection.close()


def test_a_body_that_comes_in_halves(board):
    """Begun before the change, and ended after it: it is taken once, in the new day."""
    server = begun(board(DESKS))
    body = b"TOBT,AB1,2025-03-11T07:00Z"
    with socket.create_connection(("127.0.0.1", server.port)) as desk:
        desk.sendall(b"POST /v1/records HTTP/1.1\r\nHost: localhost\r\nAuthorization: Bearer token-ops\r\n"
                     b"Content-Length: %d\r\n\r\n%s" % (len(body), body[:9]))
        time.sleep(0.2)
        assert change(server)["position"] == 10
        desk.sendall(body[9:])
        answer = b""
        while b"\n" not in answer.partition(b"\r\n\r\n")[2]:
            answer += desk.recv(65536)
    assert answer.startswith(b"HTTP/1.1 200") and b'"position":11,' in answer
    assert [record["line"] for record in objects(server.get("/v1/records?day=2025-03-11", "ap").body)] == ["DAY,2025-03-11", body.decode()]


def test_a_change_while_the_log_is_away(board):
    """On a full disk, and while another program holds the file: the day doesn't begin, records and plans go on afterwards, and so does the change."""
    server = begun(board(DESKS))
    plan = server.get("/v1/plan.json", "ap")

    def limit_files(size):
        resource.prlimit(server.process.pid, resource.RLIMIT_FSIZE, (size, resource.getrlimit(resource.RLIMIT_FSIZE)[1]))
    size = max(file.stat().st_size for file in server.folder.glob("day.db*"))
    limit_files(size // 2)
    answer = change(server)
    assert answer.status in (503, 504), answer
    assert server.get("/v1/plan.json", "ap").body == plan.body
    limit_files(resource.getrlimit(resource.RLIMIT_FSIZE)[0])
    until(lambda: "Cdm-Stale-Since" not in server.get("/v1/plan", "ap").headers)
    with contextlib.closing(sqlite3.connect(server.log, isolation_level=None)) as other:
        other.execute("BEGIN IMMEDIATE")
        assert change(server).status in (503, 504)
        assert server.get("/v1/plan.json", "ap").body == plan.body
        other.execute("ROLLBACK")
    until(lambda: "Cdm-Stale-Since" not in server.get("/v1/plan", "ap").headers)
    assert server.post(["FLT,GH4,5"], "ap")[0]["position"] == 10
    assert change(server) == {"day": "2025-03-11", "position": 11, "before": "2025-03-10", "next": "2025-03-12"}
    assert set(flights(server)) == {"AB1", "EF3", "GH4"}


def test_a_change_on_a_full_disk(board):
    """Where the log's disk is full the day doesn't begin, and nothing else ends; with room again it begins, once."""
    server = board(DESKS, start=False)
    (server.folder / "full").mkdir()
    server.log = server.folder / "full" / "day.db"
    begun(server.start(mounted("2M", server.log.parent)))
    plan = server.get("/v1/plan.json", "ap")
    filling(server, "dd", "if=/dev/zero", f"of={server.log.parent}/more", "bs=4k", is_full=True)
    # More than fits into what SQLite has left of its last page.
    answer = change(server, body=NEXT + "".join(f"TAXI,S{number % 400},27L,9\n" for number in range(900)))
    assert answer.status in (503, 504), answer
    assert server.get("/v1/plan.json", "ap").body == plan.body
    until(lambda: "takes no records" in server.told() and server.get("/ready").status == 503)
    filling(server, "rm", f"{server.log.parent}/more")
    until(lambda: server.get("/ready").status == 200)
    assert change(server, "/v1/day") == {"day": "2025-03-11", "position": 10, "before": "2025-03-10", "next": "2025-03-12"}
    assert set(flights(server)) == {"AB1", "EF3"} and server.post(["PRIO,AB1,1"], "tower")[0]["position"] == 11


FILLS = "while :; do dd if=/dev/zero of=/dev/shm/more bs=4k oflag=append conv=notrunc; sleep 0.02; done 2> /dev/null"


def filling(server, *words, is_full=False):
    """What a command prints that is run among the files of a server, and fails if the disk is to be full."""
    ended = subprocess.run(["nsenter", "-m", "-t", str(server.process.pid), *words], capture_output=True)
    assert (b"No space left" in ended.stderr) == is_full, ended
    return ended.stdout


@needs_postgres
def test_a_change_without_room_for_its_files(board, chance, cluster):
    """Neither a server that makes a change nor one that comes to it has room for the day's files: the first begins no day, the second takes
    no records and tells no other day until there is room."""
    words = {"log": cluster.url(), "options": ["--board", f"{chance.randrange(1 << 62):x}"]}
    one, other = board(DESKS, **words), board(DESKS, start=False, **words)
    other.start(mounted("64M", "/dev/shm"))
    begun(one)
    until(lambda: other.metric("cdm_position", "ap") == 9)
    # What the server gives back is taken too.
    filler = subprocess.Popen(["nsenter", "-m", "-t", str(other.process.pid), "sh", "-c", FILLS], start_new_session=True)
    until(lambda: filling(other, "df", "--output=avail", "/dev/shm").split()[-1] == b"0")
    answer = change(other)
    assert answer.status == 503 and "No space left" in json.loads(answer.body)["detail"], answer
    assert change(one)["position"] == 10
    until(lambda: "No space left on device" in other.told())
    time.sleep(3)
    assert other.told().count("it is tried again") == 1, other.told()
    assert json.loads(other.get("/health").body)["position"] == 9 and other.get("/ready").status == 503
    with concurrent.futures.ThreadPoolExecutor(1) as pool:
        late = pool.submit(other.post, ["PRIO,AB1,1"], "tower")
        until(lambda: one.metric("cdm_position", "ap") == 11)
        assert not late.done()
        os.killpg(filler.pid, signal.SIGKILL)
        filler.wait()
        filling(other, "rm", "/dev/shm/more")
        assert late.result()[0]["position"] == 11
    assert one.get("/v1/plan.json", "ap").body == other.get("/v1/plan.json", "ap").body


@needs_postgres
def test_a_change_while_the_database_is_away(board, tmp_path):
    """It isn't made; after the database is back, it is."""
    with clusters.clusters() as (database,):
        server = begun(board(DESKS, log=database.url()))
        database.kill()
        assert change(server).status in (503, 504)
        assert json.loads(server.get("/health").body)["position"] == 9
        database.start()
        until(lambda: "Cdm-Stale-Since" not in server.get("/v1/plan", "ap").headers, 30)
        assert change(server, EVEN)["position"] == 10


def test_a_log_of_before_goes_on(board):
    """A log that a release without changes of day has made is a log with one day."""
    server = begun(board(DESKS))
    plan = server.get("/v1/plan.json", "ap")
    assert server.end() == 0
    with contextlib.closing(sqlite3.connect(server.log, isolation_level=None)) as database:
        database.execute("DROP TABLE cdm_day")
        database.execute("UPDATE cdm_log SET version = 'cdmseq 1.0.0'")
    assert cdmboard("verify", server.log).stdout == "9 records, 8 accepted, 0 digests of replies\n"
    assert cdmboard("export", server.log).stdout.encode() == cdmboard("export", server.log, "--day", "2025-03-10").stdout.encode() != b""
    assert server.start().get("/v1/plan.json", "ap").body == plan.body
    # A line of before that the program refused is no change of day.
    assert server.post(["DAY,2025-03-11"], "tower")[0]["word"] == "KIND"
    assert in_file(server, "SELECT version FROM cdm_log") == [("cdmseq 1.0.0",)]
    assert change(server)["position"] == 11 and set(flights(server)) == {"AB1", "EF3"}
    # That release would take both days for one. It serves a log of its own version alone.
    assert in_file(server, "SELECT version FROM cdm_log") == [("cdmseq 1.0.0 (rules 1)",)]
    assert server.end() == 0
    assert set(flights(server.start())) == {"AB1", "EF3"}


def in_file(server, query):
    with contextlib.closing(sqlite3.connect(server.log, isolation_level=None)) as database:
        return database.execute(query).fetchall()


def test_a_start_reads_the_last_day(board):
    """And nothing before it, which `verify` reads; a change of day that was changed ends a start."""
    server = begun(board(DESKS))
    change(server)
    server.post(["GROUP,AB1,H"], "ap")
    before = flights(server)
    assert server.end() == 0
    in_file(server, "UPDATE cdm_record SET line = 'FLT,AB1,4' WHERE position = 1")
    assert flights(server.start()) == before
    assert server.end() == 0
    told = cdmboard("verify", server.log)
    assert (told.returncode, told.stdout) == (3, "") and "position 10 carried over otherwise" in told.stderr
    in_file(server, "UPDATE cdm_day SET feed = CAST(CAST(feed AS TEXT) || 'ATC,PRIO,AB1,1\n' AS BLOB)")
    told = cdmboard(server.airport, server.log, *server.options)
    assert told.returncode == 3 and "the change of day at position 10 was changed" in told.stderr


def test_a_start_with_the_airport_file_of_any_day(board):
    """Of the first one, or of the present one, whatever its DAY; with another one there is no start."""
    server = begun(board(DESKS))
    other = NEXT.replace("RUNWAY,09,15,20", "RUNWAY,09,15,21")
    assert change(server, body=other)["position"] == 10
    assert server.end() == 0
    for text in (AIRPORT, other, other.replace("2025-03-11", "2025-03-29")):
        server.airport.write_text(text)
        assert server.start().get("/v1/airport.csv", "ap").body.decode() == other
        assert server.end() == 0
    server.airport.write_text(AIRPORT.replace("2025-03-10", "2025-03-11"))
    told = cdmboard(server.airport, server.log, *server.options)
    assert told.returncode == 3 and "belongs to another airport file" in told.stderr


@needs_postgres
def test_a_server_that_carries_over_otherwise_ends(board, chance, cluster):
    """Another program than that of the server which made the change."""
    words = {"log": cluster.url(), "options": ["--board", f"{chance.randrange(1 << 62):x}"]}
    one = board(DESKS, **words)
    other = board(DESKS, start=False, **words)
    other.program("""[ "$1" = carry ] && { $PROGRAM "$@" | sed s/FLT,AB1,5/FLT,AB1,6/; exit; }""")
    other.start()
    begun(one)
    until(lambda: other.metric("cdm_position", "ap") == 9)
    assert change(one)["position"] == 10
    until(lambda: other.process.poll() is not None, 20)
    assert other.process.returncode == 3 and "position 10 carried over otherwise than this program does" in other.told()
    assert one.post(["PRIO,AB1,1"], "tower")[0]["reply"] == "ACCEPTED"


def test_digests_go_on_over_days(board):
    """Each 1,000 positions, in each day; `verify` finds a reply that another program gives."""
    server = begun(board({**DESKS, **{f"ap-{number}": 'role = "AP"' for number in range(6)}}))
    for day in (11, 12):
        change(server, f"{EVEN_SO}2025-03-{day}")
        for number in range(6):
            assert len(server.post([f"GROUP,AB1,{'HM'[number % 2]}" for number in range(200)], f"ap-{number}")) == 200
        assert server.end() == 0
        server.start()
    until(lambda: [position for position, in in_file(server, "SELECT position FROM cdm_digest ORDER BY position")] == [1000, 2000])
    assert server.end() == 0
    assert cdmboard("verify", server.log).stdout.endswith(" 2 digests of replies, 3 days\n")
    in_file(server, "UPDATE cdm_digest SET digest = replace(digest, 'a', 'b')")
    assert "of the positions 11 to 1000 has another reply than before" in cdmboard("verify", server.log).stderr
    told = cdmboard(server.airport, server.log, *server.options)
    assert told.returncode == 3 and "of the positions 1212 to 2000 has another reply than before" in told.stderr


class Looks:
    """A board for `--day-at`: what is told of it, and what it makes."""

    def __init__(self, day, lines=()):
        self.lines, self.made, self.day = list(lines), [], mock.Mock(date=day)
        self.changing = changing.Changing(None, self.day, None, mock.Mock())
        self.changing.told, self.changing.make = self.told, self.make

    async def told(self, asker):
        if self.lines == ["away"]:
            raise Problem(503, "the log is away")
        return 0, self.lines

    async def make(self, desk, day, airport):
        self.made.append(day)
        self.day.date = day

    def look(self, at, now):
        """What is said at a time."""
        moment = datetime.datetime.fromisoformat(f"{now}:00+00:00")
        with mock.patch.object(changing, "datetime", mock.Mock(wraps=datetime.datetime, now=lambda _: moment)):
            return asyncio.run(self.changing._look(changing.time_of(at)))


def test_the_day_changes_by_itself():
    """At its time of the next day, each day once; later by up to two hours while a flight is LEFT, which is said."""
    looks = Looks("2025-03-10")
    assert [looks.look("03:00", f"2025-03-{now}") for now in ("10T03:00", "10T23:59", "11T02:59")] == ["", "", ""]
    assert looks.look("03:00", "2025-03-11T03:00") == "2025-03-11 has begun" and looks.look("03:00", "2025-03-11T03:01") == ""
    assert looks.made == ["2025-03-11"]
    # One that stood still for days comes to each.
    looks.look("03:00", "2025-03-14T02:00"), looks.look("03:00", "2025-03-14T02:00"), looks.look("03:00", "2025-03-14T02:00")
    assert looks.made == ["2025-03-11", "2025-03-12", "2025-03-13"]
    left = "LEFT    AB1 27L AOBT 132350 TTOT 140305"
    looks.lines = [left, "GONE    1"]
    assert all(left in looks.look("03:00", f"2025-03-14T{now}") for now in ("03:00", "04:59")) and looks.made[-1] == "2025-03-13"
    assert looks.look("03:00", "2025-03-14T05:00") == f"2025-03-14 has begun; LEFT behind: {left}" and looks.made[-1] == "2025-03-14"
    looks.lines = ["away"]
    assert "doesn't begin yet: the log is away" in looks.look("03:00", "2025-03-15T03:00") and looks.made[-1] == "2025-03-14"
    looks.lines = []
    assert looks.look("03:00", "2025-03-15T03:01") == "2025-03-15 has begun"
    for wrong in ("00:59", "22:00", "3:00", "03", "03:00:00", "25:00", "ab:cd"):
        with pytest.raises(ValueError):
            changing.time_of(wrong)


def test_a_server_changes_the_day(board):
    """At its time of the next day, which is past; and says so."""
    today = datetime.datetime.now(datetime.timezone.utc).date()
    first = str(today - datetime.timedelta(days=2))
    server = board(DESKS, ["--day-at", "01:00"], airport=AIRPORT.replace("2025-03-10", first))
    until(lambda: json.loads(server.get("/v1/day.json", "ap").body)["day"] > first, 20)
    until(lambda: f"cdmboard: {today - datetime.timedelta(days=1)} has begun" in server.told())
    record = server.records("ap")[0]
    assert (record["desk"], record["role"], record["line"]) == ("day-at", "ATC", f"DAY,{today - datetime.timedelta(days=1)}")
    wrong = cdmboard(server.airport, server.log, "--day-at", "00:30")
    assert wrong.returncode == 2 and "--day-at" in wrong.stderr


def test_airport_files_of_two_days():
    """They differ in the day alone."""
    assert dated(AIRPORT.encode(), "2025-03-11") == NEXT.encode() and undated(AIRPORT.encode()) == undated(NEXT.encode())
    assert dated(b'"DAY","2025-03-10"\r\n', "2025-03-11") == b'"DAY","2025-03-11"\r\n'
    assert undated(AIRPORT.encode()) != undated(AIRPORT.encode() + b"RUNWAY,36,10,2\n")
    assert Change(0, b"").file == "airport.csv" and Change(7, b"").file == "airport-7.csv"
    changes = [mock.Mock(position=10, line="DAY,2025-03-11"), mock.Mock(position=11, line="DAY,2025-03-12")]
    assert [tuple(span) for span in spans_of("", changes)] == [(0, "2025-03-10", 9), (10, "2025-03-11", 10), (11, "2025-03-12", 0)]
    assert [tuple(span) for span in spans_of("2025-03-10", [])] == [(0, "2025-03-10", 0)]
