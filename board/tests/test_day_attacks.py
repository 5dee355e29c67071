"""Attacks on the change of day: rows that a login of the database wrote, readers of earlier days, broken clients, a clock that jumps."""
import asyncio
import base64
import concurrent.futures
import datetime
import hashlib
import json
import os
import re
import subprocess
import sys
import time
from unittest import mock

import clusters
import pytest
from conftest import AIRPORT, FACTOR, PROGRAM, ROOT, objects, until

sys.path.insert(0, str(ROOT))
from board import answers, changing, postgres, sqlite  # noqa: E402
from board.log import Batch, Change, Record  # noqa: E402
from board.words import Fault, Problem  # noqa: E402

needs_postgres = pytest.mark.skipif(bool(clusters.missing()), reason=f"a log in PostgreSQL: {' and '.join(clusters.missing())} missing")
DESKS = {"ap": 'role = "AP"', "ops": 'role = "AO"', "tower": 'role = "ATC"\nclock = true', "other": 'role = "ATC"'}
NEXT = AIRPORT.replace("2025-03-10", "2025-03-11")


def cdmboard(*words):
    """How it ended. A server that starts is ended after a while."""
    command = ["timeout", str(20 * FACTOR), str(ROOT / "cdmboard"), *map(str, words)]
    return subprocess.run(command, env=dict(os.environ, CDMSEQ=PROGRAM), capture_output=True, text=True)


def begun(server):
    """Two flights of which one goes on; it is three o'clock of the second day."""
    server.post(["FLT,AB1,5", "FLT,CD2,5"], "ap")
    server.post(["RWY,AB1,27L", "CLOCK,2025-03-11T03:00Z"], "tower")
    server.post(["TOBT,AB1,2025-03-11T06:00Z", "CNL,CD2"], "ops")
    return server


def day_of(server):
    """The date of its day."""
    return objects(plan_of(server))[0]["day"]


def plan_of(server, path="/v1/plan.json"):
    """What it says, once it has the time."""
    answer = server.get(path, "ap")
    while answer.status == 503:
        time.sleep(0.5)
        answer = server.get(path, "ap")
    assert answer.status == 200, answer
    return answer.body


def write_day(cluster, board, date, airport, feed=b"", desk="tower"):
    """Writes a change of day as a login may that has a server's role: with its function, and at the position behind the last record."""
    airport = airport.encode() if isinstance(airport, str) else airport
    last = int(cluster.sql(f"SELECT coalesce(max(position), 0) FROM cdm_record WHERE board = '{board}'", who="cdm"))
    change = {"position": last + 1, "airport": base64.b64encode(airport).decode(), "feed": base64.b64encode(feed).decode(),
              "digest": hashlib.sha256(airport + feed).hexdigest()}
    batch = {"desk": desk, "records": [["ATC", f"DAY,{date}"]], "key": None, "most": 9, "end": 9, "at": "2025-03-11T03:00:00.000Z",
             "address": None, "closed": False, "change": change}
    told = json.loads(cluster.sql(f"SELECT cdm_append('{board}', '{json.dumps([batch])}'::jsonb)", who="cdm"))
    cluster.sql(f"SELECT pg_notify('cdm_record', '{board}')", who="cdm")
    return told[0]


BAD = {"an airport file that is none": ("2025-03-11", "RUNWAY,27L\n", b""), "no airport file": ("2025-03-11", "", b""),
       "bytes": ("2025-03-11", bytes(range(256)), b""), "the airport file of another day": ("2025-03-11", AIRPORT, b""),
       "a day that is none": ("2025-13-45", NEXT, b""), "the last day of all": ("9999-12-31", NEXT, b""), "the first": ("0001-01-01", NEXT, b""),
       "a day a year on": ("2026-03-10", AIRPORT.replace("2025-03-10", "2026-03-10"), b""), "the same day": ("2025-03-10", AIRPORT, b""),
       "a feed that is refused": ("2025-03-11", NEXT, b"AP,FLT,AB1,5\nATC,RWY,AB1,36\n"), "a feed of bytes": ("2025-03-11", NEXT, bytes(range(256))),
       "a feed of two lines in one": ("2025-03-11", NEXT, b"AP,FLT,AB1,5\x0cAP,FLT,AB2,5\n"), "a feed of quotes": ("2025-03-11", NEXT, b'"AP","FLT","AB1","5"\n')}


@needs_postgres
def test_a_day_that_no_server_can_begin_is_none(board, chance, cluster):
    """It is named, and refused as a record: servers go on, also after a start, and the next day begins behind it."""
    name = f"{chance.randrange(1 << 62):x}"
    words = {"log": cluster.url(), "options": ["--board", name]}
    server, other = board(DESKS, **words), board(DESKS, **words)
    begun(server)
    plan = objects(plan_of(server))[0]["flights"]
    for last, bad in enumerate(BAD, 7):
        assert write_day(cluster, name, *BAD[bad]) == {"first": last, "count": 1}, bad
        until(lambda: server.metric("cdm_position", "ap") == last, 40)
    until(lambda: other.metric("cdm_position", "ap") == last, 40)
    for one in (server, other):
        assert [record.get("word") for record in one.records("ap")[6:]] == ["KIND"] * len(BAD)
        assert objects(plan_of(one))[0]["flights"] == plan and day_of(one) == "2025-03-10"
        assert all(f"the change of day at position {position} begins no day" in one.told() for position in range(7, last + 1))
    assert server.end() == 0
    server.start()
    assert [record.get("word") for record in server.records("ap")[6:]] == ["KIND"] * len(BAD) and day_of(server) == "2025-03-10"
    # The next day begins behind them, and each server has the days before as they were.
    assert server.post(["PRIO,AB1,7"], "tower")[0]["position"] == last + 1
    begins = server.request("POST", "/v1/day", "", "tower")
    assert json.loads(begins.body) == {"day": "2025-03-11", "position": last + 2, "before": "2025-03-10", "next": "2025-03-12"}
    until(lambda: day_of(other) == "2025-03-11")
    write_day(cluster, name, "2025-03-12", "RUNWAY,27L\n")
    write_day(cluster, name, "2025-03-11", NEXT, b"AP,FLT,XX1,5\n")
    until(lambda: other.metric("cdm_position", "ap") == last + 4)
    assert other.end() == 0
    other.start()
    for one in (server, other):
        assert [len(objects(plan_of(one, f"/v1/records?day=2025-03-1{day}"))) for day in (0, 1)] == [last + 1, 3]
        assert {row["flight"] for row in objects(plan_of(one, "/v1/plan.json?day=2025-03-10"))[0]["flights"]} == {"AB1", "CD2"}
        assert [row["priority"] for row in objects(plan_of(one))[0]["flights"]] == [7]
    assert cdmboard("verify", cluster.url(), "--board", name).stdout == f"{last + 4} records, 7 accepted, 0 digests of replies, 2 days\n"
    assert len(cdmboard("export", cluster.url(), "--board", name, "--day", "2025-03-10").stdout.splitlines()) == 7


@needs_postgres
def test_a_day_that_carries_over_something_else_is_removed(board, chance, cluster):
    """It ends the servers, which say where; by the lines of the page the board goes on as it was before."""
    name = f"{chance.randrange(1 << 62):x}"
    server = begun(board(DESKS, log=cluster.url(), options=["--board", name]))
    assert write_day(cluster, name, "2025-03-11", NEXT, b"AP,FLT,XX1,5\n") == {"first": 7, "count": 1}
    until(lambda: server.process.poll() is not None, 40)
    assert server.process.returncode == 3 and "position 7 carried over otherwise than this program does" in server.told()
    ended = cdmboard("verify", cluster.url(), "--board", name)
    assert ended.returncode == 3 and "position 7 carried over otherwise" in ended.stderr
    lines, = re.findall(r"```sql\n(BEGIN;[^`]*>= 4711;\nCOMMIT;)\n```", (ROOT / "docs/POSTGRES.md").read_text())
    cluster.sql(lines.replace("4711", "7").replace("EDDF", name))
    server.start()
    assert day_of(server) == "2025-03-10" and server.metric("cdm_position", "ap") == 6
    assert server.request("POST", "/v1/day", "", "tower").status == 200 and day_of(server) == "2025-03-11"


@needs_postgres
def test_no_login_writes_a_day_that_can_t_be_read(chance, cluster):
    """A file that is larger than the program reads."""
    name = f"{chance.randrange(1 << 62):x}"
    cluster.sql(f"SELECT cdm_append('{name}', '[]', 'id', 'x', 'v')", who="cdm")
    for airport, feed in ((8_388_608, 0), (8_388_609, 0), (0, 8_388_609)):
        said = f"""SELECT cdm_append('{name}', jsonb_build_array(jsonb_build_object('desk', 'd', 'records', '[["ATC", "DAY,2025-03-11"]]'::jsonb, 'at', 't',
            'most', 9, 'end', 9, 'closed', false, 'change', jsonb_build_object('position', 1, 'airport', encode(a, 'base64'), 'feed', encode(f, 'base64'),
            'digest', encode(sha256(a || f), 'hex'))))) FROM (SELECT convert_to(repeat('x', {airport}), 'UTF8') a, convert_to(repeat('x', {feed}), 'UTF8') f) made"""
        if airport > 8_388_608 or feed:
            with pytest.raises(RuntimeError, match="cdm_day_readable"):
                cluster.sql(said, who="cdm")
        else:
            assert cluster.sql(f"BEGIN; {said}; ROLLBACK", who="cdm") == '[{"count": 1, "first": 1}]'


@pytest.fixture(params=["sqlite", "postgres"])
def open_log(request, tmp_path, chance):
    """Has something done with a log, which is opened with an airport file."""
    if request.param == "postgres":
        url, name = request.getfixturevalue("cluster").url(), f"{chance.randrange(1 << 62):x}"

    def opened(airport, what):
        async def all_of_it():
            log = sqlite.FileLog(str(tmp_path / "day.db"), "") if request.param == "sqlite" else postgres.PostgresLog(url, name)
            try:
                await log.open(airport, "v")
                return await what(log)
            finally:
                await log.close()
        return asyncio.run(all_of_it())
    return opened


def day_batch(position, airport):
    return Batch("tower", [("ATC", "DAY,2025-03-11")], change=Change(position, airport, b""))


def test_a_start_whatever_airport_file_came_last(open_log):
    """With a file that the log had, though a login has written another one behind it."""
    first, second, other = b"DAY,2025-03-10\n", b"DAY,2025-03-11\nRUNWAY,27L,10,2\n", b"DAY,2025-03-11\nRUNWAY,36,10,2\n"

    async def what(log):
        return [await log.append(day_batch(1, second)), await log.append(day_batch(2, other))]
    assert open_log(first, what) == [range(1, 2), range(2, 3)]

    async def changes(log):
        return [change.position for change in await log.changes()]
    for airport in (first, second, other, second.replace(b"-11", b"-29")):
        assert open_log(airport, changes) == [1, 2]
    for airport in (first.replace(b"-10", b"-11"), second + b"TAXI,*,27L,9\n", b"", b"DAY,"):
        with pytest.raises(Fault, match="another airport file"):
            open_log(airport, changes)


def test_a_flight_is_sought_where_flights_stand(open_log):
    """Each day in which a word stands elsewhere would be read anew, in one request."""
    lines = ["FLT,AB1,5", "RWY,AB1,27L", "RATE,27L,2025-03-10T06:00Z,2025-03-10T07:00Z,5", "FLT,5,AB1", "TOBT,AB12,2025-03-10T06:00Z", "AB1", "STAND,AB1,A5"]

    async def what(log):
        await log.append(Batch("ap", [("AP", line) for line in lines]))
        kinds = ["FLT", "RWY", "TOBT", "STAND"]
        asked = [(0, "AB1", None), (2, "AB1", None), (0, "5", None), (4, "5", None), (0, "27L", None), (0, "A", None), (0, "AB12", "ap"), (0, "AB1", "ops"),
                 (0, "", None), (0, None, "ap"), (3, None, "ap"), (0, "2025-03-10T06:00Z", None)]
        return [await log.sought(after, 100, flight, desk, kinds) for after, flight, desk in asked]
    assert open_log(b"DAY,2025-03-10\n", what) == [1, 7, 4, None, None, None, 5, None, None, 1, 4, None]


def test_a_day_is_made_beside_the_loop():
    """A reader of earlier days holds up no desk, however large they are."""
    async def talk():
        async def asked(*_, **__):
            return json.dumps({"day": "2025-03-10", "refused": []}).encode()
        ticks = 0

        async def tick():
            nonlocal ticks
            while True:
                await asyncio.sleep(0.01)
                ticks += 1
        with mock.patch.object(answers, "asked", asked), mock.patch.object(answers, "Day", lambda *_: time.sleep(0.5)):
            ticking = asyncio.create_task(tick())
            await answers.day_of("/tmp", "", [Record(1, "ap", "AP", "FLT,AB1,5")])
            ticking.cancel()
        assert ticks >= 5
    asyncio.run(talk())


NOON = datetime.datetime(2025, 3, 10, 12, tzinfo=datetime.timezone.utc)


def looked(seconds, day, ahead=0.0, happens=lambda number: None):
    """At which of some looks at the clock, by seconds after noon, a day may begin, and what is said. `day`: the day at the start, and `happens`:
    what happens to it before each look."""
    times = [NOON + datetime.timedelta(seconds=one) for one in seconds]
    left, looks, said = list(times), [], []

    class Board(changing.Changing):
        async def _look(self, at):
            looks.append(int((left[0] - NOON).total_seconds()))
            return ""

    async def sleep(_):
        left.pop(0)
        if not left:
            raise asyncio.CancelledError
        happens(len(times) - len(left))

    async def talk():
        board = Board(mock.Mock(clock_ahead=ahead), day, None, mock.Mock())
        with mock.patch.object(changing, "datetime", mock.Mock(wraps=datetime.datetime, now=lambda _: left[0])), \
                mock.patch.object(changing.asyncio, "sleep", sleep), mock.patch.object(changing, "tell", said.append):
            await board.run(datetime.time(3))
    with pytest.raises(asyncio.CancelledError):
        asyncio.run(talk())
    return looks, said


def day_with(clock="", at="", position=0):
    """A day of 10 March: NOW, when its last record was taken, and the position of its change."""
    return mock.Mock(date="2025-03-10", clock=clock, at=lambda _: at, position=7, change=Change(position, b""), records=[Record(position, "day-at", "ATC", "")])


def test_a_clock_that_jumps_begins_no_day():
    """The machine's clock goes a year on: no day begins by itself, until it is right again."""
    looks, said = looked([0, 20, 320, 360 * 86_400, 360 * 86_400 + 20, 340, 330 + 301, 340], day_with())
    assert looks == [0, 20, 320, 340, 631, 340]
    assert said == ["cdmboard: no day begins by itself: this machine's clock is more than 5 minutes after 2025-03-10T12:05Z, when it was last looked at; "
                    "a new start goes by it"]


A_DAY = 86_400


@pytest.mark.parametrize("known", [{"clock": "2025-03-10T12:00Z"}, {"at": "2025-03-10T12:00:00.000Z"}, {"clock": "2025-03-10T09:00Z", "at": "2025-03-10T12:00:00Z"},
                                   {"clock": "2025-03-10T12:00Z", "at": "2025-03-10T09:00:00Z"}], ids=["NOW", "taken", "taken last", "NOW last"])
def test_a_clock_that_is_wrong_at_the_start_begins_no_day(known):
    """It is a day or a year after the last that the log knew of the time: no day begins by itself, which is said once, until it is right."""
    assert looked([A_DAY], day_with(**known)) == ([A_DAY], [])
    looks, said = looked([A_DAY + 1, 365 * A_DAY, 365 * A_DAY + 60, A_DAY, A_DAY + 20], day_with(**known))
    assert looks == [A_DAY, A_DAY + 20]
    assert said == ["cdmboard: no day begins by itself: this machine's clock is more than a day after 2025-03-10T12:00Z, the last that the log knew of the "
                    "time; if it is right, begin the day (POST /v1/day)"]


@pytest.mark.parametrize("at", ["", "2026-03-10T12:00:00.000Z", "whatever", "2025-03-10"])
def test_a_clock_that_was_wrong_before_begins_no_day(at):
    """What a record says of the time, that a clock a year on or a login has written, counts no further than the day's two days."""
    assert looked([2.5 * A_DAY], day_with(at=at)) == ([2.5 * A_DAY], [])
    assert looked([2.5 * A_DAY + 60, 365 * A_DAY], day_with(at=at))[0] == []


@pytest.mark.parametrize("desk, begun, may", [("tower", "2025-03-13", True), ("tower", "2025-03-12", False), ("day-at", "2025-03-13", False)])
def test_whoever_begins_a_day_knows_what_day_it_is(desk, begun, may):
    """After a stop of days the tower begins the day by hand: if the clock is of this day, days begin by themselves again, without a new start.
    That another server's clock has begun it says nothing of this one's."""
    day = day_with("2025-03-10T12:00Z")

    def happens(number):
        if number == 2:
            day.change, day.records, day.date = Change(9, b""), [Record(9, desk, "ATC", f"DAY,{begun}")], begun
    seconds = [3 * A_DAY, 3 * A_DAY + 20, 3 * A_DAY + 40, 3 * A_DAY + 60, 5 * A_DAY]
    assert looked(seconds, day, happens=happens)[0] == (seconds[2:4] if may else [])


@pytest.mark.parametrize("ahead", [301.0, -301.0, 299.0, -299.0])
def test_a_clock_that_is_not_the_database_s_begins_no_day(ahead):
    looks, said = looked([0, 20], day_with(), ahead)
    assert (looks, len(said)) == (([0, 20], 0) if abs(ahead) < 300 else ([], 1))


@needs_postgres
def test_the_database_s_clock_is_read(chance, cluster):
    """Each second, and before the first record."""
    async def talk():
        log = postgres.PostgresLog(cluster.url(), f"{chance.randrange(1 << 62):x}")
        with mock.patch.object(postgres.time, "time", lambda real=time.time: real() + 400):
            await log.open(AIRPORT.encode(), "v")
        try:
            assert 399 < log.clock_ahead < 401
            await asyncio.sleep(2 * FACTOR)
            assert abs(log.clock_ahead) < 5
        finally:
            await log.close()
    asyncio.run(talk())


def test_a_server_whose_clock_is_a_year_on_begins_no_day(board):
    """Its log is of a day a year ago, as it would be if the machine's clock were wrong."""
    first = datetime.datetime.now(datetime.timezone.utc).date() - datetime.timedelta(days=365)
    server = board(DESKS, ["--day-at", "01:00"], airport=AIRPORT.replace("2025-03-10", str(first)))
    until(lambda: "cdmboard: no day begins by itself: this machine's clock is more than a day after" in server.told())
    assert day_of(server) == str(first)
    following = first + datetime.timedelta(days=1)
    assert server.request("POST", f"/v1/day?even=yes&day={following}", "", "tower").status == 200 and day_of(server) == str(following)


def test_a_change_of_which_nothing_is_known():
    """Whoever made it is told what to ask: a change of day has no key with which it could be sent again."""
    def made(status):
        async def fails(_):
            raise Problem(status, "send again with the same key")

        async def carry(_):
            return b""

        async def reached(_):
            return None
        day = mock.Mock(date="2025-03-10", position=6, reached=reached, change=Change(0, AIRPORT.encode()))
        records = mock.Mock(is_closing=False, sequencer=mock.Mock(carry=carry))
        making = changing.Changing(mock.Mock(append=fails), day, None, records)
        with pytest.raises(Problem) as raised:
            asyncio.run(making.make(changing.DAY_AT_DESK, "2025-03-11", None))
        return raised.value.status, str(raised.value)
    assert made(504) == (504, "it isn't known whether 2025-03-11 has begun; ask again, with ?day=2025-03-11")
    assert made(503) == (503, "send again with the same key")


def test_a_change_that_is_sent_again(board):
    """Doubled by its client: a key isn't taken for what it doesn't do, and the file of the present day begins no other one."""
    server = begun(board(DESKS))
    for _ in range(2):
        answer = server.request("POST", "/v1/day?even=yes&day=2025-03-11", "", "tower", Idempotency_Key="k")
        assert answer.status == 400 and "?day=" in json.loads(answer.body)["detail"]
    assert day_of(server) == "2025-03-10"
    # The file that is to begin the next day still has the DAY of the present one.
    for path, status in (("/v1/day", 422), ("/v1/day?day=2025-03-11", 422), ("/v1/day?day=2025-03-12", 409), ("/v1/day?day=2025-03-10", 200)):
        assert server.request("POST", path, AIRPORT, "tower").status == status, path
    assert day_of(server) == "2025-03-10"
    for path, status in (("/v1/day", 200), ("/v1/day", 200), ("/v1/day?day=2025-03-11", 200), ("/v1/day?day=2025-03-12", 422), ("/v1/day?day=2025-03-10", 409)):
        assert server.request("POST", path, NEXT, "tower").status == status, path
    assert day_of(server) == "2025-03-11" and server.metric("cdm_position", "ap") == 7
    # Nor does a request without a body, which came twice.
    again = server.request("POST", "/v1/day", "", "tower")
    assert again.status == 409 and "?day=2025-03-12" in json.loads(again.body)["detail"] and day_of(server) == "2025-03-11"
    assert server.request("POST", "/v1/day?even=yes&day=2025-03-12", "", "tower").status == 200


def test_a_day_is_begun_even_so_by_its_date(board):
    """Sent twice, a request that names none would begin two days, of which the second one drops whatever is in its way."""
    server = begun(board(DESKS))
    for path, body in (("/v1/day?even=yes", ""), ("/v1/day?even=yes", NEXT)):
        answer = server.request("POST", path, body, "tower")
        assert answer.status == 400 and json.loads(answer.body)["detail"].endswith("?even=yes&day=2025-03-11"), path
    assert day_of(server) == "2025-03-10"
    for _ in range(2):
        assert server.request("POST", "/v1/day?even=yes&day=2025-03-11", "", "tower").status == 200
    assert day_of(server) == "2025-03-11"


def test_a_day_that_ends_while_it_is_asked_about(board):
    """The answer is of the day that was asked for, not of the next one."""
    server = board(DESKS, start=False)
    server.program('[ "$1" = plan -a -e "$0.slow" -a "$4" = --format ] && sleep 4')
    server.start()
    begun(server)
    server.post(["FOO"], "ap")
    (server.folder / "program.slow").touch()
    with concurrent.futures.ThreadPoolExecutor(2) as pool:
        asked = pool.submit(server.get, "/v1/plan.json?day=2025-03-10", "ap")
        time.sleep(1)
        (server.folder / "program.slow").unlink()
        assert server.request("POST", "/v1/day", "", "tower").status == 200
        answer = asked.result()
    assert answer.status == 200 and objects(answer.body)[0]["day"] == "2025-03-10" and answer.headers["Cdm-Position"] == "7"


def test_a_record_that_comes_while_a_change_is_checked(board):
    """What the new airport file would refuse is told also if it came last."""
    server = board(DESKS, start=False)
    server.program('[ "$1" = carry -a -e "$0.slow" ] && { $PROGRAM "$@"; status=$?; sleep 2; exit $status; }')
    server.start()
    begun(server)
    (server.folder / "program.slow").touch()
    other = "".join(line + "\n" for line in NEXT.splitlines() if "09" not in line)
    with concurrent.futures.ThreadPoolExecutor(2) as pool:
        posted = pool.submit(server.request, "POST", "/v1/day", other, "tower")
        time.sleep(1)
        assert server.post(["RWY,AB1,09"], "other")[0]["reply"] == "ACCEPTED"
        (server.folder / "program.slow").unlink()
        answer = posted.result()
    assert answer.status == 409 and "UNKNOWN ATC,RWY,AB1,09" in json.loads(answer.body)["detail"]
    assert day_of(server) == "2025-03-10"
    assert server.request("POST", "/v1/day?even=yes&day=2025-03-11", other, "tower").status == 200 and day_of(server) == "2025-03-11"


def test_a_crowd_of_readers_keeps_no_desk_waiting(board):
    """Who has no desk has earlier days read one after the other with all others, however many addresses there are."""
    server = board(DESKS, ["--behind-proxy"], start=False)
    server.write_desks(DESKS, "anyone")
    server.program('[ "$1" = plan -a -e "$0.slow" ] && sleep 3')
    begun(server.start())
    for day in range(11, 15):
        assert server.request("POST", f"/v1/day?even=yes&day=2025-03-{day}", "", "tower").status == 200
    (server.folder / "program.slow").touch()
    with concurrent.futures.ThreadPoolExecutor(24) as pool:
        crowd = [pool.submit(server.get, f"/v1/journal.csv?day=2025-03-1{number % 3}", X_Forwarded_For=f"10.{number}.0.1") for number in range(24)]
        time.sleep(0.5)
        answer = server.get("/v1/journal.csv?day=2025-03-13", "ap", X_Forwarded_For="10.99.0.1")
        assert answer.status == 200 and {asked.result().status for asked in crowd} <= {200, 503}
