"""What could help a flight, over HTTP. The day by hand is in browser.py.

DLH2 is ready at 06:15 and takes off at 06:20: the cell of 27L up to there has BAW3 and DLH1, and takes two. All of them have priority 5. On 09 DLH2
would be ready at 06:12, before the closure, where the cell is free. One more in its cell puts it at 06:15. As one of priority 4 it goes before
both others; then DLH1 takes off at 06:20 in its place. The minutes of delay are 28 of RYR6, 13 of AFR4 and 5 of DLH2; EZY7 and KLM5 are blocked."""
import concurrent.futures
import http.client
import time

import pytest
from browser import AIRPORT, DAY, fill
from conftest import FACTOR, PROGRAM, has, objects

DESKS = {role.lower(): f'role = "{role}"' + "\nclock = true" * (role == "ATC") for role in (*DAY, "GH")}
NOW = {"placed": 5, "delay": 46, "max": 28, "late": 1, "blocked": 2}
DLH2 = {"flight": "DLH2", "now": "2025-03-10T05:50Z", "ttot": "2025-03-10T06:20Z", "rule": None, "ctot": None, **NOW}


def option(record, ttot, gain, moved, **counts):
    return {"record": record, "role": record.partition(",")[0], "ttot": f"2025-03-10T{ttot}Z", "gain": gain, "moved": moved, **NOW, **counts}


OTHER = option("ATC,RWY,DLH2,09", "06:12", 8, 1, delay=41)
MORE = option("ATC,RATE,27L,2025-03-10T06:10Z,2025-03-10T06:20Z,3", "06:15", 5, 1, delay=41)
AHEAD = option("ATC,PRIO,DLH2,4", "06:15", 5, 2)


@pytest.fixture
def filled(board):
    """A board of the day by hand."""
    if PROGRAM.endswith("standin.py") or not has("options"):
        pytest.skip("the program has no options")

    def make(day=DAY, start=True, **more):
        server = board(DESKS, airport=AIRPORT, start=False, **more)
        if start:
            fill(server.start(), day, True)
        return server
    return make


def test_what_could_help_a_flight(filled):
    """As objects and as a text, of a moment, and nothing is said anew while nothing has changed."""
    server = filled()
    answer = server.get("/v1/options/DLH2.json", "gh")
    assert (answer.status, answer.headers["Content-Type"]) == (200, "application/x-ndjson")
    assert answer.headers["Cdm-Position"] == str(sum(map(len, DAY.values())))
    assert objects(answer.body) == [DLH2 | {"tried": 7, "help": 3, "refused": 0}, OTHER, MORE, AHEAD]
    assert server.get("/v1/options/DLH2.json", "gh", If_None_Match=answer.headers["ETag"]).status == 304
    text = server.get("/v1/options/DLH2", "gh")
    assert text.headers["Content-Type"].startswith("text/plain")
    lines = text.body.decode().splitlines()
    assert lines[0] == "DAY 2025-03-10 NOW 100550" and [line.split()[0] for line in lines[3:-1]] == [one["record"] for one in (OTHER, MORE, AHEAD)]
    assert server.get("/v1/options/DLH2.json?minutes=30", "gh").status == 200, "what isn't its argument is ignored"
    assert server.request("POST", "/v1/options/DLH2", b"SCENARIO,A\n", "gh").status == 405


def test_what_a_role_could_send(filled):
    """Nothing of that is the operator's; all of it is the tower's. No other question has this argument."""
    server = filled()
    first, *more = objects(server.get("/v1/options/DLH2.json?role=AO", "gh").body)
    assert (first, more) == (DLH2 | {"tried": 0, "help": 0, "refused": 0}, [])
    assert len(objects(server.get("/v1/options/DLH2.json?role=ATC", "gh").body)) == 4
    for wrong in ("READ", "atc", "", "--help"):
        assert server.get(f"/v1/options/DLH2?role={wrong}", "gh").status == 400, wrong
    assert server.get("/v1/why/DLH2?role=AO", "gh").status == 200


def test_a_flight_that_is_not_planned(filled):
    """It is answered as an unknown one is, in the program's own words."""
    server = filled()
    fill(server, {"ATC": ["OFF,BAW3,2025-03-10T05:50Z", "OFF,DLH1,2025-03-10T05:40Z", "AIR,DLH1,2025-03-10T05:50Z"], "AO": ["CNL,RYR6"]}, True)
    why = server.get("/v1/why/NIX", "gh")
    for name, words in (("NIX", "no flight NIX"), ("BAW3", "BAW3 is off-block"), ("DLH1", "DLH1 is airborne"), ("RYR6", "RYR6 is cancelled")):
        answer = server.get(f"/v1/options/{name}.json", "gh")
        assert (answer.status, answer.headers["Content-Type"]) == (why.status, why.headers["Content-Type"]) == (404, "application/problem+json")
        assert objects(answer.body)[0]["detail"] == f"cdmseq: {words}", name
    for path in ("options/TOOLONG8", "options/ab1", "options", "options/DLH2.csv"):
        assert server.get(f"/v1/{path}", "gh").status == 404, path


def test_what_nobody_signed_in_asks(filled):
    """From however many addresses: one question at a time, and a desk's own doesn't wait for all of them."""
    server = filled(start=False)
    server.write_desks(DESKS, read="anyone")
    server.program("case $1 in options) sleep 0.9;; esac")
    fill(server.start(), DAY, True)

    def ask(number):
        connection = http.client.HTTPConnection("127.0.0.1", server.port, timeout=60, source_address=(f"127.0.3.{number + 1}", 0))
        connection.request("GET", f"/v1/options/{('DLH1', 'DLH2', 'BAW3', 'RYR6', 'AFR4', 'EZY7', 'KLM5')[number]}.json")
        return connection.getresponse().status
    with concurrent.futures.ThreadPoolExecutor(12) as pool:
        nameless = [pool.submit(ask, number) for number in range(7)]
        seen, end = [], time.monotonic() + 3 * FACTOR
        while sum(map(bool, seen)) < 4 and time.monotonic() < end:
            seen.append(sum("options" in words for words in server.processes().values()))
            time.sleep(0.1)
        assert server.get("/v1/options/DLH1.json", "atc").status == 200
        assert max(seen) == 1 and not all(one.done() for one in nameless)
        # On a busy machine the last of them may wait too long for its place.
        assert {one.result() for one in nameless} <= {200} | ({503} if FACTOR > 1 else set())


def test_a_question_of_many_what_ifs_has_a_time(filled):
    """It is ended after ten seconds, as each other question is, and the next one is answered."""
    server = filled(start=False)
    server.program("case $1 in options) exec sleep 98.25;; esac")
    fill(server.start(), DAY, True)
    began = time.monotonic()
    answer = server.get("/v1/options/DLH2.json", "gh")
    assert answer.status == 504 and 9 < time.monotonic() - began < 10 + 5 * FACTOR
    assert not any("98.25" in words for words in server.processes().values())
    assert server.get("/v1/why/DLH2.json", "gh").status == 200
