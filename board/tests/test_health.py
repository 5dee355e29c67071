"""Whether the board is well, and whether a desk can speak: over HTTP, and as series."""
import asyncio
import json
import os
import re
import signal
import sys
import time
from unittest import mock

from conftest import ROOT, until

sys.path.insert(0, str(ROOT))
from board.metrics import CODES, OUTCOMES, RECORDS  # noqa: E402

DESKS = {"ap": 'role = "AP"', "atc": 'role = "ATC"\nclock = true'}
ROLES = ("AO", "GH", "AP", "ATC", "NM")
ALERTS = (ROOT / "packaging" / "alerts.yml").read_text()


def series(server):
    """Each series with its value."""
    text = server.get("/metrics", "ap").body.decode()
    return {line.rpartition(" ")[0]: float(line.rpartition(" ")[2]) for line in text.splitlines() if not line.startswith("#")}


def test_a_day_that_is_read_but_takes_nothing(board):
    """While its sequencer is being started plans and questions are answered: /health says so, /ready says why no record gets a reply."""
    server = board(DESKS, start=False)
    started = server.folder / "started"
    server.program(f"case $1 in serve) [ -e {started} ] && sleep 6; touch {started};; esac")
    server.start()
    server.post(["FLT,AB1,5"], "ap")
    assert server.get("/ready").status == 200 and series(server)["cdm_taking"] == 1
    os.kill(server.sequencers()[0], signal.SIGKILL)
    until(lambda: server.get("/ready").status == 503)
    assert json.loads(server.get("/ready").body) == {"taking": False, "why": "the sequencer is being started"}
    health = server.get("/health")
    assert health.status == 200 and json.loads(health.body) == {
        "ready": False, "accepted": 1, "position": 1, "taking": False, "stale_since": None}
    assert server.get("/v1/why/AB1", "ap").status == 200 and series(server)["cdm_taking"] == 0
    until(lambda: server.get("/ready").status == 200, 20)
    assert json.loads(server.get("/ready").body) == {"taking": True, "why": None} and series(server)["cdm_taking"] == 1


def test_whoever_asks_whether_it_is_ready_needs_no_token(board):
    """Nor one of the server's names; a page of another site is refused."""
    server = board(DESKS)
    for path in ("/health", "/ready"):
        assert server.get(path, Host="10.0.0.1").status == 200
        assert server.get(path, Origin="http://evil.example").status == 403


def test_records_that_wait_get_no_replies():
    """A log that commits nothing, as on a frozen disk: after ten seconds it is said, and no longer once a reply came."""
    from board.records import Records
    log, day, sequencer = mock.Mock(stale_since=None), mock.Mock(lines=[], records=[], first=1), mock.Mock()
    records = Records(log, day, sequencer)
    begun = time.monotonic()

    async def talk():
        asked = asyncio.get_running_loop().create_future()

        async def append(batch):
            return await asked
        log.append = append
        from board.desks import Desk
        taken = asyncio.create_task(records.take(Desk("ap", "AP"), ["FLT,AB1,5"], None))
        await asyncio.sleep(0.05)
        assert records.why_not() == "" and records.waiting() == 1
        with mock.patch("board.records.time.monotonic", lambda: begun + 9):
            assert records.why_not() == ""
        with mock.patch("board.records.time.monotonic", lambda: begun + 11):
            assert records.why_not() == "no record has had a reply for 10 seconds"
        taken.cancel()
        await asyncio.gather(taken, return_exceptions=True)
        with mock.patch("board.records.time.monotonic", lambda: begun + 11):
            assert records.why_not() == "" and records.waiting() == 0
    asyncio.run(talk())
    log.stale_since = "2025-03-10T06:00:00.000Z"
    assert records.why_not() == "the log has been away since 2025-03-10T06:00:00.000Z"
    records.is_closing = True
    assert records.why_not() == "the server is ending"


def test_a_run_without_an_end_is_no_health():
    """Questions aren't answered while a run holds its place for long beyond its time."""
    from board.answers import Answers
    answers = Answers("", "", mock.Mock())
    assert not answers.is_stuck()
    answers._runs[mock.Mock()] = time.monotonic()
    assert not answers.is_stuck()
    answers._runs[mock.Mock()] = time.monotonic() - 31
    assert answers.is_stuck()


def test_each_series_is_there_from_the_start(board):
    """At 0, before the first record and the first question."""
    found = series(board(DESKS))
    for role in ROLES:
        for code in ("ACCEPTED", *CODES):
            assert found[f'cdm_records_total{{reply="{code}",role="{role}"}}'] == 0
    for outcome in OUTCOMES:
        assert found[f'cdm_questions_total{{outcome="{outcome}"}}'] == 0
    for name in ("reply_seconds_count", "displays", "accepted_updates", "position", "restarts", "now_seconds", "waiting_records", "log_away_seconds",
                 "unsent_bytes", "dropped_lines_total"):
        assert found[f"cdm_{name}"] == 0, name
    assert found["cdm_taking"] == 1 and 0 <= found["cdm_log_read_age_seconds"] < 60


def test_what_is_measured(board):
    server = board(DESKS)
    server.post(["FLT,AB1,5", "FLT,AB1,5"], "ap")
    server.post(["CLOCK,2025-03-10T05:30Z"], "atc")
    server.post(["CLOCK,2025-03-10T05:00Z"], "atc")
    for path, status in (("/v1/why/AB1", 200), ("/v1/why/AB1", 200), ("/v1/why/NIX", 404)):
        assert server.get(path, "ap").status == status
    found = series(server)
    assert found['cdm_records_total{reply="ACCEPTED",role="AP"}'] == found['cdm_records_total{reply="EXISTS",role="AP"}'] == 1
    assert found['cdm_records_total{reply="ORDER",role="ATC"}'] == 1 and found["cdm_reply_seconds_count"] == 3
    assert found["cdm_now_seconds"] == 1741584600  # 2025-03-10T05:30Z
    outcomes = [found[f'cdm_questions_total{{outcome="{outcome}"}}'] for outcome in ("made", "kept", "refused")]
    assert outcomes == [1, 1, 1]


def test_each_alarm_is_of_series_that_are_served(board):
    """From the start, with its labels: an alarm of a series that isn't there yet never rings."""
    found = set(series(board(DESKS)))
    names = {name.partition("{")[0] for name in found}
    named = [one for line in re.findall(r"expr: (.*)", ALERTS) for one in re.findall(r"cdm_[a-z_]+(?:\{[^}]*\})?", line)]
    assert len(named) >= 10
    for one in named:
        assert one in (found if "{" in one else names), one


def test_each_alarm_is_explained():
    """In the page for who runs the server, and nothing there is no alarm."""
    page = (ROOT / "docs" / "RUN.md").read_text()
    assert sorted(re.findall(r"alert: (\w+)", ALERTS)) == sorted(set(re.findall(r"`(Board[A-Z]\w+)`", page)))


def test_the_codes_are_the_program_s():
    """Those of the table of records that are refused."""
    page = (ROOT / "docs" / "FORMATS.md").read_text()
    table = page[page.index("| no. | code | applies if |"):].split("\n\n")[0]
    assert tuple(re.findall(r"^\| \d+ \| ([A-Z]+) \|", table, re.M)) == CODES
    assert {sample.labels["role"] for metric in RECORDS.collect() for sample in metric.samples} == set(ROLES)
