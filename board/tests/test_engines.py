"""Replies and starts with each log. The gate asserts what comes out, with small counts; times are figures."""
import asyncio
import contextlib
import itertools
import json
import subprocess
import sys
import threading
import time

import clusters
import pytest
from conftest import PROGRAM, ROLES, ROOT, count, figure, moment

ENGINES = ["SQLite", "PostgreSQL", "PostgreSQL and its synchronous standby"]


@contextlib.contextmanager
def log_of(engine):
    """Where a log of an engine is; None: in the server's own folder."""
    if engine == "SQLite":
        yield None
    elif clusters.missing():
        pytest.skip(f"a log in PostgreSQL: {' and '.join(clusters.missing())} missing")
    else:
        with clusters.clusters("standby" in engine) as made:
            yield clusters.url_of(*made)


def times_text(times):
    times = sorted(times)
    return f"{1000 * times[len(times) // 2]:.1f} ms at the median, {1000 * times[len(times) * 99 // 100]:.1f} ms for 99 of 100"


async def read(place, airport, version):
    """The lines of a log, and how long it took to have them."""
    sys.path.insert(0, str(ROOT))
    from board import postgres, sqlite
    log = postgres.PostgresLog(place, "") if isinstance(place, str) else sqlite.FileLog(str(place), "")
    await log.open(airport, version)
    try:
        began = time.monotonic()
        rows = await log.whole()
        return [f"{row.role},{row.line}" for row in rows], time.monotonic() - began
    finally:
        await log.close()


@pytest.mark.parametrize("engine", ENGINES)
def test_replies_with_each_log(board, engine):
    """One desk alone, then 16 desks at once with some 100 records a second in all: each gets the replies of its own records."""
    replies = count("BOARD_REPLIES", 30)
    desks = {f"desk-{number}": ROLES[number % 5] for number in range(16)}
    with log_of(engine) as log:
        server = board({name: f'role = "{role}"\nrecords = 20000' for name, role in desks.items()}, log=log)
        server.post([f"FLT,AB{number},5" for number in range(100)], "desk-2")
        alone, together, wrong = [], [], []

        def desk(name, number, times, pause):
            for turn in range(number):
                line = f"FLT,AB{turn % 100},5" if desks[name] == "AP" else f"TOBT,AB{turn % 100},{moment(300 + turn % 900)}"
                began = time.monotonic()
                reply, = server.post([line], name)
                times.append(time.monotonic() - began)
                if (reply["line"], reply["desk"]) != (line, name):
                    wrong.append(reply)
                time.sleep(max(0, pause - (time.monotonic() - began)))
        desk("desk-0", replies, alone, 0.03)
        threads = [threading.Thread(target=desk, args=(name, max(1, replies // 16), together, 0.16)) for name in desks]
        for thread in threads:
            thread.start()
        for thread in threads:
            thread.join()
        figure(f"Replies with {engine}: one desk {times_text(alone)} ({len(alone)}); 16 desks {times_text(together)} ({len(together)})")
        assert not wrong and len(server.records("desk-0")) == 100 + len(alone) + len(together)
        assert server.end() == 0


@pytest.mark.parametrize("engine", ENGINES[:2])
def test_a_day_s_log_is_ready_with_each_log(board, engine):
    """A new server on a day's log: it has the day, record by record."""
    records = count("BOARD_DAY_RECORDS", 1000)
    with log_of(engine) as log:
        server = board(start=False, log=log)
        flights = records // 10
        feed = server.folder / "feed.csv"
        feed.write_text("".join(f"AP,FLT,F{number},5\n" for number in range(flights)) + "".join(
            f"AO,TOBT,F{number % flights},{moment(300 + number % 1000)}\n" for number in range(records - flights)))
        ended = subprocess.run([str(ROOT / "cdmboard"), "import", str(server.airport), str(server.log), str(feed)], capture_output=True, text=True,
                               env=server.environment)
        assert ended.returncode == 0, ended.stderr
        times = []
        for _ in range(3):
            began = time.monotonic()
            server.start()
            times.append(time.monotonic() - began)
            assert json.loads(server.get("/health").body) == {
                "ready": True, "accepted": records, "position": records, "taking": True, "stale_since": None}
            assert server.get("/v1/journal.csv").body.decode() == feed.read_text()
            assert server.end() == 0
        began = time.monotonic()
        subprocess.run([PROGRAM, "plan", str(server.airport), str(feed), "--format", "json"], capture_output=True, check=True)
        took = time.monotonic() - began
        version = subprocess.run([PROGRAM, "--version"], capture_output=True, text=True).stdout.strip()
        lines, reading = asyncio.run(read(server.log, server.airport.read_bytes(), version))
        assert "".join(f"{line}\n" for line in lines) == feed.read_text()
        figure(f"Start with {engine}: a log of {records} records is ready in {sorted(times)[1]:.2f} s (the middle of 3), of which its rows are read in "
               f"{1000 * reading:.0f} ms; `plan` of it alone takes {took:.2f} s")


def test_the_middle_and_the_99th():
    assert times_text(itertools.chain([0.001] * 98, [0.5, 0.4])) == "1.0 ms at the median, 500.0 ms for 99 of 100"
