"""The log's promises, over each engine by the same calls."""
import asyncio
import contextlib
import sqlite3

import clusters
import pytest
from conftest import ROOT

AIRPORT = b"DAY,2025-03-10\n"


@pytest.fixture(scope="module")
def primary():
    """One cluster for all tests here."""
    if clusters.missing():
        pytest.skip(f"a log in PostgreSQL: {' and '.join(clusters.missing())} missing")
    with clusters.clusters(settings="fsync = off") as (primary,):
        yield primary


@pytest.fixture(params=["sqlite", "postgres"])
def log_at(request, tmp_path):
    """Makes logs of one place, by their board; and something that puts a row there by force."""
    import sys
    sys.path.insert(0, str(ROOT))
    from board import postgres, sqlite
    if request.param == "sqlite":
        path = str(tmp_path / "day.db")

        def force(text):
            with contextlib.closing(sqlite3.connect(path)) as database:
                database.execute(text)
                database.commit()
        return (lambda board="": sqlite.FileLog(path, board)), force
    cluster = request.getfixturevalue("primary")
    cluster.sql("TRUNCATE cdm_log, cdm_record, cdm_digest, cdm_day")
    return (lambda board="": postgres.PostgresLog(cluster.url(), board)), cluster.sql


def talk(log_at, what, board=""):
    """What some calls over an open log return."""
    async def all_of_it():
        log = log_at(board)
        await log.open(AIRPORT, "v1")
        try:
            return await what(log)
        finally:
            await log.close()
    return asyncio.run(all_of_it())


def batch(*lines, desk="ap", key=None, **more):
    from board.log import Batch
    return Batch(desk, [("AP", line) for line in lines], key, at="2025-03-10T06:00:00.000Z", **more)


def problem(call):
    from board.words import Problem
    with pytest.raises(Problem) as raised:
        call()
    return raised.value.status


def test_records_stand_in_the_order_in_which_they_were_taken(log_at):
    open_log, _ = log_at

    async def what(log):
        assert await log.append(batch("A", "B")) == range(1, 3)
        assert await log.append(batch("C", desk="gh")) == range(3, 4)
        together = await asyncio.gather(*(log.append(batch(f"D{number}", f"E{number}")) for number in range(20)))
        rows = await log.rows(0, 1000)
        assert [(row.position, row.desk, row.role, row.line, row.at) for row in rows[:3]] == [
            (1, "ap", "AP", "A", "2025-03-10T06:00:00.000Z"), (2, "ap", "AP", "B", "2025-03-10T06:00:00.000Z"),
            (3, "gh", "AP", "C", "2025-03-10T06:00:00.000Z")]
        assert sorted(position for positions in together for position in positions) == list(range(4, 44))
        assert [[rows[position - 1].line for position in positions] for positions in together] == [
            [f"D{number}", f"E{number}"] for number in range(20)]
        assert [row.position for row in await log.rows(41, 2)] == [42, 43] and await log.rows(43, 5) == []
        return log.id, rows
    log_id, rows = talk(open_log, what)

    async def again(log):
        assert (log.id, log.airport) == (log_id, AIRPORT)
        return await log.whole()
    assert talk(open_log, again) == rows


def test_a_key_is_taken_once(log_at):
    open_log, _ = log_at

    async def what(log):
        assert await log.append(batch("A", "B", key="k")) == range(1, 3)
        same = await asyncio.gather(*(log.append(batch("C", desk="gh", key="k")) for _ in range(10)))
        assert same == [range(3, 4)] * 10
        assert await log.append(batch("A", "B", key="k", most=0, closed="closed", end=0)) == range(1, 3)
        return [row.line for row in await log.rows(0, 100)]
    assert talk(open_log, what) == ["A", "B", "C"]
    for lines in (("A",), ("A", "C"), ("A", "B", "B")):
        assert problem(lambda: talk(open_log, lambda log: log.append(batch(*lines, key="k")))) == 422
    assert talk(open_log, lambda log: log.append(batch("A", "B", key="k"))) == range(1, 3)


def test_a_log_takes_so_many_records(log_at):
    """60,000 lines, whoever sends them: the body that goes beyond is taken as a whole or not at all."""
    open_log, force = log_at
    assert talk(open_log, lambda log: log.append(batch("A"))) == range(1, 2)
    force("UPDATE cdm_record SET position = 59998")
    assert problem(lambda: talk(open_log, lambda log: log.append(batch("B", "C", "D")))) == 403
    assert talk(open_log, lambda log: log.append(batch("B", "C"))) == range(59_999, 60_001)
    assert problem(lambda: talk(open_log, lambda log: log.append(batch("D", desk="gh")))) == 403


def test_a_desk_and_a_log_take_so_many(log_at):
    open_log, _ = log_at
    assert talk(open_log, lambda log: log.append(batch("A", "B", most=2))) == range(1, 3)
    assert problem(lambda: talk(open_log, lambda log: log.append(batch("C", most=2)))) == 403
    assert problem(lambda: talk(open_log, lambda log: log.append(batch("C", closed="only the tower")))) == 403
    assert problem(lambda: talk(open_log, lambda log: log.append(batch("C", end=2)))) == 403
    assert talk(open_log, lambda log: log.append(batch("C", desk="gh", most=1))) == range(3, 4)


def test_another_airport_or_program_is_refused(log_at):
    from board.words import Fault
    open_log, _ = log_at
    talk(open_log, lambda log: log.append(batch("A")))

    async def opened(airport, version):
        log = open_log()
        try:
            await log.open(airport, version)
        finally:
            await log.close()
    for airport, version, what in ((b"DAY,2025-03-11\n", "v1", "another airport file"), (AIRPORT, "v2", "another program")):
        with pytest.raises(Fault, match=what) as raised:
            asyncio.run(opened(airport, version))
        assert raised.value.status == 3 and "export" in str(raised.value) and "import" in str(raised.value)
    asyncio.run(opened(AIRPORT, "v1"))


@pytest.mark.parametrize("line", ["A\nAP,B", "A\rB", 'A"', "F" * 101, "", " ", "\xe9", "A\x00"])
def test_a_row_that_is_no_line_is_a_fault(log_at, line):
    """Also where whoever may do all has put it there."""
    from board.words import Fault
    open_log, force = log_at
    talk(open_log, lambda log: log.append(batch("A")))
    told = "".join(f"chr({ord(sign)}) || " for sign in line.replace("\x00", "\x7f")) + "''"
    if "char" not in told and force.__name__ == "force":
        told = told.replace("chr(", "char(")
    if force.__name__ == "sql":
        force("ALTER TABLE cdm_record DROP CONSTRAINT IF EXISTS cdm_record_line_check, DROP CONSTRAINT IF EXISTS cdm_record_readable")
    force(f"INSERT INTO cdm_record VALUES ('', 2, 'ap', NULL, 0, 1, 'AP', {told}, 'now')")
    with pytest.raises(Fault, match="position 2 isn't one line"):
        talk(open_log, lambda log: log.rows(0, 10))


def test_a_row_that_is_missing_is_a_fault(log_at):
    from board.words import Fault
    open_log, force = log_at
    talk(open_log, lambda log: log.append(batch("A", "B", "C")))
    force("DELETE FROM cdm_record WHERE position = 2")
    with pytest.raises(Fault, match="position 2 is missing"):
        talk(open_log, lambda log: log.rows(0, 10))


def test_a_log_that_can_t_be_read_is_a_fault(log_at):
    """While it is served: the server ends with a line, or it is as if the database were away."""
    from board.words import Fault
    open_log, force = log_at

    async def what(log):
        await log.append(batch("A"))
        # In a thread, since it may have to wait for a transaction of the log's own.
        await asyncio.to_thread(force, "ALTER TABLE cdm_record RENAME TO other_record")
        try:
            return await log.rows(0, 10)
        except Fault as fault:
            return str(fault)
        finally:
            await asyncio.to_thread(force, "ALTER TABLE other_record RENAME TO cdm_record")
    found = talk(open_log, what)
    assert found == [] if force.__name__ == "sql" else "day.db: no such table" in found


@pytest.fixture
def locked(tmp_path):
    """A log in a file that another program has locked, which is let go by a call."""
    import sys
    sys.path.insert(0, str(ROOT))
    from board import sqlite
    path = str(tmp_path / "day.db")

    def open_log(_=""):
        return sqlite.FileLog(path, "")
    talk(open_log, lambda log: log.rows(0, 1))
    foreign = sqlite3.connect(path, isolation_level=None, check_same_thread=False)
    foreign.execute("BEGIN IMMEDIATE")
    yield open_log, lambda: foreign.execute("ROLLBACK")
    foreign.close()


def test_a_batch_that_nobody_waits_for_is_never_taken(locked):
    """Its desk went away while another one's transaction ran, looked, and found nothing: so it is, also later."""
    open_log, let_go = locked

    async def what(log):
        first = asyncio.create_task(log.append(batch("A", desk="gh")))
        await asyncio.sleep(0.2)
        second = asyncio.create_task(log.append(batch("B", key="k")))
        await asyncio.sleep(0.2)
        second.cancel()
        await asyncio.gather(second, return_exceptions=True)
        let_go()
        assert await first == range(1, 2)
        assert await log.append(batch("C", desk="gh")) == range(2, 3)
        assert [row.line for row in await log.rows(0, 10)] == ["A", "C"]
        return await log.append(batch("B", key="k"))
    assert talk(open_log, what) == range(3, 4)


def test_a_lock_of_another_program_is_503_and_ends_nothing(locked):
    """Nothing was taken; the log is tried again, and takes records once the lock is gone."""
    from board.words import Problem
    open_log, let_go = locked

    async def what(log):
        keeping = asyncio.create_task(log.ended())
        with pytest.raises(Problem, match="nothing was taken") as why:
            await log.append(batch("A", key="k"))
        assert why.value.status == 503 and log.stale_since and await log.rows(0, 10) == []
        let_go()
        for _ in range(100):
            if log.stale_since is None:
                break
            await asyncio.sleep(0.1)
        positions = await log.append(batch("A", key="k"))
        keeping.cancel()
        await asyncio.gather(keeping, return_exceptions=True)
        return positions
    assert talk(open_log, what) == range(1, 2)


def test_a_commit_that_failed_is_not_known(tmp_path):
    """It is never told as taken, whatever SQLite then finds; no other one begins before the log was tried."""
    import sys
    sys.path.insert(0, str(ROOT))
    from board import sqlite
    from board.words import Problem

    class Failing:
        """A connection that takes everything but a commit."""

        def __init__(self, database):
            self.database = database

        def __getattr__(self, name):
            return getattr(self.database, name)

        def execute(self, text, *words):
            if text == "COMMIT":
                raise sqlite3.OperationalError("disk I/O error")
            return self.database.execute(text, *words)

    async def what(log):
        real, log._database = log._database, Failing(log._database)
        with pytest.raises(Problem, match="not known") as why:
            await log.append(batch("A", key="k"))
        assert why.value.status == 504 and log.stale_since
        assert problem_of(await asyncio.gather(log.append(batch("B", key="l")), return_exceptions=True)) == 503
        log._database = real
        keeping = asyncio.create_task(log.ended())
        for _ in range(100):
            if log.stale_since is None:
                break
            await asyncio.sleep(0.1)
        assert await log.rows(0, 10) == [] and await log.append(batch("A", key="k")) == range(1, 2)
        keeping.cancel()
        await asyncio.gather(keeping, return_exceptions=True)

    def problem_of(answers):
        return answers[0].status
    talk(lambda _="": sqlite.FileLog(str(tmp_path / "day.db"), ""), what)


def test_a_commit_that_hangs_keeps_nobody_waiting(tmp_path, monkeypatch):
    """A disk that is frozen: the desk is told that it isn't known, those that come meanwhile that nothing was taken; once the commit ends
    records are taken again, and with the same key the first is there once."""
    import threading
    from board import sqlite
    from board.log import Away
    from board.words import Problem
    monkeypatch.setattr(sqlite, "COMMIT_SECONDS", 0.3)
    monkeypatch.setattr(sqlite, "BEHIND_SECONDS", 0.3)
    thaws = threading.Event()

    class Frozen:
        """A connection whose commit hangs."""

        def __init__(self, database):
            self.database = database

        def __getattr__(self, name):
            return getattr(self.database, name)

        def execute(self, text, *words):
            if text == "COMMIT":
                thaws.wait()
            return self.database.execute(text, *words)

    async def what(log):
        keeping = asyncio.create_task(log.ended())
        log._database = Frozen(log._database)
        told = []
        try:
            for line, key in (("A", "k"), ("B", "l")):
                with pytest.raises(Problem) as why:
                    await asyncio.wait_for(log.append(batch(line, key=key)), 5)
                told.append(why.value.status)
            assert told == [504, 503] and log.stale_since
            # Nor does who asks for an earlier day wait for its end.
            for read in (log.changes(), log.change(1), log.between(1, 2), log.sought(0, 2, "AB1", None, ["FLT"]), log.sessions()):
                with pytest.raises(Away):
                    await asyncio.wait_for(read, 5)
        finally:
            thaws.set()
        for _ in range(100):
            if log.stale_since is None:
                break
            await asyncio.sleep(0.05)
        positions = [await log.append(batch("A", key="k")), await log.append(batch("B", key="l"))]
        keeping.cancel()
        await asyncio.gather(keeping, return_exceptions=True)
        return positions
    assert talk(lambda _="": sqlite.FileLog(str(tmp_path / "day.db"), ""), what) == [range(1, 2), range(2, 3)]


@pytest.mark.parametrize("when", ["BEGIN IMMEDIATE", "COMMIT"])
def test_a_log_that_is_moved_in_a_transaction_answers_nothing(tmp_path, when):
    """Before its commit, or right after it: the desk is told that it isn't known, and the server ends."""
    from board import sqlite
    from board.words import Fault, Problem
    path = tmp_path / "day.db"

    class Moving:
        """A connection during one of whose statements the file is moved."""

        def __init__(self, database):
            self.database = database

        def __getattr__(self, name):
            return getattr(self.database, name)

        def execute(self, text, *words):
            done = self.database.execute(text, *words)
            if text == when:
                path.rename(tmp_path / "moved.db")
            return done

    async def what(log):
        log._database = Moving(log._database)
        with pytest.raises(Problem) as why:
            await log.append(batch("A", key="k"))
        assert why.value.status == 504
        with pytest.raises(Fault, match="no longer there"):
            await asyncio.wait_for(log.ended(), 5)
        log._database = log._database.database
    talk(lambda _="": sqlite.FileLog(str(path), ""), what)


def test_the_log_itself_has_a_key_once(log_at):
    """Whoever writes, and whatever was looked up before: the same key of the same desk isn't there twice, nor is a position."""
    open_log, force = log_at
    talk(open_log, lambda log: log.append(batch("A", key="k")))
    for position, key, is_there in ((2, "k", True), (1, "other", True), (2, "other", False)):
        text = f"INSERT INTO cdm_record VALUES ('', {position}, 'ap', '{key}', 0, 1, 'AP', 'B', 't')"
        if is_there:
            with pytest.raises((sqlite3.IntegrityError, RuntimeError), match="UNIQUE|unique"):
                force(text)
        else:
            force(text)


def test_another_program_is_told_with_the_board(log_at):
    """What to do with a log that is another program's names the board, where it has a name."""
    from board.words import Fault
    open_log, _ = log_at

    async def opened(name):
        for version in ("v1", "v2"):
            log = open_log(name)
            try:
                await log.open(AIRPORT, version)
            finally:
                await log.close()
    for name in ("EDDF", ""):
        with pytest.raises(Fault, match="belongs to another program") as why:
            asyncio.run(opened(name))
        said = str(why.value)
        assert ("--board EDDF > day.csv" in said and said.endswith("day.csv --board EDDF")) if name else "--board" not in said


def test_want_of_memory_in_a_transaction_ends_nothing(tmp_path, monkeypatch):
    """Whatever a transaction of a file raises, its desks are told, and the log is tried again."""
    import sys
    sys.path.insert(0, str(ROOT))
    from board import sqlite
    from board.words import Problem

    def no_memory(*_):
        raise MemoryError("no memory for a batch")

    async def what(log):
        keeping = asyncio.create_task(log.ended())
        with monkeypatch.context() as patch:
            patch.setattr(log, "_take", no_memory)
            with pytest.raises(Problem, match="nothing was taken") as why:
                await asyncio.wait_for(log.append(batch("A", key="k")), 10)
        assert why.value.status == 503
        for _ in range(100):
            if log.stale_since is None:
                break
            await asyncio.sleep(0.1)
        positions = await log.append(batch("A", key="k"))
        keeping.cancel()
        await asyncio.gather(keeping, return_exceptions=True)
        return positions
    assert talk(lambda _="": sqlite.FileLog(str(tmp_path / "day.db"), ""), what) == range(1, 2)


def test_ten_boards_of_one_database(log_at):
    """Each has its own records and positions; nobody waits for another board."""
    open_log, force = log_at

    async def speak(log, board):
        for turn in range(10):
            assert await log.append(batch(f"A{board}{turn}", key=str(turn))) == range(turn + 1, turn + 2)
        return log.id, [row.line for row in await log.whole()]

    async def all_of_them():
        logs = [open_log(f"board-{board}") for board in range(10)]
        for log in logs:
            await log.open(AIRPORT, "v1")
        try:
            return await asyncio.gather(*(speak(log, board) for board, log in enumerate(logs)))
        finally:
            for log in logs:
                await log.close()
    if force.__name__ == "sql":
        found = asyncio.run(all_of_them())
    else:
        found = [talk(open_log, lambda log, board=board: speak(log, board), f"board-{board}") for board in range(10)]
    assert [lines for _, lines in found] == [[f"A{board}{turn}" for turn in range(10)] for board in range(10)]
    assert len({log_id for log_id, _ in found}) == 10


def test_a_digest_is_kept_once_and_of_a_record_that_is_there(log_at):
    """The first one stays, whoever says another; one of a record that was lost is none of this log, and neither kept nor compared."""
    open_log, _ = log_at
    one, other, lost = ("1" * 64, "2" * 64, "3" * 64)

    async def what(log):
        await log.append(batch(*(f"A{number}" for number in range(2000))))
        first, last = (await log.rows(0, 2000))[999::1000]
        assert await log.digests() == {}
        assert await log.keep([(last._replace(line="C"), lost), (last._replace(at="later"), lost)]) == {} == await log.digests()
        assert await log.keep([(last, one)]) == {2000: one}
        assert await log.keep([(first, other), (last, other)]) == {1000: other, 2000: one}
        assert await log.keep([(last._replace(desk="gh"), lost)]) == {}
        return await log.digests()
    assert talk(open_log, what) == {1000: other, 2000: one} == talk(open_log, lambda log: log.digests())
    assert talk(open_log, lambda log: log.digests(), "other") == {}
