"""Replies of before: a program that gives others is told, with the position, whatever its version says."""
import argparse
import asyncio
import contextlib
import os
import sqlite3
import subprocess

import clusters
import pytest
from conftest import FACTOR, PROGRAM, ROOT, until

from board import digests
from board.day import Day
from board.log import Batch
from board.replies import Keeper
from board.sqlite import FileLog
from board.words import Fault, Kinds

needs_postgres = pytest.mark.skipif(bool(clusters.missing()), reason=f"a log in PostgreSQL: {' and '.join(clusters.missing())} missing")
# A rebuilt program, which gives the same version and one other word or Row.
OTHER_ROW = """[ "$1" = trace ] && { $PROGRAM "$@" | sed -E '/^\\{"record":17,/ s/"priority":5/"priority":6/'; exit; }"""
OTHER_WORD = """[ "$1" = trace ] && { $PROGRAM "$@" | sed -E '/^\\{"record":918,/ s/"KIND"/"FIELDS"/'; exit; }"""
# It is also a little late at the last record before a digest.
OTHER_LIVE = """[ "$1" = serve ] && { $PROGRAM "$@" | sed -u -E '/"reply":"ACCEPTED","accepted":950,/ s/"priority":5/"priority":6/' |
    while read -r line; do case $line in *'"accepted":988,'*) sleep 3; esac; printf '%s\\n' "$line"; done; exit; }"""


def cdmboard(*words, program=PROGRAM):
    """How it ended. A server that starts is ended after a while."""
    command = ["timeout", str(20 * FACTOR), str(ROOT / "cdmboard"), *map(str, words)]
    return subprocess.run(command, env=dict(os.environ, CDMSEQ=str(program)), capture_output=True, text=True)


def with_records(server, count):
    """A log with so many records: the last 200 from a desk, which sends a wrong one in 18, and those before from a feed."""
    feed = server.folder / "feed.csv"
    feed.write_text("".join(f"AP,FLT,A{number},5\n" for number in range(count - 200)))
    board = server.options[server.options.index("--board"):] if "--board" in server.options else []
    ended = cdmboard("import", server.airport, server.log, feed, *board, program=server.environment["CDMSEQ"])
    assert ended.returncode == 0, ended.stderr
    server.start()
    for first in range(count - 200, count, 100):
        replies = server.post(["FOO" if number % 18 == 17 else f"FLT,A{number},5" for number in range(first, first + 100)], Cdm_Role="AP")
        assert replies[-1]["position"] == first + 100
    return board


def in_file(server, query):
    """What a query of a log in a file gives."""
    with contextlib.closing(sqlite3.connect(server.log, isolation_level=None)) as database:
        return database.execute(query).fetchall()


def refused(server, board):
    """The lines of `verify` and of a start, both of which end with status 3; the server may have begun to serve before."""
    verify = cdmboard("verify", server.log, *board, program=server.environment["CDMSEQ"])
    assert (verify.returncode, verify.stdout) == (3, ""), verify
    words = [str(server.airport), str(server.log), "--listen", "127.0.0.1:0", *server.options]
    start = cdmboard(*words, program=server.environment["CDMSEQ"])
    assert start.returncode == 3, start
    return [verify.stderr, start.stderr]


@pytest.mark.parametrize("other", [OTHER_ROW, OTHER_WORD], ids=["row", "word"])
def test_a_program_that_replies_otherwise_is_told(board, other):
    """One old record of another reply: neither a start nor `verify` takes it. The program of before goes on."""
    server = board(start=False)
    server.program("")
    feed_board = with_records(server, 1100)
    until(lambda: in_file(server, "SELECT position FROM cdm_digest") == [(1000,)])
    assert server.end() == 0
    verified = cdmboard("verify", server.log, *feed_board, program=server.environment["CDMSEQ"])
    assert verified.stdout.endswith("1 digests of replies\n"), verified
    server.program(other)
    for told in refused(server, feed_board):
        assert "a record of the positions 1 to 1000 has another reply than before" in told and told.count("\n") == 1
    server.program("")
    assert server.start().metric("cdm_position") == 1100


def test_digests_are_those_of_the_replies_that_desks_got(board):
    """The replies of `serve` and those of a later `trace` have one digest; a log of before gets its digests at its next start."""
    server = board(start=False)
    with_records(server, 2100)
    until(lambda: len(in_file(server, "SELECT * FROM cdm_digest")) == 2)
    kept = in_file(server, "SELECT position, digest FROM cdm_digest ORDER BY position")
    assert [position for position, _ in kept] == [1000, 2000]
    assert server.end() == 0
    in_file(server, "DROP TABLE cdm_digest")
    assert cdmboard("verify", server.log).stdout.endswith(" accepted, 0 digests of replies\n")
    server.start()
    until(lambda: in_file(server, "SELECT position, digest FROM cdm_digest ORDER BY position") == kept)
    assert server.end() == 0


def test_a_log_that_was_changed_is_told(board):
    """A record that somebody wrote anew, or took from the end."""
    server = board(start=False)
    with_records(server, 1100)
    until(lambda: in_file(server, "SELECT position FROM cdm_digest") == [(1000,)])
    assert server.end() == 0
    line, = in_file(server, "SELECT line FROM cdm_record WHERE position = 7")[0]
    in_file(server, "UPDATE cdm_record SET line = 'FLT,A6,4' WHERE position = 7")
    for told in refused(server, []):
        assert "of the positions 1 to 1000 has another reply than before" in told
    in_file(server, f"UPDATE cdm_record SET line = '{line}' WHERE position = 7")
    in_file(server, "DELETE FROM cdm_record WHERE position > 990")
    for told in refused(server, []):
        assert "position 991 is missing, and there were 1000 records or more" in told


@needs_postgres
def test_of_two_servers_that_reply_otherwise_one_ends(board, cluster):
    """Who comes second to a digest, with another one, ends with status 3; the first goes on. A copy in a file has the digests too."""
    cluster.sql("TRUNCATE cdm_log, cdm_record, cdm_session, cdm_audit, cdm_digest, cdm_day")
    one, other = (board(log=cluster.url(), start=False) for _ in range(2))
    other.program(OTHER_LIVE)
    with_records(one, 900)
    other.start()
    assert one.post([f"FLT,B{number},5" for number in range(100)], Cdm_Role="AP")[-1]["position"] == 1000
    until(lambda: other.process.poll() is not None, 20)
    assert other.process.returncode == 3 and "of the positions 1 to 1000 has another reply than before" in other.told()
    assert one.process.poll() is None and one.metric("cdm_position") == 1000
    copy = one.folder / "copy.db"
    assert cdmboard("backup", cluster.url(), copy).returncode == 0
    assert in_file(argparse.Namespace(log=copy), "SELECT id FROM cdm_log") != [(cluster.sql("SELECT id FROM cdm_log"),)]
    for log in (copy, cluster.url()):
        assert cdmboard("verify", log).stdout == "1000 records, 988 accepted, 1 digests of replies\n"


def test_a_digest_that_another_server_keeps_meanwhile(tmp_path, monkeypatch):
    """Another server keeps its digest after this one has read those of the log: this one ends too."""
    monkeypatch.setattr(digests, "EVERY", 2)

    async def kept():
        log = FileLog(str(tmp_path / "day.db"), "")
        await log.open(b"DAY,2025-03-10\n", "v1")
        read = log.digests

        async def read_before_another():
            found = await read()
            await log.keep([(day.records[-1], "0" * 64)])
            return found
        try:
            await log.append(Batch("ap", [("AP", "FLT,AB1,5"), ("AP", "FLT,AB2,5")], None, at="2025-03-10T06:00:00.000Z"))
            day = Day(Kinds(b""), [], {})
            for record in await log.rows(0, 10):
                day.add(record, None, [])
            monkeypatch.setattr(log, "digests", read_before_another)
            async with asyncio.timeout(5 * FACTOR):
                await Keeper("", PROGRAM, log, day).run()
        finally:
            await log.close()
    with pytest.raises(Fault, match="a record of the positions 1 to 2 has another reply than before"):
        asyncio.run(kept())
