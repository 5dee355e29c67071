"""Start and end: words, files, locks, the clock, TLS, a proxy, import and export."""
import asyncio
import concurrent.futures
import contextlib
import datetime
import fcntl
import json
import os
import pathlib
import shutil
import signal
import socket
import sqlite3
import ssl
import subprocess
import time
import urllib.request
from unittest import mock

import pytest
from conftest import AIRPORT, FACTOR, PROGRAM, ROOT, certificates, figure, moment, objects, until

ENVIRONMENT = dict(os.environ, CDMSEQ=PROGRAM)
DESKS = {"ap": 'role = "AP"', "screen": 'role = "READ"'}


def cdmboard(*words, environment=ENVIRONMENT):
    """How a command ended; one that serves instead of ending has status 124."""
    words = ["timeout", str(30 * FACTOR), str(ROOT / "cdmboard"), *map(str, words)]
    return subprocess.run(words, env=environment, capture_output=True, text=True)


@pytest.fixture
def files(tmp_path):
    (tmp_path / "airport.csv").write_text(AIRPORT)
    return tmp_path


@pytest.mark.parametrize("words", [[], ["airport.csv"], ["A", "L", "--nix"], ["A", "L", "--listen", "x"], ["A", "L", "--listen", "0.0.0.0:0"],
                                   ["A", "L", "--behind-proxy"], ["A", "L", "--listen", "0.0.0.0:0", "--tls", "c", "k"], ["A", "L", "--tls", "c"],
                                   ["A", "L", "--desks", "D", "--listen", "0.0.0.0:0"], ["import", "A"], ["export"]])
def test_wrong_words_are_status_2(files, words):
    there = {"A": files / "airport.csv", "L": files / "day.db", "D": files / "desks.toml"}
    ended = cdmboard(*(there.get(word, word) for word in words))
    assert ended.returncode == 2 and ended.stderr and not (files / "day.db").exists()


def test_files_that_are_refused_are_status_3(files, board):
    wrong = files / "wrong.csv"
    wrong.write_text("RUNWAY,27L,10,2\n")
    ended = cdmboard(wrong, files / "day.db")
    assert (ended.returncode, ended.stderr) == (3, "cdmseq: AIRPORT record 1: ORDER\n")
    assert cdmboard(files / "none.csv", files / "day.db").returncode == 3
    assert cdmboard(files / "airport.csv", files / "nofolder" / "day.db").returncode == 3
    (files / "text.db").write_text("no database at all, but a file of some length")
    assert cdmboard(files / "airport.csv", files / "text.db").returncode == 3
    server = board()
    assert cdmboard(server.airport, server.log).stderr.endswith("day.db is served by another\n")
    assert server.end() == 0
    server.airport.write_text(AIRPORT + "RUNWAY,36,10,2\n")
    ended = cdmboard(server.airport, server.log)
    assert ended.returncode == 3 and "another airport file" in ended.stderr and "export" in ended.stderr and "import" in ended.stderr
    server.airport.write_text(AIRPORT)
    (files / "other").write_text(f'#!/bin/sh\n[ $1 = --version ] && echo cdmseq 0.0.0 || exec {PROGRAM} "$@"\n')
    (files / "other").chmod(0o755)
    ended = cdmboard(server.airport, server.log, environment=dict(ENVIRONMENT, CDMSEQ=str(files / "other")))
    assert ended.returncode == 3 and "another program" in ended.stderr


def says(rules):
    """A program of another release, with these rules."""
    return f'[ "$1" = --version ] && echo "cdmseq 9.9.9 (rules {rules})" && exit'


def test_a_log_goes_on_with_another_program_of_the_same_rules(board):
    """Forth and back; with other rules it is refused, and so it is by `verify`."""
    server = board()
    server.post(["FLT,AB1,5"], Cdm_Role="AP")
    for program in (says(1), ""):
        assert server.end() == 0
        server.program(program)
        server.start()
        assert server.post(["FLT,AB2,5"], Cdm_Role="AP")[0]["position"] == (2 if program else 3)
    assert [row["line"] for row in server.records()] == ["FLT,AB1,5", "FLT,AB2,5", "FLT,AB2,5"]
    assert server.end() == 0
    server.program(says(2))
    for words in ((server.airport, server.log), ("verify", server.log)):
        ended = cdmboard(*words, environment=server.environment)
        assert ended.returncode == 3 and "another program" in ended.stderr


def in_file(server, query):
    with contextlib.closing(sqlite3.connect(server.log)) as database:
        return database.execute(query).fetchall()


def test_a_log_of_the_last_release_goes_on(board, before):
    """Under this program, back, and again: each tells the same plan, and gives the replies whose digest the log has."""
    server = board(start=False)
    server.program(before)
    server.start()
    for number, role in enumerate(("AP", "ATC", "AO", "GH", "NM")):
        line = ("FLT,AB{0},5", "RWY,AB{0},27L", "TOBT,AB{0},2025-03-10T06:00Z", "ICE,AB{0},STAND,9", "CTOT,AB{0},-")[number]
        assert len(server.post([line.format(flight) for flight in range(200)], Cdm_Role=role)) == 200
    until(lambda: in_file(server, "SELECT position FROM cdm_digest") == [(1000,)], 30)
    for position, program in enumerate(("", before, ""), 1001):
        plan = server.get("/v1/plan.json").body
        assert server.end() == 0
        server.program(program)
        told = cdmboard("verify", server.log, environment=server.environment)
        assert told.stdout.endswith(" 1 digests of replies\n"), told.stderr
        assert server.start().get("/v1/plan.json").body == plan
        assert server.post([f"FLT,E{position},5"], Cdm_Role="AP")[0]["position"] == position
    assert in_file(server, "SELECT version FROM cdm_log") == [("cdmseq 1.0.0",)]


def test_a_log_is_bound_to_no_airport_file_that_is_refused(files, board, log_engine):
    """The corrected file is taken."""
    server = board(start=False)
    server.airport.write_text("RUNWAY,27L,10,2\n")
    ended = cdmboard(server.airport, server.log, *server.options)
    assert (ended.returncode, ended.stderr) == (3, "cdmseq: AIRPORT record 1: ORDER\n")
    server.airport.write_text(AIRPORT)
    assert server.start().post(["FLT,AB1,5"], Cdm_Role="AP")[0]["position"] == 1


def test_a_log_that_is_moved_takes_no_more_records(files, board):
    """Or removed, or exchanged: the record isn't answered, the server ends with status 3, and what was answered before is in the file."""
    for how in ("moved", "removed", "exchanged", "link"):
        server = board(start=False)
        (server.folder / "other").mkdir()
        if how == "link":
            server.log.symlink_to(server.folder / "other" / "day.db")
        server.start()
        assert server.post(["FLT,AB1,5"], Cdm_Role="AP", key="k1")[0]["position"] == 1
        if how == "removed":
            server.log.unlink()
        else:
            server.log.rename(server.folder / "moved.db")
        if how == "exchanged":
            server.log.touch()
        try:
            answer = server.post(["FLT,AB2,5"], Cdm_Role="AP", key="k2")
            assert not isinstance(answer, list) and answer.status in (503, 504), how
        except OSError:
            pass
        assert server.process.wait(10) == 3, how
        why = "another file is there now" if how == "exchanged" else "no longer there"
        assert "day.db" in server.told() and why in server.told(), (how, server.told())
        if how in ("moved", "link"):
            (server.folder / "moved.db").rename(server.log)
            assert [record["line"] for record in server.start().records()] == ["FLT,AB1,5"]


def test_a_program_that_is_replaced_doesn_t_serve(files, board):
    """Neither a question nor the day, until the server is started again; the same bytes, written again, are the same program."""
    server, program = board(start=False), files / "program"
    text = f'#!/bin/sh\nexec {PROGRAM} "$@"\n'
    program.write_text(text)
    program.chmod(0o755)
    server.environment["CDMSEQ"] = str(program)
    server.start()
    server.post(["FLT,AB1,5"], Cdm_Role="AP")
    program.write_text(text)
    assert server.get("/v1/why/AB1").status == 200
    program.write_text(f"{text}# another\n")
    answer = server.get("/v1/plan")
    assert answer.status == 503 and b"was replaced while it is served" in answer.body
    assert server.post(["FLT,AB2,5"], Cdm_Role="AP")[0]["position"] == 2
    os.kill(server.sequencers()[0], signal.SIGKILL)
    assert server.process.wait(10) == 1 and "was replaced while it is served; restart the server" in server.told()
    assert len(server.start().records()) == 2 and server.get("/v1/plan").status == 200


def test_a_pipe_in_the_shared_folder_keeps_no_start_waiting(files, board):
    """Anybody may make one with the name of what a killed server leaves."""
    server = board()
    log = json.loads(server.get("/v1/who").body)["log"]
    assert server.end() == 0
    folder = pathlib.Path(f"/dev/shm/cdmboard-{log}-pipe")
    folder.mkdir()
    try:
        os.mkfifo(folder / "airport.csv")
        with concurrent.futures.ThreadPoolExecutor(1) as pool:
            started = pool.submit(server.start)
            try:
                assert started.result(10 * FACTOR) is server
            except concurrent.futures.TimeoutError:
                server.process.kill()
                raise
    finally:
        shutil.rmtree(folder)


NONE = "0" * 64
WRONG_DESKS = ["[desk.a]\n", f'[desk.a]\nrole = "XX"\ntoken = "sha256:{NONE}"', '[desk.a]\nrole = "AO"\ntoken = "secret"', "read = 1", "=", "x = 1",
               f'[desk.a]\nrole = "AO"\ntoken = "sha256:{NONE}"\nrecords = 3000000000', f'[desk.a]\nrole = "AO"\ntoken = "sha256:{NONE}"\nrecords = -1',
               f'[desk.clock]\nrole = "AO"\ntoken = "sha256:{NONE}"', f'[desk.a]\nrole = "AO"\ntoken = "sha256:{NONE}"\nflight = ["X"]',
               f'[desk.a]\nrole = "AO"\ntoken = "sha256:{NONE}"\n[desk.b]\nrole = "AP"\ntoken = "sha256:{NONE}"']


def test_a_wrong_desks_file_is_refused(files):
    desks = files / "desks.toml"
    for text, mode in [*((text, 0o600) for text in WRONG_DESKS), ('read = "anyone"', 0o644)]:
        desks.write_text(text)
        desks.chmod(mode)
        # Desks are read before the airport file, which isn't there: no server starts that would have to be ended.
        ended = cdmboard(files / "no-airport.csv", files / "day.db", "--desks", desks)
        assert ended.returncode == 3 and "desks.toml" in ended.stderr and ended.stderr.count("\n") == 1, text


def test_a_token_is_new_each_time(files, board):
    first, second = (cdmboard("token").stdout.splitlines() for _ in range(2))
    assert first != second and len(first[0]) >= 40 and first[1].startswith('token = "sha256:')
    server = board(DESKS, start=False)
    desks = server.folder / "desks.toml"
    desks.write_text(f'[desk.x]\nrole = "AP"\n{first[1]}\n')
    server.start()
    assert server.get("/v1/who", Authorization=f"Bearer {first[0]}").status == 200
    assert server.get("/v1/who", Authorization=f"Bearer {second[0]}").status == 401


def test_a_missing_package_is_named(files):
    hidden = files / "aiohttp.py"
    hidden.write_text("")
    code = "import sys, runpy; sys.path_importer_cache.clear(); import importlib.util as u; f = u.find_spec; u.find_spec = lambda n, *a: " \
           "None if n == 'aiohttp' else f(n, *a); runpy.run_module('board', run_name='__main__')"
    ended = subprocess.run(["/usr/bin/python3", "-B", "-c", code], cwd=ROOT, capture_output=True, text=True)
    assert ended.returncode == 1 and ended.stderr == "cdmboard: python3-aiohttp missing: sudo apt-get install python3-aiohttp\n"


def test_an_aiohttp_that_counts_no_requests_is_refused(files):
    """The count is no public part of it, and without it nothing bounds a connection: a later one may count elsewhere."""
    code = "import runpy, aiohttp.web as web; web.RequestHandler._request_count = property(lambda self: 0, lambda self, count: None)\n" \
           "runpy.run_module('board', run_name='__main__')"
    words = ["timeout", str(30 * FACTOR), "/usr/bin/python3", "-B", "-c", code, str(files / "airport.csv"), str(files / "day.db")]
    ended = subprocess.run([*words, "--listen", "127.0.0.1:0"], cwd=ROOT, env=ENVIRONMENT, capture_output=True, text=True)
    assert ended.returncode == 3 and ended.stderr.count("\n") == 1, ended.stderr
    assert "doesn't count the requests of a connection; docs/RUN.md names versions that do" in ended.stderr


def test_an_end_answers_what_waits(board):
    """TERM: what is in the log gets its reply, displays are told, status 0, and nothing is left in memory."""
    server = board()
    server.post(["FLT,AB1,5"], Cdm_Role="AP")
    sequencer, = server.sequencers()
    with concurrent.futures.ThreadPoolExecutor(12) as pool:
        events = pool.submit(lambda: urllib.request.urlopen(f"http://127.0.0.1:{server.port}/v1/events", timeout=20).read())
        until(lambda: server.metric("cdm_displays") == 1)
        os.kill(sequencer, signal.SIGSTOP)
        posts = [pool.submit(server.post, [f"FLT,F{number}X{line},5" for line in range(100)], None, f"k{number}", Cdm_Role=role)
                 for number, role in enumerate(("AP", "AO", "GH", "NM", "ATC"))]
        time.sleep(0.5 * FACTOR)
        server.process.send_signal(signal.SIGTERM)
        time.sleep(0.3)
        assert server.post(["FLT,LATE,5"], Cdm_Role="AP").status == 503
        os.kill(sequencer, signal.SIGCONT)
        assert server.end() == 0
        assert events.result().endswith(b"event: end\ndata: {}\n\n")
        answers = [post.result() for post in posts]
    log = server.start().records()
    for answer in answers:
        assert len(answer) == 100
        for reply in answer:
            # The log has no sentences.
            reply.pop("sentence", None)
            assert {**log[reply["position"] - 1], "changes": 0} == {**reply, "changes": 0}
    left = [name for name in os.listdir("/dev/shm") if name.startswith(f"cdmboard-{json.loads(server.get('/v1/who').body)['log']}")]
    assert len(left) == 1


def test_a_folder_that_is_being_made_is_left_alone():
    """Another server of the same log starts at the very moment."""
    import board.__main__ as start
    calls, flock = [], fcntl.flock

    def flocked(file, how):
        calls.append(how)
        if len(calls) == 1:
            with start.folder_of("0123456789abcdef", b"other") as other:
                assert pathlib.Path(other, "airport.csv").read_bytes() == b"other"
        flock(file, how)
    with mock.patch.object(start.fcntl, "flock", flocked), start.folder_of("0123456789abcdef", b"own") as folder:
        assert pathlib.Path(folder, "airport.csv").read_bytes() == b"own" and len(calls) >= 2
    assert not os.path.exists(folder)


def test_an_end_ends_who_waits_for_a_position(board):
    """Nothing was sent, so there is nothing to send again."""
    server = board()
    with concurrent.futures.ThreadPoolExecutor(1) as pool:
        waiting = pool.submit(server.get, "/v1/plan", Cdm_After="5")
        time.sleep(0.5)
        assert server.end() == 0
        assert waiting.result().status == 503


def mounted(size, folder):
    """A prelude of a server that gives it a file system of its own, of this size, at a folder."""
    if os.geteuid() or subprocess.run(["unshare", "-m", "mount", "-t", "tmpfs", "none", "/mnt"]).returncode:
        pytest.skip("who isn't root mounts no file system")
    mounting = f'mount -t tmpfs -o size={size} none {folder} && exec "$0" "$@"'
    return f"exec unshare -m /bin/bash -c '{mounting}' \"$0\" \"$@\""


def test_a_place_has_room(monkeypatch):
    """The first one with so many bytes; where there is none, that is said."""
    from board.sequencer import place_with_room
    rooms = {"/small": 10, "/large": 1 << 30}
    monkeypatch.setattr("os.statvfs", lambda place: mock.Mock(f_bavail=rooms.get(place, 0), f_frsize=1))
    assert place_with_room(1000, "/small", "/large") == "/large"
    assert place_with_room(10, "/small", "/large") == "/small"
    with pytest.raises(OSError, match="No space left on device"):
        place_with_room(1 << 31, "/small", "/large")


def test_no_room_in_the_shared_folder_ends_nothing(files, board):
    """It is full at the start, or anybody fills it later: the day is elsewhere then."""
    server = board(start=False).start(mounted("4k", "/dev/shm"))
    server.post(["FLT,AB1,5"], Cdm_Role="AP")
    assert server.get("/v1/why/AB1").status == 200
    assert server.end() == 0
    server = board(start=False).start(mounted("64M", "/dev/shm"))
    server.post(["FLT,AB1,5"], Cdm_Role="AP")
    filled = subprocess.run(["nsenter", "-m", "-t", str(server.process.pid), "dd", "if=/dev/zero", "of=/dev/shm/full", "bs=1M"], capture_output=True)
    assert b"No space left" in filled.stderr
    for number in range(2):
        os.kill(server.sequencers()[0], signal.SIGKILL)
        until(lambda: server.metric("cdm_restarts") == number + 1 and server.get("/health").status == 200)
        # Twice as much needs more room than the process before it leaves.
        taken = server.post([f"FLT,CD{number}{flight:03},5" for flight in range(240)], Cdm_Role="AP")
        assert getattr(taken, "status", 200) == 200


def test_a_start_on_a_full_disk_ends_by_a_line(files, board):
    server = board(start=False)
    (server.folder / "full").mkdir()
    server.log = server.folder / "full" / "day.db"
    with pytest.raises(AssertionError, match="No space left on device"):
        server.start(mounted("64k", server.folder / "full"))
    assert server.process.wait(10) == 1 and server.told().count("\n") == 1


def test_import_and_export(files, board):
    feed = files / "feed.csv"
    feed.write_text(f"AP,FLT,AB1,5\nAO,TOBT,AB1,{moment(400)}\n")
    server = board(start=False)
    assert cdmboard("import", server.airport, server.log, feed).returncode == 0
    assert cdmboard("import", server.airport, server.log, feed).returncode == 3
    assert cdmboard("audit", server.log).stdout == ""
    server.start()
    assert server.post(["FOO", "FLT,AB2,5"], Cdm_Role="AP")[1]["accepted"] == 3
    assert cdmboard("export", server.log).stdout == feed.read_text() + "AP,FLT,AB2,5\n" == server.get("/v1/journal.csv").body.decode()
    every = objects(cdmboard("export", server.log, "--all").stdout.encode())
    assert [(row["position"], row["desk"], row["role"], row["line"], row["reply"], row.get("word")) for row in every] == [
        (1, "import", "AP", "FLT,AB1,5", "ACCEPTED", None), (2, "import", "AO", f"TOBT,AB1,{moment(400)}", "ACCEPTED", None),
        (3, "AP", "AP", "FOO", "REFUSED", "KIND"), (4, "AP", "AP", "FLT,AB2,5", "ACCEPTED", None)]
    for text, told in (("AP,FLT,AB1,5\nGH,FLT,AB2,5\n", "record 2: AUTHORITY"), ('AP,FLT,"AB1",5\n', "line 1"), ("", "no record")):
        feed.write_text(text)
        ended = cdmboard("import", files / "airport.csv", files / "new.db", feed)
        assert ended.returncode == 3 and told in ended.stderr


def test_a_backup_is_a_log(board):
    """It is made and served while the day is served, and neither disturbs the other."""
    server, copy = board(), board(start=False)
    server.post(["FLT,AB1,5", "FOO"], Cdm_Role="AP")
    database = sqlite3.connect(server.log)
    database.execute(f"VACUUM INTO '{copy.log}'")
    database.close()
    copy.start()
    assert copy.records() == [record | ({"changes": None} if "changes" in record else {}) for record in server.records()]
    os.kill(server.sequencers()[0], signal.SIGKILL)
    until(lambda: server.metric("cdm_restarts") == 1 and server.is_ready())
    assert server.get("/v1/why/AB1").status == copy.get("/v1/why/AB1").status == 200
    assert server.post(["FLT,AB2,5"], Cdm_Role="AP")[0]["position"] == 3 and len(copy.records()) == 2
    assert server.end() == copy.end() == 0


def secrets_of(log):
    """The keys of the cookies of its boards."""
    with contextlib.closing(sqlite3.connect(log)) as database:
        return [secret for secret, in database.execute("SELECT secret FROM cdm_log")]


def test_a_backup_while_it_is_served(files, board):
    """`backup` makes a new file, 0600, with an id of its own; `verify` reads it; a start has the same day."""
    server, copy = board(), board(start=False)
    server.post(["FLT,AB1,5", "FOO"], Cdm_Role="AP", key="k")
    os.umask(0o022)
    ended = cdmboard("backup", server.log, copy.log)
    assert (ended.returncode, ended.stdout, ended.stderr) == (0, "", "") and copy.log.stat().st_mode & 0o777 == 0o600
    assert cdmboard("verify", copy.log).stdout == "2 records, 1 accepted, 0 digests of replies\n" == cdmboard("verify", server.log).stdout
    was = copy.log.read_bytes()
    ended = cdmboard("backup", server.log, copy.log)
    assert ended.returncode == 3 and "File exists" in ended.stderr and copy.log.read_bytes() == was
    copy.start()
    assert copy.records() == [record | ({"changes": None} if "changes" in record else {}) for record in server.records()]
    assert json.loads(copy.get("/v1/who").body)["log"] != json.loads(server.get("/v1/who").body)["log"]
    assert len(set(secrets_of(copy.log) + secrets_of(server.log))) == 2
    assert copy.post(["FLT,AB1,5", "FOO"], Cdm_Role="AP", key="k")[0]["position"] == 1
    # A mistyped name makes no file; nor does a board that isn't there.
    for words in (("backup", files / "none.db", files / "copy.db"), ("backup", server.log, files / "copy.db", "--board", "x")):
        ended = cdmboard(*words)
        assert ended.returncode == 3 and not (files / "copy.db").exists() and not (files / "none.db").exists(), words
    assert "--board" in ended.stderr and "--board" in cdmboard("verify", server.log, "--board", "x").stderr


def test_verify_finds_what_is_wrong(files, board):
    server = board()
    server.post(["FLT,AB1,5", "FLT,AB2,5", "FLT,AB3,5"], Cdm_Role="AP")
    assert server.end() == 0
    (files / "other").write_text(f'#!/bin/sh\n[ $1 = --version ] && echo cdmseq 0.0.0 || exec {PROGRAM} "$@"\n')
    (files / "other").chmod(0o755)
    ended = cdmboard("verify", server.log, environment=dict(ENVIRONMENT, CDMSEQ=str(files / "other")))
    assert ended.returncode == 3 and "another program: " in ended.stderr
    database = sqlite3.connect(server.log)
    database.execute("DELETE FROM cdm_record WHERE position = 2")
    database.commit()
    database.close()
    ended = cdmboard("verify", server.log)
    assert ended.returncode == 3 and "position 2 is missing" in ended.stderr


def test_an_export_without_the_program(files, board):
    """`--raw` gives what is in the log, also where the program can't read it."""
    server = board()
    server.post(["FLT,AB1,5", "FOO"], Cdm_Role="AP")
    ended = cdmboard("export", server.log, "--raw", environment=dict(ENVIRONMENT, CDMSEQ="/bin/false"))
    assert ended.returncode == 0 and [(row["position"], row["desk"], row["role"], row["line"]) for row in objects(ended.stdout)] == [
        (1, "AP", "AP", "FLT,AB1,5"), (2, "AP", "AP", "FOO")]
    assert [row["at"] for row in objects(ended.stdout)] == [record["at"] for record in server.records()]
    assert cdmboard("export", server.log, "--raw", "--all").returncode == 2


def test_the_last_updates_are_the_tower_s(files, board):
    """From 18,000 accepted updates on. Such a day is ready soon."""
    feed = files / "feed.csv"
    feed.write_text("".join(f"AP,FLT,F{number},5\n" for number in range(2000)) + "".join(
        f"AO,TOBT,F{number % 2000},{moment(300 + number % 1000)}\n" for number in range(15_999)))
    server = board(start=False)
    assert cdmboard("import", server.airport, server.log, feed).returncode == 0
    began = time.monotonic()
    server.start()
    figure(f"Start: a day of 17,999 updates is ready in {time.monotonic() - began:.1f} s")
    assert server.post([f"TOBT,F1,{moment(400)}"], Cdm_Role="AO", key="last")[0]["accepted"] == 18_000
    assert [server.post(["TOBT,F1," + moment(400)], Cdm_Role=role).status for role in ("AO", "GH", "NM", "AP")] == [403] * 4
    assert server.post([f"TOBT,F1,{moment(400)}"], Cdm_Role="AO", key="last")[0]["accepted"] == 18_000
    assert server.post(["PRIO,F1,2"], Cdm_Role="ATC")[0]["accepted"] == 18_001


def test_the_clock_is_taken(board):
    today = time.strftime("%Y-%m-%d", time.gmtime())
    server = board(options=["--clock"], airport=AIRPORT.replace("2025-03-10", today))
    until(lambda: len(server.records()) >= 1)
    record = server.records()[0]
    assert (record["desk"], record["role"], record["reply"]) == ("clock", "ATC", "ACCEPTED") and record["line"].startswith(f"CLOCK,{today}T")
    board_of = server.options[server.options.index("--board"):][:2] if "--board" in server.options else []
    assert cdmboard("audit", server.log, *board_of).stdout == ""
    server.kill()
    server.start()
    time.sleep(0.5)
    assert len({record["line"] for record in server.records()}) == len(server.records()) <= 2
    other = board(options=["--clock"])
    until(lambda: other.told().count("outside the two days") == 1)
    assert other.records() == []


def test_a_log_that_is_away_stops_no_clock(caplog):
    """Records aren't taken for nine minutes, and then they are; a clock that jumps is told, and not taken."""
    from board import clock
    from board.words import Problem
    now, taken = [datetime.datetime(2025, 3, 10, 6)], []

    async def take(desk, lines, key):
        if 0 < now[0].minute < 10:
            raise Problem(503, "the log is away")
        taken.append((desk.name, lines, key))

    async def sleep(seconds):
        now[0] += datetime.timedelta(minutes=1 if now[0].minute < 12 else 6)
        if now[0].minute > 20:
            raise asyncio.CancelledError
    with mock.patch.object(clock, "now_text", lambda _, ahead=datetime.timedelta(): f"{now[0] + ahead:%Y-%m-%dT%H:%MZ}"), \
            mock.patch.object(clock.asyncio, "sleep", sleep), pytest.raises(asyncio.CancelledError):
        asyncio.run(clock.run(mock.Mock(date="2025-03-10"), take))
    minutes = [f"2025-03-10T06:{minute}Z" for minute in ("00", 10, 11, 12)]
    assert taken == [("clock", [f"CLOCK,{minute}"], minute) for minute in minutes]
    told = caplog.text
    assert told.count("no CLOCK was taken: the log is away") == 1 and "2025-03-10T06:18Z is more than 5 minutes" in told


def test_sealed_by_tls(board):
    server = board(DESKS, start=False)
    certificates(server.folder)
    for kind in ("crt", "key"):
        (server.folder / f"used.{kind}").write_bytes((server.folder / f"one.{kind}").read_bytes())
    server.options += ["--tls", str(server.folder / "used.crt"), str(server.folder / "used.key")]
    server.start()
    silent, began = socket.create_connection(("127.0.0.1", server.port)), time.monotonic()

    def talk(name):
        trusted = ssl.create_default_context(cafile=server.folder / f"{name}.crt")
        body = json.dumps({"desk": "ap", "token": "token-ap"}).encode()
        request = urllib.request.Request(f"https://127.0.0.1:{server.port}/v1/session", body)
        with urllib.request.urlopen(request, context=trusted, timeout=10) as answer:
            return answer.headers["Set-Cookie"]
    assert "Secure" in talk("one")
    for kind in ("crt", "key"):
        (server.folder / f"used.{kind}").write_bytes((server.folder / f"two.{kind}").read_bytes())
    server.process.send_signal(signal.SIGHUP)
    time.sleep(0.3 * FACTOR)
    assert "Secure" in talk("two")
    silent.settimeout(10 + 5 * FACTOR)
    try:
        assert silent.recv(1) == b""
    except ConnectionError:
        pass
    assert 9 < time.monotonic() - began < 10 + 4 * FACTOR
    silent.close()


def test_behind_a_proxy(board):
    server = board(DESKS, options=["--behind-proxy", "--name", "cdm.example"])
    origin = "https://cdm.example"
    assert server.post(["FLT,AB1,5"], "ap", Host="cdm.example", Origin=origin, X_Forwarded_For="10.9.8.7")[0]["reply"] == "ACCEPTED"
    assert server.post(["FLT,AB1,5"], "ap", Host="cdm.example", Origin="http://cdm.example").status == 403
    session = server.request("POST", "/v1/session", '{"desk":"ap","token":"token-ap"}', Host="cdm.example")
    assert "Secure" in session.headers["Set-Cookie"]
    assert server.get("/v1/plan", "nobody", Host="cdm.example", X_Forwarded_For="1.2.3.4, 10.9.8.7").status == 401
    assert " 10.9.8.7 " in server.told()
    # A proxy that says it in a header of its own: what the client said itself stands before it.
    with socket.create_connection(("127.0.0.1", server.port)) as own:
        own.sendall(b"GET /v1/plan HTTP/1.1\r\nHost: cdm.example\r\nX-Forwarded-For: 10.6.6.6\r\nX-Forwarded-For: 10.7.7.7\r\n\r\n")
        assert own.recv(65536).startswith(b"HTTP/1.1 401")
    assert " 10.7.7.7 " in server.told() and "10.6.6.6" not in server.told()


def test_a_server_that_could_ask_no_question_does_not_start(board):
    """Where the system forbids what a question is run with, as the service's filter of system calls may, it says so, and serves nothing."""
    server = board(start=False)
    server.collect("from board import answers; answers.LIMITED = ('/bin/sh', '-c', 'echo forbidden >&2; exit 127')")
    command = [*server.words, server.airport, server.log, "--listen", "127.0.0.1:0"]
    with subprocess.Popen(command, env=server.environment, stdout=subprocess.PIPE, stderr=subprocess.PIPE, text=True) as process:
        line = process.stdout.readline()
        process.terminate()
        _, told = process.communicate()
    assert (line, process.returncode) == ("", 3), line
    assert told == "cdmboard: forbidden\n"
