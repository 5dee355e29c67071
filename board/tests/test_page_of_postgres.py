"""The lines of docs/POSTGRES.md make a cluster on which servers run, a fail-over, and a new standby; and they take a day from a file to
PostgreSQL and back."""
import contextlib
import json
import os
import re
import shutil
import subprocess
import urllib.request

import clusters
import pytest
from conftest import PROGRAM, ROOT, moment, objects, until

pytestmark = pytest.mark.skipif(bool(clusters.missing()), reason=f"a log in PostgreSQL: {' and '.join(clusters.missing())} missing")
PAGE = (ROOT / "docs/POSTGRES.md").read_text()


@contextlib.contextmanager
def typed():
    """A folder in which lines of the page are typed, with ports of its own; and what a text of the page is with these."""
    ports = {"5433": str(clusters.free_port()), "5434": str(clusters.free_port())}

    def own(text):
        for old, new in ports.items():
            text = text.replace(old, new)
        return text

    def run(lines):
        # What the lines start keeps their output open, so it goes to a file.
        with open(f"{folder}/said", "ab") as said:
            status = subprocess.run(clusters.as_user("env", f"HOME={folder}", f"CDM={folder}/cdm", f"CDMSEQ={folder}/cdm/cdmseq", "bash", "-c", own(lines)),
                                    cwd=folder, timeout=120, stdout=said, stderr=said, stdin=subprocess.DEVNULL).returncode
        assert status == 0, open(f"{folder}/said").read()
    with clusters.folder() as folder:
        # The checkout may be where the database's user can't read it.
        shutil.copytree(ROOT / "board", f"{folder}/cdm/board", ignore=shutil.ignore_patterns("tests", "__pycache__"))
        shutil.copy(ROOT / "cdmboard", f"{folder}/cdm/cdmboard")
        shutil.copy(PROGRAM, f"{folder}/cdm/cdmseq")
        subprocess.run(["chmod", "-R", "a+rX", f"{folder}/cdm"], check=True)
        try:
            yield folder, own, run
        finally:
            for name in ("primary", "standby"):
                subprocess.run(clusters.as_user(f"{clusters.binaries()}/pg_ctl", "-D", f"{folder}/{name}", "-m", "immediate", "stop"), cwd="/",
                               capture_output=True)


def is_taken(server, line, key):
    """Whether a desk that sends again with its key has its reply now."""
    answer = server.post([line], Cdm_Role="AP", key=key)
    assert isinstance(answer, list) or answer.status in (503, 504)
    return isinstance(answer, list)


def test_the_lines_of_the_page_make_a_cluster(board):
    """And what the page says of a fail-over is what a desk and a display see."""
    set_up, fail_over, new_standby = re.findall(r"```sh\n(.*?)```", PAGE, re.S)
    with typed() as (folder, own, run):
        # The same shell has the variables of the first lines in the later ones.
        variables = "".join(line + "\n" for line in set_up.splitlines() if line.startswith("export "))
        run(set_up)
        url = own(re.search(r"postgresql://board@\S+/cdm", PAGE)[0])
        server = board(log=url, options=["--board", "EDDF"], environment={"PGPASSFILE": f"{folder}/pgpass"})
        assert server.post(["FLT,AB1,5"], Cdm_Role="AP", key="k")[0]["position"] == 1
        display = urllib.request.urlopen(f"http://127.0.0.1:{server.port}/v1/events", timeout=60)
        run(variables + "pg_ctl -D primary -w -m immediate stop")
        until(lambda: "Cdm-Stale-Since" in server.get("/v1/plan").headers)
        assert server.post(["FLT,AB2,5"], Cdm_Role="AP", key="k2").status == 503 and server.get("/v1/why/AB1").status == 200
        health = server.get("/health")
        assert health.status == 200 and json.loads(health.body)["stale_since"] == server.get("/v1/plan").headers["Cdm-Stale-Since"]
        run(variables + fail_over)
        until(lambda: is_taken(server, "FLT,AB2,5", "k2"), 120)
        assert server.post(["FLT,AB2,5"], Cdm_Role="AP", key="k2")[0]["position"] == 2 and "Cdm-Stale-Since" not in server.get("/v1/plan").headers
        # The display is still connected: it gets the event of the record, and no reset.
        kinds = [kind for kind in iter(lambda: event(display), "reply") if kind not in ("from", "view")]
        assert kinds in ([], ["reset"]), kinds
        display.close()
        run(variables + new_standby)

        def standbys():
            with open(f"{folder}/pgpass") as passwords:
                password = next(line.rstrip("\n").rpartition(":")[2] for line in passwords if ":postgres:" in line)
            return subprocess.run([f"{clusters.binaries()}/psql", "-At", "-h", "127.0.0.1", "-p", own("5434"), "-U", "postgres", "-c",
                                   "SELECT application_name, sync_state FROM pg_stat_replication"], env=dict(os.environ, PGPASSWORD=password),
                                  capture_output=True, text=True).stdout
        until(lambda: standbys() == "primary|sync\n", 60)
        until(lambda: is_taken(server, "FLT,AB3,5", "k3"), 60)
        assert [record["line"] for record in server.records()] == ["FLT,AB1,5", "FLT,AB2,5", "FLT,AB3,5"]


def event(display):
    """The kind of the next event of a display."""
    return next(line[7:].decode().strip() for line in display if line.startswith(b"event: "))


def test_the_lines_of_the_page_take_a_day_to_postgresql_and_back(board, cluster):
    """Each way in the middle of a day, with the plan as it was."""
    there, back = [re.findall(r"`(cdmboard (?:export|import) [^`]*)`", part) for part in
                   PAGE.partition("## From a file to PostgreSQL and back")[2].partition("## ")[0].split("The way back")]
    assert len(there) == len(back) == 2

    def run(lines, folder, server):
        for line in lines:
            line = line.replace("airport.csv", str(server.airport)).replace("postgresql://..", cluster.url()).replace("day.db", str(server.log))
            ended = subprocess.run(["bash", "-c", f"{ROOT}/{line}"], cwd=folder, env=dict(os.environ, CDMSEQ=PROGRAM), capture_output=True, text=True)
            assert (ended.returncode, ended.stderr) == (0, "")

    def plan(server):
        # On a busy machine the program may take longer than the server waits for it.
        answers = []
        until(lambda: answers.append(server.get("/v1/plan.json")) or answers[-1].status == 200, 120)
        return objects(answers[-1].body)[0] | {"refused": []}
    first = board()
    first.post(["FLT,AB1,5", "FOO", "FLT,AB2,5"], Cdm_Role="AP")
    first.post([f"TOBT,AB1,{moment(400)}"], Cdm_Role="AO")
    as_it_was, feed = plan(first), first.get("/v1/journal.csv").body
    assert first.end() == 0
    run(there, first.folder, first)
    second, third = (board(log=cluster.url(), options=["--board", "EDDF"]) for _ in range(2))
    assert plan(second) == plan(third) == as_it_was and second.get("/v1/journal.csv").body == feed
    assert second.post([f"TOBT,AB2,{moment(410)}", "FOO"], Cdm_Role="AO")[0]["accepted"] == 4
    until(lambda: len(third.records()) == 5)
    as_it_was, feed = plan(third), third.get("/v1/journal.csv").body
    assert second.end() == third.end() == 0
    run(back, first.folder, first)
    last = board(log=first.folder / "day-2.db")
    assert plan(last) == as_it_was and last.get("/v1/journal.csv").body == feed
    assert last.post(["FLT,AB3,5"], Cdm_Role="AP")[0]["position"] == 5


def test_the_lines_of_the_page_keep_a_board_and_remove_it(board, cluster):
    """The backup is a log in a file, with the day as it was; then the board is gone from the database, and another one isn't."""
    part = PAGE.partition("## Backup and deletion")[2].partition("\n## ")[0]
    lines, remove = re.findall(r"^    (cdmboard (?:backup|verify) .*)$", part, re.M), re.search(r"```sql\n(.*?)```", part, re.S)[1]
    assert len(lines) == 2
    servers = [board(log=cluster.url(), options=["--board", name]) for name in ("GONE", "KEPT")]
    for server in servers:
        assert server.post(["FLT,AB1,5", "FOO"], Cdm_Role="AP")[0]["accepted"] == 1
    for line in lines:
        words = line.replace("postgresql://..", cluster.url()).replace("EDDF", "GONE")
        ended = subprocess.run(["bash", "-c", f"{ROOT}/{words}"], cwd=servers[0].folder, env=dict(os.environ, CDMSEQ=PROGRAM), capture_output=True, text=True)
        assert (ended.returncode, ended.stderr) == (0, ""), line
    assert servers[0].end() == 0
    cluster.sql(remove.replace("EDDF", "GONE"))
    again = board(log=cluster.url(), options=["--board", "GONE"])
    assert again.records() == [] and len(servers[1].records()) == 2
    copy = board(log=servers[0].folder / "backup.db", options=["--board", "GONE"])
    assert [record["line"] for record in copy.records()] == ["FLT,AB1,5", "FOO"]
