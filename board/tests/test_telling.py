"""What the server says on standard error: nobody who reads it slowly, or not at all, delays an answer."""
import fcntl
import http.client
import json
import os
import signal
import subprocess
import time

import pytest
from conftest import FACTOR, ROOT, until

DESKS = {"ap": 'role = "AP"', "atc": 'role = "ATC"'}
# A pipe takes so many bytes here, and a line of a request that is refused has more than 100; the queue takes 1,000 lines. Of an address
# 20 refusals a minute are a line each.
PIPE, ADDRESSES, OF_ADDRESS = 4096, 55, 20


@pytest.fixture
def piped(board):
    """Starts a server whose standard error is a pipe, and gives the end of it that is read."""
    opened = []

    def start(**environment):
        server = board(DESKS, start=False)
        end, write_end = os.pipe()
        fcntl.fcntl(end, fcntl.F_SETPIPE_SZ, PIPE)
        opened.append(end)
        command = [str(ROOT / "cdmboard"), str(server.airport), str(server.log), "--listen", "127.0.0.1:0", *server.options]
        server.errors = open(server.folder / "errors.txt", "ab")
        server.process = subprocess.Popen(command, env=server.environment | environment, stdout=subprocess.PIPE, stderr=write_end)
        os.close(write_end)
        server.port = int(server.process.stdout.readline().decode().rstrip("/\n").rpartition(":")[2])
        return server, end
    yield start
    for end in opened:
        try:
            os.close(end)
        except OSError:
            pass


def refused_often(server):
    """Requests without a token, each of which is a line."""
    for number in range(1, ADDRESSES + 1):
        connection = http.client.HTTPConnection("127.0.0.1", server.port, timeout=10 * FACTOR, source_address=(f"127.0.1.{number}", 0))
        for _ in range(OF_ADDRESS):
            connection.request("GET", "/v1/plan" + "x" * 60)
            answer = connection.getresponse()
            answer.read()
            assert answer.status == 401, number
        connection.close()


def test_nobody_reads_standard_error(piped):
    """More lines than a pipe and the queue take: the tower is answered, the end comes, and the next reader learns how many were dropped."""
    server, end = piped()
    refused_often(server)
    began = time.monotonic()
    assert server.get("/health").status == 200 and server.post(["RWY,AB1,27L"], "atc")[0]["word"] == "UNKNOWN"
    assert time.monotonic() - began < 5 * FACTOR
    assert server.metric("cdm_dropped_lines_total", "atc") > 0
    said = b""
    while b"lines were dropped" not in said:
        said += os.read(end, 65536)
    assert server.end() == 0


def test_the_end_comes_though_nobody_reads(piped):
    server, _ = piped()
    refused_often(server)
    began = time.monotonic()
    assert server.end() == 0 and time.monotonic() - began < 10 * FACTOR


def test_a_dead_standard_error_changes_no_answer(piped):
    """401 stays 401, and the end of a sequencer isn't that of the server."""
    server, end = piped()
    os.close(end)
    for _ in range(5):
        assert server.get("/v1/plan").status == 401
    for _ in range(2):
        old, = server.sequencers()
        os.kill(old, signal.SIGKILL)
        until(lambda: server.sequencers() not in ([], [old]))
    assert server.post(["FLT,AB1,5"], "ap")[0]["reply"] == "ACCEPTED"
    assert server.end() == 0


def test_lines_of_json(piped):
    """On wish each line is one object, with what is known of it by name."""
    server, end = piped(CDMBOARD_LOG="json")
    assert server.get("/v1/plan", Authorization="Bearer x").status == 401
    assert server.end() == 0
    told = b""
    while more := os.read(end, 65536):
        told += more
    refused, = [one for one in map(json.loads, told.splitlines()) if one.get("status") == 401]
    assert (refused["address"], refused["path"], refused["desk"]) == ("127.0.0.1", "/v1/plan", None)
    assert {"at", "level", "text"} <= set(refused) and refused["at"].endswith("Z")
