"""docs/HTTP.md: its blocks can be pasted, they print what the page shows, and its client keeps up over restarts."""
import contextlib
import http.server
import json
import os
import re
import shutil
import signal
import subprocess
import sys
import threading

import pytest
from conftest import FACTOR, PROGRAM, ROOT, moment, objects, until

PAGE = (ROOT / "docs/HTTP.md").read_text()
MARK = "-- next block --\n"
# What is another in each run: times, and ids of logs.
OTHER = ((r'("at":")[^"]*', r"\1AT"), (r"\b[0-9a-f]{16}\b", "LOG"))
DESKS = {"airport": 'role = "AP"', "tower": 'role = "ATC"', "operator": 'role = "AO"', "screen": 'role = "READ"'}


def blocks():
    """The blocks of the page that are pasted, each with what it prints."""
    found = re.finditer(r"^```sh\n(.*?)^```\n(?:\n((?:^    [^\n]*\n)+))?", PAGE, re.M | re.S)
    return [(block[1], re.sub("^    ", "", block[2] or "", flags=re.M)) for block in found]


def alike(text):
    """A text without what is another in each run."""
    for pattern, new in OTHER:
        text = re.sub(pattern, new, text)
    return text


def pasted(folder):
    """What each block prints, in one shell, and its errors. The reader has a job of their own, and keeps it, as they keep their umask."""
    text = "umask 027\nsleep 600 & job=$!\n" + "".join(f"{block}printf %s '{MARK}'\n" for block, _ in blocks())
    text = text.replace("--max-time 4", f"--max-time {4 * FACTOR:.0f}").replace("\nsleep 1\n", f"\nsleep {FACTOR:.0f}\n")
    ended = subprocess.run(["bash", "-um"], input=text + "kill -0 $job && kill $job && echo kept; umask\n", cwd=ROOT, capture_output=True, text=True,
                           env=dict(os.environ, CDMSEQ=PROGRAM, TMPDIR=str(folder)), timeout=60 * FACTOR)
    assert ended.stdout.endswith(MARK + "kept\n0027\n"), (ended.stdout, ended.stderr)
    return ended.stdout.split(MARK), ended.stderr


def test_the_blocks_of_the_page(tmp_path):
    """Three desks, records, questions, a what-if, events, a session: the page has what the program and the server print."""
    if shutil.which("curl") is None:
        pytest.skip("test_the_blocks_of_the_page: curl is missing")
    told, errors = pasted(tmp_path)
    records = objects("\n".join(line for line in told[1].splitlines()))
    assert [(one["position"], one["desk"], one["reply"], one.get("word")) for one in records] == [
        (1, "airport", "ACCEPTED", None), (2, "tower", "ACCEPTED", None), (3, "tower", "REFUSED", "UNKNOWN"),
        (4, "operator", "ACCEPTED", None)], errors
    events = re.findall(r"^event: (\w+)$", "".join(told), re.M)
    assert "reply" in events and events[-1] == "view", errors
    if PROGRAM.endswith("standin.py"):
        pytest.skip("test_the_blocks_of_the_page: the stand-in has a rule of its own, so answers aren't compared")
    for (block, shown), printed in zip(blocks(), told):
        assert alike(printed) == alike(shown), block


@contextlib.contextmanager
def client(folder, *words):
    """The page's client while it runs, and the file of what it prints."""
    program = folder / "tsats.py"
    program.write_text(re.search(r"```python\n(.*?)```", PAGE, re.S)[1])
    with open(folder / "tsats.txt", "wb") as said, open(folder / "errors of tsats.txt", "wb") as errors:
        process = subprocess.Popen([sys.executable, "-u", program, *words], stdout=said, stderr=errors)
        try:
            yield process, folder / "tsats.txt"
        finally:
            process.kill()
            process.wait()


def test_the_client_of_the_page(board):
    """It has the TSATs of one operator's flights: from its start on, after records, after a kill and after an end of the server during
    which nothing came, after a record that it missed, and after a start of its own. It ends if its token isn't taken any more."""
    server = board(DESKS)
    flights = ["DLH1", "DLH2", "EWG1"]

    def say(desk, *lines):
        assert all(one["reply"] == "ACCEPTED" for one in server.post(lines, desk)), lines

    def plan():
        rows = objects(server.get("/v1/plan.json", "screen").body)[0]["flights"]
        return {row["flight"]: row["tsat"] or "none" for row in rows if row["flight"].startswith("DLH")}

    def has_all(said):
        wanted = plan()
        assert len(wanted) == 2
        until(lambda: dict(line.split() for line in said.read_text().splitlines()) == wanted)
    say("airport", *(f"FLT,{name},5" for name in flights))
    say("tower", *(f"RWY,{name},27L" for name in flights))
    with client(server.folder, f"http://127.0.0.1:{server.port}/", "token-screen", "DLH") as (process, said):
        has_all(said)
        say("operator", *(f"TOBT,{name},{moment(400 + n)}" for n, name in enumerate(flights)))
        has_all(said)
        server.kill()
        server.start()
        has_all(said)
        say("operator", f"TOBT,DLH1,{moment(450)}")
        has_all(said)
        assert server.end() == 0
        server.start()
        # The first record after the start may come before the client is there again: it reads the plan then.
        say("operator", f"TOBT,DLH2,{moment(470)}", f"CNL,{flights[0]}")
        has_all(said)
        assert "DLH1 none" in said.read_text() and "EWG" not in said.read_text() and process.poll() is None
    with client(server.folder, f"http://127.0.0.1:{server.port}/", "token-screen", "DLH") as (process, said):
        has_all(said)
        server.write_desks({name: table for name, table in DESKS.items() if name != "screen"} | {"other": 'role = "READ"'})
        server.process.send_signal(signal.SIGHUP)
        assert process.wait(20 * FACTOR) == 1
        assert b"401" in (server.folder / "errors of tsats.txt").read_bytes()


class TwoPasts(http.server.BaseHTTPRequestHandler):
    """A board whose plan was asked of a server that has another past than the one that has the events; from the second plan on both have
    the same one."""
    plans = 0

    def do_GET(self):
        is_plan = self.path == "/v1/plan.json"
        TwoPasts.plans += is_plan
        row = {"flight": "DLH1", "tsat": f"plan-{self.plans}" if is_plan else f"event-{self.plans}"}
        body = json.dumps({"flights": [row]}) if is_plan else 'event: from\ndata: {"position":7,"at":"2"}\n\nevent: reply\ndata: %s\n\n' % json.dumps(
            {"changes": [row]})
        self.send_response(200)
        self.send_header("ETag", '"log-7"')
        self.send_header("Cdm-At", str(self.plans))
        self.end_headers()
        self.wfile.write(body.encode() + b"\n")

    def log_message(self, *_):
        pass


def test_the_client_of_the_page_tells_two_pasts_apart(tmp_path):
    """It puts no event over a plan of another past, but reads the plan again."""
    with http.server.ThreadingHTTPServer(("127.0.0.1", 0), TwoPasts) as server:
        threading.Thread(target=server.serve_forever, daemon=True).start()
        with client(tmp_path, f"http://127.0.0.1:{server.server_address[1]}/", "token", "DLH") as (_, said):
            until(lambda: "event-2" in said.read_text())
            assert said.read_text().split()[:6] == ["DLH1", "plan-1", "DLH1", "plan-2", "DLH1", "event-2"]
        server.shutdown()


def test_the_statuses_of_the_page(board):
    """Each problem of the page's table of questions that can be had at once: its status, and a `detail`."""
    server = board(DESKS)
    large = b"SCENARIO,A\n" + b"TOBT,AB1,2025-03-10T06:00Z\n" * 3000
    for path, body, desk, status in (
            ("/v1/plan", None, None, 401), ("/v1/why/NIX", None, "screen", 404), ("/v1/nix", None, "screen", 404),
            ("/v1/next?minutes=%20", None, "screen", 400), ("/v1/compare", b"NIX\n", "screen", 422), ("/v1/compare", large, "screen", 413)):
        answer = server.request("POST" if body else "GET", path, body, desk)
        assert answer.status == status and json.loads(answer.body)["status"] == status and json.loads(answer.body)["detail"], path
