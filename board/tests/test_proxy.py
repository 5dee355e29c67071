"""Behind nginx, with the site that docs/RUN.md shows."""
import collections
import json
import os
import re
import shutil
import signal
import socket
import ssl
import subprocess
import time
import urllib.error
import urllib.request

import pytest
from conftest import FACTOR, ROOT, certificates, objects, until

DESKS = {"ap": 'role = "AP"', "screen": 'role = "READ"'}
NGINX = shutil.which("nginx", path="/usr/sbin:/usr/bin")


def free_port():
    with socket.create_server(("127.0.0.1", 0)) as own:
        return own.getsockname()[1]


@pytest.fixture
def site(board, request):
    """The board behind nginx, and how to ask it. A parameter is what stands in the site in place of some of its words."""
    if NGINX is None:
        pytest.skip("test_proxy: nginx is missing")
    server, port = board(DESKS, options=["--behind-proxy", "--name", "cdm.example"]), free_port()
    folder = server.folder
    certificates(folder)
    text = re.search(r"```nginx\n(.*?)```", (ROOT / "docs/RUN.md").read_text(), re.DOTALL)[1]
    for old, new in (("listen 443 ", f"listen 127.0.0.1:{port} "), ("127.0.0.1:8270", f"127.0.0.1:{server.port}"),
                     ("/etc/ssl/cdm.example.pem", f"{folder}/one.crt"), ("/etc/ssl/private/cdm.example.key", f"{folder}/one.key"),
                     *getattr(request, "param", {}).items()):
        assert old in text, old
        text = text.replace(old, new)
    (folder / "temp").mkdir()
    temp = "".join(f"{name}_temp_path {folder}/temp; " for name in ("client_body", "proxy", "fastcgi", "uwsgi", "scgi"))
    (folder / "nginx.conf").write_text(f"daemon off; pid {folder}/nginx.pid; error_log {folder}/nginx.txt; worker_processes 1;\n"
                                       f"events {{}}\nhttp {{ access_log off; {temp}\n{text}\n}}\n")
    process = subprocess.Popen([NGINX, "-p", folder, "-c", folder / "nginx.conf"], stderr=subprocess.DEVNULL)
    until(lambda: os.path.exists(folder / "nginx.pid"))
    trusted = ssl.create_default_context(cafile=folder / "one.crt")
    trusted.check_hostname = False

    def ask(path, body=None, desk=None, **headers):
        sent = {"Host": "cdm.example"} | {name.replace("_", "-"): value for name, value in headers.items()}
        if desk:
            sent["Authorization"] = f"Bearer token-{desk}"
        request = urllib.request.Request(f"https://127.0.0.1:{port}{path}", body, sent)
        try:
            return urllib.request.urlopen(request, context=trusted, timeout=20)
        except urllib.error.HTTPError as answer:
            return answer
    ask.server, ask.port, ask.folder = server, port, folder
    yield ask
    process.send_signal(signal.SIGTERM)
    process.wait(10)


def test_the_site_of_the_page(site):
    """Records, a session, events as they come, whose address it was, and what the proxy lets in."""
    assert site("/health").status == 200
    reply, = objects(site("/v1/records", b"FLT,AB1,5", "ap", Origin="https://cdm.example").read())
    assert (reply["desk"], reply["reply"]) == ("ap", "ACCEPTED")
    assert site("/v1/records", b"FLT,AB2,5", "ap", Origin="https://evil.example").status == 403
    assert site("/v1/plan", desk="ap", Host="evil.example").status == 421
    session = site("/v1/session", json.dumps({"desk": "ap", "token": "token-ap"}).encode())
    cookie = session.headers["Set-Cookie"]
    assert session.status == 204 and cookie.startswith("__Host-cdm-") and "Secure" in cookie and site("/v1/who", Cookie=cookie.partition(";")[0]).status == 200
    with site("/v1/events", desk="screen") as events:
        began = time.monotonic()
        site("/v1/records", b"FLT,AB3,5", "ap").read()
        while events.readline() != b"event: reply\n":
            pass
        assert b"AB3" in events.readline() and time.monotonic() - began < 8 * FACTOR
    assert site("/v1/plan", desk="nobody", X_Forwarded_For="10.6.6.6").status == 401
    # A thread of the server's own writes the line.
    until(lambda: " 127.0.0.1 - '/v1/plan' 401" in site.server.told())
    assert "10.6.6.6" not in site.server.told()
    assert site("/v1/what-if", b"A" * 66_000, "ap").status == 413
    assert site("/v1/plan.json", desk="ap", Accept_Encoding="gzip").status == 200


@pytest.mark.parametrize("site", [{"rate=200r/s": "rate=1r/m", "burst=2000": "burst=20"}], indirect=True)
def test_an_address_that_asks_too_often(site):
    """What is beyond the rate and its burst gets 429 from the proxy, and the server never sees it. Here the rate is one a minute."""
    answers = collections.Counter(site("/health").status for _ in range(30))
    assert answers[200] in (21, 22) and answers[429] == 30 - answers[200]


def test_four_pages_that_open_at_once(site):
    """Over HTTP/2, where each request counts as a connection at the proxy: every file of each page comes."""
    if shutil.which("curl") is None:
        pytest.skip("test_four_pages_that_open_at_once: curl is missing")
    files = [path.name for path in (ROOT / "board/page").iterdir() if path.suffix in (".js", ".css", ".svg")]
    index = site("/").read().decode()
    folder = re.search(r"/page-[0-9a-f]+/", index)[0]
    # The face's sheet is there where the face is installed.
    files = [name for name in files if name != "face.css" or f"{folder}{name}" in index]
    wanted = [f"https://127.0.0.1:{site.port}{path}" for _ in range(4) for path in ["/", *(f"{folder}{name}" for name in files)]]
    lines = "".join(f'url = "{url}"\noutput = "/dev/null"\n' for url in wanted)
    (site.folder / "curl.txt").write_text(lines)
    words = ["curl", "-q", "-sS", "--parallel", "--parallel-immediate", "--parallel-max", "300", "--http2", "--cacert", site.folder / "one.crt",
             "-H", "Host: cdm.example", "-w", "%{http_code} %{http_version}\\n", "--config", site.folder / "curl.txt"]
    # The server is busy for a moment, so all of them are asked for at once.
    site.server.process.send_signal(signal.SIGSTOP)
    asking = subprocess.Popen(list(map(str, words)), stdout=subprocess.PIPE, stderr=subprocess.PIPE, text=True)
    time.sleep(1.5 * FACTOR)
    site.server.process.send_signal(signal.SIGCONT)
    told, faults = asking.communicate(timeout=60 * FACTOR)
    assert collections.Counter(told.split("\n")[:-1]) == {"200 2": len(wanted)}, faults
