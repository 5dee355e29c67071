"""A board for a test: a real server, a real sequencer, a real log. CDMSEQ names the program; without it the proved one is taken
where it is there, else the stand-in."""
import contextlib
import http.client
import json
import os
import pathlib
import random
import re
import shutil
import signal
import subprocess
import time
from collections import namedtuple

import pytest

TESTS = pathlib.Path(__file__).resolve().parent
ROOT = TESTS.parent.parent
ROLES = ("AO", "GH", "AP", "ATC", "NM")
# A busy machine has more time: what each limit of time is multiplied by.
FACTOR = float(os.environ.get("BOARD_PAGE_FACTOR", "1"))
Reply = namedtuple("Reply", "status headers body")


def program():
    """The program that the tests run."""
    if os.environ.get("CDMSEQ"):
        return os.path.realpath(os.environ["CDMSEQ"])
    proved = ROOT / "crates/cdm_main/out/cdm_main"
    if os.access(proved, os.X_OK):
        return str(proved)
    return str(TESTS / "standin.py")


PROGRAM = program()


def has(command):
    """Whether the program has a command."""
    return subprocess.run([PROGRAM, command], capture_output=True, text=True).stderr.find("unrecognized subcommand") < 0


# The last release's program, where there is one to try; otherwise this one has its version, and lacks the commands that it lacked.
BEFORE = os.environ.get("CDMSEQ_BEFORE", "")
LIKE_BEFORE = """[ "$1" = --version ] && echo "cdmseq 1.0.0" && exit
[ "$1" = carry ] && echo "error: unrecognized subcommand 'carry'" >&2 && exit 2"""


def pytest_report_header():
    return f"program: {PROGRAM}; the last release's: {BEFORE or 'none, CDMSEQ_BEFORE names it'}"


AIRPORT = "DAY,2025-03-10\nRUNWAY,27L,10,20\nRUNWAY,09,15,20\nTAXI,*,27L,15\nTAXI,*,09,12\n"


def moment(minute):
    return f"2025-03-{10 + minute // 1440}T{minute % 1440 // 60:02}:{minute % 60:02}Z"


def of_role(chance, role, flights):
    """A random record of a role, good or bad."""
    name, at = chance.choice(flights), moment(chance.randrange(300, 1200))
    lines = {"AO": [f"TOBT,{name},{at}", f"TOBT,{name},{at}", f"CNL,{name}" if chance.random() < 0.1 else f"TOBT,{name},{at}"],
             "GH": [f"TOBT,{name},{at}", f"ICE,{name},STAND,{chance.randrange(1, 20)}"],
             "AP": [f"FLT,{name},{chance.randrange(10)}", f"GROUP,{name},{chance.choice('LMH')}"],
             "ATC": [f"RWY,{name},{chance.choice(['27L', '09'])}", f"PRIO,{name},{chance.randrange(10)}", f"CLOCK,{at}"],
             "NM": [f"CTOT,{name},{at}", f"CTOT,{name},-"]}[role]
    return chance.choice([*lines, *lines, *lines, "FOO", f"TOBT,{name},25-03-10"])


class Server:
    """One server process, which can be killed and started again."""

    def __init__(self, folder, desks=None, options=(), environment=None, faulty=None, airport=AIRPORT, log=None):
        self.folder, self.options, self.left = folder, list(options), set()
        self.airport, self.log = folder / "airport.csv", log or folder / "day.db"
        self.airport.write_text(airport)
        self.environment = dict(os.environ, CDMSEQ=PROGRAM, **(environment or {}))
        if faulty:
            wrapper = folder / "program"
            wrapper.write_text(f'#!/bin/sh\nexec {TESTS}/faulty.py {faulty} {folder}/done {PROGRAM} "$@"\n')
            wrapper.chmod(0o755)
            self.environment["CDMSEQ"] = str(wrapper)
        self.desks = {}
        if desks is not None:
            self.write_desks(desks)
            self.options += ["--desks", str(folder / "desks.toml")]
        self.port, self.process = 0, None
        self.words = [str(ROOT / "cdmboard")]

    def write_desks(self, desks, read="desks"):
        """desks: name to the lines of its table; its token is `token-NAME`."""
        import hashlib
        text = f'read = "{read}"\n'
        for name, table in desks.items():
            digest = hashlib.sha256(f"token-{name}".encode()).hexdigest()
            text += f'[desk.{name}]\ntoken = "sha256:{digest}"\n{table}\n'
        path = self.folder / "desks.toml"
        path.write_text(text)
        path.chmod(0o600)

    def start(self, limit=""):
        """Starts it, and waits until it is ready; on the same port as before."""
        command = [*self.words, str(self.airport), str(self.log), "--listen", f"127.0.0.1:{self.port}", *self.options]
        if limit:
            command = ["/bin/bash", "-c", f'{limit}; exec "$0" "$@"', *command]
        self.errors = open(self.folder / "errors.txt", "ab")
        self.process = subprocess.Popen(command, env=self.environment, stdout=subprocess.PIPE, stderr=self.errors)
        line = self.process.stdout.readline().decode()
        assert line.startswith("http"), (line, self.told())
        self.port = int(line.rstrip("/\n").rpartition(":")[2])
        for number in self.sequencers():
            with contextlib.suppress(OSError):
                self.left.add(os.path.dirname(os.readlink(f"/proc/{number}/cwd")))
        return self

    def collect(self, how):
        """From its next start on Python collects what refers to itself so: with some words about the module gc."""
        self.environment["PYTHONPATH"] = str(ROOT)
        self.words = ["/usr/bin/python3", "-P", "-B", "-c", f"import gc, runpy; {how}; runpy.run_module('board', run_name='__main__')"]

    def program(self, text):
        """From its next start on it asks this program of the shell, in which PROGRAM is the real one."""
        path = self.folder / "program"
        path.write_text(f'#!/bin/sh\nPROGRAM={PROGRAM}\n{text}\nexec $PROGRAM "$@"\n')
        path.chmod(0o755)
        self.environment["CDMSEQ"] = str(path)

    def clean(self):
        """Removes what a killed server leaves in memory."""
        for left in self.left:
            shutil.rmtree(left, ignore_errors=True)

    def told(self):
        """What it has said on standard error. A thread of its own writes it, so it is read once nothing has come for a while."""
        file, before = self.folder / "errors.txt", None
        while (text := file.read_text()) != before:
            before = text
            time.sleep(0.05 * FACTOR)
        return text

    def request(self, method, path, body=None, desk=None, **headers):
        """One request. desk: whose token it has. Words in headers have _ for -."""
        connection = http.client.HTTPConnection("127.0.0.1", self.port, timeout=120)
        try:
            sent = {name.replace("_", "-"): value for name, value in headers.items()}
            if desk:
                sent["Authorization"] = f"Bearer token-{desk}"
            connection.request(method, path, body if body is None or isinstance(body, bytes) else body.encode("latin-1"), sent)
            answer = connection.getresponse()
            return Reply(answer.status, answer.headers, answer.read())
        finally:
            connection.close()

    def get(self, path, desk=None, **headers):
        return self.request("GET", path, None, desk, **headers)

    def post(self, lines, desk=None, key=None, **headers):
        """Records; the replies, or what was answered instead."""
        if key:
            headers["Idempotency_Key"] = key
        body = lines if isinstance(lines, (str, bytes)) else "\n".join(lines)
        answer = self.request("POST", "/v1/records", body, desk, **headers)
        return objects(answer.body) if answer.status == 200 else answer

    def records(self, desk=None):
        """The whole log."""
        found, since = [], 0
        while True:
            more = objects(self.get(f"/v1/records?since={since}", desk).body)
            if not more:
                return found
            found, since = found + more, more[-1]["position"]

    def processes(self):
        """The server's own processes by their words, such as its sequencer."""
        found = {}
        for path in pathlib.Path("/proc").glob("[0-9]*/stat"):
            try:
                if path.read_text().rpartition(")")[2].split()[1] == str(self.process.pid):
                    found[int(path.parent.name)] = (path.parent / "cmdline").read_text().split("\0")
            except OSError:
                pass
        return found

    def sequencers(self):
        return [number for number, words in self.processes().items() if "serve" in words]

    def memory(self):
        """The server's memory now, in MiB."""
        status = pathlib.Path(f"/proc/{self.process.pid}/status").read_text()
        return int(next(line for line in status.splitlines() if line.startswith("VmRSS")).split()[1]) / 1024

    def metric(self, name, desk=None):
        text = self.get("/metrics", desk).body.decode()
        return float(next(line for line in text.splitlines() if line.startswith(name + " ")).split()[1])

    def is_ready(self):
        """Whether its sequencer is."""
        return json.loads(self.get("/health").body)["ready"]

    def kill(self):
        self.process.kill()
        self.process.wait()
        self.process.stdout.close()
        self.errors.close()

    def end(self):
        """TERM; the status."""
        self.process.send_signal(signal.SIGTERM)
        status = self.process.wait(30)
        self.process.stdout.close()
        self.errors.close()
        return status


def objects(body):
    return [json.loads(line) for line in body.splitlines()]


def until(is_so, seconds=10):
    """Waits until something is so."""
    end = time.monotonic() + seconds * FACTOR
    while not is_so():
        assert time.monotonic() < end, "it never was so"
        time.sleep(0.02)


# What runs over each log: a file of the server's own, and a board of its own in PostgreSQL.
EACH_LOG = ("test_a_reply_goes_to_its_own_record", "test_a_desk_speaks_for_its_own_role", "test_a_record_is_taken_once",
            "test_what_is_forwarded_is_one_line", "test_an_answer_is_of_one_moment", "test_a_sequencer_that_ended_is_not_gone_on_with",
            "test_a_sequencer_that_says_what_it_must_not_say_is_ended", "test_what_is_kept_of_replies_is_bounded", "test_a_day_is_its_log",
            "test_what_was_answered_is_kept", "test_an_end_answers_what_waits", "test_the_clock_is_taken",
            "test_an_operator_sends_for_its_own_flights", "test_each_event_once_among_many_displays",
            "test_a_log_is_bound_to_no_airport_file_that_is_refused", "test_a_day_begins", "test_who_changes_the_day",
            "test_a_display_stays_connected")


def pytest_generate_tests(metafunc):
    if metafunc.function.__name__ in EACH_LOG:
        metafunc.parametrize("log_engine", ["sqlite", "postgres"], indirect=True)


@pytest.fixture(scope="session")
def cluster():
    """A cluster of PostgreSQL with a log's tables, for all tests that need one with nothing else in it."""
    import clusters
    if clusters.missing():
        pytest.skip(f"a log in PostgreSQL: {' and '.join(clusters.missing())} missing")
    with clusters.clusters(settings="fsync = off") as (primary,):
        yield primary


@pytest.fixture
def log_engine(request):
    """Words for a server with another log than a file of its own."""
    if getattr(request, "param", "sqlite") == "sqlite":
        return lambda options: {}
    url = request.getfixturevalue("cluster").url()
    return lambda options: {"log": url, "options": [*options, "--board", f"{random.randrange(1 << 62):x}"]}


def certificates(folder):
    """Two certificates of this machine, each with its key."""
    if shutil.which("openssl") is None:
        pytest.skip("openssl is missing")
    for name in ("one", "two"):
        subprocess.run(["openssl", "req", "-x509", "-newkey", "ec", "-pkeyopt", "ec_paramgen_curve:P-256", "-nodes", "-keyout", f"{name}.key", "-out",
                        f"{name}.crt", "-days", "2", "-subj", f"/CN={name}", "-addext", "subjectAltName=IP:127.0.0.1"],
                       cwd=folder, check=True, capture_output=True)


@pytest.fixture
def board(tmp_path, log_engine):
    """Makes servers, and ends them."""
    made = []

    def make(*words, start=True, **more):
        folder = tmp_path / f"board-{len(made)}"
        folder.mkdir()
        more |= log_engine(more.get("options", ())) if "log" not in more else {}
        made.append(Server(folder, *words, **more))
        return made[-1].start() if start else made[-1]
    yield make
    for server in made:
        if server.process is not None and server.process.poll() is None:
            server.kill()
        if server.process is not None:
            server.clean()
            told = server.told()
            # PostgreSQL's own warnings may be told; those of a library are of a release that isn't known yet.
            assert "Traceback" not in told and not re.search(r"(?<!Postgres)Warning: ", told), told


@pytest.fixture(params=["a wrapper", "the last release"])
def before(request):
    """Words of the shell by which a server asks the last release's program: the very one, or this one in its place."""
    if request.param == "a wrapper":
        return LIKE_BEFORE
    if not BEFORE:
        pytest.skip("CDMSEQ_BEFORE, the path of the last release's program, isn't set")
    return f"PROGRAM={os.path.realpath(BEFORE)}"


@pytest.fixture(scope="session")
def chromium():
    """The one browser of a run."""
    import browser
    yield from browser.driven()


@pytest.fixture
def page(request, board):
    """Makes a page over a server; afterwards there is no error in its console, and it asked no other host."""
    import browser
    yield from browser.pages(request, board)


@pytest.fixture
def chance(request):
    """A seed of its own for each run, told where the test fails."""
    seed = int(os.environ.get("BOARD_SEED", random.randrange(1 << 32)))
    print(f"BOARD_SEED={seed}")
    return random.Random(seed)


def count(name, gate):
    """A count that a script can raise above the gate's."""
    return int(os.environ.get(name, gate))


def figure(text):
    """A figure for who asks for figures, with the load of the machine."""
    if os.environ.get("BOARD_FIGURES"):
        with open(os.environ["BOARD_FIGURES"], "a") as file:
            file.write(f"{text}; load of the machine {os.getloadavg()[0]:.1f}\n")
    print(text)
