"""What systemd is told, over a socket of its kind: when the board is ready, how it is, that it lives, and when it ends."""
import asyncio
import contextlib
import os
import re
import shutil
import signal
import socket
import subprocess
import sys
import threading
import time

import pytest
from conftest import FACTOR, ROOT, until

sys.path.insert(0, str(ROOT))
from board.notify import Notifier  # noqa: E402

UNIT = ROOT / "packaging" / "cdmseq-board@.service"


class Manager:
    """The socket of a service manager, and all that it is told. `look`: something that is noted when a message comes."""

    def __init__(self, folder, look=lambda: None):
        self.path, self.told, self.looks, self._look = str(folder / "notify"), [], [], look
        self._socket = socket.socket(socket.AF_UNIX, socket.SOCK_DGRAM)
        self._socket.bind(self.path)
        threading.Thread(target=self._read, daemon=True).start()

    def _read(self):
        with contextlib.suppress(OSError):
            while True:
                message = self._socket.recv(4096).decode("ascii")
                self.looks.append(self._look())
                self.told.append(dict(line.split("=", 1) for line in message.split("\n")))

    def first(self, name):
        """The number of the first message that has this, None if there is none."""
        return next((number for number, one in enumerate(self.told) if name in one), None)

    def status(self):
        """How the server is, as it last said."""
        return next((one["STATUS"] for one in reversed(self.told) if "STATUS" in one), None)

    def beats(self, seconds):
        """How often it is told within so long that the server lives."""
        before = len(self.told)
        time.sleep(seconds)
        return sum("WATCHDOG" in one for one in self.told[before:])


def by(manager, **more):
    return {"NOTIFY_SOCKET": manager.path, **more}


def test_it_is_ready_once_the_day_is_read(board, tmp_path):
    """Not while the program still reads the log."""
    read = tmp_path / "read"
    manager = Manager(tmp_path, read.exists)
    server = board(start=False, environment=by(manager))
    server.program(f'case $1 in plan) sleep 1; $PROGRAM "$@"; status=$?; touch {read}; exit $status;; esac')
    server.start()
    until(lambda: manager.first("READY") is not None)
    assert manager.looks[manager.first("READY")]
    assert manager.told[0] == {"STATUS": "Reads the log"} and not manager.looks[0]


def test_it_says_how_it_is_and_heals_by_itself(board, tmp_path):
    """A day that is read but takes nothing lives: it isn't to be killed while its sequencer is started again."""
    manager, started = Manager(tmp_path), tmp_path / "started"
    server = board(start=False, environment=by(manager, WATCHDOG_USEC="300000"))
    server.program(f"case $1 in serve) [ -e {started} ] && sleep 4; touch {started};; esac")
    server.start()
    server.post(["FLT,AB1,5"], Cdm_Role="AP")
    until(lambda: manager.status() == "Records get replies; position 1")
    os.kill(server.sequencers()[0], signal.SIGKILL)
    until(lambda: manager.status() == "Plans and questions are answered; records get no replies: the sequencer is being started")
    assert manager.beats(1) >= 2
    until(lambda: manager.status() == "Records get replies; position 1", 20)


def test_the_end_is_said_and_is_the_last(board, tmp_path):
    manager = Manager(tmp_path)
    server = board(environment=by(manager))
    until(lambda: manager.first("READY") is not None)
    assert server.end() == 0
    assert manager.told[-1] == {"STOPPING": "1", "STATUS": "Ends as soon as each record has its reply"}


def test_desks_that_are_read_again(board, tmp_path):
    """HUP: systemd knows by the time which reload it was."""
    manager = Manager(tmp_path)
    server = board({"ap": 'role = "AP"'}, environment=by(manager))
    before = time.monotonic_ns() // 1000
    server.process.send_signal(signal.SIGHUP)
    until(lambda: manager.first("RELOADING") is not None)
    number = manager.first("RELOADING")
    until(lambda: len(manager.told) > number + 1)
    assert before <= int(manager.told[number]["MONOTONIC_USEC"]) <= time.monotonic_ns() // 1000
    assert manager.told[number + 1] == {"READY": "1"}


def test_who_it_starts_does_not_speak_for_it(board, tmp_path):
    manager = Manager(tmp_path)
    server = board(start=False, environment=by(manager, WATCHDOG_USEC="3000000"))
    server.program(f"env > {tmp_path}/environment-$1")
    server.start()
    found = [path.read_text() for path in tmp_path.glob("environment-*")]
    assert len(found) >= 3
    for text in found:
        assert re.findall("^(?:NOTIFY|WATCHDOG)_.*", text, re.M) == []


@pytest.fixture
def notifier(tmp_path, monkeypatch):
    """A manager, and what speaks to it from this process."""
    manager = Manager(tmp_path)
    for name, said in by(manager, WATCHDOG_USEC="300000", WATCHDOG_PID=str(os.getpid())).items():
        monkeypatch.setenv(name, said)
    return manager, Notifier()


async def for_ever():
    await asyncio.Event().wait()


async def beside(notifier, vital, talk):
    """Has it speak of these tasks, while something is done."""
    tasks = [asyncio.create_task(part) for part in vital]
    tasks.append(asyncio.create_task(notifier.run(lambda: "well", list(tasks))))
    await talk(tasks)
    for task in tasks:
        task.cancel()
    await asyncio.gather(*tasks, return_exceptions=True)


def test_the_watchdog_is_fed_by_the_event_loop(notifier):
    """So a loop that hangs is seen, and one that goes on too."""
    manager, speaks = notifier

    async def talk(_):
        await asyncio.sleep(0.1)
        assert manager.told[-1] == {"READY": "1", "STATUS": "well", "WATCHDOG": "1"}
        assert manager.beats(1) == 0
        before = len(manager.told)
        await asyncio.sleep(0.5)
        assert len(manager.told) > before
    asyncio.run(beside(speaks, [for_ever(), for_ever()], talk))


@pytest.mark.parametrize("which", [0, 1])
def test_the_watchdog_is_fed_while_each_vital_part_lives(notifier, which):
    """One that was cancelled, for which nothing else ends the server."""
    manager, speaks = notifier

    async def talk(tasks):
        await asyncio.sleep(0.1)
        assert "WATCHDOG" in manager.told[-1]
        tasks[which].cancel()
        await asyncio.sleep(0.3)
        before = len(manager.told)
        await asyncio.sleep(0.5)
        assert manager.told[before:] and set(map(str, manager.told[before:])) == {"{'STATUS': 'A part of the server that never ends has ended'}"}
    asyncio.run(beside(speaks, [for_ever(), for_ever()], talk))


@pytest.mark.parametrize("name, said", [("WATCHDOG_PID", "1"), ("WATCHDOG_USEC", "0"), ("WATCHDOG_USEC", "soon")])
def test_a_watchdog_that_is_another_s_or_none(tmp_path, monkeypatch, name, said):
    manager = Manager(tmp_path)
    for one, value in (by(manager, WATCHDOG_USEC="300000") | {name: said}).items():
        monkeypatch.setenv(one, value)

    async def talk(_):
        await asyncio.sleep(0.3)
    asyncio.run(beside(Notifier(), [for_ever()], talk))
    assert manager.told[-1] == {"READY": "1", "STATUS": "well"}


def test_a_manager_that_reads_nothing_delays_nothing(tmp_path, monkeypatch):
    unread = socket.socket(socket.AF_UNIX, socket.SOCK_DGRAM)
    unread.bind(str(tmp_path / "unread"))
    monkeypatch.setenv("NOTIFY_SOCKET", str(tmp_path / "unread"))
    speaks = Notifier()
    told = threading.Thread(target=lambda: [speaks.reload(lambda: None) for _ in range(10_000)], daemon=True)
    told.start()
    told.join(10 * FACTOR)
    assert not told.is_alive()


PATCH = """
import asyncio, os, runpy
import board.{module} as module
run = module.{of}
async def until_told(self):
    running = asyncio.create_task(run(self))
    while not os.path.exists({flag!r}):
        await asyncio.sleep(0.05)
    running.cancel()
module.{of} = until_told
runpy.run_module("board", run_name="__main__")
"""


@pytest.mark.parametrize("module, of", [("sequencer", "Sequencer.run"), ("sqlite", "FileLog.ended")])
def test_a_server_without_a_vital_part_feeds_no_watchdog(board, tmp_path, module, of):
    """The sequencer, or what looks after the log, returns where it never does: the server goes on, and systemd hears that it shouldn't."""
    manager, flag = Manager(tmp_path), tmp_path / "flag"
    server = board(start=False, environment=by(manager, WATCHDOG_USEC="300000", PYTHONPATH=str(ROOT)))
    server.words = ["/usr/bin/python3", "-P", "-B", "-c", PATCH.format(module=module, of=of, flag=str(flag))]
    server.start()
    until(lambda: "WATCHDOG" in manager.told[-1])
    flag.touch()
    until(lambda: manager.told[-1] == {"STATUS": "A part of the server that never ends has ended"})
    assert manager.beats(1) == 0 and server.process.poll() is None


def test_systemd_accepts_the_unit(tmp_path):
    """With nothing to remark, though it remarks on a key that it doesn't know."""
    if shutil.which("systemd-analyze") is None:
        pytest.skip("test_systemd_accepts_the_unit: systemd-analyze is missing")
    unit = UNIT.read_text().replace("/usr/bin/cdmboard", "/bin/true")
    for name, text, told in (("east", unit, ""), ("west", unit.replace("OOMPolicy", "OOMPolcy"), "Unknown key 'OOMPolcy'")):
        path = tmp_path / f"cdmseq-board@{name}.service"
        path.write_text(text)
        ended = subprocess.run(["systemd-analyze", "verify", "--man=no", path], capture_output=True, text=True)
        assert ended.returncode == 0 and (told in ended.stderr if told else not ended.stderr + ended.stdout), ended.stderr


def test_the_unit_says_what_the_server_keeps():
    """It is told by the server, has a bound of memory, doesn't end with a question that is killed for it, and is tried again for ever, but
    not where the next start would end the same way."""
    found = dict(line.split("=", 1) for line in UNIT.read_text().splitlines() if re.match(r"[A-Za-z]+=", line))
    wanted = {"Type": "notify", "WatchdogSec": "30", "OOMPolicy": "continue", "MemoryMax": "4G", "Restart": "on-failure", "RestartSec": "2",
              "RestartPreventExitStatus": "2 3", "StartLimitIntervalSec": "0"}
    assert {name: found.get(name) for name in wanted} == wanted
    assert "NotifyAccess" not in found  # The main process alone speaks, as systemd has it by itself.


def test_the_unit_lets_questions_run():
    """Each is run by setpriv, which calls capset; the last filter says what is taken back of those before it."""
    from board.answers import LIMITED
    filters = re.findall("^SystemCallFilter=(.*)", UNIT.read_text(), re.M)
    assert LIMITED[0] == "/usr/bin/setpriv" and filters == ["@system-service", "~@privileged", "capset"]


def test_the_unit_changes_the_day():
    """At 03:00, unless a board's options, which come behind it, name another time, or none."""
    text = UNIT.read_text()
    assert text.index('\nEnvironment="DAY=--day-at 03:00"\n') < text.index("\nEnvironmentFile=-/etc/cdmseq/%i/options\n")
    start, = re.findall("^ExecStart=(.*)$", text, re.M)
    assert start.split()[-2:] == ["$DAY", "$OPTIONS"]
