"""./test calls each step in its order, whatever a step ends with, and counts them. Stand-ins record how they are called."""
import os
import pathlib
import pty
import re
import shutil
import signal
import subprocess
import sys
import time

import pytest
from conftest import ROOT, until

PROGRAM = "crates/cdm_main/out/cdm_main"
SCRIPTS = ["unproved", "compare", "odd_bytes", "streams", "refuse", "json_check", "journals", "faults", "kill", "questions", "package"]
WHOLE_RUNS = [f"{script} {PROGRAM}" for script in SCRIPTS]
WHOLE_RUNS[8:10] = [f"kill {PROGRAM} 40", f"questions {PROGRAM} README.md", f"questions {PROGRAM}"]
CALLS = ["rt ci", *WHOLE_RUNS, "test"]
# Records its call, and does what the file DOES/NAME says, if there is one; else two checks pass.
STAND_IN = """#!/bin/sh
name=${0##*/}
echo "$name${1:+ $*}" >> "$DOES/calls"
echo "$name $PWD ${CDMSEQ-} ${BOARD_PAGE_FACTOR-}" >> "$DOES/places"
[ "$name" = rt ] && [ ! -e "$DOES/unbuilt" ] && touch crates/cdm_main/out/cdm_main && chmod +x crates/cdm_main/out/cdm_main
[ -e "$DOES/$name" ] && . "$DOES/$name"
echo '2 passed, 0 failed'
"""


class Checkout:
    """A checkout whose steps are stand-ins."""

    def __init__(self, folder):
        self.home, self.does, tools = folder / "checkout", folder / "does", folder / "bin"
        (self.home / PROGRAM).parent.mkdir(parents=True)
        (self.home / "crates.txt").write_text("# The crates.\ncdm_time: std\ncdm_main: std cdm_time\n")
        shutil.copy(ROOT / "test", self.home)
        shutil.copytree(ROOT / "tools", self.home / "tools")
        self.does.mkdir()
        for place in [tools / "rt", tools / "dpkg-deb", self.home / "board/test", *(self.home / "cases" / script for script in SCRIPTS)]:
            place.parent.mkdir(exist_ok=True)
            place.write_text(STAND_IN)
            place.chmod(0o755)
        self.environment = {name: value for name, value in os.environ.items() if name not in ("CDMSEQ", "BOARD_PAGE_FACTOR")}
        self.environment |= {"PATH": f"{tools}:{os.environ['PATH']}", "DOES": str(self.does)}

    def start(self, *words, **more):
        """Starts it as a terminal does: Ctrl-C isn't ignored, though these tests may run in the background."""
        return subprocess.Popen([self.home / "test", *words], stdout=subprocess.PIPE, stderr=subprocess.PIPE, text=True,
                                env=self.environment | more, start_new_session=True,
                                preexec_fn=lambda: signal.signal(signal.SIGINT, signal.SIG_DFL))

    def run(self, *words, **more):
        """The status and what is printed, line by line, without the minutes of processor time."""
        with self.start(*words, **more) as ran:
            told, errors = ran.communicate(timeout=120)
        assert errors == ""
        return ran.returncode, told.replace(", 0 minutes of processor time", "").splitlines()

    def calls(self):
        return (self.does / "calls").read_text().splitlines() if (self.does / "calls").exists() else []


@pytest.fixture
def checkout(tmp_path):
    return Checkout(tmp_path)


def told_of(runs="2 passed, 0 failed", board="2 passed, 0 failed", **of_scripts):
    """The lines of the whole runs and of the board."""
    lines = [f"whole runs, {call.split()[0]}: {of_scripts.get(call.split()[0], runs)}" for call in WHOLE_RUNS]
    return [*lines, f"the board server: {board}", "in all 0 minutes of processor time"]


def test_each_step_is_called_in_its_order(checkout):
    assert checkout.run() == (0, ["proofs, edits and tests: 2 passed, 0 failed (ended with 0)", *told_of(), "28 passed, 0 failed"])
    assert checkout.calls() == CALLS
    places = [line.split(" ") for line in (checkout.does / "places").read_text().splitlines()]
    assert {place for _, place, *_ in places} == {str(checkout.home)}
    assert [more for _, _, *more in places] == [["", ""]] * 13 + [[PROGRAM, "4"]]


@pytest.mark.parametrize("factor, taken", [("9", "9"), ("", "4")])
def test_the_limits_of_time_can_be_named(checkout, factor, taken):
    checkout.run(BOARD_PAGE_FACTOR=factor)
    assert (checkout.does / "places").read_text().splitlines()[-1] == f"test {checkout.home} {PROGRAM} {taken}"


def test_the_package_is_tried_only_where_one_can_be_made(checkout):
    tools = checkout.home.parent / "bin"
    (tools / "dpkg-deb").unlink()
    (tools / "python3").symlink_to(sys.executable)
    for name in ("env", "sh", "touch", "chmod"):
        (tools / name).symlink_to(shutil.which(name))
    status, told = checkout.run(PATH=str(tools))
    assert (status, told[-1]) == (0, "26 passed, 0 failed")
    assert checkout.calls() == [call for call in CALLS if not call.startswith("package")]


@pytest.mark.parametrize("does, counts", [
    ("echo '7 passed, 3 failed'; exit 1", "7 passed, 3 failed"),
    ("echo '7 passed, 0 failed'; exit 4", "7 passed, 1 failed"),
    ("echo '7 passed, 3 failed'", "2 passed, 0 failed"),
    ("echo '7 passed, 3 failed'; exit", "7 passed, 3 failed"),
    ("exit 1", "0 passed, 1 failed"),
    ("kill -9 $$", "0 passed, 1 failed"),
])
def test_a_step_that_fails_is_counted_and_the_others_follow(checkout, does, counts):
    passed, failed = (int(word) for word in counts.split()[::2])
    end = f"{26 + passed} passed, {failed} failed"
    for name in ("streams", "test"):
        (checkout.does / name).write_text(f"echo of {name}\n{does}\n")
        lines = told_of(streams=counts) if name == "streams" else told_of(board=counts)
        counted = f"whole runs, streams: {counts}" if name == "streams" else f"the board server: {counts}"
        lines.insert(lines.index(counted), f"of {name}")
        begin = "proofs, edits and tests: 2 passed, 0 failed (ended with 0)"
        assert checkout.run() == (int(failed > 0), [begin, *lines, end])
        assert checkout.calls() == CALLS
        (checkout.does / name).unlink()
        (checkout.does / "calls").unlink()


@pytest.mark.parametrize("does, told, counts", [
    ("exit 1", "0 passed, 0 failed (ended with 1)", "26 passed, 1 failed"),
    ("echo '7 passed, 3 failed'; exit 2", "7 passed, 3 failed (ended with 2)", "33 passed, 3 failed"),
    ("kill -9 $$", "0 passed, 0 failed (ended with 137)", "26 passed, 1 failed"),
])
def test_what_was_built_is_run_though_a_proof_fails(checkout, does, told, counts):
    (checkout.does / "rt").write_text(f"echo 'rt: cdm_time proved'; echo error >&2; {does}\n")
    begin = ["rt: cdm_time proved", "error", f"proofs, edits and tests: {told}"]
    assert checkout.run() == (1, [*begin, *told_of(), counts]) and checkout.calls() == CALLS


def test_without_a_program_nothing_is_run(checkout):
    """Not even an earlier program, which is removed first."""
    (checkout.home / PROGRAM).touch(0o755)
    (checkout.does / "unbuilt").touch()
    lines = ["proofs, edits and tests: 2 passed, 0 failed (ended with 0)", "whole runs: there is no program"]
    assert checkout.run() == (1, [*lines, "in all 0 minutes of processor time", "2 passed, 1 failed"]) and checkout.calls() == ["rt ci"]


def test_lines_are_printed_as_they_are(checkout):
    (checkout.does / "rt").write_text("printf '\\351\\r\\n\\n1 passed, 0 failed \\nlast'; exit\n")
    (checkout.does / "kill").write_text("printf '\\351\\r\\n\\n1 passed, 0 failed\\n 1 passed, 0 failed\\nlast'; exit\n")
    told = subprocess.run(checkout.home / "test", env=checkout.environment, stdout=subprocess.PIPE, check=False).stdout
    assert told.startswith(b"\351\r\n\n1 passed, 0 failed \nlast\nproofs, edits and tests: 0 passed, 0 failed (ended with 0")
    assert b"\n\351\r\n\n 1 passed, 0 failed\nlast\nwhole runs, kill: 1 passed, 0 failed\n" in told


def test_a_terminal_shows_how_far_it_is(checkout):
    (checkout.does / "rt").write_text("echo 'rt: cdm_time proved'; echo 'rt: cdm_main is kept as it was'\n")
    ours, theirs = pty.openpty()
    with subprocess.Popen(checkout.home / "test", stdout=theirs, env=checkout.environment) as ran:
        os.close(theirs)
        told = b""
        while part := some_of(ours):
            told += part
    os.close(ours)
    far = [re.sub(r"\d+ min", "N min", line) for line in told.decode().splitlines() if line.startswith("test: ")]
    assert ran.returncode == 0 and far == [f"test: {step} of 15, N min gone, about N min left" for step in range(1, 16)]
    lines = told.decode().splitlines()
    assert lines[:2] == ["rt: cdm_time proved", far[0].replace("N min", "0 min")] and lines[-3].startswith("test: 15 of 15")


def some_of(terminal):
    """What the terminal shows next; nothing at its end, which Linux reports as an error."""
    try:
        return os.read(terminal, 4096)
    except OSError:
        return b""


@pytest.mark.parametrize("words", [["--help"], ["x"]])
def test_with_a_word_it_says_what_it_does(checkout, words):
    status, told = checkout.run(*words)
    assert status == 2 and told[0] == "Runs the tests, from nothing:" and checkout.calls() == []


@pytest.mark.parametrize("number", [signal.SIGINT, signal.SIGTERM])
@pytest.mark.parametrize("name", ["rt", "streams"])
def test_a_signal_ends_it_and_its_step(checkout, name, number):
    """Ctrl-C is sent to all processes of a terminal. No file is left."""
    temporary = checkout.home.parent / "temporary"
    temporary.mkdir()
    (checkout.does / name).write_text('echo $$ > "$DOES/step"; exec sleep 100\n')
    step = checkout.does / "step"
    with checkout.start(TMPDIR=str(temporary)) as ran:
        until(lambda: step.exists() and step.read_text(), 60)
        time.sleep(0.5)  # By then the script waits for the step.
        os.killpg(ran.pid, number) if number == signal.SIGINT else ran.send_signal(number)
        assert ran.wait(60) == -number
    until(lambda: not pathlib.Path("/proc", step.read_text().strip()).exists())
    assert list(temporary.iterdir()) == [] and checkout.calls() == CALLS[: 1 if name == "rt" else 5]
