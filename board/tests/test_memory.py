"""Want of memory: a question that takes too much ends alone, by its own bound or by the system's choice."""
import contextlib
import pathlib
import secrets
import time

import pytest

MIB = 1 << 20
CONTROLLER = pathlib.Path("/sys/fs/cgroup/memory")
ALL, OWN = ("memory.limit_in_bytes", "memory.usage_in_bytes") if CONTROLLER.exists() else ("memory.max", "memory.current")


def takes(code):
    """Words of a shell: the question `why` is answered by this line of Python, all else by the program."""
    return f"case $1 in why) exec /usr/bin/python3 -S -c '{code}';; esac"


def goes_on(server, process):
    """The same server takes a record, and answers another question."""
    assert server.post(["FLT,AB2,5"], Cdm_Role="AP")[0]["reply"] == "ACCEPTED"
    assert server.get("/v1/plan").status == 200 and server.process.pid == process and server.process.poll() is None


def test_a_question_has_a_bound_of_its_own(board):
    """2 GiB of addresses."""
    server = board(start=False)
    server.program(takes("b = bytearray(3 << 30)"))
    process = server.start().process.pid
    answer = server.get("/v1/why/AB1")
    assert answer.status == 503 and answer.headers["Retry-After"]
    goes_on(server, process)


@pytest.fixture
def group():
    """A group of processes that has a bound of memory."""
    place = (CONTROLLER if CONTROLLER.exists() else CONTROLLER.parent) / f"cdmboard-{secrets.token_hex(4)}"
    try:
        place.mkdir()
    except OSError as fault:
        pytest.skip(f"a group with a bound of memory can't be made: {fault.strerror}")
    try:
        if not (place / ALL).exists():
            pytest.skip("no group here has a bound of memory")
        yield place
    finally:
        for _ in range(50):
            with contextlib.suppress(OSError):
                place.rmdir()
                break
            time.sleep(0.1)


def test_the_system_kills_a_question_and_not_the_server(group, board):
    """As under MemoryMax, where the server is the larger one, which the kernel would choose by itself."""
    server = board(start=False)
    server.program(takes("b = []\nwhile True: b.append(bytearray(1 << 20))"))
    process = server.start(f"echo $$ > {group}/cgroup.procs").process.pid
    assert server.memory() > 30
    (group / ALL).write_text(str(int((group / OWN).read_text()) + 20 * MIB))
    assert server.get("/v1/why/AB1").status == 503
    goes_on(server, process)
    assert "oom_kill 1" in (group / ("memory.oom_control" if CONTROLLER.exists() else "memory.events")).read_text()
