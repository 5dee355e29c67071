"""The log's machines under many schedules, and the simulator itself: a fault that is put back is found."""
import concurrent.futures
import pathlib
import sys
import types

import pytest
import simulator_log
from conftest import ROOT, count, figure

SCHEDULES = 20_000
# The fault; the module's words, and what stood or would stand there instead; a seed that finds it, and the law that doesn't hold then.
FAULTS = [
    ("a batch whose desk is gone is committed later", "writer.py",
     "        self._waiting.pop(ticket, None)\n        self._alone.pop(ticket, None)\n        return self._is_late(ticket)",
     "        return self._is_late(ticket)", 0, "never comes later"),
    ("a refused batch takes the others of its transaction along", "writer.py", "if len(running) == 1:", "if True:", 0, "takes nothing else along"),
    ("a refused batch takes the link along", "writer.py", "        if outcome is Outcome.REFUSED:\n", "        if False:\n", 0, "along"),
    ("a batch that waited in a refused transaction waits again", "writer.py", "if ticket not in late}", "}", 185, "never taken"),
    ("an unknown commit is told as none", "writer.py",
     "said = Problem(504, NOT_KNOWN) if outcome is Outcome.UNKNOWN else nothing(why)", "said = nothing(why)", 0, "isn't in the log"),
    ("a commit that hangs keeps its desks waiting", "writer.py",
     "running = self._running\n        self._running = {}\n        self._is_overdue = True", "running, self._is_overdue = {}, True", 1, "in time"),
    ("a transaction begins while one hangs", "writer.py",
     "running = self._running\n        self._running = {}\n        self._is_overdue = True", "running, self._running, self._is_overdue = self._running, None, True", 11, "along"),
    ("waiting batches without bound", "writer.py", "if self.waiting + len(self._running or {}) >= MOST_WAITING:", "if False:", 1, "no bound"),
    ("a refused transaction's batches wait beyond the bound", "writer.py", "if self.waiting + len(self._running or {}) >= MOST_WAITING:",
     "if self.waiting >= MOST_WAITING:", 30890, "no bound"),
    ("a database of the past is used", "following.py", "return timeline < self.timeline", "return False", 0, "of the past"),
    ("the last row isn't compared", "following.py",
     "self._is_other = self._is_other or self.last is not None and seen.last != self.last", "pass", 0, "one day"),
    ("the last row is compared without its time", "following.py", "seen.last != self.last",
     'self.last._replace(at="") != (seen.last and seen.last._replace(at=""))', 5114367, "one day"),
    ("a reply to another record is kept", "life.py",
     'if not self._due or reply.get("record") != self._replies:', "if not self._due:", 33, "one day"),
    ("a reply with another count is kept", "life.py", "if number == self._accepted + 1:", "if number:", 509, "one day"),
    ("a batch waits while a commit hangs", "writer.py",
     "        return [*self._told(running, Problem(504, NOT_KNOWN)), *self._close(why)]\n\n    def lost",
     "        return self._told(running, Problem(504, NOT_KNOWN))\n\n    def lost", 1, "503 while"),
    ("a batch is taken while an earlier commit waits", "following.py",
     "if not self._is_linked or self._is_committing:", "if not self._is_linked:", 2, "503 while"),
    ("a batch that was never given to the log is told as not known", "writer.py",
     "        return self._told(waiting, nothing(why))", "        return self._told(waiting, Problem(504, NOT_KNOWN))", 0, "504 only"),
    ("a change of day goes with others", "writer.py", "(self._waiting if batch.change is None else self._alone)", "self._waiting", 26, "goes alone"),
    ("a batch that waited for as long as it may waits on", "writer.py",
     "        if self._waiting.pop(ticket, None) or self._alone.pop(ticket, None):\n            return [Answer(ticket, nothing(LATE))]\n", "", 84, "in time"),
    ("a transaction without bound", "writer.py", "(self._waiting, MOST_TOGETHER)", "(self._waiting, 10 ** 9)", 61, "no bound"),
]


def edited(name, old, new):
    """The module with an edit."""
    path = ROOT / "board" / name
    text = path.read_text()
    assert text.count(old) == 1, (name, old)
    module = types.ModuleType(f"board.{pathlib.Path(name).stem}_edited")
    sys.modules[module.__name__] = module
    exec(compile(text.replace(old, new), str(path), "exec"), module.__dict__)
    return module


# What the simulator calls each module.
CALLED = {"writer.py": "machine", "following.py": "following", "life.py": "life"}


def rows_of(seeds):
    return sum(simulator_log.simulate(seed) for seed in seeds)


def test_the_laws_hold_under_many_schedules():
    """In two processes; a law that doesn't hold names its seed."""
    schedules, part = count("BOARD_LOG_SCHEDULES", SCHEDULES), 500
    parts = [range(first, min(first + part, schedules)) for first in range(0, schedules, part)]
    with concurrent.futures.ProcessPoolExecutor(2) as pool:
        rows = sum(pool.map(rows_of, parts))
    assert sum(map(len, parts)) == schedules >= SCHEDULES and rows > 10 * schedules
    figure(f"Simulator: {schedules} schedules of the log, {rows} records")


@pytest.mark.parametrize("fault", FAULTS, ids=lambda fault: fault[0])
def test_a_fault_that_is_put_back_is_found(fault):
    _, name, old, new, seed, law = fault
    with pytest.raises(simulator_log.Broken, match=law):
        simulator_log.simulate(seed, **{CALLED[name]: edited(name, old, new)})
