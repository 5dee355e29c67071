"""How processes end: the status that a shell gives them, and what a script does when a signal ends it."""
import contextlib
import os
import signal
import subprocess
import sys
from collections.abc import Callable, Iterator
from typing import Any, NoReturn

SIGNALS = (signal.SIGINT, signal.SIGTERM, signal.SIGHUP)


class BySignal(BaseException):
    """A signal that ends the script."""

    def __init__(self, number: int) -> None:
        super().__init__(number)
        self.number = number


def status_of(ended: int) -> int:
    """The status that a shell gives a process which ended so: of one that a signal ended, 128 and the signal's number."""
    return ended if ended >= 0 else 128 - ended


@contextlib.contextmanager
def running(words: list[str], **how: Any) -> Iterator[subprocess.Popen[bytes]]:
    """A process, whose end is waited for. If a signal ends the script, it ends the process too; a terminal sends Ctrl-C to both."""
    with subprocess.Popen(words, **how) as process:
        try:
            yield process
        except BySignal as ending:
            if ending.number != signal.SIGINT:
                process.terminate()
            raise


def leave(number: int, _frame: object) -> None:
    """Leaves the script's blocks, so that what they made is removed and what they started has ended."""
    raise BySignal(number)


def run(main: Callable[[], int]) -> NoReturn:
    """Runs a script and ends with its status; or, after its blocks are left, by the signal that it got."""
    for number in SIGNALS:
        if signal.getsignal(number) != signal.SIG_IGN:
            signal.signal(number, leave)
    try:
        sys.exit(main())
    except BySignal as ending:
        signal.signal(ending.number, signal.SIG_DFL)
        os.kill(os.getpid(), ending.number)
    sys.exit(1)
