"""What processes cost and what they lack, for the scripts and tests that measure."""
import os
import pathlib
import re
import threading
import time
from typing import NamedTuple

TICKS = os.sysconf("SC_CLK_TCK")
PROC = pathlib.Path("/proc")


def family(roots):
    """These processes and all below them."""
    parents = {}
    for path in PROC.glob("[0-9]*/stat"):
        try:
            parents[int(path.parent.name)] = int(path.read_text().rpartition(")")[2].split()[1])
        except OSError:
            pass
    found, more = set(), set(roots)
    while more:
        found |= more
        more = {child for child, parent in parents.items() if parent in more} - found
    return found


def seconds_of(roots):
    """Seconds of processor time of these processes and all below them, ended ones too."""
    total = 0
    for process in family(roots):
        try:
            total += sum(map(int, (PROC / str(process) / "stat").read_text().rpartition(")")[2].split()[11:15]))
        except OSError:
            pass
    return total / TICKS


class Thread(NamedTuple):
    """A thread: the processor on which it was last, and milliseconds that it ran so far, and that it was ready and had no processor."""
    processor: int = 0
    ran: float = 0.0
    waited: float = 0.0


class Look(NamedTuple):
    """When it was, in milliseconds since 1970; the milliseconds that the machine's host had taken so far of each processor; and of each page the
    thread that runs it and the one that puts it together."""
    at: float
    stolen: dict[int, float]
    pages: dict[str, list[Thread]]


class Taken:
    """How long a browser's page was kept from its work: its thread was ready and had no processor, or the machine's host had taken the processor
    on which it was. What the host takes of other processors keeps others from their work. While it is entered it looks each ten milliseconds."""

    def __init__(self, root):
        self.root, self.looks = root, []
        self.ended, self.thread = threading.Event(), threading.Thread(target=self.go_on)

    def __enter__(self):
        self.thread.start()
        return self

    def __exit__(self, *_):
        self.ended.set()
        self.thread.join()

    def go_on(self):
        pages, listed = [], 0.0
        while not self.ended.wait(0.01):
            if time.monotonic() > listed + 0.2:
                pages, listed = list(pages_of(self.root)), time.monotonic()
            self.look(pages)

    def look(self, pages):
        self.looks.append(Look(time.time() * 1000, stolen(), {str(threads[0]): [now_of(thread) for thread in threads] for threads in pages}))

    def within(self, start, length, is_drawn=False):
        """Milliseconds that were taken in a span, up to a look more at each end, from the page, which is the one that ran longest; `is_drawn`:
        what the thread that puts it together was kept from counts too. The span's start is in milliseconds since 1970."""
        first = max((number for number, look in enumerate(self.looks) if look.at <= start), default=0)
        last = next((number for number, look in enumerate(self.looks) if look.at >= start + length), len(self.looks) - 1)
        looks = self.looks[first:last + 1]
        spans = [kept_from(looks, page, 2 if is_drawn else 1) for page in looks[-1].pages]
        return min(length, max(spans, default=(0.0, 0.0))[1])


def kept_from(looks, page, count):
    """Milliseconds that a page's own thread ran, and that the first `count` of its threads were kept from their work. A processor's are those of a
    thread only where that ran or waited meanwhile: else it had nothing to do."""
    ran = lost = 0.0
    for before, after in zip(looks, looks[1:]):
        now = after.pages.get(page, [])
        steps = list(zip(before.pages.get(page, now), now))[:count]
        ran += sum(there.ran - was.ran for was, there in steps[:1])
        lost += sum(there.waited - was.waited for was, there in steps)
        at_work = {there.processor for was, there in steps if (there.ran, there.waited) != (was.ran, was.waited)}
        lost += sum(after.stolen.get(number, 0.0) - before.stolen.get(number, 0.0) for number in at_work)
    return ran, lost


def pages_of(root):
    """The threads of each process that runs a browser's page: its own, and the one that puts the page together."""
    for process in family([root]):
        folder = PROC / str(process)
        try:
            if b"--type=renderer" in (folder / "cmdline").read_bytes():
                names = {(path / "comm").read_text().strip(): path for path in (folder / "task").iterdir()}
                yield folder / "task" / str(process), names.get("Compositor", folder / "none")
        except OSError:
            pass


def now_of(thread):
    """What a thread's folder says of it now; nothing if it has ended."""
    try:
        ran, waited, _ = (thread / "schedstat").read_text().split()
        return Thread(int((thread / "stat").read_text().rpartition(")")[2].split()[36]), int(ran) / 1e6, int(waited) / 1e6)
    except OSError:
        return Thread()


def stolen():
    """Milliseconds that the machine's host took so far of each processor, by its number."""
    lines = [line.split() for line in (PROC / "stat").read_text().splitlines() if re.match("cpu[0-9]", line)]
    return {int(words[0][3:]): int(words[8]) * 1000 / TICKS for words in lines}


def part(times, which):
    """The time in ms within which this part of them is."""
    return f"{1000 * sorted(times)[min(len(times) - 1, int(len(times) * which))]:.0f}" if times else "-"
