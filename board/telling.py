"""What the server says of itself: lines on standard error, written by a thread of their own, so that whoever reads them, slowly
or not at all, delays no answer."""
import copy
import json
import logging
import logging.handlers
import os
import queue
import threading
import time

import prometheus_client as prometheus

MOST_LINES_WAITING = 1000
LAST_LINES = 2.0  # Seconds that the end of the server waits for the lines that aren't written yet.
FORM = "CDMBOARD_LOG"
STANDARD_ERROR = 2
DROPPED = prometheus.Counter("cdm_dropped_lines", "Lines that nobody read on standard error in time")


class Waiting(logging.handlers.QueueHandler):
    """Puts each line into the queue. A line for which there is no room is counted and dropped."""

    def __init__(self, lines: "queue.Queue[logging.LogRecord | None]") -> None:
        super().__init__(lines)
        self.dropped = 0

    def enqueue(self, record: logging.LogRecord) -> None:
        try:
            self.queue.put_nowait(record)
        except queue.Full:
            self.dropped += 1
            DROPPED.inc()


class Written(logging.Handler):
    """Writes each line to standard error, without a buffer or a lock of Python's own. A line that can't be written is lost."""

    def __init__(self, waiting: Waiting) -> None:
        super().__init__()
        self._waiting = waiting
        self._said = 0

    def createLock(self) -> None:
        """None: one thread alone writes, and the end of the program doesn't wait for it."""
        self.lock = None

    def emit(self, record: logging.LogRecord) -> None:
        self._write(self.format(record))
        dropped = self._waiting.dropped - self._said
        if dropped:
            self._said += dropped
            notice = copy.copy(record)
            notice.msg = notice.message = f"cdmboard: {dropped} lines were dropped: standard error was read too slowly"
            notice.fields = {}
            self._write(self.format(notice))

    def handle(self, record: logging.LogRecord) -> bool:
        """A later Python's own method doesn't do without a lock."""
        self.emit(record)
        return True

    def _write(self, text: str) -> None:
        left = f"{text}\n".encode("utf-8", "backslashreplace")
        try:
            while left:
                left = left[os.write(STANDARD_ERROR, left):]
        except OSError:
            pass


class Json(logging.Formatter):
    """A line as one object of JSON: `at`, `level`, `text`, and what else is known of it."""

    def format(self, record: logging.LogRecord) -> str:
        at = time.strftime("%Y-%m-%dT%H:%M:%S", time.gmtime(record.created)) + f".{int(record.msecs):03}Z"
        told = {"at": at, "level": record.levelname, "text": record.getMessage()}
        return json.dumps(told | getattr(record, "fields", {}))


class Listener(logging.handlers.QueueListener):
    """The thread. Its end is a line as well, which waits for room."""

    def enqueue_sentinel(self) -> None:
        self.queue.put(None)


class Teller:
    """All lines of a server, from its start to its end."""

    def __init__(self) -> None:
        self._lines: queue.Queue[logging.LogRecord | None] = queue.Queue(MOST_LINES_WAITING)
        self._waiting = Waiting(self._lines)
        written = Written(self._waiting)
        if os.environ.get(FORM) == "json":
            written.setFormatter(Json())
        self._listener = Listener(self._lines, written)

    def start(self) -> None:
        """From now on each line of `tell`, and of the libraries, is written by the thread."""
        logging.getLogger().addHandler(self._waiting)
        # Of malformed requests it would tell a traceback each; faults of the server's own are told by it.
        logging.getLogger("aiohttp").setLevel(logging.CRITICAL)
        self._listener.start()

    def stop(self) -> None:
        """Waits until all lines are written, but no longer than LAST_LINES."""
        logging.getLogger().removeHandler(self._waiting)
        end = threading.Thread(target=self._listener.stop, daemon=True)
        end.start()
        end.join(LAST_LINES)
