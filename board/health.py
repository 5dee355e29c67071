"""Whether the board is well: for balancers, for who must know that a desk can speak, and for Prometheus."""
import time
from datetime import datetime

import prometheus_client as prometheus
from aiohttp import web

from board import metrics
from board.answers import Answers
from board.day import Day
from board.events import Events
from board.log import Log
from board.records import Records
from board.unsent import Unsent


class Health:
    """What is asked of the server itself."""

    def __init__(self, log: Log, day: Day, answers: Answers, events: Events, records: Records, unsent: Unsent) -> None:
        self._log = log
        self._day = day
        self._sequencer = records.sequencer
        self._answers = answers
        self._events = events
        self._records = records
        self._unsent = unsent

    async def health(self, request: web.Request) -> web.Response:
        """200 while plans and questions are answered."""
        is_well = not self._records.is_closing and not self._answers.is_stuck()
        told = {"ready": self._sequencer.is_ready.is_set(), "accepted": len(self._day.lines), "position": self._day.position,
                "taking": not self._records.why_not(), "stale_since": self._log.stale_since}
        return web.json_response(told, status=200 if is_well else 503)

    def words(self) -> str:
        """How the server is, in one line for who looks after its service."""
        if self._answers.is_stuck():
            return "Questions get no answers: a run of the program doesn't end"
        if why := self._records.why_not():
            return f"Plans and questions are answered; records get no replies: {why}"
        return f"Records get replies; position {self._day.position}"

    async def ready(self, request: web.Request) -> web.Response:
        """200 only while records get replies; else why not."""
        why = self._records.why_not()
        return web.json_response({"taking": not why, "why": why or None}, status=503 if why else 200)

    async def metrics(self, request: web.Request) -> web.Response:
        """What to watch, for Prometheus."""
        metrics.DISPLAYS.set(len(self._events.streams))
        metrics.ACCEPTED.set(len(self._day.lines))
        metrics.LAST_POSITION.set(self._day.position)
        metrics.OF_DAY.set(len(self._day.records))
        metrics.RESTARTS.set(self._sequencer.starts - 1)
        metrics.NOW.set(self._clock())
        metrics.TAKING.set(not self._records.why_not())
        metrics.WAITING.set(self._records.waiting())
        metrics.LOG_READ.set(max(0.0, time.monotonic() - self._log.read_at))
        metrics.LOG_AWAY.set(self._away())
        metrics.UNSENT.set(self._unsent.total())
        return web.Response(body=prometheus.generate_latest(), headers={"Content-Type": prometheus.CONTENT_TYPE_LATEST})

    def _clock(self) -> float:
        """The last CLOCK that was accepted, in seconds since 1970; 0 if there is none."""
        return datetime.fromisoformat(self._day.clock).timestamp() if self._day.clock else 0.0

    def _away(self) -> float:
        """For how many seconds the log has been away."""
        since = self._log.stale_since
        return 0.0 if since is None else max(0.0, time.time() - datetime.fromisoformat(since).timestamp())
