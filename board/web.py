"""HTTP: requests in, answers out, and what is wrong."""
import asyncio
import contextlib
import re
import socket
import time
from collections import Counter
from collections.abc import Awaitable, Callable
from http.cookies import CookieError

from aiohttp import HttpVersion11, web

from board.answers import Answers
from board.audit import Audit
from board.callers import DESK, ENDS, Callers
from board.changing import Changing
from board.day import Day
from board.days import Days
from board.desks import READER, Desk
from board.events import Events, Stream
from board.files import Files
from board.guard import Guard
from board.health import Health
from board.log import Log
from board.questions import MOST_BODY, TYPES, Questions, body_of
from board.records import Records
from board.sending import has, problem_as_answer, tagged
from board.sequencer import Sequencer
from board.sessions import SESSION
from board.signing import Signing
from board.unsent import Unsent
from board.words import KEY, POSITION, Problem, lines_of, now_text, refuse, tell

AFTER_LIMIT = 2.0
# Requests of a desk, or of all who have none, that wait for a position: all of them go on at once when it comes.
MOST_AFTER = 256
SEND_LIMIT = 60.0
# What may be said once alone: of two, the next program on the way might read the other one.
ONCE = "Host Origin Authorization Idempotency-Key Cdm-Role Cdm-After Content-Length Transfer-Encoding Content-Type".split()
# What a balancer asks, by whatever name it knows the server.
OPEN = ("/health", "/ready")
STREAM = {"Content-Type": "text/event-stream", "Cache-Control": "no-store", "X-Accel-Buffering": "no"}
SAFE = {"X-Content-Type-Options": "nosniff", "Cache-Control": "no-cache", "Cross-Origin-Resource-Policy": "same-origin", "Server": "cdmboard"}
PARTS = ("text/javascript", "text/css")
Handler = Callable[[web.Request], Awaitable[web.StreamResponse]]


async def named(_: web.Request, response: web.StreamResponse) -> None:
    """Events, and what the library itself answers, say neither its version nor Python's."""
    response.headers["Server"] = SAFE["Server"]
    response.headers.setdefault("X-Content-Type-Options", SAFE["X-Content-Type-Options"])


class Board:
    """What the requests of one board share."""

    def __init__(self, callers: Callers, log: Log, day: Day, sequencer: Sequencer, answers: Answers, events: Events) -> None:
        self.callers = callers
        self.log = log
        self.day = day
        self.sequencer = sequencer
        self.answers = answers
        self.events = events
        self.audit = Audit(log)
        self.signing = Signing(callers, log, events, self.audit)
        self.records = Records(log, day, sequencer)
        self._files = Files()
        self._unsent = Unsent()
        self._requests = set["asyncio.Task[object]"]()
        self._waiting = Counter[str]()
        self.questions = Questions(log, sequencer.past, day, answers, self._unsent, callers.asker)
        self.changing = Changing(log, day, answers, self.records)
        self._days = Days(callers, day, sequencer.past, self.changing, self.questions)
        self.health = Health(log, day, answers, events, self.records, self._unsent)

    @web.middleware
    async def checked(self, request: web.Request, handler: Handler) -> web.StreamResponse:
        """Checks where a request comes from and who speaks, and waits for the position that it wants."""
        headers = request.headers
        is_framed_twice = "Transfer-Encoding" in headers and "Content-Length" in headers
        is_double = is_framed_twice or any(len(headers.getall(name, ())) > 1 for name in ONCE)
        refuse(is_double, 400, "the request can be read in two ways")
        host = headers.get("Host", "")
        after = headers.get("Cdm-After", "0")
        is_ours = re.sub(r":[0-9]*$", "", host).strip("[]").lower() in self.callers.names
        refuse(request.path not in OPEN and not is_ours, 421, "this server has another name (--name HOST adds one)")
        origin = f"{self.callers.scheme}://{host}"
        refuse(headers.get("Origin", origin) != origin, 403, "a page of another site speaks")
        if request.path.startswith("/v1/") and request.path != "/v1/session" or request.path == "/metrics":
            request[DESK] = self.callers.desk_of(request)
            if request[DESK].name and not self.callers.desks.is_open and isinstance(request.protocol, Guard):
                request.protocol.show()
        self._unsent.check_own(self.callers.asker(request))
        refuse(not POSITION.fullmatch(after), 400, "Cdm-After is a position")
        if request.path not in ("/v1/records", "/v1/session") or request.method in ("GET", "HEAD"):
            await self._reached(request.get(DESK, READER).name, int(after))
        return await handler(request)

    async def _reached(self, desk: str, position: int) -> None:
        """Waits until a position is here. Raises Problem if it isn't in time, or too many wait."""
        if position <= self.day.position:
            return
        refuse(self._waiting[desk] >= MOST_AFTER, 503, "too many requests wait for a position", Retry_After="1")
        self._waiting[desk] += 1
        try:
            with contextlib.suppress(TimeoutError, Problem):
                async with asyncio.timeout(AFTER_LIMIT):
                    await self.day.reached(position)
        finally:
            self._waiting[desk] -= 1
        refuse(position > self.day.position, 503, "this position isn't here yet", Retry_After="1")

    @web.middleware
    async def answered(self, request: web.Request, handler: Handler) -> web.StreamResponse:
        """Says what was raised, and sends the answer, if it is taken in time."""
        task = asyncio.current_task()
        assert task is not None
        # Neither the loop nor the library keeps the task of a request whose client is gone, and one that isn't kept may never end.
        self._requests.add(task)
        guard = request.protocol
        if isinstance(guard, Guard):
            guard.take()
        task.add_done_callback(self._requests.discard)
        try:
            if isinstance(guard, Guard) and self.callers.is_stranger(request):
                await guard.turn()
            response = await handler(request)
        except ConnectionError:
            raise
        except Exception as fault:
            response = self.told(request, fault)
        if not response.prepared:
            await self.send(request, response)
        return response

    async def send(self, request: web.Request, response: web.StreamResponse) -> None:
        """Sends an answer. Who doesn't take it in time is cut off."""
        if response.status in (400, 408, 413):
            response.force_close()
        kind = response.headers.get("Content-Type", "")
        own = "'none'; style-src 'unsafe-inline'" if kind == TYPES["svg"] else "'self'"
        kept = {"Cache-Control": response.headers.get("Cache-Control", SAFE["Cache-Control"])}
        response.headers.update(SAFE | kept)
        # The page's scripts and styles are no documents, which a policy is for.
        if not kind.startswith(PARTS):
            response.headers["Content-Security-Policy"] = f"default-src {own}; frame-ancestors 'self'"
        with self._unsent.of(self.callers.asker(request), response.content_length or 0):
            try:
                async with asyncio.timeout(SEND_LIMIT):
                    await response.prepare(request)
                    await response.write_eof()
            except (TimeoutError, ConnectionError) as gone:
                # The connection keeps what was raised, whose traceback would keep the answer.
                gone.with_traceback(None)
                if request.transport is not None:
                    request.transport.abort()

    def told(self, request: web.Request, fault: Exception) -> web.Response:
        """What was raised, as an answer."""
        problem = Problem(500, "a fault of the server")
        if isinstance(fault, Problem):
            problem = fault
        elif isinstance(fault, web.HTTPException):
            problem = Problem(fault.status, fault.reason, None, **{name: fault.headers[name] for name in fault.headers if name == "Allow"})
        elif isinstance(fault, web.RequestPayloadError | CookieError):
            problem = Problem(400, "the request is malformed")
        else:
            tell(f"cdmboard: {type(fault).__name__}: {fault}")
        if problem.status in (401, 403) and self.callers.count_refused(request):
            desk = request.get(DESK, READER).name
            address = ascii(self.callers.address(request))[1:-1]
            tell(f"{now_text()} {address} {desk or '-'} {request.path[:100]!a} {problem.status}", address=address,
                 desk=desk or None, path=request.path[:100], status=problem.status)
        return problem_as_answer(problem)

    async def who(self, request: web.Request) -> web.Response:
        """Who asks, and what it may send."""
        desk: Desk = request[DESK]
        kinds = [kind for kind, roles in self.day.kinds.roles.items() if desk.role in roles]
        return web.json_response({
            "desk": desk.name or None, "role": desk.role, "kinds": kinds, "flights": desk.flights, "clock": desk.clock is not None,
            "left": max(0, desk.records - self.day.count_of(desk.name)) if kinds else 0, "log": self.log.id,
            "day": self.day.date, "roles": sorted(self.callers.desks.by_name) if self.callers.desks.is_open else []})

    async def post_records(self, request: web.Request) -> web.Response:
        """The lines of the body are records of this desk."""
        lines = lines_of(await body_of(request))
        key = request.headers.get("Idempotency-Key")
        # Who lost the right while the body came speaks no more.
        desk = self.callers.desk_of(request)
        refuse(key is not None and not KEY.fullmatch(key), 400, "Idempotency-Key has 1 to 64 printable bytes")
        desk.check(lines, self.day.kinds)
        return web.Response(body=await self.records.take(desk, lines, key, self.callers.address(request)), content_type=TYPES["json"])

    async def get_events(self, request: web.Request) -> web.StreamResponse:
        """Server-sent events."""
        refuse(request.version < HttpVersion11, 505, "events come in chunks")
        self.events.check(request[DESK])
        self.callers.check_opened(request)
        guard = request.protocol
        transport = request.transport
        assert isinstance(guard, Guard)
        if transport is None:
            raise ConnectionResetError("the display is gone")
        transport.get_extra_info("socket").setsockopt(socket.SOL_SOCKET, socket.SO_SNDBUF, 1 << 18)
        is_packed = "gzip" in request.headers.get("Accept-Encoding", "")
        response = web.StreamResponse(headers=STREAM | ({"Content-Encoding": "gzip"} if is_packed else {}))
        await response.prepare(request)
        stream = Stream(request, request[DESK], transport, guard.lost, is_packed)
        # A browser that comes back sends both, of which the header is the newer one.
        self.events.open(stream, request.headers.get("Last-Event-ID") or request.query.get("since") or "")
        # Not longer than its cookie, nor than any; a display comes back by itself.
        seconds = min(SESSION, request.get(ENDS, float("inf")) - time.time())
        too_long = asyncio.get_running_loop().call_later(seconds, transport.abort)
        try:
            await stream.ended.wait()
        finally:
            too_long.cancel()
            self.events.streams.discard(stream)
        return response

    async def page(self, request: web.Request) -> web.StreamResponse:
        """A file of the page, compressed if that is taken."""
        named = request.match_info
        file = self._files.get(named["digest"], named["file"]) if "file" in named else self._files.index()
        is_packed = "gzip" in request.headers.get("Accept-Encoding", "")
        headers = file.headers | ({"ETag": tagged(file.tag, is_packed)} if file.tag else {})
        if file.tag and has(request, file.tag):
            return web.Response(status=304, headers=headers)
        response = web.Response(body=file.packed if is_packed else file.body, headers=headers)
        if is_packed:
            response.headers["Content-Encoding"] = "gzip"
        return response

    def application(self) -> web.Application:
        """All paths."""
        application = web.Application(middlewares=[self.answered, self.checked], client_max_size=MOST_BODY + 1)
        application.add_routes([
            web.post("/v1/records", self.post_records), *self.questions.routes(), *self._days.routes(),
            web.post("/v1/session", self.signing.sign_in), web.delete("/v1/session", self.signing.sign_out),
            web.get("/v1/who", self.who), web.get("/v1/events", self.get_events, allow_head=False),
            web.get("/health", self.health.health), web.get("/ready", self.health.ready), web.get("/metrics", self.health.metrics),
            web.get("/", self.page), web.get(r"/page-{digest:[0-9a-f]+}/{file:[A-Za-z0-9_-]+(\.[A-Za-z0-9_-]+)*}", self.page)])
        application.on_response_prepare.append(named)
        application.on_cleanup.append(lambda _: self.answers.close())
        return application
