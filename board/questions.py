"""Questions over HTTP: the program's commands as paths, the log, and the day's files. Each answer is of one moment."""
import asyncio
import contextlib
import json
import re
from collections.abc import Callable

from aiohttp import web

from board.answers import Answer, Answers, Question
from board.callers import DESK
from board.day import Day
from board.desks import READER, Desk
from board.log import Log
from board.past import Past
from board.places import NAMELESS
from board.sending import pack
from board.unsent import Unsent
from board.words import POSITION, Problem, refuse

MOST_FOUND_BYTES = 1 << 20
MOST_BODY = 64 << 10
TOO_LARGE = f"a body has at most {MOST_BODY >> 10} KiB"
BODY_LIMIT = 20.0
TYPES = {"": "text/plain", "csv": "text/csv", "json": "application/x-ndjson", "svg": "image/svg+xml"}
# The program's commands as paths. Those that want a scenario are asked by POST alone, in a format by Accept.
JSON = r"{form:(\.json)?}"
PATHS = (r"{command:plan}{form:(\.csv|\.json)?}", r"{command:picture}{form:\.svg}", "{command:(load|next|warnings|causes)}" + JSON,
         "{command:load}/{name:[A-Z0-9]{1,3}}" + JSON, "{command:why}/{name:[A-Z0-9]{1,7}}" + JSON)
# Only over the day as it is: each of its answers is of many what-ifs.
BY_GET = ("{command:options}/{name:[A-Z0-9]{1,7}}" + JSON,)
BY_POST = ("{command:what-if}", "{command:check}", "{command:compare}", "{command:compare}/{name:[A-Z0-9][A-Z0-9-]{0,15}}")
# Arguments of a path, and the options of the program that they are. A role is one of `options` alone: other questions ignore it.
ARGUMENTS: dict[str, tuple[str, ...]] = {"minutes": (), "by": ("--by",), "scenario": ("--scenario",)}
OF_OPTIONS: dict[str, tuple[str, ...]] = {"role": ("--role",)}
ARGUMENT = re.compile("[A-Za-z0-9][A-Za-z0-9-]{0,15}")
# What the program says of what isn't there: also of a flight that isn't planned any more.
UNKNOWN = re.compile("cdmseq: (no (flight|runway|scenario) |[A-Z0-9]{1,7} is (off-block|airborne|cancelled)$)")
# What a run's status is over HTTP; 503 for any other.
STATUSES = {2: 400, 3: 422, 422: 422, 500: 500, 504: 504}
# Statuses of a run that is an answer. To `check` a refused record is one.
ANSWERED = {"check": (0, 4)}


async def body_of(request: web.Request) -> bytes:
    """A body, if it comes in time, as it stands. Raises Problem."""
    is_coded = "Content-Encoding" in request.headers or "Upgrade" in request.headers
    refuse(is_coded, 400, "a body is sent as it is, without Content-Encoding or Upgrade")
    try:
        async with asyncio.timeout(BODY_LIMIT):
            body = await request.read()
    except TimeoutError:
        raise Problem(408, "the body took too long") from None
    except web.HTTPRequestEntityTooLarge:
        raise Problem(413, TOO_LARGE) from None
    # A later aiohttp takes one byte more than an earlier one.
    refuse(len(body) > MOST_BODY, 413, TOO_LARGE)
    return body


class Questions:
    """What is read of a day. `asker`: who asks, for what each may have."""

    def __init__(self, log: Log, past: Past, day: Day, answers: Answers, unsent: Unsent, asker: Callable[[web.Request], str]) -> None:
        self._log = log
        self._past = past
        self._day = day
        self._answers = answers
        self._unsent = unsent
        self._asker = asker

    def routes(self) -> list[web.RouteDef]:
        """All paths."""
        return [web.get("/v1/records", self.get_records), web.get(r"/v1/records/{position:[0-9]{1,9}}/sentence", self.sentence),
                web.get("/v1/kinds", self.file), web.get("/v1/airport.csv", self.file), web.get("/v1/journal.csv", self.journal),
                *(web.get(f"/v1/{path}", self.question) for path in (*PATHS, *BY_GET)),
                *(web.post(f"/v1/{path}", self.question) for path in (*PATHS, *BY_POST))]

    async def get_records(self, request: web.Request) -> web.Response:
        """The log, or a day of it, with the replies."""
        since = request.query.get("since", "0")
        which = (request.query.get("flight"), request.query.get("desk"))
        refuse(not POSITION.fullmatch(since), 400, "since is a position")
        async with self._answers.turn(("log", self._together(request))):
            if "day" in request.query:
                day = await self._of_date(request, request.query["day"])
                found = day.found(int(since), *which)
            else:
                async with self._turn(request, int(since) + 1):
                    day, found = await self._past.found(int(since), *which)
            return await self.of_moment(request, self._day.position, "json", day.texts(found, MOST_FOUND_BYTES))

    async def sentence(self, request: web.Request) -> web.Response:
        """Why a record is refused, in words: what `check` says of it behind the records accepted before."""
        position = int(request.match_info["position"])
        now = self._day.position
        async with self._turn(request, position):
            day = await self._past.of_position(position)
        record = next(iter(day.of(position, position)), None)
        if record is None or record.word is None:
            raise Problem(404, "no refused record stands there")
        base = None if day is self._day else day.change.position
        question = Question("check", ("--format", "json"), None, record.accepted, f"{record.role},{record.line}\n", base)
        _, ran = await self._answers.ask(self._asker(request), question, _is_tower(request))
        if base is None and position < self._day.first:
            # Its day has ended meanwhile.
            return await self.sentence(request)
        found = [json.loads(line) for line in ran.output.splitlines() if ran.status in (0, 4)]
        sentence = next((one["sentence"] for one in found if one.get("record") == record.accepted + 1), None)
        refuse(sentence is None, 504 if ran.status == 504 else 503, ran.told or "the program says nothing of it")
        return await self.of_moment(request, now, "", f"{record.word}: {sentence}\n".encode())

    async def question(self, request: web.Request) -> web.StreamResponse:
        """A command of the program over the day as it stands, or over a scenario."""
        found = request.match_info
        is_post = request.method == "POST"
        command = found["command"].replace("what-if", "plan")
        form = found.get("form", "")[1:]
        words = [found["name"]] if "name" in found else []
        if is_post:
            forms = ("csv", "json") if command in ("plan", "compare") else ("json",)
            form = form or next((form for form in forms if form in request.headers.get("Accept", "")), "")
            words = ["scenarios.csv", *words] if command == "compare" else [*words, "--scenarios", "scenarios.csv"]
        for name, option in (OF_OPTIONS if command == "options" else ARGUMENTS).items():
            said = request.query.get(name, "0")
            refuse(not ARGUMENT.fullmatch(said), 400, f"{name} isn't well-formed")
            words += [*option, said] if name in request.query else []
        words += ["--format", form] if form in ("csv", "json") else []
        scenarios = await body_of(request) if is_post else None
        day, now, ran = await self._answered(request, Question(command, tuple(words), scenarios))
        status = 404 if UNKNOWN.match(ran.told) else STATUSES.get(ran.status, 503)
        again = {"Retry_After": "5"} if status == 503 else {}
        refuse(ran.status not in ANSWERED.get(command, (0,)), status, ran.told or "the program ended", None, **again)
        return await self.of_moment(request, now, form, ran.output, day)

    async def _answered(self, request: web.Request, question: Question) -> tuple[Day, int, Answer]:
        """The answer to a question about the day that is said, or about the present one. Raises Problem."""
        said = request.query.get("day")
        while True:
            day = self._day if said is None else await self._of_date(request, said)
            asked = question._replace(base=None if day is self._day else day.change.position)
            now, ran = await self._answers.ask(self._asker(request), asked, _is_tower(request))
            # The present day may have ended meanwhile.
            if said in (None, day.date):
                return day, now, ran

    async def _of_date(self, request: web.Request, said: str) -> Day:
        """The day of a date. Raises Problem."""
        async with self._turn(request, self._day.first if said == self._day.date else 0):
            return await self._past.of_date(said)

    def _turn(self, request: web.Request, first: int) -> contextlib.AbstractAsyncContextManager[None]:
        """The turn of a desk to have an earlier day read, if the first position that is asked for is of one."""
        return self._answers.turn(("day", self._together(request))) if first < self._day.first else contextlib.nullcontext()

    def _together(self, request: web.Request) -> str:
        """Whose turn it is: a desk's, or that of all who have no desk, however many addresses they have."""
        asker = self._asker(request)
        return NAMELESS if asker.startswith(NAMELESS) else asker

    async def file(self, request: web.Request) -> web.Response:
        """The table of kinds, or the airport file."""
        text, form = (self._day.kinds.text, "json") if request.path == "/v1/kinds" else (self._day.change.airport, "csv")
        return web.Response(body=text, content_type=TYPES[form])

    async def journal(self, request: web.Request) -> web.Response:
        """The accepted records of a day as a feed."""
        async with self._answers.turn(("log", self._together(request))):
            day = await self._of_date(request, request.query.get("day", self._day.date))
            return await self.of_moment(request, day.position, "csv", day.feed().encode(), day)

    def tags(self, position: int, day: Day | None = None) -> dict[str, str]:
        """The headers that say of which moment of a day an answer is."""
        stale = {"Cdm-Stale-Since": self._log.stale_since} if self._log.stale_since else {}
        day = day or self._day
        return {"Cdm-Position": str(position), "Cdm-At": day.at(position), "ETag": f'"{self._log.id}.{day.past(position)}-{position}"',
                "Vary": "Accept, Accept-Encoding", **stale}

    async def of_moment(self, request: web.Request, position: int, form: str, body: bytes, day: Day | None = None) -> web.Response:
        """An answer about a day, the present one if none is said, at one moment, which may be had already. Raises Problem."""
        headers = self.tags(position, day) | {"Content-Type": TYPES[form]}
        response = await pack(request, body, headers, position > self._day.doubtful)
        self._unsent.check(self._asker(request), response.content_length or 0, _is_tower(request))
        return response


def _is_tower(request: web.Request) -> bool:
    desk: Desk = request.get(DESK, READER)
    return desk.role == "ATC"
